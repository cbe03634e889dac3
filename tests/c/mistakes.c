/* Mistakes that were easy to make with version 1 of the header, and a call as version 3 had it. Compiled with the name of one, it must not
 * compile; without any it does, and runs: tests/mistakes.test. */
#undef NDEBUG
#include <assert.h>
#include <floor.h>

static struct floor_desk the_desk;
static struct floor_report report;

static const struct floor_making settings =
#ifdef SIX_NUMBERS_IN_BRACES
    {1, 200, 2, 2, 2, 30};
#else
    {.ssrc = 1, .level = 200, .limit = 2, .c7 = 2, .c20 = 2, .duration = 30};
#endif

static void make(struct floor_desk *desk)
{
#if defined SIX_BARE_NUMBERS
    assert(floor_desk_make(desk, 1, 200, 2, 2, 2, 30) == 0);
#elif defined SIX_NUMBERS_ON_OCTETS
    assert(floor_make(desk->octets, sizeof desk->octets, 1, 200, 2, 2, 2, 30) == 0);
#else
    assert(floor_desk_make(desk, &settings) == 0);
#endif
}

static void start(struct floor_desk *desk)
{
#if defined SIZEOF_A_POINTER
    assert(floor_desk_start(desk, sizeof desk, &report, sizeof report) == 0);
#elif defined SIZEOF_A_POINTER_ON_OCTETS
    assert(floor_start(desk, sizeof desk, (uint8_t *)&report, sizeof report) == 0);
#elif defined ANSWER_IGNORED
    floor_desk_start(desk, &report);
#elif defined ANSWER_IGNORED_ON_OCTETS
    floor_start(desk->octets, sizeof desk->octets, (uint8_t *)&report, sizeof report);
#else
    assert(floor_desk_start(desk, &report) == 0);
#endif
}

static int seat_of_holder(const struct floor_desk *desk)
{
#ifdef HOLDER_DIVIDED
    return floor_desk_holder(desk) / 256;
#else
    return floor_desk_holder(desk).seat;
#endif
}

static int is_taken(const struct floor_desk *desk)
{
#ifdef PHASE_COMPARED_WITH_A_TYPE
    return floor_desk_phase(desk) == FLOOR_TYPE_TAKEN;
#else
    return floor_desk_phase(desk) == FLOOR_PHASE_TAKEN;
#endif
}

static const char *phase_in_words(const struct floor_desk *desk)
{
    switch (floor_desk_phase(desk)) {
    case FLOOR_PHASE_STOPPED: return "stopped";
    case FLOOR_PHASE_IDLE: return "idle";
    case FLOOR_PHASE_TAKEN: return "taken";
    case FLOOR_PHASE_REVOKING: return "revoking";
#ifndef PHASE_FORGOTTEN
    case FLOOR_PHASE_NOT_A_DESK: break;
#endif
    }
    return "no desk";
}

static int receives(const struct floor_desk *desk)
{
#ifdef ROOM_OF_THE_OLD_NAME
    uint8_t packet[FLOOR_PACKET] = {0};
#else
    uint8_t packet[FLOOR_PACKET_IN + 1] = {0};
#endif
    struct floor_desk copy = *desk;
    struct floor_report other;
    return floor_desk_packet(&copy, packet, sizeof packet, &other);
}

/* A server that does not look at the answer, but sends what the report says: after a refusal it sends nothing. */
static int sends(const struct floor_desk *desk)
{
    struct floor_packet_out packet;
    int sent = 0;
    for (uint32_t which = 0; which < 2; which++)
        sent += floor_desk_message(desk, &report, which, &packet) > 0;
    return sent;
}

int main(void)
{
    make(&the_desk);
    start(&the_desk);
    assert(sends(&the_desk) == 1);
    assert(floor_desk_start(&the_desk, &report) < 0 && sends(&the_desk) == 0);
    assert(seat_of_holder(&the_desk) < 0 && !is_taken(&the_desk) && phase_in_words(&the_desk)[0] == 'i');
    assert(receives(&the_desk) == FLOOR_REFUSAL_TOO_LONG);
    return 0;
}
