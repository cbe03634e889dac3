/* What the library makes of octets that are no desk's, and of desks that no step left but that are in the form (docs/FORMS.md).
 *
 * Named damages first, one for each thing that the page says of the form. Then every normal level, and every bit of several desks: the verdict
 * is the one that bench/plain.c gives; where it is 20, every function answers so and changes nothing; where it is not, every step does what
 * plain.c does, octet for octet, and leaves a desk. */
#include "scene.h"
#include "desks.h"
#include "../../bench/plain.h"
#include <string.h>

#define COUNT(array) (sizeof array / sizeof *array)

/* ---- Named damages ---- */

struct damage {
    int desk;       /* Thursday's, before this event */
    int edits[6];   /* place, octet, place, octet, ..; place 0 ends them, but for the first */
    const char *why;
};

enum { PHASE = 4, TIMERS = 5, HOLDER = 6, GIVEN_AT = 7, CAUSE = 8, SEQUENCE = 10, C7 = 12, C20 = 13, WAITING = 14, LINE = 16, PRIORITIES = 32,
       SEATS = 48, SSRCS = 64, HIGHEST = 128, FLAGS = 144, FLAG_ZEROS = 160, OWN_SSRC = 176, LEVEL = 180, LIMIT = 181, C7_LIMIT = 182,
       C20_LIMIT = 183, DURATION = 184, NORMAL = 186, ZEROS = 187, LENGTHS = 192, NAMES = 208 };

/* In REVOKING seat 0 holds the floor at 5, seat 3 waits at 200 and seat 1 at 6; seats 0 to 3 are taken, line limit 2, counters' limits 2. */
static const struct damage damages[] = {
    {REVOKING, {0, 'f'}, "letters"},
    {REVOKING, {1, 'd'}, "letters"},
    {REVOKING, {2, 2}, "form"},
    {REVOKING, {3, 1}, "zero behind the form"},
    {REVOKING, {PHASE, 4}, "phase"},
    {REVOKING, {TIMERS, 1}, "timers in Revoking"},
    {TAKEN, {TIMERS, 3}, "timers in Taken"},
    {IDLE, {TIMERS, 2}, "timers in Idle"},
    {STOPPED, {TIMERS, 1}, "timers in Stopped"},
    {REVOKING, {HOLDER, 16}, "the holder is no seat"},
    {TAKEN, {HOLDER, 255}, "the holder is no seat"},
    {REVOKING, {HOLDER, 4}, "the holder's seat is free"},
    {TAKEN, {HOLDER, 15}, "the holder's seat is free"},
    {REVOKING, {HOLDER, 1}, "the holder is in line"},
    {REVOKING, {HOLDER, 3}, "the holder is in line"},
    {IDLE, {HOLDER, 1}, "a holder in Idle"},
    {STOPPED, {HOLDER, 1}, "a holder in Stopped"},
    {IDLE, {GIVEN_AT, 1}, "a holder's priority in Idle"},
    {STOPPED, {GIVEN_AT, 1}, "a holder's priority in Stopped"},
    {REVOKING, {CAUSE + 1, 0}, "no cause in Revoking"},
    {REVOKING, {CAUSE + 1, 3}, "no Revoke has this cause"},
    {REVOKING, {CAUSE, 1}, "no Revoke has this cause"},
    {TAKEN, {CAUSE + 1, 2}, "a cause in Taken"},
    {IDLE, {CAUSE + 1, 4}, "a cause in Idle"},
    {STOPPED, {CAUSE, 1}, "a cause in Stopped"},
    {REVOKING, {C7, 3}, "C7 above its limit"},
    {REVOKING, {C20, 3}, "C20 above its limit"},
    {REVOKING, {WAITING, 1}, "something behind the line"},
    {REVOKING, {WAITING, 3}, "the line is longer than its limit"},
    {REVOKING, {WAITING, 16}, "more wait than there are places"},
    {REVOKING, {WAITING, 255}, "more wait than there are places"},
    {REVOKING, {LIMIT, 1}, "the line is longer than its limit"},
    {REVOKING, {WAITING + 1, 1}, "zero behind the count"},
    {REVOKING, {LINE + 15, 1}, "zero behind the line"},
    {REVOKING, {PRIORITIES + 15, 1}, "zero behind the priorities"},
    {REVOKING, {PRIORITIES, 5}, "the line is not sorted"},
    {REVOKING, {PRIORITIES + 1, 201}, "the line is not sorted"},
    {REVOKING, {LINE + 1, 3}, "a seat waits twice"},
    {REVOKING, {LINE, 16}, "no seat waits"},
    {REVOKING, {LINE + 1, 4}, "a free seat waits"},
    {REVOKING, {LINE + 2, 1}, "a seat behind the line"},
    {REVOKING, {LINE + 14, 1}, "a seat behind the line"},
    {REVOKING, {PRIORITIES + 2, 1}, "a priority behind the line"},
    {IDLE, {WAITING, 1}, "seat 0 waits in Idle"},
    {IDLE, {WAITING, 1, LINE, 2, PRIORITIES, 5}, "seat 2 waits in Idle"},
    {STOPPED, {WAITING, 1}, "seat 0 waits in Stopped"},
    {REVOKING, {SEATS, 2}, "neither taken nor free"},
    {REVOKING, {SEATS + 2, 0}, "a free seat has something"},
    {STOPPED, {SEATS + 3, 0}, "a free seat has something"},
    {REVOKING, {SEATS + 4, 1}, "a taken seat has no identity"},
    {STOPPED, {SSRCS + 4 * 4, 9}, "a free seat has an SSRC"},
    {STOPPED, {SSRCS + 4 * 15 + 3, 9}, "a free seat has an SSRC"},
    {STOPPED, {HIGHEST + 5, 1}, "a free seat has a priority"},
    {STOPPED, {FLAGS + 6, 1}, "a free seat queues"},
    {STOPPED, {FLAGS + 7, 2}, "a free seat receives"},
    {STOPPED, {LENGTHS + 8, 1}, "a free seat has an identity"},
    {STOPPED, {NAMES + 62 * 9, 1}, "a free seat has octets of an identity"},
    {STOPPED, {NAMES + 62 * 15 + 61, 1}, "a free seat has octets of an identity"},
    {STOPPED, {FLAGS, 4}, "a flag that no seat has"},
    {STOPPED, {FLAGS + 3, 128}, "a flag that no seat has"},
    {STOPPED, {FLAG_ZEROS, 1}, "zeros behind the flags"},
    {STOPPED, {FLAG_ZEROS + 15, 1}, "zeros behind the flags"},
    {STOPPED, {SSRCS + 4 * 1 + 3, FIRST_SSRC}, "two seats with one SSRC"},
    {STOPPED, {SSRCS + 4 * 3 + 3, FIRST_SSRC + 2}, "two seats with one SSRC"},
    {STOPPED, {SSRCS + 3, DESK_SSRC}, "a seat with the desk's SSRC"},
    {STOPPED, {OWN_SSRC + 3, FIRST_SSRC + 3}, "a seat with the desk's SSRC"},
    {STOPPED, {NAMES + 62 * 2 + 4, '1'}, "two seats with one identity"},
    {STOPPED, {NAMES + 62 * 3 + 4, '2'}, "two seats with one identity"},
    {STOPPED, {LENGTHS, 6, NAMES + 5, '0'}, "two seats with one identity"},
    {STOPPED, {LENGTHS + 1, 5, NAMES + 62 + 5, 0}, "two seats with one identity"},
    {STOPPED, {LENGTHS, 0}, "an identity of no octets"},
    {STOPPED, {LENGTHS, 63}, "an identity of 63 octets"},
    {STOPPED, {LENGTHS, 255}, "an identity of 255 octets"},
    {STOPPED, {LENGTHS, 4}, "an octet behind an identity"},
    {STOPPED, {NAMES + 5, 1}, "an octet behind an identity"},
    {STOPPED, {NAMES + 61, 1}, "an octet behind an identity"},
    {STOPPED, {LEVEL, 0}, "level 0"},
    {STOPPED, {LIMIT, 16}, "line limit 16"},
    {STOPPED, {C7_LIMIT, 0}, "C7 limit 0"},
    {STOPPED, {C20_LIMIT, 0}, "C20 limit 0"},
    {STOPPED, {DURATION + 1, 0}, "duration 0"},
    {STOPPED, {ZEROS, 1}, "zero behind the normal level"},
    {STOPPED, {NORMAL, 100, ZEROS, 1}, "zero behind the normal level"},
    {STOPPED, {ZEROS + 1, 1}, "zeros behind the settings"},
    {STOPPED, {ZEROS + 2, 1}, "zeros behind the settings"},
    {STOPPED, {ZEROS + 3, 1}, "zeros behind the settings"},
    {STOPPED, {ZEROS + 4, 1}, "zeros behind the settings"},
    {REVOKING, {ZEROS, 255}, "zero behind the normal level"},
    {REVOKING, {ZEROS + 4, 255}, "zeros behind the settings"},
};

/* Other desks in the form. */
static const struct damage changes[] = {
    {REVOKING, {TIMERS, 0}, "nothing"},
    {REVOKING, {HOLDER, 2}, "another holder"},
    {REVOKING, {GIVEN_AT, 255}, "the holder's priority"},
    {REVOKING, {CAUSE + 1, 2}, "the other cause"},
    {REVOKING, {SEQUENCE, 255}, "sequence number"},
    {REVOKING, {C7, 0}, "C7"},
    {REVOKING, {C20, 2}, "C20 at its limit"},
    {REVOKING, {PRIORITIES, 6}, "two wait at one priority"},
    {REVOKING, {PRIORITIES + 1, 0}, "a priority"},
    {REVOKING, {LINE, 2}, "another seat waits"},
    {TAKEN, {TIMERS, 1}, "T2 runs too"},
    {TAKEN, {TIMERS, 2}, "T20 runs too"},
    {IDLE, {TIMERS, 0}, "T7 does not run"},
    {REVOKING, {LIMIT, 15}, "line limit"},
    {STOPPED, {LIMIT, 0}, "line limit"},
    {STOPPED, {SSRCS + 3, 0}, "SSRC 0"},
    {STOPPED, {HIGHEST, 0}, "highest priority"},
    {STOPPED, {FLAGS, 0}, "queueing"},
    {STOPPED, {FLAGS, 3}, "receive only"},
    {STOPPED, {OWN_SSRC, 255}, "the desk's SSRC"},
    {STOPPED, {LEVEL, 1}, "level"},
    {STOPPED, {C7_LIMIT, 255}, "C7 limit"},
    {STOPPED, {C20_LIMIT, 1}, "C20 limit"},
    {STOPPED, {DURATION, 255}, "duration"},
    {STOPPED, {NORMAL, 255}, "normal level"},
    {IDLE, {NORMAL, 5}, "normal level"},
    {TAKEN, {NORMAL, 200}, "the normal level is pre-emptive"},
    {REVOKING, {NORMAL, 1, LEVEL, 1}, "the normal level is pre-emptive"},
    {STOPPED, {LENGTHS, 6}, "an identity that ends with a zero"},
    {STOPPED, {NAMES, 0}, "an identity that begins with a zero"},
    {STOPPED, {LENGTHS, 62, NAMES + 61, 1}, "an identity of 62 octets"},
};

static void damage(uint8_t *desk, const struct damage *d)
{
    memcpy(desk, thursday_desk(d->desk), FLOOR_DESK);
    for (int i = 0; i < 6 && (i == 0 || d->edits[i] != 0); i += 2)
        desk[d->edits[i]] = (uint8_t)d->edits[i + 1];
}

static void test_named_damages(void **state)
{
    uint8_t desk[FLOOR_DESK];
    (void)state;
    for (size_t i = 0; i < COUNT(damages); i++) {
        damage(desk, &damages[i]);
        if (floor_phase(desk, sizeof desk) != FLOOR_REFUSAL_NOT_A_DESK)
            fail_msg("taken for a desk: %s", damages[i].why);
    }
}

static void test_named_changes(void **state)
{
    uint8_t desk[FLOOR_DESK];
    (void)state;
    for (size_t i = 0; i < COUNT(changes); i++) {
        damage(desk, &changes[i]);
        if (floor_phase(desk, sizeof desk) < 0)
            fail_msg("not taken for a desk: %s", changes[i].why);
    }
}

/* Any octet is a normal level, and requests without the field count as it. */
static void test_every_normal_level(void **state)
{
    (void)state;
    for (int normal = 0; normal <= 255; normal++) {
        uint8_t desk[FLOOR_DESK], packet[16], report[FLOOR_REPORT], settings[FLOOR_SETTINGS];
        damage(desk, &(struct damage){IDLE, {NORMAL, normal}, ""});
        assert_int_equal(floor_settings(desk, sizeof desk, settings, sizeof settings), FLOOR_SETTINGS);
        assert_memory_equal(settings, desk + OWN_SSRC, FLOOR_SETTINGS);
        uint8_t n = packet_of(packet, FLOOR_TYPE_REQUEST, FIRST_SSRC + 1, -1);
        assert_int_equal(floor_packet(desk, sizeof desk, packet, n, report, sizeof report), 0);
        assert_int_equal(floor_holder(desk, sizeof desk), 1);
        assert_int_equal(floor_holder_priority(desk, sizeof desk), normal);
        assert_int_equal(desk[NORMAL], normal);
    }
}

/* ---- Every bit ---- */

/* What is lent beside the desk is right, so that nothing else can be refused. */
static void assert_all_refuse(const uint8_t *desk)
{
    static uint8_t at[3][MOST];
    uint8_t room[FLOOR_SHEET];
    struct call c = {{at[0], at[1], room}, {FLOOR_DESK, 16, sizeof room}, {0}};
    memset(room, 0x5A, sizeof room);
    packet_of(at[1], FLOOR_TYPE_REQUEST, FIRST_SSRC, 5);
    for (size_t i = 0; i < face_count; i++) {
        if (!takes_desk(&faces[i]))
            continue;
        memcpy(at[0], desk, FLOOR_DESK);
        assert_int_equal(faces[i].call(&c), FLOOR_REFUSAL_NOT_A_DESK);
        assert_memory_equal(at[0], desk, FLOOR_DESK);
    }
    for (size_t i = 0; i < sizeof room; i++)
        assert_int_equal(room[i], 0x5A);
}

/* One step. */
enum kind { A_PACKET, MEDIA, A_TIMER, LEAVING, STARTING, STOPPING, JOINING };
struct step {
    enum kind kind;
    uint32_t number;
    uint8_t packet[16], n;
};

/* What takes a step: the library, or plain C. */
struct library {
    int32_t (*packet)(uint8_t *, size_t, const uint8_t *, size_t, uint8_t *, size_t);
    int32_t (*media)(uint8_t *, size_t, uint32_t, uint8_t *, size_t);
    int32_t (*timer)(uint8_t *, size_t, uint32_t, uint8_t *, size_t);
    int32_t (*leave)(uint8_t *, size_t, uint32_t, uint8_t *, size_t);
    int32_t (*start)(uint8_t *, size_t, uint8_t *, size_t);
    int32_t (*stop)(uint8_t *, size_t, uint8_t *, size_t);
    int32_t (*join)(uint8_t *, size_t, const uint8_t *, size_t, uint32_t, uint8_t, uint8_t, uint8_t);
};

static const struct library
    proved = {floor_packet, floor_media, floor_timer, floor_leave, floor_start, floor_stop, floor_join},
    plain = {plain_packet, plain_media, plain_timer, plain_leave, plain_start, plain_stop, plain_join};

static int32_t step_by(const struct library *l, uint8_t *desk, const struct step *s, uint8_t *report)
{
    switch (s->kind) {
    case A_PACKET:
        return l->packet(desk, FLOOR_DESK, s->packet, s->n, report, FLOOR_REPORT);
    case MEDIA:
        return l->media(desk, FLOOR_DESK, s->number, report, FLOOR_REPORT);
    case A_TIMER:
        return l->timer(desk, FLOOR_DESK, s->number, report, FLOOR_REPORT);
    case LEAVING:
        return l->leave(desk, FLOOR_DESK, s->number, report, FLOOR_REPORT);
    case STARTING:
        return l->start(desk, FLOOR_DESK, report, FLOOR_REPORT);
    case STOPPING:
        return l->stop(desk, FLOOR_DESK, report, FLOOR_REPORT);
    case JOINING:
        return l->join(desk, FLOOR_DESK, (const uint8_t *)"newcomer", 8, s->number, 9, 1, 0);
    }
    return 0;
}

static void assert_step(const uint8_t *damaged, const struct step *s)
{
    uint8_t desk[FLOOR_DESK], other[FLOOR_DESK], report[FLOOR_REPORT] = {0}, second[FLOOR_REPORT] = {0};
    memcpy(desk, damaged, sizeof desk);
    memcpy(other, damaged, sizeof other);
    int32_t answer = step_by(&proved, desk, s, report);
    assert_int_equal(answer, step_by(&plain, other, s, second));
    assert_int_not_equal(answer, FLOOR_REFUSAL_NOT_A_DESK);
    assert_memory_equal(report, second, sizeof report);
    assert_memory_equal(desk, other, sizeof desk);
    if (answer >= 0)
        assert_true(floor_phase(desk, sizeof desk) >= 0);
    else
        assert_memory_equal(desk, damaged, sizeof desk);
}

static void assert_packet(const uint8_t *desk, uint8_t type, uint32_t ssrc, int priority)
{
    struct step s = {A_PACKET, 0, {0}, 0};
    s.n = packet_of(s.packet, type, ssrc, priority);
    assert_step(desk, &s);
}

static void assert_seat_steps(const uint8_t *desk, uint32_t seat)
{
    const uint8_t *s = desk + SSRCS + 4 * seat;
    uint32_t ssrc = (uint32_t)s[0] << 24 | (uint32_t)s[1] << 16 | (uint32_t)s[2] << 8 | s[3];
    assert_packet(desk, FLOOR_TYPE_REQUEST, ssrc, -1);
    assert_packet(desk, FLOOR_TYPE_REQUEST, ssrc, 7);
    assert_packet(desk, FLOOR_TYPE_REQUEST, ssrc, 255);
    assert_packet(desk, FLOOR_TYPE_RELEASE, ssrc, -1);
    assert_packet(desk, FLOOR_TYPE_QUEUE_POSITION_REQUEST, ssrc, -1);
    assert_step(desk, &(struct step){MEDIA, ssrc, {0}, 0});
    assert_step(desk, &(struct step){LEAVING, seat, {0}, 0});
}

static void assert_steps_soundly(const uint8_t *desk)
{
    static const uint32_t timers[] = {1, 2, 3, 4, 7, 8, 20};
    for (size_t i = 0; i < COUNT(timers); i++)
        assert_step(desk, &(struct step){A_TIMER, timers[i], {0}, 0});
    assert_step(desk, &(struct step){STARTING, 0, {0}, 0});
    assert_step(desk, &(struct step){STOPPING, 0, {0}, 0});
    assert_step(desk, &(struct step){JOINING, 0xABCDEF01, {0}, 0});
    for (uint32_t seat = 0; seat < FLOOR_SEATS; seat++)
        if (desk[SEATS + seat])
            assert_seat_steps(desk, seat);
}

/* Each seat, and the settings, octet for octet; the room behind them too. */
static void assert_seats(const uint8_t *desk)
{
    for (uint32_t seat = 0; seat <= FLOOR_SEATS; seat++) {
        uint8_t one[FLOOR_SEAT] = {0}, other[FLOOR_SEAT] = {0};
        assert_int_equal(floor_seat(desk, FLOOR_DESK, seat, one, sizeof one), plain_seat(desk, FLOOR_DESK, seat, other, sizeof other));
        assert_memory_equal(one, other, sizeof one);
    }
    uint8_t made[FLOOR_SETTINGS], second[FLOOR_SETTINGS];
    assert_int_equal(floor_settings(desk, FLOOR_DESK, made, sizeof made), FLOOR_SETTINGS);
    assert_int_equal(plain_settings(desk, FLOOR_DESK, second, sizeof second), FLOOR_SETTINGS);
    assert_memory_equal(made, second, sizeof made);
}

/* The sheet, or 48 where the normal level is not 0; the room behind it, or all of it, is as it was. */
static void assert_sheet(const uint8_t *desk)
{
    uint8_t sheet[FLOOR_SHEET] = {0}, other[FLOOR_SHEET] = {0}, loaded[FLOOR_DESK];
    int32_t n = floor_save(desk, FLOOR_DESK, sheet, sizeof sheet);
    assert_int_equal(n, plain_save(desk, FLOOR_DESK, other, sizeof other));
    assert_memory_equal(sheet, other, sizeof sheet);
    assert_int_equal(n == FLOOR_REFUSAL_SHEET_CANNOT_HOLD, desk[NORMAL] != 0);
    if (n >= 0)
        assert_int_equal(floor_load(loaded, sizeof loaded, sheet, (size_t)n), 0);
}

/* The looks and the sheet of a desk that is in the form. */
static void assert_looks(const uint8_t *desk)
{
    uint8_t line[2 * FLOOR_SEATS], second[2 * FLOOR_SEATS];
    int32_t waiting = floor_screen(desk, FLOOR_DESK, line, sizeof line);
    assert_int_equal(waiting, plain_screen(desk, FLOOR_DESK, second, sizeof second));
    assert_memory_equal(line, second, 2 * (size_t)waiting);
    assert_int_equal(floor_phase(desk, FLOOR_DESK), plain_phase(desk, FLOOR_DESK));
    assert_int_equal(floor_holder(desk, FLOOR_DESK), plain_holder(desk, FLOOR_DESK));
    assert_int_equal(floor_holder_priority(desk, FLOOR_DESK), plain_holder_priority(desk, FLOOR_DESK));
    assert_int_equal(floor_running(desk, FLOOR_DESK), plain_running(desk, FLOOR_DESK));
    assert_int_equal(floor_sequence(desk, FLOOR_DESK), plain_sequence(desk, FLOOR_DESK));
    assert_int_equal(floor_c7(desk, FLOOR_DESK), plain_c7(desk, FLOOR_DESK));
    assert_int_equal(floor_c20(desk, FLOOR_DESK), plain_c20(desk, FLOOR_DESK));
    assert_int_equal(floor_seats(desk, FLOOR_DESK), plain_seats(desk, FLOOR_DESK));
    assert_seats(desk);
    assert_sheet(desk);
}

/* Every step on desks of every normal level. */
static void test_steps_at_every_normal_level(void **state)
{
    static const int desks[] = {STOPPED, IDLE, TAKEN, TWO_WAIT, REVOKING, OUT_OF_THE_LINE};
    (void)state;
    for (int normal = 0; normal <= 255; normal++)
        for (size_t i = 0; i < COUNT(desks); i++) {
            uint8_t desk[FLOOR_DESK];
            damage(desk, &(struct damage){desks[i], {NORMAL, normal}, ""});
            assert_looks(desk);
            assert_steps_soundly(desk);
        }
}

static void damage_every_bit(const uint8_t *whole)
{
    uint8_t desk[FLOOR_DESK];
    int refused = 0;
    for (int bit = 0; bit < 8 * FLOOR_DESK; bit++) {
        memcpy(desk, whole, sizeof desk);
        desk[bit / 8] ^= (uint8_t)(1 << bit % 8);
        int32_t verdict = floor_phase(desk, sizeof desk);
        if (verdict != plain_phase(desk, sizeof desk))
            fail_msg("octet %d, bit %d: %d", bit / 8, bit % 8, (int)verdict);
        if (verdict < 0) {
            refused++;
            assert_all_refuse(desk);
        } else {
            assert_looks(desk);
            assert_steps_soundly(desk);
        }
    }
    print_message("%d of %d damaged desks refused\n", refused, 8 * FLOOR_DESK);
}

static void test_every_bit_stopped(void **state)
{
    (void)state;
    damage_every_bit(thursday_desk(STOPPED));
}

static void test_every_bit_idle(void **state)
{
    (void)state;
    damage_every_bit(thursday_desk(IDLE));
}

static void test_every_bit_taken(void **state)
{
    (void)state;
    damage_every_bit(thursday_desk(TWO_WAIT));
    damage_every_bit(thursday_desk(OUT_OF_THE_LINE));
}

static void test_every_bit_revoking(void **state)
{
    (void)state;
    damage_every_bit(thursday_desk(REVOKING));
}

static void test_every_bit_full(void **state)
{
    (void)state;
    damage_every_bit(full_desk());
}

int main(void)
{
    const struct CMUnitTest tests[] = {
        cmocka_unit_test(test_named_damages),      cmocka_unit_test(test_named_changes),
        cmocka_unit_test(test_every_normal_level), cmocka_unit_test(test_steps_at_every_normal_level),
        cmocka_unit_test(test_every_bit_stopped),  cmocka_unit_test(test_every_bit_idle),
        cmocka_unit_test(test_every_bit_taken),    cmocka_unit_test(test_every_bit_revoking),
        cmocka_unit_test(test_every_bit_full),
    };
    return cmocka_run_group_tests(tests, NULL, NULL);
}
