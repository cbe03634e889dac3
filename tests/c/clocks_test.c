/* An hour of examples/server.c in virtual time: its own code keeps the clocks, events come at random from one seed, and beside it an oracle
 * says, from document 01 and not from floor_starts, when each timer starts anew, stops and fires. It knows the phase before and after a
 * step, whether Taken was sent (the floor was given), whether Idle was, which timer fired and whose media came.
 *
 * Exit status 0 if after every step each clock of the server stands where the oracle's does, and each fires when it is due. Compiled with
 * NAIVE, clocks start where a bit of floor_running rises (0), or where it does and where one fired (1): those servers must fail. */
#define _POSIX_C_SOURCE 200809L /* as the server has it */
#include <floor.h>

static int32_t watched_clocks(const struct floor_desk *desk, const struct floor_report *report, uint32_t fired, struct floor_clocks *clocks);

#define floor_desk_clocks watched_clocks
#define main server_main
#include "../../examples/server.c"
#undef main
#undef floor_desk_clocks

enum { HANDSETS = 6, FIRST_SSRC = 10, HOUR = 3600 * SECOND, QUIET_EVERY = 300 * SECOND, QUIET_FOR = 60 * SECOND };
static const uint32_t timers[] = {1, 2, 3, 4, 7, 8, 20};
#define EACH_TIMER(t) (size_t i_ = 0; i_ < sizeof timers / sizeof *timers && (t = timers[i_], 1); i_++)

/* ---- The oracle ---- */

static int64_t now = SECOND;
static struct {
    int64_t due[FLOOR_TIMERS];                          /* as in the server */
    int32_t phase, holder;                              /* before the step */
    uint32_t media_of;                                  /* whose media the step is, 0 for another step */
    long fired[FLOOR_TIMERS], again[FLOOR_TIMERS], passed_on; /* how often; started while it ran; the floor passed on with T1 running */
} oracle;

static void fail(const char *what, uint32_t timer)
{
    printf("at %lld ms: T%u %s: the clock is due at %lld, the oracle's at %lld\n", (long long)(now - SECOND), (unsigned)timer, what,
           (long long)due[timer], (long long)oracle.due[timer]);
    exit(1);
}

static void start(uint32_t timer)
{
    oracle.again[timer] += oracle.due[timer] != 0;
    oracle.due[timer] = now + time_of[timer];
}

static void stop_all(void)
{
    uint32_t t;
    for EACH_TIMER(t)
        oracle.due[t] = 0;
}

static bool sends(const struct floor_report *report, enum floor_type type)
{
    return floor_sent_type(&report->sent[0]) == type || floor_sent_type(&report->sent[1]) == type;
}

/* "Given", and "T20 too .. if out of the line": nobody waits in Idle. */
static void given(void)
{
    oracle.passed_on += oracle.due[1] != 0;
    stop_all();
    start(1);
    if (oracle.phase != FLOOR_PHASE_IDLE)
        start(20);
}

static void holder_talks(int32_t phase)
{
    start(1); /* the bench's own choice, by TS 24.380 */
    if (phase != FLOOR_PHASE_TAKEN)
        return;
    if (oracle.due[2] == 0)
        start(2);
    oracle.due[20] = 0;
}

static void foresee(const struct floor_desk *d, const struct floor_report *r, uint32_t fired)
{
    int32_t phase = floor_desk_phase(d);
    if (sends(r, FLOOR_TYPE_TAKEN)) {
        given();
    } else if (phase == FLOOR_PHASE_STOPPED) {
        stop_all();
    } else if (phase == FLOOR_PHASE_IDLE && oracle.phase != FLOOR_PHASE_IDLE) {
        stop_all();
        start(4);
        start(7);
    } else if (phase == FLOOR_PHASE_REVOKING && oracle.phase == FLOOR_PHASE_TAKEN) {
        start(3);
        start(8);
        oracle.due[2] = oracle.due[20] = 0;
    } else if (fired == 7 && !sends(r, FLOOR_TYPE_IDLE)) {
        oracle.due[7] = 0;
    } else if (fired != FLOOR_TIMER_NONE) {
        start(fired); /* "one that fires runs on unless it is stopped here" */
    } else if (oracle.media_of != 0 && oracle.holder == floor_desk_seat_by_ssrc(d, oracle.media_of) && oracle.holder >= 0) {
        holder_talks(phase);
    }
    oracle.phase = phase;
    oracle.holder = floor_desk_holder(d).seat;
}

/* Stands where the server calls floor_desk_clocks: once after every step. */
static int32_t watched_clocks(const struct floor_desk *d, const struct floor_report *r, uint32_t fired, struct floor_clocks *c)
{
    if (fired != FLOOR_TIMER_NONE) {
        if (oracle.due[fired] == 0 || oracle.due[fired] > now || oracle.due[fired] <= now - TICK)
            fail("fired when it was not due", fired);
        oracle.fired[fired]++;
    }
    foresee(d, r, fired);
#ifdef NAIVE
    uint32_t running = (uint32_t)floor_desk_running(d);
    c->starts = running & (~c->running | (uint32_t)NAIVE << fired);
    c->stops = c->running & ~running;
    c->running = running;
    return 0;
#else
    return floor_desk_clocks(d, r, fired, c);
#endif
}

static void compare(void)
{
    uint32_t t, running = (uint32_t)floor_desk_running(&desk);
    for EACH_TIMER(t) {
        if (floor_has(running, t) != (oracle.due[t] != 0))
            fail("runs, or does not, against the oracle", t);
        if (due[t] != oracle.due[t])
            fail("was missed, or started twice", t);
    }
}

/* ---- What happens ---- */

static uint32_t random_below(uint32_t n)
{
    static uint32_t seed = 20241;
    seed ^= seed << 13;
    seed ^= seed >> 17;
    seed ^= seed << 5;
    return seed % n;
}

static void packet_of(uint32_t ssrc, enum floor_type type, uint8_t priority)
{
    static const struct sockaddr_in nowhere;
    const uint8_t packet[] = {(uint8_t)(0x80 | type), 204, 0, 3, 0, 0, 0, (uint8_t)ssrc, 'M', 'C', 'P', 'T', 0, 2, priority, 0};
    take_packet(packet, sizeof packet, &nowhere, now);
}

static void media_of(uint32_t ssrc)
{
    oracle.media_of = ssrc;
    take_media(ssrc, now);
    oracle.media_of = 0;
}

/* The holder talks for a while, or not at all; most end by themselves, some are told to and still talk on. */
static void talk(void)
{
    static int64_t until;
    static int32_t talker = -1;
    if (oracle.holder < 0)
        return;
    if (talker != oracle.holder || until < now - 10 * SECOND) {
        talker = oracle.holder;
        until = random_below(3) ? now + (int64_t)random_below(random_below(4) ? 8 * SECOND : 50 * SECOND) : now;
    }
    if (now < until && now % (2 * TICK) == 0)
        media_of(FIRST_SSRC + (uint32_t)talker);
    else if (now >= until && random_below(600) == 0)
        packet_of(FIRST_SSRC + (uint32_t)talker, FLOOR_TYPE_RELEASE, 0);
}

static void something(void)
{
    uint32_t ssrc = FIRST_SSRC + random_below(HANDSETS), what = random_below(40);
    if (what < 24)
        packet_of(ssrc, FLOOR_TYPE_REQUEST, (uint8_t)(random_below(8) ? random_below(200) : 200 + random_below(56)));
    else if (what < 30)
        packet_of(ssrc, FLOOR_TYPE_RELEASE, 0);
    else if (what < 34)
        packet_of(ssrc, FLOOR_TYPE_QUEUE_POSITION_REQUEST, 0);
    else if (what < 37)
        media_of(ssrc);
    else if (what < 39)
        settle(floor_desk_timer(&desk, FLOOR_TIMER_2 + 3, &report), FLOOR_TIMER_NONE, now); /* there is no T5 */
    else if (random_below(8) == 0)
        settle(floor_desk_stop(&desk, &report), FLOOR_TIMER_NONE, now);
}

static void play_the_hour(void)
{
    int64_t end = now + HOUR;
    for (uint32_t seat = 0; seat < HANDSETS; seat++) /* in this order, so that seat s has FIRST_SSRC + s */
        packet_of(FIRST_SSRC + seat, FLOOR_TYPE_QUEUE_POSITION_REQUEST, 0);
    for (; now < end; now += TICK) {
        tick(now);
        compare();
        if (now % QUIET_EVERY > QUIET_FOR) {
            talk();
            compare();
            if (random_below(250) == 0)
                something();
            compare();
        }
    }
}

int main(void)
{
    uint32_t t;
    if (floor_desk_make(&desk, &settings) < 0)
        return 1;
    oracle.holder = -1;
    play_the_hour();
    for EACH_TIMER(t) {
        printf("T%u fired %ld times, started anew while it ran %ld\n", (unsigned)t, oracle.fired[t], oracle.again[t]);
        if (oracle.fired[t] == 0)
            return 1;
    }
    printf("the floor passed on with T1 running %ld times\n", oracle.passed_on);
    return oracle.passed_on == 0 || oracle.again[7] == 0 || oracle.again[8] == 0 || oracle.again[20] == 0;
}
