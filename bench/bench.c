/* bench: what bench.py counts. It only makes calls; between two calls of mark() stand CALLS calls of one function, and nothing else.
 *
 *   bench play FILE       plays many events on a desk with each library and keeps the desks in FILE; nothing is counted here
 *   bench measure FILE    makes the calls to be counted, and prints a line LIBRARY CASE for each section, in order
 *
 * Where a call changes what is lent, each of the CALLS calls has its own copy. All that is lent to a counted call stands at the start of a
 * page: what C's memory functions do, and so the count, depends on where octets lie, and the stack lies elsewhere in each environment. */
#include <floor.h>
#include "plain.h"
#include <inttypes.h>
#include <stdio.h>
#include <stdlib.h>
#include <string.h>

enum { CALLS = 16, SEATED = 16, DESK_SSRC = 1, FIRST_SSRC = 10, LONGEST = FLOOR_PACKET_IN };

struct library {
    const char *name;
    int32_t (*make)(uint8_t *, size_t, uint32_t, uint32_t, uint32_t, uint32_t, uint32_t, uint32_t, uint32_t);
    int32_t (*join)(uint8_t *, size_t, const uint8_t *, size_t, uint32_t, uint8_t, uint8_t, uint8_t);
    int32_t (*start)(uint8_t *, size_t, uint8_t *, size_t);
    int32_t (*packet)(uint8_t *, size_t, const uint8_t *, size_t, uint8_t *, size_t);
    int32_t (*timer)(uint8_t *, size_t, uint32_t, uint8_t *, size_t);
    int32_t (*read)(const uint8_t *, size_t, uint8_t *, size_t);
    int32_t (*write)(const uint8_t *, size_t, const uint8_t *, size_t, uint8_t *, size_t);
    int32_t (*save)(const uint8_t *, size_t, uint8_t *, size_t);
    int32_t (*load)(uint8_t *, size_t, const uint8_t *, size_t);
};

/* The same step on a struct that nobody tests. */
static int32_t native_packet(uint8_t *desk, size_t desk_len, const uint8_t *packet, size_t packet_len, uint8_t *report, size_t report_len)
{
    (void)desk_len, (void)report_len;
    return plain_native_packet((void *)desk, packet, packet_len, (void *)report);
}

static int32_t native_timer(uint8_t *desk, size_t desk_len, uint32_t timer, uint8_t *report, size_t report_len)
{
    (void)desk_len, (void)report_len;
    return plain_native_timer((void *)desk, timer, (void *)report);
}

/* What a call costs that does nothing: the loop and the handing over. */
static int32_t nothing(uint8_t *desk, size_t desk_len, uint32_t timer, uint8_t *report, size_t report_len)
{
    (void)desk, (void)desk_len, (void)timer, (void)report, (void)report_len;
    return 0;
}

static const struct library
    floor_library = {"floor", floor_make, floor_join, floor_start, floor_packet, floor_timer, floor_read, floor_write, floor_save, floor_load},
    plain_library = {"plain", plain_make, plain_join, plain_start, plain_packet, plain_timer, plain_read, plain_write, plain_save, plain_load},
    native = {"native", plain_make, plain_join, plain_start, native_packet, native_timer, NULL, NULL, NULL, NULL},
    empty = {"empty", plain_make, plain_join, plain_start, plain_packet, nothing, NULL, NULL, NULL, NULL};

#define ON_A_PAGE __attribute__((aligned(4096)))

static ON_A_PAGE uint8_t desks[CALLS][FLOOR_DESK], report[FLOOR_REPORT], room[LONGEST + FLOOR_SHEET];
static ON_A_PAGE uint8_t packet[LONGEST], source[LONGEST], message[FLOOR_MESSAGE];
static size_t packet_len;

/* The counter looks for this function. */
__attribute__((noinline)) void mark(void)
{
    __asm__ volatile("");
}

static void must(int holds, const char *what)
{
    if (!holds) {
        fprintf(stderr, "bench: %s\n", what);
        exit(1);
    }
}

/* ---- Packets ---- */

static void put_header(unsigned type, uint32_t ssrc, size_t length)
{
    const uint8_t header[] = {(uint8_t)(0x80 | type), 204, (uint8_t)((length / 4 - 1) >> 8), (uint8_t)(length / 4 - 1), (uint8_t)(ssrc >> 24),
                              (uint8_t)(ssrc >> 16), (uint8_t)(ssrc >> 8), (uint8_t)ssrc, 'M', 'C', 'P', 'T'};
    memcpy(packet, header, sizeof header);
    packet_len = length;
}

static size_t put_field(size_t at, unsigned id, size_t length, const uint8_t *content)
{
    size_t whole = (length + 5) / 4 * 4;
    memset(packet + at, 0, whole);
    packet[at] = (uint8_t)id;
    packet[at + 1] = (uint8_t)length;
    memcpy(packet + at + 2, content, length);
    return at + whole;
}

/* The fields of four octets, all of them, in order. */
static size_t put_small_fields(size_t at)
{
    static const uint8_t ids[] = {0, 1, 3, 5, 8, 10, 12, 13}, one[] = {0, 1};
    for (size_t i = 0; i < sizeof ids; i++)
        at = put_field(at, ids[i], 2, one);
    return at;
}

/* A packet as handsets send them: 12, 36, 104 or 440 octets, the last with every field at its longest; 1,024 with skipped fields behind it. */
static void make_packet(size_t length)
{
    static const uint8_t octets[255] = "sip:student@bench.example, with more to come";
    size_t at = 12;
    put_header(FLOOR_TYPE_REQUEST, FIRST_SSRC, length);
    if (length == 36) {
        at = put_field(at, 0, 2, octets);
        at = put_field(at, 6, 14, octets);
        at = put_field(at, 13, 2, octets);
    } else if (length > 36) {
        at = put_small_fields(at);
        at = put_field(at, 14, 6, octets);
        at = put_field(at, 4, length == 104 ? 50 : 62, octets);
    }
    if (length >= 440) {
        at = put_field(at, 6, 62, octets);
        at = put_field(at, 2, 255, octets);
    }
    if (length == 1024) {
        at = put_field(at, 7, 255, octets);
        at = put_field(at, 7, 255, octets);
        at = put_field(at, 7, 62, octets);
    }
    must(at == length, "a packet has another length");
}

/* Nothing but fields of four octets: the most fields that so many octets can be. An ID of the table stands once at most, so these are all
 * skipped ones, by turns one that the table marks so and one past its end. */
static void make_dense_packet(size_t length)
{
    static const uint8_t ids[] = {7, 16, 9, 64, 11, 128, 15, 191}, one[] = {0, 1};
    size_t at = 12;
    put_header(FLOOR_TYPE_REQUEST, FIRST_SSRC, length);
    for (size_t i = 0; at < length; i++)
        at = put_field(at, ids[i % sizeof ids], 2, one);
    must(at == length, "a packet has another length");
}

static void make_request(unsigned seat, unsigned priority)
{
    const uint8_t content[] = {(uint8_t)priority, 0};
    put_header(FLOOR_TYPE_REQUEST, FIRST_SSRC + seat, 16);
    put_field(12, 0, 2, content);
}

static void make_release(unsigned seat)
{
    put_header(FLOOR_TYPE_RELEASE, FIRST_SSRC + seat, 12);
}

/* ---- Desks ---- */

static void step(const struct library *l, uint8_t *desk)
{
    must(l->packet(desk, FLOOR_DESK, packet, packet_len, report, sizeof report) == 0, "a step was refused");
}

static void asks(const struct library *l, uint8_t *desk, unsigned seat, unsigned priority)
{
    make_request(seat, priority);
    step(l, desk);
}

static void releases(const struct library *l, uint8_t *desk, unsigned seat)
{
    make_release(seat);
    step(l, desk);
}

/* A call that has started: four seats as on Thursday, or sixteen with longer names. */
static void open_call(const struct library *l, uint8_t *desk, unsigned seats)
{
    char name[64];
    must(l->make(desk, FLOOR_DESK, DESK_SSRC, 200, 15, 2, 255, 30, 0) == 0, "make");
    for (unsigned s = 0; s < seats; s++) {
        int n = sprintf(name, seats == 4 ? "test%u" : "sip:student%02u@bench.example", s);
        must(l->join(desk, FLOOR_DESK, (const uint8_t *)name, (size_t)n, FIRST_SSRC + s, 255, 1, 0) == (int32_t)s, "join");
    }
    must(l->start(desk, FLOOR_DESK, report, sizeof report) == 0, "start");
}

/* Seat 0 holds the floor, and half of the others wait. */
static void fill_line(const struct library *l, uint8_t *desk, unsigned seats)
{
    for (unsigned s = 0; s <= (seats - 1) / 2; s++)
        asks(l, desk, s, 10 + s % 3);
}

/* Every event of ten: five ask, five release. */
static void play_events(const struct library *l, uint8_t *desk, unsigned events)
{
    for (unsigned n = 0; n < events; n += 10) {
        for (unsigned s = 0; s < 5; s++)
            asks(l, desk, s, 5);
        for (unsigned s = 0; s < 5; s++)
            releases(l, desk, s);
    }
}

static void for_each_call(const uint8_t *desk)
{
    for (int i = 0; i < CALLS; i++)
        memcpy(desks[i], desk, FLOOR_DESK);
}

/* ---- Sections ---- */

static void say(const struct library *l, const char *what, const char *which)
{
    printf("%s %s %s\n", l->name, what, which);
}

/* Both read the packet, and into the same message: else the table would compare different work. */
static void must_be_read_alike(void)
{
    static uint8_t other[FLOOR_MESSAGE];
    must(floor_read(packet, packet_len, message, sizeof message) == 0, "the library does not read a packet");
    must(plain_read(packet, packet_len, other, sizeof other) == 0, "plain C does not read a packet");
    must(memcmp(message, other, sizeof message) == 0, "the library and plain C read a packet differently");
}

static void count_read(const struct library *l, const char *which)
{
    int32_t refused = 0;
    must_be_read_alike();
    mark();
    for (int i = 0; i < CALLS; i++)
        refused |= l->read(packet, packet_len, message, sizeof message);
    mark();
    must(refused == 0, "read");
    say(l, "read", which);
}

static void count_write(const struct library *l, const char *which)
{
    int32_t length = 0;
    must(l->read(packet, packet_len, message, sizeof message) == 0, "read before write");
    memcpy(source, packet, packet_len);
    mark();
    for (int i = 0; i < CALLS; i++)
        length |= l->write(message, sizeof message, source, packet_len, room, sizeof room);
    mark();
    must(length == (int32_t)packet_len, "write");
    say(l, "write", which);
}

static void count_step(const struct library *l, const char *which)
{
    int32_t refused = 0;
    mark();
    for (int i = 0; i < CALLS; i++)
        refused |= l->packet(desks[i], FLOOR_DESK, packet, packet_len, report, sizeof report);
    mark();
    must(refused == 0, which);
    say(l, "step", which);
}

static void count_timer(const struct library *l, uint32_t timer, const char *which)
{
    int32_t refused = 0;
    mark();
    for (int i = 0; i < CALLS; i++)
        refused |= l->timer(desks[i], FLOOR_DESK, timer, report, sizeof report);
    mark();
    must(refused == 0, which);
    say(l, "step", which);
}

static void count_sheet(const struct library *l, const uint8_t *desk)
{
    int32_t n = 0;
    int32_t refused = 0;
    for_each_call(desk);
    mark();
    for (int i = 0; i < CALLS; i++)
        n |= l->save(desks[i], FLOOR_DESK, room, sizeof room);
    mark();
    say(l, "save", "seats-16");
    must(n > 0, "save");
    mark();
    for (int i = 0; i < CALLS; i++)
        refused |= l->load(desks[i], FLOOR_DESK, room, (size_t)n);
    mark();
    must(refused == 0, "load");
    say(l, "load", "seats-16");
}

/* ---- What is counted ---- */

static const size_t lengths[] = {12, 36, 104, 440, 1024};

static void count_packets(const struct library *l)
{
    char which[32];
    for (size_t i = 0; i < 5; i++) {
        sprintf(which, "%zu", lengths[i]);
        make_packet(lengths[i]);
        count_read(l, which);
        if (lengths[i] <= FLOOR_PACKET_OUT)
            count_write(l, which);
        sprintf(which, "dense-%zu", lengths[i]);
        make_dense_packet(lengths[i]);
        count_read(l, which);
    }
}

static void count_steps(const struct library *l, unsigned seats)
{
    uint8_t desk[FLOOR_DESK], given[FLOOR_DESK];
    char which[32];
    open_call(&plain_library, desk, seats);
    fill_line(&plain_library, desk, seats);
    memcpy(given, desk, sizeof given);
    releases(&plain_library, given, 0);
    sprintf(which, "request-%u", seats);
    for_each_call(desk);
    make_request(seats - 1, 11);
    count_step(l, which);
    sprintf(which, "release-%u", seats);
    for_each_call(desk);
    make_release(0);
    count_step(l, which);
    sprintf(which, "timer-%u", seats);
    for_each_call(given);
    count_timer(l, 20, which);
}

static const unsigned played[] = {10, 1000, 100000};

/* The same request on desks that have seen more and more events. */
static void count_after_events(const struct library *l, FILE *file)
{
    uint8_t desk[FLOOR_DESK];
    char which[32];
    for (int i = 0; i < 3; i++) {
        must(fread(desk, 1, sizeof desk, file) == sizeof desk, "the file of desks is too short");
        for_each_call(desk);
        make_request(SEATED - 1, 11);
        sprintf(which, "after-%u", played[i]);
        count_step(l, which);
    }
}

static void measure(FILE *file)
{
    uint8_t desk[FLOOR_DESK];
    count_timer(&empty, 0, "-");
    count_packets(&floor_library);
    count_packets(&plain_library);
    for (unsigned seats = 4; seats <= 16; seats *= 4) {
        count_steps(&floor_library, seats);
        count_steps(&plain_library, seats);
        count_steps(&native, seats);
    }
    open_call(&plain_library, desk, SEATED);
    count_sheet(&floor_library, desk);
    count_sheet(&plain_library, desk);
    count_after_events(&floor_library, file);
    count_after_events(&plain_library, file);
}

static void play(FILE *file)
{
    const struct library *both[] = {&floor_library, &plain_library};
    uint8_t desk[FLOOR_DESK];
    for (int b = 0; b < 2; b++)
        for (int i = 0; i < 3; i++) {
            open_call(both[b], desk, SEATED);
            play_events(both[b], desk, played[i]);
            fill_line(both[b], desk, SEATED);
            must(fwrite(desk, 1, sizeof desk, file) == sizeof desk, "cannot write");
        }
}

int main(int argc, char **argv)
{
    must(argc == 3, "bench play FILE, or bench measure FILE");
    int playing = strcmp(argv[1], "play") == 0;
    FILE *file = fopen(argv[2], playing ? "wb" : "rb");
    must(file != NULL, "no such file");
    if (playing) {
        play(file);
    } else {
        printf("mark %" PRIxPTR "\n", (uintptr_t)mark);
        measure(file);
    }
    return fclose(file) != 0;
}
