/* What floor.h promises, function by function. play() of scene.c holds every call to what is promised of all of them. */
#include "scene.h"
#include "desks.h"
#include <string.h>

#define COUNT(array) (sizeof array / sizeof *array)

static void assert_octets(const char *expected, const uint8_t *octets, size_t n)
{
    struct lent l;
    lend_hex(&l, expected);
    assert_int_equal(n, l.n);
    assert_memory_equal(octets, l.octets, n);
}

/* Refused, and with no room for a result too: 13 is tested last. */
static void assert_refused_first(int refusal, const struct face *f, const struct scene *s)
{
    struct scene no_room = *s;
    assert_refused(refusal, f, s);
    if (f->room) {
        lend_null(&no_room.lent[2]);
        assert_refused(refusal, f, &no_room);
    }
}

/* ---- The header's example ---- */

static void test_example(void **state)
{
    uint8_t desk[FLOOR_DESK], report[FLOOR_REPORT], packet[FLOOR_PACKET_OUT];
    (void)state;
    assert_int_equal(floor_make(desk, sizeof desk, 1, 200, 2, 2, 2, 30, 0), 0);
    assert_int_equal(floor_join(desk, sizeof desk, (const uint8_t *)"test1", 5, 10, 255, 1, 0), 0);
    assert_int_equal(floor_join(desk, sizeof desk, (const uint8_t *)"test2", 5, 11, 255, 1, 0), 1);
    assert_int_equal(floor_start(desk, sizeof desk, report, sizeof report), 0);
    assert_int_equal(floor_message(desk, sizeof desk, report, sizeof report, 0, packet, sizeof packet), 16);
    assert_octets("85 cc 00 03 00 00 00 01 4d 43 50 54 08 02 00 01", packet, 16);
    assert_octets("00 03", report + 14, 2);
}

/* ---- Thursday's exercise ---- */

/* After each event: the report (struck off, zero, placed, ended, given, how, zero; two messages of kind, seat, number, priority, zero, to), the
 * line (seat, priority), phase, sequence number and the timers that run. */
static const struct row {
    const char *report, *line;
    int phase, sequence, running;
} rows[EVENTS] = {
    {"0000 00 ff ff ff 00 00  05 00 0001 00 00 000f  ff 00 0000 00 00 0000", "", 1, 1, 1 << 4 | 1 << 7},
    {"0000 00 ff ff 00 01 00  01 00 0000 05 00 0001  02 00 0002 00 00 000e", "", 2, 2, 1 << 1},
    {"0000 00 01 ff ff 00 00  09 00 0001 05 00 0002  ff 00 0000 00 00 0000", "01 05", 2, 2, 1 << 1},
    {"0000 00 02 ff ff 00 00  09 00 0001 06 00 0004  ff 00 0000 00 00 0000", "02 06 01 05", 2, 2, 1 << 1},
    {"0000 00 ff ff ff 00 00  09 00 0002 06 00 0002  ff 00 0000 00 00 0000", "02 06 01 06", 2, 2, 1 << 1},
    {"0000 00 ff ff ff 00 00  03 00 0001 00 00 0008  ff 00 0000 00 00 0000", "02 06 01 06", 2, 2, 1 << 1},
    {"0000 00 ff ff ff 00 00  03 00 0007 00 00 0008  ff 00 0000 00 00 0000", "02 06 01 06", 2, 2, 1 << 1},
    {"0004 00 ff ff ff 00 00  ff 00 0000 00 00 0000  ff 00 0000 00 00 0000", "01 06", 2, 2, 1 << 1},
    {"0000 00 03 ff ff 00 00  06 00 0004 00 00 0001  ff 00 0000 00 00 0000", "03 c8 01 06", 3, 2, 1 << 1 | 1 << 3 | 1 << 8},
    {"0000 00 ff 00 03 02 00  01 00 0000 c8 00 0008  02 03 0003 00 00 0007", "01 06", 2, 3, 1 << 1 | 1 << 20},
    {"0000 00 ff ff ff 00 00  01 00 0000 c8 00 0008  ff 00 0000 00 00 0000", "01 06", 2, 3, 1 << 1 | 1 << 20},
    {"0000 00 ff 03 01 02 00  01 00 0000 06 00 0002  02 01 0004 00 00 000d", "", 2, 4, 1 << 1 | 1 << 20},
    {"0000 00 ff 01 ff 00 00  05 00 0005 00 00 000d  ff 00 0000 00 00 0000", "", 1, 5, 1 << 4 | 1 << 7},
};

static void test_thursday(void **state)
{
    uint8_t desk[FLOOR_DESK], report[FLOOR_REPORT], line[2 * FLOOR_SEATS];
    (void)state;
    memcpy(desk, thursday_desk(STOPPED), sizeof desk);
    for (int i = 0; i < EVENTS; i++) {
        print_message("%s", thursday[i].row);
        assert_int_equal(happen(desk, &thursday[i], report), 0);
        assert_octets(rows[i].report, report, sizeof report);
        int32_t waiting = floor_screen(desk, sizeof desk, line, sizeof line);
        assert_octets(rows[i].line, line, 2 * (size_t)waiting);
        assert_int_equal(floor_phase(desk, sizeof desk), rows[i].phase);
        assert_int_equal(floor_sequence(desk, sizeof desk), rows[i].sequence);
        assert_int_equal(floor_running(desk, sizeof desk), rows[i].running);
    }
    print_message("\n");
    assert_int_equal(floor_seats(desk, sizeof desk), 0xD);
    assert_int_equal(floor_c7(desk, sizeof desk), 1);
    assert_int_equal(floor_c20(desk, sizeof desk), 1);
}

/* The packet of row g's Deny, and the same with the Ack bit. */
static void test_deny_7(void **state)
{
    uint8_t desk[FLOOR_DESK], report[FLOOR_REPORT], packet[FLOOR_PACKET_OUT], message[FLOOR_MESSAGE], asking[FLOOR_PACKET_OUT];
    (void)state;
    memcpy(desk, thursday_desk(6), sizeof desk);
    assert_int_equal(happen(desk, &thursday[6], report), 0);
    assert_int_equal(floor_message(desk, sizeof desk, report, sizeof report, 0, packet, sizeof packet), 16);
    assert_octets("83 CC 00 03 00 00 00 01 4D 43 50 54 02 02 00 07", packet, 16);
    assert_int_equal(floor_read(packet, 16, message, sizeof message), 0);
    message[1] = 1;
    assert_int_equal(floor_write(message, sizeof message, packet, 16, asking, sizeof asking), 16);
    assert_octets("93 CC 00 03 00 00 00 01 4D 43 50 54 02 02 00 07", asking, 16);
}

/* A Deny leaves the desk as it was, octet for octet. */
static void test_deny_changes_nothing(void **state)
{
    uint8_t desk[FLOOR_DESK], report[FLOOR_REPORT];
    (void)state;
    for (int i = 5; i <= 6; i++) {
        memcpy(desk, thursday_desk(i), sizeof desk);
        assert_int_equal(happen(desk, &thursday[i], report), 0);
        assert_memory_equal(desk, thursday_desk(i), sizeof desk);
    }
}

/* ---- Refusals ---- */

static const struct {
    int refusal;
    const char *packet;
} bad_packets[] = {
    {1, ""},
    {1, "80cc0002 0000000a 4d4350"},
    {3, "40cc0002 0000000a 4d435054"},
    {3, "e0cd0000 0000000a 00000000"},
    {4, "a0cd0000 0000000a 00000000"},
    {5, "80cd0000 0000000a 00000000"},
    {6, "87cc0003 0000000a 00000000"},
    {6, "80cc0002 0000000a 4d435054 00020500"},
    {7, "87cc0002 0000000a 4d435055"},
    {8, "87cc0002 0000000a 4d435054"},
    {8, "8bcc0003 0000000a 4d435054 00ff0000"},
    {9, "80cc0003 0000000a 4d435054 00030500"},
    {9, "80cc0003 0000000a 4d435054 07030000"},
    {10, "80cc0003 0000000a 4d435054 c0ff0000"},
    {10, "80cc0003 0000000a 4d435054 00010500"},
    {10, "80cc0004 0000000a 4d435054 0d020500 00000000"}, /* zeros behind the fields are a field 0 of no octets */
    {10, "80cc0003 0000000a 4d435054 04000000"},
    {10, "80cc0003 0000000a 4d435054 05020100"},
    {10, "80cc0003 0000000a 4d435054 0a020004"},
    {11, "81cc0002 0000000a 4d435054"},
    {11, "8acc0003 0000000a 4d435054 0a020000"},
    {9, "80cc0004 0000000a 4d435054 00020500 00030600"},  /* a second field: 9, then 14, then 10 */
    {9, "80cc0004 0000000a 4d435054 06014100 06ff4100"},
    {14, "80cc0004 0000000a 4d435054 00020500 00000000"},
    {14, "80cc0004 0000000a 4d435054 00020500 00010500"},
    {14, "80cc0005 0000000a 4d435054 0d020500 0d060500 00000000"},
    {14, "80cc0004 0000000a 4d435054 06014100 06000000"},
    {14, "80cc0004 0000000a 4d435054 05020001 05020002"},
    {14, "80cc0004 0000000a 4d435054 0a020003 0a020004"},
    {10, "80cc0004 0000000a 4d435054 00020500 c0020500"}, /* from 192 on 10, once or twice */
    {10, "80cc0004 0000000a 4d435054 00020500 c0ff0500"},
    {10, "80cc0004 0000000a 4d435054 c0020500 c0020500"},
    {10, "80cc0004 0000000a 4d435054 00010500 00020500"}, /* an earlier fault, of the first of the two or of another, is answered */
    {10, "80cc0004 0000000a 4d435054 05020002 05020001"},
    {10, "80cc0005 0000000a 4d435054 05020002 00020500 00020500"},
    {10, "80cc0005 0000000a 4d435054 00020500 c0020000 00020500"},
    {9, "80cc0005 0000000a 4d435054 00020500 07ff0000 00020500"},
    {14, "80cc0005 0000000a 4d435054 00020500 00020500 0dff0500"}, /* and no later one: 9, 10, 11 */
    {14, "80cc0005 0000000a 4d435054 00020500 00020500 07ff0500"},
    {14, "80cc0005 0000000a 4d435054 00020500 00020500 05020002"},
    {14, "80cc0005 0000000a 4d435054 00020500 00020500 c0020000"},
    {14, "81cc0004 0000000a 4d435054 00020500 00020500"},
    {14, "8acc0004 0000000a 4d435054 0a020000 0a020000"},
};

/* The same from the reader and from the desk, in a stopped call too. */
static void assert_not_read(int refusal, const struct lent *packet)
{
    struct scene s;
    set_scene(&s, face("read"), NULL, "");
    s.lent[1] = *packet;
    assert_refused_first(refusal, face("read"), &s);
    for (int n = STOPPED; n <= IDLE; n++) {
        set_scene(&s, face("packet"), thursday_desk(n), "");
        s.lent[1] = *packet;
        assert_refused_first(refusal, face("packet"), &s);
    }
}

static void test_packet_refusals(void **state)
{
    struct scene s;
    struct lent packet;
    (void)state;
    for (size_t i = 0; i < COUNT(bad_packets); i++) {
        lend_hex(&packet, bad_packets[i].packet);
        assert_not_read(bad_packets[i].refusal, &packet);
    }
    set_scene(&s, face("read"), NULL, "");
    for (s.lent[1].n = 1025; s.lent[1].n <= MOST; s.lent[1].n += 341)
        assert_refused_first(2, face("read"), &s);
}

/* The table of fields: IDs, and lengths that it allows them. */
static const struct {
    unsigned id, length;
} table[] = {{0, 2}, {1, 2}, {2, 5}, {3, 2}, {4, 1}, {5, 2}, {6, 7}, {8, 2}, {10, 2}, {12, 2}, {13, 2}, {14, 6}};

static int in_the_table(unsigned id)
{
    for (size_t i = 0; i < COUNT(table); i++)
        if (table[i].id == id)
            return 1;
    return 0;
}

/* A packet of seat 0 without fields; and one more field, of zeros. */
static void lend_packet(struct lent *l, unsigned type)
{
    lend_hex(l, "80cc0002 0000000a 4d435054");
    l->octets[0] |= (uint8_t)type;
}

static void add_field(struct lent *l, unsigned id, unsigned length)
{
    l->octets[l->n] = (uint8_t)id;
    l->octets[l->n + 1] = (uint8_t)length;
    l->n += (2 + length + 3) / 4 * 4;
    l->octets[3] = (uint8_t)(l->n / 4 - 1);
}

static void lend_every_field(struct lent *l, unsigned type)
{
    lend_packet(l, type);
    for (size_t i = 0; i < COUNT(table); i++)
        add_field(l, table[i].id, table[i].length);
}

/* Each field of the table twice, in each type: alone, where something required may be missing; and behind every field, where nothing is. */
static void test_field_twice(void **state)
{
    static const unsigned types[] = {0, 1, 2, 3, 4, 5, 6, 8, 9, 10};
    (void)state;
    for (size_t t = 0; t < COUNT(types); t++) {
        struct lent packet;
        uint8_t message[FLOOR_MESSAGE];
        lend_every_field(&packet, types[t]);
        assert_int_equal(floor_read(packet.octets, packet.n, message, sizeof message), 0);
        for (size_t i = 0; i < COUNT(table); i++) {
            lend_packet(&packet, types[t]);
            add_field(&packet, table[i].id, table[i].length);
            add_field(&packet, table[i].id, table[i].length);
            assert_not_read(14, &packet);
            lend_every_field(&packet, types[t]);
            add_field(&packet, table[i].id, table[i].length);
            assert_not_read(14, &packet);
        }
    }
}

/* Read, and a step by it, as the other packet is. */
static void assert_read_as(const struct lent *packet, const struct lent *other)
{
    static const char *const names[] = {"read", "packet"};
    for (size_t i = 0; i < COUNT(names); i++) {
        const struct face *f = face(names[i]);
        struct scene one, two;
        set_scene(&one, f, thursday_desk(IDLE), "");
        two = one;
        one.lent[1] = *packet;
        two.lent[1] = *other;
        assert_int_equal(play(f, &one), 0);
        assert_int_equal(play(f, &two), 0);
        assert_memory_equal(one.lent[0].octets, two.lent[0].octets, MOST);
        assert_memory_equal(one.lent[2].octets, two.lent[2].octets, MOST);
    }
}

/* Every other ID three times, before and behind a field that counts: below 192 it is skipped each time, from there on refused. */
static void test_skipped_field_twice(void **state)
{
    (void)state;
    for (unsigned id = 0; id <= 255; id++) {
        struct lent bare, packet;
        if (in_the_table(id))
            continue;
        lend_packet(&bare, FLOOR_TYPE_REQUEST);
        add_field(&bare, FLOOR_FIELD_FLOOR_PRIORITY, 2);
        lend_packet(&packet, FLOOR_TYPE_REQUEST);
        add_field(&packet, id, 2);
        add_field(&packet, FLOOR_FIELD_FLOOR_PRIORITY, 2);
        add_field(&packet, id, 2);
        add_field(&packet, id, 9);
        if (id < 192)
            assert_read_as(&packet, &bare);
        else
            assert_not_read(10, &packet);
    }
}

#define REQUEST_OF_0 "80cc0003 0000000a 4d435054 00020500"
#define BARE_REQUEST_OF_0 "80cc0002 0000000a 4d435054"
#define RELEASE_OF_1 "84cc0002 0000000b 4d435054"
#define RELEASE_OF_2 "84cc0002 0000000c 4d435054"
#define ACK_OF_0 "8acc0004 0000000a 4d435054 0a020000 0c020100"
#define ACK_OF_NOBODY "8acc0004 0000000e 4d435054 0a020000 0c020100"
#define GRANTED_BY_THE_DESK "81cc0003 00000001 4d435054 0102001e"

static const struct {
    int refusal;
    const char *face;
    int desk; /* Thursday's, before this event */
    const char *in;
    uint32_t number;
} refused_steps[] = {
    {21, "stop", STOPPED, "", 0},
    {21, "packet", STOPPED, REQUEST_OF_0, 0},
    {21, "packet", STOPPED, ACK_OF_NOBODY, 0},
    {21, "media", STOPPED, "", 9999},
    {21, "timer", STOPPED, "", 4},
    {21, "timer", STOPPED, "", 99},
    {22, "leave", STOPPED, "", 4},
    {22, "leave", IDLE, "", 16},
    {22, "leave", IDLE, "", UINT32_MAX},
    {22, "packet", IDLE, ACK_OF_NOBODY, 0},
    {22, "packet", IDLE, GRANTED_BY_THE_DESK, 0},
    {22, "media", IDLE, "", DESK_SSRC},
    {22, "media", TAKEN, "", 0},
    {22, "holder", IDLE, "", 0},
    {22, "holder", STOPPED, "", 0},
    {22, "holder_priority", IDLE, "", 0},
    {22, "holder_priority", STOPPED, "", 0},
    {22, "seat", STOPPED, "", 4},
    {22, "seat", REVOKING, "", 16},
    {22, "seat", REVOKING, "", 256},
    {22, "seat", REVOKING, "", UINT32_MAX},
    {22, "seat_by_ssrc", TAKEN, "", DESK_SSRC},
    {22, "seat_by_ssrc", TAKEN, "", 0},
    {22, "seat_by_identity", TAKEN, "", 0},
    {22, "seat_by_identity", TAKEN, "74657374", 0},
    {22, "seat_by_identity", TAKEN, "746573743100", 0},
    {23, "start", IDLE, "", 0},
    {23, "start", REVOKING, "", 0},
    {23, "packet", IDLE, ACK_OF_0, 0},
    {23, "packet", IDLE, RELEASE_OF_1, 0},
    {23, "packet", TAKEN, RELEASE_OF_1, 0},
    {23, "packet", REVOKING, REQUEST_OF_0, 0},
    {23, "packet", REVOKING, BARE_REQUEST_OF_0, 0},
    {23, "packet", REVOKING, RELEASE_OF_2, 0},
    {23, "media", IDLE, "", FIRST_SSRC},
    {23, "media", REVOKING, "", FIRST_SSRC + 1},
    {23, "timer", IDLE, "", 1},
    {23, "timer", IDLE, "", 0},
    {23, "timer", IDLE, "", 21},
    {23, "timer", IDLE, "", 36}, /* 4 and a whole turn of 32 bits: no shift may wrap */
    {23, "timer", IDLE, "", UINT32_MAX},
    {23, "timer", TAKEN, "", 20},
    {23, "timer", REVOKING, "", 2},
};

static void test_step_refusals(void **state)
{
    struct scene s;
    (void)state;
    for (size_t i = 0; i < COUNT(refused_steps); i++) {
        const struct face *f = face(refused_steps[i].face);
        set_scene(&s, f, thursday_desk(refused_steps[i].desk), refused_steps[i].in);
        s.number[0] = refused_steps[i].number;
        assert_refused_first(refused_steps[i].refusal, f, &s);
    }
}

/* Join tests 25, 26, 27, 24. */
static void test_join_refusals(void **state)
{
    const struct face *join = face("join");
    struct scene s;
    (void)state;
    set_scene(&s, join, full_desk(), "");
    s.number[0] = DESK_SSRC;
    assert_refused(25, join, &s);
    s.lent[1].n = FLOOR_IDENTITY + 1;
    assert_refused(25, join, &s);
    memcpy(s.lent[1].octets, "aaaaaaaaaa", s.lent[1].n = 10);
    assert_refused(27, join, &s); /* the desk's SSRC */
    s.number[0] = FIRST_SSRC + 15;
    assert_refused(27, join, &s);
    lend_hex(&s.lent[1], "69"); /* "i": seat 8's identity */
    assert_refused(26, join, &s);
    lend_hex(&s.lent[1], "41");
    s.number[0] = FIRST_SSRC + 16;
    assert_refused(24, join, &s);
}

/* A setting outside its range, before the room for the desk. */
static void test_making_refusals(void **state)
{
    static const uint32_t outside[][7] = {
        {1, 0, 2, 2, 2, 30, 0},       {1, 256, 2, 2, 2, 30, 0},        {1, 200, 16, 2, 2, 30, 0},       {1, 200, 2, 0, 2, 30, 0},
        {1, 200, 2, 256, 2, 30, 0},   {1, 200, 2, 2, 0, 30, 0},        {1, 200, 2, 2, 256, 30, 0},      {1, 200, 2, 2, 2, 0, 0},
        {1, 200, 2, 2, 2, 65536, 0},  {1, UINT32_MAX, 2, 2, 2, 30, 0}, {1, 200, UINT32_MAX, 2, 2, 30, 0}, {1, 200, 2, 2, 2, 30, 256},
        {1, 200, 2, 2, 2, 30, 257},   {1, 200, 2, 2, 2, 30, 65536},    {1, 200, 2, 2, 2, 30, 1u << 31}, {1, 200, 2, 2, 2, 30, UINT32_MAX},
        {1, 0, 2, 2, 2, 30, 100},
    };
    const struct face *make = face("make");
    struct scene s;
    (void)state;
    for (size_t i = 0; i < COUNT(outside); i++) {
        set_scene(&s, make, thursday_desk(TAKEN), "");
        memcpy(s.number, outside[i], sizeof s.number);
        assert_refused(28, make, &s);
        lend_null(&s.lent[0]);
        assert_refused(28, make, &s);
    }
}

#define SEAT "01 ff 0000000a 05 7465737431 "
#define SEAT_AGAIN "00 07 0000000b 05 7465737431 "
#define SSRC_AGAIN "00 07 0000000a 05 7465737432 "
#define SETTINGS "00000001 c8 02 02 02 001e 0000 "

static const struct {
    int refusal;
    const char *sheet;
} bad_sheets[] = {
    {41, ""},
    {41, "000001 c8 02 02 02 001e 0000 0000 0000 00 01 4653"},
    {41, SEAT SETTINGS "000c 0000 01 02 4654"},
    {42, SEAT SETTINGS "000c 0000 11 02 4653"},
    {43, SEAT SETTINGS "000c 0000 11 01 4653"},
    {43, SEAT SETTINGS "000b 0000 01 01 4653"},
    {43, SEAT "00000001 00 02 02 02 001e 0000 000c 0001 01 01 4653"},
    {44, SEAT "00000001 00 02 02 02 001e 0000 000c 0000 00 01 4653"},
    {44, SEAT "00000001 c8 10 02 02 001e 0000 000c 0000 01 01 4653"},
    {44, SEAT "00000001 c8 02 00 02 001e 0000 000c 0000 01 01 4653"},
    {44, SEAT "00000001 c8 02 02 00 001e 0000 000c 0000 01 01 4653"},
    {44, SEAT "00000001 c8 02 02 02 0000 0000 000c 0000 01 01 4653"},
    {44, SEAT "00000001 c8 02 02 02 001e 0001 000c 0000 01 01 4653"},
    {44, SEAT "00000001 c8 02 02 02 001e 0100 000c 0000 01 01 4653"},
    {44, SEAT "00000001 c8 02 02 02 001e 0064 000c 0000 01 01 4653"},
    {44, SEAT "00000001 c8 02 02 02 001e 6400 000c 0000 01 01 4653"}, /* form 1 has no place for a normal level, */
    {42, SEAT "00000001 c8 02 02 02 001e 6400 000c 0000 01 02 4653"}, /* and there is no other form */
    {44, "04 ff 0000000a 05 7465737431 00000001 c8 02 02 02 001e ff00 000c 0000 01 01 4653"},
    {45, SEAT SETTINGS "000c 0000 00 01 4653"},
    {45, SEAT SETTINGS "000c 0000 02 01 4653"},
    {45, SETTINGS "0000 0000 01 01 4653"},
    {45, "04 ff 0000000a 05 7465737431 " SETTINGS "000c 0000 01 01 4653"},
    {45, "01 ff 0000000a 00 7465737431 " SETTINGS "000c 0000 01 01 4653"},
    {45, "01 ff 0000000a 04 7465737431 " SETTINGS "000c 0000 01 01 4653"},
    {45, "01 ff 0000000a 06 7465737431 " SETTINGS "000c 0000 01 01 4653"},
    {45, "01 ff 00000001 05 7465737431 " SETTINGS "000c 0000 01 01 4653"},
    {45, SEAT SEAT_AGAIN SETTINGS "0018 0000 02 01 4653"},
    {45, SEAT SSRC_AGAIN SETTINGS "0018 0000 02 01 4653"},
};

static void test_sheet_refusals(void **state)
{
    const struct face *load = face("load");
    struct scene s;
    (void)state;
    for (size_t i = 0; i < COUNT(bad_sheets); i++) {
        set_scene(&s, load, thursday_desk(TAKEN), bad_sheets[i].sheet);
        assert_refused(bad_sheets[i].refusal, load, &s);
        lend_null(&s.lent[0]);
        assert_refused(bad_sheets[i].refusal, load, &s);
    }
}

/* A message of floor_write: type, Ack bit, fields, SSRC, then 32 octets of the fields. */
#define TAKEN_BY(from, count) "02 00 0010 00000001 00 00 0000 0000 0000 0000 0000 0000 0000 00000000 0000 0000 " from count " 0000 0000"
#define BARE(type, ack, fields) type ack fields "00000001 00 00 0000 0000 0000 0002 0000 0004 0000 00000000 0000 00fe 0000 003f 0000 0000"

static const char *const unreadable[] = {
    BARE("07", "00", "0000"),     /* a type that is not listed */
    BARE("10", "00", "0000"),
    BARE("00", "02", "0000"),     /* an Ack bit above 1 */
    BARE("00", "00", "0080"),     /* a field that is not in the table */
    BARE("00", "00", "8000"),
    BARE("01", "00", "0000"),     /* a required field is missing */
    BARE("0a", "00", "0400"),
    BARE("00", "00", "0004"),     /* a phrase of 254 octets */
    BARE("00", "00", "0010"),     /* identities of 63 and of no octets */
    BARE("00", "00", "0040"),
    BARE("00", "00", "0020"),     /* permission 2, source 4 */
    BARE("00", "00", "0400"),
    TAKEN_BY("0000", "0005"),     /* a part that is not in the source, which has 4 octets */
    TAKEN_BY("0004", "0001"),
    TAKEN_BY("ffff", "0001"),
    "03 00 0004 00000001 00 00 0000 0007 0000 0000 0000 0000 0000 00000000 0005 0000 0000 0000 0000 0000", /* also one of no octets */
    TAKEN_BY("0000", "0004") "00", /* 41 octets */
    "",
};

static void test_writer_refusals(void **state)
{
    const struct face *write = face("write");
    struct scene s;
    (void)state;
    for (size_t i = 0; i < COUNT(unreadable); i++) {
        set_scene(&s, write, NULL, "74657374");
        lend_hex(&s.lent[0], unreadable[i]);
        assert_refused_first(12, write, &s);
    }
    set_scene(&s, write, NULL, "74657374");
    lend_hex(&s.lent[0], TAKEN_BY("0000", "0004"));
    s.lent[0].n = FLOOR_MESSAGE - 1;
    assert_refused_first(12, write, &s);
    s.lent[0].n = FLOOR_MESSAGE;
    assert_int_equal(play(write, &s), 20);
}

/* Reports that are none, and what there is no packet for. */
#define FIRST(message) "0000 00 ff ff ff 00 00 " message " ff 00 0000 00 00 0000"

static const struct {
    int32_t answer;
    const char *report;
} messages[] = {
    {16, FIRST("05 00 ffff 00 00 ffff")},
    {16, FIRST("03 00 ffff 00 00 0000")},
    {16, FIRST("09 00 00ff ff 00 8000")},
    {20, FIRST("01 00 0000 ff 00 0001")},
    {28, FIRST("02 00 0000 00 00 0000")},
    {16, FIRST("03 00 270f 00 00 0001")}, /* causes and places that no step sends */
    {16, FIRST("03 00 0000 00 00 0001")},
    {16, FIRST("06 00 0007 00 00 0001")},
    {16, FIRST("09 00 0000 00 00 0001")},
    {16, FIRST("09 00 00c8 05 00 0001")},
    {16, "ffff ff 00 00 00 ff ff 05 00 0001 00 00 000f 00 00 0000 00 00 0000"}, /* nothing else of the report is looked at */
    {0, FIRST("ff 00 0000 00 00 0000")},
    {0, FIRST("ff 00 0000 00 00 ffff")},
    {-12, FIRST("00 00 0000 00 00 0001")}, /* kinds that the desk does not send */
    {-12, FIRST("04 00 0000 00 00 0001")},
    {-12, FIRST("0a 00 0000 00 00 0001")},
    {-12, FIRST("fe 00 0000 00 00 0001")},
    {-12, FIRST("02 04 0001 00 00 0001")}, /* a free seat, and no seat */
    {-12, FIRST("02 10 0001 00 00 0001")},
    {-12, FIRST("05 01 0001 00 00 0001")}, /* what the kind has no use for */
    {-12, FIRST("05 00 0001 01 00 0001")},
    {-12, FIRST("05 00 0001 00 01 0001")},
    {-12, FIRST("01 00 0001 05 00 0001")},
    {-12, FIRST("02 00 0001 01 00 0001")},
    {-12, FIRST("03 01 0001 00 00 0001")},
    {-12, FIRST("06 00 0004 01 00 0001")},
    {-12, FIRST("09 00 0100 05 00 0001")},
    {-12, FIRST("ff 00 0001 00 00 0000")},
    {-12, FIRST("ff 01 0000 00 00 0000")},
    {-12, FIRST("ff 00 0000 01 00 0000")},
    {-12, FIRST("ff 00 0000 00 01 0000")},
    {-12, FIRST("05 00 0001 00 00 0001") "00"}, /* 25 octets */
    {-12, ""},
};

static void test_report_messages(void **state)
{
    const struct face *message = face("message");
    struct scene s;
    (void)state;
    for (size_t i = 0; i < COUNT(messages); i++) {
        set_scene(&s, message, thursday_desk(TAKEN), messages[i].report);
        if (messages[i].answer == -12)
            assert_refused_first(12, message, &s);
        else
            assert_int_equal(play(message, &s), messages[i].answer);
    }
    for (uint32_t which = 1; which != 0; which *= 2) { /* there is no second message, nor any other */
        set_scene(&s, message, thursday_desk(TAKEN), FIRST("05 00 0001 00 00 000f"));
        s.number[0] = which;
        assert_int_equal(play(message, &s), 0);
        s.lent[1].n--;
        assert_refused_first(12, message, &s);
    }
}

/* ---- 20, before all else ---- */

/* With nothing that is right beside the desk. */
static void assert_not_a_desk(const struct scene *with_desk)
{
    for (size_t i = 0; i < face_count; i++) {
        struct scene s = *with_desk;
        if (!takes_desk(&faces[i]))
            continue;
        lend_null(&s.lent[1]);
        lend_null(&s.lent[2]);
        s.number[0] = UINT32_MAX;
        assert_refused(20, &faces[i], &s);
    }
}

static void test_not_a_desk(void **state)
{
    struct scene s;
    (void)state;
    set_scene(&s, face("phase"), thursday_desk(REVOKING), "");
    s.lent[0].n = FLOOR_DESK - 1;
    assert_not_a_desk(&s);
    s.lent[0].n = FLOOR_DESK + 1; /* a zero behind it */
    assert_not_a_desk(&s);
    s.lent[0].n = 0;
    assert_not_a_desk(&s);
    lend_null(&s.lent[0]);
    assert_not_a_desk(&s);
    lend_room(&s.lent[0], FLOOR_DESK);
    assert_not_a_desk(&s);
    memset(s.lent[0].octets, 0, FLOOR_DESK);
    assert_not_a_desk(&s);
}

/* ---- Room ---- */

/* A scene with a result of n octets in lent buffer b: with room for exactly n, for more, and for one less. */
static void assert_room(const struct face *f, const struct scene *s, int b, size_t n)
{
    struct scene exact = *s, more = *s, less = *s;
    lend_room(&exact.lent[b], n);
    assert_true(play(f, &exact) >= 0);
    lend_room(&more.lent[b], n + 100);
    assert_true(play(f, &more) >= 0);
    assert_memory_equal(exact.lent[b].octets, more.lent[b].octets, n);
    if (n > 0) {
        lend_room(&less.lent[b], n - 1);
        assert_refused(13, f, &less);
        lend_null(&less.lent[b]);
        assert_refused(13, f, &less);
    }
}

static void test_room_for_reports(void **state)
{
    static const struct {
        const char *face;
        int desk;
        const char *in;
        uint32_t number;
    } steps[] = {
        {"leave", TAKEN, "", 0},
        {"leave", STOPPED, "", 3},
        {"start", STOPPED, "", 0},
        {"stop", REVOKING, "", 0},
        {"packet", IDLE, REQUEST_OF_0, 0},
        {"packet", TWO_WAIT, RELEASE_OF_1, 0},
        {"media", TAKEN, "", FIRST_SSRC},
        {"media", REVOKING, "", FIRST_SSRC},
        {"timer", IDLE, "", 7},
        {"timer", IDLE, "", 4},
        {"timer", REVOKING, "", 8},
        {"timer", OUT_OF_THE_LINE, "", 20},
    };
    struct scene s;
    (void)state;
    for (size_t i = 0; i < COUNT(steps); i++) {
        const struct face *f = face(steps[i].face);
        set_scene(&s, f, thursday_desk(steps[i].desk), steps[i].in);
        s.number[0] = steps[i].number;
        assert_room(f, &s, 2, FLOOR_REPORT);
    }
}

static void test_room_for_packets(void **state)
{
    struct scene s;
    (void)state;
    set_scene(&s, face("read"), NULL, REQUEST_OF_0);
    assert_room(face("read"), &s, 2, FLOOR_MESSAGE);
    set_scene(&s, face("write"), NULL, "74657374");
    lend_hex(&s.lent[0], TAKEN_BY("0000", "0004"));
    assert_room(face("write"), &s, 2, 20);
    set_scene(&s, face("message"), thursday_desk(TAKEN), FIRST("02 01 0002 00 00 0001"));
    assert_room(face("message"), &s, 2, 28);
    s.number[0] = 1;
    assert_room(face("message"), &s, 2, 0);
}

static void test_room_for_desks(void **state)
{
    struct scene s;
    (void)state;
    set_scene(&s, face("make"), NULL, "");
    memcpy(s.number, (const uint32_t[]){1, 200, 2, 2, 2, 30, 100}, sizeof s.number);
    assert_room(face("make"), &s, 0, FLOOR_DESK);
    set_scene(&s, face("load"), NULL, SEAT SETTINGS "000c 0000 01 01 4653");
    assert_room(face("load"), &s, 0, FLOOR_DESK);
}

static void test_room_for_sheet_and_screen(void **state)
{
    struct scene s;
    (void)state;
    set_scene(&s, face("save"), thursday_desk(STOPPED), "");
    assert_room(face("save"), &s, 2, 20 + 4 * 7 + 5 + 6 + 5 + 5);
    set_scene(&s, face("settings"), full_desk(), "");
    assert_room(face("settings"), &s, 2, FLOOR_SETTINGS);
    set_scene(&s, face("seat"), full_desk(), "");
    assert_room(face("seat"), &s, 2, FLOOR_SEAT);
    s.number[0] = 8;
    assert_room(face("seat"), &s, 2, 8);
    set_scene(&s, face("screen"), thursday_desk(REVOKING), "");
    assert_room(face("screen"), &s, 2, 4);
    set_scene(&s, face("screen"), full_desk(), "");
    assert_room(face("screen"), &s, 2, 30);
    set_scene(&s, face("screen"), thursday_desk(STOPPED), "");
    assert_room(face("screen"), &s, 2, 0);
}

/* A null pointer with a length of 0, in every place: the answer with nothing lent at [0], [1], [2]. */
static const struct {
    const char *face;
    int desk;
    const char *in;
    int32_t answers[3];
} nulls[] = {
    {"make", STOPPED, "", {-13, 0, 0}},
    {"load", STOPPED, SETTINGS "0000 0000 00 01 4653", {-13, -41, 0}},
    {"join", STOPPED, "41", {-20, -25, 4}},
    {"leave", STOPPED, "", {-20, 0, -13}},
    {"start", STOPPED, "", {-20, 0, -13}},
    {"stop", IDLE, "", {-20, 0, -13}},
    {"packet", IDLE, REQUEST_OF_0, {-20, -1, -13}},
    {"media", TAKEN, "", {-20, -22, -22}},
    {"timer", TAKEN, "", {-20, -23, -23}},
    {"read", STOPPED, REQUEST_OF_0, {0, -1, -13}},
    {"message", STOPPED, FIRST("05 00 0001 00 00 0001"), {-20, -12, -13}},
    {"save", STOPPED, "", {-20, 69, -13}},
    {"screen", STOPPED, "", {-20, 0, 0}},
    {"phase", IDLE, "", {-20, 1, 1}},
    {"holder", IDLE, "", {-20, -22, -22}},
    {"holder_priority", IDLE, "", {-20, -22, -22}},
    {"running", IDLE, "", {-20, 0x90, 0x90}},
    {"sequence", IDLE, "", {-20, 1, 1}},
    {"c7", IDLE, "", {-20, 1, 1}},
    {"c20", IDLE, "", {-20, 0, 0}},
    {"seats", IDLE, "", {-20, 15, 15}},
    {"seat_by_ssrc", IDLE, "", {-20, -22, -22}},
    {"seat_by_identity", IDLE, "7465737431", {-20, -22, 0}},
    {"seat", IDLE, "", {-20, 12, -13}},
    {"settings", IDLE, "", {-20, 12, -13}},
    {"starts", IDLE, FIRST("ff 00 0000 00 00 0000"), {136, -12, 136}},
};

static void test_null(void **state)
{
    struct scene s;
    (void)state;
    for (size_t i = 0; i < COUNT(nulls); i++)
        for (int b = 0; b < 3; b++) {
            const struct face *f = face(nulls[i].face);
            set_scene(&s, f, thursday_desk(nulls[i].desk), nulls[i].in);
            memcpy(s.number, (const uint32_t[]){0, 200, 2, 2, 2, 30, 0}, sizeof s.number);
            lend_null(&s.lent[b]);
            int32_t answer = play(f, &s);
            if (answer != nulls[i].answers[b])
                fail_msg("%s answered %d with nothing lent at %d", f->name, (int)answer, b);
        }
}

/* A message with no parts needs no source. */
static void test_null_source(void **state)
{
    const struct face *write = face("write");
    struct scene s;
    (void)state;
    set_scene(&s, write, NULL, "");
    lend_hex(&s.lent[0], BARE("00", "01", "0003"));
    lend_null(&s.lent[1]);
    assert_int_equal(play(write, &s), 20);
    lend_hex(&s.lent[0], TAKEN_BY("0000", "0001"));
    assert_refused_first(12, write, &s);
    lend_null(&s.lent[0]);
    assert_refused_first(12, write, &s);
}

/* ---- Results ---- */

/* Whatever is not 0 is yes, and is kept as 1. */
static void test_yes_and_no(void **state)
{
    uint8_t desk[FLOOR_DESK], other[FLOOR_DESK];
    (void)state;
    memcpy(desk, thursday_desk(IDLE), sizeof desk);
    memcpy(other, desk, sizeof other);
    assert_int_equal(floor_join(desk, sizeof desk, (const uint8_t *)"x", 1, 99, 7, 255, 2), 4);
    assert_int_equal(floor_join(other, sizeof other, (const uint8_t *)"x", 1, 99, 7, 1, 1), 4);
    assert_memory_equal(desk, other, sizeof desk);
    assert_int_equal(floor_seat_by_ssrc(desk, sizeof desk, 99), 4);
    assert_int_equal(floor_seat_by_identity(desk, sizeof desk, (const uint8_t *)"x", 1), 4);
    assert_int_equal(floor_seat_by_identity(desk, sizeof desk, (const uint8_t *)"test10", 6), 1);
    assert_int_equal(floor_seat_by_identity(desk, sizeof desk, (const uint8_t *)"test1", 5), 0);
}

/* Who holds the floor, a seat and the settings, as the sheet has them: what floor_save lays down, piece by piece. */
static void test_holder_seat_settings(void **state)
{
    struct scene s, sheet;
    (void)state;
    set_scene(&s, face("seat"), thursday_desk(REVOKING), "");
    assert_int_equal(play(face("holder"), &s), 0);
    assert_int_equal(play(face("holder_priority"), &s), 5);
    sheet = s;
    lend_room(&sheet.lent[2], FLOOR_SHEET);
    int32_t length = play(face("save"), &sheet), at = 0;
    for (s.number[0] = 0; s.number[0] < 4; s.number[0]++) {
        lend_room(&s.lent[2], FLOOR_SEAT);
        int32_t n = play(face("seat"), &s);
        assert_int_equal(n, s.number[0] == 1 ? 13 : 12);
        assert_memory_equal(s.lent[2].octets, sheet.lent[2].octets + at, (size_t)n);
        at += n;
    }
    lend_room(&s.lent[2], FLOOR_SETTINGS);
    assert_int_equal(play(face("settings"), &s), FLOOR_SETTINGS);
    assert_memory_equal(s.lent[2].octets, sheet.lent[2].octets + at, FLOOR_SETTINGS);
    assert_int_equal(at + FLOOR_SETTINGS + 8, length);
    set_scene(&s, face("holder"), thursday_desk(OUT_OF_THE_LINE), "");
    assert_int_equal(play(face("holder"), &s), 3);
    assert_int_equal(play(face("holder_priority"), &s), 200);
}

/* Which clocks to start anew: before, after, what fired, how the floor was given, and the set. */
enum { T1 = 1 << 1, T2 = 1 << 2, T3 = 1 << 3, T4 = 1 << 4, T7 = 1 << 7, T8 = 1 << 8, T20 = 1 << 20 };
static const struct {
    uint32_t before, after, fired;
    int how;
    int32_t starts, stops;
} clocks[] = {
    {0, T4 | T7, 0, 0, T4 | T7, 0},                                     /* the call starts */
    {T4 | T7, T4 | T7, 7, 0, T7, 0},                                    /* T7 sends Idle again and runs on */
    {T4 | T7, T4, 7, 0, 0, T7},                                         /* at its limit it stops */
    {T4 | T7, T1, 0, 1, T1, T4 | T7},                                   /* given at once */
    {T1, T1, 0, 0, 0, 0},                                               /* nothing of the clocks' */
    {T1, T1 | T2, 0, 0, T2, 0},                                         /* media */
    {T1 | T2, T1 | T2, 0, 0, 0, 0},                                     /* media again */
    {T1 | T2, T1 | T3 | T8, 2, 0, T3 | T8, T2},                         /* revoked: T1 runs on */
    {T1 | T3 | T8, T1 | T3 | T8, 8, 0, T8, 0},                          /* Revoke again */
    {T1 | T3 | T8, T1 | T20, 3, 2, T1 | T20, T3 | T8},                  /* given to the next: T1 ran before, and starts anew */
    {T1 | T20, T1 | T20, 20, 0, T20, 0},                                /* Granted again: T1 goes on */
    {T1 | T20, T1 | T20, 20, 2, T1 | T20, 0},                           /* at its limit: given to the next */
    {T1 | T20, T1 | T20, 0, 2, T1 | T20, 0},                            /* a release: given to the next */
    {T1 | T20, T1 | T2, 0, 0, T2, T20},                                 /* media */
    {T1 | T3 | T8, T4 | T7, 0, 0, T4 | T7, T1 | T3 | T8},               /* the floor ends, nobody waits */
    {T4, 0, 4, 0, 0, T4},                                               /* inactivity */
    {T1, T1, 2, 0, 0, 0},                                               /* one that does not run after it has nothing to start */
    {T1 | T2, T1 | T2, 33, 0, 0, 0},                                    /* no timer, also after a turn of 32 bits */
    {T1 | T2, T1 | T2, UINT32_MAX, 0, 0, 0},
    {T1 | T2, T1 | T2, 1, 0, T1, 0},
    {0, UINT32_MAX, 0, 0, T1 | T2 | T3 | T4 | T7 | T8 | T20, 0},        /* other bits count for nothing */
    {UINT32_MAX, 0, 5, 2, 0, T1 | T2 | T3 | T4 | T7 | T8 | T20},
    {UINT32_MAX, UINT32_MAX, 5, 0, 0, 0},
    {UINT32_MAX, UINT32_MAX, 31, 0, 0, 0},
    {UINT32_MAX, UINT32_MAX, 0, 1, T1 | T20, 0},
    {0, T1, 0, 3, -12, 0},                                              /* given in no such way */
    {0, T1, 0, 255, -12, 0},
};

static void test_clocks(void **state)
{
    struct scene s;
    (void)state;
    for (size_t i = 0; i < COUNT(clocks); i++) {
        set_scene(&s, face("starts"), NULL, FIRST("05 00 0001 00 00 0001"));
        memcpy(s.number, (const uint32_t[]){clocks[i].before, clocks[i].after, clocks[i].fired}, 3 * sizeof *s.number);
        s.lent[1].octets[6] = (uint8_t)clocks[i].how;
        int32_t starts = play(face("starts"), &s), stops = play(face("stops"), &s);
        if (starts != clocks[i].starts || stops != clocks[i].stops)
            fail_msg("row %d: starts %x, stops %x", (int)i, (unsigned)starts, (unsigned)stops);
        s.lent[1].n--;
        assert_refused(12, face("starts"), &s);
        s.lent[1].n += 2;
        assert_refused(12, face("starts"), &s);
    }
}

static void test_version(void **state)
{
    struct scene s;
    (void)state;
    set_scene(&s, face("version"), NULL, "");
    assert_int_equal(play(face("version"), &s), FLOOR_VERSION);
}

/* A message with every field of the table: its packet, padding and spare octets zero; and the message read back, with its parts now in the
 * packet. */
static void test_every_field(void **state)
{
    struct scene s;
    (void)state;
    set_scene(&s, face("write"), NULL, "78 616263 61626364");
    lend_hex(&s.lent[0], "0a 01 757f ffffffff 05 04 1234 0102 01 02 0001 ffff 0003 8000 deadbeef 0000 0001 0001 0003 0004 0004");
    assert_int_equal(play(face("write"), &s), 76);
    assert_octets("9acc0012 ffffffff 4d435054 00020500 01021234 02030102 78000000 03020102 04036162 63000000 05020001 06046162 63640000 "
                  "0802ffff 0a020003 0c020400 0d028000 0e06dead beef0000", s.lent[2].octets, 76);
    s.lent[1] = s.lent[2];
    s.lent[1].n = 76;
    lend_room(&s.lent[2], FLOOR_MESSAGE);
    assert_int_equal(play(face("read"), &s), 0);
    assert_octets("0a 01 757f ffffffff 05 04 1234 0102 01 02 0001 ffff 0003 8000 deadbeef 0018 0001 0022 0003 002e 0004", s.lent[2].octets, 40);
}

/* Any order, spare octets and padding with something in them, skipped fields, one of them again with other content. */
static void test_what_a_reader_passes_over(void **state)
{
    struct scene s;
    (void)state;
    set_scene(&s, face("read"), NULL, "80cc0009 0000000a 4d435054 0e060000 0065eeee 07057777 77777777 000205ee 07020600 0401ee55");
    assert_int_equal(play(face("read"), &s), 0);
    assert_octets("00 00 4011 0000000a 05 00 0000 0000 00 00 0000 0000 0000 0000 00000065 0000 0000 0026 0001 0000 0000", s.lent[2].octets, 40);
}

/* Who asks again at the same priority keeps its place; at another one it goes behind all of at least that priority. */
static void test_asking_again(void **state)
{
    static const struct event same = {"", ASK, 2, 6}, lower = {"", ASK, 2, 5}, higher = {"", ASK, 1, 7};
    uint8_t desk[FLOOR_DESK], report[FLOOR_REPORT], line[4];
    (void)state;
    memcpy(desk, thursday_desk(5), sizeof desk);
    assert_int_equal(happen(desk, &same, report), 0);
    assert_memory_equal(desk, thursday_desk(5), sizeof desk);
    assert_octets("0000 00 ff ff ff 00 00  09 00 0001 06 00 0004  ff 00 0000 00 00 0000", report, sizeof report);
    assert_int_equal(happen(desk, &lower, report), 0);
    assert_int_equal(floor_screen(desk, sizeof desk, line, sizeof line), 2);
    assert_octets("01 06 02 05", line, sizeof line);
    assert_int_equal(happen(desk, &higher, report), 0);
    assert_int_equal(floor_screen(desk, sizeof desk, line, sizeof line), 2);
    assert_octets("01 07 02 05", line, sizeof line);
}

/* Identities of 61, 62 and 63 octets, packets of 12 and of 1,024. */
static void test_lengths(void **state)
{
    uint8_t desk[FLOOR_DESK], name[63], packet[1024] = {0x80, 204, 0, 255, 0, 0, 0, 10, 'M', 'C', 'P', 'T'}, message[FLOOR_MESSAGE];
    (void)state;
    memcpy(desk, thursday_desk(STOPPED), sizeof desk);
    memset(name, 'n', sizeof name);
    assert_int_equal(floor_join(desk, sizeof desk, name, 61, 61, 0, 0, 0), 4);
    assert_int_equal(floor_join(desk, sizeof desk, name, 62, 62, 0, 0, 0), 5);
    assert_int_equal(floor_join(desk, sizeof desk, name, 63, 63, 0, 0, 0), FLOOR_REFUSAL_IDENTITY_LENGTH);
    for (size_t at = 12; at < sizeof packet; at += 4)
        packet[at] = 7; /* a skipped field with nothing in it */
    assert_int_equal(floor_read(packet, sizeof packet, message, sizeof message), 0);
    packet[3] = 2;
    assert_int_equal(floor_read(packet, 12, message, sizeof message), 0);
}

/* Every start sends an Idle, and each adds 1: 65,535 goes on with 0. */
static void test_sequence_turns_over(void **state)
{
    uint8_t desk[FLOOR_DESK], report[FLOOR_REPORT];
    (void)state;
    memcpy(desk, thursday_desk(STOPPED), sizeof desk);
    for (unsigned n = 1; n <= 65537; n++) {
        assert_int_equal(floor_start(desk, sizeof desk, report, sizeof report), 0);
        assert_int_equal(floor_sequence(desk, sizeof desk), n % 65536);
        assert_int_equal(256u * report[10] + report[11], n % 65536);
        assert_int_equal(floor_stop(desk, sizeof desk, report, sizeof report), 0);
    }
}

/* What was saved loads to a desk that saves the same octets, from any phase. */
static void test_saved_again(void **state)
{
    (void)state;
    for (int n = 0; n <= EVENTS + 1; n++) {
        const uint8_t *desk = n <= EVENTS ? thursday_desk(n) : full_desk();
        uint8_t sheet[FLOOR_SHEET], again[FLOOR_SHEET], loaded[FLOOR_DESK];
        int32_t length = floor_save(desk, FLOOR_DESK, sheet, sizeof sheet);
        assert_true(length >= 20);
        assert_int_equal(floor_load(loaded, sizeof loaded, sheet, (size_t)length), 0);
        assert_int_equal(floor_phase(loaded, sizeof loaded), FLOOR_PHASE_STOPPED);
        assert_int_equal(floor_save(loaded, sizeof loaded, again, sizeof again), length);
        assert_memory_equal(sheet, again, (size_t)length);
    }
}

/* ---- The normal level: document 02, #101 ---- */

enum { NORMAL = 186 }; /* its place in a desk; in the settings it is 10 */

/* A desk of any normal level is that of level 0 but for one octet, all through Thursday's events, which name their priorities. */
static void test_normal_level_stands(void **state)
{
    struct scene s;
    (void)state;
    for (uint32_t normal = 0; normal <= 255; normal++)
        for (int n = STOPPED; n <= EVENTS; n++) {
            uint8_t desk[FLOOR_DESK], settings[] = {0, 0, 0, 1, 200, 2, 2, 2, 0, 30, (uint8_t)normal, 0};
            memcpy(desk, thursday_desk(n), sizeof desk);
            desk[NORMAL] = (uint8_t)normal;
            assert_memory_equal(thursday_desk_at(normal, n), desk, sizeof desk);
            if (normal % 51 != 0) /* six of them are enough for the slower look */
                continue;
            set_scene(&s, face("settings"), desk, "");
            assert_int_equal(play(face("settings"), &s), FLOOR_SETTINGS);
            assert_memory_equal(s.lent[2].octets, settings, sizeof settings);
        }
}

/* What a request counts as, by the normal level, the seat's highest priority and the field, -1 for none. */
static const struct counted {
    uint32_t normal;
    uint8_t highest;
    int asked, counts;
} counted[] = {
    {0, 255, -1, 0},     {0, 0, -1, 0},       {1, 255, -1, 1},     {100, 255, -1, 100}, {255, 255, -1, 255},
    {100, 100, -1, 100}, {100, 99, -1, 99},   {100, 1, -1, 1},     {100, 0, -1, 0},     {255, 254, -1, 254}, /* no more than the highest */
    {100, 255, 0, 0},    {100, 99, 0, 0},     {255, 255, 0, 0},    {1, 255, 0, 0},                           /* a field that says 0 is 0, */
    {100, 255, 1, 1},    {100, 255, 99, 99},  {100, 255, 101, 101}, {100, 50, 49, 49},  {100, 50, 200, 50},  /* and any other what it says */
    {199, 255, -1, 199}, {200, 255, -1, 200}, {201, 255, -1, 201}, {255, 199, -1, 199}, {255, 200, -1, 200}, /* 200 is pre-emptive */
    {200, 255, 199, 199}, {199, 255, 200, 200}, {0, 255, 200, 200}, {7, 255, -1, 7},    {7, 6, -1, 6},
};

/* Seat 0 and seat 1, which both queue, in Idle; seat 1 has the row's highest priority. */
static void open_counted(uint8_t *desk, const struct counted *row)
{
    uint8_t report[FLOOR_REPORT];
    assert_int_equal(floor_make(desk, FLOOR_DESK, DESK_SSRC, 200, 2, 2, 2, 30, row->normal), 0);
    assert_int_equal(floor_join(desk, FLOOR_DESK, (const uint8_t *)"a", 1, FIRST_SSRC, 255, 1, 0), 0);
    assert_int_equal(floor_join(desk, FLOOR_DESK, (const uint8_t *)"b", 1, FIRST_SSRC + 1, row->highest, 1, 0), 1);
    assert_int_equal(floor_start(desk, FLOOR_DESK, report, sizeof report), 0);
}

/* Seat 1 asks while seat 0 holds the floor at 3. It waits at what its request counts as, and presses from 200 on; when the floor of seat 0
 * ends, it is given the floor at that. */
static void assert_waits(uint8_t *desk, const struct counted *row)
{
    const struct event asks = {"", ASK, 1, row->asked};
    uint8_t report[FLOOR_REPORT], line[2 * FLOOR_LINE];
    assert_int_equal(happen(desk, &asks, report), 0);
    assert_int_equal(report[8], FLOOR_TYPE_QUEUE_POSITION_INFO);
    assert_int_equal(report[12], row->counts);
    assert_int_equal(report[16], row->counts >= 200 ? FLOOR_TYPE_REVOKE : FLOOR_TYPE_NOTHING);
    assert_int_equal(floor_phase(desk, FLOOR_DESK), row->counts >= 200 ? FLOOR_PHASE_REVOKING : FLOOR_PHASE_TAKEN);
    assert_int_equal(floor_screen(desk, FLOOR_DESK, line, sizeof line), 1);
    assert_true(line[0] == 1 && line[1] == row->counts);
    assert_int_equal(floor_timer(desk, FLOOR_DESK, 1, report, sizeof report), 0);
    assert_int_equal(floor_holder(desk, FLOOR_DESK), 1);
    assert_int_equal(floor_holder_priority(desk, FLOOR_DESK), row->counts);
}

/* Given at once; placed; asking again in line, where it is moved; and the holder asking again, which changes nothing. */
static void test_what_a_request_counts_as(void **state)
{
    static const struct event first = {"", ASK, 0, 3}, at_7 = {"", ASK, 1, 7}, again = {"", ASK, 1, -1};
    (void)state;
    for (size_t i = 0; i < COUNT(counted); i++) {
        const struct event asks = {"", ASK, 1, counted[i].asked};
        uint8_t desk[FLOOR_DESK], before[FLOOR_DESK], report[FLOOR_REPORT];
        open_counted(desk, &counted[i]);
        assert_int_equal(happen(desk, &asks, report), 0);
        assert_true(report[5] == 1 && report[6] == FLOOR_GIVEN_AT_ONCE);
        assert_true(report[8] == FLOOR_TYPE_GRANTED && report[12] == counted[i].counts);
        assert_int_equal(floor_holder_priority(desk, sizeof desk), counted[i].counts);
        memcpy(before, desk, sizeof before);
        assert_int_equal(happen(desk, &again, report), 0);
        assert_true(report[5] == FLOOR_NO_SEAT && report[8] == FLOOR_TYPE_GRANTED && report[12] == counted[i].counts);
        assert_memory_equal(desk, before, sizeof desk);
        open_counted(desk, &counted[i]);
        assert_int_equal(happen(desk, &first, report), 0);
        memcpy(before, desk, sizeof before);
        assert_waits(desk, &counted[i]);
        assert_int_equal(happen(before, &at_7, report), 0);
        assert_waits(before, &counted[i]);
    }
}

/* Requests on Thursday's desk with a normal level, -1 for no field: the report and the line. The pre-emptive level is 200. */
static const struct {
    uint32_t normal;
    int desk;
    uint32_t seat;
    int priority;
    const char *report, *line;
} asked[] = {
    {0, IDLE, 2, -1, "0000 00 ff ff 02 01 00  01 00 0000 00 00 0004  02 02 0002 00 00 000b", ""},
    {100, IDLE, 2, -1, "0000 00 ff ff 02 01 00  01 00 0000 64 00 0004  02 02 0002 00 00 000b", ""},
    {100, IDLE, 2, 0, "0000 00 ff ff 02 01 00  01 00 0000 00 00 0004  02 02 0002 00 00 000b", ""},
    /* seat 0 holds the floor at 5, and keeps that; seat 3 does not queue, and is placed if it presses */
    {100, TAKEN, 0, -1, "0000 00 ff ff ff 00 00  01 00 0000 05 00 0001  ff 00 0000 00 00 0000", ""},
    {200, TAKEN, 0, -1, "0000 00 ff ff ff 00 00  01 00 0000 05 00 0001  ff 00 0000 00 00 0000", ""},
    {199, TAKEN, 3, -1, "0000 00 ff ff ff 00 00  03 00 0001 00 00 0008  ff 00 0000 00 00 0000", ""},
    {200, TAKEN, 3, -1, "0000 00 03 ff ff 00 00  06 00 0004 00 00 0001  ff 00 0000 00 00 0000", "03 c8"},
    {255, TAKEN, 3, 199, "0000 00 ff ff ff 00 00  03 00 0001 00 00 0008  ff 00 0000 00 00 0000", ""},
    {255, TAKEN, 3, 0, "0000 00 ff ff ff 00 00  03 00 0001 00 00 0008  ff 00 0000 00 00 0000", ""},
    {255, TAKEN, 1, -1, "0000 00 01 ff ff 00 00  09 00 0001 ff 00 0002  06 00 0004 00 00 0001", "01 ff"},
    /* seat 2 waits at 6 and seat 1 at 5; the line is at its limit */
    {200, TWO_WAIT, 3, -1, "0000 00 ff ff ff 00 00  03 00 0007 00 00 0008  ff 00 0000 00 00 0000", "02 06 01 05"},
    {0, TWO_WAIT, 2, -1, "0000 00 ff ff ff 00 00  09 00 0002 00 00 0004  ff 00 0000 00 00 0000", "01 05 02 00"},
    {5, TWO_WAIT, 1, -1, "0000 00 ff ff ff 00 00  09 00 0002 05 00 0002  ff 00 0000 00 00 0000", "02 06 01 05"},
    {5, TWO_WAIT, 2, -1, "0000 00 ff ff ff 00 00  09 00 0002 05 00 0004  ff 00 0000 00 00 0000", "01 05 02 05"},
    {6, TWO_WAIT, 1, -1, "0000 00 ff ff ff 00 00  09 00 0002 06 00 0002  ff 00 0000 00 00 0000", "02 06 01 06"},
    {6, TWO_WAIT, 2, -1, "0000 00 ff ff ff 00 00  09 00 0001 06 00 0004  ff 00 0000 00 00 0000", "02 06 01 05"},
    {100, TWO_WAIT, 1, -1, "0000 00 ff ff ff 00 00  09 00 0001 64 00 0002  ff 00 0000 00 00 0000", "01 64 02 06"},
    {100, TWO_WAIT, 2, 0, "0000 00 ff ff ff 00 00  09 00 0002 00 00 0004  ff 00 0000 00 00 0000", "01 05 02 00"},
    {200, TWO_WAIT, 1, -1, "0000 00 ff ff ff 00 00  09 00 0001 c8 00 0002  06 00 0004 00 00 0001", "01 c8 02 06"},
    /* somebody in line, or who holds the floor, is pre-emptive already */
    {200, REVOKING, 1, -1, "0000 00 ff ff ff 00 00  09 00 0002 c8 00 0002  ff 00 0000 00 00 0000", "03 c8 01 c8"},
    {200, OUT_OF_THE_LINE, 2, -1, "0000 00 02 ff ff 00 00  09 00 0001 c8 00 0004  ff 00 0000 00 00 0000", "02 c8 01 06"},
    {7, OUT_OF_THE_LINE, 3, -1, "0000 00 ff ff ff 00 00  01 00 0000 c8 00 0008  ff 00 0000 00 00 0000", "01 06"},
};

static void test_asking_without_the_field(void **state)
{
    (void)state;
    for (size_t i = 0; i < COUNT(asked); i++) {
        const struct event asks = {"", ASK, asked[i].seat, asked[i].priority};
        uint8_t desk[FLOOR_DESK], report[FLOOR_REPORT], line[2 * FLOOR_LINE];
        memcpy(desk, thursday_desk_at(asked[i].normal, asked[i].desk), sizeof desk);
        assert_int_equal(happen(desk, &asks, report), 0);
        assert_octets(asked[i].report, report, sizeof report);
        assert_octets(asked[i].line, line, 2 * (size_t)floor_screen(desk, sizeof desk, line, sizeof line));
        assert_int_equal(desk[NORMAL], asked[i].normal);
    }
}

/* No other field is a Floor Priority, and an Ack bit makes no difference; what is spare behind the priority is not looked at. */
static const struct {
    int counts; /* at normal level 100 */
    const char *packet;
} fields_of_0[] = {
    {100, BARE_REQUEST_OF_0},
    {100, "90cc0002 0000000a 4d435054"},
    {100, "80cc0003 0000000a 4d435054 01020500"},
    {100, "80cc0003 0000000a 4d435054 03020505"},
    {100, "80cc0003 0000000a 4d435054 07020500"},
    {100, "80cc0003 0000000a 4d435054 0d020500"},
    {100, "80cc0004 0000000a 4d435054 07060002 05000000"},
    {5, REQUEST_OF_0},
    {5, "90cc0003 0000000a 4d435054 000205ff"},
    {5, "80cc0004 0000000a 4d435054 0d028000 00020500"},
    {0, "80cc0003 0000000a 4d435054 00020000"},
    {0, "80cc0003 0000000a 4d435054 000200ff"},
    {0, "80cc0004 0000000a 4d435054 07020500 00020005"},
};

static void test_fields_that_are_no_priority(void **state)
{
    struct scene s;
    (void)state;
    for (size_t i = 0; i < COUNT(fields_of_0); i++) {
        set_scene(&s, face("packet"), thursday_desk_at(100, IDLE), fields_of_0[i].packet);
        assert_int_equal(play(face("packet"), &s), 0);
        assert_int_equal(play(face("holder"), &s), 0);
        assert_int_equal(play(face("holder_priority"), &s), fields_of_0[i].counts);
    }
}

/* Without the field, all is as if the field said the normal level: in every phase, from every seat, refused or done. */
static void test_no_field_is_the_normal_level(void **state)
{
    static const uint32_t levels[] = {0, 4, 5, 6, 7, 100, 199, 200, 255};
    (void)state;
    for (size_t i = 0; i < COUNT(levels); i++)
        for (int n = STOPPED; n <= EVENTS; n++)
            for (uint32_t seat = 0; seat < 4; seat++) {
                struct scene bare, with;
                set_scene(&bare, face("packet"), thursday_desk_at(levels[i], n), "");
                with = bare;
                bare.lent[1].n = packet_of(bare.lent[1].octets, FLOOR_TYPE_REQUEST, FIRST_SSRC + seat, -1);
                with.lent[1].n = packet_of(with.lent[1].octets, FLOOR_TYPE_REQUEST, FIRST_SSRC + seat, (int)levels[i]);
                assert_int_equal(play(face("packet"), &bare), play(face("packet"), &with));
                assert_memory_equal(bare.lent[0].octets, with.lent[0].octets, MOST);
                assert_memory_equal(bare.lent[2].octets, with.lent[2].octets, MOST);
            }
}

/* 48 in every phase, after 20 and before 13. At level 0 only the room counts. */
static void test_normal_level_is_not_saved(void **state)
{
    static const uint32_t levels[] = {1, 2, 100, 200, 255};
    const struct face *save = face("save");
    struct scene s;
    (void)state;
    for (int n = STOPPED; n <= EVENTS; n++) {
        size_t length = n == EVENTS ? 56 : 69; /* the last event is seat 1's leaving */
        set_scene(&s, save, thursday_desk_at(0, n), "");
        assert_room(save, &s, 2, length);
        for (size_t i = 0; i < COUNT(levels); i++) {
            set_scene(&s, save, thursday_desk_at(levels[i], n), "");
            assert_refused_first(48, save, &s);
            lend_room(&s.lent[2], length);
            assert_refused_first(48, save, &s);
            lend_room(&s.lent[2], length - 1);
            assert_refused_first(48, save, &s);
            lend_room(&s.lent[2], 1);
            assert_refused_first(48, save, &s);
            s.lent[0].octets[NORMAL + 1] = 1;
            assert_refused_first(20, save, &s);
        }
    }
}

/* A sheet loads with normal level 0, whatever desk stood there, and is written back. */
static void test_loaded_with_level_0(void **state)
{
    static const struct event asks = {"", ASK, 1, -1};
    struct lent sheet;
    uint8_t desk[FLOOR_DESK], other[FLOOR_DESK] = {0}, again[FLOOR_SHEET], report[FLOOR_REPORT];
    (void)state;
    lend_hex(&sheet, SEAT "01 ff 0000000b 05 7465737432 " SETTINGS "0018 0000 02 01 4653");
    memcpy(desk, thursday_desk_at(255, TAKEN), sizeof desk);
    assert_int_equal(floor_load(desk, sizeof desk, sheet.octets, sheet.n), 0);
    assert_int_equal(floor_load(other, sizeof other, sheet.octets, sheet.n), 0);
    assert_memory_equal(desk, other, sizeof desk);
    assert_int_equal(desk[NORMAL], 0);
    assert_int_equal(floor_save(desk, sizeof desk, again, sizeof again), sheet.n);
    assert_memory_equal(again, sheet.octets, sheet.n);
    assert_int_equal(floor_start(desk, sizeof desk, report, sizeof report), 0);
    assert_int_equal(happen(desk, &asks, report), 0);
    assert_int_equal(floor_holder_priority(desk, sizeof desk), 0);
}

/* Every refusal of the header, by some function: the tests above saw them. */
static void test_every_refusal_was_reached(void **state)
{
    (void)state;
    for (int n = 1; n <= 48; n++)
        if ((n <= 14 || (n >= 20 && n <= 28) || (n >= 41 && n <= 45) || n == 48) && !reached[n])
            fail_msg("no call was refused with %d", n);
}

int main(void)
{
    const struct CMUnitTest tests[] = {
        cmocka_unit_test(test_example),
        cmocka_unit_test(test_thursday),
        cmocka_unit_test(test_deny_7),
        cmocka_unit_test(test_deny_changes_nothing),
        cmocka_unit_test(test_packet_refusals),
        cmocka_unit_test(test_field_twice),
        cmocka_unit_test(test_skipped_field_twice),
        cmocka_unit_test(test_step_refusals),
        cmocka_unit_test(test_join_refusals),
        cmocka_unit_test(test_making_refusals),
        cmocka_unit_test(test_sheet_refusals),
        cmocka_unit_test(test_writer_refusals),
        cmocka_unit_test(test_report_messages),
        cmocka_unit_test(test_not_a_desk),
        cmocka_unit_test(test_room_for_reports),
        cmocka_unit_test(test_room_for_packets),
        cmocka_unit_test(test_room_for_desks),
        cmocka_unit_test(test_room_for_sheet_and_screen),
        cmocka_unit_test(test_null),
        cmocka_unit_test(test_null_source),
        cmocka_unit_test(test_yes_and_no),
        cmocka_unit_test(test_holder_seat_settings),
        cmocka_unit_test(test_clocks),
        cmocka_unit_test(test_version),
        cmocka_unit_test(test_every_field),
        cmocka_unit_test(test_what_a_reader_passes_over),
        cmocka_unit_test(test_asking_again),
        cmocka_unit_test(test_lengths),
        cmocka_unit_test(test_sequence_turns_over),
        cmocka_unit_test(test_saved_again),
        cmocka_unit_test(test_normal_level_stands),
        cmocka_unit_test(test_what_a_request_counts_as),
        cmocka_unit_test(test_asking_without_the_field),
        cmocka_unit_test(test_fields_that_are_no_priority),
        cmocka_unit_test(test_no_field_is_the_normal_level),
        cmocka_unit_test(test_normal_level_is_not_saved),
        cmocka_unit_test(test_loaded_with_level_0),
        cmocka_unit_test(test_every_refusal_was_reached),
    };
    return cmocka_run_group_tests(tests, NULL, NULL);
}
