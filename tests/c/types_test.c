/* What floor.h lays over the proved functions: each struct over its octets, place by place as docs/FORMS.md and docs/SHEET.md have them, and
 * the inline functions, where they do more than lend whole structs. */
#include "scene.h"
#include "desks.h"
#include <string.h>

/* ---- Places ---- */

struct place {
    const char *what;
    size_t at, octets, wanted_at, wanted_octets;
};

/* Held to twice: where it is compiled, by an array of -1 octets, and where it runs. */
#define IS(fact) (sizeof(char[(fact) ? 1 : -1]) - 1)
#define PLACE(type, member, at, octets) \
    {#type "." #member, offsetof(struct type, member), sizeof((struct type *)0)->member, \
     at + IS(offsetof(struct type, member) == at), octets + IS(sizeof((struct type *)0)->member == octets)}

static const struct place places[] = {
    PLACE(floor_desk, octets, 0, 1200),
    PLACE(floor_report, struck, 0, 2),
    PLACE(floor_report, zero, 2, 1),
    PLACE(floor_report, placed, 3, 1),
    PLACE(floor_report, ended, 4, 1),
    PLACE(floor_report, given, 5, 1),
    PLACE(floor_report, how, 6, 1),
    PLACE(floor_report, zero_behind_how, 7, 1),
    PLACE(floor_report, sent[0], 8, 8),
    PLACE(floor_report, sent[1], 16, 8),
    PLACE(floor_sent, type, 0, 1),
    PLACE(floor_sent, seat, 1, 1),
    PLACE(floor_sent, number, 2, 2),
    PLACE(floor_sent, priority, 4, 1),
    PLACE(floor_sent, zero, 5, 1),
    PLACE(floor_sent, to, 6, 2),
    PLACE(floor_message, type, 0, 1),
    PLACE(floor_message, ack, 1, 1),
    PLACE(floor_message, fields, 2, 2),
    PLACE(floor_message, ssrc, 4, 4),
    PLACE(floor_message, priority, 8, 1),
    PLACE(floor_message, message_type, 9, 1),
    PLACE(floor_message, duration, 10, 2),
    PLACE(floor_message, cause, 12, 2),
    PLACE(floor_message, position, 14, 1),
    PLACE(floor_message, queue_priority, 15, 1),
    PLACE(floor_message, permission, 16, 2),
    PLACE(floor_message, sequence, 18, 2),
    PLACE(floor_message, source, 20, 2),
    PLACE(floor_message, indicator, 22, 2),
    PLACE(floor_message, field_ssrc, 24, 4),
    PLACE(floor_message, phrase.from, 28, 2),
    PLACE(floor_message, phrase.count, 30, 2),
    PLACE(floor_message, party.from, 32, 2),
    PLACE(floor_message, party.count, 34, 2),
    PLACE(floor_message, user.from, 36, 2),
    PLACE(floor_message, user.count, 38, 2),
    PLACE(floor_settings, ssrc, 0, 4),
    PLACE(floor_settings, level, 4, 1),
    PLACE(floor_settings, limit, 5, 1),
    PLACE(floor_settings, c7, 6, 1),
    PLACE(floor_settings, c20, 7, 1),
    PLACE(floor_settings, duration, 8, 2),
    PLACE(floor_settings, normal, 10, 1),
    PLACE(floor_settings, zero, 11, 1),
    PLACE(floor_seat, flags, 0, 1),
    PLACE(floor_seat, highest, 1, 1),
    PLACE(floor_seat, ssrc, 2, 4),
    PLACE(floor_seat, length, 6, 1),
    PLACE(floor_seat, identity, 7, 62),
    PLACE(floor_entry, seat, 0, 1),
    PLACE(floor_entry, priority, 1, 1),
    PLACE(floor_line, entry[14], 28, 2),
    PLACE(floor_packet_out, octets, 0, 440),
    PLACE(floor_sheet, octets, 0, 1124),
};

/* The members of a struct fill it: all places together have as many octets as the structs. */
static void test_places(void **state)
{
    (void)state;
    for (size_t i = 0; i < sizeof places / sizeof *places; i++)
        if (places[i].at != places[i].wanted_at || places[i].octets != places[i].wanted_octets)
            fail_msg("%s stands at %d with %d octets", places[i].what, (int)places[i].at, (int)places[i].octets);
    assert_int_equal(sizeof(struct floor_desk), 1200);
    assert_int_equal(sizeof(struct floor_report), 24);
    assert_int_equal(sizeof(struct floor_sent), 8);
    assert_int_equal(sizeof(struct floor_message), 40);
    assert_int_equal(sizeof(struct floor_settings), 12);
    assert_int_equal(sizeof(struct floor_seat), 69);
    assert_int_equal(sizeof(struct floor_line), 30);
    assert_int_equal(sizeof(struct floor_packet_out), 440);
    assert_int_equal(sizeof(struct floor_sheet), 1124);
}

/* The same octets seen both ways: what the proved functions write is found under its name. */
static void test_octets_by_name(void **state)
{
    const uint8_t packet[] = {0x9a, 0xcc, 0, 0x12, 0xff, 0xff, 0xff, 0xff, 'M', 'C', 'P', 'T', 0, 2, 5, 0, 1, 2, 0x12, 0x34, 2, 3, 1, 2, 'x', 0, 0, 0,
                              3, 2, 1, 2, 4, 3, 'a', 'b', 'c', 0, 0, 0, 5, 2, 0, 1, 6, 4, 'a', 'b', 'c', 'd', 0, 0, 8, 2, 0xff, 0xfe, 10, 2, 0, 3,
                              12, 2, 4, 0, 13, 2, 0x80, 1, 14, 6, 0xde, 0xad, 0xbe, 0xef, 0, 0};
    struct floor_message m;
    struct floor_packet_out again;
    (void)state;
    assert_int_equal(floor_message_read(&m, packet, sizeof packet), 0);
    assert_int_equal(floor_message_type(&m), FLOOR_TYPE_ACK);
    assert_int_equal(m.ack, 1);
    assert_int_equal(floor_two(m.fields), 0x757f);
    assert_true(floor_four(m.ssrc) == UINT32_MAX && floor_four(m.field_ssrc) == 0xdeadbeef);
    assert_true(m.priority == 5 && m.message_type == 4 && floor_two(m.duration) == 0x1234 && floor_two(m.cause) == 0x0102);
    assert_true(m.position == 1 && m.queue_priority == 2 && floor_two(m.permission) == 1 && floor_two(m.sequence) == 0xfffe);
    assert_true(floor_two(m.source) == 3 && floor_two(m.indicator) == 0x8001);
    assert_memory_equal(packet + floor_two(m.phrase.from), "x", floor_two(m.phrase.count));
    assert_memory_equal(packet + floor_two(m.party.from), "abc", floor_two(m.party.count));
    assert_memory_equal(packet + floor_two(m.user.from), "abcd", floor_two(m.user.count));
    assert_int_equal(floor_message_write(&m, packet, sizeof packet, &again), sizeof packet);
    assert_memory_equal(again.octets, packet, sizeof packet);
}

static void test_numbers(void **state)
{
    uint8_t octets[6] = {9, 9, 9, 9, 9, 9};
    (void)state;
    floor_put_four(octets + 1, 0x01020304);
    assert_memory_equal(octets, "\x09\x01\x02\x03\x04\x09", 6);
    floor_put_two(octets + 1, 0x1fffe); /* its lowest 16 bits */
    assert_memory_equal(octets, "\x09\xff\xfe\x03\x04\x09", 6);
    assert_true(floor_has(1u << 31, 31) && floor_has(5, 2) && !floor_has(5, 1) && !floor_has(UINT32_MAX, 32) && !floor_has(1, UINT32_MAX));
}

/* ---- Steps ---- */

static struct floor_desk desk_before(int n)
{
    struct floor_desk desk;
    memcpy(desk.octets, thursday_desk(n), FLOOR_DESK);
    return desk;
}

static bool is_empty(const struct floor_report *report)
{
    struct floor_report empty;
    floor_report_clear(&empty);
    return memcmp(report, &empty, sizeof empty) == 0;
}

/* Refused by the rules, and as no desk: the report is emptied, by the inline step; the one on octets leaves it. */
#define REFUSED(refusal, call) \
    do { \
        memset(&report, 0x5A, sizeof report); \
        assert_int_equal(call, refusal); \
        assert_true(is_empty(&report)); \
    } while (0)

static void test_refused_step_has_an_empty_report(void **state)
{
    struct floor_desk desk = desk_before(STOPPED), before = desk;
    struct floor_report report, old;
    (void)state;
    REFUSED(FLOOR_REFUSAL_CALL_STOPPED, floor_desk_stop(&desk, &report));
    REFUSED(FLOOR_REFUSAL_TOO_SHORT, floor_desk_packet(&desk, NULL, 0, &report));
    REFUSED(FLOOR_REFUSAL_CALL_STOPPED, floor_desk_media(&desk, 10, &report));
    REFUSED(FLOOR_REFUSAL_CALL_STOPPED, floor_desk_timer(&desk, FLOOR_TIMER_4, &report));
    REFUSED(FLOOR_REFUSAL_NO_SUCH_SEAT, floor_desk_leave(&desk, 4, &report));
    assert_memory_equal(&desk, &before, sizeof desk);
    desk = desk_before(IDLE);
    REFUSED(FLOOR_REFUSAL_NOT_EXPECTED, floor_desk_start(&desk, &report));
    desk.octets[0] = 0;
    REFUSED(FLOOR_REFUSAL_NOT_A_DESK, floor_desk_stop(&desk, &report));
    memset(&report, 0x5A, sizeof report);
    old = report;
    assert_int_equal(floor_stop(desk.octets, sizeof desk.octets, (uint8_t *)&report, sizeof report), FLOOR_REFUSAL_NOT_A_DESK);
    assert_memory_equal(&report, &old, sizeof report);
}

/* A step that is done has the report of the function on octets. */
static void test_done_step_has_its_report(void **state)
{
    (void)state;
    for (int i = 0; i < EVENTS; i++) {
        struct floor_desk desk = desk_before(i), other = desk;
        struct floor_report report;
        uint8_t octets[FLOOR_REPORT], packet[16], n;
        assert_int_equal(happen(other.octets, &thursday[i], octets), 0);
        switch (thursday[i].kind) {
        case START: assert_int_equal(floor_desk_start(&desk, &report), 0); break;
        case TIMER: assert_int_equal(floor_desk_timer(&desk, thursday[i].who, &report), 0); break;
        case LEAVE: assert_int_equal(floor_desk_leave(&desk, thursday[i].who, &report), 0); break;
        case ASK:
        case RELEASE:
            n = packet_of(packet, thursday[i].kind == ASK ? FLOOR_TYPE_REQUEST : FLOOR_TYPE_RELEASE, FIRST_SSRC + thursday[i].who,
                          thursday[i].kind == ASK ? thursday[i].priority : -1);
            assert_int_equal(floor_desk_packet(&desk, packet, n, &report), 0);
            break;
        }
        assert_memory_equal(&report, octets, sizeof report);
        assert_memory_equal(&desk, &other, sizeof desk);
    }
}

/* ---- Settings, newcomers, looks ---- */

/* No number is cut on its way: 256 and its like get -28. A normal level that is not named is 0. */
static void test_wide_settings(void **state)
{
    const struct floor_making good = {.ssrc = 1, .level = 200, .limit = 2, .c7 = 2, .c20 = 2, .duration = 30};
    struct floor_desk desk = desk_before(TAKEN), before = desk;
    (void)state;
    for (int i = 0; i < 6; i++) {
        struct floor_making wide = good;
        uint32_t *const members[] = {&wide.level, &wide.limit, &wide.c7, &wide.c20, &wide.duration, &wide.normal};
        *members[i] += i == 4 ? 65536 : 256;
        assert_int_equal(floor_desk_make(&desk, &wide), FLOOR_REFUSAL_OUTSIDE_RANGE);
    }
    assert_int_equal(floor_desk_make(&desk, &(struct floor_making){.ssrc = 1}), FLOOR_REFUSAL_OUTSIDE_RANGE);
    assert_memory_equal(&desk, &before, sizeof desk);
    assert_int_equal(floor_desk_make(&desk, &good), 0);
    struct floor_settings settings;
    assert_int_equal(floor_desk_settings(&desk, &settings), 12);
    assert_memory_equal(&settings, "\0\0\0\1\xc8\2\2\2\0\x1e\0\0", sizeof settings);
    assert_int_equal(floor_desk_make(&desk, &(struct floor_making){.ssrc = 0x01020304, .level = 5, .limit = 6, .c7 = 7, .c20 = 8,
                                                                   .duration = 0x090a, .normal = 11}), 0);
    assert_int_equal(floor_desk_settings(&desk, &settings), 12);
    assert_memory_equal(&settings, "\1\2\3\4\5\6\7\x8\x9\xa\xb\0", sizeof settings);
    assert_true(settings.normal == 11 && settings.zero == 0);
}

static void test_newcomer(void **state)
{
    struct floor_desk desk = desk_before(IDLE);
    struct floor_seat seat;
    volatile int yes = 256;
    (void)state;
    assert_int_equal(floor_desk_join(&desk, &(struct floor_newcomer){.identity = "x\0y", .identity_len = 3, .ssrc = 99, .highest = 7,
                                                                      .queueing = yes, .receive_only = yes}), 4);
    assert_int_equal(floor_desk_seat(&desk, 4, &seat), 10);
    assert_memory_equal(&seat, "\3\7\0\0\0\x63\3x\0y", 10);
    assert_int_equal(floor_desk_join(&desk, &(struct floor_newcomer){.identity = "z", .identity_len = 1, .ssrc = 98, .highest = 300}), 5);
    assert_int_equal(floor_desk_seat(&desk, 5, &seat), 8);
    assert_memory_equal(&seat, "\0\xff\0\0\0\x62\1z", 8);
    assert_int_equal(floor_desk_seat_by_identity(&desk, "x\0y", 3), 4);
    assert_int_equal(floor_desk_seat_by_ssrc(&desk, 99), 4);
    assert_int_equal(floor_desk_seats(&desk), 0x3f);
}

static void test_looks(void **state)
{
    struct floor_desk desk = desk_before(REVOKING);
    struct floor_line line;
    (void)state;
    assert_int_equal(floor_desk_phase(&desk), FLOOR_PHASE_REVOKING);
    assert_true(floor_desk_holder(&desk).seat == 0 && floor_desk_holder(&desk).priority == 5);
    assert_int_equal(floor_desk_screen(&desk, &line), 2);
    assert_true(line.entry[0].seat == 3 && line.entry[0].priority == 200 && line.entry[1].seat == 1 && line.entry[1].priority == 6);
    desk = desk_before(IDLE);
    assert_true(floor_desk_holder(&desk).seat == FLOOR_REFUSAL_NO_SUCH_SEAT && floor_desk_holder(&desk).priority == FLOOR_REFUSAL_NO_SUCH_SEAT);
    memcpy(desk.octets, full_desk(), FLOOR_DESK);
    assert_int_equal(floor_desk_screen(&desk, &line), FLOOR_LINE);
    desk.octets[0] = 0;
    assert_int_equal(floor_desk_phase(&desk), FLOOR_PHASE_NOT_A_DESK);
    assert_true(floor_desk_holder(&desk).seat == FLOOR_REFUSAL_NOT_A_DESK && floor_desk_holder(&desk).priority == FLOOR_REFUSAL_NOT_A_DESK);
}

/* What is saved can be loaded; a desk with a normal level other than 0 is not saved. */
static void test_sheet(void **state)
{
    struct floor_desk desk, loaded;
    struct floor_sheet sheet, again;
    (void)state;
    memcpy(desk.octets, full_desk(), FLOOR_DESK);
    int32_t n = floor_desk_save(&desk, &sheet);
    assert_int_equal(floor_desk_load(&loaded, sheet.octets, (size_t)n), 0);
    assert_int_equal(floor_desk_save(&loaded, &again), n);
    assert_memory_equal(&sheet, &again, (size_t)n);
    memcpy(desk.octets, thursday_desk_at(1, TAKEN), FLOOR_DESK);
    memset(&sheet, 0x5A, sizeof sheet);
    again = sheet;
    assert_int_equal(floor_desk_save(&desk, &sheet), FLOOR_REFUSAL_SHEET_CANNOT_HOLD);
    assert_memory_equal(&sheet, &again, sizeof sheet);
}

/* A refusal leaves the sets as they were. */
static void test_clocks_refused(void **state)
{
    struct floor_desk desk = desk_before(TAKEN);
    struct floor_report report;
    struct floor_clocks clocks = {1 << 4, 5, 6};
    (void)state;
    floor_report_clear(&report);
    report.how = 3;
    assert_int_equal(floor_desk_clocks(&desk, &report, FLOOR_TIMER_NONE, &clocks), FLOOR_REFUSAL_UNREADABLE);
    desk.octets[0] = 0;
    assert_int_equal(floor_desk_clocks(&desk, &report, FLOOR_TIMER_NONE, &clocks), FLOOR_REFUSAL_NOT_A_DESK);
    assert_true(clocks.running == 1 << 4 && clocks.starts == 5 && clocks.stops == 6);
}

int main(void)
{
    const struct CMUnitTest tests[] = {
        cmocka_unit_test(test_places),
        cmocka_unit_test(test_octets_by_name),
        cmocka_unit_test(test_numbers),
        cmocka_unit_test(test_refused_step_has_an_empty_report),
        cmocka_unit_test(test_done_step_has_its_report),
        cmocka_unit_test(test_wide_settings),
        cmocka_unit_test(test_newcomer),
        cmocka_unit_test(test_looks),
        cmocka_unit_test(test_sheet),
        cmocka_unit_test(test_clocks_refused),
    };
    return cmocka_run_group_tests(tests, NULL, NULL);
}
