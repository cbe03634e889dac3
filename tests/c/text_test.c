/* floor_text.h: every number has a name, whole things are printed as they are, and text that is cut is cut as snprintf does it. */
#include "scene.h"
#include "desks.h"
#include <floor_text.h>
#include <stdio.h>
#include <string.h>

static char text[FLOOR_TEXT];

static struct floor_desk desk_before(int n)
{
    struct floor_desk desk;
    memcpy(desk.octets, thursday_desk(n), FLOOR_DESK);
    return desk;
}

/* ---- Names ---- */

static void test_names(void **state)
{
    (void)state;
    assert_string_equal(floor_text_type(FLOOR_TYPE_QUEUE_POSITION_INFO, FLOOR_WORDS_PAPER), "Queue Position Info");
    assert_string_equal(floor_text_type(FLOOR_TYPE_QUEUE_POSITION_INFO, FLOOR_WORDS_WIRESHARK), "Floor Queue Position Info");
    assert_string_equal(floor_text_field(FLOOR_FIELD_PERMISSION_TO_REQUEST, FLOOR_WORDS_PAPER), "Permission to Request");
    assert_string_equal(floor_text_field(FLOOR_FIELD_PERMISSION_TO_REQUEST, FLOOR_WORDS_WIRESHARK), "Permission to Request the Floor");
    assert_string_equal(floor_text_field(FLOOR_FIELD_USER_ID, FLOOR_WORDS_WIRESHARK), "User ID");
    assert_string_equal(floor_text_deny(FLOOR_DENY_QUEUE_FULL, FLOOR_WORDS_PAPER), "the line is at its limit");
    assert_string_equal(floor_text_deny(FLOOR_DENY_QUEUE_FULL, FLOOR_WORDS_WIRESHARK), "Queue full");
    assert_string_equal(floor_text_revoke(FLOOR_REVOKE_MEDIA_BURST_PREEMPTED, FLOOR_WORDS_WIRESHARK), "Media Burst pre-empted");
    assert_string_equal(floor_text_phase(FLOOR_PHASE_REVOKING), "Revoking");
    assert_string_equal(floor_text_timer(FLOOR_TIMER_1), "End of RTP media");
    assert_string_equal(floor_text_refusal(FLOOR_REFUSAL_NOT_A_DESK), "the lent octets are not a desk's");
    assert_string_equal(floor_text_refusal(FLOOR_REFUSAL_REPEATED), "a second field with an ID of the table");
    assert_string_equal(floor_text_refusal(FLOOR_REFUSAL_SHEET_CANNOT_HOLD), "a normal level other than 0, which no sheet can hold");
    assert_string_equal(floor_text_refusal(15), "done");
}

/* Of every number that C can hand over, exactly these have a name. */
static void test_which_have_names(void **state)
{
    (void)state;
    for (int32_t n = -300; n <= 300; n++) {
        uint32_t u = (uint32_t)n;
        bool type = (n >= 0 && n <= 10 && n != 7) || n == 255, field = n >= 0 && n <= 14 && n != 7 && n != 9 && n != 11;
        bool refusal = (n <= -1 && n >= -14) || (n <= -20 && n >= -28) || (n <= -41 && n >= -45) || n == -48;
        assert_int_equal(floor_text_type(u, FLOOR_WORDS_WIRESHARK)[0] != '?', type);
        assert_int_equal(floor_text_field(u, FLOOR_WORDS_PAPER)[0] != '?', field);
        assert_int_equal(floor_text_deny(u, FLOOR_WORDS_PAPER)[0] != '?', n == 1 || n == 3 || n == 5 || n == 7);
        assert_int_equal(floor_text_revoke(u, FLOOR_WORDS_WIRESHARK)[0] != '?', n == 2 || n == 4);
        assert_int_equal(floor_text_phase(n)[0] != '?', (n >= 0 && n <= 3) || n == -20);
        assert_int_equal(floor_text_timer(u)[0] != '?', (n >= 1 && n <= 4) || n == 7 || n == 8 || n == 20);
        assert_int_equal(floor_text_refusal(n)[0] != '?', refusal || n >= 0);
    }
}

/* ---- Whole things ---- */

static void test_pieces(void **state)
{
    (void)state;
    assert_int_equal(floor_text_octets(text, sizeof text, "\x00\xff\x10", 3, " "), 8);
    assert_string_equal(text, "00 ff 10");
    assert_int_equal(floor_text_octets(text, sizeof text, NULL, 0, " "), 0);
    assert_string_equal(text, "");
    assert_int_equal(floor_text_identity(text, sizeof text, "a\\\n\xe4 ~\x7f", 7), 3 + 4 * 4);
    assert_string_equal(text, "a\\x5c\\x0a\\xe4 ~\\x7f");
    assert_int_equal(floor_text_set(text, sizeof text, 1 << 1 | 1 << 20, "T", " "), 6);
    assert_string_equal(text, "T1 T20");
    floor_text_set(text, sizeof text, UINT32_C(1) << 31 | 1, "", ",");
    assert_string_equal(text, "0,31");
    floor_text_set(text, sizeof text, 0, "T", " ");
    assert_string_equal(text, "");
}

static void test_reports(void **state)
{
    struct floor_desk desk = desk_before(9);
    struct floor_report report;
    struct floor_sent sent = {FLOOR_TYPE_DENY, 0, {0, 7}, 0, 0, {0, 0}};
    (void)state;
    assert_int_equal(happen(desk.octets, &thursday[9], (uint8_t *)&report), 0);
    floor_text_report(text, sizeof text, &desk, &report);
    assert_string_equal(text, "Granted, priority 200 -> 3\n    81 cc 00 04 00 00 00 01 4d 43 50 54 00 02 c8 00 01 02 00 1e\n"
                              "Taken by seat 3, sequence 3 -> 0 1 2\n    82 cc 00 06 00 00 00 01 4d 43 50 54 04 05 74 65 73 74 33 00 05 02 00 01 "
                              "08 02 00 03\nfloor ended: 0\nfloor given: 3, out of the line\n");
    floor_text_sent(text, sizeof text, &sent);
    assert_string_equal(text, "Deny #7 -> nobody");
    floor_report_clear(&report);
    assert_int_equal(floor_text_report(text, sizeof text, &desk, &report), 0);
    assert_string_equal(text, "");
    floor_text_sent(text, sizeof text, &report.sent[0]);
    assert_string_equal(text, "nothing");
}

static void test_desks(void **state)
{
    struct floor_desk desk = desk_before(REVOKING);
    (void)state;
    floor_text_desk(text, sizeof text, &desk);
    assert_string_equal(text, "Revoking | floor: 0 test1 at 5 | line: 3 test3 at 200, 1 test10 at 6 | timers: T1 T3 T8 | sequence: 2 | seats: 0 1 2 3");
    desk = desk_before(STOPPED);
    floor_text_desk(text, sizeof text, &desk);
    assert_string_equal(text, "Stopped | floor: nobody | line: empty | timers: none | sequence: 0 | seats: 0 1 2 3");
    desk.octets[0] = 0;
    floor_text_desk(text, sizeof text, &desk);
    assert_string_equal(text, "not a desk");
}

static void test_messages(void **state)
{
    const uint8_t request[] = {0x80, 204, 0, 3, 0, 0, 0, 10, 'M', 'C', 'P', 'T', 0, 2, 5, 0};
    const uint8_t deny[] = {0x93, 204, 0, 4, 0, 0, 0, 1, 'M', 'C', 'P', 'T', 2, 4, 0, 7, 'n', 'o', 0, 0};
    struct floor_message m;
    (void)state;
    assert_int_equal(floor_message_read(&m, request, sizeof request), 0);
    floor_text_message(text, sizeof text, &m, request, sizeof request);
    assert_string_equal(text, "Request from SSRC 10: Floor Priority 5");
    assert_int_equal(floor_message_read(&m, deny, sizeof deny), 0);
    floor_text_message(text, sizeof text, &m, deny, sizeof deny);
    assert_string_equal(text, "Deny, Ack asked for, from SSRC 1: Reject Cause #7 (the line is at its limit) no");
    floor_text_message(text, sizeof text, &m, deny, 17); /* a phrase that is not in the source is not looked for */
    assert_string_equal(text, "Deny, Ack asked for, from SSRC 1: Reject Cause #7 (the line is at its limit) ?");
    memset(&m, 0, sizeof m);
    floor_put_two(m.fields, 0xFFFF); /* every field, and bits of none */
    m.message_type = FLOOR_TYPE_TAKEN;
    floor_text_message(text, sizeof text, &m, NULL, 0);
    assert_string_equal(text, "Request from SSRC 0: Floor Priority 0; Duration 0 seconds; Reject Cause #0; Queue Info position 0, priority 0; "
                              "Granted Party's Identity ; Permission to Request 0; User ID ; Message Sequence-Number 0; Source 0; "
                              "Message Type Taken; Floor Indicator 0000; SSRC 0");
}

static void test_sheets(void **state)
{
    const struct floor_desk desk = desk_before(REVOKING);
    struct floor_sheet sheet;
    int32_t n = floor_desk_save(&desk, &sheet);
    (void)state;
    floor_text_sheet(text, sizeof text, sheet.octets, (size_t)n);
    assert_string_equal(text, "desk SSRC 1, level 200, line limit 2, C7 limit 2, C20 limit 2, duration 30 seconds\n"
                              "seat 0: test1, SSRC 10, highest priority 255, queues\nseat 1: test10, SSRC 11, highest priority 255, queues\n"
                              "seat 2: test2, SSRC 12, highest priority 255, queues\nseat 3: test3, SSRC 13, highest priority 255, does not queue\n");
    sheet.octets[0] |= FLOOR_FLAG_RECEIVE_ONLY;
    floor_text_sheet(text, sizeof text, sheet.octets, (size_t)n);
    assert_non_null(strstr(text, "seat 0: test1, SSRC 10, highest priority 255, queues, receive only\n"));
    floor_text_sheet(text, sizeof text, sheet.octets, (size_t)n - 1);
    assert_string_equal(text, "refused with 41: under 20 octets or no FS\n");
}

/* ---- Room ---- */

/* The longest there is fits FLOOR_TEXT: full desks whose identities are all in need of four characters an octet. */
static void test_room_is_enough(void **state)
{
    struct floor_desk desk;
    struct floor_sheet sheet;
    (void)state;
    memcpy(desk.octets, full_desk(), FLOOR_DESK);
    for (int seat = 0; seat < FLOOR_SEATS; seat++) {
        desk.octets[192 + seat] = FLOOR_IDENTITY;
        memset(desk.octets + 208 + FLOOR_IDENTITY * seat, 0x80 + seat, FLOOR_IDENTITY);
    }
    int32_t n = floor_desk_save(&desk, &sheet);
    assert_int_equal(n, FLOOR_SHEET);
    assert_in_range(floor_text_desk(text, sizeof text, &desk), 3000, FLOOR_TEXT - 1);
    assert_in_range(floor_text_sheet(text, sizeof text, sheet.octets, (size_t)n), 3000, FLOOR_TEXT - 1);
}

/* In every room: the same answer, the front of the same text, a zero behind it and nothing past the room. */
static void test_cut(void **state)
{
    const struct floor_desk desk = desk_before(REVOKING);
    char whole[FLOOR_TEXT];
    int length = floor_text_desk(whole, sizeof whole, &desk);
    (void)state;
    assert_int_equal(length, strlen(whole));
    assert_int_equal(floor_text_desk(NULL, 0, &desk), length);
    for (size_t room = 1; room <= (size_t)length + 2; room++) {
        memset(text, 'x', sizeof text);
        assert_int_equal(floor_text_desk(text, room, &desk), length);
        size_t kept = room <= (size_t)length ? room - 1 : (size_t)length;
        assert_memory_equal(text, whole, kept);
        assert_true(text[kept] == 0 && text[room] == 'x');
    }
}

int main(void)
{
    const struct CMUnitTest tests[] = {
        cmocka_unit_test(test_names),    cmocka_unit_test(test_which_have_names), cmocka_unit_test(test_pieces),
        cmocka_unit_test(test_reports),  cmocka_unit_test(test_desks),            cmocka_unit_test(test_messages),
        cmocka_unit_test(test_sheets),   cmocka_unit_test(test_room_is_enough),   cmocka_unit_test(test_cut),
    };
    return cmocka_run_group_tests(tests, NULL, NULL);
}
