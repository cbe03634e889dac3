#include "scene.h"
#include "desks.h"
#include <string.h>

const struct event thursday[EVENTS] = {
    {"a", START, 0, 0},  {"b", ASK, 0, 5},     {"c", ASK, 1, 5},   {"d", ASK, 2, 6},    {"e", ASK, 1, 6},    {"f", ASK, 3, 199}, {"g", ASK, 3, 200},
    {"h", RELEASE, 2, 0}, {"i", ASK, 3, 200}, {"j", TIMER, 3, 0}, {"k", TIMER, 20, 0}, {"k", TIMER, 20, 0}, {"l", LEAVE, 1, 0},
};

uint8_t packet_of(uint8_t *packet, uint8_t type, uint32_t ssrc, int priority)
{
    const uint8_t whole[16] = {(uint8_t)(0x80 | type), 204, 0, priority < 0 ? 2 : 3, (uint8_t)(ssrc >> 24), (uint8_t)(ssrc >> 16),
                               (uint8_t)(ssrc >> 8), (uint8_t)ssrc, 'M', 'C', 'P', 'T', 0, 2, (uint8_t)priority, 0};
    memcpy(packet, whole, sizeof whole);
    return priority < 0 ? 12 : 16;
}

int32_t happen(uint8_t *desk, const struct event *e, uint8_t *report)
{
    uint8_t packet[16], n;
    switch (e->kind) {
    case START:
        return floor_start(desk, FLOOR_DESK, report, FLOOR_REPORT);
    case ASK:
        n = packet_of(packet, FLOOR_TYPE_REQUEST, FIRST_SSRC + e->who, e->priority);
        return floor_packet(desk, FLOOR_DESK, packet, n, report, FLOOR_REPORT);
    case RELEASE:
        n = packet_of(packet, FLOOR_TYPE_RELEASE, FIRST_SSRC + e->who, -1);
        return floor_packet(desk, FLOOR_DESK, packet, n, report, FLOOR_REPORT);
    case TIMER:
        return floor_timer(desk, FLOOR_DESK, e->who, report, FLOOR_REPORT);
    case LEAVE:
        return floor_leave(desk, FLOOR_DESK, e->who, report, FLOOR_REPORT);
    }
    return 0;
}

static const uint8_t *play_thursday(uint8_t *desk, uint32_t normal, int n)
{
    static const char *const names[] = {"test1", "test10", "test2", "test3"};
    uint8_t report[FLOOR_REPORT];
    assert_int_equal(floor_make(desk, FLOOR_DESK, DESK_SSRC, 200, 2, 2, 2, 30, normal), 0);
    for (uint32_t seat = 0; seat < 4; seat++)
        assert_int_equal(floor_join(desk, FLOOR_DESK, (const uint8_t *)names[seat], strlen(names[seat]), FIRST_SSRC + seat, 255, seat != 3, 0),
                         seat);
    for (int i = 0; i < n; i++)
        assert_int_equal(happen(desk, &thursday[i], report), 0);
    return desk;
}

const uint8_t *thursday_desk(int n)
{
    static uint8_t desks[EVENTS + 1][FLOOR_DESK];
    return play_thursday(desks[n], 0, n);
}

const uint8_t *thursday_desk_at(uint32_t normal, int n)
{
    static uint8_t desks[EVENTS + 1][FLOOR_DESK];
    return play_thursday(desks[n], normal, n);
}

const uint8_t *full_desk(void)
{
    static uint8_t desk[FLOOR_DESK];
    uint8_t report[FLOOR_REPORT], name[FLOOR_IDENTITY];
    memset(name, 'x', sizeof name);
    assert_int_equal(floor_make(desk, FLOOR_DESK, DESK_SSRC, 200, 15, 255, 255, 65535, 0), 0);
    for (uint32_t seat = 0; seat < FLOOR_SEATS; seat++) {
        size_t length = seat < 8 ? FLOOR_IDENTITY - seat % 3 : seat - 7; /* 62 to 60, and 1 to 8 */
        name[0] = (uint8_t)('a' + seat);
        assert_int_equal(floor_join(desk, FLOOR_DESK, name, length, FIRST_SSRC + seat, (uint8_t)(10 * seat), 1, 0), seat);
    }
    assert_int_equal(floor_start(desk, FLOOR_DESK, report, FLOOR_REPORT), 0);
    for (uint32_t seat = 0; seat < FLOOR_SEATS; seat++) {
        struct event e = {"", ASK, seat, 255};
        assert_int_equal(happen(desk, &e, report), 0);
    }
    return desk;
}
