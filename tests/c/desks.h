/* Desks that steps reach, for the tests to start from. */
#ifndef DESKS_H
#define DESKS_H

#include <stdint.h>

/* Thursday's exercise of document 01: its events, in order. */
enum event_kind { START, ASK, RELEASE, TIMER, LEAVE };
struct event {
    const char *row;
    enum event_kind kind;
    uint32_t who; /* the seat, or the timer */
    int priority; /* -1 for a request without the field */
};
#define EVENTS 13
extern const struct event thursday[EVENTS];

/* The desk before its event n: 0 Stopped with four seats, 1 Idle, .., EVENTS the last one. Its normal level is 0; the other one is made with
 * any, which none of these events asks about: all of them name their priority. */
enum { STOPPED = 0, IDLE = 1, TAKEN = 2, TWO_WAIT = 4, REVOKING = 9, OUT_OF_THE_LINE = 10, AFTER_THURSDAY = EVENTS };
const uint8_t *thursday_desk(int n);
const uint8_t *thursday_desk_at(uint32_t normal, int n);

/* One event on a desk, through the library; a report of 24 octets. Answers what the step answers. */
int32_t happen(uint8_t *desk, const struct event *e, uint8_t *report);

/* Sixteen seats, identities of 1 to 62 octets; seat 0 holds the floor, the others wait. */
const uint8_t *full_desk(void);

/* The SSRCs of both: seat s has FIRST_SSRC + s, the desk DESK_SSRC. */
enum { DESK_SSRC = 1, FIRST_SSRC = 10 };

/* A packet of a seat. 12 octets, or 16 with a Floor Priority field. Answers its length. */
uint8_t packet_of(uint8_t *packet, uint8_t type, uint32_t ssrc, int priority);

#endif
