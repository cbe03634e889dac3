/* floor.h: a floor control desk for one call (3GPP TS 24.380), for practice.
 *
 * This header is the manual of libfloor.a: for each function what it takes, every number it can answer and when, what it leaves untouched,
 * and an example. The library is written in Rattle. Each function's source is proved to answer and to leave exactly what its definition says
 * (crates/floor/specs), for all octets and all numbers, and to return. That this page says the same in words, the compiled library, and what
 * this header lays over it in C (structs, names, inline functions) are tested. docs/TRUST.md has what is proved, what is assumed of the
 * compiler and of the caller, and what is only tested.
 *
 * IN SHORT. Make a desk (floor_desk_make), let the handsets join (floor_desk_join), start the call (floor_desk_start). Then each thing that
 * happens is a step: a packet came in (floor_desk_packet), media did (floor_desk_media), a clock fired (floor_desk_timer). After each step
 * write the report's two messages (floor_desk_message), send each to the seats it goes to, and set your clocks (floor_desk_clocks).
 * examples/server.c is all of it, in a hundred lines.
 *
 * ONE SIGN. Every function answers an int32_t: 0 or more for done, below 0 for a refusal. A refusal is minus its number in documents 01 and
 * 02, and FLOOR_REFUSAL_.. have that sign already: `answer == FLOOR_REFUSAL_NOT_A_DESK`, with no minus before it. "Answers" below lists
 * every number, the refusals in the order in which they are tested: of two that fit, the first is answered. -20 is always first, -13 always
 * last. Where it would be a mistake to pass an answer over, the compiler says so.
 *
 * TWO NAMES. The proved functions, floor_NAME, work on octets: a pointer and a length for each thing lent. Over each stands an inline function
 * for programs to use, which lends whole structs, so that there is no length to get wrong. Its name has the struct it is about in it, which
 * is also its first argument: floor_desk_NAME, floor_message_NAME. It answers the same numbers. One manual entry is for both; where the inline
 * one differs, "In C" says how. Who has octets elsewhere calls the functions on octets. Structs are named with the word struct, since some
 * have the name of a function.
 *
 * THE DESK rests in a struct floor_desk; docs/FORMS.md has each place, and a program need not know them. The library keeps no state of its
 * own, allocates nothing, has no clock and calls nothing but C's memory functions. So a desk can be copied, kept in a file and put back, and
 * calls on different desks can be made at the same time. A desk that version 3 left is one with normal level 0; to version 3 a desk with
 * another level is none.
 *
 * LENT OCTETS are a pointer and a length. A length of 0 may come with a null pointer. Of the buffers lent to one call none may overlap one
 * that is not const; two const ones may. A desk is lent with exactly FLOOR_DESK octets; only floor_make and floor_load, which do not look at
 * what stood there, take more. A room for a result may be longer than the result.
 *
 * UNTOUCHED. On any refusal every lent buffer is as it was. A result leaves the room past its end as it was. Octets lent as const are never
 * changed. "Leaves" below adds what else a function does not change. The one exception is C's: an inline step empties its report first.
 *
 * SETS of seats are numbers of 16 bits, seat 0 the lowest bit; of timers and of fields likewise, bit 7 for T7 or for field 7. floor_has asks.
 * Numbers of two and four octets are big-endian: floor_two and floor_four read them, floor_put_two and floor_put_four put them.
 *
 * CLOCKS are yours: the library has none. The last part of this page says when to start and to stop them.
 *
 * EXAMPLES. Each stands by itself, behind these lines: a call of two seats, just started, and packets. tests/examples.test runs them all.
 * They are C and C++. In C the settings are better written in one place, `&(struct floor_making){.ssrc = 1, .level = 200, ..}`.
 *
 * Before each example:
 *     static struct floor_desk desk, other;
 *     static struct floor_report report;
 *     static struct floor_message message;
 *     static struct floor_packet_out packet;
 *     static struct floor_sheet sheet;
 *     static struct floor_line line;
 *     static struct floor_making settings;
 *     static struct floor_newcomer test1, test2, test3;
 *     const uint8_t ask0[] = {0x80, 204, 0, 3, 0, 0, 0, 10, 'M', 'C', 'P', 'T', 0, 2, 5, 0}; // seat 0 asks for the floor at priority 5
 *     const uint8_t ask1[] = {0x80, 204, 0, 3, 0, 0, 0, 11, 'M', 'C', 'P', 'T', 0, 2, 6, 0}; // seat 1 asks for it at priority 6
 *     const uint8_t bare1[] = {0x80, 204, 0, 2, 0, 0, 0, 11, 'M', 'C', 'P', 'T'};            // seat 1 asks for it and names no priority
 *     settings.ssrc = 1, settings.level = 200, settings.limit = 2, settings.c7 = 2, settings.c20 = 2, settings.duration = 30;
 *     test1.identity = "test1", test1.identity_len = 5, test1.ssrc = 10, test1.highest = 255, test1.queueing = true;
 *     test2 = test1, test2.identity = "test2", test2.ssrc = 11;
 *     test3 = test1, test3.identity = "test3", test3.ssrc = 12;
 *     assert(floor_desk_make(&desk, &settings) == 0);
 *     assert(floor_desk_join(&desk, &test1) == 0 && floor_desk_join(&desk, &test2) == 1);
 *     assert(floor_desk_start(&desk, &report) == 0);
 *
 * bench/thursday.c and examples/server.c are whole programs. Usable from C99 and C++. Link: cc program.c -Iinclude -Lbuild -lfloor
 */
#ifndef FLOOR_H
#define FLOOR_H

#if (!defined __x86_64__ || defined __ILP32__) && !defined FLOOR_ANY_MACHINE
#error libfloor.a is for x86-64 programs. On another machine take the packages gcc-x86-64-linux-gnu and qemu-user of Debian: compile with \
x86_64-linux-gnu-gcc and run with qemu-x86_64. Where the Rattle kit is not there, link build/plain/libfloor.a (make LIB=plain CROSS= RUN=), \
which is plain C for any machine and not proved, and compile with -DFLOOR_ANY_MACHINE.
#endif

#include <stddef.h>
#include <stdint.h>
#ifndef __cplusplus
#include <stdbool.h>
#endif

#ifdef __GNUC__
#define FLOOR_CHECKED __attribute__((warn_unused_result))
#define FLOOR_TRAP __builtin_trap
#else
#include <stdlib.h>
#define FLOOR_CHECKED
#define FLOOR_TRAP abort
#endif

#ifdef __cplusplus
extern "C" {
#endif

/* A struct whose members C initialises by name, or not at all: bare numbers in a row are warned of. */
#if defined __GNUC__ && !defined __clang__ && !defined __cplusplus
#define FLOOR_BY_NAME __attribute__((designated_init))
#else
#define FLOOR_BY_NAME
#endif

/* ---- Numbers ---- */

/* The version of this face. It goes up where a function, a number or a form comes to mean something else; names are kept from 2 on, but for
 * `zeros` of struct floor_settings, whose first octet means something from 4 on. floor_version answers that of the archive. */
#define FLOOR_VERSION 4

/* Sizes in octets. */
#define FLOOR_DESK 1200       /* a desk */
#define FLOOR_REPORT 24       /* a report of a step */
#define FLOOR_MESSAGE 40      /* a message that was read, or is to be written */
#define FLOOR_PACKET_OUT 440  /* the longest packet that is ever written */
#define FLOOR_PACKET_IN 1024  /* the longest packet that is read. Receive into one octet more, so that a longer one is seen to be longer */
#define FLOOR_SHEET 1124      /* the longest sheet; the shortest has 20 */
#define FLOOR_SETTINGS 12     /* the settings */
#define FLOOR_SEAT 69         /* the longest seat, as a sheet has it; the shortest has 8 */
#define FLOOR_IDENTITY 62     /* the longest identity; the shortest has 1 */

/* How many there are. */
#define FLOOR_SEATS 16        /* seats, numbered 0 to 15 */
#define FLOOR_LINE 15         /* places in line at most */
#define FLOOR_TIMERS 21       /* a table with a place for each timer by its number, 1 to 20 */

/* Where a seat would stand, and none does. */
#define FLOOR_NO_SEAT 255

/* Refusals, each minus its number in document 01; -14 has its number from document 02, #107, and -48 from #101. Those of packets (floor_read,
 * floor_packet): -1 to -8 are tested in this order; then the fields from front to back, each for -9, then -14, then -10 (an ID of 192 or above
 * gets -10); then -11. */
enum floor_refusal {
    FLOOR_REFUSAL_TOO_SHORT = -1,          /* fewer than 12 octets */
    FLOOR_REFUSAL_TOO_LONG = -2,           /* more than 1,024 octets */
    FLOOR_REFUSAL_NOT_VERSION_2 = -3,      /* the two highest bits of octet 0 are not 2 */
    FLOOR_REFUSAL_PADDED = -4,             /* P set */
    FLOOR_REFUSAL_NOT_APPLICATION = -5,    /* octet 1 not 204 */
    FLOOR_REFUSAL_WRONG_LENGTH = -6,       /* 4 x (length + 1) is not the octets lent */
    FLOOR_REFUSAL_NOT_NAMED = -7,          /* name not MCPT */
    FLOOR_REFUSAL_UNLISTED_TYPE = -8,      /* a type that is not in the list below */
    FLOOR_REFUSAL_PAST_THE_END = -9,       /* a padded field runs past the end */
    FLOOR_REFUSAL_AGAINST_THE_TABLE = -10, /* ID 192 or above, or L or content against the table */
    FLOOR_REFUSAL_MISSING = -11,           /* a required field is missing */
    FLOOR_REFUSAL_UNREADABLE = -12,        /* a message that no reader would accept, or octets that are no message's or no report's */
    FLOOR_REFUSAL_NO_ROOM = -13,           /* the lent room is shorter than the whole result */
    FLOOR_REFUSAL_REPEATED = -14,          /* a second field with an ID of the table (enum floor_field) */
    /* of the desk */
    FLOOR_REFUSAL_NOT_A_DESK = -20,        /* the lent octets are not a desk's */
    FLOOR_REFUSAL_CALL_STOPPED = -21,      /* the call is stopped */
    FLOOR_REFUSAL_NO_SUCH_SEAT = -22,      /* no such seat, or a free one; no seat has this SSRC or this identity; nobody holds the floor */
    FLOOR_REFUSAL_NOT_EXPECTED = -23,      /* no rule for this event as things stand */
    FLOOR_REFUSAL_ALL_SEATS_TAKEN = -24,   /* no seat is free */
    FLOOR_REFUSAL_IDENTITY_LENGTH = -25,   /* identity not 1 to 62 octets */
    FLOOR_REFUSAL_IDENTITY_PRESENT = -26,  /* a seat has this identity already */
    FLOOR_REFUSAL_SSRC_PRESENT = -27,      /* SSRC present already or the desk's */
    FLOOR_REFUSAL_OUTSIDE_RANGE = -28,     /* a setting outside its range */
    /* of sheets (floor_load, and -48 of floor_save) */
    FLOOR_REFUSAL_NO_TRAILER = -41,        /* under 20 octets, or no letters FS */
    FLOOR_REFUSAL_SHEET_FORM = -42,        /* form not 1 */
    FLOOR_REFUSAL_SHEET_OFFSETS = -43,     /* count above 16, settings not 20 octets before the end, or seats' offset not zero */
    FLOOR_REFUSAL_SHEET_SETTINGS = -44,    /* a setting outside its range, or one of the two octets behind them not zero */
    FLOOR_REFUSAL_SHEET_SEATS = -45,       /* a seat against the layout or that could not join, or seats that do not end at the settings */
    FLOOR_REFUSAL_SHEET_CANNOT_HOLD = -48  /* the desk has what no sheet can hold: a normal level other than 0 (floor_save) */
};

/* Types of packets, and kinds of outgoing messages. */
enum floor_type {
    FLOOR_TYPE_REQUEST = 0,
    FLOOR_TYPE_GRANTED = 1,
    FLOOR_TYPE_TAKEN = 2,
    FLOOR_TYPE_DENY = 3,
    FLOOR_TYPE_RELEASE = 4,
    FLOOR_TYPE_IDLE = 5,
    FLOOR_TYPE_REVOKE = 6,
    FLOOR_TYPE_QUEUE_POSITION_REQUEST = 8,
    FLOOR_TYPE_QUEUE_POSITION_INFO = 9,
    FLOOR_TYPE_ACK = 10,
    FLOOR_TYPE_NOTHING = 255               /* where a report has no message */
};

/* Causes, in the words of TS 24.380, 8.2.6.2 and 8.2.10.2. */
enum floor_deny {
    FLOOR_DENY_ANOTHER_HAS_PERMISSION = 1, /* another holds the floor, and this one neither queues nor presses */
    FLOOR_DENY_ONLY_ONE_PARTICIPANT = 3,   /* it is alone in the call */
    FLOOR_DENY_RECEIVE_ONLY = 5,           /* it only listens */
    FLOOR_DENY_QUEUE_FULL = 7              /* the line is at its limit */
};
enum floor_revoke {
    FLOOR_REVOKE_MEDIA_BURST_TOO_LONG = 2, /* it talked too long: T2 */
    FLOOR_REVOKE_MEDIA_BURST_PREEMPTED = 4 /* a pre-emptive request came */
};

/* Phases. */
enum floor_phase {
    FLOOR_PHASE_STOPPED = 0,               /* no call */
    FLOOR_PHASE_IDLE = 1,                  /* nobody holds the floor */
    FLOOR_PHASE_TAKEN = 2,                 /* somebody holds it */
    FLOOR_PHASE_REVOKING = 3,              /* somebody holds it and was told to end */
    FLOOR_PHASE_NOT_A_DESK = FLOOR_REFUSAL_NOT_A_DESK
};

/* Timers, by their numbers in TS 24.380. CLOCKS has their usual times. */
enum floor_timer {
    FLOOR_TIMER_NONE = 0,                  /* none fired */
    FLOOR_TIMER_1 = 1,                     /* End of RTP media */
    FLOOR_TIMER_2 = 2,                     /* Stop talking */
    FLOOR_TIMER_3 = 3,                     /* Stop talking grace */
    FLOOR_TIMER_4 = 4,                     /* Inactivity */
    FLOOR_TIMER_7 = 7,                     /* Floor Idle */
    FLOOR_TIMER_8 = 8,                     /* Floor Revoke */
    FLOOR_TIMER_20 = 20                    /* Floor Granted */
};

/* Fields of a packet, by their IDs. */
enum floor_field {
    FLOOR_FIELD_FLOOR_PRIORITY = 0,
    FLOOR_FIELD_DURATION = 1,
    FLOOR_FIELD_REJECT_CAUSE = 2,
    FLOOR_FIELD_QUEUE_INFO = 3,
    FLOOR_FIELD_GRANTED_PARTYS_IDENTITY = 4,
    FLOOR_FIELD_PERMISSION_TO_REQUEST = 5,
    FLOOR_FIELD_USER_ID = 6,
    FLOOR_FIELD_MESSAGE_SEQUENCE_NUMBER = 8,
    FLOOR_FIELD_SOURCE = 10,
    FLOOR_FIELD_MESSAGE_TYPE = 12,
    FLOOR_FIELD_FLOOR_INDICATOR = 13,
    FLOOR_FIELD_SSRC = 14
};

/* How the floor was given. */
enum floor_given {
    FLOOR_GIVEN_NOT = 0,
    FLOOR_GIVEN_AT_ONCE = 1,
    FLOOR_GIVEN_OUT_OF_THE_LINE = 2
};

/* A seat's flags, as a sheet has them. */
enum floor_flag {
    FLOOR_FLAG_QUEUEING = 1,
    FLOOR_FLAG_RECEIVE_ONLY = 2
};

/* ---- Structs: octets by name ----
 *
 * Each is laid over the octets that the proved functions take: octets alone, in the same order, with nothing between or behind them. */

struct floor_desk {
    uint8_t octets[FLOOR_DESK];
};

/* A message of a report: what a step sends. docs/FORMS.md has both. */
struct floor_sent {
    uint8_t type;      /* Granted, Taken, Deny, Idle, Revoke or Queue Position Info, or FLOOR_TYPE_NOTHING; floor_sent_type names it */
    uint8_t seat;      /* who has the floor (Taken), else zero */
    uint8_t number[2]; /* the sequence number (Taken, Idle), the cause (Deny, Revoke), the place, 1 for the head (Info), else zero */
    uint8_t priority;  /* (Granted, Queue Position Info), else zero */
    uint8_t zero;
    uint8_t to[2];     /* the set of seats it goes to */
};

/* What a step brought about: marks, and up to two messages. */
struct floor_report {
    uint8_t struck[2]; /* the set of seats struck off the line */
    uint8_t zero;
    uint8_t placed;    /* the seat placed in line, or FLOOR_NO_SEAT */
    uint8_t ended;     /* the seat whose floor ended, or FLOOR_NO_SEAT */
    uint8_t given;     /* the seat given the floor, or FLOOR_NO_SEAT */
    uint8_t how;       /* FLOOR_GIVEN_NOT, FLOOR_GIVEN_AT_ONCE or FLOOR_GIVEN_OUT_OF_THE_LINE */
    uint8_t zero_behind_how;
    struct floor_sent sent[2];
};

/* A part of a source that is lent beside a message: where it starts there, and how many octets it has. */
struct floor_part {
    uint8_t from[2], count[2];
};

/* What a packet says. A field whose bit is not set in `fields` is not there: zeros when read, not looked at when written. */
struct floor_message {
    uint8_t type;             /* floor_message_type names it */
    uint8_t ack;              /* Ack bit, 0 or 1 */
    uint8_t fields[2];        /* the set of fields it has */
    uint8_t ssrc[4];          /* of the sender */
    uint8_t priority;         /* 0 Floor Priority */
    uint8_t message_type;     /* 12 Message Type */
    uint8_t duration[2];      /* 1 Duration */
    uint8_t cause[2];         /* 2 Reject Cause: the cause */
    uint8_t position;         /* 3 Queue Info: position */
    uint8_t queue_priority;   /* 3 Queue Info: priority */
    uint8_t permission[2];    /* 5 Permission to Request, 0 or 1 */
    uint8_t sequence[2];      /* 8 Message Sequence-Number */
    uint8_t source[2];        /* 10 Source, 0 to 3 */
    uint8_t indicator[2];     /* 13 Floor Indicator */
    uint8_t field_ssrc[4];    /* 14 SSRC */
    struct floor_part phrase; /* 2 Reject Cause: its phrase, at most 253 octets */
    struct floor_part party;  /* 4 Granted Party's Identity, 1 to 62 */
    struct floor_part user;   /* 6 User ID, 1 to 62 */
};

/* The settings as a desk has them, and a seat as a sheet has it (docs/SHEET.md). The settings of a sheet are these too, but that zero stands
 * there in place of the normal level. */
struct floor_settings {
    uint8_t ssrc[4], level, limit, c7, c20, duration[2], normal, zero;
};
struct floor_seat {
    uint8_t flags, highest, ssrc[4], length; /* of the identity */
    uint8_t identity[FLOOR_IDENTITY];
};

/* The line: those who wait, the head first. */
struct floor_entry {
    uint8_t seat, priority;
};
struct floor_line {
    struct floor_entry entry[FLOOR_LINE];
};

/* Rooms for what is written. None is for a packet that comes in: that is uint8_t[FLOOR_PACKET_IN + 1]. */
struct floor_packet_out {
    uint8_t octets[FLOOR_PACKET_OUT];
};
struct floor_sheet {
    uint8_t octets[FLOOR_SHEET];
};

/* Nothing between the octets: a compiler that lays them out otherwise does not get past this. */
typedef char floor_octets_alone[sizeof(struct floor_desk) == FLOOR_DESK && sizeof(struct floor_sent) == 8 && sizeof(struct floor_part) == 4
    && sizeof(struct floor_report) == FLOOR_REPORT && sizeof(struct floor_message) == FLOOR_MESSAGE && sizeof(struct floor_entry) == 2
    && sizeof(struct floor_settings) == FLOOR_SETTINGS && sizeof(struct floor_seat) == FLOOR_SEAT && sizeof(struct floor_line) == 2 * FLOOR_LINE
    && sizeof(struct floor_packet_out) == FLOOR_PACKET_OUT && sizeof(struct floor_sheet) == FLOOR_SHEET ? 1 : -1];

/* ---- Structs of plain numbers: what a desk is made with, who joins, who holds the floor, which clocks run ---- */

/* The settings. Numbers are wide, so that none is cut: one outside its range gets -28. A name that is left out is 0, which gets -28 too, but
 * for ssrc, limit and normal. A program that was written for version 3 leaves normal out, and requests that name no priority count as 0, as
 * they did there. */
struct FLOOR_BY_NAME floor_making {
    uint32_t ssrc;     /* the desk's own, any number */
    uint32_t level;    /* from this priority on a request is pre-emptive, 1 to 255 */
    uint32_t limit;    /* how many may wait in line, 0 to 15 */
    uint32_t c7, c20;  /* the limits of C7 and C20, 1 to 255 each */
    uint32_t duration; /* that Granted tells, 1 to 65535 seconds */
    uint32_t normal;   /* the priority of a request that names none, 0 to 255 */
};

struct FLOOR_BY_NAME floor_newcomer {
    const void *identity;        /* any octets, need not be text */
    size_t identity_len;         /* 1 to 62 */
    uint32_t ssrc;
    uint32_t highest;            /* the highest priority that a request of this seat can have; no request has more than 255 */
    bool queueing, receive_only; /* whether it negotiated queueing; whether it only listens */
};

/* The seat and the priority at which it was given the floor, or a refusal in both. */
struct floor_holder {
    int32_t seat, priority;
};

/* Sets of timers. */
struct floor_clocks {
    uint32_t running; /* the clocks that run after the step */
    uint32_t starts;  /* of these, those to start anew */
    uint32_t stops;   /* those that ran before the step and are to be stopped */
};

/* ---- Small things ---- */

/* Whether a set has this seat, timer or field. */
static inline bool floor_has(uint32_t set, uint32_t number)
{
    return number < 32 && (set >> number & 1) != 0;
}

static inline uint32_t floor_two(const uint8_t octets[2])
{
    return (uint32_t)octets[0] << 8 | octets[1];
}

static inline uint32_t floor_four(const uint8_t octets[4])
{
    return floor_two(octets) << 16 | floor_two(octets + 2);
}

static inline void floor_put_two(uint8_t octets[2], uint32_t number)
{
    octets[0] = (uint8_t)(number >> 8);
    octets[1] = (uint8_t)number;
}

static inline void floor_put_four(uint8_t octets[4], uint32_t number)
{
    floor_put_two(octets, number >> 16);
    floor_put_two(octets + 2, number);
}

/* What type a message of a report has, or a message that was read, as its enum: -Wswitch names the ones that a switch forgets. */
static inline enum floor_type floor_sent_type(const struct floor_sent *sent)
{
    return (enum floor_type)sent->type;
}

static inline enum floor_type floor_message_type(const struct floor_message *message)
{
    return (enum floor_type)message->type;
}

/* A report of nothing: no message, no mark. */
static inline void floor_report_clear(struct floor_report *report)
{
    static const struct floor_report nothing = {{0, 0}, 0, FLOOR_NO_SEAT, FLOOR_NO_SEAT, FLOOR_NO_SEAT, FLOOR_GIVEN_NOT, 0,
                                                {{FLOOR_TYPE_NOTHING, 0, {0, 0}, 0, 0, {0, 0}},
                                                 {FLOOR_TYPE_NOTHING, 0, {0, 0}, 0, 0, {0, 0}}}};
    *report = nothing;
}

/* ---- Header and archive ---- */

/* The version of the archive. A header and an archive belong together if it is FLOOR_VERSION. An archive of version 1 has no such function,
 * and a program over this header does not link with it.
 *
 * In C     floor_desk_make and floor_desk_load ask it, and stop the program (a trap) where the two do not belong together. A program that
 *          wants to say so in its own words asks first.
 * Answers  4  the version; there is no refusal
 * Leaves   everything.
 * Example:
 *     assert(floor_version() == FLOOR_VERSION);
 */
int32_t floor_version(void);

static inline void floor_belong_together(void)
{
    if (floor_version() != FLOOR_VERSION)
        FLOOR_TRAP();
}

/* ---- Making a desk, and who sits there ---- */

/* Makes a fresh desk in the first FLOOR_DESK octets: Stopped, sequence number, C7 and C20 at 0, no seat taken. What stood there is not asked.
 *
 * In C     floor_desk_make takes the settings by name, as a struct floor_making.
 * Takes    ssrc      the desk's own, any number
 *          level     from this priority on a request is pre-emptive, 1 to 255
 *          limit     how many may wait in line, 0 to 15. A pre-emptive request too gets Deny #7 when the line is full (document 01, Request,
 *                    5), an emergency among them, and then nobody is revoked. At 15 the line is never full
 *          c7, c20   the limits of C7 and C20, 1 to 255 each
 *          duration  that Granted tells, 1 to 65535 seconds; it is the time of T2 too (CLOCKS)
 *          normal    the normal level: the priority of a request without a Floor Priority field, 0 to 255. It has no tie with level: at
 *                    level or above, such a request is pre-emptive. Only at 0 can the desk be saved (floor_save). (Version 3 had no such
 *                    parameter, and was at 0)
 * Answers  0    done
 *          -28  a setting outside its range
 *          -13  fewer than FLOOR_DESK octets lent
 * Leaves   octets behind the first FLOOR_DESK.
 * Example:
 *     assert(floor_desk_make(&desk, &settings) == 0); // settings.normal is 0
 *     assert(floor_desk_phase(&desk) == FLOOR_PHASE_STOPPED && floor_desk_seats(&desk) == 0);
 *     settings.normal = 256;
 *     assert(floor_desk_make(&desk, &settings) == FLOOR_REFUSAL_OUTSIDE_RANGE);
 */
FLOOR_CHECKED int32_t floor_make(uint8_t *desk, size_t desk_len, uint32_t ssrc, uint32_t level, uint32_t limit, uint32_t c7, uint32_t c20,
                                 uint32_t duration, uint32_t normal);

static inline FLOOR_CHECKED int32_t floor_desk_make(struct floor_desk *desk, const struct floor_making *with)
{
    floor_belong_together();
    return floor_make(desk->octets, FLOOR_DESK, with->ssrc, with->level, with->limit, with->c7, with->c20, with->duration, with->normal);
}

/* Somebody takes the lowest free seat, in any phase. Nobody is told.
 *
 * In C     floor_desk_join takes who joins as a struct floor_newcomer. Nothing is cut there: the flags are bool, and a highest above 255 is
 *          taken as 255, which says the same, since no request has more.
 * Takes    identity      1 to 62 octets, any; no other seat may have it
 *          ssrc          any that no other seat has, nor the desk
 *          highest       the highest priority that a request of this seat can have, 0 to 255
 *          queueing      whether it negotiated queueing: 0 for no, anything else for yes
 *          receive_only  whether it only listens: 0 for no, anything else for yes
 *          These three are octets: C cuts a larger number to its lowest 8 bits, unseen here (300 becomes 44, a flag of 256 becomes no).
 * Answers  0 to 15  the seat
 *          -20      not a desk
 *          -25      identity of 0 octets, or of more than 62
 *          -26      a seat has this identity
 *          -27      a seat has this SSRC, or the desk has it
 *          -24      no seat is free
 * Leaves   phase, holder, line, timers, counters, sequence number, settings, the other seats.
 * Example:
 *     assert(floor_desk_join(&desk, &test3) == 2);
 *     test3.ssrc = 13;
 *     assert(floor_desk_join(&desk, &test3) == FLOOR_REFUSAL_IDENTITY_PRESENT);
 */
FLOOR_CHECKED int32_t floor_join(uint8_t *desk, size_t desk_len, const uint8_t *identity, size_t identity_len, uint32_t ssrc, uint8_t highest,
                                 uint8_t queueing, uint8_t receive_only);

static inline FLOOR_CHECKED int32_t floor_desk_join(struct floor_desk *desk, const struct floor_newcomer *who)
{
    return floor_join(desk->octets, FLOOR_DESK, (const uint8_t *)who->identity, who->identity_len, who->ssrc,
                      (uint8_t)(who->highest > 255 ? 255 : who->highest), who->queueing, who->receive_only);
}

/* ---- Steps ----
 *
 * Each takes a desk and room for a report, changes the desk and writes the report into the first FLOOR_REPORT octets of the room. No step
 * changes the settings; none but floor_leave changes the seats.
 *
 * In C, the report of a refused step is empty, with no message and no mark: an old report is never sent again. (The function on octets leaves
 * it as it was.) So the same lines can follow every step, done or refused: send the report's messages, then look after the clocks.
 */

/* A seat leaves, in any phase: its floor ends, or it is struck off the line, and the seat is free. It gets no message.
 *
 * Takes    seat  0 to 15; any other number is no seat
 * Answers  0    done
 *          -20  not a desk
 *          -22  the seat is not taken, or there is no such seat
 *          -13  fewer than FLOOR_REPORT octets lent
 * Leaves   the other seats and the settings; phase, holder and line if the seat neither held the floor nor waited.
 * Example:
 *     assert(floor_desk_packet(&desk, ask0, sizeof ask0, &report) == 0);
 *     assert(floor_desk_leave(&desk, 0, &report) == 0 && report.ended == 0);                                 // the floor of seat 0 ended,
 *     assert(floor_sent_type(&report.sent[0]) == FLOOR_TYPE_IDLE && floor_two(report.sent[0].to) == 1 << 1); // and Idle goes to seat 1
 */
FLOOR_CHECKED int32_t floor_leave(uint8_t *desk, size_t desk_len, uint32_t seat, uint8_t *report, size_t report_len);

static inline FLOOR_CHECKED int32_t floor_desk_leave(struct floor_desk *desk, uint32_t seat, struct floor_report *report)
{
    floor_report_clear(report);
    return floor_leave(desk->octets, FLOOR_DESK, seat, (uint8_t *)report, FLOOR_REPORT);
}

/* The call starts: Idle goes to all.
 *
 * Answers  0    done
 *          -20  not a desk
 *          -23  the call was started already
 *          -13  fewer than FLOOR_REPORT octets lent
 * Leaves   seats, settings, C20.
 * Example:
 *     assert(floor_desk_start(&desk, &report) == FLOOR_REFUSAL_NOT_EXPECTED);
 *     assert(floor_sent_type(&report.sent[0]) == FLOOR_TYPE_NOTHING); // the Idle of the first start is not sent again
 *     assert(floor_desk_stop(&desk, &report) == 0 && floor_desk_start(&desk, &report) == 0);
 *     assert(floor_sent_type(&report.sent[0]) == FLOOR_TYPE_IDLE && floor_two(report.sent[0].to) == (1 << 0 | 1 << 1)); // to seats 0 and 1
 */
FLOOR_CHECKED int32_t floor_start(uint8_t *desk, size_t desk_len, uint8_t *report, size_t report_len);

static inline FLOOR_CHECKED int32_t floor_desk_start(struct floor_desk *desk, struct floor_report *report)
{
    floor_report_clear(report);
    return floor_start(desk->octets, FLOOR_DESK, (uint8_t *)report, FLOOR_REPORT);
}

/* The call stops: the holder's floor ends, all in line are struck off, no timer runs. No message is sent.
 *
 * Answers  0    done
 *          -20  not a desk
 *          -21  the call is stopped already
 *          -13  fewer than FLOOR_REPORT octets lent
 * Leaves   seats, settings, sequence number, C7, C20.
 * Example:
 *     assert(floor_desk_stop(&desk, &report) == 0 && floor_sent_type(&report.sent[0]) == FLOOR_TYPE_NOTHING);
 *     assert(floor_desk_phase(&desk) == FLOOR_PHASE_STOPPED);
 *     assert(floor_desk_stop(&desk, &report) == FLOOR_REFUSAL_CALL_STOPPED);
 */
FLOOR_CHECKED int32_t floor_stop(uint8_t *desk, size_t desk_len, uint8_t *report, size_t report_len);

static inline FLOOR_CHECKED int32_t floor_desk_stop(struct floor_desk *desk, struct floor_report *report)
{
    floor_report_clear(report);
    return floor_stop(desk->octets, FLOOR_DESK, (uint8_t *)report, FLOOR_REPORT);
}

/* A packet came in. Request, Release and Queue Position Request have a rule. The priority of a Request is the lower of what it asks for and
 * the seat's highest. It asks for what its field 0 says, a 0 too, and without that field for the desk's normal level (floor_make). (Version 3
 * took its absence for 0.) One who is not in line and asks for its place is told place 255, priority 0.
 *
 * Takes    packet  the octets as they came, one whole packet and nothing behind it; who sent it is found by its SSRC
 * Answers  0               done; also if the request was denied: a Deny is a message
 *          -20             not a desk
 *          -1 to -11, -14  the packet is not read (FLOOR_REFUSAL_TOO_SHORT to _MISSING, _REPEATED), as floor_read answers
 *          -21             the call is stopped
 *          -22             no seat has the packet's SSRC
 *          -23             another type; a Request by the holder in Revoking; a Release by one who neither holds the floor nor waits
 *          -13             fewer than FLOOR_REPORT octets lent
 * Leaves   the packet, the seats, the settings; the whole desk on a Deny and on a Queue Position Request.
 * Example:
 *     assert(floor_desk_packet(&desk, ask0, sizeof ask0, &report) == 0 && report.given == 0 && report.how == FLOOR_GIVEN_AT_ONCE);
 *     assert(floor_sent_type(&report.sent[0]) == FLOOR_TYPE_GRANTED && floor_two(report.sent[0].to) == 1 << 0); // Granted goes to seat 0,
 *     assert(floor_sent_type(&report.sent[1]) == FLOOR_TYPE_TAKEN && floor_two(report.sent[1].to) == 1 << 1);   // Taken to seat 1
 *     assert(floor_desk_packet(&desk, bare1, sizeof bare1, &report) == 0 && report.sent[0].priority == 0); // seat 1 waits at the normal level
 */
FLOOR_CHECKED int32_t floor_packet(uint8_t *desk, size_t desk_len, const uint8_t *packet, size_t packet_len, uint8_t *report,
                                   size_t report_len);

static inline FLOOR_CHECKED int32_t floor_desk_packet(struct floor_desk *desk, const void *packet, size_t packet_len,
                                                      struct floor_report *report)
{
    floor_report_clear(report);
    return floor_packet(desk->octets, FLOOR_DESK, (const uint8_t *)packet, packet_len, (uint8_t *)report, FLOOR_REPORT);
}

/* Media came in. From the holder in Taken it starts T2, and T20 stops; in Revoking nothing changes. No message is sent.
 *
 * Takes    ssrc  whose media it is
 * Answers  0    done
 *          -20  not a desk
 *          -21  the call is stopped
 *          -22  no seat has this SSRC
 *          -23  it is not the holder's
 *          -13  fewer than FLOOR_REPORT octets lent
 * Leaves   all of the desk but the timers.
 * Example:
 *     assert(floor_desk_packet(&desk, ask0, sizeof ask0, &report) == 0 && floor_desk_media(&desk, 10, &report) == 0);
 *     assert(floor_sent_type(&report.sent[0]) == FLOOR_TYPE_NOTHING);
 *     assert(floor_desk_running(&desk) == (1 << FLOOR_TIMER_1 | 1 << FLOOR_TIMER_2));
 *     assert(floor_desk_media(&desk, 11, &report) == FLOOR_REFUSAL_NOT_EXPECTED); // seat 1 does not hold the floor
 */
FLOOR_CHECKED int32_t floor_media(uint8_t *desk, size_t desk_len, uint32_t ssrc, uint8_t *report, size_t report_len);

static inline FLOOR_CHECKED int32_t floor_desk_media(struct floor_desk *desk, uint32_t ssrc, struct floor_report *report)
{
    floor_report_clear(report);
    return floor_media(desk->octets, FLOOR_DESK, ssrc, (uint8_t *)report, FLOOR_REPORT);
}

/* A timer fired. T1 and T3 end the holder's floor; T2 revokes it, and T8 sends Revoke again; T4 stops the call, and nobody is told: no message
 * is sent then; T7 sends Idle again until C7 is at its limit, then T7 stops; T20 sends Granted again until C20 is at its limit, then it ends
 * the floor.
 *
 * Takes    timer  1, 2, 3, 4, 7, 8 or 20 (FLOOR_TIMER_..); any other number is a timer that does not run
 * Answers  0    done
 *          -20  not a desk
 *          -21  the call is stopped
 *          -23  this timer does not run
 *          -13  fewer than FLOOR_REPORT octets lent
 * Leaves   seats, settings.
 * Example:
 *     assert(floor_desk_timer(&desk, FLOOR_TIMER_7, &report) == 0);
 *     assert(floor_sent_type(&report.sent[0]) == FLOOR_TYPE_IDLE && floor_two(report.sent[0].number) == 2); // Idle again, sequence number 2
 *     assert(floor_desk_timer(&desk, FLOOR_TIMER_1, &report) == FLOOR_REFUSAL_NOT_EXPECTED); // nobody holds the floor, so T1 does not run
 */
FLOOR_CHECKED int32_t floor_timer(uint8_t *desk, size_t desk_len, uint32_t timer, uint8_t *report, size_t report_len);

static inline FLOOR_CHECKED int32_t floor_desk_timer(struct floor_desk *desk, uint32_t timer, struct floor_report *report)
{
    floor_report_clear(report);
    return floor_timer(desk->octets, FLOOR_DESK, timer, (uint8_t *)report, FLOOR_REPORT);
}

/* Writes a message of a report as its packet. For Taken the seat's identity is looked up in the desk as it is now, so call it before the next
 * step. Who gets the packet stands in the report, and is not asked here. Any cause, sequence number and priority, and any place up to 255, is
 * written as it stands, also one that no step would send.
 *
 * Takes    report  exactly FLOOR_REPORT octets, as a step wrote them
 *          which   0 for the first message, 1 for the second
 *          room    for the packet; FLOOR_PACKET_OUT octets are always enough
 * Answers  16 to 84  the packet's length
 *          0         the report has no such message: FLOOR_TYPE_NOTHING stands there, or which is neither 0 nor 1
 *          -20       not a desk
 *          -12       the report has another length, whatever which is; or the message asked for has a type that is not listed at struct
 *                    floor_sent, anything but zero where zero is said there (with FLOOR_TYPE_NOTHING too), a place above 255, or in Taken a
 *                    seat that is free or above 15
 *          -13       the room is shorter than the packet
 * Leaves   desk and report.
 * Example:
 *     assert(floor_desk_message(&desk, &report, 0, &packet) == 16);
 *     assert(packet.octets[0] == (0x80 | FLOOR_TYPE_IDLE) && packet.octets[15] == 1); // Idle, sequence number 1
 *     assert(floor_desk_message(&desk, &report, 1, &packet) == 0); // there is no second message
 */
FLOOR_CHECKED int32_t floor_message(const uint8_t *desk, size_t desk_len, const uint8_t *report, size_t report_len, uint32_t which,
                                    uint8_t *room, size_t room_len);

static inline FLOOR_CHECKED int32_t floor_desk_message(const struct floor_desk *desk, const struct floor_report *report, uint32_t which,
                                                       struct floor_packet_out *room)
{
    return floor_message(desk->octets, FLOOR_DESK, (const uint8_t *)report, FLOOR_REPORT, which, room->octets, FLOOR_PACKET_OUT);
}

/* ---- Packets by themselves ---- */

/* Reads a packet into the first FLOOR_MESSAGE octets of a room (struct floor_message); the packet is the source of its parts. A field that is
 * absent is zeros. Required: Granted 1; Taken 4; Deny and Revoke 2; Idle 8; Queue Position Info 3; Ack 10 and 12. Fields come in any order,
 * each ID of enum floor_field once at most; those with another ID below 192 are skipped, and may repeat. (Version 2 took the first of two.)
 *
 * Takes    packet   the octets as they came, one whole packet and nothing behind it
 *          message  room of FLOOR_MESSAGE octets or more
 * Answers  0               done
 *          -1 to -11, -14  the packet is not read (FLOOR_REFUSAL_TOO_SHORT to _MISSING, _REPEATED); enum floor_refusal has their order
 *          -13             fewer than FLOOR_MESSAGE octets lent
 * Leaves   the packet.
 * Example:
 *     assert(floor_message_read(&message, ask0, sizeof ask0) == 0);
 *     assert(floor_message_type(&message) == FLOOR_TYPE_REQUEST && floor_four(message.ssrc) == 10);
 *     assert(floor_has(floor_two(message.fields), FLOOR_FIELD_FLOOR_PRIORITY) && message.priority == 5);
 *     assert(floor_message_read(&message, ask0, 11) == FLOOR_REFUSAL_TOO_SHORT);
 */
FLOOR_CHECKED int32_t floor_read(const uint8_t *packet, size_t packet_len, uint8_t *message, size_t message_len);

static inline FLOOR_CHECKED int32_t floor_message_read(struct floor_message *message, const void *packet, size_t packet_len)
{
    return floor_read((const uint8_t *)packet, packet_len, (uint8_t *)message, FLOOR_MESSAGE);
}

/* Writes a message as a packet, its fields in the order of their numbers. A field whose bit is not set is not looked at.
 *
 * Takes    message  exactly FLOOR_MESSAGE octets
 *          source   where its identities and its phrase are; nothing if it has none; the packet itself if it was read from one
 *          room     for the packet; FLOOR_PACKET_OUT octets are always enough
 * Answers  12 to 440  the packet's length
 *          -12        the message has another length; no reader would accept it (a type that is not listed, a required field that is missing, a
 *                     number or a length beyond what is said at struct floor_message, a bit for a field that is not there); or a part, also
 *                     an empty phrase, is not in the source
 *          -13        the room is shorter than the packet
 * Leaves   message and source.
 * Example:
 *     message.type = FLOOR_TYPE_RELEASE;
 *     floor_put_four(message.ssrc, 10);
 *     assert(floor_message_write(&message, NULL, 0, &packet) == 12);
 *     assert(packet.octets[0] == (0x80 | FLOOR_TYPE_RELEASE) && packet.octets[7] == 10);
 */
FLOOR_CHECKED int32_t floor_write(const uint8_t *message, size_t message_len, const uint8_t *source, size_t source_len, uint8_t *room,
                                  size_t room_len);

static inline FLOOR_CHECKED int32_t floor_message_write(const struct floor_message *message, const void *source, size_t source_len,
                                                        struct floor_packet_out *room)
{
    return floor_write((const uint8_t *)message, FLOOR_MESSAGE, (const uint8_t *)source, source_len, room->octets, FLOOR_PACKET_OUT);
}

/* ---- The sheet: seats and settings, to be kept (docs/SHEET.md has its octets) ---- */

/* Saves seats and settings, in any phase. A sheet has no place for the normal level, so a desk is saved only if that is 0.
 *
 * Takes    room  for the sheet; FLOOR_SHEET octets are always enough
 * Answers  20 to 1124  the sheet's length: 20, and for each taken seat 7 and its identity
 *          -20         not a desk
 *          -48         its normal level is not 0
 *          -13         the room is shorter than the sheet
 * Leaves   the desk.
 * Example:
 *     assert(floor_desk_save(&desk, &sheet) == 20 + (7 + 5) + (7 + 5));
 *     settings.normal = 100;
 *     assert(floor_desk_make(&other, &settings) == 0 && floor_desk_save(&other, &sheet) == FLOOR_REFUSAL_SHEET_CANNOT_HOLD);
 */
FLOOR_CHECKED int32_t floor_save(const uint8_t *desk, size_t desk_len, uint8_t *room, size_t room_len);

static inline FLOOR_CHECKED int32_t floor_desk_save(const struct floor_desk *desk, struct floor_sheet *room)
{
    return floor_save(desk->octets, FLOOR_DESK, room->octets, FLOOR_SHEET);
}

/* Makes a fresh desk from a sheet in the first FLOOR_DESK octets: Stopped, as floor_make does, with normal level 0, its seats numbered from 0
 * in the order of the sheet. What stood there is not asked.
 *
 * Takes    sheet  exactly the octets that floor_save wrote, or such by hand
 * Answers  0    done
 *          -41  under 20 octets, or no letters FS at the end
 *          -42  another form than 1
 *          -43  count above 16, settings not 20 octets before the end, or seats' offset not zero
 *          -44  a setting outside its range, or one of the two octets behind the settings not zero
 *          -45  a seat against the layout or that could not join, or seats that do not end at the settings
 *          -13  fewer than FLOOR_DESK octets lent for the desk
 * Leaves   the sheet, and octets behind the first FLOOR_DESK.
 * Example:
 *     int32_t n = floor_desk_save(&desk, &sheet);
 *     assert(n > 0 && floor_desk_load(&other, sheet.octets, (size_t)n) == 0);
 *     assert(floor_desk_phase(&other) == FLOOR_PHASE_STOPPED && floor_desk_seats(&other) == (1 << 0 | 1 << 1));
 *     assert(floor_desk_load(&other, sheet.octets, (size_t)n - 1) == FLOOR_REFUSAL_NO_TRAILER);
 */
FLOOR_CHECKED int32_t floor_load(uint8_t *desk, size_t desk_len, const uint8_t *sheet, size_t sheet_len);

static inline FLOOR_CHECKED int32_t floor_desk_load(struct floor_desk *desk, const void *sheet, size_t sheet_len)
{
    floor_belong_together();
    return floor_load(desk->octets, FLOOR_DESK, (const uint8_t *)sheet, sheet_len);
}

/* ---- Looking at a desk: nothing is changed but the room for the result ---- */

/* The line for the wall screen: for each who waits, the head first, its seat and its priority, 2 octets an entry.
 *
 * Takes    room  2 octets for each who waits; 2 * FLOOR_LINE are always enough
 * Answers  0 to 15  how many wait
 *          -20      not a desk
 *          -13      the room is shorter than the line
 * Leaves   the desk.
 * Example:
 *     assert(floor_desk_packet(&desk, ask0, sizeof ask0, &report) == 0);
 *     assert(floor_desk_packet(&desk, ask1, sizeof ask1, &report) == 0);
 *     assert(floor_desk_screen(&desk, &line) == 1);
 *     assert(line.entry[0].seat == 1 && line.entry[0].priority == 6); // seat 1 waits, at priority 6
 */
FLOOR_CHECKED int32_t floor_screen(const uint8_t *desk, size_t desk_len, uint8_t *room, size_t room_len);

static inline FLOOR_CHECKED int32_t floor_desk_screen(const struct floor_desk *desk, struct floor_line *room)
{
    return floor_screen(desk->octets, FLOOR_DESK, (uint8_t *)room, 2 * FLOOR_LINE);
}

/* The phase.
 *
 * In C     floor_desk_phase answers an enum floor_phase: compilers warn of a switch that forgets one, and GCC of a comparison with a type.
 * Answers  0 to 3  FLOOR_PHASE_STOPPED, FLOOR_PHASE_IDLE, FLOOR_PHASE_TAKEN, FLOOR_PHASE_REVOKING
 *          -20     not a desk (FLOOR_PHASE_NOT_A_DESK)
 * Leaves   the desk.
 * Example:
 *     assert(floor_desk_phase(&desk) == FLOOR_PHASE_IDLE);
 *     desk.octets[0] = 0;
 *     assert(floor_desk_phase(&desk) == FLOOR_PHASE_NOT_A_DESK);
 */
FLOOR_CHECKED int32_t floor_phase(const uint8_t *desk, size_t desk_len);

static inline FLOOR_CHECKED enum floor_phase floor_desk_phase(const struct floor_desk *desk)
{
    return (enum floor_phase)floor_phase(desk->octets, FLOOR_DESK);
}

/* The seat that holds the floor. (Version 1 answered 256 times the seat and the priority.)
 *
 * In C     floor_desk_holder answers a struct floor_holder, with the seat and the priority at which it was given the floor.
 * Answers  0 to 15  the seat, in Taken and Revoking
 *          -20      not a desk
 *          -22      nobody holds the floor: Stopped or Idle
 * Leaves   the desk.
 * Example:
 *     assert(floor_desk_holder(&desk).seat == FLOOR_REFUSAL_NO_SUCH_SEAT);
 *     assert(floor_desk_packet(&desk, ask1, sizeof ask1, &report) == 0);
 *     assert(floor_desk_holder(&desk).seat == 1 && floor_desk_holder(&desk).priority == 6);
 */
FLOOR_CHECKED int32_t floor_holder(const uint8_t *desk, size_t desk_len);

/* The priority at which the floor was given to the seat that holds it.
 *
 * In C     see floor_desk_holder.
 * Answers  0 to 255  the priority, in Taken and Revoking
 *          -20       not a desk
 *          -22       nobody holds the floor: Stopped or Idle
 * Leaves   the desk.
 * Example:
 *     settings.normal = 100;
 *     assert(floor_desk_make(&desk, &settings) == 0 && floor_desk_join(&desk, &test1) == 0 && floor_desk_join(&desk, &test2) == 1);
 *     assert(floor_desk_start(&desk, &report) == 0 && floor_desk_packet(&desk, bare1, sizeof bare1, &report) == 0);
 *     assert(floor_holder_priority(desk.octets, sizeof desk.octets) == 100); // seat 1 named no priority: it was given the floor at 100
 */
FLOOR_CHECKED int32_t floor_holder_priority(const uint8_t *desk, size_t desk_len);

static inline FLOOR_CHECKED struct floor_holder floor_desk_holder(const struct floor_desk *desk)
{
    struct floor_holder holder;
    holder.seat = floor_holder(desk->octets, FLOOR_DESK);
    holder.priority = floor_holder_priority(desk->octets, FLOOR_DESK);
    return holder;
}

/* The timers that run: bit 1 for T1, 2 for T2, 3 for T3, 4 for T4, 7 for T7, 8 for T8, 20 for T20.
 *
 * Answers  0              none: Stopped
 *          16, 144        T4, or T4 and T7: Idle
 *          2, 6, 1048578  T1, or T1 and T2, or T1 and T20: Taken
 *          266            T1, T3 and T8: Revoking
 *          -20            not a desk
 * Leaves   the desk.
 * Example:
 *     assert(floor_desk_running(&desk) == (1 << FLOOR_TIMER_4 | 1 << FLOOR_TIMER_7));
 *     assert(floor_desk_packet(&desk, ask0, sizeof ask0, &report) == 0);
 *     assert(floor_desk_running(&desk) == 1 << FLOOR_TIMER_1);
 */
FLOOR_CHECKED int32_t floor_running(const uint8_t *desk, size_t desk_len);

static inline FLOOR_CHECKED int32_t floor_desk_running(const struct floor_desk *desk)
{
    return floor_running(desk->octets, FLOOR_DESK);
}

/* The sequence number: that of the latest Taken or Idle. 65535 goes on with 0.
 *
 * Answers  0 to 65535  the number; 0 on a fresh desk
 *          -20         not a desk
 * Leaves   the desk.
 * Example:
 *     assert(floor_desk_sequence(&desk) == 1);
 *     assert(floor_desk_packet(&desk, ask0, sizeof ask0, &report) == 0);
 *     assert(floor_desk_sequence(&desk) == 2);
 */
FLOOR_CHECKED int32_t floor_sequence(const uint8_t *desk, size_t desk_len);

static inline FLOOR_CHECKED int32_t floor_desk_sequence(const struct floor_desk *desk)
{
    return floor_sequence(desk->octets, FLOOR_DESK);
}

/* C7: 1 when the desk goes to Idle, and one more each time T7 sends Idle again. Else it keeps its value, also when the call stops.
 *
 * Answers  0 to 255  the count; 0 on a fresh desk, never above its limit
 *          -20       not a desk
 * Leaves   the desk.
 * Example:
 *     assert(floor_desk_c7(&desk) == 1);
 *     assert(floor_desk_timer(&desk, FLOOR_TIMER_7, &report) == 0);
 *     assert(floor_desk_c7(&desk) == 2);
 */
FLOOR_CHECKED int32_t floor_c7(const uint8_t *desk, size_t desk_len);

static inline FLOOR_CHECKED int32_t floor_desk_c7(const struct floor_desk *desk)
{
    return floor_c7(desk->octets, FLOOR_DESK);
}

/* C20: 1 when the floor is given out of the line, and one more each time T20 sends Granted again. Else it keeps its value, also when the call
 * stops.
 *
 * Answers  0 to 255  the count; 0 on a fresh desk, never above its limit
 *          -20       not a desk
 * Leaves   the desk.
 * Example:
 *     assert(floor_desk_packet(&desk, ask0, sizeof ask0, &report) == 0);
 *     assert(floor_desk_packet(&desk, ask1, sizeof ask1, &report) == 0);
 *     assert(floor_desk_timer(&desk, FLOOR_TIMER_1, &report) == 0); // the floor of seat 0 ends; seat 1 is given it out of the line
 *     assert(floor_desk_c20(&desk) == 1);
 */
FLOOR_CHECKED int32_t floor_c20(const uint8_t *desk, size_t desk_len);

static inline FLOOR_CHECKED int32_t floor_desk_c20(const struct floor_desk *desk)
{
    return floor_c20(desk->octets, FLOOR_DESK);
}

/* The seats that are taken.
 *
 * Answers  0 to 65535  the set; 0 if none is taken
 *          -20         not a desk
 * Leaves   the desk.
 * Example:
 *     assert(floor_desk_seats(&desk) == (1 << 0 | 1 << 1));
 *     assert(floor_desk_leave(&desk, 0, &report) == 0);
 *     assert(floor_desk_seats(&desk) == 1 << 1);
 */
FLOOR_CHECKED int32_t floor_seats(const uint8_t *desk, size_t desk_len);

static inline FLOOR_CHECKED int32_t floor_desk_seats(const struct floor_desk *desk)
{
    return floor_seats(desk->octets, FLOOR_DESK);
}

/* One seat, as the sheet lays it out: 7 octets, and behind them its identity (struct floor_seat).
 *
 * Takes    seat  0 to 15; any other number is no seat
 *          room  for the seat; FLOOR_SEAT octets are always enough
 * Answers  8 to 69  how many octets it has
 *          -20      not a desk
 *          -22      the seat is not taken, or there is no such seat
 *          -13      the room is shorter than the seat
 * Leaves   the desk.
 * Example:
 *     struct floor_seat seat;
 *     assert(floor_desk_seat(&desk, 1, &seat) == 7 + 5 && seat.length == 5 && seat.identity[4] == '2');
 *     assert(floor_four(seat.ssrc) == 11 && seat.highest == 255 && seat.flags == FLOOR_FLAG_QUEUEING);
 *     assert(floor_desk_seat(&desk, 2, &seat) == FLOOR_REFUSAL_NO_SUCH_SEAT);
 */
FLOOR_CHECKED int32_t floor_seat(const uint8_t *desk, size_t desk_len, uint32_t seat, uint8_t *room, size_t room_len);

static inline FLOOR_CHECKED int32_t floor_desk_seat(const struct floor_desk *desk, uint32_t seat, struct floor_seat *room)
{
    return floor_seat(desk->octets, FLOOR_DESK, seat, (uint8_t *)room, FLOOR_SEAT);
}

/* The settings (struct floor_settings): as the sheet lays them out, but with the normal level in place of the first of its two zeros. (Version
 * 3 wrote zero there.)
 *
 * Takes    room  for the settings: FLOOR_SETTINGS octets or more
 * Answers  12   how many octets they have
 *          -20  not a desk
 *          -13  fewer than FLOOR_SETTINGS octets lent
 * Leaves   the desk.
 * Example:
 *     struct floor_settings made;
 *     assert(floor_desk_settings(&desk, &made) == 12 && made.level == 200 && floor_two(made.duration) == 30 && made.normal == 0);
 */
FLOOR_CHECKED int32_t floor_settings(const uint8_t *desk, size_t desk_len, uint8_t *room, size_t room_len);

static inline FLOOR_CHECKED int32_t floor_desk_settings(const struct floor_desk *desk, struct floor_settings *room)
{
    return floor_settings(desk->octets, FLOOR_DESK, (uint8_t *)room, FLOOR_SETTINGS);
}

/* The seat that has this SSRC. The desk's own SSRC is no seat's.
 *
 * Answers  0 to 15  the seat
 *          -20      not a desk
 *          -22      no seat has it
 * Leaves   the desk.
 * Example:
 *     assert(floor_desk_seat_by_ssrc(&desk, 11) == 1);
 *     assert(floor_desk_seat_by_ssrc(&desk, 12) == FLOOR_REFUSAL_NO_SUCH_SEAT);
 */
FLOOR_CHECKED int32_t floor_seat_by_ssrc(const uint8_t *desk, size_t desk_len, uint32_t ssrc);

static inline FLOOR_CHECKED int32_t floor_desk_seat_by_ssrc(const struct floor_desk *desk, uint32_t ssrc)
{
    return floor_seat_by_ssrc(desk->octets, FLOOR_DESK, ssrc);
}

/* The seat that has this identity, octet for octet.
 *
 * Takes    identity  any octets; no seat has one of 0, or of more than 62
 * Answers  0 to 15  the seat
 *          -20      not a desk
 *          -22      no seat has it
 * Leaves   desk and identity.
 * Example:
 *     assert(floor_desk_seat_by_identity(&desk, "test2", 5) == 1);
 *     assert(floor_desk_seat_by_identity(&desk, "test", 4) == FLOOR_REFUSAL_NO_SUCH_SEAT);
 */
FLOOR_CHECKED int32_t floor_seat_by_identity(const uint8_t *desk, size_t desk_len, const uint8_t *identity, size_t identity_len);

static inline FLOOR_CHECKED int32_t floor_desk_seat_by_identity(const struct floor_desk *desk, const void *identity, size_t identity_len)
{
    return floor_seat_by_identity(desk->octets, FLOOR_DESK, (const uint8_t *)identity, identity_len);
}

/* ---- CLOCKS ----
 *
 * The desk knows which timers run; when one fires, you know. Keep a clock for each, and after every step set it by this rule. A timer's clock
 *
 *   starts anew  if the timer runs after the step, and did not run before it; or it is the one that fired and runs on (T7, T8 and T20 do);
 *                or the floor was given in this step and it is T1 or T20, which may run both before and after;
 *   stops        if it ran before the step and does not run after it;
 *   else goes on as it was, or stays still.
 *
 * To look only for bits of floor_running that were not set before is a mistake: the floor that ends and is given to the next in one step has
 * T1 set before and after, and a repeating timer too. floor_starts and floor_stops are the rule; floor_desk_clocks gives both sets:
 *
 *     static struct floor_clocks clocks;                                     // of a stopped desk: nothing runs
 *     answer = floor_desk_timer(&desk, timer, &report);                      // or any other step, and then FLOOR_TIMER_NONE below
 *     if (floor_desk_clocks(&desk, &report, timer, &clocks) < 0) abort();    // else start clocks.starts, stop clocks.stops
 *
 * Media is the bench's own case. Document 01 says that T1 runs on with media, and no set here has it; what a clock does then is the bench's.
 * By TS 24.380 T1 is the end of media: its clock begins again with every media packet of the holder. A bench whose T1 does not, ends every
 * floor one T1 after it was given, talk or no talk.
 *
 * Usual times, TS 24.380, 11.1.3 (table 11.1.3-1), seconds; each is configurable there:
 *
 *   T1   4, at most 6   End of RTP media      T7   depends on the radio network   Floor Idle
 *   T2   30             Stop talking          T8   1                              Floor Revoke
 *   T3   3              Stop talking grace    T20  1                              Floor Granted
 *   T4   30             Inactivity
 *
 * T2 is the `duration` that Granted told the handset, or the two would disagree about when talk is too long. The limit of C20 times T20 is to be
 * shorter than T1 (there, note 4), or T1 ends the floor while Granted is still being sent again.
 */

/* Which clocks to start anew after a step.
 *
 * Takes    before, after  what floor_running answered before and after the step; bits of no timer count for nothing
 *          fired          the timer that fired (1, 2, 3, 4, 7, 8, 20); 0, or any other number, if none did
 *          report         exactly the FLOOR_REPORT octets of the step
 * Answers  0 or more  the set of timers, bits as floor_running has them
 *          -12        the report has another length, or how the floor was given (struct floor_report, how) is above 2
 * Leaves   the report.
 * Example:
 *     assert(floor_starts(0, 1 << 4 | 1 << 7, FLOOR_TIMER_NONE, (const uint8_t *)&report, sizeof report) == (1 << 4 | 1 << 7));
 *     assert(floor_starts(1 << 4 | 1 << 7, 1 << 4 | 1 << 7, FLOOR_TIMER_7, (const uint8_t *)&report, sizeof report) == 1 << 7);
 */
FLOOR_CHECKED int32_t floor_starts(uint32_t before, uint32_t after, uint32_t fired, const uint8_t *report, size_t report_len);

/* Which clocks to stop after a step: those that ran before it and do not run after it.
 *
 * Takes    before, after  as floor_starts does
 * Answers  0 or more  the set of timers; there is no refusal
 * Leaves   everything.
 * Example:
 *     assert(floor_stops(1 << 4 | 1 << 7, 1 << 1) == (1 << 4 | 1 << 7));
 */
FLOOR_CHECKED int32_t floor_stops(uint32_t before, uint32_t after);

/* Both sets after a step, done or refused, and which clocks now run. Begin with all three at 0 on a stopped desk, and call it once after every
 * step, with the report of that step. (C only, over floor_running, floor_starts and floor_stops.)
 *
 * Takes    report  of the step
 *          fired   the timer that fired, if the step was floor_desk_timer, else FLOOR_TIMER_NONE
 *          clocks  `running` as the call before left it
 * Answers  0    done
 *          -20  not a desk
 *          -12  the report says that the floor was given in a way that is none
 * Leaves   desk and report; on a refusal clocks too.
 * Example:
 *     struct floor_clocks clocks = {1 << 4 | 1 << 7, 0, 0}; // in Idle T4 and T7 run
 *     assert(floor_desk_packet(&desk, ask0, sizeof ask0, &report) == 0);
 *     assert(floor_desk_clocks(&desk, &report, FLOOR_TIMER_NONE, &clocks) == 0);
 *     assert(clocks.running == 1 << 1 && clocks.starts == 1 << 1 && clocks.stops == (1 << 4 | 1 << 7));
 */
static inline FLOOR_CHECKED int32_t floor_desk_clocks(const struct floor_desk *desk, const struct floor_report *report, uint32_t fired,
                                                      struct floor_clocks *clocks)
{
    int32_t after = floor_desk_running(desk), starts;
    if (after < 0)
        return after;
    starts = floor_starts(clocks->running, (uint32_t)after, fired, (const uint8_t *)report, FLOOR_REPORT);
    if (starts < 0)
        return starts;
    clocks->starts = (uint32_t)starts;
    clocks->stops = (uint32_t)floor_stops(clocks->running, (uint32_t)after);
    clocks->running = (uint32_t)after;
    return 0;
}

#ifdef __cplusplus
}
#endif

#endif
