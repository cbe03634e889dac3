/* plain.c: document 01 and what has landed of document 02 in plain C, written from the documents and from docs/FORMS.md, to have something
 * that libfloor.a's speed can be measured against. It works on the lent octets where they stand. See plain.h. */
#include "as_plain.h"
#include <floor.h>
#include "plain.h"
#include <string.h>

enum { NO_MORE = 0, T2_TOO = 1, T20_TOO = 2 }; /* what runs beside T1 in Taken */
enum { HEADER = 12, TRAILER = 8, SEAT_HEAD = 7, SHORTEST_SHEET = FLOOR_SETTINGS + TRAILER };

/* The desk's form is this struct, octet for octet. */
typedef char desk_has_its_size[sizeof(struct plain_desk) == FLOOR_DESK ? 1 : -1];
typedef char report_has_its_size[sizeof(struct plain_report) == FLOOR_REPORT ? 1 : -1];

static unsigned two(const uint8_t *s)
{
    return (unsigned)s[0] << 8 | s[1];
}

static uint32_t four(const uint8_t *s)
{
    return (uint32_t)s[0] << 24 | (uint32_t)s[1] << 16 | (uint32_t)s[2] << 8 | s[3];
}

static void put_two(uint8_t *s, unsigned n)
{
    s[0] = (uint8_t)(n >> 8);
    s[1] = (uint8_t)n;
}

static void put_four(uint8_t *s, uint32_t n)
{
    put_two(s, n >> 16);
    put_two(s + 2, n & 0xFFFF);
}

/* memcpy and memcmp may not be handed a null pointer, not even for nothing. */
static void copy(uint8_t *to, const uint8_t *from, size_t n)
{
    if (n)
        memcpy(to, from, n);
}

static int is_zero(const uint8_t *s, size_t n)
{
    static const uint8_t zeros[FLOOR_IDENTITY];
    return memcmp(s, zeros, n) == 0;
}

/* ---- The test of the form: whether octets are a desk's ---- */

static int settings_in_range(unsigned level, unsigned limit, unsigned c7, unsigned c20, unsigned duration)
{
    return level - 1 < 255 && limit <= 15 && c7 - 1 < 255 && c20 - 1 < 255 && duration - 1 < 65535;
}

static int head_fits(const struct plain_desk *d)
{
    return d->letters[0] == 'F' && d->letters[1] == 'D' && d->form == 1 && d->zero == 0 && d->zero_behind_waiting == 0
        && d->zero_behind_line == 0 && d->zero_behind_priorities == 0 && is_zero(d->zeros, sizeof d->zeros)
        && is_zero(d->zeros_behind_flags, sizeof d->zeros_behind_flags)
        && settings_in_range(d->level, d->limit, d->c7_limit, d->c20_limit, two(d->duration)) && d->c7 <= d->c7_limit
        && d->c20 <= d->c20_limit;
}

static int phase_fits(const struct plain_desk *d)
{
    unsigned cause = two(d->cause);
    switch (d->phase) {
    case FLOOR_PHASE_STOPPED:
        return d->timers == 0 && d->holder == 0 && d->given_at == 0 && cause == 0 && d->waiting == 0;
    case FLOOR_PHASE_IDLE:
        return d->timers <= 1 && d->holder == 0 && d->given_at == 0 && cause == 0 && d->waiting == 0;
    case FLOOR_PHASE_TAKEN:
        return d->timers <= 2 && d->holder < FLOOR_SEATS && d->taken[d->holder] && cause == 0;
    case FLOOR_PHASE_REVOKING:
        return d->timers == 0 && d->holder < FLOOR_SEATS && d->taken[d->holder]
            && (cause == FLOOR_REVOKE_MEDIA_BURST_TOO_LONG || cause == FLOOR_REVOKE_MEDIA_BURST_PREEMPTED);
    }
    return 0;
}

/* Call after phase_fits and head_fits: the holder is a seat, and the limit at most 15. */
static int line_fits(const struct plain_desk *d)
{
    unsigned n = d->waiting, seen = d->phase >= FLOOR_PHASE_TAKEN ? 1u << d->holder : 0, least = 255;
    if (n > d->limit)
        return 0;
    for (unsigned i = 0; i < n; i++) {
        unsigned seat = d->line[i], priority = d->priorities[i];
        if (seat >= FLOOR_SEATS || !d->taken[seat] || seen >> seat & 1 || priority > least)
            return 0;
        seen |= 1u << seat;
        least = priority;
    }
    return is_zero(d->line + n, 15 - n) && is_zero(d->priorities + n, 15 - n);
}

static int flags_fit(const struct plain_desk *d)
{
    unsigned taken = 0, flags = 0;
    for (int s = 0; s < FLOOR_SEATS; s++) {
        taken |= d->taken[s];
        flags |= d->flags[s];
    }
    return taken <= 1 && flags <= (FLOOR_FLAG_QUEUEING | FLOOR_FLAG_RECEIVE_ONLY);
}

static int seat_fits(const struct plain_desk *d, int s)
{
    unsigned n = d->length[s];
    if (d->taken[s])
        return n >= 1 && n <= FLOOR_IDENTITY && memcmp(d->ssrc[s], d->own_ssrc, 4) != 0 && is_zero(d->identity[s] + n, FLOOR_IDENTITY - n);
    return n == 0 && four(d->ssrc[s]) == 0 && d->highest[s] == 0 && d->flags[s] == 0
        && is_zero(d->identity[s], FLOOR_IDENTITY);
}

static int same_seat_twice(const struct plain_desk *d, int s, int t)
{
    return memcmp(d->ssrc[s], d->ssrc[t], 4) == 0
        || (d->length[s] == d->length[t] && memcmp(d->identity[s], d->identity[t], d->length[s]) == 0);
}

/* Each seat by itself, and against those before it that are taken. */
static int seats_fit(const struct plain_desk *d)
{
    int taken[FLOOR_SEATS], n = 0;
    for (int s = 0; s < FLOOR_SEATS; s++) {
        if (!seat_fits(d, s))
            return 0;
        if (!d->taken[s])
            continue;
        for (int i = 0; i < n; i++)
            if (same_seat_twice(d, s, taken[i]))
                return 0;
        taken[n++] = s;
    }
    return 1;
}

static int is_desk(const uint8_t *desk, size_t desk_len)
{
    const struct plain_desk *d = (const void *)desk;
    return desk_len == FLOOR_DESK && head_fits(d) && flags_fit(d) && phase_fits(d) && line_fits(d) && seats_fit(d);
}

/* ---- Reading and writing packets ---- */

/* The table of fields: least and greatest L for each ID; a least L of 0 marks an ID that is skipped. */
static const uint8_t least[16] = {2, 2, 2, 2, 1, 2, 1, 0, 2, 0, 2, 0, 2, 2, 6, 0};
static const uint8_t greatest[16] = {2, 2, 255, 2, 62, 2, 62, 0, 2, 0, 2, 0, 2, 2, 6, 0};
#define IN_THE_TABLE 0x757Fu   /* bit i for ID i */
#define OF_FOUR_OCTETS 0x352Bu /* the same, of fields that have four octets with ID and L */
#define LISTED 0x077Fu         /* bit i for type i */
static const uint16_t required[16] = {[FLOOR_TYPE_GRANTED] = 1 << 1, [FLOOR_TYPE_TAKEN] = 1 << 4, [FLOOR_TYPE_DENY] = 1 << 2,
                                      [FLOOR_TYPE_IDLE] = 1 << 8,    [FLOOR_TYPE_REVOKE] = 1 << 2, [FLOOR_TYPE_QUEUE_POSITION_INFO] = 1 << 3,
                                      [FLOOR_TYPE_ACK] = 1 << 10 | 1 << 12};

static size_t padded(size_t n)
{
    return (n + 3) & ~(size_t)3;
}

static int32_t judge_header(const uint8_t *p, size_t n)
{
    if (n < HEADER)
        return FLOOR_REFUSAL_TOO_SHORT;
    if (n > FLOOR_PACKET_IN)
        return FLOOR_REFUSAL_TOO_LONG;
    if (p[0] >> 6 != 2)
        return FLOOR_REFUSAL_NOT_VERSION_2;
    if (p[0] & 0x20)
        return FLOOR_REFUSAL_PADDED;
    if (p[1] != 204)
        return FLOOR_REFUSAL_NOT_APPLICATION;
    if (4 * (size_t)(two(p + 2) + 1) != n)
        return FLOOR_REFUSAL_WRONG_LENGTH;
    if (memcmp(p + 8, "MCPT", 4) != 0)
        return FLOOR_REFUSAL_NOT_NAMED;
    if (!(LISTED >> (p[0] & 15) & 1))
        return FLOOR_REFUSAL_UNLISTED_TYPE;
    return 0;
}

/* One field of the table, at p[at]; its padding is known to lie in the packet. */
static int against_the_table(const uint8_t *p, size_t at)
{
    unsigned id = p[at], length = p[at + 1];
    if (length < least[id] || length > greatest[id])
        return 1;
    return (id == 5 && two(p + at + 2) > 1) || (id == 10 && two(p + at + 2) > 3);
}

/* What a packet has of the table: bit i of `has` for ID i, and where the content of its field with that ID starts. */
struct found {
    unsigned has;
    uint16_t content[16];
};

static int32_t judge(const uint8_t *p, size_t n, struct found *f)
{
    int32_t refusal = judge_header(p, n);
    f->has = 0;
    for (size_t at = HEADER, next; refusal == 0 && at < n; at = next) {
        unsigned id = p[at];
        next = at + padded(2 + (size_t)p[at + 1]);
        if (id >= 192)
            return FLOOR_REFUSAL_AGAINST_THE_TABLE;
        if (next > n)
            return FLOOR_REFUSAL_PAST_THE_END;
        if (id >= 16 || least[id] == 0)
            continue;
        if (f->has >> id & 1)
            return FLOOR_REFUSAL_REPEATED;
        if (against_the_table(p, at))
            return FLOOR_REFUSAL_AGAINST_THE_TABLE;
        f->has |= 1u << id;
        f->content[id] = (uint16_t)(at + 2);
    }
    if (refusal == 0 && (required[p[0] & 15] & ~f->has))
        return FLOOR_REFUSAL_MISSING;
    return refusal;
}

/* The first n octets of a field's content, into a message. */
static void note(uint8_t *to, const uint8_t *p, const struct found *f, unsigned id, size_t n)
{
    if (f->has >> id & 1)
        memcpy(to, p + f->content[id], n);
}

/* A field's content without the first `passed` octets, as a place in the packet and a length. */
static void note_part(uint8_t *to, const uint8_t *p, const struct found *f, unsigned id, unsigned passed)
{
    if (f->has >> id & 1) {
        put_two(to, f->content[id] + passed);
        put_two(to + 2, p[f->content[id] - 1] - passed);
    }
}

int32_t plain_read(const uint8_t *packet, size_t packet_len, uint8_t *message, size_t message_len)
{
    struct found f;
    int32_t refusal = judge(packet, packet_len, &f);
    if (refusal)
        return refusal;
    if (message_len < FLOOR_MESSAGE)
        return FLOOR_REFUSAL_NO_ROOM;
    memset(message, 0, FLOOR_MESSAGE);
    message[0] = packet[0] & 15;
    message[1] = packet[0] >> 4 & 1;
    put_two(message + 2, f.has);
    memcpy(message + 4, packet + 4, 4);
    note(message + 8, packet, &f, 0, 1);
    note(message + 9, packet, &f, 12, 1);
    note(message + 10, packet, &f, 1, 2);
    note(message + 12, packet, &f, 2, 2);
    note(message + 14, packet, &f, 3, 2);
    note(message + 16, packet, &f, 5, 2);
    note(message + 18, packet, &f, 8, 2);
    note(message + 20, packet, &f, 10, 2);
    note(message + 22, packet, &f, 13, 2);
    note(message + 24, packet, &f, 14, 4);
    note_part(message + 28, packet, &f, 2, 2);
    note_part(message + 32, packet, &f, 4, 0);
    note_part(message + 36, packet, &f, 6, 0);
    return 0;
}

/* Whether a part of a message that is to be written lies in the source and has a length that the table allows. */
static int part_fits(const uint8_t *part, size_t least_octets, size_t most_octets, size_t source_len)
{
    size_t from = two(part), count = two(part + 2);
    return count >= least_octets && count <= most_octets && from + count <= source_len;
}

static int readable(const uint8_t *m, size_t message_len, size_t source_len)
{
    if (message_len != FLOOR_MESSAGE)
        return 0;
    unsigned has = two(m + 2);
    if (m[0] > 15 || !(LISTED >> m[0] & 1) || m[1] > 1 || (has & ~IN_THE_TABLE) || (required[m[0]] & ~has))
        return 0;
    if ((has >> 5 & 1 && two(m + 16) > 1) || (has >> 10 & 1 && two(m + 20) > 3))
        return 0;
    return (!(has >> 2 & 1) || part_fits(m + 28, 0, 253, source_len)) && (!(has >> 4 & 1) || part_fits(m + 32, 1, 62, source_len))
        && (!(has >> 6 & 1) || part_fits(m + 36, 1, 62, source_len));
}

static size_t written_length(const uint8_t *m)
{
    unsigned has = two(m + 2);
    size_t n = HEADER;
    for (unsigned small = has & OF_FOUR_OCTETS; small; small &= small - 1)
        n += 4;
    if (has >> 2 & 1)
        n += padded(4 + two(m + 30));
    if (has >> 4 & 1)
        n += padded(2 + two(m + 34));
    if (has >> 6 & 1)
        n += padded(2 + two(m + 38));
    return n + (has >> 14 & 1 ? 8 : 0);
}

static void put_header(uint8_t *room, unsigned type, unsigned ack, const uint8_t *ssrc, size_t length)
{
    room[0] = (uint8_t)(0x80 | ack << 4 | type);
    room[1] = 204;
    put_two(room + 2, (unsigned)(length / 4 - 1));
    memcpy(room + 4, ssrc, 4);
    memcpy(room + 8, "MCPT", 4);
}

/* Each puts a field at `to` and answers where the next one goes. */
static uint8_t *put_pair(uint8_t *to, unsigned id, unsigned first, unsigned second)
{
    to[0] = (uint8_t)id;
    to[1] = 2;
    to[2] = (uint8_t)first;
    to[3] = (uint8_t)second;
    return to + 4;
}

static uint8_t *put_octets(uint8_t *to, unsigned id, const uint8_t *octets, size_t n)
{
    size_t whole = padded(2 + n);
    memset(to + whole - 4, 0, 4);
    to[0] = (uint8_t)id;
    to[1] = (uint8_t)n;
    memcpy(to + 2, octets, n);
    return to + whole;
}

static uint8_t *put_cause(uint8_t *to, const uint8_t *cause, const uint8_t *phrase, size_t n)
{
    size_t whole = padded(4 + n);
    memset(to + whole - 4, 0, 4);
    to[0] = 2;
    to[1] = (uint8_t)(2 + n);
    memcpy(to + 2, cause, 2);
    copy(to + 4, phrase, n);
    return to + whole;
}

static void put_ssrc(uint8_t *to, const uint8_t *ssrc)
{
    to[0] = 14;
    to[1] = 6;
    memcpy(to + 2, ssrc, 4);
    put_two(to + 6, 0);
}

int32_t plain_write(const uint8_t *message, size_t message_len, const uint8_t *source, size_t source_len, uint8_t *room, size_t room_len)
{
    const uint8_t *m = message;
    if (!readable(m, message_len, source_len))
        return FLOOR_REFUSAL_UNREADABLE;
    size_t length = written_length(m);
    if (room_len < length)
        return FLOOR_REFUSAL_NO_ROOM;
    unsigned has = two(m + 2);
    uint8_t *to = room + HEADER;
    put_header(room, m[0], m[1], m + 4, length);
    if (has >> 0 & 1)
        to = put_pair(to, 0, m[8], 0);
    if (has >> 1 & 1)
        to = put_pair(to, 1, m[10], m[11]);
    if (has >> 2 & 1)
        to = put_cause(to, m + 12, source + two(m + 28), two(m + 30));
    if (has >> 3 & 1)
        to = put_pair(to, 3, m[14], m[15]);
    if (has >> 4 & 1)
        to = put_octets(to, 4, source + two(m + 32), two(m + 34));
    if (has >> 5 & 1)
        to = put_pair(to, 5, m[16], m[17]);
    if (has >> 6 & 1)
        to = put_octets(to, 6, source + two(m + 36), two(m + 38));
    if (has >> 8 & 1)
        to = put_pair(to, 8, m[18], m[19]);
    if (has >> 10 & 1)
        to = put_pair(to, 10, m[20], m[21]);
    if (has >> 12 & 1)
        to = put_pair(to, 12, m[9], 0);
    if (has >> 13 & 1)
        to = put_pair(to, 13, m[22], m[23]);
    if (has >> 14 & 1)
        put_ssrc(to, m + 24);
    return (int32_t)length;
}

/* ---- The line and the seats ---- */

static unsigned all_seats(const struct plain_desk *d)
{
    unsigned set = 0;
    for (int s = 0; s < FLOOR_SEATS; s++)
        set |= (unsigned)d->taken[s] << s;
    return set;
}

static int seat_of(const struct plain_desk *d, const uint8_t *ssrc)
{
    for (int s = 0; s < FLOOR_SEATS; s++)
        if (memcmp(d->ssrc[s], ssrc, 4) == 0 && d->taken[s])
            return s;
    return -1;
}

/* Its place, 0 for the head; -1 where it does not wait. */
static int place_of(const struct plain_desk *d, unsigned seat)
{
    for (int i = 0; i < d->waiting; i++)
        if (d->line[i] == seat)
            return i;
    return -1;
}

static void strike(struct plain_desk *d, int place)
{
    int behind = --d->waiting - place;
    memmove(d->line + place, d->line + place + 1, (size_t)behind);
    memmove(d->priorities + place, d->priorities + place + 1, (size_t)behind);
    d->line[d->waiting] = 0;
    d->priorities[d->waiting] = 0;
}

/* Behind all of at least its priority; answers its place. */
static int place(struct plain_desk *d, unsigned seat, unsigned priority)
{
    int at = d->waiting;
    while (at > 0 && d->priorities[at - 1] < priority)
        at--;
    memmove(d->line + at + 1, d->line + at, (size_t)(d->waiting - at));
    memmove(d->priorities + at + 1, d->priorities + at, (size_t)(d->waiting - at));
    d->line[at] = (uint8_t)seat;
    d->priorities[at] = (uint8_t)priority;
    d->waiting++;
    return at;
}

/* ---- Reports ---- */

static void report_nothing(struct plain_report *r)
{
    static const struct plain_report nothing = {{0, 0}, 0, FLOOR_NO_SEAT, FLOOR_NO_SEAT, FLOOR_NO_SEAT, FLOOR_GIVEN_NOT, 0,
                                                {{FLOOR_TYPE_NOTHING, 0, {0, 0}, 0, 0, {0, 0}},
                                                 {FLOOR_TYPE_NOTHING, 0, {0, 0}, 0, 0, {0, 0}}}};
    memcpy(r, &nothing, sizeof nothing);
}

/* The next message of the step. */
static void sends(struct plain_report *r, unsigned kind, unsigned seat, unsigned number, unsigned priority, unsigned to)
{
    struct plain_sent *m = &r->sent[r->sent[0].kind != FLOOR_TYPE_NOTHING];
    m->kind = (uint8_t)kind;
    m->seat = (uint8_t)seat;
    put_two(m->number, number);
    m->priority = (uint8_t)priority;
    put_two(m->to, to);
}

/* ---- The floor given, ended, taken back ---- */

static unsigned next_number(struct plain_desk *d)
{
    unsigned n = (two(d->sequence) + 1) & 0xFFFF;
    put_two(d->sequence, n);
    return n;
}

/* `in_call`: who gets messages; a leaver does not. */
static void give(struct plain_desk *d, struct plain_report *r, unsigned seat, unsigned priority, int how, unsigned in_call)
{
    d->phase = FLOOR_PHASE_TAKEN;
    d->timers = NO_MORE;
    d->holder = (uint8_t)seat;
    d->given_at = (uint8_t)priority;
    put_two(d->cause, 0);
    if (how == FLOOR_GIVEN_OUT_OF_THE_LINE) {
        d->timers = T20_TOO;
        d->c20 = 1;
    }
    sends(r, FLOOR_TYPE_GRANTED, 0, 0, priority, 1u << seat);
    sends(r, FLOOR_TYPE_TAKEN, seat, next_number(d), 0, in_call & ~(1u << seat));
    r->given = (uint8_t)seat;
    r->how = (uint8_t)how;
}

static void leave_the_floor(struct plain_desk *d, unsigned phase)
{
    d->phase = (uint8_t)phase;
    d->timers = 0;
    d->holder = 0;
    d->given_at = 0;
    put_two(d->cause, 0);
}

static void idle(struct plain_desk *d, struct plain_report *r, unsigned in_call)
{
    leave_the_floor(d, FLOOR_PHASE_IDLE);
    d->timers = 1;
    d->c7 = 1;
    sends(r, FLOOR_TYPE_IDLE, 0, next_number(d), 0, in_call);
}

static void end_floor(struct plain_desk *d, struct plain_report *r, unsigned in_call)
{
    r->ended = d->holder;
    if (d->waiting == 0) {
        idle(d, r, in_call);
        return;
    }
    unsigned seat = d->line[0], priority = d->priorities[0];
    strike(d, 0);
    give(d, r, seat, priority, FLOOR_GIVEN_OUT_OF_THE_LINE, in_call);
}

static void revoke(struct plain_desk *d, struct plain_report *r, unsigned cause)
{
    d->phase = FLOOR_PHASE_REVOKING;
    d->timers = 0;
    put_two(d->cause, cause);
    sends(r, FLOOR_TYPE_REVOKE, 0, cause, 0, 1u << d->holder);
}

static void grant_again(const struct plain_desk *d, struct plain_report *r)
{
    sends(r, FLOOR_TYPE_GRANTED, 0, 0, d->given_at, 1u << d->holder);
}

static void halt(struct plain_desk *d, struct plain_report *r)
{
    unsigned struck = 0;
    if (d->phase >= FLOOR_PHASE_TAKEN)
        r->ended = d->holder;
    for (int i = 0; i < d->waiting; i++)
        struck |= 1u << d->line[i];
    put_two(r->struck, struck);
    leave_the_floor(d, FLOOR_PHASE_STOPPED);
    d->waiting = 0;
    memset(d->line, 0, sizeof d->line);
    memset(d->priorities, 0, sizeof d->priorities);
}

/* ---- What seats ask for ---- */

static int holds(const struct plain_desk *d, unsigned seat)
{
    return d->phase >= FLOOR_PHASE_TAKEN && d->holder == seat;
}

/* The line is sorted, so of those in line the first other than the asker tells. */
static int presses(const struct plain_desk *d, unsigned seat, unsigned priority)
{
    int other = d->waiting > 0 && d->line[0] == seat;
    return priority >= d->level && d->given_at < d->level && (other >= d->waiting || d->priorities[other] < d->level);
}

/* Rules 4 to 6: in Taken or Revoking, from a seat that does not hold the floor. */
static void queue(struct plain_desk *d, struct plain_report *r, unsigned seat, unsigned priority)
{
    int press = presses(d, seat, priority), at = place_of(d, seat);
    if (at < 0) {
        if (!press && !(d->flags[seat] & FLOOR_FLAG_QUEUEING)) {
            sends(r, FLOOR_TYPE_DENY, 0, FLOOR_DENY_ANOTHER_HAS_PERMISSION, 0, 1u << seat);
            return;
        }
        if (d->waiting >= d->limit) {
            sends(r, FLOOR_TYPE_DENY, 0, FLOOR_DENY_QUEUE_FULL, 0, 1u << seat);
            return;
        }
        at = place(d, seat, priority);
        r->placed = (uint8_t)seat;
    } else if (d->priorities[at] != priority) {
        strike(d, at);
        at = place(d, seat, priority);
    }
    if (d->flags[seat] & FLOOR_FLAG_QUEUEING)
        sends(r, FLOOR_TYPE_QUEUE_POSITION_INFO, 0, (unsigned)at + 1, priority, 1u << seat);
    if (press && d->phase == FLOOR_PHASE_TAKEN)
        revoke(d, r, FLOOR_REVOKE_MEDIA_BURST_PREEMPTED);
}

/* What a request asks for: its Floor Priority, a 0 too; without that field the normal level. A seat never has more than its highest. */
static unsigned effective_priority(const struct plain_desk *d, unsigned seat, const uint8_t *packet, const struct found *f)
{
    unsigned asked = f->has >> FLOOR_FIELD_FLOOR_PRIORITY & 1 ? packet[f->content[FLOOR_FIELD_FLOOR_PRIORITY]] : d->normal;
    return asked < d->highest[seat] ? asked : d->highest[seat];
}

static void request(struct plain_desk *d, struct plain_report *r, unsigned seat, unsigned priority)
{
    if (holds(d, seat)) {
        grant_again(d, r);
    } else if (d->flags[seat] & FLOOR_FLAG_RECEIVE_ONLY) {
        sends(r, FLOOR_TYPE_DENY, 0, FLOOR_DENY_RECEIVE_ONLY, 0, 1u << seat);
    } else if (d->phase == FLOOR_PHASE_IDLE) {
        unsigned in_call = all_seats(d);
        if (in_call == 1u << seat)
            sends(r, FLOOR_TYPE_DENY, 0, FLOOR_DENY_ONLY_ONE_PARTICIPANT, 0, 1u << seat);
        else
            give(d, r, seat, priority, FLOOR_GIVEN_AT_ONCE, in_call);
    } else {
        queue(d, r, seat, priority);
    }
}

static void release(struct plain_desk *d, struct plain_report *r, unsigned seat)
{
    if (holds(d, seat)) {
        end_floor(d, r, all_seats(d));
    } else {
        strike(d, place_of(d, seat));
        put_two(r->struck, 1u << seat);
    }
}

static void tell_place(const struct plain_desk *d, struct plain_report *r, unsigned seat)
{
    int at = place_of(d, seat);
    if (at < 0)
        sends(r, FLOOR_TYPE_QUEUE_POSITION_INFO, 0, 255, 0, 1u << seat);
    else
        sends(r, FLOOR_TYPE_QUEUE_POSITION_INFO, 0, (unsigned)at + 1, d->priorities[at], 1u << seat);
}

/* ---- Steps ---- */

/* Whether a packet of this type is expected from this seat now. */
static int expected(const struct plain_desk *d, unsigned type, unsigned seat)
{
    switch (type) {
    case FLOOR_TYPE_REQUEST:
        return !(d->phase == FLOOR_PHASE_REVOKING && d->holder == seat);
    case FLOOR_TYPE_RELEASE:
        return holds(d, seat) || place_of(d, seat) >= 0;
    case FLOOR_TYPE_QUEUE_POSITION_REQUEST:
        return 1;
    }
    return 0;
}

static int32_t packet_step(struct plain_desk *d, const uint8_t *packet, size_t packet_len, struct plain_report *r, size_t report_len)
{
    struct found f;
    int32_t refusal = judge(packet, packet_len, &f);
    if (refusal)
        return refusal;
    if (d->phase == FLOOR_PHASE_STOPPED)
        return FLOOR_REFUSAL_CALL_STOPPED;
    int seat = seat_of(d, packet + 4);
    if (seat < 0)
        return FLOOR_REFUSAL_NO_SUCH_SEAT;
    unsigned type = packet[0] & 15;
    if (!expected(d, type, (unsigned)seat))
        return FLOOR_REFUSAL_NOT_EXPECTED;
    if (report_len < FLOOR_REPORT)
        return FLOOR_REFUSAL_NO_ROOM;
    report_nothing(r);
    if (type == FLOOR_TYPE_REQUEST)
        request(d, r, (unsigned)seat, effective_priority(d, (unsigned)seat, packet, &f));
    else if (type == FLOOR_TYPE_RELEASE)
        release(d, r, (unsigned)seat);
    else
        tell_place(d, r, (unsigned)seat);
    return 0;
}

int32_t plain_packet(uint8_t *desk, size_t desk_len, const uint8_t *packet, size_t packet_len, uint8_t *report, size_t report_len)
{
    if (!is_desk(desk, desk_len))
        return FLOOR_REFUSAL_NOT_A_DESK;
    return packet_step((void *)desk, packet, packet_len, (void *)report, report_len);
}

int32_t plain_native_packet(struct plain_desk *desk, const uint8_t *packet, size_t packet_len, struct plain_report *report)
{
    return packet_step(desk, packet, packet_len, report, sizeof *report);
}

static uint32_t timers_running(const struct plain_desk *d)
{
    switch (d->phase) {
    case FLOOR_PHASE_IDLE:
        return 1u << 4 | (d->timers ? 1u << 7 : 0);
    case FLOOR_PHASE_TAKEN:
        return 1u << 1 | (d->timers == T2_TOO ? 1u << 2 : d->timers == T20_TOO ? 1u << 20 : 0);
    case FLOOR_PHASE_REVOKING:
        return 1u << 1 | 1u << 3 | 1u << 8;
    }
    return 0;
}

static void fire_t7(struct plain_desk *d, struct plain_report *r)
{
    if (d->c7 < d->c7_limit) {
        d->c7++;
        sends(r, FLOOR_TYPE_IDLE, 0, next_number(d), 0, all_seats(d));
    } else {
        d->timers = 0;
    }
}

static void fire_t20(struct plain_desk *d, struct plain_report *r)
{
    if (d->c20 < d->c20_limit) {
        d->c20++;
        grant_again(d, r);
    } else {
        end_floor(d, r, all_seats(d));
    }
}

static int32_t timer_step(struct plain_desk *d, uint32_t timer, struct plain_report *r, size_t report_len)
{
    if (d->phase == FLOOR_PHASE_STOPPED)
        return FLOOR_REFUSAL_CALL_STOPPED;
    if (timer > 20 || !(timers_running(d) >> timer & 1))
        return FLOOR_REFUSAL_NOT_EXPECTED;
    if (report_len < FLOOR_REPORT)
        return FLOOR_REFUSAL_NO_ROOM;
    report_nothing(r);
    switch (timer) {
    case 1:
    case 3:
        end_floor(d, r, all_seats(d));
        break;
    case 2:
        revoke(d, r, FLOOR_REVOKE_MEDIA_BURST_TOO_LONG);
        break;
    case 4:
        halt(d, r);
        break;
    case 7:
        fire_t7(d, r);
        break;
    case 8:
        sends(r, FLOOR_TYPE_REVOKE, 0, two(d->cause), 0, 1u << d->holder);
        break;
    case 20:
        fire_t20(d, r);
        break;
    }
    return 0;
}

int32_t plain_timer(uint8_t *desk, size_t desk_len, uint32_t timer, uint8_t *report, size_t report_len)
{
    if (!is_desk(desk, desk_len))
        return FLOOR_REFUSAL_NOT_A_DESK;
    return timer_step((void *)desk, timer, (void *)report, report_len);
}

int32_t plain_native_timer(struct plain_desk *desk, uint32_t timer, struct plain_report *report)
{
    return timer_step(desk, timer, report, sizeof *report);
}

int32_t plain_start(uint8_t *desk, size_t desk_len, uint8_t *report, size_t report_len)
{
    struct plain_desk *d = (void *)desk;
    struct plain_report *r = (void *)report;
    if (!is_desk(desk, desk_len))
        return FLOOR_REFUSAL_NOT_A_DESK;
    if (d->phase != FLOOR_PHASE_STOPPED)
        return FLOOR_REFUSAL_NOT_EXPECTED;
    if (report_len < FLOOR_REPORT)
        return FLOOR_REFUSAL_NO_ROOM;
    report_nothing(r);
    idle(d, r, all_seats(d));
    return 0;
}

int32_t plain_stop(uint8_t *desk, size_t desk_len, uint8_t *report, size_t report_len)
{
    struct plain_desk *d = (void *)desk;
    struct plain_report *r = (void *)report;
    if (!is_desk(desk, desk_len))
        return FLOOR_REFUSAL_NOT_A_DESK;
    if (d->phase == FLOOR_PHASE_STOPPED)
        return FLOOR_REFUSAL_CALL_STOPPED;
    if (report_len < FLOOR_REPORT)
        return FLOOR_REFUSAL_NO_ROOM;
    report_nothing(r);
    halt(d, r);
    return 0;
}

int32_t plain_media(uint8_t *desk, size_t desk_len, uint32_t ssrc, uint8_t *report, size_t report_len)
{
    struct plain_desk *d = (void *)desk;
    uint8_t wanted[4];
    if (!is_desk(desk, desk_len))
        return FLOOR_REFUSAL_NOT_A_DESK;
    if (d->phase == FLOOR_PHASE_STOPPED)
        return FLOOR_REFUSAL_CALL_STOPPED;
    put_four(wanted, ssrc);
    int seat = seat_of(d, wanted);
    if (seat < 0)
        return FLOOR_REFUSAL_NO_SUCH_SEAT;
    if (!holds(d, (unsigned)seat))
        return FLOOR_REFUSAL_NOT_EXPECTED;
    if (report_len < FLOOR_REPORT)
        return FLOOR_REFUSAL_NO_ROOM;
    report_nothing((void *)report);
    if (d->phase == FLOOR_PHASE_TAKEN)
        d->timers = T2_TOO;
    return 0;
}

/* ---- Who sits there ---- */

static void put_seat(struct plain_desk *d, int s, const uint8_t *ssrc, unsigned highest, unsigned flags, const uint8_t *identity,
                     size_t identity_len)
{
    d->taken[s] = 1;
    memcpy(d->ssrc[s], ssrc, 4);
    d->highest[s] = (uint8_t)highest;
    d->flags[s] = (uint8_t)flags;
    d->length[s] = (uint8_t)identity_len;
    memcpy(d->identity[s], identity, identity_len);
}

static void clear_seat(struct plain_desk *d, unsigned s)
{
    d->taken[s] = 0;
    memset(d->ssrc[s], 0, 4);
    d->highest[s] = 0;
    d->flags[s] = 0;
    d->length[s] = 0;
    memset(d->identity[s], 0, FLOOR_IDENTITY);
}

static int seat_named(const struct plain_desk *d, const uint8_t *identity, size_t identity_len)
{
    for (int s = 0; s < FLOOR_SEATS; s++)
        if (d->taken[s] && d->length[s] == identity_len && memcmp(d->identity[s], identity, identity_len) == 0)
            return s;
    return -1;
}

int32_t plain_join(uint8_t *desk, size_t desk_len, const uint8_t *identity, size_t identity_len, uint32_t ssrc, uint8_t highest,
                   uint8_t queueing, uint8_t receive_only)
{
    struct plain_desk *d = (void *)desk;
    uint8_t own[4];
    if (!is_desk(desk, desk_len))
        return FLOOR_REFUSAL_NOT_A_DESK;
    if (identity_len < 1 || identity_len > FLOOR_IDENTITY)
        return FLOOR_REFUSAL_IDENTITY_LENGTH;
    if (seat_named(d, identity, identity_len) >= 0)
        return FLOOR_REFUSAL_IDENTITY_PRESENT;
    put_four(own, ssrc);
    if (memcmp(own, d->own_ssrc, 4) == 0 || seat_of(d, own) >= 0)
        return FLOOR_REFUSAL_SSRC_PRESENT;
    const uint8_t *free_seat = memchr(d->taken, 0, FLOOR_SEATS);
    if (!free_seat)
        return FLOOR_REFUSAL_ALL_SEATS_TAKEN;
    int s = (int)(free_seat - d->taken);
    put_seat(d, s, own, highest, (queueing ? FLOOR_FLAG_QUEUEING : 0u) | (receive_only ? FLOOR_FLAG_RECEIVE_ONLY : 0u), identity,
             identity_len);
    return s;
}

int32_t plain_leave(uint8_t *desk, size_t desk_len, uint32_t seat, uint8_t *report, size_t report_len)
{
    struct plain_desk *d = (void *)desk;
    struct plain_report *r = (void *)report;
    if (!is_desk(desk, desk_len))
        return FLOOR_REFUSAL_NOT_A_DESK;
    if (seat >= FLOOR_SEATS || !d->taken[seat])
        return FLOOR_REFUSAL_NO_SUCH_SEAT;
    if (report_len < FLOOR_REPORT)
        return FLOOR_REFUSAL_NO_ROOM;
    report_nothing(r);
    int at = place_of(d, seat);
    if (holds(d, seat)) {
        end_floor(d, r, all_seats(d) & ~(1u << seat));
    } else if (at >= 0) {
        strike(d, at);
        put_two(r->struck, 1u << seat);
    }
    clear_seat(d, seat);
    return 0;
}

static void fresh(struct plain_desk *d)
{
    memset(d, 0, sizeof *d);
    d->letters[0] = 'F';
    d->letters[1] = 'D';
    d->form = 1;
}

int32_t plain_make(uint8_t *desk, size_t desk_len, uint32_t ssrc, uint32_t level, uint32_t limit, uint32_t c7, uint32_t c20,
                   uint32_t duration, uint32_t normal)
{
    struct plain_desk *d = (void *)desk;
    if (!settings_in_range(level, limit, c7, c20, duration) || normal > 255)
        return FLOOR_REFUSAL_OUTSIDE_RANGE;
    if (desk_len < FLOOR_DESK)
        return FLOOR_REFUSAL_NO_ROOM;
    fresh(d);
    put_four(d->own_ssrc, ssrc);
    d->level = (uint8_t)level;
    d->limit = (uint8_t)limit;
    d->c7_limit = (uint8_t)c7;
    d->c20_limit = (uint8_t)c20;
    put_two(d->duration, duration);
    d->normal = (uint8_t)normal;
    return 0;
}

/* ---- A report's message as a packet ---- */

/* Whether these are octets of a message in a report; what a kind has no use for is zero. */
static int is_sent(const struct plain_desk *d, const struct plain_sent *m)
{
    unsigned number = two(m->number);
    if (m->zero != 0 || (m->kind != FLOOR_TYPE_TAKEN && m->seat != 0))
        return 0;
    switch (m->kind) {
    case FLOOR_TYPE_GRANTED:
        return number == 0;
    case FLOOR_TYPE_TAKEN:
        return m->priority == 0 && m->seat < FLOOR_SEATS && d->taken[m->seat];
    case FLOOR_TYPE_DENY:
    case FLOOR_TYPE_IDLE:
    case FLOOR_TYPE_REVOKE:
        return m->priority == 0;
    case FLOOR_TYPE_QUEUE_POSITION_INFO:
        return number <= 255;
    case FLOOR_TYPE_NOTHING:
        return m->priority == 0 && number == 0;
    }
    return 0;
}

static size_t sent_length(const struct plain_desk *d, const struct plain_sent *m)
{
    if (m->kind == FLOOR_TYPE_GRANTED)
        return HEADER + 8;
    if (m->kind == FLOOR_TYPE_TAKEN)
        return HEADER + padded(2 + (size_t)d->length[m->seat]) + 8;
    return HEADER + 4;
}

static void put_sent(const struct plain_desk *d, const struct plain_sent *m, uint8_t *to)
{
    switch (m->kind) {
    case FLOOR_TYPE_GRANTED:
        put_pair(put_pair(to, 0, m->priority, 0), 1, d->duration[0], d->duration[1]);
        break;
    case FLOOR_TYPE_TAKEN:
        to = put_octets(to, 4, d->identity[m->seat], d->length[m->seat]);
        put_pair(put_pair(to, 5, 0, 1), 8, m->number[0], m->number[1]);
        break;
    case FLOOR_TYPE_IDLE:
        put_pair(to, 8, m->number[0], m->number[1]);
        break;
    case FLOOR_TYPE_QUEUE_POSITION_INFO:
        put_pair(to, 3, m->number[1], m->priority);
        break;
    default:
        put_pair(to, 2, m->number[0], m->number[1]);
        break;
    }
}

int32_t plain_message(const uint8_t *desk, size_t desk_len, const uint8_t *report, size_t report_len, uint32_t which, uint8_t *room,
                      size_t room_len)
{
    const struct plain_desk *d = (const void *)desk;
    const struct plain_report *r = (const void *)report;
    if (!is_desk(desk, desk_len))
        return FLOOR_REFUSAL_NOT_A_DESK;
    if (report_len != FLOOR_REPORT)
        return FLOOR_REFUSAL_UNREADABLE;
    if (which > 1)
        return 0;
    const struct plain_sent *m = &r->sent[which];
    if (!is_sent(d, m))
        return FLOOR_REFUSAL_UNREADABLE;
    if (m->kind == FLOOR_TYPE_NOTHING)
        return 0;
    size_t length = sent_length(d, m);
    if (room_len < length)
        return FLOOR_REFUSAL_NO_ROOM;
    put_header(room, m->kind, 0, d->own_ssrc, length);
    put_sent(d, m, room + HEADER);
    return (int32_t)length;
}

/* ---- The sheet ---- */

/* A taken seat as the sheet lays it out, and the settings, which are a sheet's where the normal level is 0; each answers how many octets it
 * has. */
static size_t seat_octets(const struct plain_desk *d, unsigned s, uint8_t *to)
{
    to[0] = d->flags[s];
    to[1] = d->highest[s];
    memcpy(to + 2, d->ssrc[s], 4);
    to[6] = d->length[s];
    memcpy(to + SEAT_HEAD, d->identity[s], d->length[s]);
    return SEAT_HEAD + (size_t)d->length[s];
}

static size_t settings_octets(const struct plain_desk *d, uint8_t *to)
{
    memcpy(to, d->own_ssrc, 4);
    memcpy(to + 4, (const uint8_t[]){d->level, d->limit, d->c7_limit, d->c20_limit, d->duration[0], d->duration[1], d->normal, 0}, 8);
    return FLOOR_SETTINGS;
}

int32_t plain_save(const uint8_t *desk, size_t desk_len, uint8_t *room, size_t room_len)
{
    const struct plain_desk *d = (const void *)desk;
    size_t length = SHORTEST_SHEET, count = 0;
    if (!is_desk(desk, desk_len))
        return FLOOR_REFUSAL_NOT_A_DESK;
    if (d->normal != 0)
        return FLOOR_REFUSAL_SHEET_CANNOT_HOLD;
    for (int s = 0; s < FLOOR_SEATS; s++) {
        count += d->taken[s];
        length += d->taken[s] ? SEAT_HEAD + (size_t)d->length[s] : 0;
    }
    if (room_len < length)
        return FLOOR_REFUSAL_NO_ROOM;
    uint8_t *to = room;
    for (unsigned s = 0; s < FLOOR_SEATS; s++)
        if (d->taken[s])
            to += seat_octets(d, s, to);
    settings_octets(d, to);
    put_two(to + FLOOR_SETTINGS, (unsigned)(to - room));
    memcpy(to + 14, (const uint8_t[]){0, 0, (uint8_t)count, 1, 'F', 'S'}, 6);
    return (int32_t)length;
}

/* Whether the seat at s[at] is one of the earlier ones again, by its SSRC or by its identity. */
static int seen_before(const uint8_t *s, size_t at, const uint16_t *seats, unsigned count)
{
    for (unsigned i = 0; i < count; i++) {
        const uint8_t *old = s + seats[i], *new = s + at;
        if (memcmp(old + 2, new + 2, 4) == 0 || memcmp(old + 6, new + 6, 1 + (size_t)new[6]) == 0)
            return 1;
    }
    return 0;
}

/* Refusal 45; notes where each seat starts. */
static int sheet_seats_fit(const uint8_t *s, size_t settings, unsigned count, uint16_t *seats)
{
    size_t at = 0;
    for (unsigned i = 0; i < count; i++) {
        if (settings - at < SEAT_HEAD)
            return 0;
        size_t length = s[at + 6];
        if (s[at] > 3 || length < 1 || length > FLOOR_IDENTITY || settings - at < SEAT_HEAD + length)
            return 0;
        if (memcmp(s + at + 2, s + settings, 4) == 0 || seen_before(s, at, seats, i))
            return 0;
        seats[i] = (uint16_t)at;
        at += SEAT_HEAD + length;
    }
    return at == settings;
}

static int32_t judge_sheet(const uint8_t *s, size_t n, uint16_t *seats)
{
    if (n < SHORTEST_SHEET || s[n - 2] != 'F' || s[n - 1] != 'S')
        return FLOOR_REFUSAL_NO_TRAILER;
    const uint8_t *trailer = s + n - TRAILER, *settings = trailer - FLOOR_SETTINGS;
    if (trailer[5] != 1)
        return FLOOR_REFUSAL_SHEET_FORM;
    if (trailer[4] > FLOOR_SEATS || two(trailer) != n - SHORTEST_SHEET || two(trailer + 2) != 0)
        return FLOOR_REFUSAL_SHEET_OFFSETS;
    if (!settings_in_range(settings[4], settings[5], settings[6], settings[7], two(settings + 8)) || two(settings + 10) != 0)
        return FLOOR_REFUSAL_SHEET_SETTINGS;
    if (!sheet_seats_fit(s, n - SHORTEST_SHEET, trailer[4], seats))
        return FLOOR_REFUSAL_SHEET_SEATS;
    return 0;
}

int32_t plain_load(uint8_t *desk, size_t desk_len, const uint8_t *sheet, size_t sheet_len)
{
    struct plain_desk *d = (void *)desk;
    uint16_t seats[FLOOR_SEATS];
    int32_t refusal = judge_sheet(sheet, sheet_len, seats);
    if (refusal)
        return refusal;
    if (desk_len < FLOOR_DESK)
        return FLOOR_REFUSAL_NO_ROOM;
    const uint8_t *settings = sheet + sheet_len - SHORTEST_SHEET;
    fresh(d); /* at normal level 0 */
    memcpy(d->own_ssrc, settings, 4 + 4 + 2);
    for (int i = 0; i < sheet[sheet_len - 4]; i++) {
        const uint8_t *seat = sheet + seats[i];
        put_seat(d, i, seat + 2, seat[1], seat[0], seat + SEAT_HEAD, seat[6]);
    }
    return 0;
}

/* ---- Looking at a desk ---- */

int32_t plain_screen(const uint8_t *desk, size_t desk_len, uint8_t *room, size_t room_len)
{
    const struct plain_desk *d = (const void *)desk;
    if (!is_desk(desk, desk_len))
        return FLOOR_REFUSAL_NOT_A_DESK;
    if (room_len < 2 * (size_t)d->waiting)
        return FLOOR_REFUSAL_NO_ROOM;
    for (int i = 0; i < d->waiting; i++) {
        room[2 * i] = d->line[i];
        room[2 * i + 1] = d->priorities[i];
    }
    return d->waiting;
}

int32_t plain_phase(const uint8_t *desk, size_t desk_len)
{
    return is_desk(desk, desk_len) ? ((const struct plain_desk *)(const void *)desk)->phase : FLOOR_REFUSAL_NOT_A_DESK;
}

int32_t plain_holder(const uint8_t *desk, size_t desk_len)
{
    const struct plain_desk *d = (const void *)desk;
    if (!is_desk(desk, desk_len))
        return FLOOR_REFUSAL_NOT_A_DESK;
    return d->phase >= FLOOR_PHASE_TAKEN ? d->holder : FLOOR_REFUSAL_NO_SUCH_SEAT;
}

int32_t plain_holder_priority(const uint8_t *desk, size_t desk_len)
{
    const struct plain_desk *d = (const void *)desk;
    if (!is_desk(desk, desk_len))
        return FLOOR_REFUSAL_NOT_A_DESK;
    return d->phase >= FLOOR_PHASE_TAKEN ? d->given_at : FLOOR_REFUSAL_NO_SUCH_SEAT;
}

int32_t plain_running(const uint8_t *desk, size_t desk_len)
{
    return is_desk(desk, desk_len) ? (int32_t)timers_running((const void *)desk) : FLOOR_REFUSAL_NOT_A_DESK;
}

int32_t plain_sequence(const uint8_t *desk, size_t desk_len)
{
    return is_desk(desk, desk_len) ? (int32_t)two(((const struct plain_desk *)(const void *)desk)->sequence) : FLOOR_REFUSAL_NOT_A_DESK;
}

int32_t plain_c7(const uint8_t *desk, size_t desk_len)
{
    return is_desk(desk, desk_len) ? ((const struct plain_desk *)(const void *)desk)->c7 : FLOOR_REFUSAL_NOT_A_DESK;
}

int32_t plain_c20(const uint8_t *desk, size_t desk_len)
{
    return is_desk(desk, desk_len) ? ((const struct plain_desk *)(const void *)desk)->c20 : FLOOR_REFUSAL_NOT_A_DESK;
}

int32_t plain_seats(const uint8_t *desk, size_t desk_len)
{
    return is_desk(desk, desk_len) ? (int32_t)all_seats((const void *)desk) : FLOOR_REFUSAL_NOT_A_DESK;
}

int32_t plain_seat_by_ssrc(const uint8_t *desk, size_t desk_len, uint32_t ssrc)
{
    uint8_t wanted[4];
    if (!is_desk(desk, desk_len))
        return FLOOR_REFUSAL_NOT_A_DESK;
    put_four(wanted, ssrc);
    int seat = seat_of((const void *)desk, wanted);
    return seat < 0 ? FLOOR_REFUSAL_NO_SUCH_SEAT : seat;
}

int32_t plain_seat_by_identity(const uint8_t *desk, size_t desk_len, const uint8_t *identity, size_t identity_len)
{
    if (!is_desk(desk, desk_len))
        return FLOOR_REFUSAL_NOT_A_DESK;
    int seat = identity_len == 0 ? -1 : seat_named((const void *)desk, identity, identity_len);
    return seat < 0 ? FLOOR_REFUSAL_NO_SUCH_SEAT : seat;
}

int32_t plain_seat(const uint8_t *desk, size_t desk_len, uint32_t seat, uint8_t *room, size_t room_len)
{
    const struct plain_desk *d = (const void *)desk;
    if (!is_desk(desk, desk_len))
        return FLOOR_REFUSAL_NOT_A_DESK;
    if (seat >= FLOOR_SEATS || !d->taken[seat])
        return FLOOR_REFUSAL_NO_SUCH_SEAT;
    if (room_len < SEAT_HEAD + (size_t)d->length[seat])
        return FLOOR_REFUSAL_NO_ROOM;
    return (int32_t)seat_octets(d, seat, room);
}

int32_t plain_settings(const uint8_t *desk, size_t desk_len, uint8_t *room, size_t room_len)
{
    if (!is_desk(desk, desk_len))
        return FLOOR_REFUSAL_NOT_A_DESK;
    if (room_len < FLOOR_SETTINGS)
        return FLOOR_REFUSAL_NO_ROOM;
    return (int32_t)settings_octets((const void *)desk, room);
}

/* ---- Clocks ---- */

#define ALL_TIMERS (1u << 1 | 1u << 2 | 1u << 3 | 1u << 4 | 1u << 7 | 1u << 8 | 1u << 20)

int32_t plain_starts(uint32_t before, uint32_t after, uint32_t fired, const uint8_t *report, size_t report_len)
{
    const struct plain_report *r = (const void *)report;
    uint32_t anew = ~before | (fired < 32 ? 1u << fired : 0);
    if (report_len != FLOOR_REPORT || r->how > FLOOR_GIVEN_OUT_OF_THE_LINE)
        return FLOOR_REFUSAL_UNREADABLE;
    if (r->how != FLOOR_GIVEN_NOT)
        anew |= 1u << 1 | 1u << 20;
    return (int32_t)(after & anew & ALL_TIMERS);
}

int32_t plain_stops(uint32_t before, uint32_t after)
{
    return (int32_t)(before & ~after & ALL_TIMERS);
}

int32_t plain_version(void)
{
    return FLOOR_VERSION;
}
