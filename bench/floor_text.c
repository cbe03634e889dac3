/* floor_text.c: see floor_text.h. */
#include <floor_text.h>
#include <inttypes.h>
#include <stdarg.h>
#include <stdio.h>

/* ---- Names ---- */

struct name {
    int32_t number;
    const char *paper, *wireshark; /* Wireshark's where it differs */
};

static const struct name types[] = {
    {FLOOR_TYPE_REQUEST, "Request", "Floor Request"},
    {FLOOR_TYPE_GRANTED, "Granted", "Floor Granted"},
    {FLOOR_TYPE_TAKEN, "Taken", "Floor Taken"},
    {FLOOR_TYPE_DENY, "Deny", "Floor Deny"},
    {FLOOR_TYPE_RELEASE, "Release", "Floor Release"},
    {FLOOR_TYPE_IDLE, "Idle", "Floor Idle"},
    {FLOOR_TYPE_REVOKE, "Revoke", "Floor Revoke"},
    {FLOOR_TYPE_QUEUE_POSITION_REQUEST, "Queue Position Request", "Floor Queue Position Request"},
    {FLOOR_TYPE_QUEUE_POSITION_INFO, "Queue Position Info", "Floor Queue Position Info"},
    {FLOOR_TYPE_ACK, "Ack", "Floor Ack"},
    {FLOOR_TYPE_NOTHING, "nothing", NULL},
};

static const struct name fields[] = {
    {FLOOR_FIELD_FLOOR_PRIORITY, "Floor Priority", NULL},
    {FLOOR_FIELD_DURATION, "Duration", NULL},
    {FLOOR_FIELD_REJECT_CAUSE, "Reject Cause", NULL},
    {FLOOR_FIELD_QUEUE_INFO, "Queue Info", NULL},
    {FLOOR_FIELD_GRANTED_PARTYS_IDENTITY, "Granted Party's Identity", NULL},
    {FLOOR_FIELD_PERMISSION_TO_REQUEST, "Permission to Request", "Permission to Request the Floor"},
    {FLOOR_FIELD_USER_ID, "User ID", NULL},
    {FLOOR_FIELD_MESSAGE_SEQUENCE_NUMBER, "Message Sequence-Number", NULL},
    {FLOOR_FIELD_SOURCE, "Source", NULL},
    {FLOOR_FIELD_MESSAGE_TYPE, "Message Type", NULL},
    {FLOOR_FIELD_FLOOR_INDICATOR, "Floor Indicator", NULL},
    {FLOOR_FIELD_SSRC, "SSRC", NULL},
};

static const struct name denials[] = {
    {FLOOR_DENY_ANOTHER_HAS_PERMISSION, "neither presses nor queues", "Another MCPTT client has permission"},
    {FLOOR_DENY_ONLY_ONE_PARTICIPANT, "alone in the call", "Only one participant"},
    {FLOOR_DENY_RECEIVE_ONLY, "receive only", "Receive only"},
    {FLOOR_DENY_QUEUE_FULL, "the line is at its limit", "Queue full"},
};

static const struct name revocations[] = {
    {FLOOR_REVOKE_MEDIA_BURST_TOO_LONG, "talked too long", "Media burst too long"},
    {FLOOR_REVOKE_MEDIA_BURST_PREEMPTED, "pre-empted", "Media Burst pre-empted"},
};

static const struct name phases[] = {
    {FLOOR_PHASE_STOPPED, "Stopped", NULL}, {FLOOR_PHASE_IDLE, "Idle", NULL},
    {FLOOR_PHASE_TAKEN, "Taken", NULL},     {FLOOR_PHASE_REVOKING, "Revoking", NULL},
    {FLOOR_PHASE_NOT_A_DESK, "not a desk", NULL},
};

static const struct name timers[] = {
    {FLOOR_TIMER_1, "End of RTP media", NULL}, {FLOOR_TIMER_2, "Stop talking", NULL}, {FLOOR_TIMER_3, "Stop talking grace", NULL},
    {FLOOR_TIMER_4, "Inactivity", NULL},       {FLOOR_TIMER_7, "Floor Idle", NULL},   {FLOOR_TIMER_8, "Floor Revoke", NULL},
    {FLOOR_TIMER_20, "Floor Granted", NULL},
};

static const struct name refusals[] = {
    {FLOOR_REFUSAL_TOO_SHORT, "fewer than 12 octets", NULL},
    {FLOOR_REFUSAL_TOO_LONG, "more than 1,024 octets", NULL},
    {FLOOR_REFUSAL_NOT_VERSION_2, "version not 2", NULL},
    {FLOOR_REFUSAL_PADDED, "P set", NULL},
    {FLOOR_REFUSAL_NOT_APPLICATION, "octet 1 not 204", NULL},
    {FLOOR_REFUSAL_WRONG_LENGTH, "4 x (length + 1) is not the octets lent", NULL},
    {FLOOR_REFUSAL_NOT_NAMED, "name not MCPT", NULL},
    {FLOOR_REFUSAL_UNLISTED_TYPE, "type not listed", NULL},
    {FLOOR_REFUSAL_PAST_THE_END, "a padded field runs past the end", NULL},
    {FLOOR_REFUSAL_AGAINST_THE_TABLE, "ID 192 or above, or L or content against the table", NULL},
    {FLOOR_REFUSAL_MISSING, "a required field is missing", NULL},
    {FLOOR_REFUSAL_UNREADABLE, "a message that no reader would accept", NULL},
    {FLOOR_REFUSAL_NO_ROOM, "the lent room is shorter than the whole result", NULL},
    {FLOOR_REFUSAL_REPEATED, "a second field with an ID of the table", NULL},
    {FLOOR_REFUSAL_NOT_A_DESK, "the lent octets are not a desk's", NULL},
    {FLOOR_REFUSAL_CALL_STOPPED, "the call is Stopped", NULL},
    {FLOOR_REFUSAL_NO_SUCH_SEAT, "no such seat, or no seat has this SSRC", NULL},
    {FLOOR_REFUSAL_NOT_EXPECTED, "not expected now", NULL},
    {FLOOR_REFUSAL_ALL_SEATS_TAKEN, "all seats taken", NULL},
    {FLOOR_REFUSAL_IDENTITY_LENGTH, "identity not 1 to 62 octets", NULL},
    {FLOOR_REFUSAL_IDENTITY_PRESENT, "identity present already", NULL},
    {FLOOR_REFUSAL_SSRC_PRESENT, "SSRC present already or the desk's", NULL},
    {FLOOR_REFUSAL_OUTSIDE_RANGE, "a setting outside its range", NULL},
    {FLOOR_REFUSAL_NO_TRAILER, "under 20 octets or no FS", NULL},
    {FLOOR_REFUSAL_SHEET_FORM, "form not 1", NULL},
    {FLOOR_REFUSAL_SHEET_OFFSETS, "count above 16, settings not 20 octets before the end, or seats' offset not zero", NULL},
    {FLOOR_REFUSAL_SHEET_SETTINGS, "a setting outside its range, or the zeros behind them", NULL},
    {FLOOR_REFUSAL_SHEET_SEATS, "a seat at fault, or seats not ending at the settings", NULL},
    {FLOOR_REFUSAL_SHEET_CANNOT_HOLD, "a normal level other than 0, which no sheet can hold", NULL},
};

#define COUNT(array) (sizeof array / sizeof *array)
#define NAMED(number, names, words) named((int32_t)(number), names, COUNT(names), words)

static const char *named(int32_t number, const struct name *names, size_t count, enum floor_words words)
{
    for (size_t i = 0; i < count; i++)
        if (names[i].number == number)
            return words == FLOOR_WORDS_WIRESHARK && names[i].wireshark ? names[i].wireshark : names[i].paper;
    return "?";
}

const char *floor_text_type(uint32_t type, enum floor_words words)
{
    return NAMED(type, types, words);
}

const char *floor_text_field(uint32_t id, enum floor_words words)
{
    return NAMED(id, fields, words);
}

const char *floor_text_deny(uint32_t cause, enum floor_words words)
{
    return NAMED(cause, denials, words);
}

const char *floor_text_revoke(uint32_t cause, enum floor_words words)
{
    return NAMED(cause, revocations, words);
}

const char *floor_text_phase(int32_t phase)
{
    return NAMED(phase, phases, FLOOR_WORDS_PAPER);
}

const char *floor_text_timer(uint32_t timer)
{
    return NAMED(timer, timers, FLOOR_WORDS_PAPER);
}

const char *floor_text_refusal(int32_t answer)
{
    return answer >= 0 ? "done" : NAMED(answer, refusals, FLOOR_WORDS_PAPER);
}

/* ---- Text that grows ---- */

struct text {
    char *room;
    size_t room_len, length;
};

/* Where the next character goes; past the end only the length grows. */
static char *rest(const struct text *t)
{
    return t->length < t->room_len ? t->room + t->length : NULL;
}

static size_t rest_len(const struct text *t)
{
    return t->length < t->room_len ? t->room_len - t->length : 0;
}

static void add(struct text *t, const char *format, ...)
{
    va_list values;
    va_start(values, format);
    int n = vsnprintf(rest(t), rest_len(t), format, values);
    va_end(values);
    t->length += n > 0 ? (size_t)n : 0;
}

static struct text text_in(char *room, size_t room_len)
{
    struct text t = {room, room_len, 0};
    if (room_len > 0)
        room[0] = 0;
    return t;
}

int floor_text_octets(char *room, size_t room_len, const void *octets, size_t count, const char *between)
{
    const uint8_t *s = octets;
    struct text t = text_in(room, room_len);
    for (size_t i = 0; i < count; i++)
        add(&t, "%s%02x", i ? between : "", s[i]);
    return (int)t.length;
}

int floor_text_identity(char *room, size_t room_len, const void *octets, size_t count)
{
    const uint8_t *s = octets;
    struct text t = text_in(room, room_len);
    for (size_t i = 0; i < count; i++)
        add(&t, s[i] >= 0x20 && s[i] < 0x7F && s[i] != '\\' ? "%c" : "\\x%02x", s[i]);
    return (int)t.length;
}

int floor_text_set(char *room, size_t room_len, uint32_t set, const char *before, const char *between)
{
    struct text t = text_in(room, room_len);
    for (uint32_t number = 0; number < 32; number++)
        if (floor_has(set, number))
            add(&t, "%s%s%" PRIu32, t.length ? between : "", before, number);
    return (int)t.length;
}

static void add_set(struct text *t, uint32_t set, const char *before)
{
    t->length += (size_t)floor_text_set(rest(t), rest_len(t), set, before, " ");
}

static void add_identity(struct text *t, const uint8_t *octets, size_t count)
{
    t->length += (size_t)floor_text_identity(rest(t), rest_len(t), octets, count);
}

/* ---- A report ---- */

/* What a message of a report says, without who gets it. */
static void add_particulars(struct text *t, const struct floor_sent *sent)
{
    unsigned number = (unsigned)floor_two(sent->number);
    add(t, "%s", floor_text_type(sent->type, FLOOR_WORDS_PAPER));
    switch (floor_sent_type(sent)) {
    case FLOOR_TYPE_GRANTED:
        add(t, ", priority %u", sent->priority);
        break;
    case FLOOR_TYPE_TAKEN:
        add(t, " by seat %u, sequence %u", sent->seat, number);
        break;
    case FLOOR_TYPE_IDLE:
        add(t, ", sequence %u", number);
        break;
    case FLOOR_TYPE_QUEUE_POSITION_INFO:
        add(t, ", place %u, priority %u", number, sent->priority);
        break;
    case FLOOR_TYPE_DENY:
    case FLOOR_TYPE_REVOKE:
        add(t, " #%u", number);
        break;
    case FLOOR_TYPE_REQUEST:
    case FLOOR_TYPE_RELEASE:
    case FLOOR_TYPE_QUEUE_POSITION_REQUEST:
    case FLOOR_TYPE_ACK:
    case FLOOR_TYPE_NOTHING:
        break;
    }
}

static void add_sent(struct text *t, const struct floor_sent *sent)
{
    add_particulars(t, sent);
    if (sent->type == FLOOR_TYPE_NOTHING)
        return;
    add(t, " -> ");
    if (floor_two(sent->to) == 0)
        add(t, "nobody");
    add_set(t, floor_two(sent->to), "");
}

int floor_text_sent(char *room, size_t room_len, const struct floor_sent *sent)
{
    struct text t = text_in(room, room_len);
    add_sent(&t, sent);
    return (int)t.length;
}

static void add_message(struct text *t, const struct floor_desk *desk, const struct floor_report *report, uint32_t which)
{
    struct floor_packet_out packet;
    int32_t n = floor_desk_message(desk, report, which, &packet);
    if (n <= 0)
        return;
    add_sent(t, &report->sent[which]);
    add(t, "\n    ");
    t->length += (size_t)floor_text_octets(rest(t), rest_len(t), packet.octets, (size_t)n, " ");
    add(t, "\n");
}

int floor_text_report(char *room, size_t room_len, const struct floor_desk *desk, const struct floor_report *report)
{
    struct text t = text_in(room, room_len);
    add_message(&t, desk, report, 0);
    add_message(&t, desk, report, 1);
    if (report->placed != FLOOR_NO_SEAT)
        add(&t, "placed in line: %u\n", report->placed);
    if (floor_two(report->struck) != 0) {
        add(&t, "struck off: ");
        add_set(&t, floor_two(report->struck), "");
        add(&t, "\n");
    }
    if (report->ended != FLOOR_NO_SEAT)
        add(&t, "floor ended: %u\n", report->ended);
    if (report->given != FLOOR_NO_SEAT)
        add(&t, "floor given: %u, %s\n", report->given, report->how == FLOOR_GIVEN_AT_ONCE ? "at once" : "out of the line");
    return (int)t.length;
}

/* ---- A message ---- */

/* A part of the source, or a question mark where it is not in it. */
static void add_part(struct text *t, const struct floor_part *part, const uint8_t *source, size_t source_len)
{
    size_t from = floor_two(part->from), count = floor_two(part->count);
    if (from > source_len || count > source_len - from)
        add(t, "?");
    else if (count > 0)
        add_identity(t, source + from, count);
}

static void add_cause(struct text *t, const struct floor_message *m, const uint8_t *source, size_t source_len)
{
    unsigned cause = (unsigned)floor_two(m->cause);
    const char *name = "?";
    if (m->type == FLOOR_TYPE_DENY)
        name = floor_text_deny(cause, FLOOR_WORDS_PAPER);
    if (m->type == FLOOR_TYPE_REVOKE)
        name = floor_text_revoke(cause, FLOOR_WORDS_PAPER);
    add(t, "#%u", cause);
    if (name[0] != '?')
        add(t, " (%s)", name);
    if (floor_two(m->phrase.count) > 0) {
        add(t, " ");
        add_part(t, &m->phrase, source, source_len);
    }
}

static void add_field(struct text *t, enum floor_field id, const struct floor_message *m, const uint8_t *source, size_t source_len)
{
    switch (id) {
    case FLOOR_FIELD_FLOOR_PRIORITY: add(t, "%u", m->priority); break;
    case FLOOR_FIELD_DURATION: add(t, "%u seconds", (unsigned)floor_two(m->duration)); break;
    case FLOOR_FIELD_REJECT_CAUSE: add_cause(t, m, source, source_len); break;
    case FLOOR_FIELD_QUEUE_INFO: add(t, "position %u, priority %u", m->position, m->queue_priority); break;
    case FLOOR_FIELD_GRANTED_PARTYS_IDENTITY: add_part(t, &m->party, source, source_len); break;
    case FLOOR_FIELD_PERMISSION_TO_REQUEST: add(t, "%u", (unsigned)floor_two(m->permission)); break;
    case FLOOR_FIELD_USER_ID: add_part(t, &m->user, source, source_len); break;
    case FLOOR_FIELD_MESSAGE_SEQUENCE_NUMBER: add(t, "%u", (unsigned)floor_two(m->sequence)); break;
    case FLOOR_FIELD_SOURCE: add(t, "%u", (unsigned)floor_two(m->source)); break;
    case FLOOR_FIELD_MESSAGE_TYPE: add(t, "%s", floor_text_type(m->message_type, FLOOR_WORDS_PAPER)); break;
    case FLOOR_FIELD_FLOOR_INDICATOR: add(t, "%04x", (unsigned)floor_two(m->indicator)); break;
    case FLOOR_FIELD_SSRC: add(t, "%" PRIu32, floor_four(m->field_ssrc)); break;
    }
}

int floor_text_message(char *room, size_t room_len, const struct floor_message *message, const void *source, size_t source_len)
{
    struct text t = text_in(room, room_len);
    const char *before = ": ";
    add(&t, "%s%s from SSRC %" PRIu32, floor_text_type(message->type, FLOOR_WORDS_PAPER), message->ack ? ", Ack asked for," : "",
        floor_four(message->ssrc));
    for (size_t i = 0; i < COUNT(fields); i++)
        if (floor_has(floor_two(message->fields), (uint32_t)fields[i].number)) {
            add(&t, "%s%s ", before, fields[i].paper);
            add_field(&t, (enum floor_field)fields[i].number, message, source, source_len);
            before = "; ";
        }
    return (int)t.length;
}

/* ---- A desk and a sheet ---- */

/* A seat and who sits there, at a priority. */
static void add_seat(struct text *t, const struct floor_desk *desk, uint32_t number, unsigned priority)
{
    struct floor_seat seat;
    add(t, "%" PRIu32 " ", number);
    if (floor_desk_seat(desk, number, &seat) > 0)
        add_identity(t, seat.identity, seat.length);
    add(t, " at %u", priority);
}

static void add_line(struct text *t, const struct floor_desk *desk)
{
    struct floor_line line;
    int32_t n = floor_desk_screen(desk, &line);
    for (int32_t i = 0; i < n; i++) {
        add(t, i ? ", " : "");
        add_seat(t, desk, line.entry[i].seat, line.entry[i].priority);
    }
    if (n <= 0)
        add(t, "empty");
}

int floor_text_desk(char *room, size_t room_len, const struct floor_desk *desk)
{
    struct text t = text_in(room, room_len);
    enum floor_phase phase = floor_desk_phase(desk);
    if (phase == FLOOR_PHASE_NOT_A_DESK) {
        add(&t, "%s", floor_text_phase(phase));
        return (int)t.length;
    }
    struct floor_holder holder = floor_desk_holder(desk);
    add(&t, "%s | floor: ", floor_text_phase(phase));
    if (holder.seat < 0)
        add(&t, "nobody");
    else
        add_seat(&t, desk, (uint32_t)holder.seat, (unsigned)holder.priority);
    add(&t, " | line: ");
    add_line(&t, desk);
    add(&t, " | timers: ");
    if (phase == FLOOR_PHASE_STOPPED)
        add(&t, "none");
    add_set(&t, (uint32_t)floor_desk_running(desk), "T");
    add(&t, " | sequence: %" PRId32 " | seats: ", floor_desk_sequence(desk));
    add_set(&t, (uint32_t)floor_desk_seats(desk), "");
    return (int)t.length;
}

static void add_settings(struct text *t, const struct floor_desk *desk)
{
    struct floor_settings s;
    if (floor_desk_settings(desk, &s) > 0)
        add(t, "desk SSRC %" PRIu32 ", level %u, line limit %u, C7 limit %u, C20 limit %u, duration %u seconds\n", floor_four(s.ssrc), s.level,
            s.limit, s.c7, s.c20, (unsigned)floor_two(s.duration));
}

int floor_text_sheet(char *room, size_t room_len, const void *sheet, size_t sheet_len)
{
    struct text t = text_in(room, room_len);
    struct floor_desk desk;
    struct floor_seat seat;
    int32_t answer = floor_desk_load(&desk, sheet, sheet_len);
    if (answer < 0) {
        add(&t, "refused with %" PRId32 ": %s\n", -answer, floor_text_refusal(answer));
        return (int)t.length;
    }
    add_settings(&t, &desk);
    for (uint32_t number = 0; floor_desk_seat(&desk, number, &seat) > 0; number++) {
        add(&t, "seat %" PRIu32 ": ", number);
        add_identity(&t, seat.identity, seat.length);
        add(&t, ", SSRC %" PRIu32 ", highest priority %u, %s%s\n", floor_four(seat.ssrc), seat.highest,
            seat.flags & FLOOR_FLAG_QUEUEING ? "queues" : "does not queue", seat.flags & FLOOR_FLAG_RECEIVE_ONLY ? ", receive only" : "");
    }
    return (int)t.length;
}
