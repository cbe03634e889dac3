/* floorplay [FILE]: plays a script of events on a desk and prints one line for each, as second/FORMAT.md says.
 * A teacher writes exercises in it and keeps them as files; scripts/words.script is one.
 * Exit status 0 if the script was read to its end and every answer was written; 1 if not, and standard error says why; 2 if it is called in
 * another way. */
#define _POSIX_C_SOURCE 200809L /* getline */
#include <errno.h>
#include <floor_text.h>
#include <inttypes.h>
#include <stddef.h>
#include <stdio.h>
#include <stdlib.h>
#include <string.h>

#include "usage.h"
#include "words.h"

#define MOST_WORDS 20

static struct floor_desk desk;
static int has_desk;
static uint8_t *octets; /* a HEX word of the line, as octets: as long as the longest line needs */
static size_t octets_room;

static const char blanks[] = " \t\r\n"; /* what stands between words, and the end of the line */
static const char not_a_number[] = "not a number, or too large a one";
static const char not_octets[] = "not octets in hexadecimal";
static const char not_a_flag[] = "neither 0 nor 1";

/* What could not be read, written or had, for people; the status to end with. */
static int failed(const char *name)
{
    fprintf(stderr, "floorplay: %s: %s\n", name, strerror(errno));
    return 1;
}

/* Memory as realloc gives it; without it nothing can be played on. */
static void *more(void *old, size_t size)
{
    void *got = realloc(old, size);
    if (!got)
        exit(failed("a line of the script"));
    return got;
}

static void malformed(const char *why)
{
    printf("? %s\n", why);
}

/* ---- words ---- */

static int number(const char *word, uint64_t most, uint64_t *value)
{
    uint64_t n = 0;
    if (!*word)
        return 0;
    for (; *word; word++) {
        if (*word < '0' || *word > '9')
            return 0;
        n = n * 10 + (uint64_t)(*word - '0');
        if (n > most)
            return 0;
    }
    *value = n;
    return 1;
}

static int flag(const char *word, uint64_t *value)
{
    return strlen(word) == 1 && number(word, 1, value);
}

static int digit(char c)
{
    if (c >= '0' && c <= '9')
        return c - '0';
    if (c >= 'a' && c <= 'f')
        return c - 'a' + 10;
    if (c >= 'A' && c <= 'F')
        return c - 'A' + 10;
    return -1;
}

/* The octets of a HEX word, into `octets` from `from` on; -1 where it is none. */
static long hex(const char *word, size_t from)
{
    size_t n = strlen(word) / 2;
    if (strcmp(word, "-") == 0)
        return 0;
    if (strlen(word) % 2 || n == 0)
        return -1;
    if (from + n > octets_room) {
        octets_room = 2 * (from + n) + 64;
        octets = more(octets, octets_room);
    }
    for (size_t i = 0; i < n; i++) {
        int high = digit(word[2 * i]), low = digit(word[2 * i + 1]);
        if (high < 0 || low < 0)
            return -1;
        octets[from + i] = (uint8_t)(16 * high + low);
    }
    return (long)n;
}

/* Never more than a sheet's. */
static void print_hex(const uint8_t *s, size_t n)
{
    char text[2 * FLOOR_SHEET + 1] = "-";
    if (n > 0)
        floor_text_octets(text, sizeof text, s, n, "");
    fputs(text, stdout);
}

/* ---- a step's line ---- */

/* A message of the report: its kind, its particulars, who gets it, its packet. */
static void print_message(const struct floor_report *report, uint32_t which)
{
    const struct floor_sent *m = &report->sent[which];
    unsigned number = (unsigned)floor_two(m->number);
    struct floor_packet_out packet;
    bool info = m->type == FLOOR_TYPE_QUEUE_POSITION_INFO;
    printf("%s ", info ? "Info" : floor_text_type(m->type, FLOOR_WORDS_PAPER));
    if (info)
        printf("%u,%u", number, m->priority);
    else if (m->type == FLOOR_TYPE_TAKEN)
        printf("%u,%u", m->seat, number);
    else
        printf("%u", m->type == FLOOR_TYPE_GRANTED ? m->priority : number);
    printf(" -> %04x ", (unsigned)floor_two(m->to));
    int32_t n = floor_desk_message(&desk, report, which, &packet);
    print_hex(packet.octets, n > 0 ? (size_t)n : 0);
}

static void print_seat(unsigned seat)
{
    if (seat == FLOOR_NO_SEAT)
        putchar('-');
    else
        printf("%u", seat);
}

static void print_line(void)
{
    struct floor_line line;
    int32_t n = floor_desk_screen(&desk, &line);
    if (n <= 0)
        putchar('-');
    for (int32_t i = 0; i < n; i++)
        printf("%s%u:%u", i ? "," : "", line.entry[i].seat, line.entry[i].priority);
}

static void print_state(void)
{
    struct floor_holder holder = floor_desk_holder(&desk);
    char timers[32] = "-";
    if (floor_desk_running(&desk) > 0)
        floor_text_set(timers, sizeof timers, (uint32_t)floor_desk_running(&desk), "", ",");
    printf("%s %" PRId32 " %s ", floor_text_phase(floor_desk_phase(&desk)), floor_desk_sequence(&desk), timers);
    if (holder.seat < 0)
        putchar('-');
    else
        printf("%" PRId32 ":%" PRId32, holder.seat, holder.priority);
    putchar(' ');
    print_line();
    printf(" %" PRId32 " %" PRId32 "\n", floor_desk_c7(&desk), floor_desk_c20(&desk));
}

static void print_marks(const struct floor_report *report)
{
    static const char *const how[] = {"-", "once", "line"};
    print_seat(report->placed);
    printf(" %04x ", (unsigned)floor_two(report->struck));
    print_seat(report->ended);
    putchar(' ');
    print_seat(report->given);
    printf(" %s", how[report->how % 3]);
}

/* A refusal's number, 0 for done. The report of a refused step is empty. */
static void print_step(int32_t answer, const struct floor_report *report)
{
    printf("A %" PRId32 " | ", answer < 0 ? -answer : 0);
    if (report->sent[0].type == FLOOR_TYPE_NOTHING)
        putchar('-');
    else
        print_message(report, 0);
    if (report->sent[1].type != FLOOR_TYPE_NOTHING) {
        printf(" ; ");
        print_message(report, 1);
    }
    printf(" | ");
    print_marks(report);
    printf(" | ");
    print_state();
}

/* ---- read and write ---- */

static void print_part(const struct floor_part *part, const uint8_t *packet)
{
    print_hex(packet + floor_two(part->from), floor_two(part->count));
}

/* The value of one field that the message has. */
static void print_value(enum floor_field id, const struct floor_message *m, const uint8_t *packet)
{
    switch (id) {
    case FLOOR_FIELD_FLOOR_PRIORITY: printf("%u", m->priority); break;
    case FLOOR_FIELD_DURATION: printf("%" PRIu32, floor_two(m->duration)); break;
    case FLOOR_FIELD_REJECT_CAUSE: printf("%" PRIu32 ",", floor_two(m->cause)), print_part(&m->phrase, packet); break;
    case FLOOR_FIELD_QUEUE_INFO: printf("%u,%u", m->position, m->queue_priority); break;
    case FLOOR_FIELD_GRANTED_PARTYS_IDENTITY: print_part(&m->party, packet); break;
    case FLOOR_FIELD_PERMISSION_TO_REQUEST: printf("%" PRIu32, floor_two(m->permission)); break;
    case FLOOR_FIELD_USER_ID: print_part(&m->user, packet); break;
    case FLOOR_FIELD_MESSAGE_SEQUENCE_NUMBER: printf("%" PRIu32, floor_two(m->sequence)); break;
    case FLOOR_FIELD_SOURCE: printf("%" PRIu32, floor_two(m->source)); break;
    case FLOOR_FIELD_MESSAGE_TYPE: printf("%u", m->message_type); break;
    case FLOOR_FIELD_FLOOR_INDICATOR: printf("%" PRIu32, floor_two(m->indicator)); break;
    case FLOOR_FIELD_SSRC: printf("%" PRIu32, floor_four(m->field_ssrc)); break;
    }
}

static void print_read(const struct floor_message *m, const uint8_t *packet)
{
    printf("M %u %u %" PRIu32, m->type, m->ack, floor_four(m->ssrc));
    for (uint32_t id = 0; id <= FLOOR_FIELD_SSRC; id++)
        if (floor_has(floor_two(m->fields), id)) {
            printf(" %" PRIu32 "=", id);
            print_value((enum floor_field)id, m, packet);
        }
    putchar('\n');
}

static void print_written(int32_t n, const uint8_t *packet)
{
    if (n < 0)
        printf("R %" PRId32 "\n", -n);
    else {
        print_hex(packet, (size_t)n);
        putchar('\n');
    }
}

static void play_read(const char *word, int again)
{
    struct floor_message message;
    struct floor_packet_out packet;
    long n = hex(word, 0);
    if (n < 0) {
        malformed(not_octets);
        return;
    }
    int32_t answer = floor_message_read(&message, octets, (size_t)n);
    if (answer < 0)
        printf("R %" PRId32 "\n", -answer);
    else if (!again)
        print_read(&message, octets);
    else
        print_written(floor_message_write(&message, octets, (size_t)n, &packet), packet.octets);
}

/* Octets behind `used` of the source, as a part of the message. A part too long for its two octets is too long for any field. */
static const char *put_part(const char *value, struct floor_part *part, size_t *used)
{
    long count = hex(value, *used);
    if (count < 0)
        return not_octets;
    floor_put_two(part->from, (uint32_t)*used);
    floor_put_two(part->count, (uint32_t)(count > 65535 ? 65535 : count));
    *used += (size_t)count;
    return NULL;
}

/* Fields of two values: cause,phrase and position,priority. */
static const char *put_two_values(uint64_t id, char *value, struct floor_message *m, size_t *used)
{
    uint64_t first, second;
    char *comma = strchr(value, ',');
    if (!comma)
        return "not two values";
    *comma++ = 0;
    if (!number(value, id == FLOOR_FIELD_REJECT_CAUSE ? 65535 : 255, &first))
        return not_a_number;
    if (id == FLOOR_FIELD_REJECT_CAUSE) {
        floor_put_two(m->cause, (uint32_t)first);
        return put_part(comma, &m->phrase, used);
    }
    if (!number(comma, 255, &second))
        return not_a_number;
    m->position = (uint8_t)first;
    m->queue_priority = (uint8_t)second;
    return NULL;
}

#define PLACE(member) offsetof(struct floor_message, member)

static const char *put_number(uint64_t id, const char *value, struct floor_message *m)
{
    static const size_t places[] = {
        [FLOOR_FIELD_FLOOR_PRIORITY] = PLACE(priority),
        [FLOOR_FIELD_DURATION] = PLACE(duration),
        [FLOOR_FIELD_PERMISSION_TO_REQUEST] = PLACE(permission),
        [FLOOR_FIELD_MESSAGE_SEQUENCE_NUMBER] = PLACE(sequence),
        [FLOOR_FIELD_SOURCE] = PLACE(source),
        [FLOOR_FIELD_MESSAGE_TYPE] = PLACE(message_type),
        [FLOOR_FIELD_FLOOR_INDICATOR] = PLACE(indicator),
        [FLOOR_FIELD_SSRC] = PLACE(field_ssrc),
    };
    uint8_t *to = (uint8_t *)m + places[id];
    uint64_t n, most = id == FLOOR_FIELD_FLOOR_PRIORITY || id == FLOOR_FIELD_MESSAGE_TYPE ? 255 : id == FLOOR_FIELD_SSRC ? UINT32_MAX : 65535;
    if (!number(value, most, &n))
        return not_a_number;
    if (most == 255)
        *to = (uint8_t)n;
    else if (most == 65535)
        floor_put_two(to, (uint32_t)n);
    else
        floor_put_four(to, (uint32_t)n);
    return NULL;
}

/* One field ID=VALUE into the message; its octets go behind `used` of the source. The reason where it is malformed; a message has no field
 * twice, so a second one is. */
static const char *put_field(char *word, struct floor_message *m, size_t *used)
{
    char *value = strchr(word, '=');
    uint64_t id;
    if (!value)
        return "not a field";
    *value++ = 0;
    if (!number(word, FLOOR_FIELD_SSRC, &id) || floor_text_field((uint32_t)id, FLOOR_WORDS_PAPER)[0] == '?')
        return "no message has such a field";
    if (floor_has(floor_two(m->fields), (uint32_t)id))
        return "a field stands there twice";
    floor_put_two(m->fields, floor_two(m->fields) | 1u << id);
    if (id == FLOOR_FIELD_REJECT_CAUSE || id == FLOOR_FIELD_QUEUE_INFO)
        return put_two_values(id, value, m, used);
    if (id == FLOOR_FIELD_GRANTED_PARTYS_IDENTITY || id == FLOOR_FIELD_USER_ID)
        return put_part(value, id == FLOOR_FIELD_USER_ID ? &m->user : &m->party, used);
    return put_number(id, value, m);
}

static void play_write(char **word, int words)
{
    struct floor_message message = {0};
    struct floor_packet_out packet;
    uint64_t room, type, ack, ssrc;
    size_t used = 0;
    if (!number(word[1], UINT32_MAX, &room) || !number(word[2], 255, &type) || !number(word[4], UINT32_MAX, &ssrc)) {
        malformed(not_a_number);
        return;
    }
    if (!flag(word[3], &ack)) {
        malformed(not_a_flag);
        return;
    }
    for (int i = 5; i < words; i++) {
        const char *why = put_field(word[i], &message, &used);
        if (why) {
            malformed(why);
            return;
        }
    }
    message.type = (uint8_t)type;
    message.ack = (uint8_t)ack;
    floor_put_four(message.ssrc, (uint32_t)ssrc);
    if (room > sizeof packet.octets)
        room = sizeof packet.octets;
    print_written(floor_write((const uint8_t *)&message, sizeof message, octets, used, packet.octets, (size_t)room), packet.octets);
}

/* ---- commands ---- */

/* A desk that was made or loaded takes the place of the one there was; a refusal keeps that one. */
static void take_desk(int32_t answer, const struct floor_desk *made)
{
    if (answer < 0) {
        printf("R %" PRId32 "\n", -answer);
        return;
    }
    desk = *made;
    has_desk = 1;
    printf("OK\n");
}

static void play_make(char **word)
{
    uint64_t n[7];
    struct floor_desk made;
    for (int i = 0; i < 7; i++)
        if (!number(word[1 + i], UINT32_MAX, &n[i])) {
            malformed(not_a_number);
            return;
        }
    take_desk(floor_desk_make(&made, &(struct floor_making){.ssrc = (uint32_t)n[0], .level = (uint32_t)n[1], .limit = (uint32_t)n[2],
                                                            .c7 = (uint32_t)n[3], .c20 = (uint32_t)n[4], .duration = (uint32_t)n[5],
                                                            .normal = (uint32_t)n[6]}), &made);
}

static void play_load(const char *word)
{
    struct floor_desk made;
    long n = hex(word, 0);
    if (n < 0)
        malformed(not_octets);
    else
        take_desk(floor_desk_load(&made, octets, (size_t)n), &made);
}

/* In room for any sheet, or for so many octets as a word says. */
static void play_save(const char *word)
{
    struct floor_sheet sheet;
    uint64_t room = sizeof sheet.octets;
    if (word && !number(word, UINT32_MAX, &room)) {
        malformed(not_a_number);
        return;
    }
    if (!has_desk) {
        malformed("no desk");
        return;
    }
    if (room > sizeof sheet.octets)
        room = sizeof sheet.octets;
    print_written(floor_save(desk.octets, sizeof desk.octets, sheet.octets, (size_t)room), sheet.octets);
}

static void play_screen(const char *word)
{
    uint64_t room;
    struct floor_line line;
    if (!number(word, UINT32_MAX, &room)) {
        malformed(not_a_number);
        return;
    }
    if (room > FLOOR_LINE)
        room = FLOOR_LINE;
    int32_t n = floor_screen(desk.octets, sizeof desk.octets, (uint8_t *)&line, (size_t)room * sizeof *line.entry);
    if (n < 0)
        printf("R %" PRId32 "\n", -n);
    else {
        printf("L ");
        print_line();
        putchar('\n');
    }
}

static void play_join(char **word)
{
    uint64_t ssrc, highest, queueing, receive_only;
    long n = hex(word[1], 0);
    if (n < 0) {
        malformed(not_octets);
        return;
    }
    if (!number(word[2], UINT32_MAX, &ssrc) || !number(word[3], 255, &highest)) {
        malformed(not_a_number);
        return;
    }
    if (!flag(word[4], &queueing) || !flag(word[5], &receive_only)) {
        malformed(not_a_flag);
        return;
    }
    if (!has_desk) {
        malformed("no desk");
        return;
    }
    struct floor_newcomer who = {.identity = octets, .identity_len = (size_t)n, .ssrc = (uint32_t)ssrc, .highest = (uint32_t)highest,
                                 .queueing = queueing, .receive_only = receive_only};
    struct floor_report nothing;
    floor_report_clear(&nothing);
    print_step(floor_desk_join(&desk, &who), &nothing);
}

/* leave, media, timer: a command with one number */
static void play_numbered(const char *name, const char *word)
{
    struct floor_report report;
    uint64_t n;
    int32_t answer;
    if (!number(word, UINT32_MAX, &n)) {
        malformed(not_a_number);
        return;
    }
    if (!has_desk) {
        malformed("no desk");
        return;
    }
    if (strcmp(name, "leave") == 0)
        answer = floor_desk_leave(&desk, (uint32_t)n, &report);
    else if (strcmp(name, "media") == 0)
        answer = floor_desk_media(&desk, (uint32_t)n, &report);
    else
        answer = floor_desk_timer(&desk, (uint32_t)n, &report);
    print_step(answer, &report);
}

static void play_packet(const char *word)
{
    struct floor_report report;
    long n = hex(word, 0);
    if (n < 0)
        malformed(not_octets);
    else if (!has_desk)
        malformed("no desk");
    else
        print_step(floor_desk_packet(&desk, octets, (size_t)n, &report), &report);
}

static void play_bare(const char *name)
{
    struct floor_report report;
    if (!has_desk)
        malformed("no desk");
    else if (strcmp(name, "start") == 0)
        print_step(floor_desk_start(&desk, &report), &report);
    else
        print_step(floor_desk_stop(&desk, &report), &report);
}

static int is(char **word, int words, const char *name, int wanted)
{
    return words == wanted && strcmp(word[0], name) == 0;
}

static void play(char **word, int words)
{
    if (is(word, words, "make", 8))
        play_make(word);
    else if (is(word, words, "load", 2))
        play_load(word[1]);
    else if (is(word, words, "save", 1) || is(word, words, "save", 2))
        play_save(words > 1 ? word[1] : NULL);
    else if (is(word, words, "start", 1) || is(word, words, "stop", 1))
        play_bare(word[0]);
    else if (is(word, words, "screen", 2)) {
        uint64_t room;
        if (!has_desk && number(word[1], UINT32_MAX, &room))
            malformed("no desk");
        else
            play_screen(word[1]);
    } else if (is(word, words, "join", 6))
        play_join(word);
    else if (is(word, words, "leave", 2) || is(word, words, "media", 2) || is(word, words, "timer", 2))
        play_numbered(word[0], word[1]);
    else if (is(word, words, "packet", 2))
        play_packet(word[1]);
    else if (is(word, words, "read", 2))
        play_read(word[1], 0);
    else if (is(word, words, "rewrite", 2))
        play_read(word[1], 1);
    else if (words >= 5 && strcmp(word[0], "write") == 0)
        play_write(word, words);
    else
        malformed("not a command with these words");
}

/* Cuts a line into words in place. */
static int cut(char *line, char ***words)
{
    static char **found;
    static int room;
    int n = 0;
    for (char *at = strtok(line, blanks); at; at = strtok(NULL, blanks)) {
        if (n == room) {
            room = 2 * room + MOST_WORDS;
            found = more(found, (size_t)room * sizeof *found);
        }
        found[n++] = at;
    }
    *words = found;
    return n;
}

/* One line of the script, `length` octets and a zero behind them. A comment may hold anything, octets of zero too. */
static void play_line(char *line, size_t length)
{
    char **words, figures[WORDS_ROOM];
    const char *why;
    if (line[strspn(line, blanks)] == '#')
        return;
    if (memchr(line, 0, length)) {
        malformed("an octet of zero");
        return;
    }
    line = words_in_figures(has_desk ? &desk : NULL, line, figures, &why);
    if (!line) {
        malformed(why);
        return;
    }
    int n = cut(line, &words);
    if (n > 0)
        play(words, n);
}

/* Plays line by line to the end, or to the first line that cannot be read whole or be answered; the exit status. A read that fails looks like
 * the end, and a write that fails like one that does not, if nobody asks. */
static int play_script(FILE *script, const char *name)
{
    char *line = NULL;
    size_t room = 0;
    ssize_t got;
    while ((got = getline(&line, &room, script)) >= 0 && !ferror(script)) {
        play_line(line, (size_t)got);
        if (ferror(stdout))
            return failed("standard output");
    }
    if (ferror(script) || !feof(script))
        return failed(name);
    free(line);
    return fflush(stdout) == 0 ? 0 : failed("standard output");
}

static const char usage[] = "usage: floorplay [FILE]\n";
static const char help[] =
    "Plays a script of events on a floor control desk, from FILE or from standard\n"
    "input, and prints one line for each event: what was answered, the messages with\n"
    "who gets them, the marks, and the desk.\n"
    "\n"
    "Example: with these lines in a file exercise.script\n"
    "\n"
    "    # a desk, two handsets, and a call in which both ask for the floor\n"
    "    make ssrc 1 level 200 limit 2 c7 2 c20 2 duration 30 normal 0\n"
    "    join \"test1\" 10 255 queueing\n"
    "    join \"test2\" 11 255 queueing\n"
    "    start\n"
    "    ask \"test1\" 5\n"
    "    ask \"test2\" 5\n"
    "    talk \"test1\"\n"
    "    release \"test1\"\n"
    "\n"
    "floorplay exercise.script plays them. second/FORMAT.md has every line that a\n"
    "script can have, and every part of an answer.\n";

int main(int argc, char **argv)
{
    int told = told_usage(argc, argv, 1, usage, help);
    if (told >= 0)
        return told;
    const char *name = argc > 1 ? argv[1] : "standard input";
    FILE *script = argc > 1 ? fopen(name, "r") : stdin;
    if (!script)
        return failed(name);
    octets_room = 2048;
    octets = more(NULL, octets_room);
    return play_script(script, name);
}
