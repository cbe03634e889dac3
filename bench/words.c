/* Lines in words, turned into lines in figures. Nothing is allocated, and nothing is remembered from line to line: what a line says of a
 * seat is looked up at the desk. Numbers are written anew, without zeros in front, so that a line in figures has a longest length. */
#include "words.h"

#include <floor.h>
#include <inttypes.h>
#include <stdio.h>
#include <string.h>

#define MOST_WORDS 15                      /* those of a make */
#define LONGEST_SAID (FLOOR_IDENTITY + 1)  /* octets of an identity: with one too many it is refused for its length, as with more */
#define MOST_32 4294967295u
#define SETTINGS 7

/* A word of the line; a quoted one is what stands between its quotation marks. */
struct word {
    const char *at;
    size_t length;
    int quoted;
};

struct saying {
    const struct floor_desk *desk;
    struct word word[MOST_WORDS];
    size_t words;
    char *room;
    const char *why; /* where it is malformed, the reason */
};

static const char blanks[] = " \t\r\n"; /* what stands between words, and the end of the line */

/* ---- words ---- */

static int refuse(struct saying *line, const char *why)
{
    line->why = why;
    return 0;
}

static int is(const struct word *word, const char *name)
{
    return !word->quoted && word->length == strlen(name) && memcmp(word->at, name, word->length) == 0;
}

/* The quoted word at a quotation mark; where it ends, or NULL where it is malformed. */
static const char *cut_quoted(struct saying *line, struct word *word, const char *at)
{
    const char *end = ++at;
    while (*end >= ' ' && *end <= '~' && *end != '"' && *end != '\\')
        end++;
    *word = (struct word){at, (size_t)(end - at), 1};
    if (*end == '"' && (!end[1] || strchr(blanks, end[1])))
        return end + 1;
    if (*end == '"')
        refuse(line, "no blank behind a quotation mark");
    else if (!strchr(end, '"'))
        refuse(line, "a quotation mark is not closed");
    else
        refuse(line, "only printable characters but \" and \\ go in quotes");
    return NULL;
}

/* Cuts the line into words, if they are not too many: then, or where one is malformed, 0. */
static int cut(struct saying *line, const char *at)
{
    for (at += strspn(at, blanks); *at; at += strspn(at, blanks)) {
        struct word *word = &line->word[line->words];
        if (line->words++ == MOST_WORDS)
            return 0;
        if (*at == '"') {
            at = cut_quoted(line, word, at);
            if (!at)
                return 0;
        } else {
            *word = (struct word){at, strcspn(at, blanks), 0};
            at += word->length;
        }
    }
    return 1;
}

static int number(struct saying *line, const struct word *word, uint32_t most, uint32_t *value)
{
    uint64_t n = 0;
    int good = !word->quoted;
    for (size_t i = 0; good && i < word->length; i++) {
        good = word->at[i] >= '0' && word->at[i] <= '9';
        n = n * 10 + (uint64_t)(word->at[i] - '0');
        good = good && n <= most;
    }
    *value = (uint32_t)n;
    return good ? 1 : refuse(line, "not a number, or too large a one");
}

/* ---- seats ---- */

/* The SSRC of a taken seat; 0 if nobody has the seat. */
static int ssrc_of(const struct floor_desk *desk, uint32_t seat, uint32_t *ssrc)
{
    struct floor_seat taken;
    if (floor_desk_seat(desk, seat, &taken) < 0)
        return 0;
    *ssrc = floor_four(taken.ssrc);
    return 1;
}

/* The seat that a word names, an identity in quotes or a number, and its SSRC. */
static int seat_named(struct saying *line, const struct word *word, uint32_t *seat, uint32_t *ssrc)
{
    if (!line->desk)
        return refuse(line, "no desk");
    if (word->quoted) {
        int32_t found = floor_desk_seat_by_identity(line->desk, word->at, word->length);
        if (found < 0)
            return refuse(line, "no seat has this identity");
        *seat = (uint32_t)found;
    } else if (!number(line, word, MOST_32, seat)) {
        return refuse(line, "neither an identity in quotes nor the number of a seat");
    }
    return ssrc_of(line->desk, *seat, ssrc) ? 1 : refuse(line, "nobody has this seat");
}

/* ---- what each command is in figures ---- */

static int say_make(struct saying *line)
{
    static const char *const names[SETTINGS] = {"ssrc", "level", "limit", "c7", "c20", "duration", "normal"};
    uint32_t n[SETTINGS];
    for (int i = 0; i < SETTINGS; i++) {
        int found = 0;
        for (size_t at = 1; at < line->words; at += 2)
            if (is(&line->word[at], names[i])) {
                if (!number(line, &line->word[at + 1], MOST_32, &n[i]))
                    return 0;
                found++;
            }
        if (found != 1)
            return refuse(line, "not the seven settings, each once");
    }
    snprintf(line->room, WORDS_ROOM, "make %" PRIu32 " %" PRIu32 " %" PRIu32 " %" PRIu32 " %" PRIu32 " %" PRIu32 " %" PRIu32, n[0], n[1],
             n[2], n[3], n[4], n[5], n[6]);
    return 1;
}

static int is_hex(const struct word *word)
{
    size_t digits = 0;
    while (digits < word->length && strchr("0123456789abcdefABCDEF", word->at[digits]))
        digits++;
    return is(word, "-") || (digits == word->length && digits % 2 == 0);
}

/* An identity in hexadecimal, as much of it as makes a difference. */
static int identity(struct saying *line, const struct word *word, char said[2 * LONGEST_SAID + 1])
{
    size_t length = word->quoted ? word->length : word->length / 2;
    if (!word->quoted && !is_hex(word))
        return refuse(line, "not octets in hexadecimal");
    if (length > LONGEST_SAID)
        length = LONGEST_SAID;
    strcpy(said, "-");
    for (size_t i = 0; i < length; i++)
        if (word->quoted)
            snprintf(said + 2 * i, 3, "%02x", (unsigned)word->at[i]);
        else
            snprintf(said + 2 * i, 3, "%.2s", word->at + 2 * i);
    return 1;
}

/* The words of a join behind its numbers: queueing and receive-only, each at most once, or two flags. */
static int flags(struct saying *line, int *queueing, int *receive_only)
{
    const struct word *word = line->word + 4, *end = line->word + line->words;
    int in_figures = end - word == 2 && (is(word, "0") || is(word, "1")) && (is(word + 1, "0") || is(word + 1, "1"));
    *queueing = in_figures && is(word, "1");
    *receive_only = in_figures && is(word + 1, "1");
    for (; !in_figures && word < end; word++) {
        int *meant = is(word, "queueing") ? queueing : is(word, "receive-only") ? receive_only : NULL;
        if (!meant || *meant)
            return refuse(line, "neither queueing nor receive-only, nor two of 0 and 1");
        *meant = 1;
    }
    return 1;
}

static int say_join(struct saying *line)
{
    char said[2 * LONGEST_SAID + 1];
    uint32_t ssrc, highest;
    int queueing, receive_only;
    if (!identity(line, &line->word[1], said) || !number(line, &line->word[2], MOST_32, &ssrc) ||
        !number(line, &line->word[3], 255, &highest) || !flags(line, &queueing, &receive_only))
        return 0;
    snprintf(line->room, WORDS_ROOM, "join %s %" PRIu32 " %" PRIu32 " %d %d", said, ssrc, highest, queueing, receive_only);
    return 1;
}

static int say_leave(struct saying *line)
{
    uint32_t seat, ssrc;
    if (!seat_named(line, &line->word[1], &seat, &ssrc))
        return 0;
    snprintf(line->room, WORDS_ROOM, "leave %" PRIu32, seat);
    return 1;
}

static int say_talk(struct saying *line)
{
    uint32_t seat, ssrc;
    if (!seat_named(line, &line->word[1], &seat, &ssrc))
        return 0;
    snprintf(line->room, WORDS_ROOM, "media %" PRIu32, ssrc);
    return 1;
}

/* A packet of this type that has no field. */
static int say_bare(struct saying *line, unsigned type)
{
    uint32_t seat, ssrc;
    if (!seat_named(line, &line->word[1], &seat, &ssrc))
        return 0;
    snprintf(line->room, WORDS_ROOM, "packet %02xcc0002%08" PRIx32 "4d435054", 0x80 | type, ssrc);
    return 1;
}

static int say_release(struct saying *line)
{
    return say_bare(line, FLOOR_TYPE_RELEASE);
}

static int say_place(struct saying *line)
{
    return say_bare(line, FLOOR_TYPE_QUEUE_POSITION_REQUEST);
}

static int say_ask(struct saying *line)
{
    uint32_t seat, ssrc, priority;
    if (line->words == 2)
        return say_bare(line, FLOOR_TYPE_REQUEST);
    if (!seat_named(line, &line->word[1], &seat, &ssrc) || !number(line, &line->word[2], 255, &priority))
        return 0;
    snprintf(line->room, WORDS_ROOM, "packet %02xcc0003%08" PRIx32 "4d4350540002%02" PRIx32 "00", 0x80 | FLOOR_TYPE_REQUEST, ssrc, priority);
    return 1;
}

/* ---- the line ---- */

/* A leave with a number, and a join with a HEX and two figures, are in figures. */
static int is_in_figures(const struct saying *line)
{
    const struct word *last = &line->word[line->words - 1];
    if (is(&line->word[0], "leave"))
        return !last->quoted;
    if (!is(&line->word[0], "join") || line->words == 4 || line->word[1].quoted)
        return 0;
    return !is(last, "queueing") && !is(last, "receive-only");
}

char *words_in_figures(const struct floor_desk *desk, char *line, char *room, const char **why)
{
    static const struct form {
        const char *name;
        size_t least, most; /* words, the command among them */
        int (*say)(struct saying *line);
    } forms[] = {{"make", 15, 15, say_make},     {"join", 4, 6, say_join},   {"leave", 2, 2, say_leave}, {"ask", 2, 3, say_ask},
                 {"release", 2, 2, say_release}, {"place", 2, 2, say_place}, {"talk", 2, 2, say_talk}};
    struct saying said = {.desk = desk, .room = room};
    int good = cut(&said, line);
    *why = said.why;
    if (!good)
        return said.why ? NULL : line;
    for (size_t i = 0; i < sizeof forms / sizeof *forms; i++) {
        const struct form *form = &forms[i];
        if (said.words < form->least || said.words > form->most || !is(&said.word[0], form->name) || is_in_figures(&said))
            continue;
        if (form->say(&said))
            return room;
        *why = said.why;
        return NULL;
    }
    return line;
}
