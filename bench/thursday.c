/* thursday: plays Thursday's exercise of document 01 on a desk and prints, for each event, the messages with who gets them and what is in
 * them, the marks, and what the wall shows. It is also the example of how a program uses floor.h and floor_text.h. */
#include <floor_text.h>
#include <inttypes.h>
#include <stdio.h>
#include <stdlib.h>
#include <string.h>

#include "usage.h"

static struct floor_desk desk;
static struct floor_report report;

static const struct seat {
    const char *identity;
    uint32_t ssrc;
    bool queueing;
} class[] = {{"test1", 10, true}, {"test10", 11, true}, {"test2", 12, true}, {"test3", 13, false}};

/* The library refuses by a number; here none is expected. */
static int32_t must(const char *what, int32_t answer)
{
    if (answer < 0) {
        printf("%s: refused with %" PRId32 ", %s\n", what, -answer, floor_text_refusal(answer));
        exit(1);
    }
    return answer;
}

/* ---- Events: what handsets and timers bring to the desk ---- */

static void send_from(unsigned seat, struct floor_message *message)
{
    struct floor_packet_out packet;
    floor_put_four(message->ssrc, class[seat].ssrc);
    int32_t n = must("write", floor_message_write(message, NULL, 0, &packet));
    must("packet", floor_desk_packet(&desk, packet.octets, (size_t)n, &report));
}

static void asks(unsigned seat, uint8_t priority)
{
    struct floor_message message = {.type = FLOOR_TYPE_REQUEST, .priority = priority};
    floor_put_two(message.fields, 1u << FLOOR_FIELD_FLOOR_PRIORITY);
    send_from(seat, &message);
}

static void releases(unsigned seat)
{
    struct floor_message message = {.type = FLOOR_TYPE_RELEASE};
    send_from(seat, &message);
}

static void timer(uint32_t number)
{
    must("timer", floor_desk_timer(&desk, number, &report));
}

/* ---- What the report of a step says, and the wall ---- */

static void show(const char *row, const char *event)
{
    char text[FLOOR_TEXT];
    printf("%s  %s\n", row, event);
    floor_text_report(text, sizeof text, &desk, &report);
    for (char *line = strtok(text, "\n"); line; line = strtok(NULL, "\n"))
        printf("     %s\n", line);
    floor_text_desk(text, sizeof text, &desk);
    printf("     | %s |\n\n", text);
}

/* ---- The exercise ---- */

static void open_the_call(void)
{
    printf("Thursday's exercise: desk SSRC 1, level 200, line limit 2, C7 and C20 limits 2, duration 30 seconds\n");
    must("make", floor_desk_make(&desk, &(struct floor_making){.ssrc = 1, .level = 200, .limit = 2, .c7 = 2, .c20 = 2, .duration = 30}));
    for (size_t i = 0; i < sizeof class / sizeof *class; i++) {
        const struct seat *s = &class[i];
        struct floor_newcomer who = {.identity = s->identity, .identity_len = strlen(s->identity), .ssrc = s->ssrc, .highest = 255,
                                     .queueing = s->queueing};
        int32_t seat = must("join", floor_desk_join(&desk, &who));
        printf("   seat %" PRId32 ": %-6s  SSRC %" PRIu32 ", highest priority 255, %s\n", seat, s->identity, s->ssrc,
               s->queueing ? "queues" : "does not queue");
    }
    printf("\n");
    must("start", floor_desk_start(&desk, &report));
    show("a", "the call starts");
}

static const char usage[] = "usage: thursday\n";
static const char help[] =
    "Plays Thursday's exercise on a floor control desk, and prints for each event the\n"
    "messages with who gets them, as people read them and as packets, and the wall.\n"
    "\n"
    "Example: what goes out to the handsets and what the wall shows, a page at a time\n"
    "\n"
    "    thursday | less\n";

int main(int argc, char **argv)
{
    int told = told_usage(argc, argv, 0, usage, help);
    if (told >= 0)
        return told;
    open_the_call();
    asks(0, 5); show("b", "0 asks 5");
    asks(1, 5); show("c", "1 asks 5");
    asks(2, 6); show("d", "2 asks 6");
    asks(1, 6); show("e", "1 asks 6");
    asks(3, 199); show("f", "3 asks 199");
    asks(3, 200); show("g", "3 asks 200");
    releases(2); show("h", "2 releases");
    asks(3, 200); show("i", "3 asks 200");
    timer(FLOOR_TIMER_3); show("j", "T3 fires");
    timer(FLOOR_TIMER_20); show("k", "T20 fires");
    timer(FLOOR_TIMER_20); show("k", "T20 fires again");
    must("leave", floor_desk_leave(&desk, 1, &report));
    show("l", "1 leaves");
    return 0;
}
