/* server [PORT]: a practice server over UDP for sixteen handsets. Who sends a floor control packet sits down, by its SSRC, and starts the
 * call if none is on; what is no such packet is media, and is heard, not passed on. tests/clocks.test plays an hour of these clocks. */
#define _POSIX_C_SOURCE 200809L
#include <arpa/inet.h>
#include <floor.h>
#include <poll.h>
#include <stdio.h>
#include <stdlib.h>
#include <string.h>
#include <time.h>

enum { TICK = 10, SECOND = 1000, DURATION = 30 };             /* milliseconds twice; seconds of talk */
static const int64_t time_of[FLOOR_TIMERS] = {[FLOOR_TIMER_1] = 4 * SECOND, [FLOOR_TIMER_2] = DURATION * SECOND, [FLOOR_TIMER_3] = 3 * SECOND,
    [FLOOR_TIMER_4] = 30 * SECOND, [FLOOR_TIMER_7] = 5 * SECOND, [FLOOR_TIMER_8] = SECOND, [FLOOR_TIMER_20] = SECOND};
static const struct floor_making settings = {.ssrc = 1, .level = 200, .limit = FLOOR_LINE, .c7 = 3, .c20 = 3, .duration = DURATION};
static struct floor_desk desk;
static struct floor_report report;
static struct floor_clocks clocks;
static int64_t due[FLOOR_TIMERS];                             /* when each clock fires; 0 if it stands still */
static struct sockaddr_in handset[FLOOR_SEATS];               /* where each seat is */
static struct pollfd net = {-1, POLLIN, 0};

static void settle(int32_t answer, uint32_t fired, int64_t now) /* after every step, done or refused */
{
    struct floor_packet_out packet;
    if (answer < 0)
        fprintf(stderr, "refused with %d\n", (int)-answer);
    if (floor_desk_clocks(&desk, &report, fired, &clocks) < 0)
        abort();                                              /* somebody else wrote into the desk */
    for (uint32_t t = 1; t < FLOOR_TIMERS; t++)
        if (floor_has(clocks.starts | clocks.stops, t))
            due[t] = floor_has(clocks.starts, t) ? now + time_of[t] : 0;
    for (uint32_t which = 0; which < 2; which++) {
        int32_t n = floor_desk_message(&desk, &report, which, &packet);
        for (uint32_t seat = 0; n > 0 && seat < FLOOR_SEATS; seat++)
            if (floor_has(floor_two(report.sent[which].to), seat))
                sendto(net.fd, packet.octets, (size_t)n, 0, (const struct sockaddr *)&handset[seat], sizeof *handset);
    }
}

static void tick(int64_t now)
{
    for (uint32_t t = 1; t < FLOOR_TIMERS; t++)
        if (due[t] != 0 && due[t] <= now)
            settle(floor_desk_timer(&desk, t, &report), t, now);
}

static void take_media(uint32_t ssrc, int64_t now)
{
    int32_t answer = floor_desk_media(&desk, ssrc, &report);
    settle(answer, FLOOR_TIMER_NONE, now);
    if (answer == 0)
        due[FLOOR_TIMER_1] = now + time_of[FLOOR_TIMER_1];    /* the holder talks on: by TS 24.380, T1 begins again */
}

static void take_packet(const uint8_t *packet, size_t n, const struct sockaddr_in *from, int64_t now)
{
    struct floor_newcomer who = {.identity = packet + 4, .identity_len = 4, .ssrc = floor_four(packet + 4), .highest = 255, .queueing = true};
    int32_t answer = floor_desk_packet(&desk, packet, n, &report);
    if (answer == FLOOR_REFUSAL_CALL_STOPPED) {
        settle(floor_desk_start(&desk, &report), FLOOR_TIMER_NONE, now);
        answer = floor_desk_packet(&desk, packet, n, &report);
    }
    if (answer == FLOOR_REFUSAL_NO_SUCH_SEAT && floor_desk_join(&desk, &who) >= 0)
        answer = floor_desk_packet(&desk, packet, n, &report);
    if (answer == 0 || answer == FLOOR_REFUSAL_NOT_EXPECTED)  /* it was read, and a seat has its SSRC */
        handset[floor_desk_seat_by_ssrc(&desk, who.ssrc)] = *from;
    settle(answer, FLOOR_TIMER_NONE, now);
}

static int told_usage(const char *word)                       /* the exit status */
{
    int asked = strcmp(word, "--help") == 0 || strcmp(word, "-h") == 0;
    fputs("usage: server [PORT]\n", asked ? stdout : stderr);
    if (asked)
        puts("Serves sixteen handsets over UDP, by default at port 5004.\n\nExample: at another port, to be ended with Ctrl-C\n\n    server 5006");
    return !asked ? 2 : fflush(stdout) == 0 ? 0 : 1;
}

int main(int argc, char **argv)
{
    if (argc > 2 || (argc == 2 && atoi(argv[1]) <= 0))
        return told_usage(argc > 2 ? "" : argv[1]);
    struct sockaddr_in from = {.sin_family = AF_INET, .sin_port = htons((uint16_t)atoi(argc > 1 ? argv[1] : "5004"))};
    uint8_t packet[FLOOR_PACKET_IN + 1];
    struct timespec time;
    net.fd = socket(AF_INET, SOCK_DGRAM, 0);
    if (bind(net.fd, (const struct sockaddr *)&from, sizeof from) != 0 || floor_desk_make(&desk, &settings) < 0)
        return perror("server"), 1;
    for (;;) {
        ssize_t n = 0;
        if (poll(&net, 1, TICK) > 0)
            n = recvfrom(net.fd, packet, sizeof packet, 0, (struct sockaddr *)&from, &(socklen_t){sizeof from});
        clock_gettime(CLOCK_MONOTONIC, &time);
        int64_t now = (int64_t)time.tv_sec * SECOND + time.tv_nsec / 1000000;
        tick(now);
        if (n >= 12 && packet[1] == 204)                      /* a floor control packet: RTCP, application-defined */
            take_packet(packet, (size_t)n, &from, now);
        else if (n >= 12)
            take_media(floor_four(packet + 8), now);          /* RTP has its SSRC there */
    }
}
