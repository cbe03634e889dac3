#define _DEFAULT_SOURCE /* MAP_ANONYMOUS */
#include "scene.h"
#include <stdlib.h>
#include <string.h>
#include <sys/mman.h>
#include <unistd.h>

enum { GUARD = 64 };

unsigned char reached[64];

/* ---- Every function in one shape ---- */

#define DESK c->at[0], c->n[0]
#define IN c->at[1], c->n[1]
#define OUT c->at[2], c->n[2]
#define FACE(name, answer) \
    static int32_t face_##name(const struct call *c) \
    { \
        return answer; \
    }

FACE(make, floor_make(DESK, c->number[0], c->number[1], c->number[2], c->number[3], c->number[4], c->number[5], c->number[6]))
FACE(join, floor_join(DESK, IN, c->number[0], (uint8_t)c->number[1], (uint8_t)c->number[2], (uint8_t)c->number[3]))
FACE(leave, floor_leave(DESK, c->number[0], OUT))
FACE(start, floor_start(DESK, OUT))
FACE(stop, floor_stop(DESK, OUT))
FACE(packet, floor_packet(DESK, IN, OUT))
FACE(media, floor_media(DESK, c->number[0], OUT))
FACE(timer, floor_timer(DESK, c->number[0], OUT))
FACE(read, floor_read(IN, OUT))
FACE(load, floor_load(DESK, IN))
FACE(message, floor_message(DESK, IN, c->number[0], OUT))
FACE(write, floor_write(DESK, IN, OUT)) /* the message stands in the desk's place */
FACE(save, floor_save(DESK, OUT))
FACE(screen, floor_screen(DESK, OUT))
FACE(phase, floor_phase(DESK))
FACE(holder, floor_holder(DESK))
FACE(holder_priority, floor_holder_priority(DESK))
FACE(running, floor_running(DESK))
FACE(sequence, floor_sequence(DESK))
FACE(c7, floor_c7(DESK))
FACE(c20, floor_c20(DESK))
FACE(seats, floor_seats(DESK))
FACE(seat_by_ssrc, floor_seat_by_ssrc(DESK, c->number[0]))
FACE(seat_by_identity, floor_seat_by_identity(DESK, IN))
FACE(seat, floor_seat(DESK, c->number[0], OUT))
FACE(settings, floor_settings(DESK, OUT))
FACE(starts, floor_starts(c->number[0], c->number[1], c->number[2], IN))
FACE(stops, floor_stops(c->number[0], c->number[1]))
FACE(version, ((void)c, floor_version()))

const struct face faces[] = {
    {"make", face_make, 1, 0, 0},
    {"load", face_load, 1, 0, 0},
    {"join", face_join, 1, 0, 0},
    {"leave", face_leave, 1, FLOOR_REPORT, 0},
    {"start", face_start, 1, FLOOR_REPORT, 0},
    {"stop", face_stop, 1, FLOOR_REPORT, 0},
    {"packet", face_packet, 1, FLOOR_REPORT, 0},
    {"media", face_media, 1, FLOOR_REPORT, 0},
    {"timer", face_timer, 1, FLOOR_REPORT, 0},
    {"read", face_read, 0, FLOOR_MESSAGE, 0},
    {"write", face_write, 0, FLOOR_PACKET_OUT, 1},
    {"message", face_message, 0, FLOOR_PACKET_OUT, 1},
    {"save", face_save, 0, FLOOR_SHEET, 1},
    {"screen", face_screen, 0, 2 * FLOOR_SEATS, 2},
    {"phase", face_phase, 0, 0, 0},
    {"holder", face_holder, 0, 0, 0},
    {"holder_priority", face_holder_priority, 0, 0, 0},
    {"running", face_running, 0, 0, 0},
    {"sequence", face_sequence, 0, 0, 0},
    {"c7", face_c7, 0, 0, 0},
    {"c20", face_c20, 0, 0, 0},
    {"seats", face_seats, 0, 0, 0},
    {"seat_by_ssrc", face_seat_by_ssrc, 0, 0, 0},
    {"seat_by_identity", face_seat_by_identity, 0, 0, 0},
    {"seat", face_seat, 0, FLOOR_SEAT, 1},
    {"settings", face_settings, 0, FLOOR_SETTINGS, 1},
    {"starts", face_starts, 0, 0, 0},
    {"stops", face_stops, 0, 0, 0},
    {"version", face_version, 0, 0, 0},
};
const size_t face_count = sizeof faces / sizeof *faces;

const struct face *face(const char *name)
{
    for (size_t i = 0; i < face_count; i++)
        if (strcmp(faces[i].name, name) == 0)
            return &faces[i];
    fail_msg("no function %s", name);
    return NULL;
}

int takes_desk(const struct face *f)
{
    static const char *const without[] = {"make", "load", "read", "write", "starts", "stops", "version"};
    for (size_t i = 0; i < sizeof without / sizeof *without; i++)
        if (strcmp(f->name, without[i]) == 0)
            return 0;
    return 1;
}

/* ---- Scenes ---- */

void lend_hex(struct lent *l, const char *hex)
{
    memset(l, 0, sizeof *l);
    while (*hex) {
        char two[3] = {hex[0], hex[1], 0};
        l->octets[l->n++] = (uint8_t)strtoul(two, NULL, 16);
        hex += 2;
        hex += strspn(hex, " ");
    }
}

void lend_room(struct lent *l, size_t n)
{
    memset(l, 0, sizeof *l);
    l->n = n;
    for (size_t i = 0; i < n; i++)
        l->octets[i] = (uint8_t)(0x5A ^ i);
}

void lend_null(struct lent *l)
{
    memset(l, 0, sizeof *l);
    l->null = 1;
}

void set_scene(struct scene *s, const struct face *f, const uint8_t *desk, const char *in)
{
    memset(s, 0, sizeof *s);
    if (desk) {
        memcpy(s->lent[0].octets, desk, FLOOR_DESK);
        s->lent[0].n = FLOOR_DESK;
    }
    lend_hex(&s->lent[1], in);
    lend_room(&s->lent[2], f->room);
}

/* ---- Playing under guard ---- */

static uint8_t guard_octet(size_t i)
{
    return (uint8_t)(0xA5 + 7 * i);
}

static void assert_guards(const struct face *f, const uint8_t *fence, size_t n)
{
    for (size_t i = 0; i < GUARD + MOST + GUARD; i++)
        if ((i < GUARD || i >= GUARD + n) && fence[i] != guard_octet(i))
            fail_msg("%s changed an octet outside a lent buffer, %ld from its start", f->name, (long)i - GUARD);
}

/* Between guard octets. */
static int32_t play_fenced(const struct face *f, struct scene *s)
{
    static uint8_t fences[3][GUARD + MOST + GUARD];
    struct call c;
    memcpy(c.number, s->number, sizeof c.number);
    for (int b = 0; b < 3; b++) {
        for (size_t i = 0; i < sizeof fences[b]; i++)
            fences[b][i] = guard_octet(i);
        memcpy(fences[b] + GUARD, s->lent[b].octets, s->lent[b].n);
        c.at[b] = s->lent[b].null ? NULL : fences[b] + GUARD;
        c.n[b] = s->lent[b].n;
    }
    int32_t answer = f->call(&c);
    for (int b = 0; b < 3; b++) {
        assert_guards(f, fences[b], s->lent[b].n);
        memcpy(s->lent[b].octets, fences[b] + GUARD, s->lent[b].n);
    }
    return answer;
}

/* Each buffer ends where memory does, so that a read past its end stops the test. */
static int32_t play_at_the_edge(const struct face *f, struct scene *s)
{
    static uint8_t *ends[3];
    size_t page = (size_t)sysconf(_SC_PAGESIZE);
    struct call c;
    memcpy(c.number, s->number, sizeof c.number);
    for (int b = 0; b < 3; b++) {
        if (!ends[b]) {
            uint8_t *pages = mmap(NULL, 2 * page, PROT_READ | PROT_WRITE, MAP_PRIVATE | MAP_ANONYMOUS, -1, 0);
            assert_true(pages != MAP_FAILED && mprotect(pages + page, page, PROT_NONE) == 0);
            ends[b] = pages + page;
        }
        c.n[b] = s->lent[b].n;
        c.at[b] = s->lent[b].null ? NULL : ends[b] - c.n[b];
        memcpy(ends[b] - c.n[b], s->lent[b].octets, c.n[b]);
    }
    int32_t answer = f->call(&c);
    for (int b = 0; b < 3; b++)
        memcpy(s->lent[b].octets, ends[b] - c.n[b], c.n[b]);
    return answer;
}

/* How many octets of a lent buffer this answer may have changed. */
static size_t may_change(const struct face *f, int b, int32_t answer)
{
    if (answer < 0 || b == 1)
        return 0;
    if (b == 0)
        return f->changes_desk ? FLOOR_DESK : 0;
    return f->per_answer ? f->per_answer * (size_t)answer : f->room;
}

int32_t play(const struct face *f, struct scene *s)
{
    struct scene before = *s, again = *s;
    int32_t answer = play_fenced(f, s);
    for (int b = 0; b < 3; b++) {
        size_t free = may_change(f, b, answer);
        assert_true(free <= s->lent[b].n || free == 0);
        if (memcmp(s->lent[b].octets + free, before.lent[b].octets + free, MOST - free) != 0)
            fail_msg("%s answered %d and changed lent buffer %d past octet %lu", f->name, (int)answer, b, (unsigned long)free);
    }
    if (play_at_the_edge(f, &again) != answer || memcmp(s, &again, sizeof *s) != 0)
        fail_msg("%s did something else the second time", f->name);
    if (answer < 0 && answer > -64)
        reached[-answer] = 1;
    return answer;
}

void assert_refused(int refusal, const struct face *f, const struct scene *s)
{
    struct scene played = *s;
    int32_t answer = play(f, &played);
    if (answer != -refusal)
        fail_msg("%s answered %d in place of refusal %d", f->name, (int)answer, refusal);
}
