/* Scenes: what is lent to one call of the library, played under guard.
 *
 * Every function of floor.h has up to three lent buffers and some numbers. A `face` is such a function in one common shape, so that what the
 * header promises of all of them is held to in one place, play(): octets around a lent buffer stay as they are; on a refusal every lent
 * buffer does; a result changes its own octets and none behind them; nothing is read past the end; the same call again does the same. */
#ifndef SCENE_H
#define SCENE_H

#include <stdarg.h>
#include <stddef.h>
#include <setjmp.h>
#include <cmocka.h>
#include <floor.h>
#include <stdint.h>

#define MOST 2048 /* no test lends more */

/* A lent buffer; `null` lends a null pointer, with n at 0. */
struct lent {
    uint8_t octets[MOST];
    size_t n;
    int null;
};

struct scene {
    struct lent lent[3]; /* [0] the desk, or what stands in its place; [1] what is handed in; [2] room for the result */
    uint32_t number[7];
};

/* What a call is handed. */
struct call {
    uint8_t *at[3];
    size_t n[3];
    uint32_t number[7];
};

struct face {
    const char *name;
    int32_t (*call)(const struct call *);
    int changes_desk;                     /* a result may change lent[0] */
    size_t room;                          /* octets that lent[2] needs at most */
    size_t per_answer;                    /* the result has this many octets for each 1 of the answer; 0: always `room` */
};

extern const struct face faces[];
extern const size_t face_count;
const struct face *face(const char *name);
int takes_desk(const struct face *f);

/* A desk, or 0 octets; octets in hexadecimal, blanks between them; room as long as the result can be; no numbers. */
void set_scene(struct scene *s, const struct face *f, const uint8_t *desk, const char *in);
void lend_hex(struct lent *l, const char *hex);
void lend_room(struct lent *l, size_t n);
void lend_null(struct lent *l);

/* Plays the scene under guard; the lent buffers are then as the call left them. Answers what the function answers. */
int32_t play(const struct face *f, struct scene *s);

/* Plays a scene that must be refused. */
void assert_refused(int refusal, const struct face *f, const struct scene *s);

/* Every refusal that play() has seen. */
extern unsigned char reached[64];

#endif
