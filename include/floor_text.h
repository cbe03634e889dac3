/* floor_text.h: what stands in the octets of floor.h, as text for people: names of numbers; a message, a report, a desk and a sheet printed.
 *
 * Plain C, tested and not proved, and in an archive of its own, libfloor_text.a: link it before libfloor.a. It allocates nothing and keeps
 * nothing.
 *
 * NAMES are strings that stay; a number that has none is "?", never a null pointer. The words of documents 01 and 02, or Wireshark's (4.0)
 * for the same number, to be found in its window; where Wireshark has no word of its own, both are the documents'.
 *
 * TEXT is written as snprintf does: into `room`, at most `room_len` octets with the zero behind them; the answer is how many characters the
 * whole text has without that zero, so that an answer of room_len or more says that it was cut. A room of 0 octets may be a null pointer.
 * Identities and phrases are any octets: those that are no printable ASCII, and the backslash, stand as \x and two digits.
 */
#ifndef FLOOR_TEXT_H
#define FLOOR_TEXT_H

#include <floor.h>

#ifdef __cplusplus
extern "C" {
#endif

enum floor_words {
    FLOOR_WORDS_PAPER,    /* documents 01 and 02 */
    FLOOR_WORDS_WIRESHARK
};

/* ---- Names ---- */

const char *floor_text_type(uint32_t type, enum floor_words words);           /* Granted; Floor Granted */
const char *floor_text_field(uint32_t id, enum floor_words words);            /* Permission to Request; Permission to Request the Floor */
const char *floor_text_deny(uint32_t cause, enum floor_words words);          /* the line is at its limit; Queue full */
const char *floor_text_revoke(uint32_t cause, enum floor_words words);        /* pre-empted; Media Burst pre-empted */
const char *floor_text_phase(int32_t phase);                                  /* Revoking */
const char *floor_text_timer(uint32_t timer);                                 /* 1: End of RTP media, TS 24.380's name */
const char *floor_text_refusal(int32_t answer);                               /* -20: the lent octets are not a desk's; 0 and above: done */

/* ---- Pieces of text ---- */

/* Octets as two small digits each, `between` between two of them. */
int floor_text_octets(char *room, size_t room_len, const void *octets, size_t count, const char *between);

/* An identity or a phrase, or any other octets that are mostly text. */
int floor_text_identity(char *room, size_t room_len, const void *octets, size_t count);

/* The numbers of a set, seats, timers or fields, ascending, with `before` before each and `between` between two: "T1 T20". */
int floor_text_set(char *room, size_t room_len, uint32_t set, const char *before, const char *between);

/* ---- Whole things ---- */

/* A message of a report and who gets it: "Granted, priority 5 -> 0". */
int floor_text_sent(char *room, size_t room_len, const struct floor_sent *sent);

/* A report: a line for each message with its packet on the next line, then a line for each mark. The desk is the one that the step left. */
int floor_text_report(char *room, size_t room_len, const struct floor_desk *desk, const struct floor_report *report);

/* What a packet says, read with floor_message_read; the source is the packet: "Request from SSRC 10: Floor Priority 5". */
int floor_text_message(char *room, size_t room_len, const struct floor_message *message, const void *source, size_t source_len);

/* What the wall shows, one line: phase, holder, line, timers, sequence number, seats. */
int floor_text_desk(char *room, size_t room_len, const struct floor_desk *desk);

/* A sheet: a line with the settings, a line for each seat; or the refusal that floor_load gives it. */
int floor_text_sheet(char *room, size_t room_len, const void *sheet, size_t sheet_len);

/* Room that is enough for any of these. */
#define FLOOR_TEXT 8192

#ifdef __cplusplus
}
#endif

#endif
