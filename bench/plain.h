/* plain.h: the functions of floor.h once more, in plain C under the prefix plain_, as the bar that libfloor.a's speed is measured against.
 * Same arguments, same answers, same octets: floor.h is the manual of both. Nothing here is proved. */
#ifndef PLAIN_H
#define PLAIN_H

#include <stddef.h>
#include <stdint.h>

#ifdef __cplusplus
extern "C" {
#endif

int32_t plain_make(uint8_t *desk, size_t desk_len, uint32_t ssrc, uint32_t level, uint32_t limit, uint32_t c7, uint32_t c20,
                   uint32_t duration, uint32_t normal);
int32_t plain_join(uint8_t *desk, size_t desk_len, const uint8_t *identity, size_t identity_len, uint32_t ssrc, uint8_t highest,
                   uint8_t queueing, uint8_t receive_only);
int32_t plain_leave(uint8_t *desk, size_t desk_len, uint32_t seat, uint8_t *report, size_t report_len);
int32_t plain_start(uint8_t *desk, size_t desk_len, uint8_t *report, size_t report_len);
int32_t plain_stop(uint8_t *desk, size_t desk_len, uint8_t *report, size_t report_len);
int32_t plain_packet(uint8_t *desk, size_t desk_len, const uint8_t *packet, size_t packet_len, uint8_t *report, size_t report_len);
int32_t plain_media(uint8_t *desk, size_t desk_len, uint32_t ssrc, uint8_t *report, size_t report_len);
int32_t plain_timer(uint8_t *desk, size_t desk_len, uint32_t timer, uint8_t *report, size_t report_len);
int32_t plain_message(const uint8_t *desk, size_t desk_len, const uint8_t *report, size_t report_len, uint32_t which, uint8_t *room,
                      size_t room_len);
int32_t plain_read(const uint8_t *packet, size_t packet_len, uint8_t *message, size_t message_len);
int32_t plain_write(const uint8_t *message, size_t message_len, const uint8_t *source, size_t source_len, uint8_t *room, size_t room_len);
int32_t plain_save(const uint8_t *desk, size_t desk_len, uint8_t *room, size_t room_len);
int32_t plain_load(uint8_t *desk, size_t desk_len, const uint8_t *sheet, size_t sheet_len);
int32_t plain_screen(const uint8_t *desk, size_t desk_len, uint8_t *room, size_t room_len);
int32_t plain_phase(const uint8_t *desk, size_t desk_len);
int32_t plain_holder(const uint8_t *desk, size_t desk_len);
int32_t plain_holder_priority(const uint8_t *desk, size_t desk_len);
int32_t plain_running(const uint8_t *desk, size_t desk_len);
int32_t plain_sequence(const uint8_t *desk, size_t desk_len);
int32_t plain_c7(const uint8_t *desk, size_t desk_len);
int32_t plain_c20(const uint8_t *desk, size_t desk_len);
int32_t plain_seats(const uint8_t *desk, size_t desk_len);
int32_t plain_seat_by_ssrc(const uint8_t *desk, size_t desk_len, uint32_t ssrc);
int32_t plain_seat_by_identity(const uint8_t *desk, size_t desk_len, const uint8_t *identity, size_t identity_len);
int32_t plain_seat(const uint8_t *desk, size_t desk_len, uint32_t seat, uint8_t *room, size_t room_len);
int32_t plain_settings(const uint8_t *desk, size_t desk_len, uint8_t *room, size_t room_len);
int32_t plain_starts(uint32_t before, uint32_t after, uint32_t fired, const uint8_t *report, size_t report_len);
int32_t plain_stops(uint32_t before, uint32_t after);
int32_t plain_version(void);

/* ---- The same step on a struct that the program trusts ----
 *
 * For information, beside the bar: what a step costs where nothing of the desk is tested. The members are octets in the order of
 * docs/FORMS.md, so the struct is the desk's form itself, and a pointer to a desk's octets is a pointer to one of these. */
struct plain_desk {
    uint8_t letters[2], form, zero;
    uint8_t phase, timers, holder, given_at;
    uint8_t cause[2], sequence[2], c7, c20, waiting, zero_behind_waiting;
    uint8_t line[15], zero_behind_line, priorities[15], zero_behind_priorities;
    uint8_t taken[16], ssrc[16][4], highest[16], flags[16], zeros_behind_flags[16];
    uint8_t own_ssrc[4], level, limit, c7_limit, c20_limit, duration[2], normal, zeros[5];
    uint8_t length[16], identity[16][62];
};

struct plain_sent {
    uint8_t kind, seat, number[2], priority, zero, to[2];
};

struct plain_report {
    uint8_t struck[2], zero, placed, ended, given, how, zero_behind_how;
    struct plain_sent sent[2];
};

int32_t plain_native_packet(struct plain_desk *desk, const uint8_t *packet, size_t packet_len, struct plain_report *report);
int32_t plain_native_timer(struct plain_desk *desk, uint32_t timer, struct plain_report *report);

#ifdef __cplusplus
}
#endif

#endif
