/* Lets a program that is written for libfloor.a run on plain.c instead: compile it with -include bench/as_plain.h. Where plain.h is included
 * too, the compiler holds its prototypes to those of floor.h. A struct or an enum that has the name of a function is renamed along with it. */
#ifndef AS_PLAIN_H
#define AS_PLAIN_H

#define floor_make plain_make
#define floor_join plain_join
#define floor_leave plain_leave
#define floor_start plain_start
#define floor_stop plain_stop
#define floor_packet plain_packet
#define floor_media plain_media
#define floor_timer plain_timer
#define floor_message plain_message
#define floor_read plain_read
#define floor_write plain_write
#define floor_save plain_save
#define floor_load plain_load
#define floor_screen plain_screen
#define floor_phase plain_phase
#define floor_holder plain_holder
#define floor_holder_priority plain_holder_priority
#define floor_running plain_running
#define floor_sequence plain_sequence
#define floor_c7 plain_c7
#define floor_c20 plain_c20
#define floor_seats plain_seats
#define floor_seat_by_ssrc plain_seat_by_ssrc
#define floor_seat_by_identity plain_seat_by_identity
#define floor_seat plain_seat
#define floor_settings plain_settings
#define floor_starts plain_starts
#define floor_stops plain_stops
#define floor_version plain_version

#endif
