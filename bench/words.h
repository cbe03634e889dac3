/* Lines of a script in words, as second/FORMAT.md has them: each is turned into the line in figures that is answered alike. */
#ifndef WORDS_H
#define WORDS_H

#include <floor.h>

/* Room for the longest line in figures that a line in words can be turned into: a join, its identity in hexadecimal. */
#define WORDS_ROOM 192

/* What to play for a line of a script that is no comment.
 *
 * Takes    desk  a desk, or NULL if there is none yet
 *          line  the line, a zero behind it
 *          room  for a line in figures, WORDS_ROOM characters
 * Answers  line  it is not in words: it is played as it stands, and what is wrong with it is said there
 *          room  it is in words, and the line in figures is there, a zero behind it
 *          NULL  it is in words and malformed; *why is the reason, for people
 * Leaves   desk and line. */
char *words_in_figures(const struct floor_desk *desk, char *line, char *room, const char **why);

#endif
