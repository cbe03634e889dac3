/* What a program says of its own use: --help or -h alone gets all of it, with status 0; an option that it does not know, or a word too many,
 * gets its first line on standard error, with status 2. */
#ifndef USAGE_H
#define USAGE_H

#include <stdio.h>
#include <string.h>

/* The exit status, or -1 where the program is called as it should be: with at most so many words, none an option. */
static inline int told_usage(int argc, char **argv, int most, const char *usage, const char *help)
{
    if (argc == 2 && (strcmp(argv[1], "--help") == 0 || strcmp(argv[1], "-h") == 0)) {
        printf("%s%s", usage, help);
        return fflush(stdout) == 0 ? 0 : 1;
    }
    if (argc - 1 > most || (argc == 2 && argv[1][0] == '-')) {
        fputs(usage, stderr);
        return 2;
    }
    return -1;
}

#endif
