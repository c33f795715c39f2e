/* lines.h: the main part of a program that writes random lines. */
#ifndef LINES_H
#define LINES_H

#include <stdint.h>
#include <stdio.h>
#include <stdlib.h>

/* The arguments are SEED and LINES: so many calls of put_line, each with the state that the last one left.
 * The status is 2 for other arguments, and 1 where not all could be written. */
static inline int put_lines(int argc, char **argv, void (*put_line)(uint64_t *state))
{
    if (argc != 3)
        return 2;
    uint64_t state = strtoull(argv[1], NULL, 10);
    uint64_t lines = strtoull(argv[2], NULL, 10);
    for (uint64_t k = 0; k < lines; k++)
        put_line(&state);
    return fflush(stdout) == 0 ? 0 : 1;
}

#endif
