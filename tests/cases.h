/* cases.h: how often each case of a comparison was met. */
#ifndef CASES_H
#define CASES_H

#include <inttypes.h>
#include <stdbool.h>
#include <stddef.h>
#include <stdint.h>
#include <stdio.h>

/* Prints how often each was met; whether it was `least` times or more for each of them. */
static inline bool put_cases(const char *const *cases, const uint64_t *met, size_t count, uint64_t least)
{
    bool enough = true;
    for (size_t k = 0; k < count; k++)
        printf("%s%s %" PRIu64, k == 0 ? "met: " : ", ", cases[k], met[k]);
    putchar('\n');
    for (size_t k = 0; k < count; k++)
        if (met[k] < least) {
            printf("%s was met %" PRIu64 " times\n", cases[k], met[k]);
            enough = false;
        }
    return enough;
}

#endif
