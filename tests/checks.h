/* checks.h: checks that are counted, for a test that prints their count last. */
#ifndef CHECKS_H
#define CHECKS_H

#include <inttypes.h>
#include <stdbool.h>
#include <stddef.h>
#include <stdint.h>
#include <stdio.h>

static uint64_t checks, failed;

/* One check, and whether it holds; the first ten that fail are shown. */
static inline bool expect(bool holds, const char *what)
{
    checks++;
    if (holds)
        return true;
    failed++;
    if (failed <= 10)
        printf("%s fails\n", what);
    return false;
}

/* Each case was met fifty times at the least, or a check fails. */
static inline void expect_met(const uint64_t *met, size_t cases)
{
    for (size_t k = 0; k < cases; k++)
        if (!expect(met[k] >= 50, "a case met fifty times"))
            printf("case %zu was met %" PRIu64 " times\n", k, met[k]);
}

/* The last line of a test, and its status: 1 where a check failed. */
static inline int tell_checks(const char *test)
{
    printf("%s: %" PRIu64 " checks, %" PRIu64 " failed\n", test, checks, failed);
    return failed == 0 ? 0 : 1;
}

#endif
