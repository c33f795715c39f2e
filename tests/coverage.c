/* coverage QUESTIONS COUNTS: what the calls of QUESTIONS met, counted in the published Rust's answers to them
 * (pworacle --dump, on standard input), added to the file COUNTS as lines `NUMBER WHAT`. Its answers go to
 * standard output without the dumps, so that they can be compared.
 *
 * It knows the meter by the dump after the call before, and one just made by document 01: not on, simultaneous,
 * coupling not in force, no job, no phase calibration. */
#define _POSIX_C_SOURCE 200809L
#include <inttypes.h>
#include <stdbool.h>
#include <stdio.h>
#include <stdlib.h>
#include <string.h>

enum { FRAME, METER, METHOD, ZERO, GAIN, PHASE, ON, OFF, RANGES, COUPLING, ERESET, RUN, SET, REAPPLY, KINDS };
static const char *const kinds[KINDS] = {
    "frame", "meter", "method", "zero", "gain", "phase", "on", "off", "ranges", "coupling", "ereset", "run", "set", "reapply",
};

enum { REFUSALS = 9, RESULTS = 10, CAL_RESULTS = 6, PATHS = 4, PLACES = 3 };
static const char *const results[RESULTS] = {
    "NONE", "RUN", "OK", "SIGNAL", "SMALL", "BIG", "UNSTABLE", "RANGE", "ABORT", "METHOD",
};
static const char *const cal_results[CAL_RESULTS] = {"NONE", "RUN", "OK", "FLAT", "NOT_REACTIVE", "RANGE"};
static const char *const paths[PATHS] = {"B", "alternating", "DC", "job"};
static const char *const places[PLACES] = {"off", "on", "job"};

static struct {
    uint64_t refused[KINDS][REFUSALS];
    uint64_t marked[KINDS];
    uint64_t taken[PATHS];
    uint64_t ended[3][RESULTS];
    uint64_t calibrated[CAL_RESULTS];
    uint64_t set[PLACES];
} met;

/* What a dump says of a meter. */
struct seen {
    unsigned on;
    unsigned alt;
    unsigned dc;
    unsigned job;
    unsigned job_res;
    unsigned cal;
    unsigned cal_res;
};

/* The call that the last answer was to. */
static struct {
    unsigned kind;
    unsigned refusal;
    bool reading;
} call;
static struct seen before, after;

static void give_up(const char *why, const char *line)
{
    fprintf(stderr, "coverage: %s: %s", why, line);
    exit(1);
}

/* The number behind the key, which has a space before it; below `end`. */
static unsigned value(const char *line, const char *key, unsigned end)
{
    const char *at = strstr(line, key);
    unsigned long number = at == NULL ? end : strtoul(at + strlen(key), NULL, 10);
    if (number >= end)
        give_up(key, line);
    return (unsigned)number;
}

/* The kind of the next question; KINDS where it is no call. */
static unsigned next_kind(FILE *questions)
{
    static char *line;
    static size_t room;
    if (getline(&line, &room, questions) < 0)
        give_up("more answers than questions", "\n");
    for (unsigned k = 0; k < KINDS; k++) {
        size_t length = strlen(kinds[k]);
        if (strncmp(line, kinds[k], length) == 0 && (line[length] == ' ' || line[length] == '\n'))
            return k;
    }
    return KINDS;
}

/* An answer: to a call `REFUSAL mark=.. used=N reading=..`, or `?` before a meter is made; else to `hash`. */
static void take_answer(const char *line, FILE *questions)
{
    unsigned kind = next_kind(questions);
    bool digit = line[0] >= '0' && line[0] <= '9';
    if (digit != (kind < KINDS) && line[0] != '?')
        give_up("not the answer to its question", line);
    if (!digit)
        return;
    call.kind = kind;
    call.refusal = (unsigned)(line[0] - '0');
    if (call.refusal >= REFUSALS)
        give_up("no such refusal", line);
    call.reading = strstr(line, " reading=1") != NULL;
    met.refused[call.kind][call.refusal]++;
    met.marked[call.kind] += strstr(line, " mark=-") == NULL ? 1 : 0;
    before = after;
    if (call.kind == METER && call.refusal == 0)
        after = (struct seen){0, 0, 0, 0, 0, 0, 0};
}

/* The dump after a call is complete. */
static void take_dump(void)
{
    bool done = call.refusal == 0, starts = call.kind == ZERO || call.kind == GAIN;
    if (done && call.kind == FRAME && before.job != 0)
        met.taken[3]++;
    else if (call.reading)
        met.taken[before.dc ? 2 : before.alt ? 1 : 0]++;
    if (before.job != 0 && after.job == 0)
        met.ended[before.job][after.job_res]++;
    if (call.refusal == 3 && starts)
        met.ended[call.kind == ZERO ? 1 : 2][after.job_res]++;
    if (before.cal != 0 && after.cal == 0 && call.kind == FRAME)
        met.calibrated[after.cal_res]++;
    if (call.kind == SET)
        met.set[before.job != 0 ? 2 : before.on]++;
}

/* A line of a dump; the meter is known whole at its last one. */
static void take_state(const char *line)
{
    if (strncmp(line, "D1 ", 3) == 0) {
        after.on = value(line, "D1 on=", 2);
        after.alt = value(line, " alt=", 2);
        after.dc = value(line, " dc=", 2);
    } else if (strncmp(line, "D4 ", 3) == 0) {
        after.cal = value(line, " cal=", 3);
        after.cal_res = value(line, " cal_res=", CAL_RESULTS);
    } else if (strncmp(line, "D5 ", 3) == 0) {
        after.job = value(line, "D5 job=", 3);
        after.job_res = value(line, " job_res=", RESULTS);
    } else if (strncmp(line, "D11 ", 4) == 0) {
        take_dump();
    }
}

static void put(FILE *counts, uint64_t number, const char *what, const char *of, const char *by)
{
    if (number > 0)
        fprintf(counts, "%" PRIu64 " %s %s%s%s\n", number, what, of, by[0] == '\0' ? "" : " ", by);
}

static void put_counts(FILE *counts)
{
    for (unsigned k = 0; k < KINDS; k++) {
        for (unsigned r = 0; r < REFUSALS; r++)
            put(counts, met.refused[k][r], "refusal", (char[]){(char)('0' + r), '\0'}, kinds[k]);
        put(counts, met.marked[k], "mark", kinds[k], "");
    }
    for (unsigned k = 0; k < PATHS; k++)
        put(counts, met.taken[k], "path", paths[k], "");
    for (unsigned k = 0; k < RESULTS; k++) {
        put(counts, met.ended[1][k], "end", "zero", results[k]);
        put(counts, met.ended[2][k], "end", "gain", results[k]);
    }
    for (unsigned k = 0; k < CAL_RESULTS; k++)
        put(counts, met.calibrated[k], "phase", cal_results[k], "");
    for (unsigned k = 0; k < PLACES; k++)
        put(counts, met.set[k], "set", places[k], "");
}

int main(int argc, char **argv)
{
    FILE *questions = argc == 3 ? fopen(argv[1], "r") : NULL, *counts = argc == 3 ? fopen(argv[2], "a") : NULL;
    if (questions == NULL || counts == NULL)
        return 2;
    char *line = NULL;
    size_t room = 0;
    ssize_t length;
    while ((length = getline(&line, &room, stdin)) >= 0) {
        if (line[0] == 'D') {
            take_state(line);
            continue;
        }
        if (line[0] == '#')
            continue;
        if (line[0] != 'R')
            take_answer(line, questions);
        fwrite(line, 1, (size_t)length, stdout);
    }
    free(line);
    put_counts(counts);
    return fclose(counts) == 0 && fflush(stdout) == 0 ? 0 : 1;
}
