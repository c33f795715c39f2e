/* replay.h: a recorded day through a meter, and what is noted of it for the licence sheet. */
#ifndef REPLAY_H
#define REPLAY_H

#include "pw.h"
#include "recording.h"

#include <stdbool.h>
#include <stddef.h>
#include <stdint.h>

/* A job that was started, or that was turned away for the method. */
struct job_note {
    uint8_t kind;     /* PW_JOB_ZERO or PW_JOB_GAIN */
    uint64_t start;   /* the time of its start */
    uint64_t last;    /* the time of its latest call */
    uint8_t result;   /* PW_JR_RUN while it runs */
    uint8_t used;     /* the ready frames that it has used */
};

enum { REFUSALS = PW_WORDS + 1 };

/* The meter, and what was met on the way. Times are as the calls gave them. */
struct replay {
    struct pw_meter meter;
    bool made;
    size_t calls;
    size_t frames;   /* of the calls, refused ones too */
    size_t readings;
    size_t refused[REFUSALS];    /* by number */
    size_t first_line[REFUSALS]; /* where each was met first */
    size_t marks;
    uint64_t deadline;    /* the latest mark's */
    size_t early;         /* frames taken before the deadline in force */
    size_t reapplies;     /* accepted re-applies */
    size_t not_reapplied; /* frames taken while the meter asked for a re-apply and no job ran */
    size_t clock_back;    /* accepted calls with a smaller time than the one before */
    bool timed;           /* whether an accepted call had a time: its first and latest */
    uint64_t first_time;
    uint64_t latest_time;
    uint64_t alternating; /* ms counted in the alternating method, which counts no energy */
    float watts;          /* the latest reading's power; apparent power in the alternating method */
    struct job_note *jobs;
    size_t job_count;
};

/* Replays the whole recording on a meter that it makes. `progress` is called after every frame, NULL for
 * none. False where a line is not understood, is out of place, or the meter is refused; then a message is on
 * standard error. */
bool replay_run(struct replay *p, struct recording *r, void (*progress)(const struct replay *, double part));

void replay_free(struct replay *p);

#endif
