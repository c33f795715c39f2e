/* speed.h: frames through the C interface, for measuring; host/speed/src/main.rs declares the same. */
#ifndef SPEED_H
#define SPEED_H

#include "pw.h"

#include <stdbool.h>
#include <stddef.h>
#include <stdint.h>

/* A kind of frame that is measured, and the meter that takes it. */
struct speed_kind {
    const char *name;
    uint8_t coupling; /* the order's number */
    bool alt;
    uint8_t job;      /* PW_JOB_NONE, or the job that is started again whenever it has ended */
    uint8_t refusal;  /* how every frame is refused, or PW_DONE */
};

struct speed_frame {
    uint64_t time;
    uint8_t flags;
    uint8_t length;
    uint8_t bytes[14];
};

/* What a run comes to: the same on both sides, or they are not the same work. */
struct speed_figures {
    int64_t e;
    int64_t va;
    uint64_t t_int;
    uint64_t readings;
    uint64_t refused;
    uint64_t used; /* the sum of the answers' counts */
};

size_t speed_kinds(void);
const struct speed_kind *speed_kind(size_t k);

/* The frames of a kind, in which every result is new. */
void speed_make_frames(size_t k, struct speed_frame *frames, size_t count);

/* A fresh meter for frames of the kind. */
void speed_start(size_t k);

/* The frames through that meter, whose value is kept after each. */
void speed_frames(const struct speed_frame *frames, size_t count);

struct speed_figures speed_figures(void);

/* That meter as it is now; and a call that takes a meter and answers it, as pw_frame does, and else does
 * nothing but set the time. */
struct pw_meter speed_meter(void);
struct pw_step speed_same(struct pw_meter meter, uint64_t time);

#endif
