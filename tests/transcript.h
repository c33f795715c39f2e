/* transcript.h: a transcript of calls to the published Rust's meter.
 *
 * Each call stands behind `> `, as in a script. The answer follows, and lines that begin with `D`
 * and have words KEY=VALUE of the dump after the call, at least those that are not as in the dump
 * before. KEY.N=VALUE gives the values from index N on. D8 to D11 have lines of their own, alike; a
 * D8 that has no values says `none`, and D9 is as D8 where that has values and no line D9 follows.
 * Comments, and the line R of a reading, are passed over. */
#ifndef TRANSCRIPT_H
#define TRANSCRIPT_H

#include "leaves.h"
#include "shown.h"
#include "words.h"

#include <stdio.h>

enum { CALL_WORDS = 10 };

/* A call, its answer, the meter before and after it, and what was read off it after it. Where
 * nothing is measured the values are those that were last. */
struct call {
    size_t line; /* the number of its line */
    char *text;
    struct word words[CALL_WORDS];
    size_t count;
    uint8_t refusal;
    struct pw_stamp mark;
    uint8_t used;
    bool reading;
    struct pw_meter before;
    struct pw_meter after;
    struct pw_vals vals;
    struct pw_power_vals state;
    struct shown shown;
};

/* The next call; false at the end. A line that is not understood ends the program with status 1,
 * and so does a meter made before each field was dumped. `c` is all zeros before the first. */
bool next_call(FILE *in, struct call *c);

/* The time of a call that carries one. Other calls end the program with status 1. */
uint64_t time_of(const struct call *c);

/* A frame: its time, its flags, and its codes, decoded here by document 01. */
struct frame {
    uint64_t now;
    uint8_t flags;
    int32_t ad1;
    int32_t lpf;
    int64_t rms;
};

/* The frame of a call by which one was accepted. Other calls end the program with status 1. */
struct frame frame_of(const struct call *c);

/* Ends the program with status 1, and says why. */
_Noreturn void stop_at(size_t line, const char *why);

#endif
