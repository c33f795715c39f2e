/* script.h: the script protocol by which the published Rust is served too, command by command.
 *
 * One command a line, one space between words. T is a time in ms; F a float as 8 hex digits of its bits; b is 0 or 1.
 *
 *     meter F F F F F F b b WORDS    two MV_DIV, three SHUNT, the over ratio, a_auto, the valid mark; words as 8 hex
 *                                    digits each, run together, or zN for N zeros, or - for none
 *     on T | off T | method T b | coupling T 0..255 | zero T | gain T | reapply T
 *     ranges T V I                   k keeps, a is automatic, or 0..255
 *     phase | ereset | run b
 *     set b F F F F T_LIM MAIN       comp, three r_path, i_cont, t_lim, main
 *     frame T FF HEX                 flags, and bytes, or - for none
 *     dump | dump on | dump off | hash
 *     f NAME ARGUMENTS               a function by itself
 *
 * A call answers its refusal, the mark with its deadline, the count of ready frames and whether there is a reading,
 * which follows on a line of its own.
 *
 * A handler is given the words after the command's name. It writes the answer, or writes and changes
 * nothing and returns false: not understood. */
#ifndef SCRIPT_H
#define SCRIPT_H

#include "pw.h"
#include "text.h"
#include "words.h"

/* The meter in force, whether one was made, and whether each call is followed by a dump. Before one is
 * made its words are zeros with the mark off, as in the oracle. */
struct script {
    bool made;
    bool dumps;
    struct pw_meter meter;
};

/* `f NAME ARGUMENTS`: functions.c. */
bool function_line(struct script *s, const struct word *argument, size_t count, struct text *out);

/* `meter`, `dump` and `hash`: calls.c. */
bool meter_line(struct script *s, const struct word *argument, size_t count, struct text *out);
bool dump_line(struct script *s, const struct word *argument, size_t count, struct text *out);
bool hash_line(struct script *s, const struct word *argument, size_t count, struct text *out);

/* An order or a frame; its name is the first of the `count` words: calls.c. */
bool call_line(struct script *s, const struct word *words, size_t count, struct text *out);

#endif
