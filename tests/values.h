/* values.h: what pw_vals, pw_state and the functions that show their values make of the meter
 * after each call of a transcript (transcript.h), beside what the published Rust read off it. */
#ifndef VALUES_H
#define VALUES_H

#include "transcript.h"

/* How many values differ. They are shown with `what`, as many as `most`. */
size_t check_values(const struct call *c, const char *what, size_t most);

/* Prints how often each case was met; whether it was `least` times or more for each of them. */
bool put_value_cases(uint64_t least);

#endif
