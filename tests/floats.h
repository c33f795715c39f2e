/* floats.h: floats to try the figures at. */
#ifndef FLOATS_H
#define FLOATS_H

#include "bits.h"

#include <math.h>

/* Floats at which a rule of this part changes: among them 0.001, 0.05, 1, 1000, 2^24, 2^63 / 1000, 2^63,
 * 2^64, whose square is too large, and their neighbours. */
static const uint32_t special[] = {
    0x00000000, 0x00000001, 0x007FFFFF, 0x00800000, 0x0A000000, 0x1F800000, 0x3A800000, 0x3A83126E, 0x3A83126F,
    0x3D4CCCCC, 0x3D4CCCCD, 0x3F000000, 0x3F7FFFFF, 0x3F800000, 0x3F800001, 0x40000000, 0x447A0000, 0x4AFFFFFF,
    0x4B7FFFFF, 0x4B800000, 0x4B800001, 0x5A03126E, 0x5A03126F, 0x5A031270, 0x5EFFFFFF, 0x5F000000, 0x5F000001,
    0x5F7FFFFF, 0x5F800000, 0x7A83126F, 0x7F7FFFFF, 0x7F800000, 0x7F800001, 0x7FC00000,
};
enum { SPECIAL = sizeof special / sizeof special[0] };

static inline float some_special(uint64_t r)
{
    return float_of(special[(r & 0xFFFF) % SPECIAL] | (uint32_t)(r >> 16 & 1) << 31);
}

/* From -2^high to 2^high, of a size that a meter has. */
static inline float some_figure(uint64_t r, int high)
{
    return ldexpf((float)(int32_t)(uint32_t)r, high - 31 - (int)(r >> 32 & 0xF));
}

/* One of these in a quarter of the cases, any bits in another, else a figure. */
static inline float some_float(uint64_t *state, int high)
{
    uint64_t r = next(state);
    return r >> 62 == 0 ? some_special(r) : r >> 62 == 1 ? float_of((uint32_t)r) : some_figure(r, high);
}

#endif
