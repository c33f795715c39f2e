/* energy.h: the accumulator's step in whole numbers, from the bits of the rounded sum.
 *
 * No float is cut or subtracted here: the sum's significand is shifted, and what is shifted out is the
 * fraction. */
#ifndef ENERGY_H
#define ENERGY_H

#include "bits.h"

#include <math.h>
#include <stdbool.h>
#include <stdint.h>

struct step {
    bool fits;
    int64_t mj;    /* after the step; as before where it does not fit */
    float frac;    /* of the sum; 0.0 where it does not fit */
    int64_t whole; /* what is added to mj; 0 where it does not fit */
};

/* A float is significand_of * 2^exponent_of in size, but for NaNs and infinities. */
static inline uint64_t significand_of(float x)
{
    uint32_t low = bits32(x) & 0x7FFFFF;
    return (bits32(x) >> 23 & 0xFF) == 0 ? low : low | 0x800000;
}

static inline int exponent_of(float x)
{
    int biased = (int)(bits32(x) >> 23 & 0xFF);
    return (biased == 0 ? 1 : biased) - 150;
}

/* The sum x added to mj: x cut toward zero, and the rest of x. Of the significand the lowest `down` bits
 * lie below the point, which is all of its 24 bits where `down` is more; a sum of 2^64 or more in size
 * does not fit. */
static inline struct step expected_step(int64_t mj, float x)
{
    struct step none = {false, mj, 0.0f, 0};
    int up = exponent_of(x) > 0 ? exponent_of(x) : 0, down = exponent_of(x) < 0 ? -exponent_of(x) : 0;
    if (!isfinite(x) || up > 40)
        return none;
    bool minus = bits32(x) >> 31 != 0;
    uint64_t rest = significand_of(x) & (down > 24 ? UINT64_MAX : (UINT64_C(1) << down) - 1);
    __int128 size = (__int128)(significand_of(x) - rest) << up >> (down > 24 ? 0 : down);
    __int128 whole = minus ? -size : size, sum = mj + whole;
    if (whole < INT64_MIN || whole > INT64_MAX || sum < INT64_MIN || sum > INT64_MAX)
        return none;
    /* a rest of nothing is plus zero, but of minus zero itself */
    float frac = ldexpf((float)rest, -down);
    if (minus && (rest != 0 || whole == 0))
        frac = -frac;
    return (struct step){true, (int64_t)sum, frac, (int64_t)whole};
}

/* Whether whole + frac is x, with no rounding, and frac is below 1 in size. Where there is a whole
 * part, x is a multiple of 2^-23; where there is none, the fraction is x itself. */
static inline bool sums_exactly(int64_t whole, float frac, float x)
{
    if (!(frac > -1.0f && frac < 1.0f))
        return false;
    if (whole == 0)
        return bits32(frac) == bits32(x);
    double parts = ldexp((double)frac, 23), sum = ldexp((double)x, 23);
    return parts == floor(parts) && sum == floor(sum) && (__int128)whole * (1 << 23) + (__int128)parts == (__int128)sum;
}

#endif
