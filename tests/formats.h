/* formats.h: the two formats by their rule, for the tests. The products are exact in binary64 and rounded once
 * to binary32; the unit is given by its name. */
#ifndef FORMATS_H
#define FORMATS_H

#include "bits.h"

#include <stddef.h>

/* A number as it is shown. */
struct shown_as {
    float number;
    uint8_t decimals;
    const char *unit;
};

static inline float product(float a, float b)
{
    return (float)((double)a * (double)b);
}

/* One decimal less for each of 10, 100 and 1000 that the size is not below. */
static inline uint8_t decimals_for(float size)
{
    uint8_t decimals = 4;
    for (float bound = 10.0f; bound <= 1000.0f && !(size < bound); bound *= 10.0f)
        decimals--;
    return decimals;
}

/* Units with the size below which each counts, the last for all the rest. */
static inline struct shown_as energy_shown(float wh, bool va)
{
    static const struct {
        float below;
        float factor;
        const char *unit;
    } rules[2][3] = {
        {{1.0f, 1000.0f, "mWh"}, {1000.0f, 1.0f, "Wh"}, {0.0f, 0.001f, "kWh"}},
        {{0.0f, 1.0f, "VAh"}, {100000.0f, 1.0f, "VAh"}, {0.0f, 0.001f, "kVAh"}},
    };
    size_t k = 0;
    while (k < 2 && !(fabsf(wh) < rules[va][k].below))
        k++;
    float number = product(wh, rules[va][k].factor);
    return (struct shown_as){number, decimals_for(fabsf(number)), rules[va][k].unit};
}

static inline struct shown_as power_shown(float fs, float si, bool watts)
{
    if (fs >= 9000.0f)
        return (struct shown_as){product(si, 0.001f), 3, watts ? "kW" : "kVA"};
    bool milli = fs < 1.0f;
    float factor = milli ? 1000.0f : 1.0f;
    uint8_t decimals = decimals_for(product(product(fs, factor), 1.05f));
    const char *unit = milli ? (watts ? "mW" : "mVA") : watts ? "W" : "VA";
    return (struct shown_as){product(si, factor), decimals, unit};
}

/* A float at a bound of a format, times a power of ten, or one of the next three on either side. */
static inline float near_bound(uint64_t *state)
{
    static const double bounds[] = {1.0, 5.0, 9000.0, 1.0 / 1.05, 65534.5, 65535.0};
    uint64_t r = next(state);
    double x = bounds[(r & 0xFF) % 6] * pow(10.0, (double)(r >> 8 & 0xF) - 8.0);
    return float_of((bits32((float)x) + (uint32_t)((r >> 16 & 0xFF) % 7) - 3) | (uint32_t)(r >> 24 & 1) << 31);
}

#endif
