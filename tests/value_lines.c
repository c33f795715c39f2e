/* value_lines SEED LINES: random lines of the comparison's protocol for the formats and values of module 6. Of
 * the floats one in three is near a bound of a format, one in four has any bits or is special (floats.h), and
 * the rest are figures of a meter. The same seed gives the same lines. */
#include "floats.h"
#include "lines.h"

#include <inttypes.h>
#include <stdio.h>

static uint64_t below(uint64_t *state, uint64_t n)
{
    return next(state) % n;
}

/* A bound of the units, the decimals, the full scales, what is shown as zero or the telephone's counts, times a
 * power of ten, or one of the next three floats on either side. */
static float near_bound(uint64_t *state)
{
    static const double bounds[] = {1.0, 1.0, 5.0, 9000.0, 1.0 / 1.05, 65534.5, 65535.0, 65534.0};
    double x = bounds[below(state, 8)] * pow(10.0, (double)below(state, 17) - 9.0);
    uint32_t beside = bits32((float)x) + (uint32_t)below(state, 7) - 3;
    return float_of(beside | (uint32_t)below(state, 2) << 31);
}

/* The product of the limits of a V range and a current range. */
static float full_scale(uint64_t *state)
{
    static const float v_lim[] = {6.0f, 60.0f, 600.0f, 1000.0f};
    static const float i_lim[] = {600e-6f, 6e-3f, 0.06f, 0.6f, 6.0f, 10.0f};
    return v_lim[below(state, 4)] * i_lim[below(state, 6)];
}

/* From 2^-20 to 2^20 in size, each power of two as likely. */
static float some_power(uint64_t *state)
{
    uint64_t r = next(state);
    float x = ldexpf(1.0f + (float)(r & 0x7FFFFF) * 0x1p-23f, (int)(r >> 32 & 0x3F) % 41 - 20);
    return (r >> 40 & 1) != 0 ? -x : x;
}

static void put_float(float x)
{
    printf(" %08" PRIx32, bits32(x));
}

static void put_some(uint64_t *state)
{
    switch (below(state, 12)) {
    case 0:
    case 1:
    case 2:
    case 3:
        put_float(near_bound(state));
        break;
    case 4:
    case 5:
    case 6:
        put_float(some_float(state, 8));
        break;
    default:
        put_float(some_power(state));
    }
}

/* A number below `most` as a rule, else any byte. */
static unsigned some_byte(uint64_t *state, uint64_t most)
{
    return (unsigned)below(state, below(state, 8) == 0 ? 256 : most);
}

/* V_OL, I_OL and ALT: seldom over. */
static void put_marks(uint64_t *state)
{
    printf(" %d %d %d", below(state, 10) == 0, below(state, 10) == 0, below(state, 3) == 0);
}

static void put_vals(uint64_t *state)
{
    printf("f vals %u %u", some_byte(state, 4), some_byte(state, 6));
    put_marks(state);
    printf(" %u", some_byte(state, 4));
    for (int k = 0; k < 6; k++)
        put_some(state);
}

static void put_line(uint64_t *state)
{
    switch (below(state, 16)) {
    case 0:
    case 1:
    case 2:
        printf("f energy_format");
        put_some(state);
        printf(" %d", below(state, 2) == 0);
        break;
    case 3:
    case 4:
    case 5:
        printf("f p_format");
        if (below(state, 3) == 0)
            put_float(full_scale(state));
        else
            put_some(state);
        put_some(state);
        printf(" %d", below(state, 2) == 0);
        break;
    case 6:
    case 7:
    case 8:
        printf("f no_neg_zero");
        put_some(state);
        printf(" %u", some_byte(state, 10));
        break;
    case 9:
        if (below(state, 64) == 0)
            printf("f zero");
        else
            printf("f bt_mode %d %u", below(state, 2) == 0, some_byte(state, 6));
        break;
    default:
        put_vals(state);
    }
    putchar('\n');
}

int main(int argc, char **argv)
{
    return put_lines(argc, argv, put_line);
}
