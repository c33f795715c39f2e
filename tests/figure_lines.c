/* figure_lines SEED LINES: random lines of the comparison's protocol for the functions of module 3 and for the
 * outcome of a phase calibration. One time in four a float is one at which a rule changes, infinities and NaN
 * among them, and one time in four it has any bits; of the outcome's every second one is at or near a bound. The
 * same seed gives the same lines. */
#include "floats.h"
#include "lines.h"

#include <inttypes.h>
#include <stdio.h>

static void put_floats(uint64_t *state, int count, int high)
{
    for (int k = 0; k < count; k++)
        printf(" %08" PRIx32, bits32(some_float(state, high)));
}

/* Any 64 bits, an end of the range or close to it, or a count that a meter has. */
static int64_t some_count(uint64_t *state)
{
    uint64_t r = next(state);
    uint64_t near = r >> 4 & 0xFFFF;
    switch (r & 3) {
    case 0:
        return (int64_t)next(state);
    case 1:
        return INT64_MAX - (int64_t)near;
    case 2:
        return INT64_MIN + (int64_t)near;
    default:
        return (int64_t)(next(state) >> 30) - (INT64_C(1) << 33);
    }
}

/* Steps of a phase calibration: a half, at which the whole steps change, or 127.49, or one of the next three
 * floats on either side; a step of the span; or any float. */
static float some_steps(uint64_t *state)
{
    uint64_t r = next(state);
    uint32_t sign = (uint32_t)(r >> 8 & 1) << 31, beside = (uint32_t)(r >> 16 & 0xFF) % 7 - 3;
    switch (r & 7) {
    case 0:
    case 1:
    case 2:
        return float_of((bits32((float)(r >> 24 & 0x7F) + 0.5f) + beside) | sign);
    case 3:
        return float_of((bits32(127.49f) + beside) | sign);
    case 4:
    case 5:
        return ((float)(r >> 32) * 0x1p-31f - 1.0f) * 130.0f;
    default:
        return some_float(state, 8);
    }
}

static void put_line(uint64_t *state)
{
    switch (next(state) % 6) {
    case 0:
        printf("f totals");
        put_floats(state, 6, 8);
        break;
    case 1:
        printf("f ema");
        put_floats(state, 4, 4);
        break;
    case 2:
        printf("f ema_rel");
        put_floats(state, 4, 4);
        break;
    case 3:
        printf("f acc %" PRId64, some_count(state));
        put_floats(state, 1, 0);
        put_floats(state, 1, 16);
        break;
    case 4:
        printf("f acc_wh %" PRId64, some_count(state));
        put_floats(state, 1, 0);
        break;
    default:
        printf("f cal_outcome %08" PRIx32, bits32(some_steps(state)));
    }
    putchar('\n');
}

int main(int argc, char **argv)
{
    return put_lines(argc, argv, put_line);
}
