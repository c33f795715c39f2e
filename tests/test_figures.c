/* test_figures: totals, smoothing, the accumulator and the accounting step, against document 01's rules
 * and the C compiler's arithmetic, which is IEEE 754's here.
 *
 * As in test_leaves.c, what the compiler's back end made is run: on figures known by hand, on special
 * floats and on random ones, always the same. The root is leaf_sqrt itself, which is not the C library's.
 * The accumulator is compared with whole numbers (energy.h). The last line counts the checks, and the
 * status is 1 where one failed. */
#include "bits.h"
#include "energy.h"
#include "floats.h"
#include "leaves.h"
#include "pw.h"

#include <float.h>
#include <inttypes.h>
#include <math.h>
#include <stddef.h>
#include <stdio.h>

_Static_assert(sizeof(struct pw_figures) == 24, "leaf_figures");
_Static_assert(sizeof(struct pw_acc) == 16 && offsetof(struct pw_acc, frac) == 8, "leaf_acc");
_Static_assert(sizeof(struct leaf_added) == 32 && offsetof(struct leaf_added, whole) == 24, "leaf_added");
_Static_assert(sizeof(struct pw_tally) == 40 && offsetof(struct pw_tally, t_int) == 32, "leaf_tally");
_Static_assert(sizeof(struct leaf_accounted) == 56 && offsetof(struct leaf_accounted, whole) == 48, "leaf_accounted");
_Static_assert(FLT_EVAL_METHOD == 0, "each operation is rounded to its type");

static uint64_t checks, failed;

/* One check; the first ten that fail are shown with the four numbers of their input. */
static void expect(bool holds, const char *what, const uint64_t input[4])
{
    checks++;
    if (holds)
        return;
    failed++;
    if (failed <= 10)
        printf("%s fails at %" PRIx64 " %" PRIx64 " %" PRIx64 " %" PRIx64 "\n", what, input[0], input[1], input[2],
               input[3]);
}

/* ---- totals ---- */

static bool same_figures(struct pw_figures a, struct pw_figures b)
{
    return same32(a.p, b.p) && same32(a.s, b.s) && same32(a.q, b.q) && same32(a.pf, b.pf) && same32(a.v, b.v)
           && same32(a.i, b.i);
}

/* Nothing below zero, and no NaN. */
static float root(float x)
{
    return x > 0.0f ? leaf_sqrt(x) : 0.0f;
}

/* Each operation is a statement of its own, in the source's order. */
static struct pw_figures expected_totals(const float part[6])
{
    struct pw_figures t;
    float direct = part[2] * part[4], measured = part[0] + direct, r = part[5];
    float v = leaf_hypot(part[1], part[2]);
    t.i = leaf_hypot(part[3], part[4]);
    float burden = t.i * t.i;
    burden = burden * r;
    t.p = measured - burden;
    float twice = 2.0f * r;
    twice = twice * measured;
    float square = r * r;
    square = square * t.i;
    square = square * t.i;
    float v2 = v * v;
    v2 = v2 - twice;
    v2 = v2 + square;
    t.v = root(v2);
    t.s = t.v * t.i;
    t.pf = 0.0f;
    if (t.s > 0.0f) {
        float factor = t.p / t.s;
        t.pf = factor < -1.0f ? -1.0f : factor > 1.0f ? 1.0f : factor;
    }
    float s2 = t.s * t.s, p2 = t.p * t.p;
    t.q = root(s2 - p2);
    return t;
}

static void check_totals(const float part[6])
{
    uint64_t input[4] = {bits32(part[0]), (uint64_t)bits32(part[1]) << 32 | bits32(part[2]),
                         (uint64_t)bits32(part[3]) << 32 | bits32(part[4]), bits32(part[5])};
    struct pw_figures got = leaf_totals(part[0], part[1], part[2], part[3], part[4], part[5]);
    expect(same_figures(got, expected_totals(part)), "totals", input);
}

/* Worked out by hand; every root in them is exact. */
static void check_totals_rows(void)
{
    static const struct {
        float part[6];
        struct pw_figures figures;
    } rows[] = {
        {{3, 5, 0, 1, 0, 0}, {3, 5, 4, 0.6f, 5, 1}},
        {{-3, 5, 0, 1, 0, 0}, {-3, 5, 4, -0.6f, 5, 1}},
        {{6, 3, 4, 0, 2, 0}, {14, 10, 0, 1, 5, 2}},
        {{6, 3, 4, 0, 2, 1}, {10, 2, 0, 1, 1, 2}},
        {{-6, 3, 4, 0, -2, 0}, {-14, 10, 0, -1, 5, 2}},
        {{0, 8, 0, 3, 0, 2}, {-18, 30, 24, -0.6f, 10, 3}},
        {{100, 3, 4, 3, 4, 1}, {91, 0, 0, 0, 0, 5}},
        {{0, 0, 0, 0, 0, 0}, {0, 0, 0, 0, 0, 0}},
        {{7, 0, 0, 3, 4, 0}, {7, 0, 0, 0, 0, 5}},
    };
    for (size_t k = 0; k < sizeof rows / sizeof rows[0]; k++) {
        const float *part = rows[k].part;
        struct pw_figures got = leaf_totals(part[0], part[1], part[2], part[3], part[4], part[5]);
        expect(same_figures(got, rows[k].figures), "a row of totals", (uint64_t[4]){k, 0, 0, 0});
    }
}

static void check_all_totals(uint64_t *state)
{
    check_totals_rows();
    for (uint64_t n = 0; n < 2000000; n++) {
        float part[6];
        /* in turn: figures with a small resistance, mostly figures, anything */
        for (int k = 0; k < 6; k++)
            part[k] = n % 3 == 0 ? some_figure(next(state), k == 5 ? 0 : 10)
                      : n % 3 == 1 && next(state) % 6 != 0 ? some_figure(next(state), 10)
                                                           : some_float(state, 20);
        check_totals(part);
    }
}

/* ---- smoothing ---- */

static float expected_ema(float win, float a, float x, float y)
{
    float d = x - y, size = d < 0.0f ? -d : d;
    if (size > win)
        return x;
    float move = a * d;
    return y + move;
}

/* Document 01's `max`: a NaN does not count beside a number. */
static float expected_ema_rel(float a, float floor, float x, float y)
{
    float most = fabsf(x);
    most = isnan(most) || fabsf(y) > most ? fabsf(y) : most;
    most = isnan(most) || floor > most ? floor : most;
    return expected_ema(0.05f * most, a, x, y);
}

static void check_ema(float win, float a, float x, float y)
{
    expect(same32(leaf_ema(win, a, x, y), expected_ema(win, a, x, y)), "ema",
           (uint64_t[4]){bits32(win), bits32(a), bits32(x), bits32(y)});
}

static void check_ema_rel(float a, float floor, float x, float y)
{
    expect(same32(leaf_ema_rel(a, floor, x, y), expected_ema_rel(a, floor, x, y)), "ema_rel",
           (uint64_t[4]){bits32(a), bits32(floor), bits32(x), bits32(y)});
}

/* win, a, x, y, and what y becomes. A distance that is the window, or is rounded to it, does not jump; one
 * step more does. */
static const float ema_rows[][5] = {
    {1.0f, 0.5f, 3.0f, 2.0f, 2.5f},
    {1.0f, 0.5f, 0x1.800002p1f, 2.0f, 0x1.800002p1f},
    {1.0f, 0.5f, 0x1.7ffffcp1f, 2.0f, 0x1.3ffffep1f},
    {1.0f, 0.25f, 1.0f, 2.0f, 1.75f},
    {1.0f, 0.25f, 0x1.fffffep-1f, 2.0f, 1.75f},
    {1.0f, 0.25f, 0x1.fffffcp-1f, 2.0f, 0x1.fffffcp-1f},
    {0.0f, 0.5f, 2.0f, 2.0f, 2.0f},
    {0.0f, 0.5f, -0.0f, 0.0f, 0.0f},
    {-1.0f, 0.5f, -0.0f, 0.0f, -0.0f},
    {NAN, 0.5f, 100.0f, 0.0f, 50.0f},
    {INFINITY, 0.5f, 100.0f, 0.0f, 50.0f},
    {1.0f, 0.5f, INFINITY, 0.0f, INFINITY},
    {1.0f, 0.5f, NAN, 0.0f, NAN},
    {1.0f, 0.5f, 0.0f, NAN, NAN},
};

/* a, floor, x, y, and what y becomes. The window of 20 is 1. */
static const float ema_rel_rows[][5] = {
    {0.5f, 20.0f, 3.0f, 2.0f, 2.5f},
    {0.5f, 20.0f, 0x1.800002p1f, 2.0f, 0x1.800002p1f},
    {0.5f, 0.0f, 20.0f, 19.0f, 19.5f},
    {0.5f, 0.0f, 20.0f, 0x1.2ffffep4f, 20.0f},
    {0.5f, 0.0f, -19.0f, -20.0f, -19.5f},
    {0.5f, 0.0f, -0x1.2ffffep4f, -20.0f, -0x1.2ffffep4f},
    {0.5f, -100.0f, 2.0f, 1.0f, 2.0f},
    {0.5f, NAN, 20.0f, 19.0f, 19.5f},
    {0.5f, INFINITY, 100.0f, 0.0f, 50.0f},
    {0.5f, 40.0f, 2.0f, NAN, NAN},
};

static void check_ema_rows(void)
{
    for (size_t k = 0; k < sizeof ema_rows / sizeof ema_rows[0]; k++) {
        const float *row = ema_rows[k];
        expect(same32(leaf_ema(row[0], row[1], row[2], row[3]), row[4]), "a row of ema", (uint64_t[4]){k, 0, 0, 0});
    }
    for (size_t k = 0; k < sizeof ema_rel_rows / sizeof ema_rel_rows[0]; k++) {
        const float *row = ema_rel_rows[k];
        expect(same32(leaf_ema_rel(row[0], row[1], row[2], row[3]), row[4]), "a row of ema_rel",
               (uint64_t[4]){k, 0, 0, 0});
    }
}

/* x moved by up to two places among the floats. */
static float beside(float x, uint64_t r)
{
    return float_of(bits32(x) + (uint32_t)(r % 5) - 2);
}

/* Any four; then x at the end of the window around y, or up to two floats beside it. */
static void check_all_ema(uint64_t *state)
{
    check_ema_rows();
    for (int n = 0; n < 3000000; n++) {
        float a = some_float(state, 1), win = some_float(state, 10);
        float x = some_float(state, 10), y = some_float(state, 10);
        check_ema(win, a, x, y);
        check_ema_rel(a, win, x, y);
        a = (float)(next(state) & 0xFF) * 0x1p-8f;
        y = (float)(int)(next(state) % 40001) * 0.1f - 2000.0f;
        win = (float)(next(state) & 0xFFF) * 0.25f;
        check_ema(win, a, beside(next(state) & 1 ? y + win : y - win, next(state)), y);
        check_ema_rel(a, win, beside(next(state) & 1 ? y + 0.05f * win : y - 0.05f * win, next(state)), y);
        check_ema_rel(a, win, beside(next(state) & 1 ? y * 0.95f : y / 0.95f, next(state)), y);
    }
}

/* ---- the accumulator ---- */

static bool same_acc(struct pw_acc got, int64_t mj, float frac)
{
    return got.mj == mj && same32(got.frac, frac);
}

/* What was got of the record a by adding, where the rounded sum is x. */
static void check_added(const char *what, struct leaf_added got, struct pw_acc a, float added, float x)
{
    uint64_t input[4] = {(uint64_t)a.mj, bits32(a.frac), bits32(added), bits32(x)};
    struct step step = expected_step(a.mj, x);
    if (step.fits) {
        expect(got.refusal == 0 && same_acc(got.acc, step.mj, step.frac) && got.whole == step.whole, what, input);
        expect(sums_exactly(got.whole, got.acc.frac, x), "the exact sum", input);
        expect((__int128)got.acc.mj - a.mj == got.whole, "the whole part", input);
    } else {
        expect(got.refusal == 6 && same_acc(got.acc, a.mj, a.frac) && got.whole == 0, "full", input);
    }
}

static void check_acc(struct pw_acc a, float added)
{
    float millijoules = added * 1000.0f;
    check_added("acc_step", leaf_acc_step(a, added), a, added, a.frac + added);
    check_added("add_to", leaf_add_to(a, added), a, added, a.frac + millijoules);
}

/* A count at an end, near nothing or of any length, or one that the sum x brings to an end or beside it. */
static int64_t some_count(uint64_t *state, float x)
{
    uint64_t r = next(state);
    int64_t near = (int64_t)(r >> 8 & 7) - 3;
    switch (r % 6) {
    case 0:
        return INT64_MAX - (near < 0 ? 0 : near);
    case 1:
        return INT64_MIN + (near < 0 ? 0 : near);
    case 2:
        return (int64_t)(next(state) >> 1 >> r % 64) * (r & 64 ? 1 : -1);
    case 3:
        return near;
    default:
        break;
    }
    if (!(x >= -0x1p63f && x < 0x1p63f))
        return 0;
    __int128 count = (x < 0.0f ? (__int128)INT64_MIN : (__int128)INT64_MAX) - (int64_t)x + near;
    return count > INT64_MAX ? INT64_MAX : count < INT64_MIN ? INT64_MIN : (int64_t)count;
}

/* Every special fraction and addition, of either sign, at counts of every kind. */
static void check_acc_edges(uint64_t *state)
{
    for (size_t i = 0; i < 2 * SPECIAL; i++)
        for (size_t j = 0; j < 2 * SPECIAL; j++)
            for (int n = 0; n < 24; n++) {
                float frac = some_special(i % SPECIAL | (i / SPECIAL) << 16);
                float added = some_special(j % SPECIAL | (j / SPECIAL) << 16);
                check_acc((struct pw_acc){some_count(state, frac + added), frac}, added);
                check_acc((struct pw_acc){some_count(state, frac + added * 1000.0f), frac}, added);
            }
}

static void check_all_acc(uint64_t *state)
{
    struct pw_acc fresh = {0, 0.0f};
    check_acc_edges(state);
    for (int n = 0; n < 2000000; n++) {
        float frac = n % 4 == 0 ? some_float(state, 0) : some_figure(next(state), 0);
        float added = n % 3 == 0 ? some_float(state, 40) : some_figure(next(state), n % 3 == 1 ? 4 : 30);
        check_acc((struct pw_acc){some_count(state, frac + added), frac}, added);
        struct leaf_added once = leaf_add_to(fresh, added);
        check_acc(once.acc, some_figure(next(state), 3));
    }
    /* document 01's row */
    struct leaf_added twice = leaf_add_to(leaf_add_to(fresh, 0x1p-10f).acc, 0x1p-10f);
    expect(twice.refusal == 0 && same_acc(twice.acc, 1, 0.953125f) && twice.whole == 1, "twice 1/1024 J",
           (uint64_t[4]){0, 0, 0, 0});
}

/* ---- watt hours ---- */

/* Rounded where the rule says. And whatever the rounding: within one part in 2^23 of the energy, but for
 * what a count of more than 53 bits loses, and the smallest float. */
static void check_wh(int64_t mj, float frac)
{
    uint64_t input[4] = {(uint64_t)mj, bits32(frac), 0, 0};
    double count = (double)mj, sum = count + (double)frac, quotient = sum / 3600000.0;
    float got = pw_acc_wh((struct pw_acc){mj, frac});
    expect(same32(got, (float)quotient), "acc_wh", input);
    if (!isfinite(frac))
        return;
    long double energy = (long double)mj + (long double)frac;
    long double most = fabsl(energy) * 0x1p-23L + fabsl((long double)mj) * 0x1p-52L + 3.6e6L * 0x1p-149L;
    expect(fabsl((long double)got * 3.6e6L - energy) <= most, "watt hours", input);
}

/* Every special fraction at the ends and at none; the neighbours of the half between two floats; and
 * random counts of every length. */
static void check_all_wh(uint64_t *state)
{
    for (uint64_t k = 0; k < 2 * SPECIAL; k++)
        for (int64_t near = 0; near < 4; near++) {
            float frac = some_special(k % SPECIAL | (k / SPECIAL) << 16);
            check_wh(INT64_MAX - near, frac);
            check_wh(INT64_MIN + near, frac);
            check_wh(near - 2, frac);
        }
    for (int n = 0; n < 3000000; n++) {
        uint64_t r = next(state);
        check_wh((int64_t)(next(state) >> 1 >> r % 64) * (r & 64 ? 1 : -1), some_float(state, 0));
        /* an odd number of 25 bits, times 3.6e6 and a power of two, and some beside it */
        int64_t half = (int64_t)((r >> 40) | 0x1000001) * 3600000;
        half = half << (r >> 8) % 17;
        check_wh((r & 128 ? half : -half) + (int64_t)(r >> 16 & 63) - 32, r & 64 ? 0.0f : some_figure(next(state), 0));
        /* results among the subnormals */
        check_wh(0, float_of((uint32_t)(r >> 32 & 0x80FFFFFF) + (uint32_t)(r % 12 << 23)));
    }
}

/* ---- the accounting step ---- */

static bool same_tally(struct pw_tally a, struct pw_tally b)
{
    return same_acc(a.e, b.e.mj, b.e.frac) && same_acc(a.va, b.va.mj, b.va.frac) && a.t_int == b.t_int;
}

/* All of the tally is changed, or nothing of it. */
static struct leaf_accounted expected_accounting(struct pw_tally t, uint64_t dt, float p_tot, float s_last,
                                                 bool active)
{
    float seconds = (float)dt * 0.001f;
    float e_joules = p_tot * seconds, va_joules = s_last * seconds;
    float e_millijoules = e_joules * 1000.0f, va_millijoules = va_joules * 1000.0f;
    struct step e = expected_step(t.e.mj, t.e.frac + e_millijoules);
    struct step va = expected_step(t.va.mj, t.va.frac + va_millijoules);
    unsigned __int128 time = (unsigned __int128)t.t_int + dt;
    if ((active && !e.fits) || !va.fits || time > INT64_MAX)
        return (struct leaf_accounted){6, t, 0};
    struct pw_tally after = {t.e, {va.mj, va.frac}, (uint64_t)time};
    if (active)
        after.e = (struct pw_acc){e.mj, e.frac};
    return (struct leaf_accounted){0, after, active ? e.whole : 0};
}

static uint8_t check_accounting(struct pw_tally t, uint64_t dt, float p_tot, float s_last, bool active)
{
    uint64_t input[4] = {t.t_int, dt, (uint64_t)bits32(p_tot) << 32 | bits32(s_last), active};
    struct leaf_accounted got = leaf_accounting_step(t, dt, p_tot, s_last, active);
    struct leaf_accounted expected = expected_accounting(t, dt, p_tot, s_last, active);
    expect(got.refusal == expected.refusal, "the accounting's refusal", input);
    expect(same_tally(got.tally, expected.tally), "the tally", input);
    expect(got.whole == expected.whole, "the accounting's whole part", input);
    return got.refusal;
}

/* Worked out by hand: a second of 2 W and 3 VA, from nothing and at the ends of the time and the counts. */
static void check_accounting_rows(void)
{
    static const struct {
        struct pw_tally before;
        bool active;
        struct leaf_accounted after;
    } rows[] = {
        {{{0, 0}, {0, 0}, 0}, true, {0, {{2000, 0}, {3000, 0}, 1000}, 2000}},
        {{{0, 0}, {0, 0}, 0}, false, {0, {{0, 0}, {3000, 0}, 1000}, 0}},
        {{{5, 0.5f}, {-3000, 0.25f}, 7}, true, {0, {{2005, 0.5f}, {0, 0.25f}, 1007}, 2000}},
        {{{0, 0}, {0, 0}, INT64_MAX - 1000}, true, {0, {{2000, 0}, {3000, 0}, INT64_MAX}, 2000}},
        {{{0, 0}, {0, 0}, INT64_MAX - 999}, true, {6, {{0, 0}, {0, 0}, INT64_MAX - 999}, 0}},
        {{{0, 0}, {0, 0}, INT64_MAX - 999}, false, {6, {{0, 0}, {0, 0}, INT64_MAX - 999}, 0}},
        {{{0, 0}, {0, 0}, UINT64_MAX}, true, {6, {{0, 0}, {0, 0}, UINT64_MAX}, 0}},
        {{{INT64_MAX - 2000, 0}, {0, 0}, 0}, true, {0, {{INT64_MAX, 0}, {3000, 0}, 1000}, 2000}},
        {{{INT64_MAX - 1999, 0}, {0, 0}, 0}, true, {6, {{INT64_MAX - 1999, 0}, {0, 0}, 0}, 0}},
        {{{INT64_MAX - 1999, 0}, {0, 0}, 0}, false, {0, {{INT64_MAX - 1999, 0}, {3000, 0}, 1000}, 0}},
        {{{0, 0}, {INT64_MAX - 2999, 0}, 0}, true, {6, {{0, 0}, {INT64_MAX - 2999, 0}, 0}, 0}},
        {{{0, NAN}, {0, 0}, 0}, false, {0, {{0, NAN}, {3000, 0}, 1000}, 0}},
    };
    for (size_t k = 0; k < sizeof rows / sizeof rows[0]; k++) {
        struct leaf_accounted got = leaf_accounting_step(rows[k].before, 1000, 2.0f, 3.0f, rows[k].active);
        struct leaf_accounted row = rows[k].after;
        expect(got.refusal == row.refusal && same_tally(got.tally, row.tally) && got.whole == row.whole,
               "a row of the accounting", (uint64_t[4]){k, 0, 0, 0});
    }
}

/* An interval: of seconds, of any length, or at an end. */
static uint64_t some_interval(uint64_t r)
{
    switch (r >> 60) {
    case 0:
        return UINT64_MAX - (r & 3);
    case 1:
        return (UINT64_C(1) << 63) + (r & 7) - 4;
    case 2:
        return (UINT64_C(1) << 48) - 1 - (r & 3);
    case 3:
        return r & 3;
    case 4:
    case 5:
        return (r << 4) >> (r & 63);
    default:
        return r & 0x3FFF;
    }
}

/* A time counted so far, which dt brings to 2^63 or beside it, or that is past it; else any below. */
static uint64_t some_time(uint64_t r, uint64_t dt)
{
    if (r >> 61 == 0)
        return (UINT64_C(1) << 63) - dt + (r & 7) - 4;
    if (r >> 61 == 1)
        return r & 16 ? UINT64_MAX - (r & 3) : (UINT64_C(1) << 63) + (r & 7) - 4;
    return (r << 3) >> 1 >> (r & 63);
}

static void check_all_accounting(uint64_t *state)
{
    uint64_t refused[2] = {0, 0}, calls = 3000000;
    check_accounting_rows();
    for (uint64_t n = 0; n < calls; n++) {
        uint64_t dt = some_interval(next(state)), r = next(state);
        bool active = n % 2 == 0, plain = r % 3 != 0;
        float p = plain ? some_figure(r, 14) : some_float(state, 40);
        float s = n % 5 < 3 ? some_figure(next(state), 14) : some_float(state, 40);
        float seconds = (float)dt * 0.001f;
        struct pw_tally t;
        t.e.frac = plain ? some_figure(next(state), 0) : some_float(state, 0);
        t.va.frac = n % 5 < 4 ? some_figure(next(state), 0) : some_float(state, 0);
        t.e.mj = some_count(state, t.e.frac + p * seconds * 1000.0f);
        t.va.mj = some_count(state, t.va.frac + s * seconds * 1000.0f);
        t.t_int = some_time(next(state), dt);
        refused[active] += check_accounting(t, dt, p, s, active) != 0;
        /* where e alone is full, and the time and va are not */
        t.t_int = r >> 8 & 0xFFFF;
        t.va = (struct pw_acc){0, 0.0f};
        check_accounting(t, dt & 0xFFFF, p, 1.0f, active);
    }
    for (int active = 0; active < 2; active++)
        expect(refused[active] > calls / 20 && refused[active] < calls / 2 - calls / 20, "refused and not refused",
               (uint64_t[4]){refused[active], calls, 0, 0});
}

/* From nothing, a day of intervals of about a second: what was told is what was added. */
static void check_tally_day(uint64_t *state)
{
    struct pw_tally t = leaf_fresh_tally();
    __int128 whole = 0;
    uint64_t time = 0;
    expect(same_tally(t, (struct pw_tally){{0, 0.0f}, {0, 0.0f}, 0}), "a fresh tally", (uint64_t[4]){0, 0, 0, 0});
    for (int n = 0; n < 86400; n++) {
        uint64_t dt = next(state) % 2000;
        float p = some_figure(next(state), 12);
        struct leaf_accounted got = leaf_accounting_step(t, dt, p, fabsf(p), n % 7 != 0);
        check_accounting(t, dt, p, fabsf(p), n % 7 != 0);
        t = got.tally;
        whole += got.whole;
        time += dt;
        expect(got.refusal == 0 && t.e.mj == whole && t.t_int == time, "the day's sum",
               (uint64_t[4]){(uint64_t)n, dt, bits32(p), 0});
    }
}

int main(void)
{
    uint64_t state = 20263;
    check_all_totals(&state);
    check_all_ema(&state);
    check_all_acc(&state);
    check_all_wh(&state);
    check_all_accounting(&state);
    check_tally_day(&state);
    printf("test_figures: %" PRIu64 " checks, %" PRIu64 " failed\n", checks, failed);
    return failed != 0;
}
