/* test_leaves: the leaf functions against the C compiler's own arithmetic, which is IEEE 754's here.
 *
 * What is proved of them does not cover the compiler's back end; this test runs what it made. Every
 * 251st float, random doubles and whole numbers, and the neighbours of the limits; the tables against
 * the decimals; calibrations of special and of random words, lent in a page that cannot be written,
 * with pages that cannot be read on both sides. Its last line counts the checks, and the status is 1
 * where one failed. The root is not here: pwscript's answers are compared with the published Rust's. */
#define _DEFAULT_SOURCE
#include "bits.h"
#include "leaves.h"
#include "pages.h"

#include <float.h>
#include <inttypes.h>
#include <math.h>
#include <stdio.h>
#include <string.h>

_Static_assert(sizeof(struct leaf_iu_ir) == 2, "leaf_iu_ir");
_Static_assert(sizeof(struct pw_description) == 28, "leaf_description");
_Static_assert(sizeof(struct pw_calibration) == 296, "leaf_calibration");
_Static_assert(sizeof(struct leaf_calibration_answer) == 300, "leaf_calibration_answer");
_Static_assert(sizeof(struct leaf_gains) == 16, "leaf_gains");
_Static_assert(FLT_EVAL_METHOD == 0, "each operation is rounded to its type");

static uint64_t checks, failed;

/* One check; the first ten that fail are shown with their input. */
static void expect(int same, const char *what, uint64_t input)
{
    checks++;
    if (same)
        return;
    failed++;
    if (failed <= 10)
        printf("%s differs at %016" PRIx64 "\n", what, input);
}

/* As same32 of bits.h. */
static int same64(double x, double y)
{
    return isnan(x) ? isnan(y) : bits64(x) == bits64(y);
}

/* Cut toward zero, held to bits and a sign; 0 for a NaN. A double holds every float, and the cut of
 * one that is in range is exact. */
static int64_t cut(double x, int bits)
{
    double end = ldexp(1.0, bits);
    if (isnan(x))
        return 0;
    if (x >= end)
        return (int64_t)((UINT64_C(1) << bits) - 1);
    if (x < -end)
        return -(int64_t)((UINT64_C(1) << bits) - 1) - 1;
    return (int64_t)x;
}

static void check_float(float x)
{
    uint32_t b = bits32(x);
    expect(leaf_is_finite(x) == (isfinite(x) != 0), "is_finite", b);
    expect(same32(leaf_abs(x), fabsf(x)), "abs", b);
    expect(same64(leaf_f32_to_f64(x), (double)x), "f32_to_f64", b);
    expect(leaf_f32_to_i64(x) == cut((double)x, 63), "f32_to_i64", b);
    expect(leaf_f32_to_i32(x) == cut((double)x, 31), "f32_to_i32", b);
    expect(leaf_f32_to_i16(x) == cut((double)x, 15), "f32_to_i16", b);
    expect(leaf_f32_to_i8(x) == cut((double)x, 7), "f32_to_i8", b);
}

static void check_pair(float a, float b)
{
    uint64_t input = (uint64_t)bits32(a) << 32 | bits32(b);
    float most = isnan(a) ? b : isnan(b) ? a : a < b ? b : b < a ? a : signbit(a) ? b : a;
    float held = a < -1.0f ? -1.0f : a > b ? b : a;
    expect(same32(leaf_max(a, b), most), "max", input);
    expect(same32(leaf_clamp(a, -1.0f, b), held), "clamp", input);
}

static void check_double(double x)
{
    expect(same32(leaf_f64_to_f32(x), (float)x), "f64_to_f32", bits64(x));
}

static void check_whole(uint64_t n)
{
    int64_t i;
    memcpy(&i, &n, sizeof i);
    expect(same32(leaf_u64_to_f32(n), (float)n), "u64_to_f32", n);
    expect(same32(leaf_i64_to_f32(i), (float)i), "i64_to_f32", n);
    expect(same64(leaf_i64_to_f64(i), (double)i), "i64_to_f64", n);
}

/* The neighbours of each power of two, where rounding, the exponent and the ranges change. */
static void check_limits(void)
{
    for (int e = 0; e < 64; e++)
        for (uint64_t d = 0; d < 16; d++) {
            check_whole((UINT64_C(1) << e) + d);
            check_whole((UINT64_C(1) << e) - d);
        }
    for (uint64_t exponent = 0; exponent < 2048; exponent++)
        for (uint64_t tail = 0; tail < 8; tail++)
            for (uint64_t place = 26; place < 32; place++) {
                uint64_t low = exponent << 52 | tail << place;
                check_double(double_of(low));
                check_double(double_of(low + 1));
                check_double(double_of(low - 1));
                check_double(double_of(low | UINT64_C(1) << 63));
            }
}

/* ---- tables and numbers of ranges, over every index ---- */

/* The table by index, the last entry past its end. */
static void check_table(const char *what, float (*leaf)(uint8_t), const float *table, unsigned count)
{
    for (unsigned k = 0; k < 256; k++)
        expect(same32(leaf((uint8_t)k), table[k < count ? k : count - 1]), what, k);
}

static void check_tables(void)
{
    static const float v_lim[] = {6.0f, 60.0f, 600.0f, 1000.0f};
    static const float i_lim[] = {0.0006f, 0.006f, 0.06f, 0.6f, 6.0f, 10.0f};
    static const float shunt_ohm[] = {0.01f, 0.5f, 47.5f};
    static const float tap[] = {10.0f, 100.0f, 1000.0f, 10000.0f};
    static const float dcv_negk[] = {1.0f};
    static const float acv_win[] = {0.3f, 3.0f, 30.0f, 50.0f};
    static const float aca_win[] = {0.3f, 0.5f, 3.0f, 30.0f, 30.0f, 300.0f};
    static const uint8_t cycle[] = {0x88, 0x8C, 0x88, 0x80};
    check_table("v_lim", leaf_v_lim, v_lim, 4);
    check_table("i_lim", leaf_i_lim, i_lim, 6);
    check_table("shunt_ohm", leaf_shunt_ohm, shunt_ohm, 3);
    check_table("kv", leaf_kv, tap, 4);
    check_table("k_acv", leaf_k_acv, tap, 4);
    check_table("dcv_negk", leaf_dcv_negk, dcv_negk, 1);
    check_table("acv_win", leaf_acv_win, acv_win, 4);
    check_table("aca_win", leaf_aca_win, aca_win, 6);
    for (unsigned k = 0; k < 256; k++)
        expect(leaf_cycle_at((uint8_t)k) == cycle[k & 3], "cycle", k);
}

static void check_ranges(uint64_t *state)
{
    static const uint8_t iu[] = {2, 2, 1, 1, 0, 0}, ir[] = {0, 1, 0, 1, 0, 1}, index[] = {4, 5, 2, 3, 0, 1};
    static const uint8_t coupling[] = {0, 1, 0, 3};
    for (unsigned k = 0; k < 256; k++) {
        unsigned held = k < 5 ? k : 5;
        struct leaf_iu_ir unit = leaf_iu_ir((uint8_t)k);
        expect(unit.iu == iu[held] && unit.ir == ir[held], "iu_ir", k);
        expect(leaf_cal_index((uint8_t)k) == index[held], "cal_index", k);
        expect(leaf_next_coupling((uint8_t)k) == (k == 1 ? 3 : k == 3 ? 0 : 1), "next_coupling", k);
    }
    for (uint32_t k = 0; k < 100000; k++) {
        uint32_t c = (uint32_t)next(state);
        expect(leaf_coup_of(k) == coupling[k % 4], "coup_of", k);
        expect(leaf_coup_of(c) == coupling[c % 4], "coup_of", c);
    }
}

/* ---- descriptions ---- */

/* Floats at which a rule of this part changes, each in either sign. */
static const uint32_t special[] = {
    0x00000000, 0x00000001, 0x007FFFFF, 0x00800000, 0x357FFFFF, 0x35800000, 0x35800001, 0x3F666665, 0x3F666666,
    0x3F666667, 0x3F7FFFFF, 0x3F800000, 0x3F8CCCCC, 0x3F8CCCCD, 0x3F8CCCCE, 0x497423FF, 0x49742400, 0x49742401,
    0x497FFFFF, 0x49800000, 0x49800001, 0x7F7FFFFF, 0x7F800000, 0x7F800001, 0x7FC00000, 0x7FFFFFFF,
};
enum { SPECIAL = sizeof special / sizeof special[0] };

/* One of these or its negative, a number from 0.85 to 1.15, or any bits. */
static uint32_t some_word(uint64_t r)
{
    if (r >> 62 == 0)
        return special[(r & 0xFFFF) % SPECIAL] | (uint32_t)(r >> 16 & 1) << 31;
    if (r >> 62 == 1)
        return (uint32_t)r;
    return bits32(0.85f + (float)(r & 0xFFFFFF) * (0.3f / 0x1p24f));
}

/* Number `place` of the six is x, the others are 1.0. */
static void check_description(int place, float x)
{
    float six[6] = {1.0f, 1.0f, 1.0f, 1.0f, 1.0f, 1.0f};
    six[place] = x;
    for (int a_auto = 0; a_auto < 2; a_auto++) {
        struct pw_description d = {{six[0], six[1]}, {six[2], six[3], six[4]}, six[5], a_auto};
        int refusal = x >= 0x1p-20f && x <= 0x1p20f ? 0 : 7;
        expect(leaf_description_refusal(d) == refusal, "description_refusal", (uint64_t)place << 32 | bits32(x));
    }
}

static void check_descriptions(uint64_t *state)
{
    for (int place = 0; place < 6; place++) {
        for (size_t k = 0; k < SPECIAL; k++) {
            check_description(place, float_of(special[k]));
            check_description(place, -float_of(special[k]));
        }
        for (int k = 0; k < 10000; k++)
            check_description(place, float_of((uint32_t)next(state)));
    }
}

/* ---- calibrations ---- */

static int same_words(const uint32_t *a, const uint32_t *b)
{
    return memcmp(a, b, PW_CALIBRATION * sizeof *a) == 0;
}

static void check_refused(const uint32_t *words, size_t count)
{
    static const uint32_t zeros[PW_CALIBRATION];
    struct leaf_calibration_answer answer = leaf_calibration_of(words, count, true);
    expect(answer.refusal == 8 && !answer.calibration.valid && same_words(answer.calibration.words, zeros),
           "refused words", count);
}

/* 73 words at either end of a page that can only be read; every other count where nothing can be. */
static void check_lent_words(uint64_t *state)
{
    struct pages p = guarded_pages();
    uint32_t words[PW_CALIBRATION];
    uint32_t *const ends[] = {(uint32_t *)(void *)p.page, (uint32_t *)(void *)(p.page + p.size - sizeof words)};
    for (int k = 0; k < 2000; k++) {
        uint32_t *lent = ends[k % 2];
        bool valid = k % 3 == 0;
        for (int j = 0; j < PW_CALIBRATION; j++)
            words[j] = (uint32_t)next(state);
        protect(p, PROT_READ | PROT_WRITE);
        memcpy(lent, words, sizeof words);
        protect(p, PROT_READ);
        struct leaf_calibration_answer answer = leaf_calibration_of(lent, PW_CALIBRATION, valid);
        expect(answer.refusal == 0 && answer.calibration.valid == valid && same_words(answer.calibration.words, words),
               "calibration_of", (uint64_t)k);
        expect(same_words(lent, words), "the lent words", (uint64_t)k);
    }
    protect(p, PROT_NONE);
    for (size_t count = 0; count < 300; count++)
        if (count != PW_CALIBRATION)
            check_refused(ends[0], count);
    check_refused(ends[0], 0x100 + PW_CALIBRATION);
    check_refused(ends[0], ((size_t)1 << 32) + PW_CALIBRATION);
    check_refused(ends[0], SIZE_MAX / 8);
}

/* Document 01's rule of `cal`. */
static float expected_cal(const struct pw_calibration *c, uint32_t offset, float otherwise)
{
    float x = offset / 4 < PW_CALIBRATION ? float_of(c->words[offset / 4]) : otherwise;
    return c->valid && isfinite(x) && x < 1000000.0f && x > -1000000.0f ? x : otherwise;
}

static void check_cal(const struct pw_calibration *c, uint32_t offset, float otherwise)
{
    expect(same32(leaf_cal(*c, offset, otherwise), expected_cal(c, offset, otherwise)), "cal", offset);
    expect(same32(leaf_factor(*c, offset), leaf_cal(*c, offset, 1.0f)), "factor", offset);
    expect(same32(leaf_offset(*c, offset), leaf_cal(*c, offset, 0.0f)), "offset", offset);
}

static float expected_factory(const struct pw_calibration *c, unsigned vr)
{
    float g = vr == 0 ? expected_cal(c, 4, 1.0f) * expected_cal(c, 56, 1.0f) / expected_cal(c, 8, 1.0f)
                      : expected_cal(c, 52 + 4 * (vr < 3 ? vr : 3), 1.0f);
    return g < 0.9f || g > 1.1f || isnan(g) ? 1.0f : g;
}

/* Every range: the factory's gain, and the one in force with `stored` in one range, or in all. */
static void check_gains(const struct pw_calibration *c, float stored)
{
    for (unsigned vr = 0; vr < 256; vr = vr == 5 ? 127 : vr == 128 ? 255 : vr + 1) {
        unsigned held = vr < 3 ? vr : 3;
        float factory = expected_factory(c, vr);
        expect(same32(leaf_v_gain_factory(*c, (uint8_t)vr), factory), "v_gain_factory", vr);
        for (unsigned at = 0; at < 5; at++) {
            struct leaf_gains g = {{0.0f, 0.0f, 0.0f, 0.0f}};
            for (unsigned k = 0; k < 4; k++)
                if (at == k || at == 4)
                    g.vgain[k] = stored;
            float in_force = stored > 0.0f && (at == held || at == 4) ? stored : factory;
            expect(same32(leaf_v_gain(*c, g, (uint8_t)vr), in_force), "v_gain", (uint64_t)vr << 32 | bits32(stored));
        }
    }
}

static void check_calibrations(uint64_t *state)
{
    for (int n = 0; n < 4000; n++) {
        struct pw_calibration c;
        c.valid = n % 8 != 0;
        for (int k = 0; k < PW_CALIBRATION; k++)
            c.words[k] = some_word(next(state));
        for (uint32_t offset = 0; offset < 300; offset++)
            check_cal(&c, offset, float_of(some_word(next(state))));
        check_cal(&c, (uint32_t)next(state), 2.0f);
        check_cal(&c, UINT32_MAX, 2.0f);
        check_gains(&c, float_of(special[(unsigned)n % SPECIAL]));
        check_gains(&c, -float_of(special[(unsigned)n % SPECIAL]));
        check_gains(&c, float_of(some_word(next(state))));
    }
}

int main(void)
{
    uint64_t state = 20261;
    for (uint64_t b = 0; b <= UINT32_MAX; b += 251)
        check_float(float_of((uint32_t)b));
    for (int k = 0; k < 3000000; k++) {
        uint64_t r = next(&state);
        check_pair(float_of((uint32_t)r), float_of((uint32_t)(r >> 32)));
        check_double(double_of(next(&state)));
        /* an exponent that binary32 has, or is just short of */
        check_double(double_of((next(&state) >> 12) | (860 + next(&state) % 300) << 52));
        check_whole(next(&state) >> next(&state) % 64);
    }
    check_limits();
    for (unsigned f = 0; f < 256; f++) {
        expect(leaf_holds_ad1((uint8_t)f) == ((f & 0x04) != 0), "holds_ad1", f);
        expect(leaf_holds_rms_lpf((uint8_t)f) == ((f & 0x18) == 0x18), "holds_rms_lpf", f);
    }
    check_tables();
    check_ranges(&state);
    check_descriptions(&state);
    check_lent_words(&state);
    check_calibrations(&state);
    printf("test_leaves: %" PRIu64 " checks, %" PRIu64 " failed\n", checks, failed);
    return failed != 0;
}
