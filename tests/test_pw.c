/* test_pw: the interface pw.h, as a C program sees it.
 *
 * Each frame lies at the end or at the start of a page that cannot be written,
 * with pages that cannot be read on both sides (pages.h); a frame of a wrong
 * length lies where nothing can be read. An energy lies at both ends of such a
 * page, but of one that can be written.
 */
#define _DEFAULT_SOURCE
#include "bits.h"
#include "energy.h"
#include "formats.h"
#include "pages.h"
#include "pw.h"

#include <float.h>
#include <inttypes.h>
#include <math.h>
#include <stdbool.h>
#include <stddef.h>
#include <stdio.h>
#include <string.h>

_Static_assert(offsetof(struct pw_codes, refusal) == 0, "refusal");
_Static_assert(offsetof(struct pw_codes, ad1) == 4, "ad1");
_Static_assert(offsetof(struct pw_codes, lpf) == 8, "lpf");
_Static_assert(offsetof(struct pw_codes, rms) == 16, "rms");
_Static_assert(sizeof(struct pw_codes) == 24, "pw_codes");
_Static_assert(offsetof(struct pw_window, found) == 0, "found");
_Static_assert(offsetof(struct pw_window, r21) == 1, "r21");
_Static_assert(sizeof(struct pw_window) == 2, "pw_window");
_Static_assert(offsetof(struct pw_acc, mj) == 0, "mj");
_Static_assert(offsetof(struct pw_acc, frac) == 8, "frac");
_Static_assert(sizeof(struct pw_acc) == 16, "pw_acc");
_Static_assert(offsetof(struct pw_format, number) == 0, "number");
_Static_assert(offsetof(struct pw_format, decimals) == 4, "decimals");
_Static_assert(offsetof(struct pw_format, unit) == 5, "unit");
_Static_assert(sizeof(struct pw_format) == 8, "pw_format");
_Static_assert(FLT_EVAL_METHOD == 0, "each operation is rounded to its type");

/* ---- counting ---- */

static uint64_t checks, failures;

static bool check(bool holds, const char *what)
{
    checks++;
    if (holds)
        return true;
    if (failures++ < 20)
        printf("FAILED %s\n", what);
    return false;
}

/* ---- what is expected of a frame, in arithmetic of whole numbers ---- */

/* Little-endian, the remainder by 2^width, and the upper half of these are
 * the negative ones. */
static int64_t expected_code(const uint8_t *bytes, int count, int width)
{
    int64_t sum = 0, place = 1, all = 1;
    for (int k = 0; k < count; k++, place *= 256)
        sum += bytes[k] * place;
    for (int k = 0; k < width; k++)
        all *= 2;
    sum %= all;
    return sum >= all / 2 ? sum - all : sum;
}

/* Decodes and checks all four fields. */
static void check_codes(const uint8_t *frame, const char *what)
{
    struct pw_codes c = pw_decode(frame, 14);
    bool holds = c.refusal == 0 && c.ad1 == expected_code(frame, 3, 24)
                 && c.lpf == expected_code(frame + 6, 3, 19) && c.rms == expected_code(frame + 9, 5, 38);
    if (check(holds, what) || failures > 20)
        return;
    printf("  frame ");
    for (int k = 0; k < 14; k++)
        printf("%02x", frame[k]);
    printf(": refusal %d ad1 %" PRId32 " lpf %" PRId32 " rms %" PRId64 "\n", c.refusal, c.ad1, c.lpf, c.rms);
}

/* ---- frames ---- */

/* Document 01's rows marked P that speak of codes. */
static void test_rows(void)
{
    static const struct {
        const char *what;
        size_t first;
        uint8_t bytes[5];
        int64_t code;
    } rows[] = {
        {"LPF FF FF 03", 6, {0xFF, 0xFF, 0x03}, 262143},
        {"LPF 00 00 04", 6, {0x00, 0x00, 0x04}, -262144},
        {"LPF 00 00 F8", 6, {0x00, 0x00, 0xF8}, 0},
        {"AD1 00 00 80", 0, {0x00, 0x00, 0x80}, -8388608},
        {"RMS FF FF FF FF 1F", 9, {0xFF, 0xFF, 0xFF, 0xFF, 0x1F}, INT64_C(137438953471)},
        {"RMS 00 00 00 00 20", 9, {0x00, 0x00, 0x00, 0x00, 0x20}, INT64_C(-137438953472)},
    };
    for (size_t k = 0; k < sizeof rows / sizeof rows[0]; k++) {
        uint8_t frame[14];
        memset(frame, 0x5A, sizeof frame);
        memcpy(frame + rows[k].first, rows[k].bytes, rows[k].first == 9 ? 5 : 3);
        struct pw_codes c = pw_decode(frame, sizeof frame);
        int64_t code = rows[k].first == 0 ? c.ad1 : rows[k].first == 6 ? c.lpf : c.rms;
        check(c.refusal == PW_DONE && code == rows[k].code, rows[k].what);
    }
}

static void check_refused(const uint8_t *bytes, size_t length)
{
    char what[64];
    struct pw_codes c = pw_decode(bytes, length);
    snprintf(what, sizeof what, "length %zu: refusal 4 and zeros", length);
    check(c.refusal == PW_FRAME && c.ad1 == 0 && c.lpf == 0 && c.rms == 0, what);
}

/* Every other length is refused, and no byte is read: once with bytes there,
 * once where nothing can be read, and there with lengths that no buffer has. */
static void test_lengths(struct pages p)
{
    static const size_t large[] = {0x100 | 14, 0x10000 | 14, (size_t)1 << 32 | 14, SIZE_MAX / 2, SIZE_MAX};
    uint8_t bytes[64];
    memset(bytes, 0xFF, sizeof bytes);
    protect(p, PROT_NONE);
    for (size_t length = 0; length <= 64; length++)
        if (length != 14) {
            check_refused(bytes, length);
            check_refused(p.page, length);
        }
    for (size_t k = 0; k < sizeof large / sizeof large[0]; k++)
        check_refused(p.page, large[k]);
}

/* Frames at both ends of a page that can only be read: no neighbour of theirs
 * is touched, and no byte is written. */
static void test_guarded(struct pages p)
{
    uint8_t *const ends[] = {p.page, p.page + p.size - 14};
    for (size_t e = 0; e < 2; e++)
        for (int value = 0; value < 256; value++) {
            uint8_t before[14];
            for (int k = 0; k < 14; k++)
                before[k] = (uint8_t)(value + 17 * k);
            protect(p, PROT_READ | PROT_WRITE);
            memcpy(ends[e], before, sizeof before);
            protect(p, PROT_READ);
            check_codes(ends[e], "a guarded frame");
            check(memcmp(ends[e], before, sizeof before) == 0, "the frame is not written");
        }
}

/* Bytes 3 to 5 (AD2) have no influence. */
static void test_ad2(void)
{
    uint8_t frame[14] = {0x12, 0x34, 0x56, 0, 0, 0, 0x9A, 0xBC, 0x02, 0xF0, 0x11, 0x22, 0x33, 0x14};
    struct pw_codes first = pw_decode(frame, sizeof frame);
    for (size_t at = 3; at < 6; at++)
        for (int value = 0; value < 256; value++) {
            frame[at] = (uint8_t)value;
            struct pw_codes c = pw_decode(frame, sizeof frame);
            check(c.refusal == first.refusal && c.ad1 == first.ad1 && c.lpf == first.lpf && c.rms == first.rms,
                  "AD2 has no influence");
        }
}

/* All 2^24 patterns of the three bytes from `first` on: for AD1 every code,
 * for LPF every code with every pattern of the higher bits. */
static void test_three_bytes(size_t first, const char *what)
{
    uint8_t frame[14];
    memset(frame, 0xA5, sizeof frame);
    for (uint32_t n = 0; n < UINT32_C(1) << 24; n++) {
        frame[first] = (uint8_t)n;
        frame[first + 1] = (uint8_t)(n >> 8);
        frame[first + 2] = (uint8_t)(n >> 16);
        check_codes(frame, what);
    }
}

/* RMS: the neighbourhood of every sum and difference of two powers of two,
 * which holds all carries and ends, under each pattern of the two higher bits. */
static void test_rms(void)
{
    uint8_t frame[14];
    memset(frame, 0xA5, sizeof frame);
    for (int a = 0; a < 40; a++)
        for (int b = 0; b < 40; b++)
            for (uint64_t near = 0; near < 64; near++)
                for (uint64_t high = 0; high < 4; high++) {
                    uint64_t n = (UINT64_C(1) << a) + (near & 1 ? UINT64_C(1) << b : -(UINT64_C(1) << b));
                    n = (n + (near >> 1) - 16) ^ high << 38;
                    for (int k = 0; k < 5; k++)
                        frame[9 + k] = (uint8_t)(n >> 8 * k);
                    check_codes(frame, "RMS");
                }
}

/* Four million frames of random bytes, always the same ones. */
static void test_random(void)
{
    uint64_t state = 1;
    for (int n = 0; n < 4000000; n++) {
        uint64_t words[2] = {next(&state), next(&state)};
        uint8_t frame[14];
        memcpy(frame, words, sizeof frame);
        check_codes(frame, "a random frame");
    }
}

/* ---- the comparator's window ---- */

/* The upper thresholds by rising level. The lower ones are their mirror image:
 * the code that stands for v above stands for -v below. */
enum { LEVELS = 12 };
static const struct {
    uint8_t code;
    float level;
} upper[LEVELS] = {
    {0x6, -0.4f},   {0x5, -0.2f},   {0xF, -0.0208f}, {0xE, 0.0f},    {0xD, 0.0208f}, {0xC, 0.0417f},
    {0xB, 0.0625f}, {0xA, 0.1042f}, {0x9, 0.2083f},  {0x8, 0.4167f}, {0x1, 0.8f},    {0x0, 1.6f},
};

/* Document 01's rule: of all pairs of an upper and a lower entry of which each
 * clears the middle by 0.006 and lies within 0.9 of the swing, the nearest. */
static struct pw_window expected_window(float c, float a)
{
    struct pw_window best = {false, 0};
    float high = 0.0f, low = 0.0f;
    for (int i = 0; i < LEVELS; i++)
        for (int j = 0; j < LEVELS; j++) {
            float h = upper[i].level, l = -upper[j].level;
            bool serves = h >= c + 0.006f && h < c + 0.9f * a && l <= c - 0.006f && l > c - 0.9f * a;
            if (!serves || (best.found && !(h <= high && l >= low)))
                continue;
            best = (struct pw_window){true, (uint8_t)(upper[i].code * 16 + upper[j].code)};
            high = h;
            low = l;
        }
    return best;
}

static void check_window(float c, float a)
{
    struct pw_window expected = expected_window(c, a), got = pw_cmp_window(c, a);
    if (check(got.found == expected.found && got.r21 == expected.r21, "a window") || failures > 20)
        return;
    printf("  middle %08" PRIx32 " swing %08" PRIx32 ": %d %02x, expected %d %02x\n", bits32(c), bits32(a), got.found,
           got.r21, expected.found, expected.r21);
}

/* Document 01's rows, and none where there can be none. */
static void test_window_rows(void)
{
    struct pw_window w = pw_cmp_window(0.0f, 0.05f);
    check(w.found && w.r21 == 0xDD, "window 0, 0.05");
    w = pw_cmp_window(0.0f, 0.02f);
    check(!w.found && w.r21 == 0, "window 0, 0.02");
    w = pw_cmp_window(1.0f, 1.0f);
    check(w.found && w.r21 == 0x06, "window 1, 1");
    static const float no_middle[] = {NAN, -NAN, INFINITY, -INFINITY, FLT_MAX, -FLT_MAX, 1.6f, -1.6f};
    for (size_t k = 0; k < sizeof no_middle / sizeof no_middle[0]; k++)
        check(!pw_cmp_window(no_middle[k], INFINITY).found, "no window around that middle");
    static const float no_swing[] = {NAN, -NAN, 0.0f, -0.0f, -0.05f, -INFINITY, FLT_TRUE_MIN, -FLT_TRUE_MIN, FLT_MIN};
    for (size_t k = 0; k < sizeof no_swing / sizeof no_swing[0]; k++)
        for (int i = 0; i < LEVELS; i++)
            check(!pw_cmp_window(upper[i].level, no_swing[k]).found, "no window within that swing");
    w = pw_cmp_window(0.0f, INFINITY);
    check(w.found && w.r21 == 0xDD, "window 0, infinite");
}

/* Every pair of: both zeros, both infinities, NaNs, the ends of the subnormals
 * and of the numbers, and each level, alone and with 0.006 added or taken, with
 * the neighbours of each. */
static void test_window_edges(void)
{
    static const uint32_t special[] = {0x00000000, 0x00000001, 0x00400000, 0x007FFFFF, 0x00800000, 0x3F800000,
                                       0x7F7FFFFF, 0x7F800000, 0x7F800001, 0x7FC00000, 0x7FFFFFFF};
    static uint32_t edges[600];
    size_t count = 0;
    for (size_t k = 0; k < sizeof special / sizeof special[0]; k++)
        edges[count++] = special[k];
    for (int i = 0; i < LEVELS; i++)
        for (int move = -1; move <= 1; move++)
            for (uint32_t near = 0; near < 7; near++)
                edges[count++] = (bits32(upper[i].level + (float)move * 0.006f) & 0x7FFFFFFF) + near - 3;
    for (size_t k = 0, half = count; k < half; k++)
        edges[count++] = edges[k] ^ 0x80000000;
    for (size_t i = 0; i < count; i++)
        for (size_t j = 0; j < count; j++)
            check_window(float_of(edges[i]), float_of(edges[j]));
}

/* x moved by up to four places among the floats. */
static float beside(float x, uint64_t r)
{
    return float_of(bits32(x) + (uint32_t)(r & 0x7) - 3);
}

/* A level of either table. */
static float some_level(uint64_t r)
{
    return upper[(r & 0xFF) % LEVELS].level * (r & 0x100 ? 1.0f : -1.0f);
}

/* Any bits; from -2 to 2; or beside a level, or 0.006 away from one. */
static float some_middle(uint64_t r)
{
    if (r >> 62 == 0)
        return float_of((uint32_t)r);
    if (r >> 62 == 1)
        return (float)(int32_t)(uint32_t)r * 0x1p-30f;
    return beside(some_level(r) + (float)((int)(r >> 16 & 0xFF) % 3 - 1) * 0.006f, r >> 24);
}

/* Any bits; from 0 to 2; or beside one that just reaches a level from c. */
static float some_swing(float c, uint64_t r)
{
    if (r >> 62 == 0)
        return float_of((uint32_t)r);
    if (r >> 62 == 1)
        return (float)(uint32_t)r * 0x1p-31f;
    return beside(fabsf(some_level(r) - c) / 0.9f, r >> 24);
}

/* Four million pairs, always the same ones. */
static void test_window_random(void)
{
    uint64_t state = 2;
    for (int n = 0; n < 4000000; n++) {
        float c = some_middle(next(&state));
        check_window(c, some_swing(c, next(&state)));
    }
}

/* ---- the row ---- */

/* The choice as the source makes it: `vref` the gain job's reference, `dcm` the
 * DC row, `stock` a row that is none of the power path's own. R34 is `stat`
 * exactly in the rows that are neither stock nor DC. */
static void check_row(bool alt, bool dc, uint8_t job, uint8_t step, bool job_dc, uint8_t phase)
{
    bool vref = job == 2 && (step & 1) == 1;
    bool dcm = (dc && job == 0) || (job == 1 && step >= 6 && step < 12);
    bool stock = (alt && !dcm) || vref;
    int expected = vref ? (job_dc ? 4 : 5) : dcm ? 1 : alt ? ((phase & 1) == 0 ? 2 : 3) : 0;
    uint8_t got = pw_row_kind(alt, dc, job, step, job_dc, phase);
    bool holds = got == expected && (got == PW_ROW_POWER) == (!stock && !dcm);
    if (check(holds, "the row") || failures > 20)
        return;
    printf("  alt %d dc %d job %d step %d job_dc %d phase %d: %d, expected %d\n", alt, dc, job, step, job_dc, phase, got,
           expected);
}

/* Every job and every step, in every phase and four that are none. */
static void test_row_kind(void)
{
    static const uint8_t phases[] = {0, 1, 2, 3, 4, 127, 128, 255};
    for (int job = 0; job < 256; job++)
        for (int step = 0; step < 256; step++)
            for (size_t p = 0; p < sizeof phases; p++)
                for (int marks = 0; marks < 8; marks++)
                    check_row(marks & 1, marks & 2, (uint8_t)job, (uint8_t)step, marks & 4, phases[p]);
}

static void test_row_numbers(void)
{
    check(pw_row_kind(false, false, PW_JOB_NONE, 0, false, 0) == PW_ROW_POWER, "the power row");
    check(pw_row_kind(true, true, PW_JOB_NONE, 0, true, 1) == PW_ROW_DC, "the DC row");
    check(pw_row_kind(true, false, PW_JOB_NONE, 0, false, 0) == PW_ROW_ALT_V, "the V row");
    check(pw_row_kind(true, false, PW_JOB_NONE, 0, false, 1) == PW_ROW_ALT_I, "the I row");
    check(pw_row_kind(false, true, PW_JOB_GAIN, 1, true, 0) == PW_ROW_DC_REFERENCE, "the DC reference");
    check(pw_row_kind(false, true, PW_JOB_GAIN, 3, false, 0) == PW_ROW_AC_REFERENCE, "the AC reference");
    check(pw_row_kind(false, true, PW_JOB_ZERO, 5, false, 0) == PW_ROW_POWER, "zero step 5");
    check(pw_row_kind(false, false, PW_JOB_ZERO, 6, false, 0) == PW_ROW_DC, "zero step 6");
    check(pw_row_kind(false, false, PW_JOB_ZERO, 11, false, 0) == PW_ROW_DC, "zero step 11");
    check(pw_row_kind(false, true, PW_JOB_ZERO, 12, false, 0) == PW_ROW_POWER, "zero step 12");
}

/* Every number of steps: the size in the low seven bits, -128 as -127, and the
 * high bit for what is above zero. */
static void test_r36(void)
{
    for (int steps = -128; steps <= 127; steps++) {
        int size = steps == -128 ? 127 : steps < 0 ? -steps : steps;
        check(pw_r36_of((int8_t)steps) == (steps > 0 ? 0x80 | size : size), "R36");
    }
}

/* ---- energies ---- */

/* Bit by bit, a NaN's too; what lies between the fields and after them is no
 * part of the energy. */
static bool same_acc(struct pw_acc a, int64_t mj, float frac)
{
    return a.mj == mj && bits32(a.frac) == bits32(frac);
}

/* Adds to the energy at `acc` and checks what is returned and left, against
 * whole numbers; returns the refusal. */
static uint8_t check_add(struct pw_acc *acc, float joules, const char *what)
{
    struct pw_acc before = *acc;
    float millijoules = joules * 1000.0f, x = before.frac + millijoules;
    struct step step = expected_step(before.mj, x);
    uint8_t refusal = pw_acc_add(acc, joules);
    bool holds = step.fits ? refusal == PW_DONE && same_acc(*acc, step.mj, step.frac)
                           : refusal == PW_FULL && same_acc(*acc, before.mj, before.frac);
    if (step.fits)
        holds = holds && sums_exactly((int64_t)((uint64_t)acc->mj - (uint64_t)before.mj), acc->frac, x);
    if (check(holds, what) || failures > 20)
        return refusal;
    printf("  %" PRId64 " %08" PRIx32 " and %08" PRIx32 " J: %d, %" PRId64 " %08" PRIx32 "\n", before.mj,
           bits32(before.frac), bits32(joules), refusal, acc->mj, bits32(acc->frac));
    return refusal;
}

/* Document 01's row, and watt hours; tests/test_figures.c has more of these. */
static void test_acc_rows(void)
{
    struct pw_acc acc = pw_acc_fresh();
    check(same_acc(acc, 0, 0.0f), "a fresh energy");
    check(pw_acc_add(&acc, 0x1p-10f) == PW_DONE && same_acc(acc, 0, 0.9765625f), "1/1024 J");
    check(pw_acc_add(&acc, 0x1p-10f) == PW_DONE && same_acc(acc, 1, 0.953125f), "twice 1/1024 J");
    acc = pw_acc_fresh();
    check(same_acc(acc, 0, 0.0f) && bits32(pw_acc_wh(acc)) == 0, "a fresh energy again");
    check(pw_acc_add(&acc, 3600.0f) == PW_DONE && same_acc(acc, 3600000, 0.0f), "3600 J");
    check(pw_acc_wh(acc) == 1.0f, "one watt hour");
    check(pw_acc_add(&acc, -7200.0f) == PW_DONE && same_acc(acc, -3600000, 0.0f), "less 7200 J");
    check(pw_acc_wh(acc) == -1.0f, "minus one watt hour");
    check(bits32(pw_acc_wh((struct pw_acc){0, -0.0f})) == 0, "minus zero");
    check(pw_acc_wh((struct pw_acc){INT64_MAX, 0.5f}) == 0x1p63f / 3.6e6f, "the most watt hours");
    check(isnan(pw_acc_wh((struct pw_acc){0, NAN})), "no watt hours of a NaN");
}

/* Counts and fractions at which a sum just fits, and just does not. */
static const int64_t counts[] = {0, 1, -1, INT64_MAX, INT64_MAX - 1, INT64_MIN, INT64_MIN + 1, INT64_C(1) << 39,
                                 (INT64_C(1) << 39) - 1, -(INT64_C(1) << 40), INT64_C(1) << 62};
static const uint32_t fractions[] = {0x00000000, 0x00000001, 0x3A800000, 0x3F000000, 0x3F7FFFFF, 0x3F800000,
                                     0x3A83126F, 0x4B7FFFFF, 0x4B800001, 0x5A03126F, 0x5A031270, 0x5EFFFFFF,
                                     0x5F000000, 0x5F000001, 0x7F7FFFFF, 0x7F800000, 0x7F800001, 0x7FC00000,
                                     0x7FFFFFFF};
enum { COUNTS = sizeof counts / sizeof counts[0], FRACTIONS = sizeof fractions / sizeof fractions[0] };

/* Every choice of these, with the fractions as joules too, all of either sign.
 * Some are full, and some are not. */
static void check_edges(struct pw_acc *acc, const char *what)
{
    uint64_t full = 0, all = 0;
    for (size_t c = 0; c < COUNTS; c++)
        for (uint32_t f = 0; f < 2 * FRACTIONS; f++)
            for (uint32_t j = 0; j < 2 * FRACTIONS; j++, all++) {
                acc->mj = counts[c];
                acc->frac = float_of(fractions[f / 2] | f << 31);
                full += check_add(acc, float_of(fractions[j / 2] | j << 31), what) != PW_DONE;
            }
    check(full > all / 4 && full < all, "full at some edges");
}

/* An energy at both ends of a page: nothing beside it is read or written. And
 * one that is aligned to 8 bytes and not to 16: more is not asked for. */
static void test_acc_guarded(struct pages p)
{
    protect(p, PROT_READ | PROT_WRITE);
    check_edges((struct pw_acc *)(void *)p.page, "an energy at the start of a page");
    check_edges((struct pw_acc *)(void *)(p.page + p.size - sizeof(struct pw_acc)), "an energy at the end of a page");
    check_edges((struct pw_acc *)(void *)(p.page + 8), "an energy aligned to 8 bytes");
}

/* One energy of several: whether it is full or not, the bytes of the others are
 * not written. */
static void check_neighbours(int value, struct pw_acc acc)
{
    enum { ENERGIES = 9, MIDDLE = 4 };
    struct pw_acc all[ENERGIES];
    uint8_t before[MIDDLE * sizeof acc];
    memset(all, value, sizeof all);
    memset(before, value, sizeof before);
    all[MIDDLE] = acc;
    check_add(&all[MIDDLE], 0x1p-10f, "an energy among others");
    check(memcmp(all, before, sizeof before) == 0 && memcmp(all + MIDDLE + 1, before, sizeof before) == 0,
          "the energies beside it are as they were");
}

static void test_acc_neighbours(void)
{
    for (int value = 0; value < 256; value += 51)
        for (size_t c = 0; c < COUNTS; c++)
            for (uint32_t f = 0; f < 2 * FRACTIONS; f++)
                check_neighbours(value, (struct pw_acc){counts[c], float_of(fractions[f / 2] | f << 31)});
}

/* Four million additions in sequence. One energy starts at nothing and gets
 * watts over seconds; the other is set to an end and its neighbours now and
 * then, gets anything, and is left as it is where it was full. */
static void test_acc_sequence(void)
{
    uint64_t state = 3, refused = 0;
    struct pw_acc small = pw_acc_fresh(), large = pw_acc_fresh();
    for (int n = 0; n < 2000000; n++) {
        uint64_t r = next(&state);
        refused += check_add(&small, (float)(int32_t)(uint32_t)r * 0x1p-26f + 3.0f, "a small addition") != PW_DONE;
        if (r >> 56 == 0)
            large = (struct pw_acc){counts[(r >> 32 & 0xFF) % COUNTS], 0.5f};
        check_add(&large, float_of((uint32_t)(r >> 16)), "an addition");
    }
    check(refused == 0 && small.mj > 5000000, "the small additions are counted");
}

/* ---- formats ---- */

static void check_format(struct pw_format got, struct shown_as expected, const char *what, float a, float b, bool yes)
{
    bool holds = same32(got.number, expected.number) && got.decimals == expected.decimals && got.unit < PW_UNITS
                 && strcmp(pw_unit_name(got.unit), expected.unit) == 0;
    if (check(holds, what) || failures > 20)
        return;
    printf("  of %08" PRIx32 " %08" PRIx32 " %d: %08" PRIx32 " %d %s, is to be %08" PRIx32 " %d %s\n", bits32(a),
           bits32(b), yes, bits32(got.number), got.decimals, pw_unit_name(got.unit), bits32(expected.number),
           expected.decimals, expected.unit);
}

static void check_energy_format(float wh)
{
    for (int va = 0; va < 2; va++)
        check_format(pw_energy_format(wh, va == 1), energy_shown(wh, va == 1), "an energy's format", wh, 0.0f, va == 1);
}

static void check_p_format(float fs, float si)
{
    for (int watts = 0; watts < 2; watts++)
        check_format(pw_p_format(fs, si, watts == 1), power_shown(fs, si, watts == 1), "a power's format", fs, si,
                     watts == 1);
}

/* Document 01's rows, and those that pw.h tells of. */
static void test_format_rows(void)
{
    check_format(pw_energy_format(0.5f, false), (struct shown_as){500.0f, 2, "mWh"}, "0.5 Wh", 0.5f, 0.0f, false);
    check_format(pw_energy_format(0.5f, true), (struct shown_as){0.5f, 4, "VAh"}, "0.5 VAh", 0.5f, 0.0f, true);
    check_format(pw_energy_format(100000.0f, true), (struct shown_as){float_of(0x42C80001), 2, "kVAh"}, "100,000 VAh",
                 1e5f, 0.0f, true);
    check_format(pw_energy_format(NAN, false), (struct shown_as){NAN, 1, "kWh"}, "a NaN of Wh", NAN, 0.0f, false);
    check_format(pw_energy_format(-INFINITY, true), (struct shown_as){-INFINITY, 1, "kVAh"}, "minus infinite VAh",
                 -INFINITY, 0.0f, true);
    check_format(pw_p_format(36.0f, 0.5f, true), (struct shown_as){0.5f, 3, "W"}, "0.5 W of 36", 36.0f, 0.5f, true);
    check_format(pw_p_format(0.36f, 0.5f, true), (struct shown_as){500.0f, 2, "mW"}, "0.5 W in mW", 0.36f, 0.5f, true);
    check_format(pw_p_format(10000.0f, 2000.0f, false), (struct shown_as){2.0f, 3, "kVA"}, "2 kVA", 1e4f, 2e3f, false);
    check_format(pw_p_format(NAN, 2.0f, true), (struct shown_as){2.0f, 1, "W"}, "a NaN of full scale", NAN, 2.0f, true);
}

/* The decimals and units of all pairs of ranges, as the source's comment has them for some. */
static void test_format_ranges(void)
{
    static const float v_lim[] = {6.0f, 60.0f, 600.0f, 1000.0f};
    static const float i_lim[] = {600e-6f, 6e-3f, 0.06f, 0.6f, 6.0f, 10.0f};
    static const struct {
        uint8_t decimals;
        const char *unit;
    } formats[4][6] = {
        {{4, "mW"}, {3, "mW"}, {2, "mW"}, {4, "W"}, {3, "W"}, {3, "W"}},
        {{3, "mW"}, {2, "mW"}, {4, "W"}, {3, "W"}, {2, "W"}, {2, "W"}},
        {{2, "mW"}, {4, "W"}, {3, "W"}, {2, "W"}, {1, "W"}, {1, "W"}},
        {{2, "mW"}, {4, "W"}, {3, "W"}, {2, "W"}, {1, "W"}, {3, "kW"}},
    };
    for (size_t v = 0; v < 4; v++)
        for (size_t i = 0; i < 6; i++) {
            struct pw_format got = pw_p_format(v_lim[v] * i_lim[i], 0.0f, true);
            check(got.decimals == formats[v][i].decimals && strcmp(pw_unit_name(got.unit), formats[v][i].unit) == 0,
                  "the format of a pair of ranges");
            check_p_format(v_lim[v] * i_lim[i], -1.5f);
        }
}

/* Numbers at the bounds and beside them, of any bits, and of no number. */
static void test_formats_random(void)
{
    static const uint32_t odd[] = {0x00000000, 0x00000001, 0x007FFFFF, 0x00800000, 0x7F7FFFFF, 0x7F800000, 0x7FC00000};
    uint64_t state = 6;
    for (uint32_t a = 0; a < 14; a++) {
        check_energy_format(float_of(odd[a / 2] | a << 31));
        for (uint32_t b = 0; b < 14; b++)
            check_p_format(float_of(odd[a / 2] | a << 31), float_of(odd[b / 2] | b << 31));
    }
    for (int n = 0; n < 1000000; n++) {
        uint64_t r = next(&state);
        float any = float_of((uint32_t)r), near = near_bound(&state);
        check_energy_format(any);
        check_energy_format(near);
        check_p_format(any, near);
        check_p_format(near, any);
    }
}

/* The names of all bytes, and the numbers by their names. */
static void test_units(void)
{
    static const char *const names[PW_UNITS] = {"V", "A", "mA", "uA", "W", "mW", "kW", "VA", "mVA", "kVA", "Wh", "mWh",
                                                "kWh", "VAh", "kVAh", "mV"};
    static const uint8_t units[PW_UNITS] = {PW_UNIT_V, PW_UNIT_A, PW_UNIT_MA, PW_UNIT_UA, PW_UNIT_W, PW_UNIT_MW,
                                            PW_UNIT_KW, PW_UNIT_VA, PW_UNIT_MVA, PW_UNIT_KVA, PW_UNIT_WH, PW_UNIT_MWH,
                                            PW_UNIT_KWH, PW_UNIT_VAH, PW_UNIT_KVAH, PW_UNIT_MV};
    for (int unit = 0; unit < 256; unit++)
        check(strcmp(pw_unit_name((uint8_t)unit), unit < PW_UNITS ? names[unit] : "?") == 0, "a unit's name");
    for (uint8_t k = 0; k < PW_UNITS; k++)
        check(units[k] == k, "a unit's number");
}

int main(void)
{
    setvbuf(stdout, NULL, _IOLBF, 0);
    struct pages pages = guarded_pages();
    test_rows();
    test_lengths(pages);
    test_guarded(pages);
    test_ad2();
    test_three_bytes(0, "AD1");
    test_three_bytes(6, "LPF");
    test_rms();
    test_random();
    test_window_rows();
    test_window_edges();
    test_window_random();
    test_row_numbers();
    test_row_kind();
    test_r36();
    test_acc_rows();
    test_acc_guarded(pages);
    test_acc_neighbours();
    test_acc_sequence();
    test_units();
    test_format_rows();
    test_format_ranges();
    test_formats_random();
    printf("test_pw: %" PRIu64 " checks, %" PRIu64 " failed\n", checks, failures);
    return failures == 0 ? 0 : 1;
}
