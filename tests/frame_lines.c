/* frame_lines SEED CALLS: a random script of so many calls for the comparison of frames and jobs. The
 * same seed gives the same script.
 *
 * It sends what steady physical signals seldom reach: zero and gain jobs that end well, so that
 * zeros and gains are stored, and jobs and phase calibrations that end in every other way; ranges set
 * by hand on the mA and uA shunts, codes at the limits of the formats and of what is turned down, and
 * values just at the limit of a range; settings of every kind, signals about the floors of the AC
 * parts, and gaps of every length between frames. It does not know what state the meter is in. */
#include "bits.h"

#include <inttypes.h>
#include <stdarg.h>
#include <stdio.h>
#include <stdlib.h>

enum { AD1 = 0x04, RMS_LPF = 0x18, WORDS = 73 };

/* The source's V_LIM and KV. */
static const float v_lim[] = {6, 60, 600, 1000}, kv[] = {10, 100, 1000, 10000};

/* AC+DC, AC and DC. */
static const int couplings[] = {0, 3, 1};

static uint64_t state, now, left;

static uint64_t below(uint64_t n)
{
    return next(&state) % n;
}

static bool chance(unsigned percent)
{
    return below(100) < percent;
}

/* Each number below n in turn, so that none is left out for long; the first is random. */
static uint64_t in_turn(uint64_t *turn, uint64_t n)
{
    *turn += *turn == 0 ? 1 + below(n) : 1;
    return *turn % n;
}

/* From -size to size. */
static int64_t around(int64_t size)
{
    return (int64_t)below(2 * (uint64_t)size + 1) - size;
}

static float between(float low, float high)
{
    return low + (high - low) * ((float)below(1 << 20) / 1048576.0f);
}

/* A call. None is put where there are enough. */
static void put(const char *format, ...)
{
    if (left == 0)
        return;
    left--;
    va_list arguments;
    va_start(arguments, format);
    vprintf(format, arguments);
    va_end(arguments);
    putchar('\n');
}

/* The time of the next call. Seldom it goes back, or on by more than the ring's interval holds. */
static uint64_t later(void)
{
    switch (below(64)) {
    case 0:
        now -= now < 5000 ? now : below(5000);
        break;
    case 1:
        now += 60000 + below(12000);
        break;
    case 2:
        if (chance(10))
            now = below(UINT64_C(1) << 48);
        break;
    default:
        now += below(700);
    }
    if (now >= UINT64_C(1) << 48)
        now = below(100000);
    return now;
}

/* ---- meters ---- */

static bool is_gain(uint32_t at)
{
    return (at >= 0x04 && at < 0x14) || (at >= 0x34 && at < 0x44) || (at >= 0x94 && at < 0xAC)
           || (at >= 0xC4 && at < 0xDC) || (at >= 0xF4 && at < 0x10C);
}

/* A gain near 1, or 1; a small offset; or any bits. */
static uint32_t some_word(uint32_t at)
{
    if (chance(2))
        return (uint32_t)next(&state);
    if (is_gain(at))
        return bits32(chance(25) ? 1.0f : between(0.95f, 1.05f));
    return bits32(chance(10) ? between(-2.0f, 2.0f) : between(-0.002f, 0.002f));
}

/* With some words, or with zeros. */
static void put_meter(const float d[6], bool a_auto, bool words, bool valid)
{
    char text[8 * WORDS + 1] = "z73";
    for (uint32_t k = 0; words && k < WORDS; k++)
        snprintf(text + 8 * k, 9, "%08" PRIx32, some_word(4 * k));
    put("meter %08" PRIx32 " %08" PRIx32 " %08" PRIx32 " %08" PRIx32 " %08" PRIx32 " %08" PRIx32
        " %d %d %s", bits32(d[0]), bits32(d[1]), bits32(d[2]), bits32(d[3]), bits32(d[4]),
        bits32(d[5]), a_auto, valid, text);
}

static void put_some_meter(void)
{
    float d[6] = {10.0f, 1.0f, 0.01f, 0.0005f, 4.75e-5f, 1.03f};
    if (chance(40))
        for (int k = 0; k < 6; k++)
            d[k] = chance(20) ? 1.0f : between(0.5f, 2.0f) * (chance(50) ? 0.01f : 10.0f);
    if (chance(70))
        d[5] = between(0.9f, 1.1f);
    put_meter(d, chance(40), true, chance(70));
}

/* ---- frames ---- */

static void put_frame(uint8_t flags, int64_t ad1, int64_t lpf, int64_t rms)
{
    uint8_t b[14];
    char text[2 * sizeof b + 1];
    uint64_t other = next(&state);
    memcpy(b, &other, 8);
    for (int k = 0; k < 3; k++) {
        b[k] = (uint8_t)(ad1 >> 8 * k);
        b[6 + k] = (uint8_t)(lpf >> 8 * k);
    }
    for (int k = 0; k < 5; k++)
        b[9 + k] = (uint8_t)(rms >> 8 * k);
    /* the bits above a code are not of it */
    b[8] = (uint8_t)((b[8] & 0x07) | (other >> 56 & 0xF8));
    b[13] = (uint8_t)((b[13] & 0x3F) | (other >> 48 & 0xC0));
    for (size_t k = 0; k < sizeof b; k++)
        snprintf(text + 2 * k, 3, "%02x", b[k]);
    put("frame %" PRIu64 " %02x %s", later(), flags, text);
}

/* Of either sign and of so many bits at the most, each number of bits as likely. */
static int64_t some_code(unsigned bits)
{
    int64_t size = (int64_t)(next(&state) >> (64 - bits) >> below(bits));
    return chance(40) ? -size : size;
}

/* 2^36 and the least that a root turns down, with their neighbours, and the ends of the format. */
static int64_t some_limit(void)
{
    static const int64_t limits[] = {
        INT64_C(1) << 36, -(INT64_C(1) << 36), (INT64_C(1) << 36) + 12288, (INT64_C(1) << 37) - 1,
        -(INT64_C(1) << 37) + 1, 0,
    };
    return limits[below(sizeof limits / sizeof limits[0])] + (chance(50) ? 0 : around(1));
}

static uint8_t some_flags(void)
{
    return chance(85) ? AD1 | RMS_LPF : (uint8_t)next(&state);
}

/* A signal that is new in each frame, one with limits, or one with a little noise only. */
enum signal { NEW, LIMITS, STEADY };
static void put_frames(enum signal kind, uint64_t count)
{
    int64_t ad1 = some_code(23), lpf = some_code(18), rms = some_code(36);
    for (uint64_t k = 0; k < count; k++) {
        if (kind == NEW) {
            ad1 = some_code(23);
            lpf = some_code(18);
            rms = some_code(37);
        }
        bool limit = kind == LIMITS && chance(50);
        int64_t noise = around(64);
        put_frame(some_flags(), ad1 + ad1 / 2048 * noise / 64, lpf + lpf / 256 * noise / 64,
                  limit ? some_limit() : rms + rms / 128 * noise / 64);
    }
}

/* ---- jobs ---- */

/* A frame for a job whose step waits for AD1, or for RMS and LPF: with these flags alone or with all.
 * Now and then one that is not ready comes before it, with codes of any kind. */
static void put_job_frame(bool of_ad1, int64_t ad1, int64_t lpf, int64_t rms)
{
    static const uint8_t not_rms_lpf[] = {0x00, 0x04, 0x08, 0x0C, 0x10, 0x14};
    if (chance(3))
        put_frame(of_ad1 ? RMS_LPF : not_rms_lpf[below(6)], some_code(23), some_code(18), some_code(37));
    put_frame(chance(70) ? AD1 | RMS_LPF : of_ad1 ? AD1 : RMS_LPF, ad1, lpf, rms);
}

/* Frame number k of a zero job: four to a step, of which the first is dropped; steps 6 to 11 wait for AD1. */
static bool is_of_ad1(unsigned k)
{
    return k / 4 >= 6 && k / 4 < 12;
}

/* So many frames of a zero job, about these zeros, with noise or without. A dropped one may have any codes. */
static void put_zero_frames(int64_t lpf, int64_t ad1, bool noise, unsigned frames)
{
    for (unsigned k = 0; k < frames; k++) {
        bool any = k % 4 == 0 && chance(20);
        put_job_frame(is_of_ad1(k), any ? some_code(23) : ad1 + (noise ? around(900) : 0),
                      any ? some_code(18) : lpf + (noise ? around(400) : 0),
                      any ? some_code(37) : (int64_t)below(150000));
    }
}

/* Zeros within 1900 codes, of AD1 within 9900: never too far from other such zeros. */
static void put_zero_job(unsigned frames)
{
    int64_t lpf = around(1500), ad1 = around(9000);
    put("zero %" PRIu64, later());
    put_zero_frames(lpf, ad1, true, frames);
}

/* A reading that is `beyond` the limit, by the root or by its distance from these zeros, to either side. */
static void put_zero_reading(int64_t lpf, int64_t ad1, unsigned k, bool root, int64_t side, int64_t beyond)
{
    put_job_frame(is_of_ad1(k), ad1 + side * (20000 + beyond), root ? lpf : lpf + side * (4000 + beyond),
                  root ? 160000 + beyond : 0);
}

/* A zero job over the zeros that are stored, which ends in some step: after a reading at a limit, which is
 * counted, by one just beyond it, or further off. */
static void put_zero_signal(int64_t lpf, int64_t ad1)
{
    static uint64_t turn;
    uint64_t kind = in_turn(&turn, 4), step = kind == 0 ? 12 : kind == 1 ? 6 + below(6) : below(6);
    unsigned at = (unsigned)(4 * step + 1 + below(2));
    int64_t side = chance(70) == (lpf < 0) ? 1 : -1;
    bool root = kind == 2;
    put("zero %" PRIu64, later());
    put_zero_frames(lpf, ad1, false, at);
    put_zero_reading(lpf, ad1, at, root, side, 0);
    put_zero_reading(lpf, ad1, at + 1, root, side, chance(60) ? 1 : 1 + (int64_t)below(2000));
    put_zero_frames(lpf, ad1, false, (unsigned)below(3));
}

/* Zeros nearly as far out as a first job may find them; then jobs that a signal ends, and one that goes on
 * from there by as much again, so that AD1's zeros are held to 16 bits. */
static void put_zeros(void)
{
    int64_t side = chance(50) ? 1 : -1;
    int64_t lpf = side * (3000 + (int64_t)below(1001)), ad1 = side * (16500 + (int64_t)below(3501));
    static uint64_t turn;
    put("zero %" PRIu64, later());
    put_zero_frames(lpf, ad1, false, 52);
    for (uint64_t k = below(6); k > 0; k--)
        put_zero_signal(lpf, ad1);
    if (in_turn(&turn, 3) == 0) {
        put("zero %" PRIu64, later());
        put_zero_frames(2 * lpf - 400 * side, 2 * ad1 - 900 * side, true, 52);
    }
}

/* One round of a gain job: its DC or AC voltage, of the other kind what is beside it, both as parts of the range;
 * and the reference as a part of the voltage. */
struct round {
    float level;
    float beside;
    float ratio;
};

static void put_gain_rounds(uint64_t vr, bool dc, const struct round rounds[2])
{
    float full = v_lim[vr] / (kv[vr] * 1.25f) * 262144.0f;
    float full_ad1 = v_lim[vr] / (kv[vr] * 1.25f / 0.9f) * 8388608.0f;
    unsigned length = dc ? 8 : 11;
    put("ranges %" PRIu64 " %" PRIu64 " k", later(), vr);
    put("gain %" PRIu64, later());
    for (unsigned k = 0; k < 2 * length; k++) {
        struct round r = rounds[k / length];
        bool reference = k % length >= 4;
        int64_t code = (int64_t)(r.level * full * (reference ? r.ratio : 1.0f)), other = (int64_t)(r.beside * full);
        int64_t ac = dc ? other : code;
        put_job_frame(dc && reference, (int64_t)(r.level * r.ratio * full_ad1), dc ? code : other, ac * ac);
    }
}

/* A DC or an AC voltage of 20 to 60 % of the range, alike in the V channel and in the reference; seldom there is no
 * reference. */
static void put_gain_job(void)
{
    struct round r = {between(0.2f, 0.6f), 0.0f, chance(10) ? 0.0f : 1.0f};
    put_gain_rounds(below(4), chance(50), (struct round[]){r, r});
}

/* The voltage is not as it should be: too small or too large, at first or later; with too high a peak; not steady;
 * with as much of the other kind; later with more of the other kind, up to too high a peak. */
static void spoil_voltage(uint64_t how, bool late, bool dc, float sign, struct round r[2])
{
    switch (how) {
    case 0:
        r[late].level = r[1].level = sign * between(0.05f, 0.102f);
        break;
    case 1:
        r[late].level = r[1].level = sign * (dc ? between(0.99f, 1.1f) : between(0.69f, 0.9f));
        break;
    case 2:
        r[0].level = r[1].level = sign * between(0.5f, 0.6f);
        r[late].beside = between(0.35f, 0.45f);
        break;
    case 3:
        r[1].level *= chance(50) ? 1.01f : 0.99f;
        break;
    case 4:
        r[0].level = r[1].level = r[0].beside = between(0.2f, 0.4f);
        break;
    default:
        r[0].level = r[1].level = sign * between(0.2f, 0.3f);
        r[1].beside = between(0.32f, 0.45f);
        if (late)
            r[1] = (struct round){sign * between(0.02f, 0.09f), dc ? 0.9f : 1.2f, r[1].ratio};
    }
}

/* The reference is not steady, or the gain out of its range. */
static void spoil_reference(bool steady, bool low, struct round r[2])
{
    if (!steady)
        r[1].ratio *= low ? 0.99f : 1.01f;
    else
        r[0].ratio = r[1].ratio = low ? between(0.6f, 0.9f) : between(1.1f, 1.3f);
}

/* Such a job in which one thing is not as it should be; or there is no AC reference; or nothing is wrong, and the gain
 * is near an end or the voltage below zero. */
static void put_gain_case(void)
{
    static uint64_t turn;
    uint64_t kind = in_turn(&turn, 48), how = kind % 12;
    bool dc = kind / 12 % 2 == 0, late = kind / 24 == 0;
    float sign = dc && chance(60) ? -1.0f : 1.0f, level = between(0.2f, 0.6f);
    float ratio = chance(30) ? (chance(50) ? 0.901f : 1.099f) : between(0.92f, 1.08f);
    struct round r[2] = {{sign * level, 0.0f, ratio}, {sign * level, 0.0f, ratio}}, none = {level, 0.0f, 0.0f};
    if (how < 6)
        spoil_voltage(how, late, dc, sign, r);
    else if (how < 8)
        spoil_reference(how == 6, late, r);
    if (how < 10)
        put_gain_rounds(below(4), dc, r);
    else
        put_gain_rounds(below(4), false, (struct round[]){none, none});
}

/* ---- orders ---- */

/* A path's resistance of some size, or any bits. */
static uint32_t some_resistance(void)
{
    static const float paths[] = {0.0f, 0.01f, 0.5f, 47.5f};
    return chance(5) ? (uint32_t)next(&state) : bits32(chance(50) ? paths[below(4)] : between(0.0f, 2.0f));
}

/* Small currents are a limit as often as large ones; seldom it has any bits. */
static uint32_t some_current(void)
{
    static const float sizes[] = {1e-4f, 1e-2f, 1.0f, 10.0f};
    return chance(5) ? (uint32_t)next(&state) : bits32(between(0.0f, sizes[below(4)]));
}

static uint64_t some_seconds(void)
{
    return chance(20) ? 0 : chance(60) ? below(100) : below(65536);
}

static void put_settings(void)
{
    put("set %d %08" PRIx32 " %08" PRIx32 " %08" PRIx32 " %08" PRIx32 " %" PRIu64 " %" PRIu64, chance(50),
        some_resistance(), some_resistance(), some_resistance(), some_current(), some_seconds(),
        chance(90) ? below(4) : below(256));
}

static void put_ranges(void)
{
    uint64_t vr = below(4), ik = below(6);
    switch (below(6)) {
    case 0:
        put("ranges %" PRIu64 " %" PRIu64 " %" PRIu64, later(), vr, ik);
        break;
    case 1:
        put("ranges %" PRIu64 " k %" PRIu64, later(), below(4));
        break;
    case 2:
        put("ranges %" PRIu64 " %" PRIu64 " k", later(), vr);
        break;
    case 3:
        put("ranges %" PRIu64 " a a", later());
        break;
    default:
        /* these ranges, and automatic from there */
        put("ranges %" PRIu64 " %" PRIu64 " %" PRIu64, later(), vr, ik);
        put("ranges %" PRIu64 " a a", later());
    }
}

static void put_order(void)
{
    static const int orders[] = {0, 1, 1, 3};
    switch (below(12)) {
    case 0:
        put("on %" PRIu64, later());
        break;
    case 1:
        put("method %" PRIu64 " %d", later(), chance(35));
        break;
    case 2:
    case 3:
        put("coupling %" PRIu64 " %d", later(), orders[below(4)]);
        break;
    case 4:
    case 5:
        put("reapply %" PRIu64, later());
        break;
    case 6:
        put(chance(50) ? "phase" : "ereset");
        break;
    case 7:
        put("off %" PRIu64, later());
        put("on %" PRIu64, later());
        break;
    case 8:
        put("run %d", chance(70));
        break;
    case 9:
        put_settings();
        break;
    default:
        put_ranges();
    }
}

/* ---- values just at the limit of a range ---- */

/* From the range, with nothing seen and the DC row's first results dropped: one result. */
static void put_frame_at(bool v, uint64_t range, bool automatic, int64_t code)
{
    const char *form = v ? "ranges %" PRIu64 " %" PRIu64 " k" : "ranges %" PRIu64 " k %" PRIu64;
    put(form, later(), range);
    if (automatic)
        put(v ? "ranges %" PRIu64 " a k" : "ranges %" PRIu64 " k a", later());
    put("reapply %" PRIu64, later());
    for (int k = 0; k < 2; k++)
        put_frame(v ? RMS_LPF : AD1, code, code, 0);
}

/* A meter whose over ratio puts the limit at the value of a code, by the source's formulas of the
 * DC row, without words; then the codes about it. */
static void put_at_limit(void)
{
    static const float i_lim[] = {600e-6f, 6e-3f, 0.06f, 0.6f, 6.0f, 10.0f};
    static const float unit[] = {1.0f, 1e-3f, 1e-6f};
    bool v = chance(50), up = chance(50);
    uint64_t range = v ? below(4) : below(6);
    int64_t code = (int64_t)(1024 + below(v ? 1 << 17 : 1 << 22));
    if (chance(50))
        code = (int64_t)(1 + below(15)) << (v ? 10 + below(4) : 10 + below(9));
    float d[6] = {1.0f, 1.0f, 1.0f, 1.0f, 1.0f, 1.0f};
    float value = v ? (float)code * (1.25f / 262144.0f * kv[range])
                    : (float)code * 1.25f / 0.9f / 8388608.0f * unit[2 - range / 2];
    float limit = v ? v_lim[range] : i_lim[range];
    d[5] = up ? value / limit : 0.1f * limit / value;
    put_meter(d, chance(30), false, false);
    put("on %" PRIu64, later());
    bool automatic = v || chance(70);
    for (int64_t k = -1; k <= 1; k++)
        put_frame_at(v, range, automatic, chance(50) ? code + k : -code - k);
}

/* ---- values ---- */

/* On by so much that any number of bits up to 46 is as likely: some 2,000 years at the most. */
static void put_gap(void)
{
    now += next(&state) >> (18 + below(45));
    if (now >= UINT64_C(1) << 48)
        now = below(100000);
}

/* Codes of method B: of V, of I and of the power, by the statistic, and the DC of V and of I. */
struct codes {
    int64_t v;
    int64_t i;
    int64_t p;
    int64_t v_dc;
    int64_t i_dc;
};

/* Frames after an apply that keeps nothing, from number `from` on, if none is turned down and no range
 * changes: one of XY, then three each of YY, XY, XX and XY. */
static void put_cycle_from(struct codes c, unsigned from, unsigned count)
{
    for (unsigned k = from; k < from + count; k++) {
        unsigned phase = (k + 2) / 3 % 4;
        put_frame(AD1 | RMS_LPF, 32 * c.i_dc, phase == 1 ? c.v_dc : c.i_dc,
                  phase == 1 ? c.v * c.v : phase == 3 ? c.i * c.i : c.p);
    }
}

static void put_cycle(struct codes c, unsigned count)
{
    put_cycle_from(c, 0, count);
}

/* A phase calibration of a meter that is on, with these power factors in its two rounds of eight results of XY;
 * the eighth is frame number 54. */
static void put_phase_rounds(float first, float second)
{
    struct codes c = {.v = 3000 + (int64_t)below(9000), .i = 3000 + (int64_t)below(9000), .v_dc = 0, .i_dc = 0};
    put("reapply %" PRIu64, later());
    put("phase");
    c.p = (int64_t)((float)(c.v * c.i) * first);
    put_cycle_from(c, 0, 55);
    c.p = (int64_t)((float)(c.v * c.i) * second);
    put_cycle_from(c, 55, 53);
    put("reapply %" PRIu64, later());
}

/* One from step `from`, whose null is at step `to`. */
static void put_null(float from, float to)
{
    float first = between(0.05f, 0.3f) * (chance(50) ? 1.0f : -1.0f), further = from > 79.0f ? -48.0f : 48.0f;
    put_phase_rounds(first, first * (1.0f + further / (from - to)));
}

/* Phase calibrations of a meter that is on, from step 0: with a power that does not follow the step, so that by its
 * factor the second round is come to or not; with a null within the steps, to either side, or beyond; and with one
 * above step 79 or just there, with one from there behind it. */
static void put_phase(void)
{
    static uint64_t turn;
    float sign = chance(50) ? 1.0f : -1.0f, to = chance(30) ? 80.0f : roundf(between(78.0f, 127.0f));
    float factor = sign * between(0.01f, 0.31f);
    put("coupling %" PRIu64 " %d", later(), chance(50) ? 0 : 3);
    put("method %" PRIu64 " 0", later());
    put("ranges %" PRIu64 " %" PRIu64 " %" PRIu64, later(), below(4), 4 + below(2));
    switch (in_turn(&turn, 7)) {
    case 0:
        put_phase_rounds(factor, factor);
        break;
    case 1:
        put_phase_rounds(sign * between(0.33f, 1.0f), 0.0f);
        break;
    case 2:
        put_null(0.0f, between(1.0f, 127.0f));
        break;
    case 3:
        put_null(0.0f, -between(1.0f, 127.0f));
        break;
    case 4:
        put_null(0.0f, sign * between(127.0f, 200.0f));
        break;
    default:
        put_null(0.0f, to);
        put_null(to, between(-190.0f, 190.0f));
    }
}

/* A code below, at or above the AC floor, 0.5 % of the range, which is 20,972 codes for the highest range
 * and 125,829 for the others; or none. */
static int64_t some_level(bool highest)
{
    static const float factors[] = {0.0f, 0.5f, 0.98f, 1.03f, 1.5f, 3.0f, 10.0f, 30.0f, 150.0f, 300.0f};
    return (int64_t)((highest ? 105.0f : 629.0f) * factors[below(10)] * between(0.99f, 1.01f));
}

/* Signals about the floors, of a power factor near 1 or of any. */
static struct codes some_codes(uint64_t vr, uint64_t ik)
{
    struct codes c = {.v = some_level(vr == 3), .i = some_level(ik == 5), .v_dc = 0, .i_dc = 0};
    float factor = chance(50) ? between(0.99f, 1.0f) : between(-1.0f, 1.0f);
    c.p = (int64_t)((float)(c.v * c.i) * factor);
    if (chance(60)) {
        c.v_dc = some_code(17);
        c.i_dc = some_code(17);
    }
    return c;
}

/* Frames after gaps; now and then the clock is set back. */
static void put_later_frames(struct codes c)
{
    for (uint64_t k = below(4); k > 0; k--) {
        put_gap();
        put_cycle(c, 1 + (unsigned)below(8));
        if (chance(20))
            now -= now < 100000 ? now : below(100000);
    }
}

/* Each order that ends a job. */
static void put_abort(void)
{
    switch (below(7)) {
    case 0:
        put("method %" PRIu64 " %d", later(), chance(30));
        break;
    case 1:
        put("coupling %" PRIu64 " %d", later(), couplings[below(3)]);
        break;
    case 2:
        put(chance(50) ? "ranges %" PRIu64 " k k" : "ranges %" PRIu64 " a 4", later());
        break;
    default:
        put(chance(50) ? "on %" PRIu64 : "off %" PRIu64, later());
    }
}

/* A job that is begun over values and not gone through: its ranges are shown with them. */
static void put_job_begun(void)
{
    put(chance(70) ? "zero %" PRIu64 : "gain %" PRIu64, later());
    if (chance(90))
        put("phase");
    for (uint64_t k = below(30); k > 0; k--)
        put_frame(AD1 | RMS_LPF, around(900), around(400), (int64_t)below(150000));
    put_abort();
}

/* A meter without words that is on, with its over ratio. */
static void put_meter_on(float over, int coupling, bool alternating, uint64_t vr, uint64_t ik)
{
    float d[6] = {10.0f, 1.0f, 0.01f, 0.0005f, 4.75e-5f, over};
    put_meter(d, chance(40), false, false);
    put("coupling %" PRIu64 " %d", later(), coupling);
    put("method %" PRIu64 " %d", later(), alternating);
    put("ranges %" PRIu64 " %" PRIu64 " %" PRIu64, later(), vr, ik);
    put_settings();
    put("on %" PRIu64, later());
}

/* A voltage above its floor that has no window, and a current that has: by the zero job's ranges it is
 * below its floor. */
static void put_current_watched(void)
{
    struct codes c = {.v = 1200, .i = 7000, .p = 7000000, .v_dc = 0, .i_dc = 0};
    put_meter_on(1.03f, chance(50) ? 0 : 3, false, below(3), below(2));
    put_cycle(c, 14);
    put("zero %" PRIu64, later());
    put_cycle((struct codes){.v = 100, .i = 100, .p = 1000}, 10 + (unsigned)below(10));
}

/* Far above each range without being over it, and for a long time; some of it is turned down. */
static void put_large(void)
{
    int64_t v = 60000 + (int64_t)below(300000), i = 60000 + (int64_t)below(300000);
    struct codes c = {.v = v, .i = i, .p = v * i, .v_dc = 0, .i_dc = 0};
    put_meter_on(1000.0f, chance(50) ? 0 : 3, chance(40), chance(30) ? 3 : below(4), chance(30) ? 5 : below(6));
    put_cycle(c, 11);
    now += below(UINT64_C(1) << 32);
    put_cycle(c, 6);
}

/* A current above its limit, for more than 65,536 s, and then with a clock that is set back. */
static void put_limit_passed(void)
{
    struct codes c = {.v = 5000, .i = 50000, .p = 100000000, .v_dc = 0, .i_dc = 1000};
    put_meter_on(1.03f, couplings[below(3)], chance(30), below(4), below(6));
    put("set %d %08" PRIx32 " %08" PRIx32 " %08" PRIx32 " 37000000 %" PRIu64 " %" PRIu64, chance(50), some_resistance(),
        some_resistance(), some_resistance(), 30000 + below(35536), below(4));
    put_cycle(c, 14);
    now += 65536000 + below(100000000);
    put_cycle(c, 3);
    now -= 200000000 < now ? 200000000 : now;
    put_cycle(c, 2);
}

/* Signals about the floors in any method, with gaps and other settings between. Ranges are passed early,
 * late or as usual. */
static void put_values(void)
{
    static const float overs[] = {1.03f, 1.03f, 0.25f, 1000.0f};
    uint64_t vr = below(4), ik = below(6);
    put_meter_on(overs[below(4)], couplings[below(3)], chance(20), vr, ik);
    if (chance(20))
        put("ranges %" PRIu64 " a a", later());
    struct codes c = some_codes(vr, ik);
    put_cycle(c, 11 + (unsigned)below(6));
    put_later_frames(c);
    if (chance(30))
        put_settings();
    if (chance(20))
        put("run %d", chance(30));
    if (chance(40)) {
        put("method %" PRIu64 " 1", later());
        put_cycle(c, 16);
    }
    put_later_frames(c);
    if (chance(40))
        put_job_begun();
    else if (chance(30))
        put("off %" PRIu64, later());
}

/* ---- the script ---- */

static void put_jobs(void)
{
    put("method %" PRIu64 " 0", later());
    if (chance(70))
        put_zero_job(chance(90) ? 52 : (unsigned)below(52));
    if (chance(70))
        put_gain_job();
    if (chance(80))
        put("reapply %" PRIu64, later());
}

static void put_meter_and_calls(void)
{
    put_some_meter();
    put("on %" PRIu64, later());
    for (int k = 0; k < 2; k++) {
        if (chance(35))
            put_jobs();
        if (chance(8))
            put_phase();
        put("coupling %" PRIu64 " %d", later(), couplings[below(3)]);
        put("method %" PRIu64 " %d", later(), chance(30));
        put_ranges();
        if (chance(50))
            put_settings();
        for (int j = 0; j < 4; j++) {
            put_frames((enum signal)(below(4) % 3), 4 + below(24));
            put_order();
        }
    }
}

/* Jobs of a meter that is on, with some words or without. */
static void put_job_cases(void)
{
    static uint64_t turn;
    uint64_t kind = in_turn(&turn, 5);
    const float plain[] = {10.0f, 1.0f, 0.01f, 0.0005f, 4.75e-5f, 1.03f};
    put_meter_on(1.03f, couplings[below(3)], false, below(4), below(6));
    if (kind < 2) {
        put_zeros();
        return;
    }
    if (kind < 4) {
        put_meter(plain, chance(40), true, true);
        put("on %" PRIu64, later());
    }
    if (chance(20))
        put_zero_job(52);
    for (uint64_t k = 3 + below(5); k > 0; k--)
        put_gain_case();
}

static void put_phase_cases(void)
{
    put_meter_on(1.03f, chance(50) ? 0 : 3, false, 3, 5);
    put_phase();
}

/* Each part so many times among 84, one kind after another: 31 has no factor with 84 in common. */
enum { PARTS = 84 };
static void put_part(void)
{
    static const struct {
        unsigned often;
        void (*put)(void);
    } parts[] = {
        {6, put_meter_and_calls}, {18, put_values}, {4, put_current_watched}, {5, put_large}, {3, put_limit_passed},
        {9, put_phase_cases}, {15, put_job_cases}, {24, put_at_limit},
    };
    static uint64_t turn;
    uint64_t r = in_turn(&turn, PARTS) * 31 % PARTS, k = 0;
    for (; r >= parts[k].often; k++)
        r -= parts[k].often;
    parts[k].put();
}

int main(int argc, char **argv)
{
    if (argc != 3)
        return 2;
    state = strtoull(argv[1], NULL, 10);
    left = strtoull(argv[2], NULL, 10);
    while (left > 0)
        put_part();
    return fflush(stdout) == 0 ? 0 : 1;
}
