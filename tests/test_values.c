/* test_values: what is read off a meter, beside the rule written out in C (value_rule.h): pw_vals,
 * pw_state, pw_partial and pw_integrating, over meters of any bytes. Many are such as no order
 * leads to: ranges past the tables, jobs of any number, a clock behind the start of an overload.
 *
 * The last line counts the checks, and the status is 1 where one failed. */
#include "checks.h"
#include "floats.h"
#include "meters.h"
#include "shown.h"
#include "value_rule.h"

static void expect_values(const struct pw_power_vals *expected, const struct pw_power_vals *got, const char *what)
{
    checks++;
    size_t most = failed <= 10 ? 4 : 0;
    failed += differences_in(value_fields, VALUE_FIELDS, expected, got, what, most) == 0 ? 0 : 1;
}

/* ---- cases ---- */

enum met {
    IN_B, IN_ALT, IN_DC, NOT_MEASURED, HINT_1, HINT_2, OVER_1, OVER_2, AGAIN, BEFORE, NO_LIMIT, V_OL, V_AT_LIMIT, I_OL,
    I_AT_LIMIT, F_V, F_I, NO_F_V, NO_F_I, NO_PHASE, NOISE, SPLIT, HELD_VR, HELD_IK, OTHER_COUPLING, OTHER_JOB, VOLTS,
    COUNTING, CASES
};
static uint64_t met[CASES];

static void count(enum met which, bool was)
{
    met[which] += was ? 1 : 0;
}

static void count_cases(const struct pw_meter *pw, const struct pw_vals *v)
{
    bool yes = v->measured, b = yes && way_of(pw) == B, of_i = pw->comparator.r20 == OF_CURRENT;
    const struct pw_limits *l = &v->vals.limits;
    count(NOT_MEASURED, !yes);
    count(IN_B, b);
    count(IN_ALT, yes && way_of(pw) == ALTERNATING);
    count(IN_DC, yes && way_of(pw) == DIRECT);
    count(HINT_1, v->vals.hint == 1);
    count(HINT_2, v->vals.hint == 2);
    count(OVER_1, l->over == 1);
    count(OVER_2, l->over == 2);
    count(AGAIN, l->over == 1 && pw->clock.t_poll > pw->over_t0.at && pw->clock.t_poll - pw->over_t0.at >= 65536000);
    count(BEFORE, l->over == 1 && pw->clock.t_poll < pw->over_t0.at && pw->over_t0.at - pw->clock.t_poll > 1000);
    count(NO_LIMIT, yes && pw->over_t0.set && pw->settings.t_lim == 0);
    count(V_OL, l->v_ol);
    count(I_OL, l->i_ol);
    float over = pw->description.over;
    count(V_AT_LIMIT, yes && leaf_hypot(pw->parts.v_ac, pw->parts.v_dc) == over * v_limit(pw));
    count(I_AT_LIMIT, yes && leaf_hypot(pw->parts.i_ac, pw->parts.i_dc) == over * i_limit(pw));
    count(F_V, b && v->vals.f_ok && !of_i && !has_amperes(pw));
    count(F_I, b && v->vals.f_ok && of_i && !has_volts(pw));
    count(NO_F_V, b && pw->comparator.f_ok && !of_i && !has_volts(pw) && has_amperes(pw));
    count(NO_F_I, b && pw->comparator.f_ok && of_i && !has_amperes(pw) && has_volts(pw));
    count(NO_PHASE, b && isnan(v->vals.load.s) && !isnan(v->vals.load.p));
    struct pw_parts p = counted(pw);
    float r = pw->settings.comp ? path(pw) : 0.0f;
    count(NOISE, b && has_volts(pw) && has_amperes(pw) && v->vals.load.q == 0.0f
                     && leaf_totals(p.p_ac, p.v_ac, p.v_dc, p.i_ac, p.i_dc, r).q > 0.0f);
    count(SPLIT, v->vals.split.p_ac != 0.0f && v->vals.split.p_dc != 0.0f && pw->settings.comp);
    count(HELD_VR, yes && pw->ranges.vr > 3);
    count(HELD_IK, yes && pw->ranges.ik > 5);
    count(OTHER_COUPLING, b && pw->mode.coup != ACDC && pw->mode.coup != AC);
    count(OTHER_JOB, pw->job.job > 2 && expected_partial(pw).text == 3);
    count(VOLTS, expected_partial(pw).with_volts);
    count(COUNTING, expected_integrating(pw));
}

/* ---- meters ---- */

/* A float at `floor` or beside it, of about the size of `limit`, or of any bits. */
static float some_part(uint64_t *state, float limit)
{
    uint64_t r = next(state);
    float floor = 0.005f * limit;
    if ((r & 7) == 0)
        return float_of((uint32_t)(r >> 32));
    if ((r & 7) == 1)
        return float_of(bits32(floor) + (uint32_t)(r >> 8 & 3) - 1);
    float size = ldexpf(1.0f + (float)(r >> 40) * 0x1p-24f, -(int)(r >> 8 & 15)) * limit;
    return (r & 0x30) == 0 ? -size : (r & 0x30) == 0x10 ? 0.0f : size;
}

/* A number up to `most`, or any byte. */
static uint8_t some_byte(uint64_t *state, uint64_t most)
{
    uint64_t r = next(state);
    return (uint8_t)((r >> 8) % ((r & 7) == 0 ? 256 : most + 1));
}

static void set_times(uint64_t *state, struct pw_meter *pw)
{
    uint64_t r = next(state);
    pw->tally.t_int >>= r & 63;
    pw->clock.t_poll >>= 8;
    pw->over_t0.at = pw->clock.t_poll + (r >> 8 & 0xFFFF) - (next(state) >> (24 + (r >> 32 & 15)));
    if ((r >> 40 & 3) == 0)
        pw->settings.t_lim = (uint16_t)(r >> 48 & 1);
}

/* Of any bytes, but for some of the fields such as a meter has them. */
static struct pw_meter likely_meter(uint64_t *state)
{
    static const uint8_t couplings[] = {ACDC, AC, 1, ACDC};
    struct pw_meter pw = some_meter(state);
    uint64_t r = next(state);
    pw.mode.on = (r & 7) != 0;
    pw.cycle.seen |= (r >> 3 & 3) != 0 ? 7 : 0;
    if ((r >> 5 & 7) != 0)
        pw.mode.coup = couplings[r >> 8 & 3];
    pw.ranges.vr = some_byte(state, 3);
    pw.ranges.ik = some_byte(state, 5);
    pw.job.job = (r >> 10 & 1) != 0 ? 0 : some_byte(state, 2);
    if ((r >> 11 & 1) != 0)
        pw.comparator.r20 = (r >> 12 & 1) != 0 ? OF_CURRENT : 0x10;
    if ((r >> 13 & 3) != 0)
        pw.description.over = 0.5f + (float)(r >> 16 & 0xFF) * 0x1p-8f;
    float v = v_limit(&pw), i = i_limit(&pw);
    pw.parts = (struct pw_parts){0.0f, some_part(state, v), some_part(state, v), some_part(state, i),
                                   some_part(state, i), some_part(state, v)};
    pw.parts.p_ac = pw.parts.v_ac * pw.parts.i_ac * (1.0f - (float)(r >> 24 & 0xFFF) * 0x1p-12f * (float)(r >> 36 & 3));
    for (size_t k = 0; k < 3; k++)
        if ((r >> (38 + k) & 1) != 0)
            pw.settings.r_path[k] = some_figure(next(state), 6);
    pw.tally.e.mj >>= r >> 42 & 63;
    set_times(state, &pw);
    return pw;
}

/* An over ratio that puts a limit at the value, or a float beside it. */
static struct pw_meter meter_at_limit(uint64_t *state)
{
    struct pw_meter pw = likely_meter(state);
    uint64_t r = next(state);
    bool v = (r & 1) != 0;
    float value = v ? leaf_hypot(pw.parts.v_ac, pw.parts.v_dc) : leaf_hypot(pw.parts.i_ac, pw.parts.i_dc);
    pw.description.over = float_of(bits32(value / (v ? v_limit(&pw) : i_limit(&pw))) + (uint32_t)(r >> 8) % 3 - 1);
    return pw;
}

static void check_meter(struct pw_meter pw)
{
    struct pw_vals expected = expected_vals(&pw), got = pw_vals(pw);
    expect(got.measured == expected.measured, "whether there are values");
    expect_values(&expected.vals, &got.vals, "the values");
    struct pw_power_vals state = expected.measured ? expected.vals : unmeasured(&pw), shown = pw_state(pw);
    expect_values(&state, &shown, "the state");
    struct pw_partial e = expected_partial(&pw), g = pw_partial(pw);
    expect(g.text == e.text && g.with_volts == e.with_volts, "what is shown in place of a reading");
    expect(same32(g.volts.number, e.volts.number) && g.volts.decimals == e.volts.decimals
               && g.volts.unit == e.volts.unit && g.volts.over == e.volts.over,
           "the volts in place of a reading");
    expect(pw_integrating(pw) == expected_integrating(&pw), "whether energy is being counted");
    count_cases(&pw, &expected);
}

/* Currents of about 50 uA: only those above it. (None is 50 uA: leaf_hypot is never the float nearest it.) */
static void check_current_floor(void)
{
    struct pw_meter pw = {.mode = {.on = true}, .clock = {.run = true}, .cycle = {.seen = 4}};
    for (uint32_t k = 0; k < 256; k++) {
        pw.parts.i_ac = float_of(bits32(30e-6f) + k / 16 - 8);
        pw.parts.i_dc = float_of((bits32(40e-6f) + k / 2 % 8 - 4) | k << 31);
        expect(pw_integrating(pw) == expected_integrating(&pw), "a current beside 50 uA");
    }
    pw.parts.i_ac = 0.0f;
    pw.parts.i_dc = -51e-6f;
    expect(pw_integrating(pw), "a current of -51 uA");
    pw.cycle.seen = 0xFB;
    expect(!pw_integrating(pw), "a current that was not seen");
}

/* A reactive power of about the noise: the last digits of both count. */
static struct pw_meter noisy_meter(uint64_t *state)
{
    struct pw_meter pw = likely_meter(state);
    uint64_t r = next(state);
    pw.mode = (struct pw_mode){.on = true, .coup = (r & 1) != 0 ? AC : ACDC};
    pw.settings.comp = false;
    pw.cycle.seen = 7;
    pw.parts = (struct pw_parts){0.0f, v_limit(&pw) * (0.006f + (float)(r >> 8 & 0xFFFF) * 0x1p-22f), 0.0f,
                                   i_limit(&pw) * (0.006f + (float)(r >> 24 & 0xFFFF) * 0x1p-22f), 0.0f, 0.0f};
    struct pw_figures t = leaf_totals(0.0f, pw.parts.v_ac, 0.0f, pw.parts.i_ac, 0.0f, 0.0f);
    double q = hypot(0.001 * v_limit(&pw) * t.i, 0.0025 * i_limit(&pw) * t.v), s = t.s;
    pw.parts.p_ac = float_of(bits32((float)sqrt(s * s - q * q)) + (uint32_t)(r >> 40 & 15) - 8);
    return pw;
}

int main(void)
{
    uint64_t state = 6;
    struct pw_power_vals zero = leaf_zero_vals(), none = no_values();
    expect_values(&none, &zero, "no values");
    for (int k = 0; k < 100000; k++) {
        check_meter(some_meter(&state));
        check_meter(likely_meter(&state));
        check_meter(likely_meter(&state));
        check_meter(noisy_meter(&state));
        check_meter(meter_at_limit(&state));
    }
    check_current_floor();
    expect_met(met, CASES);
    return tell_checks("test_values");
}
