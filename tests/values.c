#include "values.h"

#include "cases.h"

#include <math.h>

enum { AC = 3, OF_CURRENT = 0xF0 };

/* ---- cases ---- */

enum met {
    B_ACDC, B_AC, ALT_ACDC, ALT_AC, MEASURED_DC, MEASURED_IN_JOB, NONE_B, NONE_ALT, NONE_DC, NONE_OFF, NONE_IN_JOB,
    BURDEN_OFF, BURDEN_ON, HINT_NO_AC, HINT_AC, OVER_COUNTING, OVER_EXPIRED, OVER_BEGUN_AGAIN, OVER_NOT_BEGUN,
    OVER_NO_LIMIT, V_OVER, I_OVER, F_OF_V, F_OF_I, NO_F_FLOOR, NO_F_COMPARATOR, F_ALT,
    NO_PHASE_V, NO_PHASE_I, Q_NOISE, Q_LEFT_OUT, Q_LEFT, SPLIT, SPLIT_BURDEN, P_AVG, NO_P_AVG, SECONDS_CUT,
    MAIN_P, MAIN_WH, MAIN_VAH, MAIN_OTHER, ALT_ENERGY, MWH, WH, KWH, VAH, KVAH, ENERGY_BESIDE_OVER, NO_MINUS,
    BT_OVER, BT_FEWER, BT_HELD, BT_MILLI, BT_KILO, PARTIAL_NONE, PARTIAL_ZERO, PARTIAL_GAIN, PARTIAL_RANGING,
    PARTIAL_VOLTS, INTEGRATING, BELOW_FLOOR, STOPPED, MODE_AUTO, MODE_MANUAL, CASES
};
static const char *const cases[CASES] = {
    [B_ACDC] = "values of B in AC+DC", [B_AC] = "values of B in AC", [ALT_ACDC] = "values of alternating in AC+DC",
    [ALT_AC] = "values of alternating in AC", [MEASURED_DC] = "values of DC", [MEASURED_IN_JOB] = "values in a job",
    [NONE_B] = "none in B", [NONE_ALT] = "none in alternating", [NONE_DC] = "none in DC", [NONE_OFF] = "none off",
    [NONE_IN_JOB] = "none in a job", [BURDEN_OFF] = "burden left in", [BURDEN_ON] = "burden taken off",
    [HINT_NO_AC] = "hint 1", [HINT_AC] = "hint 2", [OVER_COUNTING] = "over 1", [OVER_EXPIRED] = "over 2",
    [OVER_BEGUN_AGAIN] = "over 1 past 65,536 s", [OVER_NOT_BEGUN] = "over with the clock before it",
    [OVER_NO_LIMIT] = "over without a limit", [V_OVER] = "V over its range", [I_OVER] = "I over its range",
    [F_OF_V] = "frequency of V", [F_OF_I] = "frequency of I", [NO_F_FLOOR] = "no frequency by the I floor",
    [NO_F_COMPARATOR] = "no frequency by the comparator", [F_ALT] = "frequency of alternating without a window",
    [NO_PHASE_V] = "S and PF none by the V floor", [NO_PHASE_I] = "S and PF none by the I floor",
    [Q_NOISE] = "Q of noise", [Q_LEFT_OUT] = "Q left out below a floor", [Q_LEFT] = "Q", [SPLIT] = "split",
    [SPLIT_BURDEN] = "split with burden taken off", [P_AVG] = "mean power", [NO_P_AVG] = "no mean power",
    [SECONDS_CUT] = "seconds past 2^32", [MAIN_P] = "main 0", [MAIN_WH] = "main 1", [MAIN_VAH] = "main 2",
    [MAIN_OTHER] = "main other", [ALT_ENERGY] = "main 1 of alternating", [MWH] = "mWh", [WH] = "Wh", [KWH] = "kWh",
    [VAH] = "VAh", [KVAH] = "kVAh", [ENERGY_BESIDE_OVER] = "energy beside a range passed",
    [NO_MINUS] = "no minus zero", [BT_OVER] = "telephone over", [BT_FEWER] = "telephone with fewer decimals",
    [BT_HELD] = "telephone held", [BT_MILLI] = "telephone in mV", [BT_KILO] = "telephone of kW",
    [PARTIAL_NONE] = "partial none", [PARTIAL_ZERO] = "partial 1", [PARTIAL_GAIN] = "partial 2",
    [PARTIAL_RANGING] = "partial 3", [PARTIAL_VOLTS] = "partial 3 with volts", [INTEGRATING] = "integrating",
    [BELOW_FLOOR] = "not integrating below the floor", [STOPPED] = "not integrating while stopped",
    [MODE_AUTO] = "mode byte automatic", [MODE_MANUAL] = "mode byte by hand",
};
static uint64_t met[CASES];

static void count(enum met which, bool was)
{
    met[which] += was ? 1 : 0;
}

bool put_value_cases(uint64_t least)
{
    return put_cases(cases, met, CASES, least);
}

/* ---- which cases a dump is, by the dump ---- */

/* The floors of method B, 0.5 % of the limit of the range. */
static bool v_is_ok(const struct pw_meter *pw)
{
    return pw->parts.v_ac >= 0.005f * leaf_v_lim(pw->ranges.vr);
}

static bool i_is_ok(const struct pw_meter *pw)
{
    return pw->parts.i_ac >= 0.005f * leaf_i_lim(pw->ranges.ik);
}

static void count_measured(const struct call *c)
{
    const struct pw_meter *pw = &c->after;
    bool yes = c->vals.measured, no = !yes && pw->mode.on, ac = pw->mode.coup == AC;
    bool dc = pw->mode.dc, alt = pw->mode.alt && !dc, b = !pw->mode.alt && !dc, job = pw->job.job != 0;
    count(B_ACDC, yes && b && !ac);
    count(B_AC, yes && b && ac);
    count(ALT_ACDC, yes && alt && !ac);
    count(ALT_AC, yes && alt && ac);
    count(MEASURED_DC, yes && dc);
    count(MEASURED_IN_JOB, yes && job);
    count(NONE_B, no && b && !job);
    count(NONE_ALT, no && alt);
    count(NONE_DC, no && dc && !job);
    count(NONE_IN_JOB, no && job);
    count(NONE_OFF, !pw->mode.on && pw->cycle.seen == 7);
    count(INTEGRATING, c->shown.integrating);
    bool seen = pw->mode.on && (pw->cycle.seen & 4) != 0 && !c->shown.integrating;
    count(BELOW_FLOOR, seen && pw->clock.run);
    count(STOPPED, seen && !pw->clock.run);
    count(MODE_AUTO, pw->ranges.v_auto);
    count(MODE_MANUAL, !pw->ranges.v_auto);
}

static void count_limits(const struct call *c)
{
    const struct pw_meter *pw = &c->after;
    const struct pw_limits *l = &c->vals.vals.limits;
    uint64_t now = pw->clock.t_poll, begun = pw->over_t0.at;
    bool above = pw->over_t0.set && pw->settings.t_lim > 0;
    uint64_t seconds = above && now > begun ? (now - begun) / 1000 : 0;
    count(OVER_COUNTING, l->over == 1);
    count(OVER_EXPIRED, l->over == 2);
    count(OVER_BEGUN_AGAIN, l->over == 1 && seconds >= 65536);
    count(OVER_NOT_BEGUN, above && now < begun);
    count(OVER_NO_LIMIT, pw->over_t0.set && pw->settings.t_lim == 0);
    count(V_OVER, l->v_ol);
    count(I_OVER, l->i_ol);
}

/* Of method B: the frequency, the figures below a floor, the reactive power, the split. No call leads to
 * a window of a voltage below its floor: a window needs more volts, and is chosen again with each voltage
 * (test_values has it). A current that the comparator is on falls below its floor by the range of a job. */
static void count_b(const struct call *c)
{
    const struct pw_meter *pw = &c->after;
    const struct pw_power_vals *v = &c->vals.vals;
    const struct pw_comparator *f = &pw->comparator;
    bool v_ok = v_is_ok(pw), i_ok = i_is_ok(pw), ac = pw->mode.coup == AC, of_i = f->r20 == OF_CURRENT;
    bool burden = pw->settings.comp && v->burden_v != 0.0f;
    count(F_OF_V, v->f_ok && !of_i && !i_ok);
    count(F_OF_I, v->f_ok && of_i && !v_ok);
    count(NO_F_FLOOR, f->f_ok && of_i && !i_ok && v_ok);
    count(NO_F_COMPARATOR, !f->f_ok && v_ok && i_ok);
    count(NO_PHASE_V, ac && !v_ok && i_ok);
    count(NO_PHASE_I, ac && v_ok && !i_ok);
    struct pw_parts p = pw->parts;
    float va = v_ok ? p.v_ac : 0.0f, ia = i_ok ? p.i_ac : 0.0f, pa = v_ok && i_ok ? p.p_ac : 0.0f;
    float r = pw->settings.comp ? pw->settings.r_path[leaf_iu_ir(pw->ranges.ik).iu] : 0.0f;
    float q = leaf_totals(pa, va, ac ? 0.0f : p.v_dc, ia, ac ? 0.0f : p.i_dc, r).q;
    count(Q_NOISE, v_ok && i_ok && q > 0.0f && v->load.q == 0.0f);
    count(Q_LEFT_OUT, !ac && !(v_ok && i_ok) && q > 0.0f && v->load.q == 0.0f);
    count(Q_LEFT, v->load.q > 0.0f);
    bool split = v->split.p_dc != 0.0f && v->split.p_ac != 0.0f;
    count(SPLIT, split && !burden);
    count(SPLIT_BURDEN, split && burden && v->split.v_ac != va);
}

static void count_values(const struct call *c)
{
    const struct pw_power_vals *v = &c->vals.vals;
    const struct pw_meter *pw = &c->after;
    bool burden = v->burden_v != 0.0f;
    count(BURDEN_OFF, burden && !pw->settings.comp);
    count(BURDEN_ON, burden && pw->settings.comp);
    count(HINT_NO_AC, v->hint == 1);
    count(HINT_AC, v->hint == 2);
    count(F_ALT, v->in_force.alt && v->f_ok && !pw->comparator.f_ok);
    count(P_AVG, !isnan(v->energies.p_avg) && v->energies.p_avg != 0.0f);
    count(NO_P_AVG, isnan(v->energies.p_avg));
    count_limits(c);
    if (!pw->mode.dc && !pw->mode.alt)
        count_b(c);
}

static void count_unit(enum met which, const struct shown *s, uint8_t unit)
{
    count(which, s->readouts.main.unit == unit || s->energy.unit == unit);
}

static void count_shown(const struct call *c)
{
    const struct pw_power_vals *v = &c->state;
    const struct shown *s = &c->shown;
    uint8_t main = v->in_force.main, vr = v->ranges.vr;
    bool ol = v->limits.v_ol || v->limits.i_ol, energy = main == 1 || main == 2;
    count(SECONDS_CUT, c->after.tally.t_int / 1000 > UINT32_MAX);
    count(MAIN_P, main == 0 && c->vals.measured);
    count(MAIN_WH, main == 1 && c->vals.measured);
    count(MAIN_VAH, main == 2 && c->vals.measured);
    count(MAIN_OTHER, main > 2 && c->vals.measured);
    count(ALT_ENERGY, main == 1 && v->in_force.alt);
    count_unit(MWH, s, PW_UNIT_MWH);
    count_unit(WH, s, PW_UNIT_WH);
    count_unit(KWH, s, PW_UNIT_KWH);
    count_unit(VAH, s, PW_UNIT_VAH);
    count_unit(KVAH, s, PW_UNIT_KVAH);
    count(ENERGY_BESIDE_OVER, ol && energy && s->readouts.main.number != 0.0f);
    count(NO_MINUS, !ol && !energy && s->readouts.si < 0.0f && bits32(s->readouts.main.number) == 0);
    count(BT_OVER, s->bt.over);
    bool kilo = vr == 3 && v->ranges.ik == 5;
    count(BT_FEWER, !s->bt.over && !kilo && !energy && s->bt.decimals < s->readouts.main.decimals);
    count(BT_HELD, fabsf(s->bt.number) == 65534.0f);
    count(BT_MILLI, s->bt.unit == PW_UNIT_MV && s->bt.number != 0.0f);
    count(BT_KILO, kilo && s->bt.number != 0.0f);
    const struct pw_partial *p = &s->partial;
    count(PARTIAL_NONE, p->text == 0 && c->after.mode.on);
    count(PARTIAL_ZERO, p->text == 1);
    count(PARTIAL_GAIN, p->text == 2);
    count(PARTIAL_RANGING, p->text == 3 && !p->with_volts);
    count(PARTIAL_VOLTS, p->text == 3 && p->with_volts && p->volts.number != 0.0f);
}

/* ---- comparing ---- */

size_t check_values(const struct call *c, const char *what, size_t most)
{
    char of[100];
    struct pw_vals vals = pw_vals(c->after);
    struct pw_power_vals state = pw_state(c->after), none = no_values();
    struct shown shown = {
        pw_reading_vals(c->state), pw_energy_val(c->state), pw_bt_main(c->state), pw_partial(c->after),
        pw_integrating(c->after), pw_bt_mode_byte(c->after.ranges.v_auto, c->after.ranges.vr),
    };
    size_t differ = vals.measured == c->vals.measured ? 0 : 1;
    if (differ > 0 && most > 0)
        printf("%s: measured is to be %d, is %d\n", what, c->vals.measured, vals.measured);
    snprintf(of, sizeof of, "%s, values", what);
    const struct pw_power_vals *values = c->vals.measured ? &c->vals.vals : &none;
    differ += differences_in(value_fields, VALUE_FIELDS, values, &vals.vals, of, most);
    snprintf(of, sizeof of, "%s, state", what);
    differ += differences_in(value_fields, VALUE_FIELDS, &c->state, &state, of, most);
    snprintf(of, sizeof of, "%s, shown", what);
    differ += differences_in(shown_fields, SHOWN_FIELDS, &c->shown, &shown, of, most);
    count_measured(c);
    count_shown(c);
    if (c->vals.measured)
        count_values(c);
    return differ;
}
