/* value_rule.h: what is read off a meter, by the rule, for a meter of any bytes.
 *
 * Written out from document 01 and the published text. What it takes from other leaves (leaf_totals,
 * leaf_hypot, leaf_sqrt, leaf_max) has tests of its own. */
#ifndef VALUE_RULE_H
#define VALUE_RULE_H

#include "shown.h"

enum { ACDC = 0, AC = 3, OF_CURRENT = 0xF0 };

/* DC coupling in force, else the alternating method, else method B. */
enum way { B, ALTERNATING, DIRECT };

static inline enum way way_of(const struct pw_meter *pw)
{
    return pw->mode.dc ? DIRECT : pw->mode.alt ? ALTERNATING : B;
}

static inline float v_limit(const struct pw_meter *pw)
{
    static const float limits[] = {6.0f, 60.0f, 600.0f, 1000.0f};
    return limits[pw->ranges.vr > 3 ? 3 : pw->ranges.vr];
}

static inline float i_limit(const struct pw_meter *pw)
{
    static const float limits[] = {600e-6f, 6e-3f, 0.06f, 0.6f, 6.0f, 10.0f};
    return limits[pw->ranges.ik > 5 ? 5 : pw->ranges.ik];
}

/* The resistance of the path by the current's unit: uA up to 1, mA up to 3, else A. */
static inline float path(const struct pw_meter *pw)
{
    return pw->settings.r_path[pw->ranges.ik > 3 ? 0 : pw->ranges.ik > 1 ? 1 : 2];
}

static inline bool has_volts(const struct pw_meter *pw)
{
    return pw->parts.v_ac >= 0.005f * v_limit(pw);
}

static inline bool has_amperes(const struct pw_meter *pw)
{
    return pw->parts.i_ac >= 0.005f * i_limit(pw);
}

static inline float watt_hours(struct pw_acc a)
{
    return (float)(((double)a.mj + (double)a.frac) / 3.6e6);
}

/* What does not need a measurement. */
static inline struct pw_power_vals unmeasured(const struct pw_meter *pw)
{
    struct pw_power_vals e = no_values();
    e.energies.e_wh = watt_hours(pw->tally.e);
    e.energies.vah = watt_hours(pw->tally.va);
    e.energies.secs = (uint32_t)(pw->tally.t_int / 1000 % (UINT64_C(1) << 32));
    e.ranges = pw->ranges;
    e.in_force.alt = way_of(pw) == ALTERNATING;
    e.in_force.dc = pw->mode.dc;
    e.in_force.coup = pw->mode.coup;
    e.in_force.comp = pw->settings.comp;
    e.in_force.run = pw->clock.run;
    e.in_force.sph = pw->phase_cal.sph;
    e.in_force.main = pw->settings.main;
    return e;
}

/* The parts that count: below a floor an AC part counts as none in method B, and in AC coupling there is no DC
 * part, but for DC coupling in force. */
static inline struct pw_parts counted(const struct pw_meter *pw)
{
    struct pw_parts p = pw->parts;
    if (pw->mode.coup == AC && !pw->mode.dc)
        p.v_dc = p.i_dc = 0.0f;
    if (way_of(pw) != B)
        return p;
    if (!has_volts(pw) || !has_amperes(pw))
        p.p_ac = 0.0f;
    if (!has_volts(pw))
        p.v_ac = 0.0f;
    if (!has_amperes(pw))
        p.i_ac = 0.0f;
    return p;
}

static inline struct pw_figures load(const struct pw_meter *pw)
{
    struct pw_parts p = counted(pw);
    if (way_of(pw) == ALTERNATING) {
        float i = leaf_hypot(p.i_ac, p.i_dc);
        return (struct pw_figures){.p = NAN, .s = p.v_ac * i, .q = NAN, .pf = NAN, .v = p.v_ac, .i = i};
    }
    float r = pw->settings.comp ? path(pw) : 0.0f;
    struct pw_figures t = leaf_totals(p.p_ac, p.v_ac, p.v_dc, p.i_ac, p.i_dc, r);
    if (way_of(pw) == DIRECT)
        return t;
    bool phase = has_volts(pw) && has_amperes(pw);
    float noise = leaf_hypot(0.001f * v_limit(pw) * t.i, t.v * 0.0025f * i_limit(pw));
    if (pw->mode.coup == AC && !phase)
        t.s = t.q = t.pf = NAN;
    else if (!phase || t.q < noise)
        t.q = 0.0f;
    return t;
}

static inline struct pw_split split(const struct pw_meter *pw)
{
    struct pw_parts p = counted(pw);
    float r = pw->settings.comp ? path(pw) : 0.0f;
    struct pw_split s = {0.0f, 0.0f, 0.0f, 0.0f, 0.0f, 0.0f};
    if (way_of(pw) != B || pw->mode.coup != ACDC)
        return s;
    s.v_dc = p.v_dc - r * p.i_dc;
    s.v_ac = leaf_sqrt(leaf_max(p.v_ac * p.v_ac - 2.0f * r * p.p_ac + r * r * p.i_ac * p.i_ac, 0.0f));
    s.i_dc = p.i_dc;
    s.i_ac = p.i_ac;
    s.p_dc = p.v_dc * p.i_dc - r * p.i_dc * p.i_dc;
    s.p_ac = p.p_ac - r * p.i_ac * p.i_ac;
    return s;
}

static inline uint8_t hint(const struct pw_meter *pw)
{
    float v = 0.005f * v_limit(pw), i = 0.005f * i_limit(pw);
    bool steady = fabsf(pw->parts.v_dc) >= v || fabsf(pw->parts.i_dc) >= i;
    if (way_of(pw) == B)
        return pw->mode.coup == ACDC && !has_volts(pw) && !has_amperes(pw) && steady ? 1 : 0;
    return way_of(pw) == DIRECT && (pw->cycle.seen & 2) != 0 && pw->parts.vac_dc >= v ? 2 : 0;
}

static inline bool frequency(const struct pw_meter *pw)
{
    bool watched = pw->comparator.r20 == OF_CURRENT ? has_amperes(pw) : has_volts(pw);
    return way_of(pw) == ALTERNATING || (way_of(pw) == B && pw->comparator.f_ok && watched);
}

/* The elapsed seconds are none before the start, and only their low 16 bits count. */
static inline struct pw_limits limits(const struct pw_meter *pw)
{
    struct pw_parts p = pw->parts;
    uint64_t begun = pw->over_t0.at, now = pw->clock.t_poll, limit = pw->settings.t_lim;
    uint64_t elapsed = now < begun ? 0 : (now - begun) / 1000 % 65536;
    struct pw_limits l = {.over = 0, .over_left = 0};
    l.v_ol = leaf_hypot(p.v_ac, p.v_dc) > pw->description.over * v_limit(pw);
    l.i_ol = leaf_hypot(p.i_ac, p.i_dc) > pw->description.over * i_limit(pw);
    if (pw->over_t0.set && limit > 0) {
        l.over = elapsed < limit ? 1 : 2;
        l.over_left = elapsed < limit ? (uint16_t)(limit - elapsed) : 0;
    }
    return l;
}

static inline struct pw_vals expected_vals(const struct pw_meter *pw)
{
    struct pw_vals e = {false, no_values()};
    uint8_t need = way_of(pw) == ALTERNATING ? 6 : 7;
    bool ac = pw->mode.coup == AC && !pw->mode.dc;
    if (!pw->mode.on || (pw->cycle.seen & need) != need)
        return e;
    e = (struct pw_vals){true, unmeasured(pw)};
    e.vals.load = load(pw);
    e.vals.vdc = ac || way_of(pw) == ALTERNATING ? NAN : pw->parts.v_dc;
    e.vals.idc = ac ? NAN : pw->parts.i_dc;
    e.vals.f_ok = frequency(pw);
    e.vals.burden_v = e.vals.load.i * path(pw);
    if (pw->tally.t_int > 0 && way_of(pw) != ALTERNATING)
        e.vals.energies.p_avg = e.vals.energies.e_wh * 3.6e6f / (float)pw->tally.t_int;
    e.vals.limits = limits(pw);
    e.vals.hint = hint(pw);
    e.vals.split = split(pw);
    return e;
}

/* A job has its text, whether there are values or not; volts are not shown in a job. */
static inline struct pw_partial expected_partial(const struct pw_meter *pw)
{
    struct pw_partial e = {.text = 0};
    uint8_t vr = pw->ranges.vr > 3 ? 3 : pw->ranges.vr;
    if (!pw->mode.on)
        return e;
    e.text = pw->job.job == 1 ? 1 : pw->job.job == 2 ? 2 : expected_vals(pw).measured ? 0 : 3;
    e.with_volts = e.text != 0 && pw->job.job == 0 && (pw->cycle.seen & 2) != 0;
    if (e.with_volts)
        e.volts = (struct pw_val){leaf_hypot(pw->parts.v_ac, pw->parts.v_dc), (uint8_t)(4 - vr), 0, false};
    return e;
}

static inline bool expected_integrating(const struct pw_meter *pw)
{
    return pw->mode.on && pw->clock.run && (pw->cycle.seen & 4) != 0
           && leaf_hypot(pw->parts.i_ac, pw->parts.i_dc) > 50e-6f;
}

#endif
