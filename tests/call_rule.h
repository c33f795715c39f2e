/* call_rule.h: what each call of pw.h does, by its rule, for a meter of any bytes.
 *
 * Written out from document 01 and the published text. What a frame measures is leaf_frame's; in a job it is
 * job_rule.h's where the meter is one that calls have led to, else leaf_job_poll's; the readouts of a reading are
 * pw_reading_vals's. All have tests of their own. */
#ifndef CALL_RULE_H
#define CALL_RULE_H

#include "energy.h"
#include "job_rule.h"
#include "value_rule.h"

/* The calls, with what each is handed. */
enum which {
    CALL_ON, CALL_OFF, CALL_METHOD, CALL_RANGES, CALL_COUPLING, CALL_ZERO, CALL_GAIN, CALL_PHASE, CALL_RESET, CALL_RUN,
    CALL_SET, CALL_REAPPLY, CALL_FRAME, CALLS
};
struct call {
    enum which which;
    uint64_t time;
    bool yes;            /* alternating; run */
    uint16_t v, i;       /* the ranges asked for */
    uint8_t byte;        /* the coupling; a frame's flags */
    struct pw_settings settings;
    const uint8_t *lent; /* a frame's bytes */
    size_t length;
    bool reached; /* the meter is one that calls have led to */
};

/* ---- refusals ---- */

/* "All but phase start, energy reset, run and settings carry a time." */
static inline bool has_time(enum which w)
{
    return w != CALL_PHASE && w != CALL_RESET && w != CALL_RUN && w != CALL_SET;
}

static inline bool is_job_start(enum which w)
{
    return w == CALL_ZERO || w == CALL_GAIN;
}

/* Whether the condition of a refusal holds, whatever others do. */
static inline bool has_reason(uint8_t refusal, const struct pw_meter *pw, const struct call *c)
{
    switch (refusal) {
    case PW_OFF:
        return !pw->mode.on && (c->which == CALL_FRAME || is_job_start(c->which) || c->which == CALL_PHASE);
    case PW_BUSY:
        return pw->job.job != 0 && (is_job_start(c->which) || c->which == CALL_REAPPLY);
    case PW_METHOD:
        return (is_job_start(c->which) && pw->mode.alt) || (c->which == CALL_PHASE && (pw->mode.alt || pw->mode.dc));
    case PW_FRAME:
        return c->which == CALL_FRAME && c->length != 14;
    case PW_LATE:
        return has_time(c->which) && c->time >= UINT64_C(0x1000000000000);
    default:
        return false;
    }
}

/* "Order: .. 5, 4, 1, 2, 3, and 6 last." */
static inline uint8_t first_reason(const struct pw_meter *pw, const struct call *c)
{
    static const uint8_t order[] = {5, 4, 1, 2, 3};
    for (size_t k = 0; k < sizeof order; k++)
        if (has_reason(order[k], pw, c))
            return order[k];
    return PW_DONE;
}

/* ---- what a call leaves and answers ---- */

/* "A refused call returns its number alone: no reading, no mark to the host, a count of 0." Where there is no
 * reading every number of it is 0 and every bool no. */
static inline struct pw_step without_more(struct pw_meter pw, uint8_t refusal)
{
    return (struct pw_step){.meter = pw, .answer = {.refusal = refusal}};
}

static inline struct pw_step with_mark(struct pw_meter pw, struct pw_stamp mark)
{
    struct pw_step s = without_more(pw, PW_DONE);
    s.answer.mark = mark;
    return s;
}

/* The source's pw_apply. */
static inline struct pw_step applied(struct pw_meter pw, uint8_t keep, uint64_t now)
{
    static const uint8_t cycle[] = {PW_R34_XY, PW_R34_YY, PW_R34_XY, PW_R34_XX};
    bool both = !pw.mode.alt && !pw.mode.dc;
    pw.cycle.phase = both && keep == PW_SEEN_V ? 3 : both && keep == PW_SEEN_I ? 1 : 0;
    pw.cycle.stat = cycle[pw.cycle.phase];
    pw.cycle.seen &= keep;
    pw.cycle.taken = 0;
    pw.cycle.skip = pw.mode.dc ? 1 : pw.mode.alt ? 4 : 0;
    pw.cycle.skip_y = 1;
    if (pw.comparator.cmp_vr != pw.ranges.vr)
        pw.comparator = (struct pw_comparator){.r20 = 0x10, .r21 = 0xDD, .f_ok = true, .cmp_vr = pw.ranges.vr};
    return with_mark(pw, (struct pw_stamp){true, now + 550});
}

static inline struct pw_step applied_if_on(struct pw_meter pw, uint64_t now)
{
    return pw.mode.on ? applied(pw, 0, now) : without_more(pw, PW_DONE);
}

/* ---- orders; each of on, off, method, ranges and coupling first ends a job with JR_ABORT ---- */

static inline struct pw_step ordered_ranges(struct pw_meter pw, const struct call *c)
{
    if (c->i <= PW_AUTO)
        pw.barred = 0;
    struct pw_ranges old = pw.ranges;
    if (c->v <= PW_AUTO)
        pw.ranges.v_auto = c->v == PW_AUTO;
    if (c->v < PW_AUTO)
        pw.ranges.vr = (uint8_t)(c->v > 3 ? 3 : c->v);
    if (c->i <= PW_AUTO)
        pw.ranges.i_auto = c->i == PW_AUTO;
    if (c->i < PW_AUTO)
        pw.ranges.ik = (uint8_t)(c->i > 5 ? 5 : c->i);
    bool same_v = pw.ranges.vr == old.vr, same_i = pw.ranges.ik == old.ik;
    if (!pw.mode.on || (same_v && same_i))
        return without_more(pw, PW_DONE);
    return applied(pw, same_v ? PW_SEEN_V : same_i ? PW_SEEN_I : 0, c->time);
}

static inline struct pw_step ordered_coupling(struct pw_meter pw, const struct call *c)
{
    static const uint8_t couplings[] = {PW_COUP_ACDC, PW_COUP_DC, PW_COUP_ACDC, PW_COUP_AC};
    pw.mode.coup = couplings[c->byte % 4];
    bool dc = pw.mode.coup == PW_COUP_DC;
    if (!pw.mode.on || (dc == pw.mode.dc && pw.job.job_res != PW_JR_ABORT))
        return without_more(pw, PW_DONE);
    pw.mode.dc = dc;
    return applied(pw, 0, c->time);
}

static inline struct pw_step ordered(struct pw_meter pw, const struct call *c)
{
    pw = ended(pw, PW_JR_ABORT);
    switch (c->which) {
    case CALL_ON:
        pw.mode.on = true;
        pw.mode.dc = pw.mode.coup == PW_COUP_DC;
        return applied(pw, 0, c->time);
    case CALL_OFF:
        pw.mode.on = false;
        return without_more(pw, PW_DONE);
    case CALL_METHOD:
        pw.mode.alt = c->yes;
        return applied_if_on(pw, c->time);
    case CALL_RANGES:
        return ordered_ranges(pw, c);
    default:
        return ordered_coupling(pw, c);
    }
}

/* Phase start, energy reset, run, settings and re-apply, which end no job. */
static inline struct pw_step ordered_in_job(struct pw_meter pw, const struct call *c)
{
    switch (c->which) {
    case CALL_PHASE:
        pw.phase_cal = phase_started(pw.phase_cal);
        return without_more(pw, PW_DONE);
    case CALL_RESET:
        pw.tally = (struct pw_tally){.t_int = 0};
        pw.clock.t_last.set = false;
        return without_more(pw, PW_DONE);
    case CALL_RUN:
        pw.clock.run = c->yes;
        return without_more(pw, PW_DONE);
    case CALL_SET:
        pw.settings = c->settings;
        return without_more(pw, PW_DONE);
    default:
        pw.mode.cal_req = false;
        return applied(pw, 0, c->time);
    }
}

/* ---- frames ---- */

/* The `width` low bits of the bytes from `first` to `last`, the lowest byte first, in two's complement. */
static inline int64_t code_in(const uint8_t *bytes, unsigned first, unsigned last, unsigned width)
{
    uint64_t code = 0;
    for (unsigned k = last + 1; k-- > first;)
        code = code * 256 + bytes[k];
    code %= UINT64_C(1) << width;
    return code >> (width - 1) == 0 ? (int64_t)code : (int64_t)code - (INT64_C(1) << width);
}

static inline bool added(struct pw_acc *acc, float joules)
{
    float millijoules = joules * 1000.0f;
    struct step s = expected_step(acc->mj, acc->frac + millijoules);
    *acc = (struct pw_acc){s.mj, s.frac};
    return s.fits;
}

/* The interval since the last accounted frame, at that one's powers; no where it does not fit. */
static inline bool counted_interval(struct pw_meter *pw, uint64_t now)
{
    if (!pw->clock.run || !pw->clock.t_last.set)
        return true;
    uint64_t last = pw->clock.t_last.at, dt = now > last ? now - last : 0;
    float seconds = (float)dt * 1e-3f;
    bool active = !pw->mode.alt || pw->mode.dc;
    if (active && !added(&pw->tally.e, pw->powers.p_tot * seconds))
        return false;
    if (!added(&pw->tally.va, pw->powers.s_last * seconds))
        return false;
    if (pw->tally.t_int > INT64_MAX || dt > INT64_MAX - pw->tally.t_int)
        return false;
    pw->tally.t_int += dt;
    return true;
}

/* The source's pw_account, but for its tally: the values are those before it. */
static inline void account_rest(struct pw_meter *pw, uint64_t now, const struct pw_power_vals *v)
{
    pw->clock.t_last = (struct pw_stamp){pw->clock.run, now};
    pw->powers.s_last = isfinite(v->load.s) ? v->load.s : 0.0f;
    pw->powers.p_tot = isfinite(v->load.p) ? v->load.p : 0.0f;
    float limit = pw->settings.i_cont;
    if (v->load.i > limit && !pw->over_t0.set)
        pw->over_t0 = (struct pw_stamp){true, now};
    else if (v->load.i < 0.95f * limit && !(v->load.i > limit))
        pw->over_t0.set = false;
    struct leaf_phase_step p = accounted(pw->phase_cal, pw->mode.cal_req);
    pw->phase_cal = p.phase_cal;
    pw->mode.cal_req = p.cal_req;
}

static inline struct pw_step framed_in_job(const struct pw_meter *pw, const struct call *c, struct codes codes)
{
    struct leaf_polled p = c->reached
                               ? polled(*pw, &codes)
                               : leaf_job_poll(*pw, c->time, c->byte, codes.ad1, codes.lpf, codes.rms);
    struct pw_step s = with_mark(p.pw, p.mark);
    s.answer.used = p.used;
    return s;
}

static inline struct pw_step framed(const struct pw_meter *pw, const struct call *c)
{
    struct codes codes = {c->time, c->byte, (int32_t)code_in(c->lent, 0, 2, 24), (int32_t)code_in(c->lent, 6, 8, 19),
                          code_in(c->lent, 9, 13, 38)};
    if (pw->job.job != 0)
        return framed_in_job(pw, c, codes);
    struct leaf_outcome o = leaf_frame(*pw, c->time, c->byte, codes.ad1, codes.lpf, codes.rms);
    o.pw.clock.t_poll = c->time;
    struct pw_vals before = expected_vals(&o.pw);
    if (!o.to_values || !before.measured)
        return with_mark(o.pw, o.mark);
    struct pw_meter after = o.pw;
    if (!counted_interval(&after, c->time))
        return without_more(*pw, PW_FULL);
    account_rest(&after, c->time, &before.vals);
    struct pw_step s = with_mark(after, o.mark);
    s.answer.has_reading = true;
    s.answer.reading.vals = expected_vals(&after).vals;
    s.answer.reading.readouts = pw_reading_vals(s.answer.reading.vals);
    return s;
}

/* ---- a call ---- */

static inline struct pw_step step_by_rule(const struct pw_meter *pw, const struct call *c)
{
    uint8_t refusal = first_reason(pw, c), kind = c->which == CALL_ZERO ? ZERO_JOB : GAIN_JOB;
    if (refusal != PW_DONE)
        return without_more(refusal == PW_METHOD && is_job_start(c->which) ? turned_away(*pw, kind) : *pw, refusal);
    if (c->which == CALL_FRAME)
        return framed(pw, c);
    if (c->which < CALL_ZERO)
        return ordered(*pw, c);
    if (!is_job_start(c->which))
        return ordered_in_job(*pw, c);
    struct leaf_started s = started(*pw, kind, c->time);
    return with_mark(s.pw, s.mark);
}

#endif
