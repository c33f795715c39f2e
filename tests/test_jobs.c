/* test_jobs: the jobs and the phase calibration, beside their rules written out in C (job_rule.h), over meters of
 * any bytes with a job in each of its steps; and what holds of a frame in a job whatever the meter and the codes are.
 * Many are such as no order leads to: ranges past the tables, sums that are no number, a job while the meter is off.
 *
 * The last line counts the checks, and the status is 1 where one failed. */
#include "checks.h"
#include "floats.h"
#include "job_rule.h"
#include "meters.h"

#include <stdlib.h>

static void expect_same(const struct pw_meter *expected, const struct pw_meter *got, const char *what)
{
    checks++;
    failed += differences(expected, got, what, failed <= 10 ? 4 : 0) == 0 ? 0 : 1;
}

/* ---- cases ---- */

enum met {
    NOT_READY, DROPPED, COUNTED, NEXT, HELD, ROOT, ROOT_AT_LIMIT, FAR, AT_LIMIT, ZERO_OK, SMALL, BIG, UNSTABLE, RANGE,
    GAIN_DC, GAIN_AC, AT_LEAST_GAIN, AT_MOST_GAIN, HELD_VR, LAST_TIME, ROUND_UP, ROUND_DOWN, NOT_REACTIVE, FOUND,
    FLAT, OUT, CASES
};
static uint64_t met[CASES];

static void count(enum met which, bool was)
{
    met[which] += was ? 1 : 0;
}

/* A reading of a zero job, and what came of it. */
static void count_zero(const struct pw_meter *pw, const struct codes *c, const struct leaf_polled *e)
{
    const struct pw_job *a = &e->pw.job;
    bool ad1 = is_zero_of_ad1(&pw->job), over = a->job == 0, signal = over && a->job_res == JR_SIGNAL;
    int32_t distance = abs((ad1 ? c->ad1 : c->lpf) - old_zero(pw)), most = ad1 ? 20000 : 4000;
    count(HELD, e->mark.set && ad1 && a->job_zd[pw->job.job_step - 6] == INT16_MAX);
    count(ROOT, !ad1 && c->rms == 160001 && distance <= most && signal);
    count(ROOT_AT_LIMIT, !ad1 && c->rms == 160000 && !over);
    count(FAR, distance == most + 1 && signal);
    count(AT_LIMIT, distance == most && !over);
    count(ZERO_OK, over && a->job_res == JR_OK);
}

/* A gain job that has ended. */
static void count_gain(const struct pw_meter *pw, const struct leaf_polled *e)
{
    const struct pw_job *a = &e->pw.job;
    bool ok = a->job_res == JR_OK;
    float gain = e->pw.corrections.vgain[pw->ranges.vr > 3 ? 3 : pw->ranges.vr];
    count(SMALL, a->job_res == JR_SMALL);
    count(BIG, a->job_res == JR_BIG);
    count(UNSTABLE, a->job_res == JR_UNSTABLE);
    count(RANGE, a->job_res == JR_RANGE);
    count(GAIN_DC, ok && a->job_dc);
    count(GAIN_AC, ok && !a->job_dc);
    count(AT_LEAST_GAIN, ok && gain == 0.9f);
    count(AT_MOST_GAIN, ok && gain == 1.1f);
    count(HELD_VR, ok && pw->ranges.vr > 3);
}

static void count_job(const struct pw_meter *pw, const struct codes *c, const struct leaf_polled *e)
{
    bool ready = is_ready(&pw->job, c->flags), taken = ready && pw->cycle.skip == 0, over = e->pw.job.job == 0;
    count(NOT_READY, !ready);
    count(DROPPED, ready && !taken);
    count(COUNTED, taken && !over && !e->mark.set);
    count(NEXT, e->mark.set);
    count(LAST_TIME, e->mark.set && e->mark.at == UINT64_MAX);
    if (taken && pw->job.job == ZERO_JOB)
        count_zero(pw, c, e);
    if (over && pw->job.job == GAIN_JOB)
        count_gain(pw, e);
}

/* ---- meters and frames ---- */

static uint64_t below(uint64_t *state, uint64_t n)
{
    return next(state) % n;
}

/* The float, or unless it is zero one of the next two on either side. */
static float beside(uint64_t *state, float x)
{
    return x == 0.0f ? x : float_of(bits32(x) + (uint32_t)below(state, 5) - 2);
}

/* The zero of the step in hand as the start copied it, which it is until the step has ended. */
static void keep_copy(struct pw_meter *pw)
{
    uint8_t step = pw->job.job_step;
    if (step < 6)
        pw->job.job_zx[step] = pw->corrections.zx[step];
    else if (step < LAST_ZERO)
        pw->job.job_zd[step - 6] = pw->corrections.zd[step - 6];
}

/* A meter with a job in one of its steps. */
static struct pw_meter meter_in_job(uint64_t *state)
{
    struct pw_meter pw = some_meter(state);
    struct pw_job *j = &pw.job;
    j->job = below(state, 2) == 0 ? ZERO_JOB : GAIN_JOB;
    j->job_step = (uint8_t)below(state, j->job == ZERO_JOB ? LAST_ZERO + 1 : LAST_GAIN + 1);
    j->job_n = (uint8_t)(below(state, 16) == 0 ? below(state, 255) : below(state, 3));
    j->used = (uint8_t)below(state, 255);
    pw.cycle.skip = (uint8_t)(below(state, 4) == 0 ? below(state, 256) : 0);
    if (below(state, 4) != 0)
        pw.ranges.vr = (uint8_t)below(state, 4);
    keep_copy(&pw);
    return pw;
}

/* Of any number of bits, or one of the last. */
static uint64_t some_time(uint64_t *state)
{
    return below(state, 32) == 0 ? UINT64_MAX - below(state, 2100) : next(state) >> below(state, 64);
}

/* Codes of their formats. */
static struct codes some_codes(uint64_t *state)
{
    struct codes c = {.now = some_time(state), .flags = below(state, 8) == 0 ? (uint8_t)next(state) : 0x1C};
    c.ad1 = (int32_t)below(state, 1 << 24) - (1 << 23);
    c.lpf = (int32_t)below(state, 1 << 19) - (1 << 18);
    c.rms = (int64_t)(next(state) >> (27 + below(state, 37))) * (below(state, 4) == 0 ? -1 : 1);
    return c;
}

/* A zero job's reading at a limit or just beyond it, to either side of the old zero; sums about it. */
static void put_at_zero_limit(uint64_t *state, struct pw_meter *pw, struct codes *c)
{
    bool ad1 = is_zero_of_ad1(&pw->job);
    int32_t most = (ad1 ? 20000 : 4000) + (int32_t)below(state, 2), x = old_zero(pw);
    if (below(state, 4) != 0)
        x += below(state, 2) == 0 ? most : -most;
    *(ad1 ? &c->ad1 : &c->lpf) = x;
    c->rms = below(state, 3) == 0 ? 160000 + (int64_t)below(state, 2) : 0;
    if (below(state, 4) != 0)
        pw->job.job_a = 2.0f * (float)x + (float)below(state, 7);
}

/* The third reading of a gain job's step is nothing, and its mean, by the sums, at a limit or beside it: of the size
 * or the peak, or of the ratios and their spread. */
static void put_at_gain_limit(uint64_t *state, struct pw_meter *pw, struct codes *c)
{
    static const float parts[] = {0.1f, 0.7f, 1.0f, 0.3f, 0.49497475f}, gains[] = {0.9f, 1.1f, 1.0f, 0.0f};
    static const float spreads[] = {1.0f, 1.0f, 1.003f, 0.997f};
    struct pw_job *j = &pw->job;
    float limit = leaf_v_lim(pw->ranges.vr), sign = below(state, 2) == 0 ? 1.0f : -1.0f, raw = sign * limit * 0.5f;
    j->job_n = 2;
    c->rms = 0;
    c->ad1 = 0;
    c->lpf = pw->corrections.zero_ok ? pw->corrections.zy : 0;
    pw->calibration.valid = false;
    j->job_a = beside(state, 3.0f * parts[below(state, 5)] * limit);
    j->job_b = below(state, 2) == 0 ? 0.0f : sign * beside(state, 3.0f * parts[below(state, 5)] * limit);
    if (!is_reference(j))
        return;
    float gain = beside(state, gains[below(state, 4)]);
    j->job_raw[0] = raw;
    j->job_raw[1] = beside(state, raw * spreads[below(state, 4)]);
    j->job_ref[0] = gain * raw;
    j->job_a = 3.0f * beside(state, gain * j->job_raw[1] * spreads[below(state, 4)]);
}

/* ---- checks ---- */

/* Of the meter only these may change; the ranges of a job that has ended are those noted, and the corrections are as
 * they were unless it has ended well. */
static void check_laws(const struct pw_meter *pw, const struct leaf_polled *got)
{
    struct pw_meter kept = *pw;
    kept.mode.cal_req = got->pw.mode.cal_req;
    kept.ranges = got->pw.ranges;
    kept.cycle.skip = got->pw.cycle.skip;
    kept.cycle.stat = got->pw.cycle.stat;
    kept.clock.t_poll = got->pw.clock.t_poll;
    kept.job = got->pw.job;
    bool over = pw->job.job != 0 && got->pw.job.job == 0;
    if (over && got->pw.job.job_res == JR_OK)
        kept.corrections = got->pw.corrections;
    expect_same(&kept, &got->pw, "what a frame in a job leaves");
    kept = got->pw;
    if (over)
        kept.ranges = pw->job.job_save;
    expect_same(&kept, &got->pw, "the ranges of a job that has ended");
}

static void check_poll(struct pw_meter pw, struct codes c)
{
    struct leaf_polled e = polled(pw, &c), got = leaf_job_poll(pw, c.now, c.flags, c.ad1, c.lpf, c.rms);
    expect_same(&e.pw, &got.pw, "a frame in a job");
    expect(same_stamp(e.mark, got.mark), "the mark of a frame in a job");
    expect(e.used == got.used, "the frames that a job has used");
    check_laws(&pw, &got);
    count_job(&pw, &c, &e);
}

static void check_limits(uint64_t *state)
{
    struct pw_meter pw = meter_in_job(state);
    struct codes c = some_codes(state);
    if (pw.job.job == ZERO_JOB)
        put_at_zero_limit(state, &pw, &c);
    else
        put_at_gain_limit(state, &pw, &c);
    check_poll(pw, c);
}

/* Any job of any step, and codes of any bits. */
static void check_any(uint64_t *state)
{
    struct pw_meter pw = some_meter(state);
    uint64_t r = next(state), codes = next(state);
    pw.job.job = (uint8_t)(1 + (r >> 8) % ((r & 1) != 0 ? 2 : 255));
    struct leaf_polled got = leaf_job_poll(pw, next(state), (uint8_t)(r >> 16), (int32_t)codes, (int32_t)(codes >> 32),
                                           (int64_t)next(state));
    check_laws(&pw, &got);
}

static void check_orders(uint64_t *state)
{
    struct pw_meter pw = some_meter(state);
    uint64_t r = next(state), now = some_time(state);
    uint8_t kind = (uint8_t)((r >> 6 & 1) != 0 ? r >> 8 & 3 : r >> 16), res = (uint8_t)(r >> 24);
    struct leaf_started e = started(pw, kind, now), got = leaf_job_start(pw, kind, now);
    expect_same(&e.pw, &got.pw, "a job start");
    expect(same_stamp(e.mark, got.mark), "the mark of a job start");
    struct pw_meter away = turned_away(pw, kind), kept = leaf_job_turned_away(pw, kind);
    expect_same(&away, &kept, "a job start that is turned away");
    pw.job.job = (r >> 7 & 1) != 0 ? pw.job.job : 0;
    struct pw_meter end = ended(pw, res), over = leaf_job_end(pw, res);
    expect_same(&end, &over, "a job's end");
}

static void check_outcome(float s)
{
    struct leaf_cal_outcome e = outcome(s), got = leaf_cal_outcome(s);
    expect(e.number == got.number && e.steps == got.steps, "the outcome of a phase calibration");
}

/* Of any bits as a rule; or with the first mean at its limit or beside it, or a second one by which the null is within
 * the steps or beyond. */
static struct pw_phase_cal some_phase_cal(uint64_t *state)
{
    struct pw_phase_cal p = some_meter(state).phase_cal;
    p.cal = (uint8_t)below(state, 4);
    p.cal_n = (uint8_t)(below(state, 8) == 0 ? below(state, 256) : 8);
    if (below(state, 4) == 0)
        return p;
    p.cal_pa = some_figure(next(state), -1);
    p.sph = (int8_t)(p.cal_s0 > 79 ? p.cal_s0 - 48 : p.cal_s0 + 48);
    if (p.cal != 1)
        p.cal_acc = 8.0f * p.cal_pa * (1.0f + 48.0f / some_figure(next(state), 8));
    else
        p.cal_acc = 8.0f * (below(state, 2) == 0 ? beside(state, 0.32f) : p.cal_pa);
    return p;
}

static void expect_phase(struct pw_phase_cal expected, struct pw_phase_cal got, const char *what)
{
    struct pw_meter e = {.phase_cal = expected}, g = {.phase_cal = got};
    expect_same(&e, &g, what);
}

static void check_phase(uint64_t *state)
{
    struct pw_phase_cal p = some_phase_cal(state);
    bool cal_req = below(state, 2) == 0;
    struct leaf_phase_step step = accounted(p, cal_req), got = leaf_cal_account(p, cal_req);
    expect_phase(step.phase_cal, got.phase_cal, "the phase calibration's accounting");
    expect(step.cal_req == got.cal_req, "whether a phase calibration asks for a re-apply");
    expect_phase(phase_started(p), leaf_cal_start(p), "a phase start");
    bool acts = p.cal != 0 && p.cal_n >= 8, first = acts && p.cal == 1;
    count(ROUND_UP, first && step.phase_cal.cal == 2 && p.cal_s0 == 79);
    count(ROUND_DOWN, first && step.phase_cal.cal == 2 && p.cal_s0 == 80);
    count(NOT_REACTIVE, first && step.phase_cal.cal == 0);
    count(FOUND, acts && !first && step.phase_cal.cal_res == CAL_OK);
    count(FLAT, acts && !first && step.phase_cal.cal_res == CAL_FLAT);
    count(OUT, acts && !first && step.phase_cal.cal_res == CAL_RANGE);
}

int main(void)
{
    uint64_t state = 5;
    for (int k = 0; k < 100000; k++) {
        struct pw_meter pw = meter_in_job(&state);
        check_poll(pw, some_codes(&state));
        check_limits(&state);
        check_limits(&state);
        check_any(&state);
        check_orders(&state);
        check_phase(&state);
        check_phase(&state);
        check_outcome(some_float(&state, 8));
        check_outcome(beside(&state, (float)below(&state, 128) + 0.5f) * (k % 2 == 0 ? 1.0f : -1.0f));
        check_outcome(beside(&state, 127.49f) * (k % 2 == 0 ? 1.0f : -1.0f));
    }
    expect_met(met, CASES);
    return tell_checks("test_jobs");
}
