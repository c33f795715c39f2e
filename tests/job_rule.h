/* job_rule.h: the jobs and the phase calibration by their rules, for a meter of any bytes with a job of its own
 * steps, and for codes of their formats.
 *
 * Written out from document 01 and the published text. What it takes from other leaves (the tables, the words,
 * leaf_sqrt, leaf_max) has tests of its own. */
#ifndef JOB_RULE_H
#define JOB_RULE_H

#include "fields.h"

enum { ZERO_JOB = 1, GAIN_JOB, LAST_ZERO = 12, LAST_GAIN = 3 };
enum { JR_RUN = 1, JR_OK, JR_SIGNAL, JR_SMALL, JR_BIG, JR_UNSTABLE, JR_RANGE, JR_ABORT, JR_METHOD };
enum { CAL_RUN = 1, CAL_OK, CAL_FLAT, CAL_NOT_REACTIVE, CAL_RANGE };

/* A frame's time, flags and codes. */
struct codes {
    uint64_t now;
    uint8_t flags;
    int32_t ad1;
    int32_t lpf;
    int64_t rms;
};

/* ---- a job's steps ---- */

static inline bool is_reference(const struct pw_job *j)
{
    return j->job == GAIN_JOB && j->job_step % 2 == 1;
}

static inline bool is_zero_of_ad1(const struct pw_job *j)
{
    return j->job == ZERO_JOB && j->job_step >= 6 && j->job_step < LAST_ZERO;
}

/* AD1's bit for zero steps 6 to 11 and the DC reference, else both of RMS and LPF. */
static inline bool is_ready(const struct pw_job *j, uint8_t flags)
{
    uint8_t need = is_zero_of_ad1(j) || (is_reference(j) && j->job_dc) ? 0x04 : 0x18;
    return (flags & need) == need;
}

/* Nothing is summed; 1 frame is to be dropped, for the AC reference 4; the zero job goes through the current
 * ranges twice. The row is that of X in zero steps 0 to 5. */
static inline struct pw_stamp begin_step(struct pw_meter *pw, uint64_t now)
{
    struct pw_job *j = &pw->job;
    bool ac = is_reference(j) && !j->job_dc, x = j->job == ZERO_JOB && j->job_step < 6;
    uint64_t settle = ac ? 2000 : is_reference(j) ? 450 : 550;
    j->job_n = 0;
    j->job_a = j->job_b = 0.0f;
    if (j->job == ZERO_JOB && j->job_step < LAST_ZERO)
        pw->ranges.ik = j->job_step % 6;
    pw->cycle.skip = ac ? 4 : 1;
    pw->cycle.stat = x ? 0x80 : 0x8C;
    return (struct pw_stamp){true, now > UINT64_MAX - settle ? UINT64_MAX : now + settle};
}

static inline struct pw_meter ended(struct pw_meter pw, uint8_t res)
{
    if (pw.job.job == 0)
        return pw;
    pw.job.job = 0;
    pw.job.job_res = res;
    pw.ranges = pw.job.job_save;
    pw.mode.cal_req = pw.mode.on;
    return pw;
}

static inline struct leaf_started started(struct pw_meter pw, uint8_t kind, uint64_t now)
{
    struct pw_job *j = &pw.job;
    j->job_save = pw.ranges;
    j->job = j->job_last = kind == ZERO_JOB ? ZERO_JOB : GAIN_JOB;
    j->job_step = j->used = 0;
    j->job_res = JR_RUN;
    j->job_vr = pw.ranges.vr;
    memcpy(j->job_zx, pw.corrections.zx, sizeof j->job_zx);
    memcpy(j->job_zd, pw.corrections.zd, sizeof j->job_zd);
    pw.phase_cal.cal = 0;
    struct pw_stamp mark = begin_step(&pw, now);
    return (struct leaf_started){pw, mark};
}

static inline struct pw_meter turned_away(struct pw_meter pw, uint8_t kind)
{
    pw.job.job_last = kind == ZERO_JOB ? ZERO_JOB : GAIN_JOB;
    pw.job.job_res = JR_METHOD;
    return pw;
}

/* ---- a job's readings ---- */

/* The reading, the DC part beside it, and the root of the RMS code where a zero job looks at it. */
struct reading {
    float x;
    float dc;
    float root;
};

/* 1.25 V / 2^18. */
static const float code_volts = 1.25f / 262144.0f;

static inline float root_of(const struct codes *c)
{
    return leaf_sqrt((float)(c->rms > 0 ? c->rms : 0));
}

/* The factory's DC V or AC V of the range, with its words. */
static inline float reference_volts(const struct pw_meter *pw, const struct codes *c)
{
    uint32_t r = pw->ranges.vr > 3 ? 3 : pw->ranges.vr;
    float k = leaf_k_acv((uint8_t)r);
    if (!pw->job.job_dc) {
        float ac = root_of(c) * k * code_volts * leaf_factor(pw->calibration, 0x34 + 4 * r);
        return leaf_max(ac - leaf_offset(pw->calibration, 0x44 + 4 * r), 0.0f);
    }
    float dc = (float)c->ad1 * k * (1.25f / 0.9f) / 8388608.0f * leaf_factor(pw->calibration, 0x04 + 4 * r);
    dc -= leaf_offset(pw->calibration, 0x14 + 4 * r);
    return dc < 0.0f ? dc * leaf_dcv_negk((uint8_t)r) : dc;
}

static inline struct reading reading_of(const struct pw_meter *pw, const struct codes *c)
{
    if (is_reference(&pw->job))
        return (struct reading){reference_volts(pw, c), 0.0f, 0.0f};
    if (is_zero_of_ad1(&pw->job))
        return (struct reading){(float)c->ad1, 0.0f, 0.0f};
    if (pw->job.job == ZERO_JOB)
        return (struct reading){(float)c->lpf, 0.0f, root_of(c)};
    int32_t zero = pw->corrections.zero_ok ? pw->corrections.zy : 0;
    float k = leaf_kv(pw->ranges.vr);
    return (struct reading){root_of(c) * code_volts * k, (float)(c->lpf - zero) * code_volts * k, 0.0f};
}

static inline int32_t old_zero(const struct pw_meter *pw)
{
    uint8_t step = pw->job.job_step;
    if (!pw->corrections.zero_ok)
        return 0;
    return step < 6 ? pw->job.job_zx[step] : step < LAST_ZERO ? pw->job.job_zd[step - 6] : pw->corrections.zy;
}

static inline bool is_signal(const struct pw_meter *pw, struct reading r)
{
    int32_t distance = (int32_t)r.x - old_zero(pw);
    return r.root > 400.0f || (distance < 0 ? -distance : distance) > (is_zero_of_ad1(&pw->job) ? 20000 : 4000);
}

/* ---- a step's end: 0 where the job goes on, else its result ---- */

/* Rounded half away from zero, held to 16 bits. */
static inline int16_t mean_zero(float mean)
{
    float half = mean < 0.0f ? mean - 0.5f : mean + 0.5f;
    return isnan(half) ? 0 : half < -32768.0f ? INT16_MIN : half > 32767.0f ? INT16_MAX : (int16_t)half;
}

static inline uint8_t end_zero_step(struct pw_meter *pw, float mean)
{
    struct pw_job *j = &pw->job;
    if (j->job_step < LAST_ZERO) {
        *(j->job_step < 6 ? &j->job_zx[j->job_step] : &j->job_zd[j->job_step - 6]) = mean_zero(mean);
        return 0;
    }
    memcpy(pw->corrections.zx, j->job_zx, sizeof j->job_zx);
    memcpy(pw->corrections.zd, j->job_zd, sizeof j->job_zd);
    pw->corrections.zy = mean_zero(mean);
    pw->corrections.zero_ok = true;
    return JR_OK;
}

static inline uint8_t end_raw_step(struct pw_meter *pw, float ac, float dc)
{
    struct pw_job *j = &pw->job;
    if (j->job_step == 0)
        j->job_dc = fabsf(dc) > ac;
    float limit = leaf_v_lim(pw->ranges.vr), raw = j->job_dc ? dc : ac;
    j->job_raw[j->job_step / 2] = raw;
    if (fabsf(raw) < 0.1f * limit)
        return JR_SMALL;
    bool peak = fabsf(dc) + 1.41421356237f * fabsf(ac) > limit;
    return fabsf(raw) > (j->job_dc ? 1.0f : 0.7f) * limit || peak ? JR_BIG : 0;
}

static inline uint8_t end_reference_step(struct pw_meter *pw, float mean)
{
    struct pw_job *j = &pw->job;
    j->job_ref[j->job_step / 2] = mean;
    if (j->job_step < LAST_GAIN)
        return 0;
    float r0 = j->job_ref[0] / j->job_raw[0], r1 = j->job_ref[1] / j->job_raw[1], g = 0.5f * (r0 + r1);
    bool steady = fabsf(j->job_raw[0] - j->job_raw[1]) <= 0.003f * fabsf(j->job_raw[0]);
    if (!isfinite(g) || fabsf(r0 - r1) > 0.003f * fabsf(g) || !steady)
        return JR_UNSTABLE;
    if (!(g >= 0.9f && g <= 1.1f))
        return JR_RANGE;
    pw->corrections.vgain[pw->ranges.vr > 3 ? 3 : pw->ranges.vr] = g;
    return JR_OK;
}

static inline uint8_t end_step(struct pw_meter *pw)
{
    float a = pw->job.job_a / 3.0f, b = pw->job.job_b / 3.0f;
    if (pw->job.job == ZERO_JOB)
        return end_zero_step(pw, a);
    return is_reference(&pw->job) ? end_reference_step(pw, a) : end_raw_step(pw, a, b);
}

/* ---- a frame in a job ---- */

static inline struct leaf_polled polled(struct pw_meter pw, const struct codes *c)
{
    struct pw_job *j = &pw.job;
    struct pw_stamp mark = {false, 0};
    pw.clock.t_poll = c->now;
    if (!is_ready(j, c->flags))
        return (struct leaf_polled){pw, mark, j->used};
    j->used++;
    if (pw.cycle.skip > 0) {
        pw.cycle.skip--;
        return (struct leaf_polled){pw, mark, j->used};
    }
    struct reading r = reading_of(&pw, c);
    if (j->job == ZERO_JOB && is_signal(&pw, r))
        return (struct leaf_polled){ended(pw, JR_SIGNAL), mark, j->used};
    j->job_a += r.x;
    j->job_b += r.dc;
    j->job_n++;
    if (j->job_n < 3)
        return (struct leaf_polled){pw, mark, j->used};
    uint8_t res = end_step(&pw);
    if (res != 0)
        return (struct leaf_polled){ended(pw, res), mark, j->used};
    j->job_step++;
    mark = begin_step(&pw, c->now);
    return (struct leaf_polled){pw, mark, j->used};
}

/* ---- the phase calibration ---- */

static inline struct leaf_cal_outcome outcome(float s)
{
    if (!isfinite(s))
        return (struct leaf_cal_outcome){CAL_FLAT, 0};
    if (!(s >= -127.49f && s <= 127.49f))
        return (struct leaf_cal_outcome){CAL_RANGE, 0};
    return (struct leaf_cal_outcome){CAL_OK, (int8_t)(s < 0.0f ? s - 0.5f : s + 0.5f)};
}

static inline struct pw_phase_cal phase_started(struct pw_phase_cal p)
{
    p.cal = 1;
    p.cal_n = 0;
    p.cal_acc = 0.0f;
    p.cal_s0 = p.sph;
    p.cal_res = CAL_RUN;
    return p;
}

static inline struct leaf_phase_step accounted(struct pw_phase_cal p, bool cal_req)
{
    if (p.cal == 0 || p.cal_n < 8)
        return (struct leaf_phase_step){p, cal_req};
    float mean = p.cal_acc / (float)p.cal_n, s0 = p.cal_s0;
    p.cal_n = 0;
    p.cal_acc = 0.0f;
    if (p.cal == 1 && fabsf(mean) > 0.32f) {
        p.cal = 0;
        p.cal_res = CAL_NOT_REACTIVE;
        return (struct leaf_phase_step){p, cal_req};
    }
    if (p.cal == 1) {
        p.cal_pa = mean;
        p.cal = 2;
        p.sph = (int8_t)(p.cal_s0 > 79 ? p.cal_s0 - 48 : p.cal_s0 + 48);
        return (struct leaf_phase_step){p, true};
    }
    float slope = (mean - p.cal_pa) / ((float)p.sph - s0);
    struct leaf_cal_outcome found = outcome(fabsf(slope) > 1e-7f ? s0 - p.cal_pa / slope : NAN);
    p.cal = 0;
    p.sph = found.number == CAL_OK ? found.steps : p.cal_s0;
    p.cal_res = found.number;
    return (struct leaf_phase_step){p, true};
}

#endif
