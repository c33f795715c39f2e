#include "jobs.h"

#include "cases.h"
#include "fields.h"

#include <math.h>
#include <stdlib.h>

/* The source's numbers of the jobs and of their results, and of a phase calibration's. */
enum { ZERO_JOB = 1, GAIN_JOB };
enum { OK = 2, SIGNAL, SMALL, BIG, UNSTABLE, RANGE };
enum { CAL_OK = 2, CAL_FLAT, CAL_NOT_REACTIVE, CAL_RANGE };

/* The last step of a zero job, and those whose reading is AD1's. */
enum { LAST_ZERO = 12, FIRST_AD1 = 6 };

/* ---- cases ---- */

/* No list of calls leads to a ratio that is not finite (what is measured is a tenth of the range at the least, and
 * no reference is infinite), to a job while the meter is off, to automatic marks that a job has changed, or to zeros
 * without their mark. test_jobs has them. */
enum met {
    NOT_READY, NOT_READY_AD1, DROPPED, COUNTED, BEGUN, ZERO_STARTED, GAIN_STARTED, STARTED_DC, STARTED_IN_CAL,
    AWAY_ZERO, AWAY_GAIN, ZERO_OK, ZERO_AGAIN, ROOT, FAR_X, FAR_AD1, FAR_Y, FAR_FROM_OLD, NEAR_OLD, HELD, GAIN_DC,
    GAIN_AC, GAIN_V0, GAIN_V1, GAIN_V2, GAIN_V3, GAIN_NEGATIVE, GAIN_ZERO, SMALL_FIRST, SMALL_SECOND, SMALL_PEAK,
    BIG_DC, BIG_AC, BIG_PEAK, BIG_SECOND, UNSTABLE_RAW, UNSTABLE_RATIO, RANGE_LOW, RANGE_HIGH, BELOW_OFFSET, ALIKE,
    KIND_KEPT, USED_52, USED_16, USED_22, ABORT_ON, ABORT_OFF, ABORT_METHOD, ABORT_RANGES, ABORT_COUPLING,
    PHASE_STARTED, PHASE_IN_JOB, ROUND_UP, ROUND_DOWN, PHASE_OK, PHASE_BELOW, PHASE_FLAT, PHASE_NOT_REACTIVE,
    PHASE_RANGE, CASES
};
static const char *const cases[CASES] = {
    [NOT_READY] = "in a job not ready", [NOT_READY_AD1] = "AD1 not ready", [DROPPED] = "in a job dropped",
    [COUNTED] = "in a job counted", [BEGUN] = "step begun", [ZERO_STARTED] = "zero job", [GAIN_STARTED] = "gain job",
    [STARTED_DC] = "job in DC coupling", [STARTED_IN_CAL] = "job in a phase calibration",
    [AWAY_ZERO] = "zero job turned away", [AWAY_GAIN] = "gain job turned away", [ZERO_OK] = "zero OK",
    [ZERO_AGAIN] = "zero OK again", [ROOT] = "signal by the root", [FAR_X] = "signal by X",
    [FAR_AD1] = "signal by AD1", [FAR_Y] = "signal by Y", [FAR_FROM_OLD] = "signal by the old zero",
    [NEAR_OLD] = "counted by the old zero", [HELD] = "zero held to 16 bits", [GAIN_DC] = "gain OK in DC",
    [GAIN_AC] = "gain OK in AC", [GAIN_V0] = "gain OK at 6 V", [GAIN_V1] = "gain OK at 60 V",
    [GAIN_V2] = "gain OK at 600 V", [GAIN_V3] = "gain OK at 1000 V", [GAIN_NEGATIVE] = "gain OK below zero",
    [GAIN_ZERO] = "gain OK with a zero", [SMALL_FIRST] = "small at first", [SMALL_SECOND] = "small later",
    [SMALL_PEAK] = "small with a high peak", [BIG_DC] = "big DC", [BIG_AC] = "big AC", [BIG_PEAK] = "big by the peak",
    [BIG_SECOND] = "big later", [UNSTABLE_RAW] = "unstable", [UNSTABLE_RATIO] = "unstable by the ratios",
    [RANGE_LOW] = "gain below its range", [RANGE_HIGH] = "gain above its range",
    [BELOW_OFFSET] = "AC reference below its offset", [ALIKE] = "as much DC as AC", [KIND_KEPT] = "kind kept",
    [USED_52] = "52 used", [USED_16] = "16 used", [USED_22] = "22 used", [ABORT_ON] = "aborted by on",
    [ABORT_OFF] = "aborted by off", [ABORT_METHOD] = "aborted by method", [ABORT_RANGES] = "aborted by ranges",
    [ABORT_COUPLING] = "aborted by coupling", [PHASE_STARTED] = "phase start",
    [PHASE_IN_JOB] = "phase start in a job", [ROUND_UP] = "second round", [ROUND_DOWN] = "second round from above 79",
    [PHASE_OK] = "phase OK", [PHASE_BELOW] = "phase OK below zero", [PHASE_FLAT] = "phase flat",
    [PHASE_NOT_REACTIVE] = "phase not reactive", [PHASE_RANGE] = "phase out of range",
};
static uint64_t met[CASES], frames;

static void count(enum met which, bool was)
{
    met[which] += was ? 1 : 0;
}

bool put_job_cases(uint64_t least)
{
    return put_cases(cases, met, CASES, least);
}

uint64_t frames_in_jobs(void)
{
    return frames;
}

/* ---- which cases a frame in a job is, by the dumps ---- */

static bool is_ad1_step(const struct pw_job *j)
{
    return j->job == ZERO_JOB && j->job_step >= FIRST_AD1 && j->job_step < LAST_ZERO;
}

/* The zero that a reading of the step is held against. */
static int32_t old_zero(const struct pw_meter *pw)
{
    const struct pw_job *j = &pw->job;
    if (!pw->corrections.zero_ok)
        return 0;
    if (is_ad1_step(j))
        return j->job_zd[j->job_step - FIRST_AD1];
    return j->job_step < FIRST_AD1 ? j->job_zx[j->job_step] : pw->corrections.zy;
}

/* A ready frame of a zero job that is not dropped. No zero but AD1's gets far enough to be held. */
static void count_zero(const struct call *c, const struct frame *f)
{
    const struct pw_job *b = &c->before.job, *a = &c->after.job;
    bool ad1 = is_ad1_step(b), signal = a->job_res == SIGNAL, root = signal && !ad1 && f->rms > 160000;
    bool far = signal && !root, ok = a->job_res == OK;
    int32_t size = abs(ad1 ? f->ad1 : f->lpf), most = ad1 ? 20000 : 4000;
    count(ZERO_OK, ok && !c->before.corrections.zero_ok);
    count(ZERO_AGAIN, ok && c->before.corrections.zero_ok);
    count(ROOT, root);
    count(FAR_X, far && b->job_step < FIRST_AD1);
    count(FAR_AD1, far && ad1);
    count(FAR_Y, far && b->job_step == LAST_ZERO);
    count(FAR_FROM_OLD, far && size <= most && old_zero(&c->before) != 0);
    count(NEAR_OLD, !signal && size > most);
    int16_t mean = ad1 ? a->job_zd[b->job_step - FIRST_AD1] : 0;
    count(HELD, a->job_step > b->job_step && (mean == INT16_MIN || mean == INT16_MAX));
}

/* A gain job that a frame has ended. */
static void count_gain(const struct call *c)
{
    const struct pw_job *b = &c->before.job, *a = &c->after.job;
    bool ok = a->job_res == OK, dc = a->job_dc, second = b->job_step == 2;
    float limit = leaf_v_lim(a->job_vr), size = fabsf(a->job_raw[second ? 1 : 0]);
    bool big = a->job_res == BIG, by_size = big && size > (dc ? 1.0f : 0.7f) * limit;
    bool steady = fabsf(a->job_raw[0] - a->job_raw[1]) <= 0.003f * fabsf(a->job_raw[0]);
    count(GAIN_DC, ok && dc);
    count(GAIN_AC, ok && !dc);
    count((enum met)(GAIN_V0 + (a->job_vr & 3)), ok);
    count(GAIN_NEGATIVE, ok && a->job_ref[0] < 0.0f);
    count(GAIN_ZERO, ok && c->before.corrections.zero_ok && c->before.corrections.zy != 0);
    count(SMALL_FIRST, a->job_res == SMALL && !second);
    count(SMALL_SECOND, a->job_res == SMALL && second);
    count(SMALL_PEAK, a->job_res == SMALL && fabsf(a->job_b) + 1.415f * a->job_a > 3.0f * limit);
    count(BIG_DC, by_size && dc);
    count(BIG_AC, by_size && !dc);
    count(BIG_PEAK, big && !by_size);
    count(BIG_SECOND, big && second);
    count(UNSTABLE_RAW, a->job_res == UNSTABLE && !steady);
    count(UNSTABLE_RATIO, a->job_res == UNSTABLE && steady);
    bool above = fabsf(a->job_ref[0]) > fabsf(a->job_raw[0]);
    count(RANGE_LOW, a->job_res == RANGE && !above);
    count(RANGE_HIGH, a->job_res == RANGE && above);
}

/* The third reading of a gain job's step: each of an AC reference below what its word takes off; as much DC as AC at
 * first; or the other kind is the larger one later. */
static void count_step(const struct call *c)
{
    const struct pw_job *b = &c->before.job, *a = &c->after.job;
    bool reference = b->job_step % 2 == 1;
    float off = leaf_offset(c->before.calibration, 0x44 + 4 * (uint32_t)a->job_vr), dc = fabsf(b->job_b);
    count(BELOW_OFFSET, reference && !a->job_dc && off > 0.0f && a->job_ref[b->job_step / 2] == 0.0f);
    count(ALIKE, b->job_step == 0 && dc > 0.0f && dc == b->job_a);
    count(KIND_KEPT, b->job_step == 2 && a->job_dc != (dc > b->job_a));
}

static void count_poll(const struct call *c, const struct frame *f)
{
    const struct pw_job *b = &c->before.job, *a = &c->after.job;
    bool ready = c->used != b->used, ended = a->job == 0, dropped = ready && c->before.cycle.skip > 0;
    bool of_ad1 = is_ad1_step(b) || (b->job == GAIN_JOB && b->job_step % 2 == 1 && b->job_dc);
    count(NOT_READY, !ready && !of_ad1);
    count(NOT_READY_AD1, !ready && of_ad1);
    count(DROPPED, dropped);
    count(COUNTED, ready && !ended && a->job_n > b->job_n);
    count(BEGUN, !ended && a->job_step > b->job_step);
    count(USED_52, ended && c->used == 52);
    count(USED_16, ended && b->job == GAIN_JOB && c->used == 16);
    count(USED_22, ended && b->job == GAIN_JOB && c->used == 22);
    if (b->job == ZERO_JOB && ready && !dropped)
        count_zero(c, f);
    if (b->job == GAIN_JOB && (ended || c->mark.set))
        count_step(c);
    if (b->job == GAIN_JOB && ended)
        count_gain(c);
}

/* ---- comparing ---- */

static size_t check_mark(struct pw_stamp expected, struct pw_stamp got, const char *what, size_t most)
{
    if (same_stamp(expected, got))
        return 0;
    if (most > 0)
        printf("%s: mark is to be %d %" PRIu64 ", is %d %" PRIu64 "\n", what, expected.set, expected.at, got.set,
               got.at);
    return 1;
}

/* Where the job has ended, the frames that it has used stay with the meter; the dump has no job's any
 * longer, but the answer has them. */
static size_t check_poll(const struct call *c, const char *what, size_t most)
{
    struct frame f = frame_of(c);
    struct leaf_polled got = leaf_job_poll(c->before, f.now, f.flags, f.ad1, f.lpf, f.rms);
    struct pw_meter expected = c->after;
    if (expected.job.job == 0)
        expected.job.used = c->used;
    size_t differ = differences(&expected, &got.pw, what, most) + check_mark(c->mark, got.mark, what, most);
    if (got.used != c->used && most > 0)
        printf("%s: used is to be %d, is %d\n", what, c->used, got.used);
    frames++;
    count_poll(c, &f);
    return differ + (got.used != c->used ? 1 : 0);
}

/* The kind of a job that starts: any number but 1 says the gain job. */
static uint8_t kind_of(const struct call *c)
{
    static const uint8_t gains[] = {GAIN_JOB, GAIN_JOB, 0, 3, 255};
    return word_is(c->words[0], "zero") ? ZERO_JOB : gains[c->line % sizeof gains];
}

/* The frames that an earlier job has used may still be with the meter, though no dump has them. */
static size_t check_start(const struct call *c, const char *what, size_t most)
{
    uint8_t kind = kind_of(c);
    struct pw_meter before = c->before;
    before.job.used = (uint8_t)(c->line % 53);
    struct leaf_started got = leaf_job_start(before, kind, time_of(c));
    count(kind == ZERO_JOB ? ZERO_STARTED : GAIN_STARTED, true);
    count(STARTED_DC, c->before.mode.dc);
    count(STARTED_IN_CAL, c->before.phase_cal.cal != 0);
    return differences(&c->after, &got.pw, what, most) + check_mark(c->mark, got.mark, what, most);
}

static size_t check_turned_away(const struct call *c, const char *what, size_t most)
{
    uint8_t kind = kind_of(c);
    struct pw_meter got = leaf_job_turned_away(c->before, kind);
    count(kind == ZERO_JOB ? AWAY_ZERO : AWAY_GAIN, true);
    return differences(&c->after, &got, what, most);
}

static size_t check_phase_start(const struct call *c, const char *what, size_t most)
{
    struct pw_meter got = c->before;
    got.phase_cal = leaf_cal_start(c->before.phase_cal);
    count(PHASE_STARTED, true);
    count(PHASE_IN_JOB, c->before.job.job != 0);
    return differences(&c->after, &got, what, most);
}

static void count_aborted(const struct call *c)
{
    static const struct {
        const char *name;
        enum met which;
    } orders[] = {
        {"on", ABORT_ON}, {"off", ABORT_OFF}, {"method", ABORT_METHOD}, {"ranges", ABORT_RANGES},
        {"coupling", ABORT_COUPLING},
    };
    for (size_t k = 0; k < sizeof orders / sizeof orders[0]; k++)
        count(orders[k].which, word_is(c->words[0], orders[k].name));
}

size_t check_jobs(const struct call *c, const char *what, size_t most)
{
    bool starts = word_is(c->words[0], "zero") || word_is(c->words[0], "gain"), done = c->refusal == 0;
    bool in_job = c->before.job.job != 0;
    if (done && in_job)
        count_aborted(c);
    if (starts && (done || c->refusal == 3))
        return done ? check_start(c, what, most) : check_turned_away(c, what, most);
    if (done && word_is(c->words[0], "phase"))
        return check_phase_start(c, what, most);
    return done && in_job && word_is(c->words[0], "frame") ? check_poll(c, what, most) : 0;
}

/* ---- the phase calibration ---- */

/* A round that has ended with this frame. */
static void count_round(const struct call *c)
{
    const struct pw_phase_cal *b = &c->before.phase_cal, *a = &c->after.phase_cal;
    bool first = b->cal == 1, second = b->cal == 2, on = first && a->cal == 2;
    count(ROUND_UP, on && a->cal_s0 <= 79);
    count(ROUND_DOWN, on && a->cal_s0 > 79);
    count(PHASE_NOT_REACTIVE, first && a->cal_res == CAL_NOT_REACTIVE);
    count(PHASE_OK, second && a->cal_res == CAL_OK && a->sph >= 0);
    count(PHASE_BELOW, second && a->cal_res == CAL_OK && a->sph < 0);
    count(PHASE_FLAT, second && a->cal_res == CAL_FLAT);
    count(PHASE_RANGE, second && a->cal_res == CAL_RANGE);
}

size_t check_account(const struct call *c, const struct pw_meter *taken, const char *what, size_t most)
{
    struct leaf_phase_step step = {taken->phase_cal, taken->mode.cal_req};
    if (c->reading)
        step = leaf_cal_account(taken->phase_cal, taken->mode.cal_req);
    struct pw_meter got = c->after;
    got.phase_cal = step.phase_cal;
    got.mode.cal_req = step.cal_req;
    if (c->before.phase_cal.cal != c->after.phase_cal.cal)
        count_round(c);
    return differences(&c->after, &got, what, most);
}
