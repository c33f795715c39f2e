/* frames LEAST [JOBS]: what leaf_frame, leaf_apply and leaf_job_end make of each call of a transcript
 * (transcript.h), on standard input, beside what the published Rust made of it; what the leaves of the
 * jobs and of the phase calibration make of it (jobs.h); and after each call what is read off the meter
 * (values.h).
 *
 * Each accepted frame outside a job is given to leaf_frame with the meter of the dump before it.
 * What the accounting step may change is compared with what was handed in, and all else with the
 * dump after the frame; the phase calibration's part of that step follows (jobs.h). Each order that
 * ends a job or is an apply is given to leaf_job_end, and with what it sets to leaf_apply where it
 * applies. Each meter made is compared with leaf_pw_new. The status is 0 where nothing differs and
 * each of the cases below and of values.c was met LEAST times or more, and each of jobs.c JOBS times,
 * or LEAST times where that is not given. */
#include "cases.h"
#include "fields.h"
#include "jobs.h"
#include "transcript.h"
#include "values.h"

#include <math.h>
#include <stdlib.h>

enum { MOST_SHOWN = 20, AD1 = 0x04, RMS_LPF = 0x18, XY = 0x88, XX = 0x80, ABORTED = 8 };

/* ---- cases ---- */

enum met {
    FRAMES_B, FRAMES_ALT, FRAMES_DC, NOT_READY, DROPPED_B, DROPPED_ALT, DROPPED_AD1, DROPPED_Y,
    DOWN_XY, DOWN_SQUARE, DOWN_ALT, V_UP, V_DOWN, V_BEFORE_AD1, I_UP, I_DOWN, I_HOP, I_TRIP, I_HELD,
    ALT_TO_V, ALT_TO_I, WINDOW, WINDOW_OF_I, NO_WINDOW, CAL_COUNTED, CAL_FULL, ZEROS, GAINS, WORDS,
    LONG_AGO, CLOCK_BACK, READINGS, SMOOTHED, METERS, ON, REAPPLY, METHOD, COUPLING, RANGES_V,
    RANGES_I, RANGES_BOTH, OFF, METHOD_OFF, COUPLING_OFF, COUPLING_ALIKE, COUPLING_ABORTED, RANGES_OFF,
    RANGES_ALIKE, CASES
};
static const char *const cases[CASES] = {
    [FRAMES_B] = "method B", [FRAMES_ALT] = "alternating", [FRAMES_DC] = "DC",
    [NOT_READY] = "not ready", [DROPPED_B] = "dropped in B",
    [DROPPED_ALT] = "dropped in alternating", [DROPPED_AD1] = "dropped of AD1",
    [DROPPED_Y] = "dropped of the DC row's V", [DOWN_XY] = "XY turned down",
    [DOWN_SQUARE] = "XX or YY turned down", [DOWN_ALT] = "turned down in alternating",
    [V_UP] = "V up", [V_DOWN] = "V down", [V_BEFORE_AD1] = "V changed before AD1",
    [I_UP] = "I up", [I_DOWN] = "I down", [I_HOP] = "I in one hop", [I_TRIP] = "trip",
    [I_HELD] = "I held above uA", [ALT_TO_V] = "alternating to V",
    [ALT_TO_I] = "alternating to I", [WINDOW] = "window", [WINDOW_OF_I] = "window of I",
    [NO_WINDOW] = "no window", [CAL_COUNTED] = "phase counted", [CAL_FULL] = "phase full",
    [ZEROS] = "stored zeros", [GAINS] = "stored gain", [WORDS] = "valid words",
    [LONG_AGO] = "interval held", [CLOCK_BACK] = "clock not forward", [READINGS] = "readings",
    [SMOOTHED] = "smoothed", [METERS] = "meters", [ON] = "on", [REAPPLY] = "re-apply",
    [METHOD] = "method", [COUPLING] = "coupling", [RANGES_V] = "V ranged",
    [RANGES_I] = "I ranged", [RANGES_BOTH] = "both ranged", [OFF] = "off", [METHOD_OFF] = "method while off",
    [COUPLING_OFF] = "coupling while off", [COUPLING_ALIKE] = "coupling that does not apply",
    [COUPLING_ABORTED] = "coupling that applies after an abort", [RANGES_OFF] = "ranges while off",
    [RANGES_ALIKE] = "ranges that do not apply",
};
static uint64_t met[CASES];
static uint64_t frames, orders, meters, differ, shown;

static void count(enum met which, bool was)
{
    met[which] += was ? 1 : 0;
}

/* ---- comparing ---- */

/* The call in hand, as it is shown. */
static char what[80];

static bool shows(void)
{
    return shown++ < MOST_SHOWN;
}

static bool same_mark(struct pw_stamp expected, struct pw_stamp got)
{
    if (same_stamp(expected, got))
        return true;
    if (shows())
        printf("%s: mark is to be %d %" PRIu64 ", is %d %" PRIu64 "\n", what, expected.set,
               expected.at, got.set, got.at);
    return false;
}

static bool same_flag(const char *name, bool expected, bool got)
{
    if (expected != got && shows())
        printf("%s: %s is to be %d, is %d\n", what, name, expected, got);
    return expected == got;
}

/* How many values of a meter may be shown. */
static size_t most_shown(void)
{
    return differ < MOST_SHOWN ? MOST_SHOWN : 0;
}

static void compare(const struct leaf_outcome *expected, const struct leaf_outcome *got)
{
    size_t values = differences(&expected->pw, &got->pw, what, most_shown());
    bool mark = same_mark(expected->mark, got->mark);
    bool to_values = same_flag("to_values", expected->to_values, got->to_values);
    differ += values == 0 && mark && to_values ? 0 : 1;
}

/* ---- frames ---- */

static bool has(uint8_t flags, uint8_t bits)
{
    return (flags & bits) == bits;
}

static bool ranged(const struct call *c)
{
    return c->before.ranges.vr != c->after.ranges.vr || c->before.ranges.ik != c->after.ranges.ik;
}

/* Whether a frame was taken and changed no range, by the dumps: in DC its AD1 was not dropped, in
 * the alternating method one more result was taken, in method B the next phase has begun. */
static bool went_on(const struct call *c, uint8_t flags)
{
    const struct pw_meter *b = &c->before, *a = &c->after;
    if (ranged(c) || b->cycle.skip > 0 || !has(flags, b->mode.dc ? AD1 : RMS_LPF))
        return false;
    if (b->mode.dc)
        return true;
    return b->mode.alt ? a->cycle.taken != b->cycle.taken : a->cycle.phase != b->cycle.phase;
}

/* Whether the values are complete, so that a frame that is accounted gives a reading. */
static bool is_complete(const struct pw_meter *pw)
{
    return has(pw->cycle.seen, pw->mode.alt && !pw->mode.dc ? 6 : 7);
}

/* The eighth of a phase calibration's results, which the accounting step has taken away. */
static bool cal_full(const struct call *c)
{
    const struct pw_phase_cal *b = &c->before.phase_cal, *a = &c->after.phase_cal;
    return b->cal != 0 && b->cal_n == 7 && a->cal_n == 0 && c->reading;
}

/* What leaf_frame is to leave: what the dump after the frame shows, and all else as handed in. */
static struct leaf_outcome expected_frame(const struct call *c, uint8_t flags)
{
    struct leaf_outcome e = {c->before, c->mark, went_on(c, flags)};
    for (const struct field *f = fields; f < fields + FIELDS; f++)
        for (size_t k = 0; f->role == SHOWN && k < f->count; k++)
            set_value(&e.pw, f, k, value_of(&c->after, f, k));
    return e;
}

/* Of the eighth result the dump shows only what the accounting step made of it, which is compared by
 * check_account. */
static void restore_eight(struct pw_meter *expected, const struct pw_meter *got)
{
    expected->phase_cal.cal_n = 8;
    expected->phase_cal.cal_acc = got->phase_cal.cal_acc;
}

/* Whether a frame that changed no range had a result by which the current's may change. */
static bool tests_current(const struct call *c, uint8_t flags)
{
    const struct pw_meter *b = &c->before;
    if (!went_on(c, flags))
        return false;
    if (b->mode.dc)
        return true;
    return b->mode.alt ? c->mark.set && b->cycle.phase == 1 : b->cycle.stat == XX;
}

static void count_ranges(const struct call *c, uint8_t flags)
{
    const struct pw_ranges *b = &c->before.ranges, *a = &c->after.ranges;
    count(V_UP, a->vr > b->vr);
    count(V_DOWN, a->vr < b->vr);
    count(V_BEFORE_AD1, c->before.mode.dc && a->vr != b->vr && has(flags, AD1));
    count(I_UP, b->ik == 4 && a->ik == 5);
    count(I_DOWN, a->ik < b->ik);
    count(I_HOP, b->i_auto && b->ik < 4 && a->ik == 4);
    count(I_TRIP, !b->i_auto && b->ik < 4 && a->ik == 5 && c->after.barred != 0);
    double current = hypot(c->after.parts.i_ac, c->after.parts.i_dc);
    count(I_HELD, c->before.description.a_auto && b->i_auto && b->ik == 2 && a->ik == 2
                      && tests_current(c, flags)
                      && current < 0.09 * 0.06 / c->before.description.over);
}

static void count_comparator(const struct call *c, uint8_t flags)
{
    const struct pw_meter *b = &c->before, *a = &c->after;
    bool selected = !b->mode.dc && !b->mode.alt && went_on(c, flags) && b->cycle.stat != XY
                    && has(a->cycle.seen, 6);
    count(WINDOW, selected && a->comparator.f_ok && a->comparator.r20 == 0x10);
    count(WINDOW_OF_I, selected && a->comparator.f_ok && a->comparator.r20 == 0xF0);
    count(NO_WINDOW, selected && !a->comparator.f_ok);
}

static void count_results(const struct call *c, uint8_t flags)
{
    const struct pw_meter *b = &c->before, *a = &c->after;
    bool dc = b->mode.dc, alt = b->mode.alt && !dc;
    bool ready = has(flags, RMS_LPF), on = went_on(c, flags);
    bool down = !dc && ready && b->cycle.skip == 0 && !ranged(c) && !on;
    count(DROPPED_B, !dc && !alt && ready && b->cycle.skip > 0);
    count(DROPPED_ALT, alt && ready && b->cycle.skip > 0);
    count(DROPPED_AD1, dc && has(flags, AD1) && !ranged(c) && b->cycle.skip > 0);
    count(DROPPED_Y, dc && ready && b->cycle.skip_y > 0);
    count(DOWN_XY, down && !alt && b->cycle.stat == XY);
    count(DOWN_SQUARE, down && !alt && b->cycle.stat != XY);
    count(DOWN_ALT, down && alt);
    count(ALT_TO_V, alt && c->mark.set && !ranged(c) && a->cycle.phase == 0);
    count(ALT_TO_I, alt && c->mark.set && !ranged(c) && a->cycle.phase == 1);
    count(ZEROS, on && !alt && b->corrections.zero_ok);
    count(GAINS, on && !alt && b->corrections.vgain[b->ranges.vr] > 0.0f);
    count(WORDS, on && b->calibration.valid);
    count(SMOOTHED, on && has(b->cycle.seen, 7));
    count(LONG_AGO, ready && a->ring.dt[b->ring.ring_k % PW_RING] == UINT16_MAX);
    count(CLOCK_BACK, ready && a->ring.t_res <= b->ring.t_res);
    count(CAL_COUNTED, a->phase_cal.cal_n > b->phase_cal.cal_n);
    count(CAL_FULL, cal_full(c));
}

static void check_frame(const struct call *c)
{
    if (c->before.job.job != 0)
        return;
    struct frame f = frame_of(c);
    struct leaf_outcome e = expected_frame(c, f.flags);
    struct leaf_outcome got = leaf_frame(c->before, f.now, f.flags, f.ad1, f.lpf, f.rms);
    if (cal_full(c))
        restore_eight(&e.pw, &got.pw);
    compare(&e, &got);
    differ += check_account(c, &got.pw, what, most_shown()) == 0 ? 0 : 1;
    bool reading = got.to_values && is_complete(&got.pw);
    differ += same_flag("a reading", c->reading, reading) ? 0 : 1;
    frames++;
    enum met path = c->before.mode.dc ? FRAMES_DC : c->before.mode.alt ? FRAMES_ALT : FRAMES_B;
    count(path, true);
    count(NOT_READY, !has(f.flags, RMS_LPF) && !(path == FRAMES_DC && has(f.flags, AD1)));
    count(READINGS, c->reading);
    count_ranges(c, f.flags);
    count_comparator(c, f.flags);
    count_results(c, f.flags);
}

/* ---- orders that end a job or are an apply ---- */

/* What an order sets before it applies, in `pw`, where no job runs any longer; and in `keep` 2 or 4,
 * where the voltage's or the current's parts are kept. False where it does not apply. */
typedef bool order(const struct call *c, struct pw_meter *pw, uint8_t *keep);

static bool on(const struct call *c, struct pw_meter *pw, uint8_t *keep)
{
    (void)c, (void)keep;
    pw->mode.on = true;
    pw->mode.dc = pw->mode.coup == 1;
    count(ON, true);
    return true;
}

static bool off(const struct call *c, struct pw_meter *pw, uint8_t *keep)
{
    (void)c, (void)keep;
    pw->mode.on = false;
    count(OFF, true);
    return false;
}

static bool reapply(const struct call *c, struct pw_meter *pw, uint8_t *keep)
{
    (void)c, (void)keep;
    pw->mode.cal_req = false;
    count(REAPPLY, true);
    return true;
}

static bool method(const struct call *c, struct pw_meter *pw, uint8_t *keep)
{
    (void)keep;
    pw->mode.alt = word_is(c->words[2], "1");
    count(pw->mode.on ? METHOD : METHOD_OFF, true);
    return pw->mode.on;
}

/* The low two bits, where 2 counts as 0. After a job that was aborted it applies at any rate. */
static bool coupling(const struct call *c, struct pw_meter *pw, uint8_t *keep)
{
    (void)keep;
    uint8_t n;
    if (!read_u8(c->words[2], &n))
        stop_at(c->line, "no coupling");
    pw->mode.coup = (n & 3) == 2 ? 0 : n & 3;
    bool dc = pw->mode.coup == 1, alike = dc == pw->mode.dc, aborted = pw->job.job_res == ABORTED;
    count(COUPLING_OFF, !pw->mode.on);
    count(COUPLING_ALIKE, pw->mode.on && alike && !aborted);
    if (!pw->mode.on || (alike && !aborted))
        return false;
    pw->mode.dc = dc;
    count(alike ? COUPLING_ABORTED : COUPLING, true);
    return true;
}

/* One range of the order: kept, automatic, or a number held to the highest. Whether it is named. */
static bool range(const struct call *c, struct word w, uint8_t most, uint8_t *at, bool *automatic)
{
    uint8_t n;
    if (word_is(w, "k"))
        return false;
    *automatic = word_is(w, "a");
    if (*automatic)
        return true;
    if (!read_u8(w, &n))
        stop_at(c->line, "no range");
    *at = n < most ? n : most;
    return true;
}

static bool ranges(const struct call *c, struct pw_meter *pw, uint8_t *keep)
{
    struct pw_ranges *r = &pw->ranges, was = *r;
    range(c, c->words[2], 3, &r->vr, &r->v_auto);
    if (range(c, c->words[3], 5, &r->ik, &r->i_auto))
        pw->barred = 0;
    bool v = r->vr != was.vr, i = r->ik != was.ik;
    count(RANGES_OFF, !pw->mode.on);
    count(RANGES_ALIKE, pw->mode.on && !v && !i);
    if (!pw->mode.on || (!v && !i))
        return false;
    if (!v || !i)
        *keep = v ? 4 : 2;
    count(!v ? RANGES_I : !i ? RANGES_V : RANGES_BOTH, true);
    return true;
}

/* A job that runs is aborted (a re-apply is refused there). Where nothing is kept, any number but 2 and 4
 * says so. The frames that the job has used stay with the meter, and are in a dump in a job only. */
static void check_order(const struct call *c, order *sets)
{
    static const uint8_t none[] = {0, 1, 3, 5, 6, 7, 8, 255};
    uint8_t keep = none[c->line % sizeof none];
    struct leaf_outcome e = {c->after, c->mark, false}, got = {leaf_job_end(c->before, ABORTED), {false, 0}, false};
    e.pw.job.used = c->before.job.used;
    if (sets(c, &got.pw, &keep))
        got = leaf_apply(got.pw, keep, time_of(c));
    compare(&e, &got);
    orders++;
}

static void check_meter(const struct call *c)
{
    struct leaf_outcome e = {c->after, {false, 0}, false}, got = e;
    got.pw = leaf_pw_new(c->after.description, c->after.calibration);
    compare(&e, &got);
    count(METERS, true);
}

static void check(const struct call *c)
{
    static const struct {
        const char *name;
        size_t count;
        order *sets;
    } kinds[] = {
        {"on", 2, on}, {"off", 2, off}, {"reapply", 2, reapply}, {"method", 3, method},
        {"coupling", 3, coupling}, {"ranges", 4, ranges},
    };
    snprintf(what, sizeof what, "line %zu,%.40s", c->line, c->text);
    differ += check_values(c, what, most_shown()) == 0 ? 0 : 1;
    differ += check_jobs(c, what, most_shown()) == 0 ? 0 : 1;
    meters++;
    if (c->refusal != 0)
        return;
    if (word_is(c->words[0], "meter"))
        check_meter(c);
    else if (word_is(c->words[0], "frame"))
        check_frame(c);
    for (size_t k = 0; k < sizeof kinds / sizeof kinds[0]; k++)
        if (word_is(c->words[0], kinds[k].name) && c->count == kinds[k].count)
            check_order(c, kinds[k].sets);
}

int main(int argc, char **argv)
{
    static struct call c;
    if (argc != 2 && argc != 3)
        return 2;
    while (next_call(stdin, &c))
        check(&c);
    free(c.text);
    uint64_t least = strtoull(argv[1], NULL, 10), least_jobs = strtoull(argv[argc - 1], NULL, 10);
    bool calls = put_cases(cases, met, CASES, least), jobs = put_job_cases(least_jobs), values = put_value_cases(least);
    printf("frames: %" PRIu64 " frames (%" PRIu64 " b, %" PRIu64 " alternating, %" PRIu64 " DC), %" PRIu64
           " frames in jobs, %" PRIu64 " orders, and the values of %" PRIu64 " meters %s, %" PRIu64 " differ\n",
           frames, met[FRAMES_B], met[FRAMES_ALT], met[FRAMES_DC], frames_in_jobs(), orders, meters,
           differ == 0 ? "agree" : "compared", differ);
    return differ == 0 && calls && jobs && values && frames > 0 ? 0 : 1;
}
