/* test_meter: the calls of pw.h, each beside its rule written out in C (call_rule.h): what it leaves in every field
 * and all that it answers. Over meters of any bytes, with every call and every refusal, alone and beside others; and
 * over lists of calls from a meter just made, through whole jobs. Frames and words are lent at the end of a page that
 * cannot be written, with one behind it that cannot be read, and what must not be read lies in such a page.
 *
 * The last line counts the checks, and the status is 1 where one failed. */
#define _DEFAULT_SOURCE
#include "call_rule.h"
#include "checks.h"
#include "floats.h"
#include "meters.h"
#include "pages.h"

/* ---- what is lent ---- */

static struct pages lent_frames, lent_words;

/* A frame's bytes at the end of their page. One that is refused for its time or length is lent where nothing can be
 * read. */
static const uint8_t *lend(const uint8_t *bytes, size_t length, bool unread)
{
    if (unread)
        return lent_frames.page + lent_frames.size;
    uint8_t *at = lent_frames.page + lent_frames.size - length;
    protect(lent_frames, PROT_READ | PROT_WRITE);
    memcpy(at, bytes, length);
    protect(lent_frames, PROT_READ);
    return at;
}

/* ---- a call of the library ---- */

static struct pw_step called(struct pw_meter pw, const struct call *c)
{
    switch (c->which) {
    case CALL_ON:
        return pw_on(pw, c->time);
    case CALL_OFF:
        return pw_off(pw, c->time);
    case CALL_METHOD:
        return pw_method(pw, c->time, c->yes);
    case CALL_RANGES:
        return pw_ranges(pw, c->time, c->v, c->i);
    case CALL_COUPLING:
        return pw_coupling(pw, c->time, c->byte);
    case CALL_ZERO:
        return pw_zero_job(pw, c->time);
    case CALL_GAIN:
        return pw_gain_job(pw, c->time);
    case CALL_PHASE:
        return pw_phase_start(pw);
    case CALL_RESET:
        return pw_energy_reset(pw);
    case CALL_RUN:
        return pw_run(pw, c->yes);
    case CALL_SET:
        return pw_set_settings(pw, c->settings);
    case CALL_REAPPLY:
        return pw_reapply(pw, c->time);
    default:
        return pw_frame(pw, c->time, c->byte, c->lent, c->length);
    }
}

/* ---- comparing ---- */

static void expect_same(const struct pw_meter *expected, const struct pw_meter *got, const char *what)
{
    checks++;
    failed += differences(expected, got, what, failed <= 10 ? 4 : 0) == 0 ? 0 : 1;
}

static bool same_val(struct pw_val a, struct pw_val b)
{
    return same32(a.number, b.number) && a.decimals == b.decimals && a.unit == b.unit && a.over == b.over;
}

static bool same_readouts(struct pw_readouts a, struct pw_readouts b)
{
    return same_val(a.main, b.main) && same_val(a.v, b.v) && same_val(a.i, b.i) && same32(a.si, b.si);
}

/* Where a time is none, what stands in its place counts only if the call has no business with it. */
static void forget_unset(struct pw_meter *pw)
{
    if (!pw->clock.t_last.set)
        pw->clock.t_last.at = 0;
    if (!pw->over_t0.set)
        pw->over_t0.at = 0;
}

static void expect_step(struct pw_step expected, struct pw_step got, enum which which)
{
    static const char *const names[CALLS] = {"on", "off", "method", "ranges", "coupling", "zero job", "gain job",
                                             "phase start", "energy reset", "run", "settings", "re-apply", "frame"};
    const struct pw_answer *e = &expected.answer, *g = &got.answer;
    if (which == CALL_RESET || e->has_reading) {
        forget_unset(&expected.meter);
        forget_unset(&got.meter);
    }
    if (!expect(g->refusal == e->refusal, "a refusal") && failed <= 10)
        printf("  %s: %d, is to be %d\n", names[which], g->refusal, e->refusal);
    expect_same(&expected.meter, &got.meter, names[which]);
    expect(same_stamp(e->mark, g->mark), "a mark");
    expect(g->used == e->used, "a count of ready frames");
    expect(g->has_reading == e->has_reading, "whether there is a reading");
    checks++;
    failed += differences_in(value_fields, VALUE_FIELDS, &e->reading.vals, &g->reading.vals, names[which], 4) == 0 ? 0 : 1;
    expect(same_readouts(g->reading.readouts, e->reading.readouts), "a reading's readouts");
}

/* ---- cases ---- */

/* Each call with each refusal; each pair of reasons of one call; what else frames meet. */
static uint64_t met_refusals[CALLS][9], met_pairs[CALLS][9][9];
enum met {
    MARKED, READ_B, READ_ALT, READ_DC, READ_MARKED, STOPPED, CLOCK_BACK, FULL_E, FULL_VA, FULL_TIME, ALT_E_KEPT, OVER_SET,
    OVER_CLEARED, OVER_KEPT, PHASE_ROUND, JOB_ENDED, JOB_COUNTED, APPLIED_V, APPLIED_I, APPLIED_BOTH, RANGES_SAME,
    COUPLING_STALE, COUPLING_OFF, END_BY_ORDER, END_WHILE_OFF, SET_ON, SET_OFF, SET_IN_JOB, SET_NAN, SET_NO_LIMIT, SET_MAIN,
    CASES
};
static uint64_t met[CASES];

static void count(enum met which, bool was)
{
    met[which] += was ? 1 : 0;
}

static void count_reading(const struct pw_meter *pw, const struct call *c, const struct pw_step *e)
{
    const struct pw_meter *a = &e->meter;
    bool read = e->answer.has_reading, was = pw->over_t0.set, is = a->over_t0.set;
    count(READ_B, read && way_of(pw) == B);
    count(READ_ALT, read && way_of(pw) == ALTERNATING);
    count(READ_DC, read && way_of(pw) == DIRECT);
    count(READ_MARKED, read && e->answer.mark.set);
    count(STOPPED, read && !pw->clock.run && pw->clock.t_last.set);
    count(CLOCK_BACK, read && pw->clock.run && pw->clock.t_last.set && c->time < pw->clock.t_last.at);
    count(ALT_E_KEPT, read && way_of(pw) == ALTERNATING && a->tally.va.mj != pw->tally.va.mj);
    count(OVER_SET, read && !was && is);
    count(OVER_CLEARED, read && was && !is);
    count(OVER_KEPT, read && was && is && a->over_t0.at != c->time);
    count(PHASE_ROUND, read && a->phase_cal.cal != pw->phase_cal.cal);
}

/* Which of the three is full, tried alone. */
static void count_full(const struct pw_meter *pw, const struct call *c)
{
    struct pw_meter e = *pw, va = *pw, t = *pw;
    e.powers.s_last = va.powers.p_tot = t.powers.p_tot = t.powers.s_last = 0.0f;
    e.tally.va = va.tally.e = t.tally.e = t.tally.va = (struct pw_acc){0, 0.0f};
    e.tally.t_int = va.tally.t_int = 0;
    count(FULL_E, !counted_interval(&e, c->time));
    count(FULL_VA, !counted_interval(&va, c->time));
    count(FULL_TIME, !counted_interval(&t, c->time));
}

static void count_order(const struct pw_meter *pw, const struct call *c, const struct pw_step *e)
{
    bool done = e->answer.refusal == PW_DONE, mark = e->answer.mark.set, ended = pw->job.job != 0 && e->meter.job.job == 0;
    bool ranges = done && c->which == CALL_RANGES;
    count(MARKED, mark);
    count(APPLIED_V, ranges && mark && e->meter.cycle.seen == PW_SEEN_V);
    count(APPLIED_I, ranges && mark && e->meter.cycle.seen == PW_SEEN_I);
    count(APPLIED_BOTH, ranges && mark && e->meter.cycle.seen == 0 && pw->cycle.seen == 7);
    count(RANGES_SAME, ranges && !mark && pw->mode.on);
    count(COUPLING_STALE, done && c->which == CALL_COUPLING && mark && pw->job.job == 0 && e->meter.mode.dc == pw->mode.dc);
    count(COUPLING_OFF, done && c->which == CALL_COUPLING && !pw->mode.on && (e->meter.mode.coup == 1) != pw->mode.dc);
    count(END_BY_ORDER, done && ended && c->which < CALL_ZERO && e->meter.mode.cal_req);
    count(END_WHILE_OFF, done && ended && c->which < CALL_ZERO && !e->meter.mode.cal_req);
    count(JOB_ENDED, done && ended && c->which == CALL_FRAME);
    count(JOB_COUNTED, done && pw->job.job != 0 && e->meter.job.job_n == pw->job.job_n + 1);
}

/* Settings that are other ones: on, off and in a job; a NaN in each place, no limit, a main readout past the last. */
static void count_settings(const struct pw_meter *pw, const struct pw_settings *s)
{
    bool nans = isnan(s->r_path[0]) && isnan(s->r_path[1]) && isnan(s->r_path[2]) && isnan(s->i_cont);
    count(SET_ON, pw->mode.on && pw->settings.comp != s->comp);
    count(SET_OFF, !pw->mode.on && pw->settings.comp != s->comp);
    count(SET_IN_JOB, pw->job.job != 0 && pw->settings.comp != s->comp);
    count(SET_NAN, nans && !isnan(pw->settings.r_path[0]) && !isnan(pw->settings.i_cont));
    count(SET_NO_LIMIT, s->t_lim == 0 && pw->settings.t_lim != 0);
    count(SET_MAIN, s->main > PW_MAIN_VAH && pw->settings.main != s->main);
}

static void count_call(const struct pw_meter *pw, const struct call *c, const struct pw_step *e)
{
    met_refusals[c->which][e->answer.refusal]++;
    for (uint8_t a = 1; a <= PW_LATE; a++)
        for (uint8_t b = 1; b < a; b++)
            met_pairs[c->which][a][b] += has_reason(a, pw, c) && has_reason(b, pw, c) ? 1 : 0;
    count_order(pw, c, e);
    if (c->which == CALL_SET)
        count_settings(pw, &c->settings);
    if (c->which == CALL_FRAME) {
        count_reading(pw, c, e);
        if (e->answer.refusal == PW_FULL)
            count_full(pw, c);
    }
}

/* One call, and what it leaves. */
static struct pw_meter check_call(struct pw_meter pw, struct call c)
{
    uint8_t before[PW_FRAME_LENGTH], bytes[64];
    bool unread = has_reason(PW_LATE, &pw, &c) || has_reason(PW_FRAME, &pw, &c);
    if (c.which == CALL_FRAME) {
        memcpy(bytes, c.lent, sizeof before);
        memcpy(before, c.lent, sizeof before);
        c.lent = lend(bytes, c.length, unread);
    }
    struct pw_meter handed = pw;
    struct pw_step expected = step_by_rule(&pw, &c), got = called(handed, &c);
    expect_step(expected, got, c.which);
    expect_same(&pw, &handed, "the meter that was handed over");
    if (c.which == CALL_FRAME && !unread)
        expect(memcmp(c.lent, before, sizeof before) == 0, "the bytes that were lent");
    count_call(&pw, &c, &expected);
    return got.meter;
}

/* ---- meters of any bytes, and calls ---- */

static uint64_t below(uint64_t *state, uint64_t n)
{
    return next(state) % n;
}

static bool once_in(uint64_t *state, uint64_t n)
{
    return below(state, n) == 0;
}

/* The last times that are taken and the first that are not, else of any number of bits, seldom too late. */
static uint64_t some_time(uint64_t *state)
{
    if (once_in(state, 16))
        return (UINT64_C(1) << 48) - 2 + below(state, 4);
    return next(state) >> (once_in(state, 8) ? below(state, 16) : 16 + below(state, 40));
}

/* A NaN of any sign and payload. */
static float some_nan(uint64_t *state)
{
    uint64_t r = next(state);
    return float_of(0x7F800001 + (uint32_t)(r >> 32) % 0x7FFFFF + ((uint32_t)r & UINT32_C(0x80000000)));
}

/* Any bits; now and then a NaN in each float, no limit, or a main readout that there is. */
static struct pw_settings some_settings(uint64_t *state)
{
    struct pw_settings s;
    bool nans = once_in(state, 4);
    memset(&s, (int)below(state, 256), sizeof s);
    s.comp = once_in(state, 2);
    for (size_t k = 0; k < 3; k++)
        s.r_path[k] = nans ? some_nan(state) : some_float(state, 4);
    s.i_cont = nans ? some_nan(state) : some_float(state, 4);
    s.t_lim = (uint16_t)(once_in(state, 4) ? 0 : next(state));
    s.main = (uint8_t)(once_in(state, 2) ? below(state, 4) : next(state));
    return s;
}

/* Such as a bench has. */
static struct pw_settings bench_settings(uint64_t *state)
{
    uint64_t r = next(state);
    return (struct pw_settings){r >> 63 != 0, {0.01f, 0.5f, 47.5f}, fabsf(some_figure(r, 3)), (uint16_t)(r % 60), (uint8_t)(r % 3)};
}

static struct call some_call(uint64_t *state, uint8_t *bytes)
{
    struct call c = {.which = (enum which)below(state, CALLS + 8), .time = some_time(state), .yes = once_in(state, 2)};
    c.which = c.which >= CALLS ? CALL_FRAME : c.which;
    c.v = (uint16_t)(once_in(state, 4) ? next(state) : once_in(state, 2) ? 255 + below(state, 4) : below(state, 6));
    c.i = (uint16_t)(once_in(state, 4) ? next(state) : once_in(state, 2) ? 255 + below(state, 4) : below(state, 8));
    c.byte = (uint8_t)(c.which != CALL_FRAME ? next(state) : once_in(state, 4) ? next(state) : 0x1C);
    if (c.which == CALL_SET)
        c.settings = some_settings(state);
    c.length = once_in(state, 8) ? below(state, 40) : PW_FRAME_LENGTH;
    for (size_t k = 0; k < PW_FRAME_LENGTH; k++)
        bytes[k] = (uint8_t)next(state);
    if (!once_in(state, 4))
        bytes[8] = bytes[13] = 0;
    c.lent = bytes;
    return c;
}

/* Energies near their ends, and powers to match. */
static void set_tally(uint64_t *state, struct pw_meter *pw, uint64_t now)
{
    static const int64_t counts[] = {0, INT64_MAX, INT64_MIN, INT64_MAX - 1000, 123456789};
    pw->tally.e = (struct pw_acc){counts[below(state, 5)], some_figure(next(state), 0)};
    pw->tally.va = (struct pw_acc){counts[below(state, 5)], some_figure(next(state), 0)};
    pw->tally.t_int = once_in(state, 4) ? (uint64_t)INT64_MAX - below(state, 5000) : next(state) >> 20;
    pw->powers = (struct pw_powers){some_float(state, 10), some_float(state, 10)};
    pw->clock.t_last.at = once_in(state, 3) ? now + below(state, 1000) : now - below(state, 5000);
}

/* A meter of any bytes, or one that is about to give a reading. */
static struct pw_meter likely_meter(uint64_t *state, uint64_t now)
{
    static const uint8_t stats[] = {PW_R34_XY, PW_R34_XX, PW_R34_YY};
    struct pw_meter pw = some_meter(state);
    pw.job.job = (uint8_t)(once_in(state, 2) ? 0 : once_in(state, 8) ? next(state) : 1 + below(state, 2));
    pw.job.job_res = (uint8_t)below(state, 10);
    pw.mode.coup = (uint8_t)below(state, 4);
    if (once_in(state, 8))
        return pw;
    pw.mode.on = !once_in(state, 8);
    pw.description = (struct pw_description){{10.0f, 1.0f}, {0.01f, 0.0005f, 0.0000475f}, 1.03f, once_in(state, 2)};
    pw.calibration.valid = once_in(state, 2);
    pw.ranges = (struct pw_ranges){(uint8_t)below(state, 4), (uint8_t)below(state, 6), once_in(state, 8), once_in(state, 8)};
    pw.job.job_save = (struct pw_ranges){(uint8_t)below(state, 4), (uint8_t)below(state, 6), once_in(state, 2), once_in(state, 2)};
    pw.cycle.skip = (uint8_t)(once_in(state, 8) ? 1 : 0);
    pw.cycle.skip_y = (uint8_t)(once_in(state, 4) ? 1 : 0);
    pw.cycle.seen = (uint8_t)(once_in(state, 4) ? next(state) : 7);
    pw.cycle.stat = stats[below(state, 3)];
    pw.cycle.phase = (uint8_t)below(state, 4);
    pw.cycle.taken = (uint8_t)below(state, 3);
    pw.settings.i_cont = once_in(state, 4) ? some_float(state, 4) : some_figure(next(state), 0);
    pw.parts = (struct pw_parts){some_figure(next(state), 3), some_figure(next(state), 3), some_figure(next(state), 3),
                                 some_figure(next(state), 0), some_figure(next(state), 0), some_figure(next(state), 3)};
    set_tally(state, &pw, now);
    return pw;
}

static void check_any(uint64_t *state)
{
    uint8_t bytes[PW_FRAME_LENGTH];
    struct call c = some_call(state, bytes);
    check_call(likely_meter(state, c.time), c);
}

/* ---- lists of calls from a meter just made ---- */

/* What is at the inputs. */
enum input { NOTHING, DC_VOLTS, AC_VOLTS, DRIFT, UNLIKE, ANYTHING, INPUTS };

/* A frame of it: for a steady voltage the codes of the reference fit, but for one that is unlike. */
static void measure(uint64_t *state, enum input input, uint64_t now, uint8_t *bytes)
{
    int64_t noise = (int64_t)below(state, 40) - 20, lpf = noise, ad1 = 3 * noise, rms = 900 + noise;
    if (input == DC_VOLTS || input == DRIFT || input == UNLIKE) {
        lpf = 60000 + noise + (input == DRIFT ? (int64_t)(now / 8 % 16384) : 0);
        ad1 = lpf * 144 / (input == UNLIKE ? 7 : 5);
        rms = 1000000;
    } else if (input == AC_VOLTS)
        rms = INT64_C(3600000000) + 1000 * noise;
    else if (input == ANYTHING) {
        lpf = (int64_t)below(state, 262144) - 131072;
        ad1 = (int64_t)below(state, 8388608) - 4194304;
        rms = (int64_t)(next(state) >> 27);
    }
    for (unsigned k = 0; k < 14; k++)
        bytes[k] = (uint8_t)(k < 3 ? ad1 >> 8 * k : k < 6 ? noise : k < 9 ? lpf >> 8 * (k - 6) : rms >> 8 * (k - 9));
}

static struct pw_meter check_made(struct pw_description d, const uint32_t *words, size_t length, bool valid);

static uint64_t met_jobs[3], met_results[10], met_made[9];

/* Mostly frames, each some time after the last, and now and then an order. */
static void check_list(uint64_t *state, unsigned length)
{
    static const struct pw_description bench = {{10.0f, 1.0f}, {0.01f, 0.0005f, 0.0000475f}, 1.03f, false};
    static const uint32_t none[PW_CALIBRATION];
    struct pw_meter pw = check_made(bench, none, PW_CALIBRATION, false);
    uint64_t now = below(state, 1000000);
    enum input input = NOTHING;
    uint64_t busy = 20 + below(state, 200);
    for (unsigned k = 0; k < length; k++) {
        uint8_t bytes[PW_FRAME_LENGTH], was = pw.job.job;
        struct call c = some_call(state, bytes);
        now += below(state, 700);
        if (k == 0)
            c.which = CALL_ON;
        else if (pw.mode.cal_req && was == 0 && !once_in(state, 3))
            c.which = CALL_REAPPLY;
        else if (was == 0 && once_in(state, 40))
            c.which = once_in(state, 2) ? CALL_ZERO : CALL_GAIN;
        else if (!once_in(state, busy))
            c.which = CALL_FRAME;
        else if (!pw.mode.on)
            c.which = CALL_ON;
        if (once_in(state, was == 0 ? 16 : 256))
            input = (enum input)below(state, INPUTS);
        measure(state, input, now, bytes);
        c.byte = c.which != CALL_FRAME ? c.byte : once_in(state, 8) ? (uint8_t)next(state) : 0x1C;
        c.length = once_in(state, 100) ? c.length : PW_FRAME_LENGTH;
        c.time = once_in(state, 200) ? c.time : now;
        c.yes = c.which == CALL_METHOD ? once_in(state, 5) : !once_in(state, 5);
        if (c.which == CALL_SET && !once_in(state, 3))
            c.settings = bench_settings(state);
        c.reached = true;
        pw = check_call(pw, c);
        if (was != 0 && pw.job.job == 0) {
            met_results[pw.job.job_res]++;
            met_jobs[was] += pw.job.job_res == PW_JR_OK ? 1 : 0;
        }
    }
}

/* ---- making a meter ---- */

static bool within_bounds(float x)
{
    return x >= 0x1p-20f && x <= 0x1p20f;
}

/* What the published text's Pw::new does not set to zero, no or none. */
static struct pw_meter just_made(struct pw_description d, struct pw_calibration c)
{
    struct pw_meter pw = {.description = d, .calibration = c};
    struct pw_ranges widest = {PW_V_1000V, PW_I_10A, true, true};
    pw.mode.coup = PW_COUP_DC;
    pw.ranges = pw.job.job_save = widest;
    pw.cycle.stat = PW_R34_XY;
    pw.clock.run = true;
    pw.settings = (struct pw_settings){false, {0.01f, 0.5f, 47.5f}, 6.0f, 30, PW_MAIN_P};
    pw.comparator = (struct pw_comparator){PW_R20_SENSE, 0xDD, true, 255};
    return pw;
}

static struct pw_meter check_made(struct pw_description d, const uint32_t *words, size_t length, bool valid)
{
    static const struct pw_description ones = {{1.0f, 1.0f}, {1.0f, 1.0f, 1.0f}, 1.0f, false};
    const float numbers[] = {d.mv_div[0], d.mv_div[1], d.shunt[0], d.shunt[1], d.shunt[2], d.over};
    uint8_t refusal = length == PW_CALIBRATION ? PW_DONE : PW_WORDS;
    for (size_t k = 0; k < 6; k++)
        refusal = within_bounds(numbers[k]) ? refusal : PW_DESCRIPTION;
    const uint32_t *lent = (const uint32_t *)(const void *)(lent_words.page + lent_words.size);
    if (length == PW_CALIBRATION) {
        protect(lent_words, PROT_READ | PROT_WRITE);
        memcpy(lent_words.page + lent_words.size - sizeof(uint32_t) * length, words, sizeof(uint32_t) * length);
        protect(lent_words, PROT_READ);
        lent -= length;
    }
    struct pw_calibration c = {.valid = false};
    if (refusal == PW_DONE) {
        memcpy(c.words, words, sizeof c.words);
        c.valid = valid;
    }
    struct pw_made made = pw_make(d, lent, length, valid);
    struct pw_meter expected = just_made(refusal == PW_DONE ? d : ones, c);
    expect(made.refusal == refusal, "whether a meter is made");
    expect_same(&expected, &made.meter, "a meter just made");
    met_made[refusal]++;
    return made.meter;
}

/* Numbers at the ends of their bounds and beyond, one at a time and all at once; words of every count. */
static void check_making(uint64_t *state)
{
    static const float numbers[] = {1.0f, 0x1p-20f, 0x1p20f, 0x1.fffffep-21f, 0x1.000002p20f, 0.0f, -0.0f, -1.0f,
                                    INFINITY, -INFINITY, NAN, 0x1p-149f};
    uint32_t words[PW_CALIBRATION];
    for (int k = 0; k < 20000; k++) {
        struct pw_description d = {.a_auto = once_in(state, 2)};
        float *places[] = {&d.mv_div[0], &d.mv_div[1], &d.shunt[0], &d.shunt[1], &d.shunt[2], &d.over};
        bool one = once_in(state, 2);
        for (size_t n = 0; n < 6; n++)
            *places[n] = one ? 1.0f + (float)n : numbers[below(state, 3)];
        if (!once_in(state, 3))
            *places[below(state, 6)] = numbers[below(state, sizeof numbers / sizeof numbers[0])];
        for (size_t n = 0; n < PW_CALIBRATION; n++)
            words[n] = (uint32_t)next(state);
        check_made(d, words, once_in(state, 2) ? PW_CALIBRATION : below(state, 150), once_in(state, 2));
    }
    struct pw_description fine = {{1.0f, 1.0f}, {1.0f, 1.0f, 1.0f}, 1.0f, false};
    check_made(fine, words, SIZE_MAX / 4, true);
}

/* ---- the row, and the ring ---- */

static void check_row(uint64_t *state)
{
    struct pw_meter pw = likely_meter(state, 0);
    pw.job.job_step = (uint8_t)below(state, 16);
    expect(pw_row(pw) == pw_row_kind(pw.mode.alt, pw.mode.dc, pw.job.job, pw.job.job_step, pw.job.job_dc, pw.cycle.phase),
           "the row of a meter");
}

static void check_conversions(uint64_t *state)
{
    struct pw_meter pw = some_meter(state);
    pw.ring.ring_k = (uint32_t)(once_in(state, 2) ? below(state, 40) : next(state));
    for (unsigned age = 0; age < 256; age++) {
        struct pw_conversion e = {.found = age < 16 && age < pw.ring.ring_k}, g = pw_conversion(pw, (uint8_t)age);
        if (e.found) {
            size_t k = (pw.ring.ring_k - 1 - age) % 16;
            e = (struct pw_conversion){true, pw.ring.stat[k], pw.ring.disc[k], pw.ring.rms[k], pw.ring.lpf[k], pw.ring.dt[k]};
        }
        expect(g.found == e.found && g.stat == e.stat && g.disc == e.disc && g.rms == e.rms && g.lpf == e.lpf
                   && g.dt == e.dt,
               "a conversion of the ring");
    }
}

/* ---- rows of document 01 ---- */

/* "time 2^48 - 1; 2^48": taken; 5. */
static void check_last_time(void)
{
    static const uint8_t bytes[PW_FRAME_LENGTH];
    struct pw_description ones = {{1.0f, 1.0f}, {1.0f, 1.0f, 1.0f}, 1.0f, false};
    uint32_t words[PW_CALIBRATION] = {0};
    struct pw_meter pw = pw_on(pw_make(ones, words, PW_CALIBRATION, false).meter, 0).meter;
    for (enum which w = 0; w < CALLS; w++) {
        struct call c = {.which = w, .lent = bytes, .length = sizeof bytes, .v = PW_KEEP, .i = PW_KEEP};
        pw.mode.dc = w != CALL_PHASE;
        c.time = UINT64_C(281474976710655);
        expect(called(pw, &c).answer.refusal == PW_DONE, "time 2^48 - 1");
        c.time = UINT64_C(281474976710656);
        expect(called(pw, &c).answer.refusal == (has_time(w) ? 5 : 0), "time 2^48");
    }
    expect(PW_TIME_LAST == UINT64_C(281474976710655), "the last time");
}

/* (on 0), (poll 9 00 00), (zero 10), (zero 11): refusals 0, 4, 0, 2, and job_res 0, 0, 1, 1. */
static void check_four_lines(void)
{
    static const uint8_t zero[1];
    struct pw_description ones = {{1.0f, 1.0f}, {1.0f, 1.0f, 1.0f}, 1.0f, false};
    uint32_t words[PW_CALIBRATION] = {0};
    struct pw_step s = {.meter = pw_make(ones, words, PW_CALIBRATION, false).meter};
    s = pw_on(s.meter, 0);
    expect(s.answer.refusal == 0 && s.meter.job.job_res == 0, "(1 0 0)");
    s = pw_frame(s.meter, 9, 0, zero, sizeof zero);
    expect(s.answer.refusal == 4 && s.meter.job.job_res == 0, "(2 4 0)");
    s = pw_zero_job(s.meter, 10);
    expect(s.answer.refusal == 0 && s.meter.job.job_res == 1, "(3 0 1)");
    s = pw_zero_job(s.meter, 11);
    expect(s.answer.refusal == 2 && s.meter.job.job_res == 1, "(4 2 1)");
}

/* ---- that each case was met ---- */

/* The refusals that a call can give, by its number as a bit. */
static const unsigned possible[CALLS] = {
    [CALL_ON] = 1u << 5,
    [CALL_OFF] = 1u << 5,
    [CALL_METHOD] = 1u << 5,
    [CALL_RANGES] = 1u << 5,
    [CALL_COUPLING] = 1u << 5,
    [CALL_ZERO] = 1u << 5 | 1u << 1 | 1u << 2 | 1u << 3,
    [CALL_GAIN] = 1u << 5 | 1u << 1 | 1u << 2 | 1u << 3,
    [CALL_PHASE] = 1u << 1 | 1u << 3,
    [CALL_REAPPLY] = 1u << 5 | 1u << 2,
    [CALL_FRAME] = 1u << 5 | 1u << 4 | 1u << 1 | 1u << 6,
};

static void check_met(void)
{
    for (enum which w = 0; w < CALLS; w++)
        for (unsigned a = 0; a < 9; a++) {
            bool can = a == 0 || (possible[w] >> a & 1) != 0;
            if (!expect(can ? met_refusals[w][a] >= 50 : met_refusals[w][a] == 0, "a refusal met"))
                printf("  call %d, refusal %u: %" PRIu64 " times\n", (int)w, a, met_refusals[w][a]);
            for (unsigned b = 1; b < a && a <= PW_LATE; b++)
                if ((possible[w] >> a & possible[w] >> b & 1) != 0 && !expect(met_pairs[w][a][b] >= 50, "two reasons met"))
                    printf("  call %d, reasons %u and %u: %" PRIu64 " times\n", (int)w, a, b, met_pairs[w][a][b]);
        }
    expect_met(met, CASES);
    expect_met(&met_jobs[PW_JOB_ZERO], 2);
    expect_met(&met_results[PW_JR_OK], PW_JR_ABORT - PW_JR_OK + 1);
    expect(met_made[PW_DONE] >= 50 && met_made[PW_DESCRIPTION] >= 50 && met_made[PW_WORDS] >= 50, "meters made and not");
}

int main(void)
{
    uint64_t state = 7;
    lent_frames = guarded_pages();
    lent_words = guarded_pages();
    check_making(&state);
    check_last_time();
    check_four_lines();
    for (int k = 0; k < 300000; k++)
        check_any(&state);
    for (int k = 0; k < 200; k++)
        check_list(&state, 3000);
    for (int k = 0; k < 2000; k++) {
        check_row(&state);
        check_conversions(&state);
    }
    check_met();
    return tell_checks("test_meter");
}
