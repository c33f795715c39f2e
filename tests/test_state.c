/* test_state: a meter kept in C. leaf_pw_new gives what the published text's Pw::new has, what C
 * writes in a meter's fields is what the library reads and gives back, and leaf_frame and leaf_apply
 * keep the source's rules in states that no order leads to.
 *
 * The last line counts the checks, and the status is 1 where one failed. */
#include "checks.h"
#include "fields.h"
#include "meters.h"

static void expect_same(const struct pw_meter *expected, const struct pw_meter *got, const char *what)
{
    checks++;
    failed += differences(expected, got, what, failed <= 10 ? 4 : 0) == 0 ? 0 : 1;
}

/* ---- a meter just made ---- */

/* Random bits; from 2^-20 to 2^20 in the description. */
static struct pw_description some_description(uint64_t *state)
{
    struct pw_description d;
    float *numbers[] = {&d.mv_div[0], &d.mv_div[1], &d.shunt[0], &d.shunt[1], &d.shunt[2], &d.over};
    for (size_t k = 0; k < 6; k++) {
        uint64_t r = next(state);
        *numbers[k] = ldexpf(1.0f + (float)(r & 0xFFFF) / 65536.0f, (int)(r >> 32 & 31) - 16);
    }
    d.a_auto = (next(state) & 1) != 0;
    return d;
}

static struct pw_calibration some_calibration(uint64_t *state)
{
    struct pw_calibration c;
    for (size_t k = 0; k < PW_CALIBRATION; k++)
        c.words[k] = (uint32_t)next(state);
    c.valid = (next(state) & 1) != 0;
    return c;
}

/* What the published text's Pw::new does not set to zero, no or none: COUP_DC is 1, R34_XY 88h,
 * SHUNT_OHM 0.01, 0.5 and 47.5, I_CONT_DEFAULT 6, T_LIM_DEFAULT 30, R20_SENSE 10h and R21_DEFAULT
 * DDh. MAIN_P, CAL_NONE and JR_NONE are 0. */
static struct pw_meter just_made(struct pw_description d, struct pw_calibration c)
{
    struct pw_meter pw = {.description = d, .calibration = c};
    pw.mode.coup = 1;
    pw.ranges = (struct pw_ranges){.vr = 3, .ik = 5, .v_auto = true, .i_auto = true};
    pw.cycle.stat = 0x88;
    pw.clock.run = true;
    pw.settings.r_path[0] = 0.01f;
    pw.settings.r_path[1] = 0.5f;
    pw.settings.r_path[2] = 47.5f;
    pw.settings.i_cont = 6.0f;
    pw.settings.t_lim = 30;
    pw.job.job_save = (struct pw_ranges){.vr = 3, .ik = 5, .v_auto = true, .i_auto = true};
    pw.comparator = (struct pw_comparator){.r20 = 0x10, .r21 = 0xDD, .f_ok = true, .cmp_vr = 255};
    return pw;
}

static void check_made(uint64_t *state)
{
    struct pw_description ones = {{1.0f, 1.0f}, {1.0f, 1.0f, 1.0f}, 1.0f, false};
    struct pw_calibration none = {{0}, false};
    struct pw_meter plain = leaf_pw_new(ones, none), expected = just_made(ones, none);
    expect_same(&expected, &plain, "the plain meter");
    for (int k = 0; k < 1000; k++) {
        struct pw_description d = some_description(state);
        struct pw_calibration c = some_calibration(state);
        struct pw_meter made = leaf_pw_new(d, c);
        expected = just_made(d, c);
        expect_same(&expected, &made, "a meter just made");
    }
}

/* ---- what C writes ---- */

/* A frame that is not ready changes nothing. In DC coupling it has no AD1 either. */
static void check_not_ready(uint64_t *state)
{
    static const uint8_t flags[] = {0x00, 0x08, 0x10, 0xE3, 0xEB, 0xF3};
    struct pw_meter pw = some_meter(state), copy = pw;
    uint64_t r = next(state);
    uint8_t f = flags[r % 6];
    struct leaf_outcome got = leaf_frame(copy, r, f, (int32_t)r, (int32_t)(r >> 8), (int64_t)r);
    expect_same(&pw, &got.pw, "a frame that is not ready");
    expect(!got.mark.set && !got.to_values, "no mark of a frame that is not ready");
    expect_same(&pw, &copy, "a meter lent");
    got = leaf_frame(got.pw, r, f, 0, 0, 0);
    expect_same(&pw, &got.pw, "a meter that has come back once");
}

/* What an apply sets, written from the published text's pw_apply. */
static struct pw_meter applied(struct pw_meter pw, uint8_t keep)
{
    static const uint8_t cycle[4] = {0x88, 0x8C, 0x88, 0x80};
    bool b = !pw.mode.dc && !pw.mode.alt;
    pw.cycle.phase = b && keep == 2 ? 3 : b && keep == 4 ? 1 : 0;
    pw.cycle.seen = pw.cycle.seen & (keep == 2 || keep == 4 ? keep : 0);
    pw.cycle.taken = 0;
    if (pw.comparator.cmp_vr != pw.ranges.vr)
        pw.comparator = (struct pw_comparator){0x10, 0xDD, true, pw.ranges.vr};
    pw.cycle.skip = pw.mode.dc ? 1 : pw.mode.alt ? 4 : 0;
    pw.cycle.skip_y = 1;
    pw.cycle.stat = cycle[pw.cycle.phase];
    return pw;
}

static void check_apply(uint64_t *state)
{
    struct pw_meter pw = some_meter(state);
    uint64_t r = next(state), now = r >> (r & 31);
    uint8_t keep = (uint8_t)(r >> 56) & ((r & 32) != 0 ? 0xFF : 7);
    if ((r & 64) != 0)
        pw.comparator.cmp_vr = pw.ranges.vr;
    struct pw_meter expected = applied(pw, keep);
    struct leaf_outcome got = leaf_apply(pw, keep, now);
    expect_same(&expected, &got.pw, "an apply");
    uint64_t deadline = now > UINT64_MAX - 550 ? UINT64_MAX : now + 550;
    expect(got.mark.set && got.mark.at == deadline, "the mark of an apply");
    expect(!got.to_values, "an apply to_values nothing");
}

static void check_last_deadlines(uint64_t *state)
{
    struct pw_meter pw = some_meter(state);
    expect(leaf_apply(pw, 0, UINT64_MAX - 551).mark.at == UINT64_MAX - 1, "a deadline before it");
    expect(leaf_apply(pw, 0, UINT64_MAX - 550).mark.at == UINT64_MAX, "the last deadline");
    expect(leaf_apply(pw, 0, UINT64_MAX - 549).mark.at == UINT64_MAX, "a deadline held");
    expect(leaf_apply(pw, 0, UINT64_MAX).mark.at == UINT64_MAX, "the last time");
}

/* A meter in DC coupling that is on and drops no result, and has no words. */
static struct pw_meter meter_in(uint8_t ik, bool i_auto, uint8_t barred, float over)
{
    struct pw_description d = {{1.0f, 1.0f}, {1.0f, 1.0f, 1.0f}, over, false};
    struct pw_meter pw = leaf_pw_new(d, (struct pw_calibration){.valid = false});
    pw.mode.on = pw.mode.dc = true;
    pw.ranges.ik = ik;
    pw.ranges.i_auto = i_auto;
    pw.barred = barred;
    return pw;
}

/* Frames go on alike from a meter and from a copy of its bytes. */
static void check_copies(uint64_t *state)
{
    struct pw_meter pw = meter_in(5, true, 0, 1.03f), copy;
    for (uint64_t now = 0; now < 100000; now += 100) {
        unsigned char bytes[sizeof pw];
        memcpy(bytes, &pw, sizeof pw);
        memset(&copy, 0xFF, sizeof copy);
        memcpy(&copy, bytes, sizeof copy);
        uint64_t r = next(state);
        int32_t ad1 = (int32_t)(r & 0xFFFF), lpf = (int32_t)(r >> 16 & 0xFFFF);
        struct leaf_outcome one = leaf_frame(pw, now, 0x1C, ad1, lpf, (int64_t)(r >> 32));
        struct leaf_outcome other = leaf_frame(copy, now, 0x1C, ad1, lpf, (int64_t)(r >> 32));
        expect_same(&one.pw, &other.pw, "a copy");
        pw = one.pw;
    }
    expect(pw.ring.ring_k > 1000, "frames of a copy");
}

/* ---- what no order leads to ---- */

/* Zeros without their mark count as zero, in each method and for each statistic. */
static void check_unmarked_zeros(uint64_t *state)
{
    static const uint8_t stats[] = {0x88, 0x8C, 0x80};
    for (int k = 0; k < 1000; k++) {
        uint64_t r = next(state);
        struct pw_meter pw = meter_in((uint8_t)(r % 6), true, 0, 1.03f), other;
        pw.mode.dc = (r & 8) != 0;
        pw.mode.alt = (r & 16) != 0;
        pw.cycle.phase = r >> 5 & 1;
        pw.cycle.stat = stats[(r >> 8) % 3];
        other = pw;
        other.corrections = some_meter(state).corrections;
        other.corrections.zero_ok = false;
        memcpy(other.corrections.vgain, pw.corrections.vgain, sizeof pw.corrections.vgain);
        int32_t ad1 = (int32_t)(r >> 16 & 0xFFFF), lpf = (int32_t)(r >> 32 & 0x3FFF);
        struct leaf_outcome one = leaf_frame(pw, 1000, 0x1C, ad1, lpf, (int64_t)(r >> 34));
        struct leaf_outcome two = leaf_frame(other, 1000, 0x1C, ad1, lpf, (int64_t)(r >> 34));
        one.pw.corrections = other.corrections;
        expect_same(&one.pw, &two.pw, "zeros without their mark");
    }
}

/* A result of XY selects no window, whatever the comparator is on. */
static void check_window_kept(uint64_t *state)
{
    for (int k = 0; k < 1000; k++) {
        struct pw_meter pw = meter_in(5, true, 0, 1.03f);
        pw.mode.dc = false;
        pw.cycle.seen = 7;
        pw.parts = (struct pw_parts){100.0f, 230.0f, 1.0f, 2.0f, 0.5f, 0.0f};
        pw.comparator = some_meter(state).comparator;
        struct pw_meter got = leaf_frame(pw, 1000, 0x18, 0, 0, 1000000).pw, expected = got;
        expected.comparator = pw.comparator;
        expect(got.cycle.phase == 1, "the phase after a result of XY");
        expect_same(&expected, &got, "the comparator after a result of XY");
    }
}

/* No current flows: the range goes down by one, but not into the shunts that are barred, which are
 * the uA one for 2, and for 1 the mA one as well. */
static void check_barred_floor(void)
{
    static const uint8_t floors[] = {0, 4, 2};
    for (uint8_t barred = 0; barred < 3; barred++)
        for (uint8_t ik = 0; ik < 6; ik++) {
            struct pw_meter pw = meter_in(ik, true, barred, 1.0f);
            struct leaf_outcome got = leaf_frame(pw, 1000, 0x04, 0, 0, 0);
            bool down = ik > floors[barred];
            expect(got.pw.ranges.ik == (down ? ik - 1 : ik), "the floor of what is barred");
            expect(got.mark.set == down && got.to_values != down, "a mark where the range changes");
        }
}

/* A current above the limit of a range set by hand: of what is barred and the range's own unit
 * the lesser number is barred. */
static void check_barred_again(void)
{
    for (uint8_t barred = 0; barred < 3; barred++)
        for (uint8_t ik = 0; ik < 4; ik++) {
            struct pw_meter pw = meter_in(ik, false, barred, 1.0f / 1048576.0f);
            struct leaf_outcome got = leaf_frame(pw, 1000, 0x04, 8388607, 0, 0);
            uint8_t unit = ik < 2 ? 2 : 1, least = barred == 0 || unit < barred ? unit : barred;
            expect(got.pw.ranges.ik == 5 && got.mark.set && got.mark.at == 1550, "a trip");
            expect(got.pw.barred == least && !got.to_values, "what a trip bars");
        }
}

int main(void)
{
    uint64_t state = 20260;
    check_made(&state);
    for (int k = 0; k < 20000; k++) {
        check_not_ready(&state);
        check_apply(&state);
    }
    check_last_deadlines(&state);
    check_copies(&state);
    check_unmarked_zeros(&state);
    check_window_kept(&state);
    check_barred_floor();
    check_barred_again();
    return tell_checks("test_state");
}
