/* record_day: writes the recording of a day on a bench to standard output (recording.h).
 *
 * It is a host with a simulated chip: it makes each call on a meter of libpw.a, obeys the marks and re-applies
 * where it is asked to, as a live host does, and notes every call. The supply gives about 48 V to a load of some
 * amperes; the converters have offsets, gains and noise. The day is the same at every run: the noise is of a
 * generator of its own, and only operations that IEEE 754 fixes are used.
 */
#include "pw.h"
#include "recording.h"

#include <inttypes.h>
#include <stdio.h>
#include <stdlib.h>
#include <string.h>

#define SECONDS(s) ((uint64_t)(s) * 1000)
#define MINUTES(m) (SECONDS(m) * 60)
#define CLOCK(h, m) (MINUTES((h) * 60 + (m)))

/* ---- the hardware: what a real host would know of its meter, and what the simulation adds ---- */

/* The gain of OP1 and the shunts by unit (A, mA, uA): in the unit's own ohms, and in ohms. */
static const double op1[2] = {10.0, 1.0};
static const double shunt[3] = {0.01, 0.5e-3, 47.5e-6};
static const double shunt_ohm[3] = {0.01, 0.5, 47.5};
static const double unit[3] = {1.0, 1e-3, 1e-6};
static const double tap[4] = {10.0, 100.0, 1000.0, 10000.0};
static const double code = 1.25 / 262144.0; /* volts of a code of AD2 and AD3 */
static const double ad1_code = 1.25 / 0.9 / 8388608.0;

/* The factory's calibration, by byte offset: gains near 1, offsets of the references. */
enum {
    CAL_DC_V = 0x04, CAL_DC_V_OFFSET = 0x14, CAL_AC_V = 0x34, CAL_AC_V_OFFSET = 0x44,
    CAL_DC_A = 0x94, CAL_AC_A = 0xC4, CAL_AC_A_OFFSET = 0xDC, CAL_LPF_A = 0xF4, CAL_LPF_A_OFFSET = 0x10C
};

/* What the meter is to find: offsets in codes by current range, and the V channel's gain by V range. */
static const double offset_x[6] = {412.3, 388.7, 305.2, -61.4, 157.9, 149.1};
static const double offset_d[6] = {5210.4, 4127.8, -2204.6, -318.2, 1433.7, 871.5};
static const double offset_y = -742.6;
static const double gain_y[4] = {1.0209, 1.0170, 1.0033, 0.9982};

struct bench {
    struct pw_meter meter;
    uint32_t words[PW_CALIBRATION];
    uint64_t random;
    uint64_t now;
    uint64_t deadline;
    uint64_t fnv;
    size_t lines;
    /* The chip: the row that the host wrote, and the ranges and phase steps with it. */
    uint8_t row;
    struct pw_ranges ranges;
    int8_t sph;
    /* What is connected. */
    bool leads_open;
    bool with_ac;
    bool capacitor; /* the AC current of a capacitor, which takes no power */
    bool supply_drifts;
};

/* ---- noise ---- */

static uint64_t next_random(struct bench *b)
{
    uint64_t z = b->random += UINT64_C(0x9E3779B97F4A7C15);
    z = (z ^ z >> 30) * UINT64_C(0xBF58476D1CE4E5B9);
    z = (z ^ z >> 27) * UINT64_C(0x94D049BB133111EB);
    return z ^ z >> 31;
}

/* From -1 to 1, of four dice. */
static double noise(struct bench *b)
{
    uint64_t n = next_random(b);
    uint64_t sum = (n & 0xFFFF) + (n >> 16 & 0xFFFF) + (n >> 32 & 0xFFFF) + (n >> 48);
    return ((double)sum - 131070.0) / 131070.0;
}

/* ---- writing ---- */

static void put(struct bench *b, const char *text, size_t length)
{
    b->fnv = fnv_more(b->fnv, text, length);
    b->lines++;
    fwrite(text, 1, length, stdout);
}

static void put_line(struct bench *b, const char *text)
{
    char line[256];
    int length = snprintf(line, sizeof line, "%s\n", text);
    put(b, line, (size_t)length);
}

/* A call of a name and a time, and what follows the time. */
static void put_call(struct bench *b, const char *name, uint64_t time, const char *more)
{
    char line[128];
    snprintf(line, sizeof line, "%s %" PRIu64 "%s", name, time, more);
    put_line(b, line);
}

static char *put_hex(char *at, const uint8_t *bytes, size_t count)
{
    static const char digits[] = "0123456789abcdef";
    for (size_t k = 0; k < count; k++) {
        *at++ = digits[bytes[k] >> 4];
        *at++ = digits[bytes[k] & 15];
    }
    return at;
}

static void put_frame(struct bench *b, uint64_t time, uint8_t flags, const uint8_t *bytes, size_t length)
{
    char line[128];
    char *at = line + snprintf(line, sizeof line, "frame %" PRIu64 " ", time);
    at = put_hex(at, &flags, 1);
    *at++ = ' ';
    if (length == 0)
        *at++ = '-';
    at = put_hex(at, bytes, length);
    *at++ = '\n';
    put(b, line, (size_t)(at - line));
}

/* ---- the signals ---- */

struct signals {
    double v_dc;
    double v_ac;
    double i_dc;
    double i_ac;
    double p_ac;
};

/* The load's current over the day: standby at night, work from six on, a peak at noon. */
static double load_at(uint64_t time)
{
    static const struct {
        uint64_t time;
        double amperes;
    } day[] = {{CLOCK(0, 0), 1.6},   {CLOCK(0, 29), 1.6},  {CLOCK(0, 30), 0.034}, {CLOCK(6, 0), 0.036}, {CLOCK(6, 1), 1.2},
               {CLOCK(9, 0), 3.9},   {CLOCK(11, 58), 4.4}, {CLOCK(12, 0), 7.4},   {CLOCK(12, 3), 7.6},  {CLOCK(12, 5), 2.1},
               {CLOCK(16, 30), 4.8}, {CLOCK(18, 0), 2.6},  {CLOCK(21, 59), 1.9},  {CLOCK(22, 0), 0.31}, {CLOCK(24, 0), 0.29}};
    size_t k = 1;
    while (k + 1 < sizeof day / sizeof *day && time >= day[k].time)
        k++;
    double part = (double)(time - day[k - 1].time) / (double)(day[k].time - day[k - 1].time);
    return day[k - 1].amperes + (day[k].amperes - day[k - 1].amperes) * part;
}

/* A triangle between -1 and 1 of so many ms. */
static double triangle(uint64_t time, uint64_t period)
{
    double part = (double)(time % period) / (double)period;
    return part < 0.5 ? 4.0 * part - 1.0 : 3.0 - 4.0 * part;
}

/* A step of the phase calibration turns the current by some 0.407 us; the hardware's own is 21 steps. */
static double turned(const struct bench *b, double cosine, double sine)
{
    double angle = 1.28e-4 * (double)(b->sph - 21);
    return cosine + sine * angle;
}

static struct signals signals_now(struct bench *b)
{
    struct signals s = {0.0, 0.0, 0.0, 0.0, 0.0};
    if (b->leads_open)
        return s;
    double load = load_at(b->now) * (1.0 + 0.06 * triangle(b->now, 47000) + 0.01 * noise(b));
    s.i_dc = load;
    s.v_dc = 48.1 - 0.05 * load + 0.12 * triangle(b->now, MINUTES(173)) + 0.002 * noise(b);
    if (b->supply_drifts)
        s.v_dc += 1.5 * triangle(b->now, 9000);
    if (b->with_ac) {
        s.v_ac = 9.2 + 0.01 * noise(b);
        s.i_ac = 1.7 + 0.05 * triangle(b->now, 61000) + 0.002 * noise(b);
        s.p_ac = s.v_ac * s.i_ac * (b->capacitor ? turned(b, 0.0, 1.0) : turned(b, 0.42, 0.9075));
    }
    return s;
}

/* ---- the chip ---- */

static double cal(const struct bench *b, unsigned offset, unsigned k)
{
    float x;
    memcpy(&x, &b->words[offset / 4 + k], sizeof x);
    return (double)x;
}

/* The nearest whole code, held to so many bits with the sign. */
static int64_t code_of(double x, int bits)
{
    double most = (double)((INT64_C(1) << (bits - 1)) - 1);
    x = x > most ? most : x < -most ? -most : x;
    return (int64_t)(x < 0.0 ? x - 0.5 : x + 0.5);
}

struct codes {
    double ad1;
    double lpf;
    double rms;
};

/* The amplitude with converter noise of some codes, squared. */
static double squared(struct bench *b, double amplitude)
{
    double own = 14.0 + 4.0 * noise(b);
    return amplitude * amplitude + own * own;
}

/* The power row and the DC row: current on AD1 and X, voltage on Y; R34 chooses the statistic. */
static struct codes power_codes(struct bench *b, struct signals s, uint8_t r34)
{
    size_t vr = b->ranges.vr, ik = b->ranges.ik;
    unsigned u = 2 - (unsigned)ik / 2, ci = u * 2 + (unsigned)ik % 2;
    double gain = op1[ik % 2];
    double x = shunt_ohm[u] * gain / code / cal(b, CAL_AC_A, ci);
    double y = 1.0 / (code * tap[vr] * gain_y[vr]);
    struct codes c;
    c.ad1 = s.i_dc / unit[u] * shunt[u] * gain / ad1_code / cal(b, CAL_DC_A, ci) + offset_d[ik] + 30.0 * noise(b);
    if (r34 == PW_R34_YY) {
        c.lpf = s.v_dc * y + offset_y + 3.0 * noise(b);
        c.rms = squared(b, s.v_ac * y);
    } else {
        c.lpf = s.i_dc * x + offset_x[ik] + 3.0 * noise(b);
        c.rms = r34 == PW_R34_XX ? squared(b, s.i_ac * x) : s.p_ac * x * y + 60.0 * noise(b);
    }
    return c;
}

/* The alternating rows and the AC reference: the factory's own AC V and AC A. */
static struct codes factory_ac_codes(struct bench *b, struct signals s, bool voltage)
{
    size_t vr = b->ranges.vr, ik = b->ranges.ik;
    unsigned u = 2 - (unsigned)ik / 2, ci = u * 2 + (unsigned)ik % 2;
    double x = shunt_ohm[u] * op1[ik % 2] / code;
    struct codes c = {40.0 * noise(b), 3.0 * noise(b), 0.0};
    if (voltage) {
        c.rms = squared(b, (s.v_ac + cal(b, CAL_AC_V_OFFSET, (unsigned)vr)) / (tap[vr] * code * cal(b, CAL_AC_V, (unsigned)vr)));
    } else {
        c.lpf += (s.i_dc + cal(b, CAL_LPF_A_OFFSET, ci) * unit[u]) * x / cal(b, CAL_LPF_A, ci);
        c.rms = squared(b, (s.i_ac + cal(b, CAL_AC_A_OFFSET, ci) * unit[u]) * x / cal(b, CAL_AC_A, ci));
    }
    return c;
}

/* The DC reference: the factory's DC V on AD1. */
static struct codes dc_reference_codes(struct bench *b, struct signals s)
{
    unsigned vr = b->ranges.vr;
    struct codes c = {0.0, 3.0 * noise(b), squared(b, 0.0)};
    c.ad1 = (s.v_dc + cal(b, CAL_DC_V_OFFSET, vr)) / (tap[vr] * ad1_code * cal(b, CAL_DC_V, vr)) + 25.0 * noise(b);
    return c;
}

static void chip_frame(struct bench *b, uint8_t frame[PW_FRAME_LENGTH])
{
    struct signals s = signals_now(b);
    struct codes c;
    switch (b->row) {
    case PW_ROW_POWER: c = power_codes(b, s, b->meter.cycle.stat); break;
    case PW_ROW_DC: c = power_codes(b, s, PW_R34_YY); break;
    case PW_ROW_DC_REFERENCE: c = dc_reference_codes(b, s); break;
    default: c = factory_ac_codes(b, s, b->row != PW_ROW_ALT_I); break;
    }
    uint64_t ad1 = (uint64_t)code_of(c.ad1, 24), lpf = (uint64_t)code_of(c.lpf, 19), rms = (uint64_t)code_of(c.rms, 38);
    uint64_t rest = next_random(b);
    for (unsigned k = 0; k < 3; k++) {
        frame[k] = (uint8_t)(ad1 >> 8 * k);
        frame[3 + k] = (uint8_t)(rest >> 8 * k); /* AD2, which is not used */
        frame[6 + k] = (uint8_t)(lpf >> 8 * k);
    }
    for (unsigned k = 0; k < 5; k++)
        frame[9 + k] = (uint8_t)(rms >> 8 * k);
}

/* ---- the host ---- */

/* Keeps the meter, and at a mark writes the row and waits for the deadline before the next frame. */
static void take_step(struct bench *b, struct pw_step s)
{
    b->meter = s.meter;
    if (!s.answer.mark.set)
        return;
    b->deadline = s.answer.mark.at;
    b->row = pw_row(s.meter);
    b->ranges = s.meter.ranges;
    b->sph = s.meter.phase_cal.sph;
}

/* The time of the next frame: some 310 ms later, and not before the deadline. */
static void wait(struct bench *b)
{
    b->now += 290 + next_random(b) % 41;
    if (b->now < b->deadline)
        b->now = b->deadline + next_random(b) % 8;
}

static void reapply(struct bench *b)
{
    b->now += 2;
    put_call(b, "reapply", b->now, "");
    take_step(b, pw_reapply(b->meter, b->now));
}

/* A frame, in which now and then a result is not new. */
static void frame(struct bench *b)
{
    uint8_t bytes[PW_FRAME_LENGTH];
    uint64_t chance = next_random(b) % 64;
    uint8_t flags = chance == 0 ? 0 : chance == 1 ? PW_INTF_AD1 : PW_INTF_AD1 | PW_INTF_LPF | PW_INTF_RMS;
    if (b->meter.mode.cal_req && b->meter.job.job == PW_JOB_NONE)
        reapply(b);
    wait(b);
    chip_frame(b, bytes);
    put_frame(b, b->now, flags, bytes, sizeof bytes);
    take_step(b, pw_frame(b->meter, b->now, flags, bytes, sizeof bytes));
}

static void frames_until(struct bench *b, uint64_t time)
{
    while (b->now < time)
        frame(b);
}

static void zero_job(struct bench *b)
{
    put_call(b, "zero", ++b->now, "");
    take_step(b, pw_zero_job(b->meter, b->now));
}

static void gain_job(struct bench *b)
{
    put_call(b, "gain", ++b->now, "");
    take_step(b, pw_gain_job(b->meter, b->now));
}

static void job_to_its_end(struct bench *b)
{
    while (b->meter.job.job != PW_JOB_NONE)
        frame(b);
}

static void coupling(struct bench *b, uint8_t c)
{
    char more[8];
    snprintf(more, sizeof more, " %u", c);
    put_call(b, "coupling", ++b->now, more);
    take_step(b, pw_coupling(b->meter, b->now, c));
}

static void method(struct bench *b, bool alt)
{
    put_call(b, "method", ++b->now, alt ? " 1" : " 0");
    take_step(b, pw_method(b->meter, b->now, alt));
}

static void run(struct bench *b, bool yes)
{
    put_line(b, yes ? "run 1" : "run 0");
    take_step(b, pw_run(b->meter, yes));
}

/* A frame of any time and length: the host's mistakes. */
static void odd_frame(struct bench *b, uint64_t time, size_t length)
{
    uint8_t bytes[PW_FRAME_LENGTH];
    chip_frame(b, bytes);
    put_frame(b, time, 0x1c, bytes, length);
    take_step(b, pw_frame(b->meter, time, 0x1c, bytes, length));
}

/* ---- the day ---- */

static void make_words(struct bench *b)
{
    static const struct {
        unsigned offset;
        float values[6];
    } factory[] = {{CAL_DC_V, {1.0043f, 1.0011f, 0.9987f, 1.0021f}},
                   {CAL_DC_V_OFFSET, {0.0006f, 0.004f, -0.03f, 0.2f}},
                   {CAL_AC_V, {1.011f, 1.0161f, 1.0045f, 0.9981f}},
                   {CAL_AC_V_OFFSET, {0.0003f, 0.003f, 0.02f, 0.3f}},
                   {CAL_DC_A, {0.9962f, 1.0018f, 1.0057f, 0.9991f, 1.0102f, 1.0033f}},
                   {CAL_AC_A, {1.0071f, 0.9964f, 1.0219f, 1.0023f, 0.9876f, 1.0045f}},
                   {CAL_AC_A_OFFSET, {0.0005f, 0.0004f, 0.003f, 0.02f, 0.05f, 0.3f}},
                   {CAL_LPF_A, {1.0068f, 0.9969f, 1.0f, 1.0f, 1.0f, 1.0f}},
                   {CAL_LPF_A_OFFSET, {0.002f, 0.001f, 0.01f, 0.1f, 0.2f, 1.5f}}};
    for (size_t f = 0; f < sizeof factory / sizeof *factory; f++)
        for (size_t k = 0; k < 6; k++)
            if (k < 4 || factory[f].offset >= CAL_DC_A)
                memcpy(&b->words[factory[f].offset / 4 + k], &factory[f].values[k], sizeof(uint32_t));
}

/* The meter, and the line that says how it was made. */
static void make(struct bench *b)
{
    struct pw_description d = {{(float)op1[0], (float)op1[1]}, {(float)shunt[0], (float)shunt[1], (float)shunt[2]}, 1.03f, false};
    const float six[6] = {d.mv_div[0], d.mv_div[1], d.shunt[0], d.shunt[1], d.shunt[2], d.over};
    char line[1024];
    char *at = line + sprintf(line, "meter");
    for (size_t k = 0; k < 6; k++) {
        uint32_t bits;
        memcpy(&bits, &six[k], sizeof bits);
        at += sprintf(at, " %08" PRIx32, bits);
    }
    at += sprintf(at, " 0 1 ");
    for (size_t k = 0; k < PW_CALIBRATION; k++)
        at += sprintf(at, "%08" PRIx32, b->words[k]);
    *at++ = '\n';
    put(b, line, (size_t)(at - line));
    struct pw_made made = pw_make(d, b->words, PW_CALIBRATION, true);
    if (made.refusal != PW_DONE) {
        fprintf(stderr, "record_day: no meter is made: refusal %u\n", made.refusal);
        exit(1);
    }
    b->meter = made.meter;
}

/* The first minutes: a zero job with the leads still on the supply, one with the leads open, the gain job. */
static void set_up(struct bench *b)
{
    b->now = SECONDS(2);
    odd_frame(b, b->now, PW_FRAME_LENGTH); /* refused: off */
    put_call(b, "on", ++b->now, "");
    take_step(b, pw_on(b->meter, b->now));
    run(b, false);
    frames_until(b, SECONDS(20));
    zero_job(b);
    job_to_its_end(b);
    b->leads_open = true;
    frames_until(b, SECONDS(40));
    zero_job(b);
    frames_until(b, SECONDS(45));
    gain_job(b); /* refused: busy */
    job_to_its_end(b);
    b->leads_open = false;
    frames_until(b, MINUTES(2));
    gain_job(b);
    job_to_its_end(b);
    frames_until(b, MINUTES(3));
    put_line(b, "ereset");
    take_step(b, pw_energy_reset(b->meter));
    run(b, true);
}

/* From one on an AC voltage lies on the supply: method B, a phase calibration, then the alternating method. */
static void afternoon(struct bench *b)
{
    frames_until(b, CLOCK(13, 0));
    b->with_ac = true;
    coupling(b, PW_COUP_ACDC);
    frames_until(b, CLOCK(13, 5));
    b->capacitor = true;
    frames_until(b, CLOCK(13, 6));
    put_line(b, "phase");
    take_step(b, pw_phase_start(b->meter));
    frames_until(b, CLOCK(13, 9));
    b->capacitor = false;
    frames_until(b, CLOCK(13, 53));
    method(b, true);
    frames_until(b, CLOCK(13, 55));
    zero_job(b); /* refused: method */
    frames_until(b, CLOCK(14, 0));
    method(b, false);
    b->with_ac = false;
    coupling(b, PW_COUP_DC);
}

static void day(struct bench *b)
{
    make(b);
    set_up(b);
    frames_until(b, CLOCK(10, 15));
    odd_frame(b, ++b->now, PW_FRAME_LENGTH - 1); /* refused: frame */
    odd_frame(b, ++b->now, 0);
    afternoon(b);
    frames_until(b, CLOCK(15, 30));
    odd_frame(b, b->now - 4000, PW_FRAME_LENGTH); /* the clock is set back, and forth again */
    frames_until(b, CLOCK(16, 0));
    odd_frame(b, PW_TIME_LAST + 1, PW_FRAME_LENGTH); /* refused: late */
    frames_until(b, CLOCK(17, 0));
    b->supply_drifts = true;
    gain_job(b); /* ends unstable: the gain stays */
    job_to_its_end(b);
    b->supply_drifts = false;
    frames_until(b, CLOCK(19, 0));
    zero_job(b);
    put_call(b, "ranges", ++b->now, " k a"); /* ends the job: the zeros stay */
    take_step(b, pw_ranges(b->meter, b->now, PW_KEEP, PW_AUTO));
    frames_until(b, CLOCK(20, 0));
    run(b, false);
    frames_until(b, CLOCK(20, 10));
    run(b, true);
    frames_until(b, CLOCK(24, 0) - 500);
}

int main(void)
{
    static struct bench b = {.random = 20260504, .fnv = FNV_OF_NOTHING};
    char first[64];
    make_words(&b);
    snprintf(first, sizeof first, "%s %d", RECORDING_NAME, RECORDING_VERSION);
    put_line(&b, first);
    put_line(&b, "# A day on a bench: a supply of 48 V and a load of some amperes, simulated by host/record_day.c.");
    put_line(&b, "# Times are ms since midnight.");
    day(&b);
    printf("end %zu %016" PRIx64 "\n", b.lines, b.fnv);
    if (ferror(stdout) || fflush(stdout) != 0) {
        perror("record_day: standard output");
        return 1;
    }
    return 0;
}
