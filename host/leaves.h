/* leaves.h: leaf functions of libleaves.a (`rt lib` in crates/leaves).
 *
 * They are exported so that they can be compared with the published Rust, function by function (by
 * pwscript) and call by call (by tests/frames.c), and with the C compiler's arithmetic (by
 * tests/test_leaves.c and tests/test_figures.c) or the published text (by tests/test_state.c,
 * tests/test_values.c and tests/test_jobs.c). They are no part of the product's interface, pw.h.
 * Each answers for every argument; float and double mean IEEE 754's binary32 and binary64, and a
 * NaN's sign and payload are not kept. */
#ifndef LEAVES_H
#define LEAVES_H

#include "pw.h"

#include <stdbool.h>
#include <stddef.h>
#include <stdint.h>

/* A whole number to the nearest float, ties to even. */
float leaf_u64_to_f32(uint64_t n);
float leaf_i64_to_f32(int64_t n);
double leaf_i64_to_f64(int64_t n);

/* Rust's `as`: cut toward zero, held to the type's ends; NaN gives 0. */
int64_t leaf_f32_to_i64(float x);
int32_t leaf_f32_to_i32(float x);
int16_t leaf_f32_to_i16(float x);
int8_t leaf_f32_to_i8(float x);

/* Between the formats: to the nearest, ties to even; exact the other way. */
float leaf_f64_to_f32(double x);
double leaf_f32_to_f64(float x);

/* No NaN and no infinity. */
bool leaf_is_finite(float x);

/* The size with a plus sign; a NaN stays a NaN. */
float leaf_abs(float x);

/* The greater. Of a NaN and a number the number; of two zeros of unlike sign plus zero. */
float leaf_max(float a, float b);

/* lo for what is below it, else hi for what is above it, else x; a NaN stays a NaN. */
float leaf_clamp(float x, float lo, float hi);

/* Four Heron steps y = 0.5 * (y + x / y) from the seed whose bits are (bits of x >> 1) + 1FC00000h.
 * x <= 0 gives plus zero, NaN gives NaN, and so does infinity. */
float leaf_sqrt(float x);

/* leaf_sqrt(a * a + b * b), rounded at each operation. */
float leaf_hypot(float a, float b);

/* Whether the flags hold the AD1 bit (2); whether they hold both the RMS bit (4) and the LPF bit (3). */
bool leaf_holds_ad1(uint8_t flags);
bool leaf_holds_rms_lpf(uint8_t flags);

/* The unit of current range k (0 A, 1 mA, 2 uA) and its amplifier's gain index (0 times ten, 1 times
 * one). A range above 5 counts as 5. */
struct leaf_iu_ir {
    uint8_t iu;
    uint8_t ir;
};
struct leaf_iu_ir leaf_iu_ir(uint8_t k);

/* The place of current range k among six calibration words: iu * 2 + ir. */
uint8_t leaf_cal_index(uint8_t k);

/* The coupling that a number means: its low two bits, where 2 counts as 0 (0 AC+DC, 1 DC, 3 AC). */
uint8_t leaf_coup_of(uint32_t c);

/* The next coupling in the order DC, AC, AC+DC; DC after any other number. */
uint8_t leaf_next_coupling(uint8_t c);

/* Refusal 7 unless each of the six numbers is from 2^-20 to 2^20, ends allowed; else 0. */
uint8_t leaf_description_refusal(struct pw_description d);

/* The calibration of the `count` words at `words`, which can be read and are not written, with their
 * mark. Refusal 0; or 8 where they are not 73, with zeros and the mark off, and then no word is
 * read. `words` must not be NULL, not even for count 0. */
struct leaf_calibration_answer {
    uint8_t refusal;
    struct pw_calibration calibration;
};
struct leaf_calibration_answer leaf_calibration_of(const uint32_t *words, size_t count, bool valid);

/* The number in the word at a byte offset, the one of index offset / 4; or `otherwise` where the mark
 * is off, the index is 73 or more, or the number is not finite or not below 1.0e6 in size. */
float leaf_cal(struct pw_calibration c, uint32_t offset, float otherwise);

/* leaf_cal with 1.0 and with 0.0 for `otherwise`. */
float leaf_factor(struct pw_calibration c, uint32_t at);
float leaf_offset(struct pw_calibration c, uint32_t at);

/* The V channel's gain by the factory's words, or 1.0 where that is not within 0.9 to 1.1. Range 0:
 * factor 04h * factor 38h / factor 08h; range r: factor 34h + 4 r. A range above 3 counts as 3. */
float leaf_v_gain_factory(struct pw_calibration c, uint8_t vr);

/* The gain in force: the one stored for the range where it is above zero, else the factory's. */
struct leaf_gains {
    float vgain[4];
};
float leaf_v_gain(struct pw_calibration c, struct leaf_gains g, uint8_t vr);

/* The source's tables by index: vr is a V range, ik a current range, iu a current unit, ci a place as
 * of leaf_cal_index. An index past the end is held to the last entry; only the phase goes round. */
float leaf_v_lim(uint8_t vr);
float leaf_i_lim(uint8_t ik);
float leaf_shunt_ohm(uint8_t iu);
float leaf_kv(uint8_t vr);
float leaf_k_acv(uint8_t vr);
float leaf_dcv_negk(uint8_t vr);
float leaf_acv_win(uint8_t vr);
float leaf_aca_win(uint8_t ci);
uint8_t leaf_cycle_at(uint8_t phase);

/* Power, apparent and reactive power, factor, volts and amperes of the load, from the measured parts
 * and the resistance r of the path, whose burden is taken off. In binary32, rounded at each operation:
 * pm = p_ac + v_dc * i_dc, vm = leaf_hypot(v_ac, v_dc), i = leaf_hypot(i_ac, i_dc),
 * p = pm - i * i * r, v = leaf_sqrt(leaf_max(vm * vm - 2 * r * pm + r * r * i * i, 0)), s = v * i,
 * pf = p / s held to -1 and 1 where s > 0, else 0, and q = leaf_sqrt(leaf_max(s * s - p * p, 0)). */
struct pw_figures leaf_totals(float p_ac, float v_ac, float v_dc, float i_ac, float i_dc, float r);

/* Smoothing of y toward x: x where abs(x - y) > win, else y + a * (x - y). */
float leaf_ema(float win, float a, float x, float y);

/* leaf_ema with win = 0.05 * max(max(abs x, abs y), floor). */
float leaf_ema_rel(float a, float floor, float x, float y);

/* x = frac + millijoules in binary32 and w, x cut toward zero: refusal 0, the energy mj + w and x - w,
 * and w in `whole`. Or refusal 6, the energy as it was and `whole` 0, where x is not finite or not
 * -2^63 <= x < 2^63, or mj + w does not fit in 64 signed bits. */
struct leaf_added {
    uint8_t refusal;
    struct pw_acc acc;
    int64_t whole;
};
struct leaf_added leaf_acc_step(struct pw_acc a, float millijoules);

/* leaf_acc_step with joules * 1000 in binary32. */
struct leaf_added leaf_add_to(struct pw_acc a, float joules);

/* Nothing counted. */
struct pw_tally leaf_fresh_tally(void);

/* One interval of dt ms; its seconds are dt to the nearest float, times 0.001. Where `active`, e gets
 * p * seconds joules, else it stays; va gets s * seconds, t_int gets dt, and `whole` is what was added
 * to e's millijoules. Or refusal 6, the tally as it was and `whole` 0, where an energy that
 * gets something is full or t_int + dt is not below 2^63. */
struct leaf_accounted {
    uint8_t refusal;
    struct pw_tally tally;
    int64_t whole;
};
struct leaf_accounted leaf_accounting_step(struct pw_tally t, uint64_t dt, float p, float s, bool active);

/* ---- the meter ---- */

/* A meter with this description and these words, just made: the source's Pw::new, and beside it
 * nothing barred, no frame yet, and no ready frame used. Neither is refused here. */
struct pw_meter leaf_pw_new(struct pw_description d, struct pw_calibration c);

/* The meter after a measuring step. `mark` is set where the host is to write the row at once, and
 * then is the deadline: the call's time and the settling time, held to the end of 64 bits.
 * `to_values` says whether the source goes on to pw_vals, which may still answer none (not all of
 * `seen` marked); then nothing is accounted. */
struct leaf_outcome {
    struct pw_meter pw;
    struct pw_stamp mark;
    bool to_values;
};

/* What one frame does to the meter outside a job, up to the accounting step, which is not in it:
 * the DC path where `dc`, else the alternating one where `alt`, else method B. `now` is the
 * frame's time, ad1, lpf and rms are its codes. It tests neither `on` nor the job. The
 * description, the words, the mode, powers, tally, clock, over_t0, settings, corrections, job,
 * and of the phase calibration all but cal_n and cal_acc come back as they were. */
struct leaf_outcome leaf_frame(struct pw_meter pw, uint64_t now, uint8_t flags, int32_t ad1,
                                int32_t lpf, int64_t rms);

/* The source's pw_apply outside a job: the row of the ranges and the method is to be written
 * anew, and the phases start again. Keep 2 keeps the voltage's part of `seen`, 4 the current's,
 * any other number none. Only the cycle and the comparator change; `mark` is set always, and
 * `to_values` is no. */
struct leaf_outcome leaf_apply(struct pw_meter pw, uint8_t keep, uint64_t now);

/* ---- jobs and the phase calibration ---- */

/* What a phase calibration makes of the step s at which the power is nothing: CAL_OK (2) with s less 0.5
 * where it is below zero, else plus 0.5, in binary32, cut toward zero; CAL_FLAT (3) where s is not finite;
 * else CAL_RANGE (5) where it is not from -127.49 to 127.49. Of the latter two the steps are 0. */
struct leaf_cal_outcome {
    uint8_t number;
    int8_t steps;
};
struct leaf_cal_outcome leaf_cal_outcome(float s);

/* A phase start that is not refused: round 1 begins, with nothing counted, from the step in force, and
 * the result is CAL_RUN (1). sph and cal_pa come back as they were. */
struct pw_phase_cal leaf_cal_start(struct pw_phase_cal before);

/* The phase calibration's part of the accounting step. It acts where one runs and 8 results or more are
 * counted, and then cal_n and cal_acc become 0. Round 1: a mean above 0.32 in size ends it with
 * CAL_NOT_REACTIVE (4); any other, and a NaN, is kept in cal_pa, and round 2 begins with sph at
 * cal_s0 + 48, or at cal_s0 - 48 where cal_s0 is above 79. Any other round ends it by leaf_cal_outcome of
 * the step at which the line through both means is nothing, or of a NaN where it does not rise or fall by
 * more than 1e-7 a step: the step found is in force then, or where there is none that of the start.
 * cal_req becomes true at each of these ends but CAL_NOT_REACTIVE's, where it stays. */
struct leaf_phase_step {
    struct pw_phase_cal phase_cal;
    bool cal_req;
};
struct leaf_phase_step leaf_cal_account(struct pw_phase_cal before, bool cal_req);

/* The meter after a job's start, and the mark with the deadline: the call's time and the settling time of
 * the step that begins, which is 450 ms for the DC reference, 2000 ms for the AC one and else 550 ms, held
 * to the end of 64 bits. */
struct leaf_started {
    struct pw_meter pw;
    struct pw_stamp mark;
};

/* A job start that is not refused: kind 1 is the zero job, any other number the gain job. The ranges and
 * automatic marks are noted, zx and zd copied whatever their mark, the phase calibration is off (its
 * result and sph stay), and step 0 begins, with no ready frame used; the mark is always set. A step begins
 * with its current range (the zero job's steps 0 to 11), the frames to drop in `skip`, `stat`, and sums of
 * nothing. It tests neither `on`, the job nor the method. */
struct leaf_started leaf_job_start(struct pw_meter pw, uint8_t kind, uint64_t now);

/* A job start that is refused with 3: job_last is 1 or 2, by `kind` as of leaf_job_start, and job_res
 * JR_METHOD (9), nothing else. */
struct pw_meter leaf_job_turned_away(struct pw_meter pw, uint8_t kind);

/* The source's pw_job_end. Where a job runs none does any longer, job_res is `res`, the ranges and
 * automatic marks are those noted at its start, and cal_req is as `on`; else nothing changes. `used`
 * stays until the next start. */
struct pw_meter leaf_job_end(struct pw_meter pw, uint8_t res);

/* The meter after a frame, the mark (as of a start) where the next step has begun, and how many ready
 * frames the job has used, this one included if it is ready, also where it has ended the job. */
struct leaf_polled {
    struct pw_meter pw;
    struct pw_stamp mark;
    uint8_t used;
};

/* What one frame does to the meter in a job, by document 01's rules of the jobs; its time becomes t_poll.
 * It tests neither `on` nor whether a job runs: any job number but 1 counts as the gain job's. The
 * description, the words, barred, parts, powers, tally, run, t_last, over_t0, settings, phase
 * calibration, comparator and ring come back as they were, and so do the corrections, unless the job ends
 * with JR_OK (2). */
struct leaf_polled leaf_job_poll(struct pw_meter pw, uint64_t now, uint8_t flags, int32_t ad1, int32_t lpf,
                                 int64_t rms);

/* ---- values and readouts; the others are in pw.h ---- */

/* The source's PowerVals::ZERO, where f_ok is no and p_avg a NaN. */
struct pw_power_vals leaf_zero_vals(void);

/* Plus zero where x times ten, `dec` times over in binary32, is below 0.5 in size; else x. */
float leaf_no_neg_zero(float x, uint8_t dec);

/* Rust's signum: 1.0 or -1.0 by the sign bit, also of a zero; a NaN for a NaN. */
float leaf_signum(float x);

/* ---- where the values of a meter lie ---- */

/* A meter in which every value has a number of its own: 1, 2, 3 and so on in the order of declaration,
 * 128 as a signed byte being -128; the bools are yes and no in turn. */
struct pw_meter leaf_numbered_meter(void);

/* Whether every value of a meter is the one that it has there. */
bool leaf_is_numbered(struct pw_meter pw);

#endif
