/* pw.h: the C interface of libpw.a, a power meter over the HY3131 chip.
 *
 * A host keeps a meter, hands it orders and the frames that it reads from the
 * chip, writes to the chip what the meter asks for, and shows its readings.
 * This file is the whole manual. Its order:
 *
 *   an example, whole            what a screen shows
 *   refusals                     the ring
 *   a frame and its codes        the row to write, and the comparator
 *   the meter and its parts      accumulators of the host's own
 *   making one                   formats
 *   answers, and the orders      names
 *   the frame call
 *   the host's part, and traps
 *
 * libpw.a is written in Rattle and proved; `make build/libpw.a` proves it and
 * writes it, for x86-64 with the System V calling convention. It allocates
 * nothing, keeps nothing between calls, and needs no other library. Every
 * function answers for every argument, but for what its comment says of pointers
 * and of bools, and may be called from any thread. The names at the end of this
 * file are C, in pw_names.c, and stand in the same archive, so that a host links
 * -lpw alone. The header is C99 or later, or C++11 or later; in C++ some structs
 * share their name with a function, so write `struct`.
 *
 * The processor's floating-point mode must be the one that a C program starts
 * with: rounding to nearest, subnormals neither flushed to zero nor read as
 * zero. fesetround, flush-to-zero, and -ffast-math when the host is linked
 * change the answers.
 *
 * A float is IEEE 754's binary32. Where an answer holds a NaN, its sign and
 * payload mean nothing.
 *
 * What follows up to the end mark is a program. It stands for a host at a bench
 * where 12 V and 1 A are measured, with a chip that answers at once.
 *
 * ---- example ----
 * #include <pw.h>
 * #include <stdio.h>
 *
 * static struct pw_meter meter;
 * static uint64_t now; // ms
 *
 * // What this chip would say: AD1 is the current, LPF the voltage.
 * static void read_chip(int32_t ad1, int32_t lpf, uint8_t *bytes)
 * {
 *     for (int k = 0; k < PW_FRAME_LENGTH; k++)
 *         bytes[k] = 0;
 *     for (int k = 0; k < 3; k++) {
 *         bytes[k] = (uint8_t)((uint32_t)ad1 >> 8 * k);
 *         bytes[6 + k] = (uint8_t)((uint32_t)lpf >> 8 * k);
 *     }
 * }
 *
 * // What a host does after every call.
 * static struct pw_answer keep(struct pw_step step)
 * {
 *     meter = step.meter;
 *     if (step.answer.refusal != PW_DONE)
 *         printf("refused: %s\n", pw_refusal_name(step.answer.refusal));
 *     if (step.answer.mark.set) {
 *         // here the row of kind pw_row(meter) goes to the chip
 *         now = step.answer.mark.at;
 *     }
 *     if (meter.mode.cal_req && meter.mode.on && meter.job.job == PW_JOB_NONE)
 *         keep(pw_reapply(meter, now));
 *     return step.answer;
 * }
 *
 * static struct pw_answer poll(int32_t ad1, int32_t lpf)
 * {
 *     uint8_t bytes[PW_FRAME_LENGTH];
 *     read_chip(ad1, lpf, bytes);
 *     uint8_t flags = PW_INTF_AD1 | PW_INTF_LPF | PW_INTF_RMS;
 *     now += 100;
 *     struct pw_answer answer =
 *         keep(pw_frame(meter, now, flags, bytes, sizeof bytes));
 *     // in the power row, meter.cycle.stat and meter.comparator.r21 now go to
 *     // R34 and R21
 *     return answer;
 * }
 *
 * static void show(const char *what, struct pw_val val)
 * {
 *     if (val.over)
 *         printf("%s over\n", what);
 *     else
 *         printf("%s %.*f %s\n", what, val.decimals, val.number,
 *                pw_unit_name(val.unit));
 * }
 *
 * int main(void)
 * {
 *     struct pw_description bench = {
 *         {10.0f, 1.0f}, {0.01f, 0.0005f, 0.0000475f}, 1.03f, false};
 *     uint32_t words[PW_CALIBRATION] = {0};
 *     struct pw_made made = pw_make(bench, words, PW_CALIBRATION, false);
 *     if (made.refusal != PW_DONE)
 *         return 1;
 *     meter = made.meter;
 *     keep(pw_ranges(meter, now, PW_V_60V, PW_I_6A));
 *     keep(pw_on(meter, now));
 *
 *     // With nothing at the inputs: 13 steps of 4 ready frames.
 *     keep(pw_zero_job(meter, now));
 *     uint8_t used = 0;
 *     while (meter.job.job != PW_JOB_NONE)
 *         used = poll(7, -3).used;
 *     printf("zero job: %s, %d frames\n",
 *            pw_job_result_name(meter.job.job_res), used);
 *
 *     // An hour of 12 V and 1 A, with the zeros that the job found.
 *     keep(pw_energy_reset(meter));
 *     struct pw_answer answer = poll(603987, 25163);
 *     while (!answer.has_reading)
 *         answer = poll(603987, 25163);
 *     uint64_t start = now;
 *     while (now < start + 3600000)
 *         answer = poll(603987, 25163);
 *     show("U", answer.reading.readouts.v);
 *     show("I", answer.reading.readouts.i);
 *     show("P", answer.reading.readouts.main);
 *     show("E", pw_energy_val(answer.reading.vals));
 *     printf("%lu s\n", (unsigned long)answer.reading.vals.energies.secs);
 *
 *     keep(pw_off(meter, now));
 *     keep(pw_zero_job(meter, now));
 *     return 0;
 * }
 * ---- end of the example ----
 *
 * It writes:
 *
 *   zero job: ok, 52 frames
 *   U 12.000 V
 *   I 1.0000 A
 *   P 12.00 W
 *   E 12.000 Wh
 *   3600 s
 *   refused: off
 */
#ifndef PW_H
#define PW_H

#include <stdbool.h>
#include <stddef.h>
#include <stdint.h>

#ifdef __cplusplus
extern "C" {
#endif

/* The version of this interface; pw.pc has the same. */
#define PW_VERSION "0.8"

/* ======== refusals ======== */

/* A call is done, or it is refused with one of these numbers.
 *
 * When a meter is made, 7 is tested before 8. In every other call 5 is tested
 * first, then 4, 1, 2, 3, and 6 last; each call can give only the ones that
 * stand at it below. A refusal is given only under its condition: so orders
 * that need not be on, as ranges, coupling, method and re-apply, are not
 * refused while off.
 *
 * A refused call leaves the meter as it was, with one exception: 3 of a job
 * start sets job_last to the job asked for and job_res to PW_JR_METHOD, nothing
 * else. 6 undoes the whole frame: time, ring, smoothed values and all. A
 * refused call answers its number alone: no mark, 0 frames used, no reading.
 * What is lent, a frame's bytes or the words, is never written. */
#define PW_DONE 0        /* not refused */
#define PW_OFF 1         /* frame, job start or phase start while not on */
#define PW_BUSY 2        /* job start or re-apply while a job runs */
#define PW_METHOD 3      /* job start in the alternating method; phase start in
                          * it, or with DC coupling in force */
#define PW_FRAME 4       /* frame not of PW_FRAME_LENGTH bytes */
#define PW_LATE 5        /* time after PW_TIME_LAST */
#define PW_FULL 6        /* an energy, its sum or a counted time does not fit */
#define PW_DESCRIPTION 7 /* a number of the description is out of bounds */
#define PW_WORDS 8       /* not PW_CALIBRATION words */

/* The last time that is taken: 2^48 - 1 ms, some 8,900 years. A time is the
 * host's, in ms from any beginning. It may stand still or go back: an accounted
 * frame then counts no time, and later ones count from its time on. */
#define PW_TIME_LAST UINT64_C(281474976710655)

/* ======== a frame and its codes ======== */

/* A frame is bytes 0 to 13 of the chip's register block. */
#define PW_FRAME_LENGTH 14

/* Bits of the flags byte R_INTF: which results of a frame are new. Other bits
 * are not looked at. */
#define PW_INTF_AD1 0x04
#define PW_INTF_LPF 0x08
#define PW_INTF_RMS 0x10

/* The three codes of a frame. Each is little-endian two's complement in the
 * frame; bits above its width are ignored. Bytes 3 to 5 (AD2) are not used. */
struct pw_codes {
    uint8_t refusal; /* PW_DONE, or PW_FRAME and the three codes are 0 */
    int32_t ad1;     /* bytes 0 to 2, 24 bits: -2^23 to 2^23 - 1 */
    int32_t lpf;     /* bytes 6 to 8, 19 bits: -2^18 to 2^18 - 1 */
    int64_t rms;     /* bytes 9 to 13, 38 bits: -2^37 to 2^37 - 1 */
};

/* The codes of the frame of `length` bytes at `bytes`. A host need not call it:
 * pw_frame decodes by itself.
 *
 * Takes:   `bytes`, where `length` bytes can be read; no alignment is asked
 *          for. It must not be NULL, not even for length 0.
 * Returns: PW_DONE and the three codes where `length` is PW_FRAME_LENGTH;
 *          PW_FRAME and zeros for every other length, and then no byte is
 *          read.
 * Leaves:  the bytes are never written. */
struct pw_codes pw_decode(const uint8_t *bytes, size_t length);

/* ======== the meter and its parts ======== */

/* A meter is plain data, kept by value: each call takes a meter and gives back
 * the one that it has become. There is nothing to free. A copy of a meter is
 * the same meter, and goes on as the other would; the one handed to a call is
 * not changed by it. It may be stored as bytes and read back by a program built
 * with the same header and library. Padding lies between its fields, so two
 * meters cannot be compared byte by byte.
 *
 * A host reads any field, and changes none but by calls. If it does all the
 * same, or a stored meter comes back damaged, every call still answers, for any
 * bytes in any field, as long as each bool is 0 or 1; indexes past a table are
 * held to its end. What such a meter shows is then nobody's promise.
 *
 * A meter is 896 bytes and a step 1056; they go by value over the stack, of
 * which a call takes some KB. A good part of a call's time is their copying:
 * gcc for x86-64 copies them faster with -mmemcpy-strategy=libcall:-1:noalign.
 *
 * What a meter just made holds is said at each field, unless it is 0, 0.0, no
 * or none. The names are those of the published firmware. */

/* A time in ms where `set`; else none, and `at` means nothing. */
struct pw_stamp {
    bool set;
    uint64_t at;
};

/* What a meter is told of its hardware, when it is made. `r_path` of the
 * settings is another thing: ohms of the path, for the drop alone; it scales no
 * current. */
struct pw_description {
    float mv_div[2]; /* the current amplifier's gain, fine range and coarse */
    float shunt[3];  /* volts of one display unit: A, mA, uA */
    float over;      /* a range is passed above this times its limit */
    bool a_auto;     /* automatic current ranges stay at 60 mA and above */
};

/* The chip's calibration: the words as they were lent, and whether they count.
 * words[k] is the word at byte 4 * k of the factory's record. A word is the
 * bits of a float; the default, 1.0 or 0.0, counts in its place where `valid`
 * is no, or the float is not finite or not below 1.0e6 in size. */
enum { PW_CALIBRATION = 73 };
struct pw_calibration {
    uint32_t words[PW_CALIBRATION];
    bool valid;
};

/* Couplings. */
#define PW_COUP_ACDC 0
#define PW_COUP_DC 1
#define PW_COUP_AC 3

/* Methods: voltage, current and their product at once; or voltage and current
 * in turn, without a power. */
#define PW_METHOD_SIMULTANEOUS false
#define PW_METHOD_ALTERNATING true

/* What the meter does. */
struct pw_mode {
    bool on;
    bool alt;     /* the alternating method; while `dc` without effect on frames
                   * and values, but job and phase starts are refused */
    uint8_t coup; /* the coupling asked for, PW_COUP_*; just made PW_COUP_DC */
    bool dc;      /* DC coupling is in force, by pw_on or a coupling order */
    bool cal_req; /* the host is to call pw_reapply */
};

/* The ranges. A range above the last counts as the last. */
#define PW_V_6V 0
#define PW_V_60V 1
#define PW_V_600V 2
#define PW_V_1000V 3
#define PW_I_600UA 0
#define PW_I_6MA 1
#define PW_I_60MA 2
#define PW_I_600MA 3
#define PW_I_6A 4
#define PW_I_10A 5
struct pw_ranges {
    uint8_t vr;  /* PW_V_*; just made PW_V_1000V */
    uint8_t ik;  /* PW_I_*; just made PW_I_10A */
    bool v_auto; /* found by the meter; just made yes */
    bool i_auto; /* just made yes */
};

/* Values of R34, which product the chip sums: X is current, Y voltage. */
#define PW_R34_XY 0x88
#define PW_R34_XX 0x80
#define PW_R34_YY 0x8C

/* Bits of `seen`. */
#define PW_SEEN_P 1
#define PW_SEEN_V 2
#define PW_SEEN_I 4

/* Where the meter is in its round of conversions. */
struct pw_cycle {
    uint8_t phase;  /* 0 to 3: XY, YY, XY, XX; alternating: 0 V, 1 I */
    uint8_t skip;   /* results still to drop */
    uint8_t skip_y; /* the same of the DC row's voltage */
    uint8_t taken;  /* results taken in this phase of the alternating method */
    uint8_t stat;   /* R34 where the row is the power row, PW_R34_*; with any
                     * other row it is in no register. Just made PW_R34_XY */
    uint8_t seen;   /* what was measured since the last apply, PW_SEEN_*; an
                     * apply for one new range keeps the other quantity's bit */
};

/* The smoothed values: W, V and A by AC and DC part. */
struct pw_parts {
    float p_ac;
    float v_ac;
    float v_dc;
    float i_ac;
    float i_dc;
    float vac_dc; /* the AC volts in DC coupling */
};

/* The powers by which the next interval is counted: W and VA of the last
 * accounted frame, 0.0 where one was not finite. */
struct pw_powers {
    float p_tot;
    float s_last;
};

/* An energy: mj + frac millijoules. The whole ones and the fraction of one are
 * kept apart, since a float alone would soon be too large for a small addition
 * to move it. It serves an apparent energy as well: VAs for J, VAh for Wh.
 * Padding follows `frac`. */
struct pw_acc {
    int64_t mj;
    float frac; /* of either sign, whatever mj's is; below 1 in size after an
                 * add that returned PW_DONE */
};

/* What is counted. */
struct pw_tally {
    struct pw_acc e;  /* the energy; the alternating method adds nothing */
    struct pw_acc va; /* the apparent energy */
    uint64_t t_int;   /* the time in ms */
};

struct pw_clock {
    bool run;               /* energies and time are counted; just made yes */
    struct pw_stamp t_last; /* the last accounted frame's time */
    uint64_t t_poll;        /* the last accepted frame's time */
};

/* The main readout. */
#define PW_MAIN_P 0 /* a readout takes every number above 2 for it, but not
                     * pw_energy_val */
#define PW_MAIN_WH 1
#define PW_MAIN_VAH 2

/* Settings, which pw_set_settings changes; behind each what a meter just made
 * has. */
struct pw_settings {
    bool comp;       /* the meter's own drop is taken off, except in the
                      * alternating method without DC coupling; no */
    float r_path[3]; /* ohms of its path for A, mA, uA; 0.01, 0.5, 47.5 */
    float i_cont;    /* the limit of the continuous current; 6.0 A */
    uint16_t t_lim;  /* seconds allowed above it, 0 for no limit; 30 */
    uint8_t main;    /* the main readout, PW_MAIN_*; PW_MAIN_P */
};

/* Results of a phase calibration. */
#define PW_CAL_NONE 0         /* none so far */
#define PW_CAL_RUN 1          /* running; or stopped by a job start */
#define PW_CAL_OK 2           /* the step found is in force */
#define PW_CAL_FLAT 3         /* no slope: no current, or a resistive load */
#define PW_CAL_NOT_REACTIVE 4 /* the power factor is above 0.32 in size */
#define PW_CAL_RANGE 5        /* outside of -127 to 127 steps */

struct pw_phase_cal {
    int8_t sph;    /* the phase step in force */
    uint8_t cal;   /* 0 off, 1 or 2 for the two rounds */
    uint8_t cal_n; /* power results that this round has counted, of 8 */
    float cal_acc; /* the sum of their p / (v_ac * i_ac) */
    int8_t cal_s0; /* the step of round 1 */
    float cal_pa;  /* the mean of round 1 */
    uint8_t cal_res; /* PW_CAL_* */
};

/* What the jobs have stored. */
struct pw_corrections {
    int16_t zx[6];  /* zeros of the current by range, simultaneous method */
    int16_t zd[6];  /* the same in DC coupling, AD1 */
    int16_t zy;     /* zero of the voltage */
    bool zero_ok;   /* the zeros count */
    float vgain[4]; /* gain of each V range, 0.9 to 1.1; 0.0: the factory's */
};

/* The jobs. */
#define PW_JOB_NONE 0
#define PW_JOB_ZERO 1
#define PW_JOB_GAIN 2

/* Results of a job. */
#define PW_JR_NONE 0     /* none so far */
#define PW_JR_RUN 1      /* running */
#define PW_JR_OK 2       /* stored */
#define PW_JR_SIGNAL 3   /* zero: the inputs are not at rest; old zeros stay */
#define PW_JR_SMALL 4    /* gain: below a tenth of the V range */
#define PW_JR_BIG 5      /* gain: the voltage or its peak is above the V range,
                          * or an AC voltage above 0.7 of it */
#define PW_JR_UNSTABLE 6 /* gain: the two rounds differ by more than 0.3 % */
#define PW_JR_RANGE 7    /* gain: not within 0.9 to 1.1 */
#define PW_JR_ABORT 8    /* ended by an order */
#define PW_JR_METHOD 9   /* not started: refusal 3 */

/* The most ready frames that a job uses. */
#define PW_ZERO_FRAMES 52
#define PW_GAIN_FRAMES 22

struct pw_job {
    uint8_t job;      /* the running job, PW_JOB_* */
    uint8_t job_step; /* 0 to 12 of the zero job, 0 to 3 of the gain job */
    uint8_t job_n;    /* readings counted in the step, of 3 */
    float job_a;      /* and their sums */
    float job_b;
    bool job_dc; /* the gain job's reference is a DC voltage; told at step 0 */
    float job_raw[2];
    float job_ref[2];
    int16_t job_zx[6];
    int16_t job_zd[6];
    struct pw_ranges job_save; /* found at the start, put back at the end */
    uint8_t job_res;  /* PW_JR_*; stays until the next job start */
    uint8_t job_vr;   /* the V range of the last job */
    uint8_t job_last; /* the last job started, or refused with PW_METHOD */
    uint8_t used;     /* ready frames that the job has used; stays after it */
};

/* The comparator's source, r20. */
#define PW_R20_SENSE 0x10 /* the V tap */
#define PW_R20_PB4 0xF0   /* the current */

struct pw_comparator {
    uint8_t r20;    /* R20 without its counter's bit, 02h; just made 10h */
    uint8_t r21;    /* its window, R21; just made DDh */
    bool f_ok;      /* a frequency is to be had; just made yes */
    uint8_t cmp_vr; /* the V range that the window is for; just made 255 */
};

/* The sixteen latest conversions, the one of number n at n modulo 16;
 * pw_conversion reads them by age. */
enum { PW_RING = 16 };
struct pw_ring {
    uint8_t stat[PW_RING];
    bool disc[PW_RING];
    int64_t rms[PW_RING];
    int32_t lpf[PW_RING];
    uint16_t dt[PW_RING];
    uint32_t ring_k; /* the number of the next one */
    uint64_t t_res;  /* the time of the last RMS and LPF result */
};

/* The whole meter. */
struct pw_meter {
    struct pw_description description;
    struct pw_calibration calibration;
    struct pw_mode mode;
    struct pw_ranges ranges;
    uint8_t barred; /* the coarsest unit (1 mA, 2 uA) of a current range that
                     * tripped, for a screen; 0 for none */
    struct pw_cycle cycle;
    struct pw_parts parts;
    struct pw_powers powers;
    struct pw_tally tally;
    struct pw_clock clock;
    struct pw_stamp over_t0; /* since when the current is above its limit */
    struct pw_settings settings;
    struct pw_phase_cal phase_cal;
    struct pw_corrections corrections;
    struct pw_job job;
    struct pw_comparator comparator;
    struct pw_ring ring;
};

/* ======== making one ======== */

struct pw_made {
    uint8_t refusal;
    struct pw_meter meter;
};

/* A meter with this description and these words, just made: off.
 *
 * Takes:   the description; `words`, where `count` words can be read, aligned
 *          as C aligns them. It must not be NULL, not even for count 0.
 *          `valid`, whether the words count, and `a_auto` must be 0 or 1, as
 *          C's are.
 * Returns: PW_DONE and the meter. Or PW_DESCRIPTION, unless each of the six
 *          numbers is from 2^-20 to 2^20, ends allowed, which no NaN is; else
 *          PW_WORDS, unless `count` is PW_CALIBRATION, and then no word is
 *          read. Refused, `meter` is one that was just made with six numbers of
 *          1.0, a_auto no and no valid words: it is not the host's, and is not
 *          to be used.
 * Leaves:  the words are never written, and not looked at again: the meter has
 *          a copy. */
struct pw_made pw_make(struct pw_description description, const uint32_t *words,
                       size_t count, bool valid);

/* ======== answers, and the orders ======== */

/* A number as it is shown: `number` in `unit`, with `decimals` digits behind
 * the point. Where `over`, the range is passed, the number is 0.0 and a screen
 * shows OL. `number` is not rounded to its decimals, but what would be shown as
 * zero is plus zero, so that there is no -0.00. A NaN is a value that there is
 * not ("--"). */
struct pw_val {
    float number;
    uint8_t decimals;
    uint8_t unit; /* PW_UNIT_* */
    bool over;
};

/* The readouts of values: the main one, volts and amperes. */
struct pw_readouts {
    struct pw_val main; /* by in_force.main of the values: the power, or an
                         * energy, which is never over. In the alternating
                         * method VA, VAh */
    struct pw_val v;
    struct pw_val i;
    float si; /* the power in W, alternating VA, also where the main readout is
               * an energy; 0.0 where volts or amperes are over */
};

/* Power, apparent and reactive power, power factor, volts and amperes: at the
 * load where settings.comp, but not in the alternating method without DC
 * coupling; else as measured. In W, VA, var, 1, V and A. */
struct pw_figures {
    float p;
    float s;
    float q;
    float pf;
    float v;
    float i;
};

struct pw_energies {
    float e_wh;    /* Wh */
    float vah;     /* VAh */
    uint32_t secs; /* the counted time in seconds, its low 32 bits */
    float p_avg;   /* the mean power over it in W; a NaN where no time is
                    * counted, and in the alternating method */
};

/* What is in force. */
struct pw_in_force {
    bool alt; /* the alternating method, and not DC coupling */
    bool dc;
    uint8_t coup; /* the coupling asked for */
    bool comp;
    bool run;
    int8_t sph;
    uint8_t main;
};

/* The limit of the continuous current, in `over`. */
#define PW_OVER_NONE 0    /* not above it, or no limit */
#define PW_OVER_COUNTS 1  /* above it, with over_left seconds to go */
#define PW_OVER_EXPIRED 2 /* above it for too long */
/* "Above" from the first accounted frame above settings.i_cont on until one
 * below 0.95 of it; jobs and time while off count too. Of the elapsed seconds
 * the low 16 bits count: after 65,536 s above the limit EXPIRED becomes COUNTS
 * again, for t_lim seconds. */
struct pw_limits {
    bool v_ol; /* the voltage is above its range */
    bool i_ol;
    uint8_t over;       /* PW_OVER_* */
    uint16_t over_left; /* seconds, while PW_OVER_COUNTS; else 0 */
};

/* In AC+DC coupling of the simultaneous method the DC and AC parts of volts,
 * amperes and watts, an AC part below its floor as 0.0; else zeros. */
struct pw_split {
    float v_dc;
    float v_ac;
    float i_dc;
    float i_ac;
    float p_dc;
    float p_ac;
};

/* Hints. */
#define PW_HINT_NONE 0
#define PW_HINT_NO_AC 1 /* AC+DC coupling, simultaneous method: a DC part, and no AC part */
#define PW_HINT_AC 2    /* DC coupling, and there is an AC part */

/* All values. NaN in a float says that there is no such value: p, q and pf in
 * the alternating method; s, q and pf in AC coupling of the simultaneous method
 * where the AC part of voltage or current is below its floor; vdc in AC
 * coupling and in the alternating method, idc in AC coupling; p_avg as said.
 * Every other float is a number, unless words, description or settings are so
 * far from any bench that a product of volts, amperes and ohms passes 3.4e38,
 * or a resistance of the settings is no number: see pw_set_settings. */
struct pw_power_vals {
    struct pw_figures load;
    float vdc; /* the DC parts as measured */
    float idc;
    bool f_ok;      /* a frequency is to be had; the host counts it */
    float burden_v; /* the drop in the meter's own path */
    struct pw_energies energies;
    struct pw_ranges ranges;
    struct pw_in_force in_force;
    struct pw_limits limits;
    uint8_t hint; /* PW_HINT_* */
    struct pw_split split;
};

/* What a frame shows. */
struct pw_reading {
    struct pw_readouts readouts;
    struct pw_power_vals vals;
};

/* What a call answers. */
struct pw_answer {
    uint8_t refusal;      /* PW_DONE, or why it was refused */
    struct pw_stamp mark; /* set: the host is to write the row of pw_row(meter)
                           * to the chip now; `at` is the deadline, the time
                           * until which it then waits */
    uint8_t used;         /* in a frame that a job took: how many ready frames
                           * the job has used so far, dropped ones and this one
                           * included, also where this one ended it. Else 0 */
    bool has_reading;
    struct pw_reading reading; /* where has_reading; else every number in it is
                                * 0 and every bool no */
};

/* What a call leaves, and what it answers. The meter that was handed over is
 * done with: the host goes on with this one, refused or not. */
struct pw_step {
    struct pw_meter meter;
    struct pw_answer answer;
};

/* An APPLY, in what follows: the chip is set up anew for the ranges and the
 * method. The phases begin again, in the simultaneous method with that of the
 * one channel whose range has changed where the other's parts are kept (phase 1
 * of the voltage, 3 of the current), else with phase 0. All that was `seen` is
 * forgotten but what is kept, the first results are dropped (one of each
 * channel in DC coupling, four in the alternating method), and where the V
 * range is another than the comparator's window was chosen for, that begins
 * anew. It gives a mark, with the deadline 550 ms after the call's time.
 *
 * A JOB'S END: where a job runs, none does any longer; the ranges and automatic
 * marks become those found at its start, cal_req is set where the meter is on,
 * and job_res tells how it ended: PW_JR_ABORT by an order. It gives no mark.
 *
 * Each order takes a meter, and where it has one the time in ms. Every bool
 * must be 0 or 1, as C's is. */

/* Switches the meter on. Energies, ranges, method, settings and a phase
 * calibration stay as they are.
 *
 * Returns: done; a mark. Or PW_LATE.
 * Leaves:  a job's end; on; DC coupling in force where it is asked for, else
 *          not; an apply with nothing kept. While on the same. */
struct pw_step pw_on(struct pw_meter meter, uint64_t time);

/* Switches it off. No frame is taken while off, but the time is counted later
 * on: see THE CLOCK below.
 *
 * Returns: done, no mark. Or PW_LATE.
 * Leaves:  a job's end, then `on` no; all else as it is. */
struct pw_step pw_off(struct pw_meter meter, uint64_t time);

/* Chooses the method.
 *
 * Takes:   PW_METHOD_SIMULTANEOUS or PW_METHOD_ALTERNATING.
 * Returns: done; a mark while on. Or PW_LATE.
 * Leaves:  a job's end; the method; while on an apply with nothing kept, also
 *          where the method is the one that there was. */
struct pw_step pw_method(struct pw_meter meter, uint64_t time, bool alt);

/* A range asked for is a number, or one of these. */
#define PW_AUTO 256 /* found by the meter, from the present one on */
#define PW_KEEP 257 /* left as it is, and so for every number up to 65535 */

/* Chooses the V range and the current range.
 *
 * Takes:   `v` and `i`: 0 to 255 for a range, of which those above PW_V_1000V
 *          and PW_I_10A count as these; PW_AUTO; or PW_KEEP.
 * Returns: done; a mark where it applies. Or PW_LATE.
 * Leaves:  a job's end, also where both are kept. Then each that is named: a
 *          number makes it manual, PW_AUTO automatic. Where the current is
 *          named, nothing is barred any longer. While on, an apply where a
 *          range is now another than after the job's end; of `seen` the
 *          quantity whose range is the same is kept. */
struct pw_step pw_ranges(struct pw_meter meter, uint64_t time, uint16_t v,
                         uint16_t i);

/* Chooses the coupling.
 *
 * Takes:   PW_COUP_*; of another number the low two bits, of which 2 is 0.
 * Returns: done; a mark where it applies. Or PW_LATE.
 * Leaves:  a job's end; the coupling asked for. While on, where DC coupling
 *          begins or ends, or job_res is PW_JR_ABORT: DC coupling in force or
 *          not, and an apply with nothing kept. While off only pw_on brings it
 *          into force. */
struct pw_step pw_coupling(struct pw_meter meter, uint64_t time, uint8_t coup);

/* Starts the zero job: with nothing at the inputs, the meter finds the zeros of
 * its channels, in 13 steps. Steps 0 to 5 are the current by range, 6 to 11 the
 * same in DC coupling (AD1), 12 the voltage. Each drops one ready frame and
 * counts three; PW_ZERO_FRAMES in all.
 *
 * Returns: done and a mark, with the deadline after 550 ms. Or PW_LATE, PW_OFF,
 *          PW_BUSY, PW_METHOD, in this order.
 * Leaves:  the job, its first step and `used` 0, job_res PW_JR_RUN; ranges and
 *          automatic marks noted; a phase calibration is stopped, sph as it is
 *          and cal_res too. PW_METHOD sets job_last and job_res, nothing else;
 *          any other refusal nothing. */
struct pw_step pw_zero_job(struct pw_meter meter, uint64_t time);

/* Starts the gain job: with a steady voltage at the V input, from a tenth of
 * the V range on, the meter compares its V channel with its reference row, raw
 * and reference twice in turn, and stores the gain of that range. Whether the
 * voltage is DC or AC it finds at step 0. Each step drops one ready frame, four
 * at the AC reference, and counts three: 16 or PW_GAIN_FRAMES.
 *
 * Returns and leaves: as pw_zero_job. */
struct pw_step pw_gain_job(struct pw_meter meter, uint64_t time);

/* Starts the phase calibration: with a reactive load, in the simultaneous
 * method, the meter looks for the phase step at which the power is nothing. Two
 * rounds of eight power results; after each the host re-applies (cal_req), but
 * not where the first ends it with PW_CAL_NOT_REACTIVE.
 *
 * Returns: done, no mark. Or PW_OFF, PW_METHOD, in this order.
 * Leaves:  round 1 from the step in force, cal_res PW_CAL_RUN. One that runs
 *          begins again. It carries no time. */
struct pw_step pw_phase_start(struct pw_meter meter);

/* Sets both energies and the counted time to zero.
 *
 * Returns: done, no mark; never refused. It carries no time.
 * Leaves:  the three at zero and no last accounted frame, so that counting
 *          begins with the next one, which counts nothing itself. Powers, limit
 *          and all else stay. */
struct pw_step pw_energy_reset(struct pw_meter meter);

/* Counts energies and time, or stops. The first frame accounted while stopped
 * ends the interval, uncounted. There are readings all the same.
 *
 * Takes:   whether to count.
 * Returns: done, no mark; never refused. It carries no time.
 * Leaves:  `run` and nothing else. */
struct pw_step pw_run(struct pw_meter meter, bool run);

/* Sets the settings, all five at once. To change one of them, take a copy of
 * meter.settings, change that one in it, and hand the copy over.
 *
 * Takes:   any settings: every float and every number; `comp` must be 0 or 1,
 *          as C's is. t_lim 0 is no limit, and a main readout above PW_MAIN_VAH
 *          is the power, and then pw_energy_val is the power too. Nothing is
 *          tested: the host itself looks at what its user has typed.
 * Returns: done, no mark; never refused: on or off, in a job too. It carries no
 *          time.
 * Leaves:  `settings` and nothing else: energies, ranges and a running job stay
 *          as they are. comp, r_path, t_lim and main count at once in what is
 *          read off the meter, and in a reading from the next frame on; i_cont
 *          from the next accounted frame on. Energy follows comp and r_path one
 *          accounted frame later: the next one still counts its interval at the
 *          powers found with the old ones. Since when the current is above its
 *          limit (over_t0) stays, and is kept also while t_lim is 0: a new
 *          t_lim counts from there.
 *
 * A NaN in r_path counts only in the current ranges of its unit. There burden_v
 * is a NaN; and where the drop is taken off the power is a NaN too, in AC+DC
 * coupling with v_dc, p_dc and p_ac of `split` (v_ac is 0.0), while volts, and
 * VA, var and power factor where there are any, are 0.0: no energy is counted
 * at that, but the time is. A resistance that is infinite or very large makes
 * figures as wrong: NaNs and infinities, at which nothing is counted, or powers
 * that soon fill an energy (PW_FULL). With a NaN in i_cont no current is above
 * the limit and none below it: a count that has begun goes on, and none begins.
 * With 0.0 one that has begun never ends, and below 0.0 every current is above
 * the limit. */
struct pw_step pw_set_settings(struct pw_meter meter,
                               struct pw_settings settings);

/* Re-applies, which the host does when cal_req is set.
 *
 * Returns: done and a mark, on or off, cal_req or not. Or PW_LATE, PW_BUSY, in
 *          this order.
 * Leaves:  cal_req no, and an apply with nothing kept. */
struct pw_step pw_reapply(struct pw_meter meter, uint64_t time);

/* ======== the frame call ======== */

/* Hands the meter one frame: the flags byte and bytes 0 to 13 of the register
 * block, read together.
 *
 * While a job runs the frame is the job's. It is ready if its flags hold the
 * AD1 bit (steps 6 to 11 of the zero job, the DC reference), or the RMS and LPF
 * bits (all other steps); if not, only its time is noted. A ready one is
 * dropped or counted; after the third the next step begins, with a mark
 * (deadline after 550 ms; 450 for the DC reference, 2000 for the AC one), or
 * the job ends, with none. A zero job ends at any counted frame that shows a
 * signal. No range is found by the meter in a job. A job's frames are not
 * smoothed, accounted or noted in the ring.
 *
 * Outside a job, in DC coupling, a frame with the RMS and LPF bits brings the
 * voltage and one with the AD1 bit the current; in the other couplings a frame
 * brings what `stat` says, or in the alternating method the phase, and needs
 * the RMS and LPF bits. A result beyond the chip's scale is turned down there:
 * noted in the ring, and else as if it had not come. Automatic ranges may
 * change then, with an apply and a mark; a manual current range in mA or uA
 * that is passed trips to 10 A, manual, and is barred. A switch of the
 * alternating method gives a mark too (600 ms to the voltage, 550 to the
 * current), and may come with a reading.
 *
 * A frame whose result is taken (in DC coupling: whose current is) and which
 * changes no range is ACCOUNTED, once all that the method needs was seen: the
 * interval since the last accounted frame is counted at that one's powers,
 * limit and phase calibration go on, and there is a reading.
 *
 * Takes:   a meter; the time in ms; the flags; `bytes`, where `length` bytes
 *          can be read, of any alignment. It must not be NULL, not even for
 *          length 0.
 * Returns: done, with mark, count and reading as they come. Or PW_LATE,
 *          PW_FRAME, PW_OFF, PW_FULL, in this order. PW_FULL is of an accounted
 *          frame alone, where the apparent energy, or outside the
 *          alternating method the energy, is full, as pw_acc_add says, or the
 *          counted time would pass 2^63 - 1 ms. For
 *          PW_LATE and PW_FRAME no byte is read.
 * Leaves:  t_poll, the frame's time, in every case that is done; the rest as
 *          above. The bytes are never written. */
struct pw_step pw_frame(struct pw_meter meter, uint64_t time, uint8_t flags,
                        const uint8_t *bytes, size_t length);

/* ======== the host's part, and traps ========
 *
 * A MARK. The host writes the row of kind pw_row(meter) at once, waits until
 * the deadline, and only then reads the next frame. The meter does not wait: a
 * frame of before the deadline is taken like any other, and spoils what it is
 * taken for.
 *
 * AFTER EACH FRAME, where the row that it wrote last is the power row, the host
 * writes meter.cycle.stat to R34 and meter.comparator.r21 to R21: these give no
 * mark. With any other row it writes neither; see pw_row. The host remembers
 * the kind that it wrote at the last mark: pw_row may tell another one from the
 * end of a job to the re-apply. A host that counts the frequency looks at
 * meter.comparator.r20 too, which may change without a mark, also where r21
 * stays: it then writes r20 to R20, so that the comparator watches the other
 * input, and then r20 with bit 1 set, by which the count begins anew.
 *
 * CAL_REQ. After each call, while on and no job runs, the host looks at
 * meter.mode.cal_req, and where it is set calls pw_reapply, before it reads the
 * next frame: one that is read first is taken with what the job left, its row,
 * R34 and frames to drop, in the ranges put back, and is shown and accounted
 * so. It is set by each end of a job, by an order too, and by the end of each
 * round of a phase calibration but a first one of PW_CAL_NOT_REACTIVE. An order
 * that ends a job and applies leaves it set as well: the re-apply after it is
 * one more than needed, and costs some dropped results. A range order that ends
 * a job and changes no range gives no mark at all, only cal_req. It outlives
 * pw_off and pw_on, and a job start does not clear it: during the job
 * pw_reapply is refused with PW_BUSY, so wait for its end.
 *
 * THE CLOCK. Off time is counted: pw_off stops no interval, and the first frame
 * accounted after pw_on counts the whole time since the last one, at the last
 * powers. So is the time of a job. A host that does not want that calls
 * pw_energy_reset; or pw_run(meter, false), lets one frame be accounted, and
 * calls pw_run(meter, true). pw_run off and on with no accounted frame between
 * changes nothing. The clock should not go back: the span that it goes back
 * over is then counted twice.
 *
 * FULL. PW_FULL stays: the frame is undone with its power, so a frame of that
 * time or a later one that would be accounted is refused too, until
 * pw_energy_reset, a stopped run, or a time so early that its interval fits; at
 * or before the last time every one does. In the alternating method an active
 * energy that is full refuses nothing. Frames that are not accounted pass.
 *
 * READS IN A JOB. pw_vals, pw_state and pw_partial may be called at any time.
 * In a job they use the current range of its step, so that the current can show
 * as over its range; pw_partial tells that a job runs.
 *
 * PHASE AND JOBS. pw_phase_start is taken during a job, and goes on after it. A
 * job start stops a phase calibration, and then cal_res stays PW_CAL_RUN and
 * sph may stay where round 2 had put it, until the next one: look at
 * phase_cal.cal, which is 0, before you believe cal_res. A second
 * pw_phase_start in round 2 takes the moved step for its base.
 *
 * JOB_RES STAYS until the next job start. After PW_JR_ABORT every coupling
 * order applies, also one that changes nothing, until another job start,
 * refused with PW_METHOD or not, has overwritten it. zero_ok and the old zeros
 * outlive a job that fails.
 *
 * THE COUNT `used` is of ready frames: one that is not ready answers the count
 * so far. Outside a job it is 0 in the answer, while meter.job.used keeps the
 * last job's.
 *
 * ALTERNATING AND DC. In DC coupling frames go the DC way whatever the method,
 * and the values say alt no; yet a job start is refused with PW_METHOD. */

/* ======== what a screen shows ======== */

/* Each of these takes any meter, or any values, and changes nothing. */

/* The reading's values at any time.
 *
 * Returns: not `measured` while off, or before all that the method needs was
 *          seen: voltage and current, and except in the alternating method the
 *          power (in DC coupling with the first current that comes once the
 *          voltage was seen). Then `vals` are zeros, but for ranges 3 and 5,
 *          both automatic, coupling DC, `run` yes, and p_avg, a NaN. */
struct pw_vals {
    bool measured;
    struct pw_power_vals vals;
};
struct pw_vals pw_vals(struct pw_meter meter);

/* The same, or where there are none zeros with the ranges, the energies, the
 * time and what is in force; the mean power is a NaN then. */
struct pw_power_vals pw_state(struct pw_meter meter);

/* The readouts of values, as a reading has them. */
struct pw_readouts pw_reading_vals(struct pw_power_vals vals);

/* The energy box beside the main readout: the energy (VAh in the alternating
 * method) where in_force.main of the values is PW_MAIN_P; for every other
 * number the power. */
struct pw_val pw_energy_val(struct pw_power_vals vals);

/* What the stock phone program is told, which knows no power: watts as V,
 * milliwatts as mV, kilowatts as V; held to 65534 counts. */
struct pw_val pw_bt_main(struct pw_power_vals vals);

/* Its mode byte: 40 for an automatic V range, else 8 times the range's number
 * from 1 on. */
uint8_t pw_bt_mode_byte(bool v_auto, uint8_t vr);

/* What is shown in place of a reading. */
#define PW_PARTIAL_NONE 0    /* off, or there are values */
#define PW_PARTIAL_ZERO 1    /* the zero job runs */
#define PW_PARTIAL_GAIN 2    /* the gain job runs */
#define PW_PARTIAL_RANGING 3 /* not all was seen yet */
struct pw_partial {
    uint8_t text; /* PW_PARTIAL_* */
    bool with_volts; /* while ranging, once the voltage was seen */
    struct pw_val volts; /* else 0.0, 0 decimals, V, not over */
};
struct pw_partial pw_partial(struct pw_meter meter);

/* Energy is being counted: on, `run`, and a current was seen and is above
 * 50 uA. */
bool pw_integrating(struct pw_meter meter);

/* ======== the ring ======== */

/* Which result a conversion was, beside PW_R34_*, which are those of the
 * simultaneous method. */
#define PW_RING_ALT_V 1
#define PW_RING_ALT_I 2
#define PW_RING_DC_V 3
#define PW_RING_DC_I 4

/* One of the sixteen latest conversions, for a log. */
struct pw_conversion {
    bool found;   /* else all that follows is 0 and no */
    uint8_t stat; /* PW_R34_* or PW_RING_* */
    bool disc;    /* it was dropped. A dropped AD1 is not in the ring */
    int64_t rms;  /* 0 for PW_RING_DC_I */
    int32_t lpf;  /* for PW_RING_DC_I the AD1 code */
    uint16_t dt;  /* ms since the RMS and LPF result before it that the ring
                   * noted, or of the first since time 0; at most 65535; 0 for
                   * PW_RING_DC_I */
};

/* The conversion of this age, the latest of age 0.
 *
 * Returns: not `found` for an age of 16 or more, and of one that there was not
 *          yet. A conversion that was turned down for its size is in the ring
 *          all the same; a job's are not. */
struct pw_conversion pw_conversion(struct pw_meter meter, uint8_t age);

/* ======== the row to write, and the comparator ======== */

/* The kinds of row that the host writes to the chip, registers R20 to R35. */
#define PW_ROW_POWER 0        /* the simultaneous method's */
#define PW_ROW_DC 1           /* current on AD1 and voltage on LPF at once */
#define PW_ROW_ALT_V 2        /* the alternating method's, voltage */
#define PW_ROW_ALT_I 3        /* the alternating method's, current */
#define PW_ROW_DC_REFERENCE 4 /* the gain job's reference, a DC voltage */
#define PW_ROW_AC_REFERENCE 5 /* the gain job's reference, an AC voltage */

/* Which row the host writes when the meter gives it a mark: pw_row_kind of the
 * meter's method, coupling in force, job, step, reference and phase. The bytes
 * of each kind of row, for the ranges in meter.ranges, are the firmware's, and
 * not in this library; so are the shunt and the relays that go with a range,
 * which the host sets together with the row.
 *
 * A trap: only in the power row does the meter say what stands in some of the
 * registers: its `r20` in R20 (with bit 1 set besides), its `r21` in R21, its
 * `stat` in R34, and pw_r36_of its phase steps in R36. Each of the other rows
 * brings its own R20, R21 and R34, which count, and R36 is 0 with it; the host
 * must not write `stat` or `r21` over them, neither with the row nor after a
 * frame. In DC coupling, for one, `stat` says 88h where the row has 8Ch. */
uint8_t pw_row(struct pw_meter meter);

/* The same of its parts.
 *
 * Takes:   the method, `alt` for alternating; `dc`, whether DC coupling is in
 *          force; the job and its step; `job_dc`, whether the gain job's
 *          reference is a DC voltage; the phase. Every byte is answered for,
 *          but a bool must be 0 or 1, as C's is.
 * Returns: in an odd step of the gain job the reference of the kind that
 *          `job_dc` tells; else PW_ROW_DC for `dc` while no job runs, and
 *          in steps 6 to 11 of the zero job whatever `dc` is; else, for
 *          `alt`, PW_ROW_ALT_V in even phases and PW_ROW_ALT_I in odd ones;
 *          else PW_ROW_POWER. Any other `job` counts as one that runs and
 *          has none of these steps. */
uint8_t pw_row_kind(bool alt, bool dc, uint8_t job, uint8_t step, bool job_dc,
                    uint8_t phase);

/* R36 of a signed number of phase steps, meter.phase_cal.sph: their size, at
 * most 127, and bit 7 where they are above zero. */
uint8_t pw_r36_of(int8_t steps);

/* A window of the chip's comparator, or none. `found` has to be looked at: 0 is
 * a code of the chip's too. */
struct pw_window {
    bool found;
    uint8_t r21; /* upper threshold's code * 16 + lower one's; 0 for none */
};

/* The comparator's window for an input whose middle lies at `c` volts and
 * which swings by `a` volts around it. The meter chooses its own: a host calls
 * this only for an input that it watches itself.
 *
 * Takes:   any two floats: the DC part of the input and the RMS of its AC
 *          part, both in volts at the comparator, behind the divider.
 * Returns: none found exactly when no upper threshold clears the middle by
 *          0.006 and lies below the middle plus 0.9 of the swing, or no lower
 *          one does so downward; otherwise the nearest threshold that does on
 *          each side. All of it is in binary32, rounded at each operation: a
 *          threshold of exactly c + 0.006 clears, one of exactly c + 0.9 * a
 *          does not lie below. None is found where `c` or `a` is a NaN, and
 *          where `c` is infinite. */
struct pw_window pw_cmp_window(float c, float a);

/* ======== accumulators of the host's own ======== */

/* For a host that counts an energy beside the meter's. Any record is taken,
 * also one that the host has stored and read back. */

/* An energy of zero: 0 mJ and 0.0. */
struct pw_acc pw_acc_fresh(void);

/* Adds `joules` to the energy at `acc`.
 *
 * Takes:   `acc`, where one record can be read and written. It must not be NULL
 *          and must be aligned as C aligns it, to 8 bytes, and nothing else may
 *          read or write the record during the call. Any float `joules`, also
 *          below zero.
 * Returns: PW_DONE; or PW_FULL, where the sum x = frac + joules * 1000, both
 *          operations rounded to binary32, is not finite or not
 *          -2^63 <= x < 2^63, or where mj + w does not fit in 64 signed bits;
 *          w is x cut toward zero.
 * Leaves:  with PW_DONE mj + w in `mj` and x - w in `frac`. w plus the new
 *          `frac` is exactly x, so nothing is lost but by the two roundings of
 *          x: beside a fraction near 1 less than about 3e-11 J is lost whole,
 *          and more than 2^24 mJ at once, some 16,777 J, is not exact to the
 *          millijoule. So add often. With PW_FULL `mj` and `frac` keep their
 *          values, and a NaN stays a NaN; the same add is then refused again,
 *          and a smaller one may fit. A record whose `frac` is a NaN or
 *          infinite is full for every add: begin anew with pw_acc_fresh. No
 *          byte beside the record is read or written. */
uint8_t pw_acc_add(struct pw_acc *acc, float joules);

/* The energy in watt hours.
 *
 * Takes:   any record.
 * Returns: (mj + frac) / 3.6e6 in binary64, rounded at each operation, `mj`
 *          too; then rounded to binary32. A NaN where `frac` is one, and
 *          infinite where `frac` is. */
float pw_acc_wh(struct pw_acc acc);

/* ======== formats ======== */

/* The units that a number is shown in; M is milli in each name, never mega. */
#define PW_UNIT_V 0
#define PW_UNIT_A 1
#define PW_UNIT_MA 2 /* mA */
#define PW_UNIT_UA 3 /* uA, the micro sign as u */
#define PW_UNIT_W 4
#define PW_UNIT_MW 5 /* mW */
#define PW_UNIT_KW 6
#define PW_UNIT_VA 7
#define PW_UNIT_MVA 8
#define PW_UNIT_KVA 9
#define PW_UNIT_WH 10
#define PW_UNIT_MWH 11
#define PW_UNIT_KWH 12
#define PW_UNIT_VAH 13
#define PW_UNIT_KVAH 14
#define PW_UNIT_MV 15 /* a phone is sent mW as mV */
#define PW_UNITS 16   /* how many there are; no unit */

/* A number as it is shown: in `unit`, with `decimals` digits behind the point.
 * `number` itself is not rounded to them; snprintf with "%.*f", decimals and
 * number does that, in 46 bytes at the most with the NUL. The decimals are
 * chosen before this rounding, so 9.99996 with 4 of them is 10.0000. Minus
 * zero, and a number just below zero, become -0.0000: a display shows 0.0 where
 * fabsf(number * 10^decimals) < 0.5f. A NaN may become nan or -nan. Padding
 * follows `unit`, so records cannot be compared byte by byte. */
struct pw_format {
    float number;
    uint8_t decimals;
    uint8_t unit; /* PW_UNIT_W .. PW_UNIT_KVAH */
};

/* An energy as it is shown.
 *
 * Takes:   `wh`, any float: watt hours, or VAh where `va`. A bool must be 0 or
 *          1, as C's is.
 * Returns: for watt hours, by the size of `wh`: mWh and wh * 1000 below 1, Wh
 *          and wh below 1000, else kWh and wh * 0.001. For VAh, which has no
 *          unit of a thousandth: VAh and wh below 100,000, else kVAh and
 *          wh * 0.001.
 *          Then by the size of the number: 4 decimals below 10, 3 below 100, 2
 *          below 1000, else 1. What is at a bound is not below it. The products
 *          are rounded to binary32, and 0.001 is the float nearest it, so that
 *          100,000 VAh is 100.00001 kVAh. An infinity stays one, with 1
 *          decimal; a NaN stays a NaN, with 1 decimal, in kWh or kVAh.
 *          0.5 Wh is 500, 2 decimals, mWh; 0.5 VAh is 0.5, 4 decimals, VAh. */
struct pw_format pw_energy_format(float wh, bool va);

/* A power as it is shown in ranges whose limits multiply to `fs`: the ranges,
 * and not the power itself, choose the unit and the decimals.
 *
 * Takes:   any two floats: `fs`, the full scale in watts, and `si`, the power
 *          in watts, or VA where not `watts`. A bool must be 0 or 1, as C's is.
 *          The limits are 6, 60, 600 and 1000 V, and 600 uA, 6 mA, 60 mA,
 *          600 mA, 6 A and 10 A.
 * Returns: kW, si * 0.001 and 3 decimals where fs is 9000 or more. Else mW and
 *          si * 1000 where fs is below 1, else W and si, with 4 decimals where
 *          f is below 10, 3 below 100, 2 below 1000, else 1; f is fs * 1000 *
 *          1.05 for mW and fs * 1.05 for W. Where not `watts` it is kVA, mVA
 *          and VA. What is at a bound is not below it; the products are in
 *          binary32, from left to right and rounded at each, and 0.001 and 1.05
 *          are the floats nearest them. A NaN `fs` gives W or VA, si and 1
 *          decimal; an `si` that is a NaN or infinite stays one, and a large
 *          one in mW can become infinite. 0.5 W with fs 36 (6 V and 6 A) is
 *          0.5, 3 decimals, W; with fs 0.36 (6 V and 60 mA) it is 500, 2
 *          decimals, mW. */
struct pw_format pw_p_format(float fs, float si, bool watts);

/* ======== names ======== */

/* Texts in ASCII for a screen or a log, in pw_names.c: C, and not proved. Each
 * lasts as long as the program and must not be written; a number that has no
 * name gives "?". */

/* A refusal's word: "done", "off", "busy", "method", "frame", "late", "full",
 * "description", "words". */
const char *pw_refusal_name(uint8_t refusal);

/* A unit, as "mWh". */
const char *pw_unit_name(uint8_t unit);

/* PW_JR_*: "none", "running", "ok", "signal", "small", "big", "unstable",
 * "range", "aborted", "method". */
const char *pw_job_result_name(uint8_t job_res);

/* PW_CAL_*: "none", "running", "ok", "flat", "not reactive", "range". */
const char *pw_cal_result_name(uint8_t cal_res);

/* PW_COUP_*: "AC+DC", "DC", "AC". */
const char *pw_coupling_name(uint8_t coup);

/* The ranges: "6 V" to "1000 V", "600 uA" to "10 A". */
const char *pw_v_range_name(uint8_t vr);
const char *pw_i_range_name(uint8_t ik);

/* PW_PARTIAL_*: "" for none, "Zeroing: leads open", "V calibration...",
 * "I ranging...". */
const char *pw_partial_name(uint8_t text);

#ifdef __cplusplus
}
#endif

#endif
