#include "speed.h"


#include <stdio.h>
#include <stdlib.h>

static const struct speed_kind kinds[] = {
    {"DC", 1, false, PW_JOB_NONE, PW_DONE},       {"method B", 0, false, PW_JOB_NONE, PW_DONE},
    {"alternating", 0, true, PW_JOB_NONE, PW_DONE}, {"zero job", 1, false, PW_JOB_ZERO, PW_DONE},
    {"gain job", 1, false, PW_JOB_GAIN, PW_DONE}, {"refused, off", 1, false, PW_JOB_NONE, PW_OFF},
    {"refused, length", 1, false, PW_JOB_NONE, PW_FRAME}, {"refused, late", 1, false, PW_JOB_NONE, PW_LATE}};

static struct pw_meter meter;
static struct speed_figures figures;
static uint8_t job_again;

size_t speed_kinds(void)
{
    return sizeof kinds / sizeof *kinds;
}

const struct speed_kind *speed_kind(size_t k)
{
    return kinds + k;
}

static void put_code(uint8_t *at, int64_t code, unsigned bytes)
{
    for (unsigned k = 0; k < bytes; k++)
        at[k] = (uint8_t)((uint64_t)code >> 8 * k);
}

/* In the ranges 60 V and 6 A some 29 V and 2.9 A, with an AC part of a quarter of that; in a zero job codes
 * near the zeros, in a gain job a steady DC voltage and its reference. */
void speed_make_frames(size_t k, struct speed_frame *frames, size_t count)
{
    bool zero = kinds[k].job == PW_JOB_ZERO, steady = kinds[k].job != PW_JOB_NONE;
    for (size_t n = 0; n < count; n++) {
        struct speed_frame *f = frames + n;
        int64_t noise = (int64_t)(((uint32_t)n * 2654435761u) >> 24) - 128;
        f->time = 10000 + n * 107 + (kinds[k].refusal == PW_LATE ? UINT64_C(1) << 48 : 0);
        f->flags = PW_INTF_AD1 | PW_INTF_LPF | PW_INTF_RMS;
        f->length = kinds[k].refusal == PW_FRAME ? 13 : 14;
        put_code(f->bytes, (zero ? 1000 : 1745000) + noise, 3);
        put_code(f->bytes + 3, noise, 3);
        put_code(f->bytes + 6, (zero ? 300 : 60000) + noise / 8, 3);
        put_code(f->bytes + 9, steady ? 2000 + noise : 200000000 + noise * 1000, 5);
    }
}

static void require(uint8_t refusal)
{
    if (refusal != PW_DONE) {
        fprintf(stderr, "speed: refusal %u at the start\n", refusal);
        exit(1);
    }
}

static void take(struct pw_step s)
{
    require(s.answer.refusal);
    meter = s.meter;
}

void speed_start(size_t k)
{
    static const uint32_t words[PW_CALIBRATION];
    struct pw_description d = {{10.0f, 1.0f}, {0.01f, 0.0005f, 0.0000475f}, 1.03f, false};
    struct pw_made made = pw_make(d, words, PW_CALIBRATION, false);
    require(made.refusal);
    meter = made.meter;
    figures = (struct speed_figures){0};
    job_again = kinds[k].job;
    take(pw_ranges(meter, 0, 1, 4));
    take(pw_ranges(meter, 1, PW_AUTO, PW_AUTO));
    take(pw_coupling(meter, 2, kinds[k].coupling));
    take(pw_method(meter, 3, kinds[k].alt));
    if (kinds[k].refusal != PW_OFF)
        take(pw_on(meter, 4));
}

static void start_job(uint64_t time)
{
    take(job_again == PW_JOB_ZERO ? pw_zero_job(meter, time) : pw_gain_job(meter, time));
}

void speed_frames(const struct speed_frame *frames, size_t count)
{
    for (size_t n = 0; n < count; n++) {
        const struct speed_frame *f = frames + n;
        if (job_again != PW_JOB_NONE && meter.job.job == PW_JOB_NONE)
            start_job(f->time);
        struct pw_step s = pw_frame(meter, f->time, f->flags, f->bytes, f->length);
        meter = s.meter;
        figures.readings += s.answer.has_reading;
        figures.refused += s.answer.refusal != PW_DONE;
        figures.used += s.answer.used;
    }
}

struct speed_figures speed_figures(void)
{
    figures.e = meter.tally.e.mj;
    figures.va = meter.tally.va.mj;
    figures.t_int = meter.tally.t_int;
    return figures;
}

struct pw_meter speed_meter(void)
{
    return meter;
}

struct pw_step speed_same(struct pw_meter same, uint64_t time)
{
    struct pw_step s = {.meter = same};
    s.meter.clock.t_poll = time;
    return s;
}
