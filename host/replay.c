#include "replay.h"

#include <inttypes.h>
#include <stdio.h>
#include <stdlib.h>

/* ---- what is noted of a call ---- */

static bool note_job(struct replay *p, struct job_note note)
{
    struct job_note *more = realloc(p->jobs, (p->job_count + 1) * sizeof *more);
    if (more == NULL) {
        fputs("bench: no memory for the jobs\n", stderr);
        return false;
    }
    p->jobs = more;
    p->jobs[p->job_count++] = note;
    return true;
}

/* A start that was accepted, or turned away for the method; a running job's use; its end. */
static bool note_jobs(struct replay *p, const struct event *e, const struct pw_step *s)
{
    uint8_t before = p->meter.job.job;
    if (e->kind == EVENT_ZERO || e->kind == EVENT_GAIN) {
        if (s->answer.refusal != PW_DONE && s->answer.refusal != PW_METHOD)
            return true;
        return note_job(p, (struct job_note){s->meter.job.job_last, e->time, e->time, s->meter.job.job_res, 0});
    }
    if (before == PW_JOB_NONE || s->answer.refusal != PW_DONE || p->job_count == 0)
        return true;
    struct job_note *note = p->jobs + p->job_count - 1;
    if (e->timed)
        note->last = e->time;
    note->result = s->meter.job.job_res;
    note->used = s->meter.job.used;
    return true;
}

static void note_refusal(struct replay *p, uint8_t refusal, size_t line)
{
    if (refusal >= REFUSALS)
        return;
    if (p->refused[refusal]++ == 0)
        p->first_line[refusal] = line;
}

static void note_time(struct replay *p, uint64_t time)
{
    if (!p->timed)
        p->first_time = time;
    else if (time < p->latest_time)
        p->clock_back++;
    p->timed = true;
    p->latest_time = time;
}

static void note_frame(struct replay *p, const struct event *e, const struct pw_step *s)
{
    const struct pw_mode *mode = &p->meter.mode;
    p->early += e->time < p->deadline;
    p->not_reapplied += mode->cal_req && p->meter.job.job == PW_JOB_NONE;
    if (mode->alt && !mode->dc)
        p->alternating += s->meter.tally.t_int - p->meter.tally.t_int;
    if (s->answer.has_reading) {
        p->readings++;
        p->watts = s->answer.reading.readouts.si;
    }
}

/* Notes what the call was answered, and takes over the meter that it leaves. */
static bool take_step(struct replay *p, const struct event *e, const struct pw_step *s, size_t line)
{
    p->calls++;
    p->frames += e->kind == EVENT_FRAME;
    if (!note_jobs(p, e, s))
        return false;
    if (s->answer.refusal != PW_DONE) {
        note_refusal(p, s->answer.refusal, line);
    } else {
        if (e->timed)
            note_time(p, e->time);
        if (e->kind == EVENT_FRAME)
            note_frame(p, e, s);
        p->reapplies += e->kind == EVENT_REAPPLY;
    }
    if (s->answer.mark.set) {
        p->marks++;
        p->deadline = s->answer.mark.at;
    }
    p->meter = s->meter;
    return true;
}

/* ---- the calls ---- */

static struct pw_step call(struct pw_meter meter, const struct event *e)
{
    switch (e->kind) {
    case EVENT_ON:
        return pw_on(meter, e->time);
    case EVENT_OFF:
        return pw_off(meter, e->time);
    case EVENT_METHOD:
        return pw_method(meter, e->time, e->yes);
    case EVENT_RANGES:
        return pw_ranges(meter, e->time, e->v, e->i);
    case EVENT_COUPLING:
        return pw_coupling(meter, e->time, e->coupling);
    case EVENT_ZERO:
        return pw_zero_job(meter, e->time);
    case EVENT_GAIN:
        return pw_gain_job(meter, e->time);
    case EVENT_PHASE:
        return pw_phase_start(meter);
    case EVENT_ERESET:
        return pw_energy_reset(meter);
    case EVENT_RUN:
        return pw_run(meter, e->yes);
    case EVENT_SET:
        return pw_set_settings(meter, e->settings);
    case EVENT_REAPPLY:
        return pw_reapply(meter, e->time);
    default:
        return pw_frame(meter, e->time, e->flags, e->bytes, e->length);
    }
}

static bool make_meter(struct replay *p, const struct recording *r, const struct event *e, size_t line)
{
    if (p->made)
        return recording_fault(r->name, line, "a second meter");
    struct pw_made made = pw_make(e->description, e->words, e->count, e->valid);
    if (made.refusal != PW_DONE)
        return recording_fault(r->name, line, "no meter is made: refusal %u, %s", (unsigned)made.refusal,
                               pw_refusal_name(made.refusal));
    p->meter = made.meter;
    p->made = true;
    return true;
}

static bool replay_event(struct replay *p, const struct recording *r, const struct event *e, size_t line)
{
    if (e->kind == EVENT_NOTHING)
        return true;
    if (e->kind == EVENT_METER)
        return make_meter(p, r, e, line);
    if (!p->made)
        return recording_fault(r->name, line, "a call before the meter is made");
    struct pw_step s = call(p->meter, e);
    return take_step(p, e, &s, line);
}

bool replay_run(struct replay *p, struct recording *r, void (*progress)(const struct replay *, double part))
{
    struct event event = {.kind = EVENT_NOTHING};
    struct place place = recording_start(r);
    *p = (struct replay){.made = false};
    while (!recording_at_end(r, place)) {
        size_t line = place.line;
        if (!recording_next(r, &place, &event) || !replay_event(p, r, &event, line))
            return false;
        if (progress != NULL && event.kind == EVENT_FRAME)
            progress(p, (double)place.at / (double)r->size);
    }
    return p->made || recording_fault(r->name, place.line, "no meter is made in it");
}

void replay_free(struct replay *p)
{
    free(p->jobs);
}
