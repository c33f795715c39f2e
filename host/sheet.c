#include "sheet.h"

#include <inttypes.h>
#include <math.h>
#include <string.h>

enum { V_RANGES = PW_V_1000V + 1, I_RANGES = PW_I_10A + 1 };

void write_clock(FILE *out, uint64_t ms)
{
    fprintf(out, "%02" PRIu64 ":%02" PRIu64 ":%02" PRIu64 ".%03" PRIu64, ms / 3600000, ms / 60000 % 60, ms / 1000 % 60,
            ms % 1000);
}

static void write_energy(FILE *out, const char *what, struct pw_acc acc, bool va)
{
    struct pw_format f = pw_energy_format(pw_acc_wh(acc), va);
    fprintf(out, "%-18s %.*f %s\n", what, f.decimals, (double)f.number, pw_unit_name(f.unit));
    fprintf(out, "%-18s %" PRId64 " %s and %.9g %s\n", "", acc.mj, va ? "mVAs" : "mJ", (double)acc.frac, va ? "mVAs" : "mJ");
}

static void write_counted(FILE *out, const struct replay *p)
{
    struct pw_vals shown = pw_vals(p->meter);
    write_energy(out, "energy", p->meter.tally.e, false);
    write_energy(out, "apparent energy", p->meter.tally.va, true);
    fprintf(out, "time counted       %" PRIu64 " ms, ", p->meter.tally.t_int);
    write_clock(out, p->meter.tally.t_int);
    fputc('\n', out);
    if (p->alternating > 0) {
        fprintf(out, "%-18s %" PRIu64 " ms of it in the alternating method, which counts no energy\n", "", p->alternating);
    }
    if (shown.measured && !isnan(shown.vals.energies.p_avg))
        fprintf(out, "mean power         %.6g W over the time counted\n", (double)shown.vals.energies.p_avg);
    else
        fputs("mean power         none: the meter has no values at the end\n", out);
}

static void write_codes(FILE *out, const char *what, const int16_t *zeros)
{
    fprintf(out, "  %-16s", what);
    for (size_t k = 0; k < I_RANGES; k++)
        fprintf(out, " %7d", zeros[k]);
    fputc('\n', out);
}

static void write_corrections(FILE *out, const struct pw_corrections *c)
{
    if (c->zero_ok) {
        fprintf(out, "zeros, in codes   ");
        for (size_t k = 0; k < I_RANGES; k++)
            fprintf(out, " %7s", pw_i_range_name((uint8_t)k));
        fputc('\n', out);
        write_codes(out, "current, LPF", c->zx);
        write_codes(out, "current, AD1", c->zd);
        fprintf(out, "  voltage, LPF     %7d\n", c->zy);
    } else {
        fputs("zeros              none is stored\n", out);
    }
    fputs("gains\n", out);
    for (size_t k = 0; k < V_RANGES; k++) {
        fprintf(out, "  %-16s ", pw_v_range_name((uint8_t)k));
        if (c->vgain[k] > 0.0f)
            fprintf(out, "%.9g\n", (double)c->vgain[k]);
        else
            fputs("the factory's\n", out);
    }
}

static void write_jobs(FILE *out, const struct replay *p)
{
    if (p->job_count == 0)
        fputs("jobs               none\n", out);
    else
        fputs("jobs\n", out);
    for (size_t k = 0; k < p->job_count; k++) {
        const struct job_note *j = p->jobs + k;
        fputs("  ", out);
        write_clock(out, j->start);
        fputs(" to ", out);
        write_clock(out, j->last);
        fprintf(out, "  %s  %-8s %u ready frames\n", j->kind == PW_JOB_ZERO ? "zero" : "gain", pw_job_result_name(j->result), j->used);
    }
}

static void write_calls(FILE *out, const struct replay *p)
{
    bool any = false;
    fprintf(out, "calls              %zu, of them %zu frames\n", p->calls, p->frames);
    fprintf(out, "readings           %zu\n", p->readings);
    fprintf(out, "marks              %zu; %zu frames before a deadline\n", p->marks, p->early);
    fprintf(out, "re-applies         %zu; %zu frames while one was asked for\n", p->reapplies, p->not_reapplied);
    fprintf(out, "clock went back    %zu\n", p->clock_back);
    fputs("refusals met", out);
    for (uint8_t n = 1; n < REFUSALS; n++)
        if (p->refused[n] > 0) {
            fprintf(out, "\n  %u %-14s %zu, first in line %zu", n, pw_refusal_name(n), p->refused[n], p->first_line[n]);
            any = true;
        }
    fputs(any ? "\n" : "       none\n", out);
}

/* ---- the same figures in bits, as pwscript and the published Rust dump them ---- */

static uint32_t bits(float x)
{
    uint32_t n;
    memcpy(&n, &x, sizeof n);
    return n;
}

static void write_list(FILE *out, const char *name, const int16_t *zeros)
{
    for (size_t k = 0; k < I_RANGES; k++)
        fprintf(out, "%s%d", k == 0 ? name : ",", zeros[k]);
}

/* The mean power's bits; nan where there is none, and where there are no values. */
static void write_mean(FILE *out, const struct pw_meter *m)
{
    struct pw_vals shown = pw_vals(*m);
    float mean = shown.vals.energies.p_avg;
    if (shown.measured && !isnan(mean))
        fprintf(out, "%08" PRIx32 "\n", bits(mean));
    else
        fputs("nan\n", out);
}

static void write_bits(FILE *out, const struct replay *p)
{
    const struct pw_tally *t = &p->meter.tally;
    const struct pw_corrections *c = &p->meter.corrections;
    fprintf(out, "in bits            e=%" PRId64 ",%08" PRIx32 " va=%" PRId64 ",%08" PRIx32 " t_int=%" PRIu64 " p_avg=",
            t->e.mj, bits(t->e.frac), t->va.mj, bits(t->va.frac), t->t_int);
    write_mean(out, &p->meter);
    fprintf(out, "%-18s zero_ok=%d", "", c->zero_ok);
    write_list(out, " zx=", c->zx);
    write_list(out, " zd=", c->zd);
    fprintf(out, " zy=%d vgain=", c->zy);
    for (size_t k = 0; k < V_RANGES; k++)
        fprintf(out, "%s%08" PRIx32, k == 0 ? "" : ",", bits(c->vgain[k]));
    fprintf(out, "\n%-18s job_res=", "");
    for (size_t k = 0; k < p->job_count; k++)
        fprintf(out, "%s%u", k == 0 ? "" : ",", p->jobs[k].result);
    fputc('\n', out);
}

void write_sheet(FILE *out, const struct recording *r, const struct replay *p)
{
    fprintf(out, "Licence sheet\n\nrecording          %s\n", r->name);
    fprintf(out, "%-18s %zu lines, checksum %016" PRIx64 "\n", "", r->lines, r->fnv);
    if (p->timed) {
        fputs("clock              ", out);
        write_clock(out, p->first_time);
        fputs(" to ", out);
        write_clock(out, p->latest_time);
        fputc('\n', out);
    }
    fputc('\n', out);
    write_counted(out, p);
    fputc('\n', out);
    write_corrections(out, &p->meter.corrections);
    write_jobs(out, p);
    fputc('\n', out);
    write_calls(out, p);
    fputc('\n', out);
    write_bits(out, p);
}
