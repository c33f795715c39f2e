/* fields.h: the fields of a meter, under the names that they have in a dump of the published Rust.
 *
 * One table says where each field lies and of what kind it is, so that a dump is read and two
 * meters are compared value by value; what lies between the fields of a struct is not looked at.
 * What works on one such table works on any (shown.h has others). */
#ifndef FIELDS_H
#define FIELDS_H

#include "bits.h"
#include "leaves.h"

#include <inttypes.h>
#include <stddef.h>
#include <stdio.h>

/* STAMPED is a bool, in a dump no for `-`. UNIT is a unit's number, in a dump its name. */
enum kind { BOOL, STAMPED, UNIT, U8, I8, U16, I16, U32, I32, U64, I64, F32 };

/* MADE is given when a meter is made and is in no dump. KEPT is left alone by a frame up to the
 * accounting step, but not by what follows, so that the dump after the frame does not show it. All
 * else is SHOWN there, changed or not. */
enum role { MADE, KEPT, SHOWN };

/* `count` values from offset `at` on. Of the values that a dump has under the key, number
 * first + k * step is the one of index k. */
struct field {
    const char *key;
    size_t at;
    enum kind kind;
    enum role role;
    size_t count;
    size_t first;
    size_t step;
};

#define FIELD(role, kind, key, member, count, first, step) \
    {key, offsetof(struct pw_meter, member), kind, role, count, first, step}
#define PART(role, kind, key, member, first) FIELD(role, kind, key, member, 1, first, 1)
#define ONE(role, kind, group, name) PART(role, kind, #name, group.name, 0)
#define MANY(role, kind, group, name, count) FIELD(role, kind, #name, group.name, count, 0, 1)
#define SLOTS(kind, name, first) FIELD(SHOWN, kind, "ring", ring.name, PW_RING, first, 5)

static const struct field fields[] = {
    MANY(MADE, F32, description, mv_div, 2),
    MANY(MADE, F32, description, shunt, 3),
    ONE(MADE, F32, description, over),
    ONE(MADE, BOOL, description, a_auto),
    MANY(MADE, U32, calibration, words, PW_CALIBRATION),
    ONE(MADE, BOOL, calibration, valid),
    ONE(SHOWN, BOOL, mode, on),
    ONE(SHOWN, BOOL, mode, alt),
    ONE(SHOWN, U8, mode, coup),
    ONE(SHOWN, BOOL, mode, dc),
    ONE(KEPT, BOOL, mode, cal_req),
    ONE(SHOWN, U8, ranges, vr),
    ONE(SHOWN, U8, ranges, ik),
    ONE(SHOWN, BOOL, ranges, v_auto),
    ONE(SHOWN, BOOL, ranges, i_auto),
    PART(SHOWN, U8, "barred", barred, 0),
    ONE(SHOWN, U8, cycle, phase),
    ONE(SHOWN, U8, cycle, skip),
    ONE(SHOWN, U8, cycle, skip_y),
    ONE(SHOWN, U8, cycle, taken),
    ONE(SHOWN, U8, cycle, stat),
    ONE(SHOWN, U8, cycle, seen),
    ONE(SHOWN, F32, parts, p_ac),
    ONE(SHOWN, F32, parts, v_ac),
    ONE(SHOWN, F32, parts, v_dc),
    ONE(SHOWN, F32, parts, i_ac),
    ONE(SHOWN, F32, parts, i_dc),
    ONE(SHOWN, F32, parts, vac_dc),
    ONE(KEPT, F32, powers, p_tot),
    ONE(KEPT, F32, powers, s_last),
    PART(KEPT, I64, "e", tally.e.mj, 0),
    PART(KEPT, F32, "e", tally.e.frac, 1),
    PART(KEPT, I64, "va", tally.va.mj, 0),
    PART(KEPT, F32, "va", tally.va.frac, 1),
    ONE(KEPT, U64, tally, t_int),
    ONE(SHOWN, BOOL, clock, run),
    PART(KEPT, STAMPED, "t_last", clock.t_last.set, 0),
    PART(KEPT, U64, "t_last", clock.t_last.at, 0),
    ONE(KEPT, U64, clock, t_poll),
    PART(KEPT, STAMPED, "over_t0", over_t0.set, 0),
    PART(KEPT, U64, "over_t0", over_t0.at, 0),
    ONE(SHOWN, BOOL, settings, comp),
    MANY(SHOWN, F32, settings, r_path, 3),
    ONE(SHOWN, F32, settings, i_cont),
    ONE(SHOWN, U16, settings, t_lim),
    ONE(SHOWN, U8, settings, main),
    ONE(KEPT, I8, phase_cal, sph),
    ONE(KEPT, U8, phase_cal, cal),
    ONE(SHOWN, U8, phase_cal, cal_n),
    ONE(SHOWN, F32, phase_cal, cal_acc),
    ONE(SHOWN, I8, phase_cal, cal_s0),
    ONE(KEPT, F32, phase_cal, cal_pa),
    ONE(KEPT, U8, phase_cal, cal_res),
    MANY(SHOWN, I16, corrections, zx, 6),
    MANY(SHOWN, I16, corrections, zd, 6),
    ONE(SHOWN, I16, corrections, zy),
    ONE(SHOWN, BOOL, corrections, zero_ok),
    MANY(SHOWN, F32, corrections, vgain, 4),
    ONE(SHOWN, U8, job, job),
    ONE(SHOWN, U8, job, job_step),
    ONE(SHOWN, U8, job, job_n),
    ONE(SHOWN, F32, job, job_a),
    ONE(SHOWN, F32, job, job_b),
    ONE(SHOWN, BOOL, job, job_dc),
    MANY(SHOWN, F32, job, job_raw, 2),
    MANY(SHOWN, F32, job, job_ref, 2),
    MANY(SHOWN, I16, job, job_zx, 6),
    MANY(SHOWN, I16, job, job_zd, 6),
    PART(SHOWN, U8, "job_save", job.job_save.vr, 0),
    PART(SHOWN, U8, "job_save", job.job_save.ik, 1),
    PART(SHOWN, BOOL, "job_save", job.job_save.v_auto, 2),
    PART(SHOWN, BOOL, "job_save", job.job_save.i_auto, 3),
    ONE(SHOWN, U8, job, job_res),
    ONE(SHOWN, U8, job, job_vr),
    ONE(SHOWN, U8, job, job_last),
    ONE(SHOWN, U8, job, used),
    ONE(SHOWN, U8, comparator, r20),
    ONE(SHOWN, U8, comparator, r21),
    ONE(SHOWN, BOOL, comparator, f_ok),
    ONE(SHOWN, U8, comparator, cmp_vr),
    SLOTS(U8, stat, 0),
    SLOTS(BOOL, disc, 1),
    SLOTS(I64, rms, 2),
    SLOTS(I32, lpf, 3),
    SLOTS(U16, dt, 4),
    ONE(SHOWN, U32, ring, ring_k),
    ONE(SHOWN, U64, ring, t_res),
};
enum { FIELDS = sizeof fields / sizeof fields[0] };

static inline size_t size_of(enum kind kind)
{
    switch (kind) {
    case BOOL:
    case STAMPED:
    case UNIT:
    case U8:
    case I8:
        return 1;
    case U16:
    case I16:
        return 2;
    case U32:
    case I32:
    case F32:
        return 4;
    default:
        return 8;
    }
}

/* The value of index k of a field: its bytes as the low ones of 64 bits, the lowest one first. */
static inline uint64_t value_of(const void *record, const struct field *f, size_t k)
{
    uint64_t value = 0;
    memcpy(&value, (const char *)record + f->at + k * size_of(f->kind), size_of(f->kind));
    return value;
}

static inline void set_value(void *record, const struct field *f, size_t k, uint64_t value)
{
    memcpy((char *)record + f->at + k * size_of(f->kind), &value, size_of(f->kind));
}

static inline bool same_value(const struct field *f, uint64_t a, uint64_t b)
{
    return f->kind == F32 ? same32(float_of((uint32_t)a), float_of((uint32_t)b)) : a == b;
}

/* Prints a value with a space before it: a float as the digits of its bits. */
static inline void put_value(const struct field *f, uint64_t value)
{
    unsigned unused = 64 - 8 * (unsigned)size_of(f->kind);
    if (f->kind == F32)
        printf(" %08" PRIx64, value);
    else if (f->kind == I8 || f->kind == I16 || f->kind == I32 || f->kind == I64)
        printf(" %" PRId64, (int64_t)(value << unused) >> unused);
    else
        printf(" %" PRIu64, value);
}

/* A time counts only where it is set. */
static inline bool same_stamp(struct pw_stamp a, struct pw_stamp b)
{
    return a.set == b.set && (!a.set || a.at == b.at);
}

/* How many values two records of a table differ in. The first `most` of them are shown, each with
 * `what`, the key, the index, the place among the key's values, the value expected and the one got. */
static inline size_t differences_in(const struct field *table, size_t length, const void *expected,
                                    const void *got, const char *what, size_t most)
{
    size_t count = 0;
    for (const struct field *f = table; f < table + length; f++)
        for (size_t k = 0; k < f->count; k++) {
            uint64_t e = value_of(expected, f, k), g = value_of(got, f, k);
            if (same_value(f, e, g) || count++ >= most)
                continue;
            printf("%s: %s %zu.%zu is to be", what, f->key, k, f->first);
            put_value(f, e);
            printf(", is");
            put_value(f, g);
            putchar('\n');
        }
    return count;
}

/* The same of two meters. */
static inline size_t differences(const struct pw_meter *expected, const struct pw_meter *got,
                                 const char *what, size_t most)
{
    return differences_in(fields, FIELDS, expected, got, what, most);
}

#endif
