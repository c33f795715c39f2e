#include "dump.h"

/* How a value is written. STAMP is a time or none, BARRED a unit or none, VAL a number as it is shown. */
enum kind { BOOL, U8, I8, U16, I16, U32, I64, U64, F32, STAMP, BARRED, VAL };

/* `count` values of one kind from offset `at` of a record on, with commas between, behind the text
 * `before`. */
struct item {
    char before[16];
    size_t length;
    size_t at;
    enum kind kind;
    size_t count;
};

#define ITEMS(record, before, kind, member, count) \
    {before, sizeof before - 1, offsetof(struct record, member), kind, count}
#define M(before, kind, member) ITEMS(pw_meter, before, kind, member, 1)
#define MS(before, kind, member, count) ITEMS(pw_meter, before, kind, member, count)
#define V(before, kind, member) ITEMS(pw_power_vals, before, kind, member, 1)
#define R(before, kind, member) ITEMS(pw_readouts, before, kind, member, 1)

/* D0 but for its last value, which counts in a job only. */
static const struct item clock_items[] = {
    M("D0 t_poll=", U64, clock.t_poll),
    M(" barred=", BARRED, barred),
};

/* D1 to D6, and D7 up to the ring. */
static const struct item meter_items[] = {
    M("\nD1 on=", BOOL, mode.on),
    M(" alt=", BOOL, mode.alt),
    M(" coup=", U8, mode.coup),
    M(" dc=", BOOL, mode.dc),
    M(" vr=", U8, ranges.vr),
    M(" ik=", U8, ranges.ik),
    M(" v_auto=", BOOL, ranges.v_auto),
    M(" i_auto=", BOOL, ranges.i_auto),
    M(" phase=", U8, cycle.phase),
    M(" skip=", U8, cycle.skip),
    M(" skip_y=", U8, cycle.skip_y),
    M(" taken=", U8, cycle.taken),
    M(" stat=", U8, cycle.stat),
    M(" seen=", U8, cycle.seen),
    M(" r20=", U8, comparator.r20),
    M(" r21=", U8, comparator.r21),
    M(" f_ok=", BOOL, comparator.f_ok),
    M(" cmp_vr=", U8, comparator.cmp_vr),
    M("\nD2 p_ac=", F32, parts.p_ac),
    M(" v_ac=", F32, parts.v_ac),
    M(" v_dc=", F32, parts.v_dc),
    M(" i_ac=", F32, parts.i_ac),
    M(" i_dc=", F32, parts.i_dc),
    M(" vac_dc=", F32, parts.vac_dc),
    M(" p_tot=", F32, powers.p_tot),
    M(" s_last=", F32, powers.s_last),
    M("\nD3 run=", BOOL, clock.run),
    M(" e=", I64, tally.e.mj),
    M(",", F32, tally.e.frac),
    M(" va=", I64, tally.va.mj),
    M(",", F32, tally.va.frac),
    M(" t_int=", U64, tally.t_int),
    M(" t_last=", STAMP, clock.t_last),
    M(" over_t0=", STAMP, over_t0),
    M(" comp=", BOOL, settings.comp),
    MS(" r_path=", F32, settings.r_path, 3),
    M(" i_cont=", F32, settings.i_cont),
    M(" t_lim=", U16, settings.t_lim),
    M(" main=", U8, settings.main),
    M("\nD4 sph=", I8, phase_cal.sph),
    M(" cal=", U8, phase_cal.cal),
    M(" cal_n=", U8, phase_cal.cal_n),
    M(" cal_acc=", F32, phase_cal.cal_acc),
    M(" cal_s0=", I8, phase_cal.cal_s0),
    M(" cal_pa=", F32, phase_cal.cal_pa),
    M(" cal_res=", U8, phase_cal.cal_res),
    M(" cal_req=", BOOL, mode.cal_req),
    M("\nD5 job=", U8, job.job),
    M(" job_step=", U8, job.job_step),
    M(" job_n=", U8, job.job_n),
    M(" job_a=", F32, job.job_a),
    M(" job_b=", F32, job.job_b),
    M(" job_dc=", BOOL, job.job_dc),
    MS(" job_raw=", F32, job.job_raw, 2),
    MS(" job_ref=", F32, job.job_ref, 2),
    MS(" job_zx=", I16, job.job_zx, 6),
    MS(" job_zd=", I16, job.job_zd, 6),
    M(" job_save=", U8, job.job_save.vr),
    M(",", U8, job.job_save.ik),
    M(",", BOOL, job.job_save.v_auto),
    M(",", BOOL, job.job_save.i_auto),
    M(" job_res=", U8, job.job_res),
    M(" job_vr=", U8, job.job_vr),
    M(" job_last=", U8, job.job_last),
    M("\nD6 zero_ok=", BOOL, corrections.zero_ok),
    MS(" zx=", I16, corrections.zx, 6),
    MS(" zd=", I16, corrections.zd, 6),
    M(" zy=", I16, corrections.zy),
    MS(" vgain=", F32, corrections.vgain, 4),
    M("\nD7 ring_k=", U32, ring.ring_k),
    M(" t_res=", U64, ring.t_res),
};

/* The values of D8, D9, a reading and `f zero`. */
static const struct item value_items[] = {
    V("p=", F32, load.p),
    V(" s=", F32, load.s),
    V(" q=", F32, load.q),
    V(" pf=", F32, load.pf),
    V(" v=", F32, load.v),
    V(" i=", F32, load.i),
    V(" vdc=", F32, vdc),
    V(" idc=", F32, idc),
    V(" f_ok=", BOOL, f_ok),
    V(" burden_v=", F32, burden_v),
    V(" e_wh=", F32, energies.e_wh),
    V(" vah=", F32, energies.vah),
    V(" secs=", U32, energies.secs),
    V(" p_avg=", F32, energies.p_avg),
    V(" vr=", U8, ranges.vr),
    V(" ik=", U8, ranges.ik),
    V(" v_auto=", BOOL, ranges.v_auto),
    V(" i_auto=", BOOL, ranges.i_auto),
    V(" alt=", BOOL, in_force.alt),
    V(" dc=", BOOL, in_force.dc),
    V(" coup=", U8, in_force.coup),
    V(" comp=", BOOL, in_force.comp),
    V(" run=", BOOL, in_force.run),
    V(" v_ol=", BOOL, limits.v_ol),
    V(" i_ol=", BOOL, limits.i_ol),
    V(" over=", U8, limits.over),
    V(" over_left=", U16, limits.over_left),
    V(" sph=", I8, in_force.sph),
    V(" main=", U8, in_force.main),
    V(" hint=", U8, hint),
    V(" vp=", F32, split.v_dc),
    V(",", F32, split.v_ac),
    V(" ip=", F32, split.i_dc),
    V(",", F32, split.i_ac),
    V(" pp=", F32, split.p_dc),
    V(",", F32, split.p_ac),
};

static const struct item readout_items[] = {
    R("main=", VAL, main),
    R(" v=", VAL, v),
    R(" i=", VAL, i),
    R(" si=", F32, si),
};

static size_t size_of(enum kind kind)
{
    static const size_t sizes[] = {
        [BOOL] = 1, [U8] = 1, [I8] = 1, [U16] = 2, [I16] = 2, [U32] = 4, [I64] = 8, [U64] = 8, [F32] = 4,
        [STAMP] = sizeof(struct pw_stamp), [BARRED] = 1, [VAL] = sizeof(struct pw_val),
    };
    return sizes[kind];
}

/* What lies at `at`, taken as of the type and written by `put`. */
#define PUT(put, type)         \
    {                          \
        type x;                \
        memcpy(&x, at, sizeof x); \
        put(t, x);             \
        break;                 \
    }

static void put_barred(struct text *t, uint8_t unit)
{
    put_stamp(t, (struct pw_stamp){unit != 0, unit});
}

static void put_value(struct text *t, enum kind kind, const char *at)
{
    switch (kind) {
    case BOOL:
        PUT(put_u64, bool)
    case U8:
        PUT(put_u64, uint8_t)
    case I8:
        PUT(put_i64, int8_t)
    case U16:
        PUT(put_u64, uint16_t)
    case I16:
        PUT(put_i64, int16_t)
    case U32:
        PUT(put_u64, uint32_t)
    case I64:
        PUT(put_i64, int64_t)
    case U64:
        PUT(put_u64, uint64_t)
    case F32:
        PUT(put_float, float)
    case STAMP:
        PUT(put_stamp, struct pw_stamp)
    case BARRED:
        PUT(put_barred, uint8_t)
    case VAL:
        PUT(put_val, struct pw_val)
    }
}

/* The text that is not in the hash yet goes into it. Done item by item, since a processor that waits for the
 * product of one character can write the next item meanwhile. */
static void fold(struct text *t)
{
    if (!t->hashing)
        return;
    uint64_t hash = t->hash;
    for (; t->hashed < t->length; t->hashed++)
        hash = (hash ^ (uint8_t)t->at[t->hashed]) * UINT64_C(0x100000001b3);
    t->hash = hash;
}

/* All of the room of `before` is copied, which is faster than a part of it, and its length counted. */
static void put_before(struct text *t, const struct item *i)
{
    memcpy(room_for(t, sizeof i->before), i->before, sizeof i->before);
    t->length -= sizeof i->before - i->length;
}

static void put_items(struct text *t, const struct item *items, size_t count, const void *record)
{
    for (const struct item *i = items; i < items + count; i++) {
        fold(t);
        const char *at = (const char *)record + i->at;
        put_before(t, i);
        put_value(t, i->kind, at);
        for (size_t k = 1; k < i->count; k++) {
            put_char(t, ',');
            put_value(t, i->kind, at + k * size_of(i->kind));
        }
    }
}
#define PUT_ITEMS(t, items, record) put_items(t, items, sizeof items / sizeof items[0], record)

void put_values(struct text *t, const struct pw_power_vals *vals)
{
    PUT_ITEMS(t, value_items, vals);
}

void put_readouts(struct text *t, const struct pw_readouts *r)
{
    PUT_ITEMS(t, readout_items, r);
}

/* The dropped mark, the codes and the interval of one conversion, `between` before each of the latter. */
static void put_codes(struct text *t, const struct pw_ring *r, size_t k, char between)
{
    put_char(t, r->disc[k] ? '1' : '0');
    put_char(t, between);
    put_i64(t, r->rms[k]);
    put_char(t, between);
    put_i64(t, r->lpf[k]);
    put_char(t, between);
    put_u64(t, r->dt[k]);
}

/* The end of D7: every place of the ring, used or not. */
static void put_places(struct text *t, const struct pw_ring *r)
{
    put_text(t, " ring=");
    for (size_t k = 0; k < PW_RING; k++) {
        if (k > 0)
            put_char(t, ',');
        fold(t);
        put_u64(t, r->stat[k]);
        put_char(t, ':');
        put_codes(t, r, k, ':');
    }
}

/* Which result it was: R34 in method B, or one of the numbers of the other paths. */
static const char *result_name(uint8_t stat)
{
    static const char *const others[] = {"?", "V", "I", "DV", "DI"};
    switch (stat) {
    case PW_R34_XY:
        return "XY";
    case PW_R34_XX:
        return "XX";
    case PW_R34_YY:
        return "YY";
    default:
        return stat < sizeof others / sizeof others[0] ? others[stat] : "?";
    }
}

void put_ring(struct text *t, const struct pw_ring *r)
{
    put_u64(t, r->ring_k);
    uint32_t count = r->ring_k < PW_RING ? r->ring_k : PW_RING;
    for (uint32_t n = r->ring_k - count; n != r->ring_k; n++) {
        put_char(t, ';');
        put_text(t, result_name(r->stat[n % PW_RING]));
        put_char(t, ',');
        put_codes(t, r, n % PW_RING, ',');
    }
}

/* What is shown in place of a reading. */
static void put_partial(struct text *t, struct pw_partial p)
{
    static const char *const texts[] = {"", " \"Zeroing: leads open\"", " \"V calibration...\"", " \"I ranging...\""};
    put_text(t, "\nD11 partial=");
    if (p.text == 0 || p.text >= sizeof texts / sizeof texts[0]) {
        put_text(t, p.text == 0 ? "none" : "?");
        return;
    }
    if (p.with_volts)
        put_val(t, p.volts);
    else
        put_char(t, '-');
    put_text(t, texts[p.text]);
}

/* D8 to D11: what is read off the meter. */
static void put_read(struct text *t, const struct pw_meter *m)
{
    struct pw_vals vals = pw_vals(*m);
    put_text(t, vals.measured ? "\nD8 vals " : "\nD8 vals none");
    if (vals.measured)
        put_values(t, &vals.vals);
    struct pw_power_vals state = pw_state(*m);
    put_text(t, "\nD9 state ");
    put_values(t, &state);
    struct pw_readouts readouts = pw_reading_vals(state);
    put_text(t, "\nD10 ");
    put_readouts(t, &readouts);
    put_text(t, " energy=");
    put_val(t, pw_energy_val(state));
    put_text(t, " bt=");
    put_val(t, pw_bt_main(state));
    put_partial(t, pw_partial(*m));
    put_text(t, " integrating=");
    put_u64(t, pw_integrating(*m));
    put_text(t, " bt_mode=");
    put_u64(t, pw_bt_mode_byte(m->ranges.v_auto, m->ranges.vr));
    put_char(t, '\n');
}

void put_dump(struct text *t, const struct pw_meter *m)
{
    PUT_ITEMS(t, clock_items, m);
    put_text(t, " used=");
    put_u64(t, m->job.job == PW_JOB_NONE ? 0 : m->job.used);
    PUT_ITEMS(t, meter_items, m);
    put_places(t, &m->ring);
    put_read(t, m);
}

uint64_t dump_hash(const struct pw_meter *m)
{
    static struct text t;
    t.length = 0;
    t.hashing = true;
    t.hashed = 0;
    t.hash = UINT64_C(0xcbf29ce484222325);
    put_dump(&t, m);
    fold(&t);
    return t.hash;
}
