/* The functions of the protocol: `f NAME ARGUMENTS`. All figures come from libpw.a and libleaves.a. */
#include "dump.h"
#include "leaves.h"
#include "script.h"

/* The arguments of a function, the meter in force, and where the answer goes. */
struct question {
    const struct word *argument;
    const struct script *script;
    struct text *out;
};

/* ---- writing: always true, so that a handler ends with it ---- */

static bool end_line(struct text *t)
{
    put_char(t, '\n');
    return true;
}

static bool write_floats(struct text *t, const float *x, size_t count)
{
    put_char(t, '=');
    for (size_t k = 0; k < count; k++) {
        put_char(t, ' ');
        put_float(t, x[k]);
    }
    return end_line(t);
}

static bool write_float(struct text *t, float x)
{
    return write_floats(t, &x, 1);
}

static bool write_int(struct text *t, int64_t n)
{
    put_text(t, "= ");
    put_i64(t, n);
    return end_line(t);
}

static bool write_text(struct text *t, const char *text)
{
    put_text(t, "= ");
    put_text(t, text);
    return end_line(t);
}

/* The number, the decimals and the name of the unit. */
static bool write_format(struct text *t, struct pw_format f)
{
    put_text(t, "= ");
    put_float(t, f.number);
    put_char(t, ' ');
    put_u64(t, f.decimals);
    put_char(t, ' ');
    put_text(t, pw_unit_name(f.unit));
    return end_line(t);
}

/* A space, and a number as it is shown. */
static void put_shown(struct text *t, struct pw_val v)
{
    put_char(t, ' ');
    put_val(t, v);
}

/* ---- the functions ---- */

/* The codes of a frame with the `count` bytes of w from byte `first` on. The
 * other bytes of the frame are not zero, so that the place matters. */
static bool read_codes(struct word w, size_t first, size_t count, struct pw_codes *codes)
{
    uint8_t frame[PW_FRAME_LENGTH];
    memset(frame, 0xA5, sizeof frame);
    if (!read_bytes(w, frame + first, count))
        return false;
    *codes = pw_decode(frame, sizeof frame);
    return codes->refusal == PW_DONE;
}

static bool f_ad1(struct question q)
{
    struct pw_codes codes;
    return read_codes(q.argument[0], 0, 3, &codes) && write_int(q.out, codes.ad1);
}

static bool f_lpf(struct question q)
{
    struct pw_codes codes;
    return read_codes(q.argument[0], 6, 3, &codes) && write_int(q.out, codes.lpf);
}

static bool f_rms(struct question q)
{
    struct pw_codes codes;
    return read_codes(q.argument[0], 9, 5, &codes) && write_int(q.out, codes.rms);
}

static bool f_i2f(struct question q)
{
    int64_t n;
    return read_i64(q.argument[0], &n) && write_float(q.out, leaf_i64_to_f32(n));
}

static bool f_u2f(struct question q)
{
    uint64_t n;
    return read_u64(q.argument[0], &n) && write_float(q.out, leaf_u64_to_f32(n));
}

static bool f_f2i(struct question q)
{
    float x;
    return read_float(q.argument[0], &x) && write_int(q.out, leaf_f32_to_i64(x));
}

static bool f_f2i32(struct question q)
{
    float x;
    return read_float(q.argument[0], &x) && write_int(q.out, leaf_f32_to_i32(x));
}

static bool f_max(struct question q)
{
    float a, b;
    return read_float(q.argument[0], &a) && read_float(q.argument[1], &b) && write_float(q.out, leaf_max(a, b));
}

static bool f_max0(struct question q)
{
    float a;
    return read_float(q.argument[0], &a) && write_float(q.out, leaf_max(a, 0.0f));
}

static bool f_sqrt(struct question q)
{
    float x;
    return read_float(q.argument[0], &x) && write_float(q.out, leaf_sqrt(x));
}

static bool f_hypot(struct question q)
{
    float a, b;
    return read_float(q.argument[0], &a) && read_float(q.argument[1], &b) && write_float(q.out, leaf_hypot(a, b));
}

static bool f_iu_ir(struct question q)
{
    uint8_t k;
    if (!read_u8(q.argument[0], &k))
        return false;
    struct leaf_iu_ir unit = leaf_iu_ir(k);
    put_text(q.out, "= ");
    put_u64(q.out, unit.iu);
    put_char(q.out, ' ');
    put_u64(q.out, unit.ir);
    return end_line(q.out);
}

static bool f_cmp_window(struct question q)
{
    float c, a;
    if (!read_float(q.argument[0], &c) || !read_float(q.argument[1], &a))
        return false;
    struct pw_window window = pw_cmp_window(c, a);
    if (!window.found)
        return write_text(q.out, "none");
    put_text(q.out, "= ");
    put_hex(q.out, window.r21, 2);
    return end_line(q.out);
}

static bool f_coup_of(struct question q)
{
    uint32_t c;
    return read_u32(q.argument[0], &c) && write_int(q.out, leaf_coup_of(c));
}

static bool f_next_coupling(struct question q)
{
    uint8_t c;
    return read_u8(q.argument[0], &c) && write_int(q.out, leaf_next_coupling(c));
}

static bool f_r36(struct question q)
{
    int8_t steps;
    return read_i8(q.argument[0], &steps) && write_int(q.out, pw_r36_of(steps));
}

/* At an offset that is not a multiple of 4, or past the last word, the oracle
 * panics. Here the word that the byte lies in is read, or the default. */
static bool f_cal(struct question q)
{
    uint32_t offset;
    float otherwise;
    return read_u32(q.argument[0], &offset) && read_float(q.argument[1], &otherwise)
           && write_float(q.out, leaf_cal(q.script->meter.calibration, offset, otherwise));
}

static bool f_v_gain_factory(struct question q)
{
    uint8_t vr;
    return read_u8(q.argument[0], &vr) && write_float(q.out, leaf_v_gain_factory(q.script->meter.calibration, vr));
}

/* Not before a meter is made. */
static bool f_v_gain(struct question q)
{
    uint8_t vr;
    if (!q.script->made || !read_u8(q.argument[0], &vr))
        return false;
    struct leaf_gains stored;
    memcpy(stored.vgain, q.script->meter.corrections.vgain, sizeof stored.vgain);
    return write_float(q.out, leaf_v_gain(q.script->meter.calibration, stored, vr));
}

/* PAC VAC VDC IAC IDC R */
static bool f_totals(struct question q)
{
    float part[6];
    if (!read_floats(q.argument, part, 6))
        return false;
    struct pw_figures t = leaf_totals(part[0], part[1], part[2], part[3], part[4], part[5]);
    return write_floats(q.out, (float[]){t.p, t.s, t.q, t.pf, t.v, t.i}, 6);
}

/* WIN A X Y */
static bool f_ema(struct question q)
{
    float x[4];
    return read_floats(q.argument, x, 4) && write_float(q.out, leaf_ema(x[0], x[1], x[2], x[3]));
}

/* A FLOOR X Y */
static bool f_ema_rel(struct question q)
{
    float x[4];
    return read_floats(q.argument, x, 4) && write_float(q.out, leaf_ema_rel(x[0], x[1], x[2], x[3]));
}

/* MJ FRAC */
static bool read_energy(const struct word *argument, struct pw_acc *acc)
{
    return read_i64(argument[0], &acc->mj) && read_float(argument[1], &acc->frac);
}

/* MJ FRAC J */
static bool f_acc(struct question q)
{
    struct pw_acc acc;
    float joules;
    if (!read_energy(q.argument, &acc) || !read_float(q.argument[2], &joules))
        return false;
    if (pw_acc_add(&acc, joules) != PW_DONE)
        return write_text(q.out, "full");
    put_text(q.out, "= ");
    put_i64(q.out, acc.mj);
    put_char(q.out, ' ');
    put_float(q.out, acc.frac);
    return end_line(q.out);
}

static bool f_acc_wh(struct question q)
{
    struct pw_acc acc;
    return read_energy(q.argument, &acc) && write_float(q.out, pw_acc_wh(acc));
}

/* WH VA */
static bool f_energy_format(struct question q)
{
    float wh;
    bool va;
    return read_float(q.argument[0], &wh) && read_bool(q.argument[1], &va) && write_format(q.out, pw_energy_format(wh, va));
}

/* FS SI WATTS */
static bool f_p_format(struct question q)
{
    float x[2];
    bool watts;
    return read_floats(q.argument, x, 2) && read_bool(q.argument[2], &watts)
           && write_format(q.out, pw_p_format(x[0], x[1], watts));
}

static bool f_no_neg_zero(struct question q)
{
    float x;
    uint8_t dec;
    return read_float(q.argument[0], &x) && read_u8(q.argument[1], &dec) && write_float(q.out, leaf_no_neg_zero(x, dec));
}

static bool f_bt_mode(struct question q)
{
    bool v_auto;
    uint8_t vr;
    return read_bool(q.argument[0], &v_auto) && read_u8(q.argument[1], &vr) && write_int(q.out, pw_bt_mode_byte(v_auto, vr));
}

/* The three readouts and the power in W or VA, the energy box and the telephone's value. */
static bool write_shown(struct text *t, struct pw_power_vals pv)
{
    struct pw_readouts r = pw_reading_vals(pv);
    put_char(t, '=');
    put_shown(t, r.main);
    put_shown(t, r.v);
    put_shown(t, r.i);
    put_char(t, ' ');
    put_float(t, r.si);
    put_shown(t, pw_energy_val(pv));
    put_shown(t, pw_bt_main(pv));
    return end_line(t);
}

/* VR IK V_OL I_OL ALT MAIN P S V I E_WH VAH, all other values those of zero. */
static bool f_vals(struct question q)
{
    struct pw_power_vals pv = leaf_zero_vals();
    float x[6];
    if (!read_u8(q.argument[0], &pv.ranges.vr) || !read_u8(q.argument[1], &pv.ranges.ik)
        || !read_bool(q.argument[2], &pv.limits.v_ol) || !read_bool(q.argument[3], &pv.limits.i_ol)
        || !read_bool(q.argument[4], &pv.in_force.alt) || !read_u8(q.argument[5], &pv.in_force.main)
        || !read_floats(q.argument + 6, x, 6))
        return false;
    pv.load.p = x[0];
    pv.load.s = x[1];
    pv.load.v = x[2];
    pv.load.i = x[3];
    pv.energies.e_wh = x[4];
    pv.energies.vah = x[5];
    return write_shown(q.out, pv);
}

static bool f_zero(struct question q)
{
    struct pw_power_vals zero = leaf_zero_vals();
    put_text(q.out, "= ");
    put_values(q.out, &zero);
    return end_line(q.out);
}

static bool f_cal_outcome(struct question q)
{
    float s;
    if (!read_float(q.argument[0], &s))
        return false;
    struct leaf_cal_outcome outcome = leaf_cal_outcome(s);
    bool found = outcome.number == PW_CAL_OK;
    put_text(q.out, found ? "= ok " : "= err ");
    put_i64(q.out, found ? outcome.steps : outcome.number);
    return end_line(q.out);
}

/* The source's COUP_DC and COUP_AC; any other number is AC+DC. */
static bool f_coup_name(struct question q)
{
    uint8_t c;
    return read_u8(q.argument[0], &c) && write_text(q.out, c == 1 ? "DC" : c == 3 ? "AC" : "AC+DC");
}

/* Not before a meter is made. */
static bool f_ring_text(struct question q)
{
    if (!q.script->made)
        return false;
    put_text(q.out, "= ");
    put_ring(q.out, &q.script->meter.ring);
    return end_line(q.out);
}

/* The served functions: name, number of arguments, and the handler, which
 * writes the answer, or writes nothing and returns false. */
static const struct {
    const char *name;
    size_t arguments;
    bool (*handler)(struct question q);
} functions[] = {
    {"ad1", 1, f_ad1},
    {"lpf", 1, f_lpf},
    {"rms", 1, f_rms},
    {"i2f", 1, f_i2f},
    {"u2f", 1, f_u2f},
    {"f2i", 1, f_f2i},
    {"f2i32", 1, f_f2i32},
    {"max", 2, f_max},
    {"max0", 1, f_max0},
    {"sqrt", 1, f_sqrt},
    {"hypot", 2, f_hypot},
    {"iu_ir", 1, f_iu_ir},
    {"cmp_window", 2, f_cmp_window},
    {"coup_of", 1, f_coup_of},
    {"next_coupling", 1, f_next_coupling},
    {"r36", 1, f_r36},
    {"cal", 2, f_cal},
    {"v_gain_factory", 1, f_v_gain_factory},
    {"v_gain", 1, f_v_gain},
    {"totals", 6, f_totals},
    {"ema", 4, f_ema},
    {"ema_rel", 4, f_ema_rel},
    {"acc", 3, f_acc},
    {"acc_wh", 2, f_acc_wh},
    {"energy_format", 2, f_energy_format},
    {"p_format", 3, f_p_format},
    {"no_neg_zero", 2, f_no_neg_zero},
    {"bt_mode", 2, f_bt_mode},
    {"vals", 12, f_vals},
    {"zero", 0, f_zero},
    {"cal_outcome", 1, f_cal_outcome},
    {"coup_name", 1, f_coup_name},
    {"ring_text", 0, f_ring_text},
};

bool function_line(struct script *s, const struct word *argument, size_t count, struct text *out)
{
    for (size_t k = 0; count > 0 && k < sizeof functions / sizeof functions[0]; k++)
        if (word_is(argument[0], functions[k].name))
            return count - 1 == functions[k].arguments
                   && functions[k].handler((struct question){argument + 1, s, out});
    return false;
}
