/* test_layout: where the fields of pw.h's structs lie.
 *
 * Each struct's size, alignment and offsets are worked out here from the types of its fields by the rules of the
 * System V ABI, and compared with what the C compiler says. Then the library's side: a meter in which every value
 * has a number of its own (leaf_numbered_meter) is read field by field, one that is written field by field is what
 * the library takes for it (leaf_is_numbered), and with any one bit of any value changed it is not. The same of
 * settings that are handed over beside a meter.
 *
 * The last line counts the checks, and the status is 1 where one failed. */
#include "checks.h"
#include "fields.h"

/* ---- structs by their fields' types ---- */

/* The scalars, with their size, which is their alignment too; then the structs, in the order of the table. */
enum type {
    T_BOOL, T_U8, T_I8, T_U16, T_I16, T_U32, T_I32, T_F32, T_U64, T_I64, SCALARS,
    CODES = SCALARS, STAMP, DESCRIPTION, CALIBRATION, MODE, RANGES, CYCLE, PARTS, POWERS, ACC, TALLY, CLOCK, SETTINGS,
    PHASE_CAL, CORRECTIONS, JOB, COMPARATOR, RING, METER, MADE_METER, VAL, READOUTS, FIGURES, ENERGIES, IN_FORCE,
    LIMITS, SPLIT, POWER_VALS, READING, ANSWER, STEP, VALS, PARTIAL, CONVERSION, WINDOW, FORMAT, TYPES
};
static const size_t scalar_sizes[SCALARS] = {1, 1, 1, 2, 2, 4, 4, 4, 8, 8};

/* The type of an expression, TYPES for a struct. */
#define TYPE_OF(x)                                                                                                   \
    _Generic((x), bool: T_BOOL, uint8_t: T_U8, int8_t: T_I8, uint16_t: T_U16, int16_t: T_I16, uint32_t: T_U32,       \
             int32_t: T_I32, float: T_F32, uint64_t: T_U64, int64_t: T_I64, default: TYPES)

/* A field: its struct, its type and how many of it; and what the compiler makes of it. */
struct member {
    const char *name;
    enum type of;
    enum type type;
    size_t count;
    enum type compiled;
    size_t offset;
    size_t size;
};

#define IN(s) ((struct s *)NULL)
#define ONE_OF(id, s, type, field) \
    {#s "." #field, id, type, 1, TYPE_OF(IN(s)->field), offsetof(struct s, field), sizeof IN(s)->field}
#define MANY_OF(id, s, type, field, count) \
    {#s "." #field, id, type, count, TYPE_OF(IN(s)->field[0]), offsetof(struct s, field), sizeof IN(s)->field}

static const struct member members[] = {
    ONE_OF(CODES, pw_codes, T_U8, refusal),
    ONE_OF(CODES, pw_codes, T_I32, ad1),
    ONE_OF(CODES, pw_codes, T_I32, lpf),
    ONE_OF(CODES, pw_codes, T_I64, rms),
    ONE_OF(STAMP, pw_stamp, T_BOOL, set),
    ONE_OF(STAMP, pw_stamp, T_U64, at),
    MANY_OF(DESCRIPTION, pw_description, T_F32, mv_div, 2),
    MANY_OF(DESCRIPTION, pw_description, T_F32, shunt, 3),
    ONE_OF(DESCRIPTION, pw_description, T_F32, over),
    ONE_OF(DESCRIPTION, pw_description, T_BOOL, a_auto),
    MANY_OF(CALIBRATION, pw_calibration, T_U32, words, 73),
    ONE_OF(CALIBRATION, pw_calibration, T_BOOL, valid),
    ONE_OF(MODE, pw_mode, T_BOOL, on),
    ONE_OF(MODE, pw_mode, T_BOOL, alt),
    ONE_OF(MODE, pw_mode, T_U8, coup),
    ONE_OF(MODE, pw_mode, T_BOOL, dc),
    ONE_OF(MODE, pw_mode, T_BOOL, cal_req),
    ONE_OF(RANGES, pw_ranges, T_U8, vr),
    ONE_OF(RANGES, pw_ranges, T_U8, ik),
    ONE_OF(RANGES, pw_ranges, T_BOOL, v_auto),
    ONE_OF(RANGES, pw_ranges, T_BOOL, i_auto),
    ONE_OF(CYCLE, pw_cycle, T_U8, phase),
    ONE_OF(CYCLE, pw_cycle, T_U8, skip),
    ONE_OF(CYCLE, pw_cycle, T_U8, skip_y),
    ONE_OF(CYCLE, pw_cycle, T_U8, taken),
    ONE_OF(CYCLE, pw_cycle, T_U8, stat),
    ONE_OF(CYCLE, pw_cycle, T_U8, seen),
    ONE_OF(PARTS, pw_parts, T_F32, p_ac),
    ONE_OF(PARTS, pw_parts, T_F32, v_ac),
    ONE_OF(PARTS, pw_parts, T_F32, v_dc),
    ONE_OF(PARTS, pw_parts, T_F32, i_ac),
    ONE_OF(PARTS, pw_parts, T_F32, i_dc),
    ONE_OF(PARTS, pw_parts, T_F32, vac_dc),
    ONE_OF(POWERS, pw_powers, T_F32, p_tot),
    ONE_OF(POWERS, pw_powers, T_F32, s_last),
    ONE_OF(ACC, pw_acc, T_I64, mj),
    ONE_OF(ACC, pw_acc, T_F32, frac),
    ONE_OF(TALLY, pw_tally, ACC, e),
    ONE_OF(TALLY, pw_tally, ACC, va),
    ONE_OF(TALLY, pw_tally, T_U64, t_int),
    ONE_OF(CLOCK, pw_clock, T_BOOL, run),
    ONE_OF(CLOCK, pw_clock, STAMP, t_last),
    ONE_OF(CLOCK, pw_clock, T_U64, t_poll),
    ONE_OF(SETTINGS, pw_settings, T_BOOL, comp),
    MANY_OF(SETTINGS, pw_settings, T_F32, r_path, 3),
    ONE_OF(SETTINGS, pw_settings, T_F32, i_cont),
    ONE_OF(SETTINGS, pw_settings, T_U16, t_lim),
    ONE_OF(SETTINGS, pw_settings, T_U8, main),
    ONE_OF(PHASE_CAL, pw_phase_cal, T_I8, sph),
    ONE_OF(PHASE_CAL, pw_phase_cal, T_U8, cal),
    ONE_OF(PHASE_CAL, pw_phase_cal, T_U8, cal_n),
    ONE_OF(PHASE_CAL, pw_phase_cal, T_F32, cal_acc),
    ONE_OF(PHASE_CAL, pw_phase_cal, T_I8, cal_s0),
    ONE_OF(PHASE_CAL, pw_phase_cal, T_F32, cal_pa),
    ONE_OF(PHASE_CAL, pw_phase_cal, T_U8, cal_res),
    MANY_OF(CORRECTIONS, pw_corrections, T_I16, zx, 6),
    MANY_OF(CORRECTIONS, pw_corrections, T_I16, zd, 6),
    ONE_OF(CORRECTIONS, pw_corrections, T_I16, zy),
    ONE_OF(CORRECTIONS, pw_corrections, T_BOOL, zero_ok),
    MANY_OF(CORRECTIONS, pw_corrections, T_F32, vgain, 4),
    ONE_OF(JOB, pw_job, T_U8, job),
    ONE_OF(JOB, pw_job, T_U8, job_step),
    ONE_OF(JOB, pw_job, T_U8, job_n),
    ONE_OF(JOB, pw_job, T_F32, job_a),
    ONE_OF(JOB, pw_job, T_F32, job_b),
    ONE_OF(JOB, pw_job, T_BOOL, job_dc),
    MANY_OF(JOB, pw_job, T_F32, job_raw, 2),
    MANY_OF(JOB, pw_job, T_F32, job_ref, 2),
    MANY_OF(JOB, pw_job, T_I16, job_zx, 6),
    MANY_OF(JOB, pw_job, T_I16, job_zd, 6),
    ONE_OF(JOB, pw_job, RANGES, job_save),
    ONE_OF(JOB, pw_job, T_U8, job_res),
    ONE_OF(JOB, pw_job, T_U8, job_vr),
    ONE_OF(JOB, pw_job, T_U8, job_last),
    ONE_OF(JOB, pw_job, T_U8, used),
    ONE_OF(COMPARATOR, pw_comparator, T_U8, r20),
    ONE_OF(COMPARATOR, pw_comparator, T_U8, r21),
    ONE_OF(COMPARATOR, pw_comparator, T_BOOL, f_ok),
    ONE_OF(COMPARATOR, pw_comparator, T_U8, cmp_vr),
    MANY_OF(RING, pw_ring, T_U8, stat, 16),
    MANY_OF(RING, pw_ring, T_BOOL, disc, 16),
    MANY_OF(RING, pw_ring, T_I64, rms, 16),
    MANY_OF(RING, pw_ring, T_I32, lpf, 16),
    MANY_OF(RING, pw_ring, T_U16, dt, 16),
    ONE_OF(RING, pw_ring, T_U32, ring_k),
    ONE_OF(RING, pw_ring, T_U64, t_res),
    ONE_OF(METER, pw_meter, DESCRIPTION, description),
    ONE_OF(METER, pw_meter, CALIBRATION, calibration),
    ONE_OF(METER, pw_meter, MODE, mode),
    ONE_OF(METER, pw_meter, RANGES, ranges),
    ONE_OF(METER, pw_meter, T_U8, barred),
    ONE_OF(METER, pw_meter, CYCLE, cycle),
    ONE_OF(METER, pw_meter, PARTS, parts),
    ONE_OF(METER, pw_meter, POWERS, powers),
    ONE_OF(METER, pw_meter, TALLY, tally),
    ONE_OF(METER, pw_meter, CLOCK, clock),
    ONE_OF(METER, pw_meter, STAMP, over_t0),
    ONE_OF(METER, pw_meter, SETTINGS, settings),
    ONE_OF(METER, pw_meter, PHASE_CAL, phase_cal),
    ONE_OF(METER, pw_meter, CORRECTIONS, corrections),
    ONE_OF(METER, pw_meter, JOB, job),
    ONE_OF(METER, pw_meter, COMPARATOR, comparator),
    ONE_OF(METER, pw_meter, RING, ring),
    ONE_OF(MADE_METER, pw_made, T_U8, refusal),
    ONE_OF(MADE_METER, pw_made, METER, meter),
    ONE_OF(VAL, pw_val, T_F32, number),
    ONE_OF(VAL, pw_val, T_U8, decimals),
    ONE_OF(VAL, pw_val, T_U8, unit),
    ONE_OF(VAL, pw_val, T_BOOL, over),
    ONE_OF(READOUTS, pw_readouts, VAL, main),
    ONE_OF(READOUTS, pw_readouts, VAL, v),
    ONE_OF(READOUTS, pw_readouts, VAL, i),
    ONE_OF(READOUTS, pw_readouts, T_F32, si),
    ONE_OF(FIGURES, pw_figures, T_F32, p),
    ONE_OF(FIGURES, pw_figures, T_F32, s),
    ONE_OF(FIGURES, pw_figures, T_F32, q),
    ONE_OF(FIGURES, pw_figures, T_F32, pf),
    ONE_OF(FIGURES, pw_figures, T_F32, v),
    ONE_OF(FIGURES, pw_figures, T_F32, i),
    ONE_OF(ENERGIES, pw_energies, T_F32, e_wh),
    ONE_OF(ENERGIES, pw_energies, T_F32, vah),
    ONE_OF(ENERGIES, pw_energies, T_U32, secs),
    ONE_OF(ENERGIES, pw_energies, T_F32, p_avg),
    ONE_OF(IN_FORCE, pw_in_force, T_BOOL, alt),
    ONE_OF(IN_FORCE, pw_in_force, T_BOOL, dc),
    ONE_OF(IN_FORCE, pw_in_force, T_U8, coup),
    ONE_OF(IN_FORCE, pw_in_force, T_BOOL, comp),
    ONE_OF(IN_FORCE, pw_in_force, T_BOOL, run),
    ONE_OF(IN_FORCE, pw_in_force, T_I8, sph),
    ONE_OF(IN_FORCE, pw_in_force, T_U8, main),
    ONE_OF(LIMITS, pw_limits, T_BOOL, v_ol),
    ONE_OF(LIMITS, pw_limits, T_BOOL, i_ol),
    ONE_OF(LIMITS, pw_limits, T_U8, over),
    ONE_OF(LIMITS, pw_limits, T_U16, over_left),
    ONE_OF(SPLIT, pw_split, T_F32, v_dc),
    ONE_OF(SPLIT, pw_split, T_F32, v_ac),
    ONE_OF(SPLIT, pw_split, T_F32, i_dc),
    ONE_OF(SPLIT, pw_split, T_F32, i_ac),
    ONE_OF(SPLIT, pw_split, T_F32, p_dc),
    ONE_OF(SPLIT, pw_split, T_F32, p_ac),
    ONE_OF(POWER_VALS, pw_power_vals, FIGURES, load),
    ONE_OF(POWER_VALS, pw_power_vals, T_F32, vdc),
    ONE_OF(POWER_VALS, pw_power_vals, T_F32, idc),
    ONE_OF(POWER_VALS, pw_power_vals, T_BOOL, f_ok),
    ONE_OF(POWER_VALS, pw_power_vals, T_F32, burden_v),
    ONE_OF(POWER_VALS, pw_power_vals, ENERGIES, energies),
    ONE_OF(POWER_VALS, pw_power_vals, RANGES, ranges),
    ONE_OF(POWER_VALS, pw_power_vals, IN_FORCE, in_force),
    ONE_OF(POWER_VALS, pw_power_vals, LIMITS, limits),
    ONE_OF(POWER_VALS, pw_power_vals, T_U8, hint),
    ONE_OF(POWER_VALS, pw_power_vals, SPLIT, split),
    ONE_OF(READING, pw_reading, READOUTS, readouts),
    ONE_OF(READING, pw_reading, POWER_VALS, vals),
    ONE_OF(ANSWER, pw_answer, T_U8, refusal),
    ONE_OF(ANSWER, pw_answer, STAMP, mark),
    ONE_OF(ANSWER, pw_answer, T_U8, used),
    ONE_OF(ANSWER, pw_answer, T_BOOL, has_reading),
    ONE_OF(ANSWER, pw_answer, READING, reading),
    ONE_OF(STEP, pw_step, METER, meter),
    ONE_OF(STEP, pw_step, ANSWER, answer),
    ONE_OF(VALS, pw_vals, T_BOOL, measured),
    ONE_OF(VALS, pw_vals, POWER_VALS, vals),
    ONE_OF(PARTIAL, pw_partial, T_U8, text),
    ONE_OF(PARTIAL, pw_partial, T_BOOL, with_volts),
    ONE_OF(PARTIAL, pw_partial, VAL, volts),
    ONE_OF(CONVERSION, pw_conversion, T_BOOL, found),
    ONE_OF(CONVERSION, pw_conversion, T_U8, stat),
    ONE_OF(CONVERSION, pw_conversion, T_BOOL, disc),
    ONE_OF(CONVERSION, pw_conversion, T_I64, rms),
    ONE_OF(CONVERSION, pw_conversion, T_I32, lpf),
    ONE_OF(CONVERSION, pw_conversion, T_U16, dt),
    ONE_OF(WINDOW, pw_window, T_BOOL, found),
    ONE_OF(WINDOW, pw_window, T_U8, r21),
    ONE_OF(FORMAT, pw_format, T_F32, number),
    ONE_OF(FORMAT, pw_format, T_U8, decimals),
    ONE_OF(FORMAT, pw_format, T_U8, unit),
};
enum { MEMBERS = sizeof members / sizeof members[0] };

/* Each struct as compiled. */
#define COMPILED(id, s) [(id) - SCALARS] = {#s, sizeof(struct s), _Alignof(struct s)}
static const struct {
    const char *name;
    size_t size;
    size_t alignment;
} compiled[TYPES - SCALARS] = {
    COMPILED(CODES, pw_codes),
    COMPILED(STAMP, pw_stamp),
    COMPILED(DESCRIPTION, pw_description),
    COMPILED(CALIBRATION, pw_calibration),
    COMPILED(MODE, pw_mode),
    COMPILED(RANGES, pw_ranges),
    COMPILED(CYCLE, pw_cycle),
    COMPILED(PARTS, pw_parts),
    COMPILED(POWERS, pw_powers),
    COMPILED(ACC, pw_acc),
    COMPILED(TALLY, pw_tally),
    COMPILED(CLOCK, pw_clock),
    COMPILED(SETTINGS, pw_settings),
    COMPILED(PHASE_CAL, pw_phase_cal),
    COMPILED(CORRECTIONS, pw_corrections),
    COMPILED(JOB, pw_job),
    COMPILED(COMPARATOR, pw_comparator),
    COMPILED(RING, pw_ring),
    COMPILED(METER, pw_meter),
    COMPILED(MADE_METER, pw_made),
    COMPILED(VAL, pw_val),
    COMPILED(READOUTS, pw_readouts),
    COMPILED(FIGURES, pw_figures),
    COMPILED(ENERGIES, pw_energies),
    COMPILED(IN_FORCE, pw_in_force),
    COMPILED(LIMITS, pw_limits),
    COMPILED(SPLIT, pw_split),
    COMPILED(POWER_VALS, pw_power_vals),
    COMPILED(READING, pw_reading),
    COMPILED(ANSWER, pw_answer),
    COMPILED(STEP, pw_step),
    COMPILED(VALS, pw_vals),
    COMPILED(PARTIAL, pw_partial),
    COMPILED(CONVERSION, pw_conversion),
    COMPILED(WINDOW, pw_window),
    COMPILED(FORMAT, pw_format),
};

/* ---- the rules ---- */

static size_t sizes[TYPES], alignments[TYPES];

static size_t rounded_up(size_t n, size_t alignment)
{
    return (n + alignment - 1) / alignment * alignment;
}

/* Each field at the next multiple of its alignment; the whole is as strictly aligned as the strictest field, and its
 * size a multiple of that. */
static void work_out(enum type s)
{
    size_t end = 0, strictest = 1;
    for (const struct member *m = members; m < members + MEMBERS; m++) {
        if (m->of != s)
            continue;
        size_t offset = rounded_up(end, alignments[m->type]);
        end = offset + sizes[m->type] * m->count;
        strictest = alignments[m->type] > strictest ? alignments[m->type] : strictest;
        expect(m->type >= SCALARS ? m->compiled == TYPES : m->compiled == m->type, m->name);
        if (!expect(m->offset == offset && m->size == sizes[m->type] * m->count, "a field's place"))
            printf("  %s: at %zu of %zu bytes, is to be at %zu\n", m->name, m->offset, m->size, offset);
    }
    sizes[s] = rounded_up(end, strictest);
    alignments[s] = strictest;
    expect(end > 0, "a struct of the table");
    if (!expect(compiled[s - SCALARS].size == sizes[s] && compiled[s - SCALARS].alignment == strictest, "a size"))
        printf("  %s\n", compiled[s - SCALARS].name);
}

static void check_layout(void)
{
    for (enum type t = 0; t < SCALARS; t++)
        sizes[t] = alignments[t] = scalar_sizes[t];
    for (enum type s = SCALARS; s < TYPES; s++) {
        work_out(s);
        printf("struct %s: %zu bytes\n", compiled[s - SCALARS].name, sizes[s]);
    }
    expect(sizes[METER] == 896 && sizes[STEP] == 1056, "the sizes that pw.h tells");
}

/* ---- a meter's values by their numbers ---- */

enum { VALUES = 264 };

/* The bits of value number n, where it is the bool of number `bools`. */
static uint64_t numbered(const struct field *f, size_t n, size_t bools)
{
    if (f->kind == BOOL || f->kind == STAMPED)
        return bools % 2;
    return f->kind == F32 ? bits32((float)n) : f->kind == I8 || f->kind == U8 ? n % 256 : n;
}

static bool is_bool(const struct field *f)
{
    return f->kind == BOOL || f->kind == STAMPED;
}

/* Reads each value of the library's meter, and writes each into one whose other bytes are `between`. */
static struct pw_meter check_read(uint8_t between)
{
    struct pw_meter read = leaf_numbered_meter(), written;
    memset(&written, between, sizeof written);
    size_t n = 0, bools = 0;
    for (const struct field *f = fields; f < fields + FIELDS; f++)
        for (size_t k = 0; k < f->count; k++) {
            n++;
            bools += is_bool(f) ? 1 : 0;
            uint64_t value = numbered(f, n, bools);
            if (!expect(value_of(&read, f, k) == value, "a value where C reads it"))
                printf("  %s %zu\n", f->key, k);
            set_value(&written, f, k, value);
        }
    expect(n == VALUES, "as many values as there are");
    return written;
}

static void check_written(struct pw_meter written)
{
    expect(leaf_is_numbered(written), "values where C writes them");
    for (const struct field *f = fields; f < fields + FIELDS; f++)
        for (size_t k = 0; k < f->count; k++)
            for (unsigned bit = 0; bit < (is_bool(f) ? 1 : 8 * size_of(f->kind)); bit++) {
                struct pw_meter other = written;
                set_value(&other, f, k, value_of(&written, f, k) ^ UINT64_C(1) << bit);
                if (!expect(!leaf_is_numbered(other), "a bit that the library does not read"))
                    printf("  %s %zu, bit %u\n", f->key, k, bit);
            }
}

/* ---- settings beside a meter ---- */

/* The settings of the meter as an argument of their own, with other bytes between their values. */
static struct pw_settings handed_over(const struct pw_meter *pw, uint8_t between)
{
    struct pw_settings s;
    memset(&s, between, sizeof s);
    s.comp = pw->settings.comp;
    memcpy(s.r_path, pw->settings.r_path, sizeof s.r_path);
    s.i_cont = pw->settings.i_cont;
    s.t_lim = pw->settings.t_lim;
    s.main = pw->settings.main;
    return s;
}

/* To a meter that has every value but its settings, whose bytes are `between`. Each one must come from the argument, and
 * any one bit of one that is changed there is told apart. */
static void check_settings(struct pw_meter written, uint8_t between)
{
    struct pw_meter other = written;
    memset(&other.settings, between, sizeof other.settings);
    other.settings.comp = !written.settings.comp;
    expect(!leaf_is_numbered(other), "a meter with other settings");
    expect(leaf_is_numbered(pw_set_settings(other, handed_over(&written, between)).meter), "settings where C hands them over");
    size_t first = offsetof(struct pw_meter, settings), bits = 0;
    for (const struct field *f = fields; f < fields + FIELDS; f++)
        for (size_t k = 0; f->at >= first && f->at < first + sizeof other.settings && k < f->count; k++)
            for (unsigned bit = 0; bit < (is_bool(f) ? 1 : 8 * size_of(f->kind)); bit++, bits++) {
                struct pw_meter changed = written;
                set_value(&changed, f, k, value_of(&written, f, k) ^ UINT64_C(1) << bit);
                struct pw_step step = pw_set_settings(written, handed_over(&changed, between));
                if (!expect(!leaf_is_numbered(step.meter) && value_of(&step.meter, f, k) == value_of(&changed, f, k),
                            "a bit of settings that is not handed over"))
                    printf("  %s %zu, bit %u\n", f->key, k, bit);
            }
    expect(bits == 1 + 4 * 32 + 16 + 8, "as many bits as settings have");
}

int main(void)
{
    check_layout();
    check_written(check_read(0x00));
    check_written(check_read(0xFF));
    check_written(check_read(0x5A));
    check_settings(check_read(0x00), 0xFF);
    check_settings(check_read(0x5A), 0x00);
    return tell_checks("test_layout");
}
