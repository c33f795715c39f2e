/* shown.h: what is read off a meter, under the names that it has in a dump of the published Rust.
 *
 * The values of pw_vals and pw_state (D8 and D9), and what is shown of them and of the meter (D10 and
 * D11), each with a table of its fields (fields.h). */
#ifndef SHOWN_H
#define SHOWN_H

#include "fields.h"

#define VALUE(kind, key, member, first) \
    {key, offsetof(struct pw_power_vals, member), kind, SHOWN, 1, first, 1}

static const struct field value_fields[] = {
    VALUE(F32, "p", load.p, 0),
    VALUE(F32, "s", load.s, 0),
    VALUE(F32, "q", load.q, 0),
    VALUE(F32, "pf", load.pf, 0),
    VALUE(F32, "v", load.v, 0),
    VALUE(F32, "i", load.i, 0),
    VALUE(F32, "vdc", vdc, 0),
    VALUE(F32, "idc", idc, 0),
    VALUE(BOOL, "f_ok", f_ok, 0),
    VALUE(F32, "burden_v", burden_v, 0),
    VALUE(F32, "e_wh", energies.e_wh, 0),
    VALUE(F32, "vah", energies.vah, 0),
    VALUE(U32, "secs", energies.secs, 0),
    VALUE(F32, "p_avg", energies.p_avg, 0),
    VALUE(U8, "vr", ranges.vr, 0),
    VALUE(U8, "ik", ranges.ik, 0),
    VALUE(BOOL, "v_auto", ranges.v_auto, 0),
    VALUE(BOOL, "i_auto", ranges.i_auto, 0),
    VALUE(BOOL, "alt", in_force.alt, 0),
    VALUE(BOOL, "dc", in_force.dc, 0),
    VALUE(U8, "coup", in_force.coup, 0),
    VALUE(BOOL, "comp", in_force.comp, 0),
    VALUE(BOOL, "run", in_force.run, 0),
    VALUE(BOOL, "v_ol", limits.v_ol, 0),
    VALUE(BOOL, "i_ol", limits.i_ol, 0),
    VALUE(U8, "over", limits.over, 0),
    VALUE(U16, "over_left", limits.over_left, 0),
    VALUE(I8, "sph", in_force.sph, 0),
    VALUE(U8, "main", in_force.main, 0),
    VALUE(U8, "hint", hint, 0),
    VALUE(F32, "vp", split.v_dc, 0),
    VALUE(F32, "vp", split.v_ac, 1),
    VALUE(F32, "ip", split.i_dc, 0),
    VALUE(F32, "ip", split.i_ac, 1),
    VALUE(F32, "pp", split.p_dc, 0),
    VALUE(F32, "pp", split.p_ac, 1),
};
enum { VALUE_FIELDS = sizeof value_fields / sizeof value_fields[0] };

/* The readouts, the energy box and the telephone's main value; what is shown in place of a reading;
 * whether energy is being counted; the telephone's mode byte. */
struct shown {
    struct pw_readouts readouts;
    struct pw_val energy;
    struct pw_val bt;
    struct pw_partial partial;
    bool integrating;
    uint8_t bt_mode;
};

#define SHOW(role, kind, key, member, first) \
    {key, offsetof(struct shown, member), kind, role, 1, first, 1}
#define SHOW_VAL(role, key, member)                                                          \
    SHOW(role, F32, key, member.number, 0), SHOW(role, U8, key, member.decimals, 1),         \
        SHOW(role, UNIT, key, member.unit, 2), SHOW(role, BOOL, key, member.over, 3)

/* `partial` is spelled with its text, which no table says, so that it is not read by this one. */
static const struct field shown_fields[] = {
    SHOW_VAL(SHOWN, "main", readouts.main),
    SHOW_VAL(SHOWN, "v", readouts.v),
    SHOW_VAL(SHOWN, "i", readouts.i),
    SHOW(SHOWN, F32, "si", readouts.si, 0),
    SHOW_VAL(SHOWN, "energy", energy),
    SHOW_VAL(SHOWN, "bt", bt),
    SHOW(MADE, U8, "text of partial", partial.text, 0),
    SHOW(MADE, BOOL, "volts of partial", partial.with_volts, 0),
    SHOW_VAL(MADE, "partial", partial.volts),
    SHOW(SHOWN, BOOL, "integrating", integrating, 0),
    SHOW(SHOWN, U8, "bt_mode", bt_mode, 0),
};
enum { SHOWN_FIELDS = sizeof shown_fields / sizeof shown_fields[0] };

/* The texts of pw_partial by number; 0 is none. */
enum { PARTIAL_TEXTS = 4 };
static const char *const partial_texts[PARTIAL_TEXTS] = {
    "", "Zeroing: leads open", "V calibration...", "I ranging...",
};

/* The source's PowerVals::ZERO, with f_ok no. */
static inline struct pw_power_vals no_values(void)
{
    struct pw_power_vals zero = {.hint = 0};
    zero.energies.p_avg = NAN;
    zero.ranges = (struct pw_ranges){.vr = 3, .ik = 5, .v_auto = true, .i_auto = true};
    zero.in_force.coup = 1;
    zero.in_force.run = true;
    return zero;
}

#endif
