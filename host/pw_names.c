/* pw_names.c: the names of pw.h's numbers, for a screen or a log. */
#include "pw.h"

/* The name of a number; "?" past the end, and where there is none. */
#define NAMED(names, number) \
    ((number) < sizeof(names) / sizeof(names)[0] && (names)[number] != NULL ? (names)[number] : "?")

const char *pw_refusal_name(uint8_t refusal)
{
    static const char *const names[] = {
        [PW_DONE] = "done",
        [PW_OFF] = "off",
        [PW_BUSY] = "busy",
        [PW_METHOD] = "method",
        [PW_FRAME] = "frame",
        [PW_LATE] = "late",
        [PW_FULL] = "full",
        [PW_DESCRIPTION] = "description",
        [PW_WORDS] = "words",
    };
    return NAMED(names, refusal);
}

const char *pw_unit_name(uint8_t unit)
{
    static const char *const names[PW_UNITS] = {
        [PW_UNIT_V] = "V",     [PW_UNIT_A] = "A",     [PW_UNIT_MA] = "mA",     [PW_UNIT_UA] = "uA",
        [PW_UNIT_W] = "W",     [PW_UNIT_MW] = "mW",   [PW_UNIT_KW] = "kW",     [PW_UNIT_VA] = "VA",
        [PW_UNIT_MVA] = "mVA", [PW_UNIT_KVA] = "kVA", [PW_UNIT_WH] = "Wh",     [PW_UNIT_MWH] = "mWh",
        [PW_UNIT_KWH] = "kWh", [PW_UNIT_VAH] = "VAh", [PW_UNIT_KVAH] = "kVAh", [PW_UNIT_MV] = "mV",
    };
    return NAMED(names, unit);
}

const char *pw_job_result_name(uint8_t job_res)
{
    static const char *const names[] = {
        [PW_JR_NONE] = "none",
        [PW_JR_RUN] = "running",
        [PW_JR_OK] = "ok",
        [PW_JR_SIGNAL] = "signal",
        [PW_JR_SMALL] = "small",
        [PW_JR_BIG] = "big",
        [PW_JR_UNSTABLE] = "unstable",
        [PW_JR_RANGE] = "range",
        [PW_JR_ABORT] = "aborted",
        [PW_JR_METHOD] = "method",
    };
    return NAMED(names, job_res);
}

const char *pw_cal_result_name(uint8_t cal_res)
{
    static const char *const names[] = {
        [PW_CAL_NONE] = "none",
        [PW_CAL_RUN] = "running",
        [PW_CAL_OK] = "ok",
        [PW_CAL_FLAT] = "flat",
        [PW_CAL_NOT_REACTIVE] = "not reactive",
        [PW_CAL_RANGE] = "range",
    };
    return NAMED(names, cal_res);
}

const char *pw_coupling_name(uint8_t coup)
{
    static const char *const names[] = {
        [PW_COUP_ACDC] = "AC+DC",
        [PW_COUP_DC] = "DC",
        [PW_COUP_AC] = "AC",
    };
    return NAMED(names, coup);
}

const char *pw_v_range_name(uint8_t vr)
{
    static const char *const names[] = {
        [PW_V_6V] = "6 V",
        [PW_V_60V] = "60 V",
        [PW_V_600V] = "600 V",
        [PW_V_1000V] = "1000 V",
    };
    return NAMED(names, vr);
}

const char *pw_i_range_name(uint8_t ik)
{
    static const char *const names[] = {
        [PW_I_600UA] = "600 uA",
        [PW_I_6MA] = "6 mA",
        [PW_I_60MA] = "60 mA",
        [PW_I_600MA] = "600 mA",
        [PW_I_6A] = "6 A",
        [PW_I_10A] = "10 A",
    };
    return NAMED(names, ik);
}

const char *pw_partial_name(uint8_t text)
{
    static const char *const names[] = {
        [PW_PARTIAL_NONE] = "",
        [PW_PARTIAL_ZERO] = "Zeroing: leads open",
        [PW_PARTIAL_GAIN] = "V calibration...",
        [PW_PARTIAL_RANGING] = "I ranging...",
    };
    return NAMED(names, text);
}
