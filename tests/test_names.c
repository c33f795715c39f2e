/* test_names: the names of pw.h's numbers, beside fixed rows.
 *
 * The last line counts the checks, and the status is 1 where one failed. With the word `refusals` it writes each
 * refusal's number and word instead, which tests/names.sh compares with document 01's table. */
#include "checks.h"
#include "pw.h"

#include <string.h>

/* The names from number 0 on; NULL for a number that has none. */
static void check_names(const char *(*name)(uint8_t), const char *const *names, unsigned count, const char *what)
{
    for (unsigned k = 0; k < 256; k++) {
        const char *expected = k < count && names[k] != NULL ? names[k] : "?";
        if (!expect(strcmp(name((uint8_t)k), expected) == 0, what))
            printf("  %u: %s, is to be %s\n", k, name((uint8_t)k), expected);
    }
}

#define CHECK(name, ...)                                                                       \
    check_names(name, (const char *const[]){__VA_ARGS__},                                      \
                sizeof((const char *const[]){__VA_ARGS__}) / sizeof(const char *), #name)

/* The numbers that the names are asked for by. */
static void check_numbers(void)
{
    static const uint8_t refusals[] = {PW_DONE, PW_OFF, PW_BUSY, PW_METHOD, PW_FRAME, PW_LATE, PW_FULL, PW_DESCRIPTION,
                                       PW_WORDS};
    static const uint8_t jobs[] = {PW_JR_NONE, PW_JR_RUN, PW_JR_OK, PW_JR_SIGNAL, PW_JR_SMALL, PW_JR_BIG,
                                   PW_JR_UNSTABLE, PW_JR_RANGE, PW_JR_ABORT, PW_JR_METHOD};
    static const uint8_t cals[] = {PW_CAL_NONE, PW_CAL_RUN, PW_CAL_OK, PW_CAL_FLAT, PW_CAL_NOT_REACTIVE, PW_CAL_RANGE};
    static const uint8_t ranges[] = {PW_I_600UA, PW_I_6MA, PW_I_60MA, PW_I_600MA, PW_I_6A, PW_I_10A};
    static const uint8_t volts[] = {PW_V_6V, PW_V_60V, PW_V_600V, PW_V_1000V};
    static const uint8_t partials[] = {PW_PARTIAL_NONE, PW_PARTIAL_ZERO, PW_PARTIAL_GAIN, PW_PARTIAL_RANGING};
#define IN_ORDER(numbers)                              \
    for (uint8_t k = 0; k < sizeof(numbers); k++)      \
        expect((numbers)[k] == k, "the numbers of " #numbers)
    IN_ORDER(refusals);
    IN_ORDER(jobs);
    IN_ORDER(cals);
    IN_ORDER(ranges);
    IN_ORDER(volts);
    IN_ORDER(partials);
    expect(PW_COUP_ACDC == 0 && PW_COUP_DC == 1 && PW_COUP_AC == 3, "the numbers of couplings");
}

int main(int count, char **words)
{
    if (count == 2 && strcmp(words[1], "refusals") == 0) {
        for (uint8_t k = 0; strcmp(pw_refusal_name(k), "?") != 0; k++)
            printf("%d %s\n", k, pw_refusal_name(k));
        return 0;
    }
    check_numbers();
    CHECK(pw_refusal_name, "done", "off", "busy", "method", "frame", "late", "full", "description", "words");
    CHECK(pw_unit_name, "V", "A", "mA", "uA", "W", "mW", "kW", "VA", "mVA", "kVA", "Wh", "mWh", "kWh", "VAh", "kVAh",
          "mV");
    CHECK(pw_job_result_name, "none", "running", "ok", "signal", "small", "big", "unstable", "range", "aborted",
          "method");
    CHECK(pw_cal_result_name, "none", "running", "ok", "flat", "not reactive", "range");
    CHECK(pw_coupling_name, "AC+DC", "DC", NULL, "AC");
    CHECK(pw_v_range_name, "6 V", "60 V", "600 V", "1000 V");
    CHECK(pw_i_range_name, "600 uA", "6 mA", "60 mA", "600 mA", "6 A", "10 A");
    CHECK(pw_partial_name, "", "Zeroing: leads open", "V calibration...", "I ranging...");
    return tell_checks("test_names");
}
