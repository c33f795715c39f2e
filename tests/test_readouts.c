/* test_readouts: how values are shown, beside the rule written out in C: pw_reading_vals, pw_energy_val,
 * pw_bt_main, leaf_no_neg_zero, leaf_signum and pw_bt_mode_byte, over values of any bytes and near every
 * bound.
 *
 * The last line counts the checks, and the status is 1 where one failed. */
#include "checks.h"
#include "floats.h"
#include "formats.h"
#include "pw.h"
#include "shown.h"

/* ---- the rule ---- */

/* As shown_as, and whether the range is passed; the number is then 0.0. */
struct expected_val {
    struct shown_as as;
    bool over;
};

/* 1.0 times ten, so many times. */
static float power_of_ten(unsigned decimals)
{
    float s = 1.0f;
    while (decimals-- > 0)
        s = product(s, 10.0f);
    return s;
}

static float without_minus_zero(float x, uint8_t decimals)
{
    return fabsf(product(x, power_of_ten(decimals))) < 0.5f ? 0.0f : x;
}

static struct expected_val val_of(struct shown_as as, bool over)
{
    as.number = over ? 0.0f : without_minus_zero(as.number, as.decimals);
    return (struct expected_val){as, over};
}

static uint8_t v_range(const struct pw_power_vals *pv)
{
    return pv->ranges.vr > 3 ? 3 : pv->ranges.vr;
}

static uint8_t i_range(const struct pw_power_vals *pv)
{
    return pv->ranges.ik > 5 ? 5 : pv->ranges.ik;
}

static float full_scale(const struct pw_power_vals *pv)
{
    static const float v_lim[] = {6.0f, 60.0f, 600.0f, 1000.0f};
    static const float i_lim[] = {600e-6f, 6e-3f, 0.06f, 0.6f, 6.0f, 10.0f};
    return product(v_lim[v_range(pv)], i_lim[i_range(pv)]);
}

static bool is_over(const struct pw_power_vals *pv)
{
    return pv->limits.v_ol || pv->limits.i_ol;
}

/* The power, apparent in the alternating method. */
static float power_of(const struct pw_power_vals *pv)
{
    return pv->in_force.alt ? pv->load.s : pv->load.p;
}

static struct expected_val power_val(const struct pw_power_vals *pv)
{
    return val_of(power_shown(full_scale(pv), power_of(pv), !pv->in_force.alt), is_over(pv));
}

/* It is never over. */
static struct expected_val energy_val(const struct pw_power_vals *pv, bool va)
{
    return val_of(energy_shown(va ? pv->energies.vah : pv->energies.e_wh, va), false);
}

static struct expected_val main_val(const struct pw_power_vals *pv)
{
    uint8_t main = pv->in_force.main;
    return main == 1 || main == 2 ? energy_val(pv, main == 2 || pv->in_force.alt) : power_val(pv);
}

static struct expected_val box_val(const struct pw_power_vals *pv)
{
    return pv->in_force.main == 0 ? energy_val(pv, pv->in_force.alt) : power_val(pv);
}

static struct expected_val volts(const struct pw_power_vals *pv)
{
    return val_of((struct shown_as){pv->load.v, (uint8_t)(4 - v_range(pv)), "V"}, pv->limits.v_ol);
}

static struct expected_val amperes(const struct pw_power_vals *pv)
{
    static const struct {
        float factor;
        uint8_t decimals;
        const char *unit;
    } shown[6] = {{1e6f, 2, "uA"}, {1e6f, 1, "uA"}, {1e3f, 3, "mA"}, {1e3f, 2, "mA"}, {1.0f, 4, "A"}, {1.0f, 3, "A"}};
    uint8_t k = i_range(pv);
    struct shown_as as = {product(pv->load.i, shown[k].factor), shown[k].decimals, shown[k].unit};
    return val_of(as, pv->limits.i_ol);
}

/* A power as volts, mW as mV: kW are shown in W without decimals. As many decimals as leave less than 65535
 * counts, rounded; with none the number is held. */
static struct expected_val telephone(const struct pw_power_vals *pv)
{
    struct shown_as as = power_shown(full_scale(pv), power_of(pv), true);
    bool kilo = strcmp(as.unit, "kW") == 0;
    as.number = kilo ? product(as.number, 1000.0f) : as.number;
    as.decimals = kilo ? 0 : as.decimals;
    as.unit = strcmp(as.unit, "mW") == 0 ? "mV" : "V";
    if (is_over(pv) || !isfinite(as.number))
        return val_of(as, true);
    float k = power_of_ten(as.decimals);
    while (product(fabsf(as.number), k) + 0.5f >= 65535.0f) {
        if (as.decimals == 0) {
            as.number = signbit(as.number) ? -65534.0f : 65534.0f;
            break;
        }
        as.decimals--;
        k = product(k, 0.1f);
    }
    return val_of(as, false);
}

/* ---- cases ---- */

enum met { OVER, ENERGY, ENERGY_OVER, NO_MINUS, FEWER, HELD, HELD_BELOW, NOT_FINITE, CASES };
static uint64_t met[CASES];

static void count(enum met which, bool was)
{
    met[which] += was ? 1 : 0;
}

/* ---- comparing ---- */

static void expect_val(struct pw_val got, struct expected_val e, const char *what)
{
    bool holds = same32(got.number, e.as.number) && got.decimals == e.as.decimals && got.over == e.over
                 && got.unit < PW_UNITS && strcmp(pw_unit_name(got.unit), e.as.unit) == 0;
    if (!expect(holds, what) && failed <= 10)
        printf("  is to be %08" PRIx32 ",%d,%s,%d, is %08" PRIx32 ",%d,%s,%d\n", bits32(e.as.number), e.as.decimals,
               e.as.unit, e.over, bits32(got.number), got.decimals, pw_unit_name(got.unit), got.over);
}

static void check_values(const struct pw_power_vals *pv)
{
    struct pw_readouts r = pw_reading_vals(*pv);
    struct expected_val main = main_val(pv), bt = telephone(pv);
    expect_val(r.main, main, "the main readout");
    expect_val(r.v, volts(pv), "the volts");
    expect_val(r.i, amperes(pv), "the amperes");
    expect(same32(r.si, is_over(pv) ? 0.0f : power_of(pv)), "the power in W or VA");
    expect_val(pw_energy_val(*pv), box_val(pv), "the energy box");
    expect_val(pw_bt_main(*pv), bt, "the telephone's value");
    bool energy = pv->in_force.main == 1 || pv->in_force.main == 2;
    count(OVER, main.over);
    count(ENERGY, energy);
    count(ENERGY_OVER, energy && is_over(pv) && main.as.number != 0.0f);
    count(NO_MINUS, !main.over && !energy && power_of(pv) < 0.0f && main.as.number == 0.0f);
    count(FEWER, !bt.over && bt.as.decimals < power_val(pv).as.decimals && bt.as.decimals > 0);
    count(HELD, bt.as.number == 65534.0f);
    count(HELD_BELOW, bt.as.number == -65534.0f);
    count(NOT_FINITE, !is_over(pv) && bt.over);
}

/* ---- values to try ---- */

/* Any bits in each field; a bool is yes or no. */
static struct pw_power_vals any_values(uint64_t *state)
{
    struct pw_power_vals pv = {.hint = 0};
    for (const struct field *f = value_fields; f < value_fields + VALUE_FIELDS; f++) {
        uint64_t r = next(state);
        set_value(&pv, f, 0, f->kind == BOOL ? r & 1 : r);
    }
    return pv;
}

/* Near a bound of a format, of a size that a meter has, or any bits. */
static float some_value(uint64_t *state)
{
    uint64_t r = next(state) >> 61;
    return r < 3 ? near_bound(state) : r < 6 ? some_figure(next(state), 17) : some_float(state, 8);
}

static struct pw_power_vals likely_values(uint64_t *state)
{
    struct pw_power_vals pv = any_values(state);
    uint64_t r = next(state);
    float *floats[] = {&pv.load.p, &pv.load.s, &pv.load.v, &pv.load.i, &pv.energies.e_wh, &pv.energies.vah};
    for (size_t k = 0; k < 6; k++)
        *floats[k] = some_value(state);
    if ((r & 7) != 0)
        pv.ranges.vr = r >> 3 & 3;
    if ((r & 7) != 1)
        pv.ranges.ik = (uint8_t)((r >> 8 & 0xFF) % 6);
    pv.limits.v_ol = (r >> 16 & 7) == 0;
    pv.limits.i_ol = (r >> 19 & 7) == 0;
    if ((r >> 22 & 7) != 0)
        pv.in_force.main = r >> 25 & 3;
    return pv;
}

/* ---- the numbers alone ---- */

/* Every number of decimals: the first number that is not shown as zero and its neighbours, zeros, and numbers of
 * any bits. From 39 on the power of ten is infinite, and even a zero stays as it is. */
static void check_minus_zero(uint64_t *state)
{
    static const uint32_t odd[] = {0x00000000, 0x00000001, 0x007FFFFF, 0x3F800000, 0x7F7FFFFF, 0x7F800000, 0x7FC00000};
    for (unsigned decimals = 0; decimals < 256; decimals++) {
        uint8_t d = (uint8_t)decimals;
        float half = 0.5f / power_of_ten(decimals);
        for (uint32_t k = 0; k < 14; k++) {
            float x = float_of(odd[k / 2] | k << 31), beside = float_of((bits32(half) + k / 2 - 3) | k << 31);
            expect(same32(leaf_no_neg_zero(x, d), without_minus_zero(x, d)), "an odd number with decimals");
            expect(same32(leaf_no_neg_zero(beside, d), without_minus_zero(beside, d)), "half of a last digit");
        }
        for (int k = 0; k < 200; k++) {
            float x = some_value(state);
            expect(same32(leaf_no_neg_zero(x, d), without_minus_zero(x, d)), "a number with decimals");
        }
        expect(bits32(leaf_no_neg_zero(-0.0f, d)) == (decimals < 39 ? 0 : 0x80000000), "minus zero with decimals");
    }
}

static void check_signum(uint64_t *state)
{
    expect(isnan(leaf_signum(NAN)) && isnan(leaf_signum(-NAN)), "the sign of a NaN");
    for (uint32_t k = 0; k < 100000; k++) {
        uint32_t bits = k < 2 ? k << 31 : k < 4 ? 0x7F800000 | k << 31 : k < 6 ? 1 | k << 31 : (uint32_t)next(state);
        float x = float_of(bits), sign = (bits & 0x80000000) != 0 ? -1.0f : 1.0f;
        expect(same32(leaf_signum(x), isnan(x) ? NAN : sign), "the sign of a number");
    }
}

static void check_mode_byte(void)
{
    for (unsigned vr = 0; vr < 256; vr++) {
        expect(pw_bt_mode_byte(true, (uint8_t)vr) == 40, "the mode byte of an automatic range");
        expect(pw_bt_mode_byte(false, (uint8_t)vr) == (vr < 3 ? 8 * (vr + 1) : 32), "the mode byte of a range");
    }
}

int main(void)
{
    uint64_t state = 66;
    struct pw_power_vals zero = no_values();
    check_values(&zero);
    for (int k = 0; k < 400000; k++) {
        struct pw_power_vals any = any_values(&state), likely = likely_values(&state);
        check_values(&any);
        check_values(&likely);
    }
    check_minus_zero(&state);
    check_signum(&state);
    check_mode_byte();
    expect_met(met, CASES);
    return tell_checks("test_readouts");
}
