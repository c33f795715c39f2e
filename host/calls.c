/* The calls of the protocol: a meter made, orders and frames, and the dump of the meter in force. */
#include "dump.h"
#include "script.h"

/* ---- answers ---- */

/* `REFUSAL mark=DEADLINE|- used=N reading=0|1` */
static void put_answer(struct text *t, uint8_t refusal, struct pw_stamp mark, uint8_t used, bool reading)
{
    put_u64(t, refusal);
    put_text(t, " mark=");
    put_stamp(t, mark);
    put_text(t, " used=");
    put_u64(t, used);
    put_text(t, reading ? " reading=1\n" : " reading=0\n");
}

static void put_reading(struct text *t, const struct pw_reading *r)
{
    put_text(t, "R ");
    put_readouts(t, &r->readouts);
    put_char(t, ' ');
    put_values(t, &r->vals);
    put_char(t, '\n');
}

/* ---- meter ---- */

/* MV0 MV1 SH0 SH1 SH2 OVER A_AUTO */
static bool read_description(const struct word *argument, struct pw_description *d)
{
    return read_float(argument[0], &d->mv_div[0]) && read_float(argument[1], &d->mv_div[1])
           && read_float(argument[2], &d->shunt[0]) && read_float(argument[3], &d->shunt[1])
           && read_float(argument[4], &d->shunt[2]) && read_float(argument[5], &d->over)
           && read_bool(argument[6], &d->a_auto);
}

/* The description, then VALID WORDS. A refused one keeps the former meter. */
bool meter_line(struct script *s, const struct word *argument, size_t count, struct text *out)
{
    struct pw_description d;
    struct calibration_words words;
    bool valid;
    if (count != 9 || !read_description(argument, &d) || !read_bool(argument[7], &valid)
        || !read_calibration_words(argument[8], &words))
        return false;
    struct pw_made made = pw_make(d, words.at, words.count, valid);
    if (made.refusal == PW_DONE) {
        s->made = true;
        s->meter = made.meter;
    }
    put_answer(out, made.refusal, (struct pw_stamp){false, 0}, 0, false);
    return true;
}

/* ---- orders and frames ---- */

/* Each handler makes its call where the arguments are understood. */
typedef bool handler(const struct pw_meter *m, const struct word *argument, struct pw_step *step);

/* An order with a time and nothing else. */
static bool at_time(struct pw_step (*order)(struct pw_meter, uint64_t), const struct pw_meter *m,
                    const struct word *argument, struct pw_step *step)
{
    uint64_t time;
    if (!read_u64(argument[0], &time))
        return false;
    *step = order(*m, time);
    return true;
}

static bool on(const struct pw_meter *m, const struct word *argument, struct pw_step *step)
{
    return at_time(pw_on, m, argument, step);
}

static bool off(const struct pw_meter *m, const struct word *argument, struct pw_step *step)
{
    return at_time(pw_off, m, argument, step);
}

static bool zero(const struct pw_meter *m, const struct word *argument, struct pw_step *step)
{
    return at_time(pw_zero_job, m, argument, step);
}

static bool gain(const struct pw_meter *m, const struct word *argument, struct pw_step *step)
{
    return at_time(pw_gain_job, m, argument, step);
}

static bool reapply(const struct pw_meter *m, const struct word *argument, struct pw_step *step)
{
    return at_time(pw_reapply, m, argument, step);
}

static bool method(const struct pw_meter *m, const struct word *argument, struct pw_step *step)
{
    uint64_t time;
    bool alt;
    if (!read_u64(argument[0], &time) || !read_bool(argument[1], &alt))
        return false;
    *step = pw_method(*m, time, alt);
    return true;
}

static bool ranges(const struct pw_meter *m, const struct word *argument, struct pw_step *step)
{
    uint64_t time;
    uint16_t v, i;
    if (!read_u64(argument[0], &time) || !read_range(argument[1], &v) || !read_range(argument[2], &i))
        return false;
    *step = pw_ranges(*m, time, v, i);
    return true;
}

static bool coupling(const struct pw_meter *m, const struct word *argument, struct pw_step *step)
{
    uint64_t time;
    uint8_t coup;
    if (!read_u64(argument[0], &time) || !read_u8(argument[1], &coup))
        return false;
    *step = pw_coupling(*m, time, coup);
    return true;
}

static bool phase(const struct pw_meter *m, const struct word *argument, struct pw_step *step)
{
    (void)argument;
    *step = pw_phase_start(*m);
    return true;
}

static bool ereset(const struct pw_meter *m, const struct word *argument, struct pw_step *step)
{
    (void)argument;
    *step = pw_energy_reset(*m);
    return true;
}

static bool run(const struct pw_meter *m, const struct word *argument, struct pw_step *step)
{
    bool counts;
    if (!read_bool(argument[0], &counts))
        return false;
    *step = pw_run(*m, counts);
    return true;
}

/* COMP R0 R1 R2 I_CONT T_LIM MAIN */
static bool set(const struct pw_meter *m, const struct word *argument, struct pw_step *step)
{
    struct pw_settings settings;
    if (!read_bool(argument[0], &settings.comp) || !read_floats(argument + 1, settings.r_path, 3)
        || !read_float(argument[4], &settings.i_cont) || !read_u16(argument[5], &settings.t_lim)
        || !read_u8(argument[6], &settings.main))
        return false;
    *step = pw_set_settings(*m, settings);
    return true;
}

static bool frame(const struct pw_meter *m, const struct word *argument, struct pw_step *step)
{
    uint64_t time;
    uint8_t flags;
    struct frame_bytes bytes;
    if (!read_u64(argument[0], &time) || !read_flags(argument[1], &flags) || !read_frame(argument[2], &bytes))
        return false;
    *step = pw_frame(*m, time, flags, bytes.at, bytes.count);
    return true;
}

/* Name, number of arguments, and the handler; the most frequent one first. */
static const struct {
    const char *name;
    size_t arguments;
    handler *makes;
} calls[] = {
    {"frame", 3, frame},
    {"on", 1, on},
    {"off", 1, off},
    {"method", 2, method},
    {"ranges", 3, ranges},
    {"coupling", 2, coupling},
    {"zero", 1, zero},
    {"gain", 1, gain},
    {"phase", 0, phase},
    {"ereset", 0, ereset},
    {"run", 1, run},
    {"set", 7, set},
    {"reapply", 1, reapply},
};
enum { CALLS = sizeof calls / sizeof calls[0] };

bool call_line(struct script *s, const struct word *words, size_t count, struct text *out)
{
    static struct pw_step step;
    size_t k = 0;
    while (k < CALLS && !word_is(words[0], calls[k].name))
        k++;
    if (k == CALLS || count - 1 != calls[k].arguments || !s->made || !calls[k].makes(&s->meter, words + 1, &step))
        return false;
    s->meter = step.meter;
    put_answer(out, step.answer.refusal, step.answer.mark, step.answer.used, step.answer.has_reading);
    if (step.answer.has_reading)
        put_reading(out, &step.answer.reading);
    if (s->dumps)
        put_dump(out, &s->meter);
    return true;
}

/* ---- dump and hash ---- */

/* `on` and `off` say whether a dump follows each call, and have no answer; words behind them are not looked
 * at. */
bool dump_line(struct script *s, const struct word *argument, size_t count, struct text *out)
{
    if (count > 0) {
        bool starts = word_is(argument[0], "on"), stops = word_is(argument[0], "off");
        s->dumps = starts || (s->dumps && !stops);
        return starts || stops;
    }
    if (s->made)
        put_dump(out, &s->meter);
    return s->made;
}

/* Words behind it are not looked at. */
bool hash_line(struct script *s, const struct word *argument, size_t count, struct text *out)
{
    (void)argument;
    (void)count;
    if (!s->made)
        return false;
    put_text(out, "H ");
    put_hex(out, dump_hash(&s->meter), 16);
    put_char(out, '\n');
    return true;
}
