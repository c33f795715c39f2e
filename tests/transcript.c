#define _POSIX_C_SOURCE 200809L
#include "transcript.h"

#include "fields.h"

#include <stdlib.h>
#include <string.h>

/* The line that was read last, and how many were read. */
static struct {
    char *text;
    size_t room;
    size_t length;
    size_t number;
    bool again; /* it is to be read once more */
} line;

_Noreturn void stop_at(size_t number, const char *why)
{
    printf("line %zu: %s\n", number, why);
    exit(1);
}

static bool next_line(FILE *in)
{
    if (line.again) {
        line.again = false;
        return true;
    }
    ssize_t length = getline(&line.text, &line.room, in);
    if (length < 0) {
        if (ferror(in) != 0)
            stop_at(line.number + 1, "cannot be read");
        return false;
    }
    line.length = (size_t)length;
    if (length > 0 && line.text[length - 1] == '\n')
        line.text[--line.length] = '\0';
    line.number++;
    return true;
}

/* ---- dumps ---- */

/* Whether a whole number fits in so many bytes. */
static bool fits(int64_t n, size_t bytes)
{
    int64_t end = INT64_C(1) << (8 * bytes - 1) % 63;
    return bytes == 8 || (n >= -end && n < end);
}

static bool read_whole(struct word w, enum kind kind, uint64_t *value)
{
    size_t bytes = size_of(kind);
    if (kind == U8 || kind == U16 || kind == U32 || kind == U64)
        return read_u64(w, value) && (bytes == 8 || *value >> 8 * bytes == 0);
    int64_t n;
    if (!read_i64(w, &n) || !fits(n, bytes))
        return false;
    *value = (uint64_t)n;
    return true;
}

static bool read_unit(struct word w, uint64_t *unit)
{
    for (*unit = 0; *unit < PW_UNITS; ++*unit)
        if (word_is(w, pw_unit_name((uint8_t)*unit)))
            return true;
    return false;
}

/* One value of a field, as a dump spells it. A minus sign alone is none, which is stored as 0. */
static bool read_value(struct word w, enum kind kind, uint64_t *value)
{
    bool none = word_is(w, "-"), yes;
    float x;
    *value = 0;
    if (kind == STAMPED)
        *value = none ? 0 : 1;
    else if (kind == BOOL && read_bool(w, &yes))
        *value = yes ? 1 : 0;
    else if (kind == F32 && read_float(w, &x))
        *value = bits32(x);
    else if (kind == UNIT)
        return read_unit(w, value);
    else
        return kind != BOOL && kind != F32 && (none || read_whole(w, kind, value));
    return true;
}

/* Up to the next of the two separators, which is taken off the rest as well. */
static struct word cut(struct word *rest, const char *separators)
{
    size_t length = 0;
    while (length < rest->length && strchr(separators, rest->at[length]) == NULL)
        length++;
    struct word head = {rest->at, length};
    size_t gone = length < rest->length ? length + 1 : length;
    *rest = (struct word){rest->at + gone, rest->length - gone};
    return head;
}

/* A table of fields, and which of them some dump has given. */
struct table {
    const struct field *fields;
    size_t length;
    bool *given;
};
static bool given_pw[FIELDS], given_vals[VALUE_FIELDS], given_state[VALUE_FIELDS], given_shown[SHOWN_FIELDS];
static const struct table of_pw = {fields, FIELDS, given_pw}, of_vals = {value_fields, VALUE_FIELDS, given_vals},
                          of_state = {value_fields, VALUE_FIELDS, given_state},
                          of_shown = {shown_fields, SHOWN_FIELDS, given_shown};

/* Value number `number` of a key, counted from index `from`, in each field that it belongs to. */
static bool store(struct table t, void *record, struct word key, size_t from, size_t number, struct word text)
{
    bool stored = false;
    for (size_t j = 0; j < t.length; j++) {
        const struct field *f = &t.fields[j];
        if (f->role == MADE || !word_is(key, f->key))
            continue;
        bool one = f->count == 1;
        if (one ? number != f->first : number % f->step != f->first)
            continue;
        size_t k = one ? 0 : from + number / f->step;
        uint64_t value;
        if (k >= f->count || !read_value(text, f->kind, &value))
            return false;
        set_value(record, f, k, value);
        stored = t.given[j] = true;
    }
    return stored;
}

/* A word KEY=VALUE or KEY.N=VALUE. */
static bool store_word(struct table t, void *record, struct word w)
{
    struct word name = cut(&w, "=");
    struct word key = cut(&name, ".");
    uint64_t from = 0;
    if (name.length > 0 && !read_u64(name, &from))
        return false;
    for (size_t number = 0; w.length > 0; number++)
        if (from >= PW_RING || !store(t, record, key, from, number, cut(&w, ",:")))
            return false;
    return true;
}

static bool store_words(struct table t, void *record, struct word rest)
{
    while (rest.length > 0)
        if (!store_word(t, record, cut(&rest, " ")))
            return false;
    return true;
}

static void check_given(struct table t, size_t number)
{
    for (size_t j = 0; j < t.length; j++)
        if (t.fields[j].role != MADE && !t.given[j])
            stop_at(number, "a field was never dumped");
}

/* `vals none`, or `vals` and words, which are the state's as well. */
static bool store_vals(struct call *c, struct word rest)
{
    if (!word_is(cut(&rest, " "), "vals"))
        return false;
    c->vals.measured = !word_is(rest, "none");
    if (!c->vals.measured)
        return true;
    if (!store_words(of_vals, &c->vals.vals, rest))
        return false;
    check_given(of_vals, line.number);
    c->state = c->vals.vals;
    return true;
}

static bool read_val(struct word w, struct pw_val *v)
{
    uint64_t number, decimals, unit, over;
    if (!read_value(cut(&w, ","), F32, &number) || !read_value(cut(&w, ","), U8, &decimals)
        || !read_value(cut(&w, ","), UNIT, &unit) || !read_value(w, BOOL, &over))
        return false;
    *v = (struct pw_val){float_of((uint32_t)number), (uint8_t)decimals, (uint8_t)unit, over != 0};
    return true;
}

/* The number of a text of pw_partial; 0 where it is none of them. */
static uint8_t partial_text(struct word text)
{
    for (uint8_t k = 1; k < PARTIAL_TEXTS; k++)
        if (word_is(text, partial_texts[k]))
            return k;
    return 0;
}

/* `partial=none`; or `partial=` and a value or a minus sign, a space and the text between quotation
 * marks. Words follow. */
static bool store_partial(struct call *c, struct word rest)
{
    struct pw_partial *p = &c->shown.partial;
    memset(p, 0, sizeof *p);
    if (!word_is(cut(&rest, "="), "partial"))
        return false;
    struct word volts = cut(&rest, " ");
    if (word_is(volts, "none"))
        return store_words(of_shown, &c->shown, rest);
    p->with_volts = !word_is(volts, "-");
    if ((p->with_volts && !read_val(volts, &p->volts)) || cut(&rest, "\"").length != 0)
        return false;
    p->text = partial_text(cut(&rest, "\""));
    return p->text != 0 && cut(&rest, " ").length == 0 && store_words(of_shown, &c->shown, rest);
}

static bool store_line(struct call *c)
{
    struct word rest = {line.text, line.length};
    struct word head = cut(&rest, " ");
    if (word_is(head, "D8"))
        return store_vals(c, rest);
    if (word_is(head, "D9"))
        return word_is(cut(&rest, " "), "state") && store_words(of_state, &c->state, rest);
    if (word_is(head, "D10"))
        return store_words(of_shown, &c->shown, rest);
    return word_is(head, "D11") ? store_partial(c, rest) : store_words(of_pw, &c->after, rest);
}

/* ---- calls ---- */

static bool read_answer(struct call *c)
{
    struct word w[4];
    if (split((struct word){line.text, line.length}, w, 4) != 4)
        return false;
    for (size_t k = 1; k < 4; k++)
        cut(&w[k], "=");
    c->mark.set = !word_is(w[1], "-");
    c->mark.at = 0;
    return read_u8(w[0], &c->refusal) && (!c->mark.set || read_u64(w[1], &c->mark.at))
           && read_u8(w[2], &c->used) && read_bool(w[3], &c->reading);
}

/* The description and the words of a meter that was made. */
static bool read_meter(struct call *c)
{
    struct pw_description *d = &c->after.description;
    struct calibration_words words;
    if (c->count != 10 || !read_floats(c->words + 1, d->mv_div, 2)
        || !read_floats(c->words + 3, d->shunt, 3) || !read_float(c->words[6], &d->over)
        || !read_bool(c->words[7], &d->a_auto)
        || !read_bool(c->words[8], &c->after.calibration.valid)
        || !read_calibration_words(c->words[9], &words) || words.count != PW_CALIBRATION)
        return false;
    memcpy(c->after.calibration.words, words.at, sizeof c->after.calibration.words);
    return true;
}

/* Whether the line is to be passed over: a comment, and a reading. */
static bool is_beside(void)
{
    return line.length == 0 || line.text[0] == '#' || line.text[0] == 'R';
}

/* The lines up to the next call. */
static void read_rest(FILE *in, struct call *c)
{
    bool answered = false;
    if (c->vals.measured)
        c->state = c->vals.vals;
    while (next_line(in)) {
        if (line.text[0] == '>') {
            line.again = true;
            break;
        }
        if (is_beside())
            continue;
        bool dump = line.text[0] == 'D';
        if (dump ? !store_line(c) : answered || !read_answer(c))
            stop_at(line.number, dump ? "no dump of a meter" : "no answer");
        answered = answered || !dump;
    }
    if (!answered)
        stop_at(c->line, "is not answered");
}

bool next_call(FILE *in, struct call *c)
{
    do {
        if (!next_line(in))
            return false;
    } while (is_beside());
    if (line.text[0] != '>')
        stop_at(line.number, "no call");
    free(c->text);
    c->text = strdup(line.text + 1);
    if (c->text == NULL)
        stop_at(line.number, "no memory");
    c->line = line.number;
    c->count = split((struct word){c->text, strlen(c->text)}, c->words, CALL_WORDS);
    c->before = c->after;
    read_rest(in, c);
    if (c->count == 0 || c->count > CALL_WORDS)
        stop_at(c->line, "no call");
    if (word_is(c->words[0], "meter") && c->refusal == 0) {
        if (!read_meter(c))
            stop_at(c->line, "no meter");
        check_given(of_pw, c->line);
        check_given(of_state, c->line);
        check_given(of_shown, c->line);
    }
    return true;
}

uint64_t time_of(const struct call *c)
{
    uint64_t now;
    if (c->count < 2 || !read_u64(c->words[1], &now))
        stop_at(c->line, "no time");
    return now;
}

/* Little-endian two's complement of so many bits, higher ones ignored. */
static int64_t code_of(const uint8_t *bytes, size_t length, unsigned bits)
{
    uint64_t sum = 0;
    for (size_t k = length; k > 0; k--)
        sum = sum << 8 | bytes[k - 1];
    int64_t end = INT64_C(1) << bits, low = (int64_t)(sum % (uint64_t)end);
    return low < end / 2 ? low : low - end;
}

struct frame frame_of(const struct call *c)
{
    struct frame f = {.now = time_of(c)};
    uint8_t bytes[14];
    if (c->count != 4 || !read_bytes(c->words[2], &f.flags, 1) || !read_bytes(c->words[3], bytes, 14))
        stop_at(c->line, "no accepted frame");
    f.ad1 = (int32_t)code_of(bytes, 3, 24);
    f.lpf = (int32_t)code_of(bytes + 6, 3, 19);
    f.rms = code_of(bytes + 9, 5, 38);
    return f;
}
