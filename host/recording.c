#include "recording.h"

#include "hex.h"

#include <errno.h>
#include <inttypes.h>
#include <stdarg.h>
#include <stdio.h>
#include <stdlib.h>
#include <string.h>

uint64_t fnv_more(uint64_t fnv, const char *bytes, size_t size)
{
    for (size_t k = 0; k < size; k++)
        fnv = (fnv ^ (uint8_t)bytes[k]) * UINT64_C(0x100000001b3);
    return fnv;
}

bool recording_fault(const char *name, size_t line, const char *format, ...)
{
    va_list arguments;
    fprintf(stderr, "bench: %s:%zu: ", name, line);
    va_start(arguments, format);
    vfprintf(stderr, format, arguments);
    va_end(arguments);
    fputc('\n', stderr);
    return false;
}

/* ---- items of a line: what was read is taken off its front; false means not understood ---- */

struct line {
    const char *at;
    const char *end;
};

static bool take(struct line *l, const char *text)
{
    size_t length = strlen(text);
    if ((size_t)(l->end - l->at) < length || memcmp(l->at, text, length) != 0)
        return false;
    l->at += length;
    return true;
}

/* A decimal number of at most `most`, of digits alone. */
static bool take_number(struct line *l, uint64_t most, uint64_t *n)
{
    const char *start = l->at;
    for (*n = 0; l->at < l->end && *l->at >= '0' && *l->at <= '9'; l->at++) {
        uint64_t digit = (uint64_t)(*l->at - '0');
        if (digit > most || *n > (most - digit) / 10)
            return false;
        *n = *n * 10 + digit;
    }
    return l->at > start;
}

/* A number of `digits` hex digits of either case, at most 16. */
static bool take_hex(struct line *l, int digits, uint64_t *n)
{
    unsigned digit;
    for (*n = 0; digits > 0; digits--, l->at++) {
        if (l->at >= l->end || !read_hex_digit(*l->at, &digit))
            return false;
        *n = *n * 16 + digit;
    }
    return true;
}

static bool take_bool(struct line *l, bool *yes)
{
    *yes = l->at < l->end && *l->at == '1';
    return take(l, "0") || take(l, "1");
}

static bool take_float(struct line *l, float *x)
{
    uint64_t n;
    if (!take_hex(l, 8, &n))
        return false;
    uint32_t bits = (uint32_t)n;
    memcpy(x, &bits, sizeof bits);
    return true;
}

static bool take_floats(struct line *l, float *x, size_t count)
{
    for (size_t k = 0; k < count; k++)
        if (!take(l, " ") || !take_float(l, x + k))
            return false;
    return true;
}

static bool take_range(struct line *l, uint16_t *range)
{
    uint64_t n;
    *range = take(l, "a") ? PW_AUTO : PW_KEEP;
    if (*range == PW_AUTO || take(l, "k"))
        return true;
    if (!take_number(l, 255, &n))
        return false;
    *range = (uint16_t)n;
    return true;
}

/* ---- events ---- */

static bool read_meter(struct recording *r, struct line *l, struct event *e)
{
    uint64_t n;
    struct pw_description *d = &e->description;
    e->words = r->words;
    e->count = 0;
    if (!take_floats(l, d->mv_div, 2) || !take_floats(l, d->shunt, 3) || !take_floats(l, &d->over, 1) || !take(l, " ") ||
        !take_bool(l, &d->a_auto) || !take(l, " ") || !take_bool(l, &e->valid) || !take(l, " "))
        return false;
    if (take(l, "-"))
        return true;
    if (take(l, "z")) {
        if (!take_number(l, SIZE_MAX, &n))
            return false;
        e->count = n;
        memset(r->words, 0, PW_CALIBRATION * sizeof *r->words); /* no more are read */
        return true;
    }
    do {
        if (!take_hex(l, 8, &n))
            return false;
        r->words[e->count++] = (uint32_t)n;
    } while (l->at < l->end);
    return true;
}

static bool read_settings(struct line *l, struct pw_settings *s)
{
    uint64_t t_lim, readout;
    if (!take(l, " ") || !take_bool(l, &s->comp) || !take_floats(l, s->r_path, 3) || !take_floats(l, &s->i_cont, 1) ||
        !take(l, " ") || !take_number(l, UINT16_MAX, &t_lim) || !take(l, " ") || !take_number(l, UINT8_MAX, &readout))
        return false;
    s->t_lim = (uint16_t)t_lim;
    s->main = (uint8_t)readout;
    return true;
}

static bool read_frame(struct recording *r, struct line *l, struct event *e)
{
    uint64_t n;
    if (!take(l, " ") || !take_hex(l, 2, &n) || !take(l, " "))
        return false;
    e->flags = (uint8_t)n;
    e->bytes = r->bytes;
    e->length = 0;
    if (take(l, "-"))
        return true;
    do {
        if (!take_hex(l, 2, &n))
            return false;
        r->bytes[e->length++] = (uint8_t)n;
    } while (l->at < l->end);
    return true;
}

/* The names of the events, and which of them begin with a time. */
static const struct {
    const char *name;
    enum event_kind kind;
    bool timed;
} kinds[] = {
    {"frame", EVENT_FRAME, true},       {"on", EVENT_ON, true},          {"off", EVENT_OFF, true},
    {"zero", EVENT_ZERO, true},         {"gain", EVENT_GAIN, true},      {"reapply", EVENT_REAPPLY, true},
    {"method", EVENT_METHOD, true},     {"ranges", EVENT_RANGES, true},  {"phase", EVENT_PHASE, false},
    {"coupling", EVENT_COUPLING, true}, {"ereset", EVENT_ERESET, false}, {"run", EVENT_RUN, false},
    {"set", EVENT_SET, false},          {"meter", EVENT_METER, false}};

/* The event's name, which ends the line or has a space behind it, and its time. */
static bool read_kind(struct line *l, struct event *e)
{
    size_t length = 0;
    while (l->at + length < l->end && l->at[length] != ' ')
        length++;
    for (size_t k = 0; k < sizeof kinds / sizeof *kinds; k++)
        if (strlen(kinds[k].name) == length && memcmp(kinds[k].name, l->at, length) == 0) {
            l->at += length;
            e->kind = kinds[k].kind;
            e->timed = kinds[k].timed;
            return !e->timed || (take(l, " ") && take_number(l, UINT64_MAX, &e->time));
        }
    return false;
}

static bool read_event(struct recording *r, struct line *l, struct event *e)
{
    uint64_t n;
    if (!read_kind(l, e))
        return false;
    switch (e->kind) {
    case EVENT_METER:
        return read_meter(r, l, e);
    case EVENT_METHOD:
    case EVENT_RUN:
        return take(l, " ") && take_bool(l, &e->yes);
    case EVENT_RANGES:
        return take(l, " ") && take_range(l, &e->v) && take(l, " ") && take_range(l, &e->i);
    case EVENT_COUPLING:
        if (!take(l, " ") || !take_number(l, UINT8_MAX, &n))
            return false;
        e->coupling = (uint8_t)n;
        return true;
    case EVENT_SET:
        return read_settings(l, &e->settings);
    case EVENT_FRAME:
        return read_frame(r, l, e);
    default:
        return true;
    }
}

struct place recording_start(const struct recording *r)
{
    return (struct place){(size_t)((char *)memchr(r->text, '\n', r->size) - r->text) + 1, 2};
}

bool recording_at_end(const struct recording *r, struct place place)
{
    return place.at == r->size;
}

bool recording_next(struct recording *r, struct place *place, struct event *event)
{
    const char *at = r->text + place->at;
    const char *end = memchr(at, '\n', r->size - place->at);
    struct line l = {at, end};
    size_t number = place->line;
    *place = (struct place){(size_t)(end - r->text) + 1, number + 1};
    event->kind = EVENT_NOTHING;
    event->timed = false;
    if (at == end || *at == '#')
        return true;
    if (read_event(r, &l, event) && l.at == l.end)
        return true;
    char shown[61] = {0};
    for (size_t k = 0; k + 1 < sizeof shown && at + k < end; k++)
        shown[k] = at[k] >= ' ' && at[k] <= '~' ? at[k] : '?';
    return recording_fault(r->name, number, "not understood: %s%s", shown, end - at > 60 ? "..." : "");
}

/* ---- the file ---- */

static bool no_file(const char *name, const char *what)
{
    fprintf(stderr, "bench: %s: %s\n", name, what);
    return false;
}

/* All bytes of the file, in r->text and r->size. */
static bool read_all(struct recording *r)
{
    FILE *file = fopen(r->name, "rb");
    size_t room = 1 << 16, got = 1;
    if (file == NULL)
        return no_file(r->name, strerror(errno));
    errno = 0;
    for (r->text = malloc(room); r->text != NULL && got > 0; r->size += got) {
        if (room - r->size < room / 2) {
            char *larger = realloc(r->text, room *= 2);
            if (larger == NULL)
                break;
            r->text = larger;
        }
        got = fread(r->text + r->size, 1, room - r->size, file);
    }
    bool whole = r->text != NULL && got == 0 && !ferror(file);
    int error = errno;
    fclose(file);
    return whole || no_file(r->name, error ? strerror(error) : "it cannot be read");
}

/* The first line: the format's name and the version. */
static bool check_first_line(const struct recording *r)
{
    struct line l = {r->text, r->text + r->size};
    uint64_t version;
    if (!take(&l, RECORDING_NAME " ") || !take_number(&l, UINT64_MAX, &version) || !take(&l, "\n"))
        return recording_fault(r->name, 1, "no recording: its first line is not \"%s %d\"", RECORDING_NAME, RECORDING_VERSION);
    if (version != RECORDING_VERSION)
        return recording_fault(r->name, 1, "version %" PRIu64 ": this program reads version %d", version, RECORDING_VERSION);
    return true;
}

/* What is wrong with a file whose last line, from `last` on, is no whole closing line. */
static bool no_closing_line(const struct recording *r, size_t last)
{
    size_t line = r->lines + 1;
    for (size_t at = 0, number = 1; at < last; number++) {
        struct line l = {r->text + at, r->text + last};
        if (take(&l, "end "))
            return recording_fault(r->name, number + 1, "damaged: there are bytes behind the closing line");
        at = (size_t)((char *)memchr(l.at, '\n', last - at) - r->text) + 1;
    }
    return recording_fault(r->name, line, "short: no closing line; the recording was cut off or has not ended");
}

/* The closing line, which begins at `last`. */
static bool check_closing_line(struct recording *r, size_t last)
{
    struct line l = {r->text + last, r->text + r->size};
    uint64_t lines, fnv;
    if (!take(&l, "end ") || !take_number(&l, UINT64_MAX, &lines) || !take(&l, " ") || !take_hex(&l, 16, &fnv) ||
        !take(&l, "\n") || l.at != l.end)
        return no_closing_line(r, last);
    r->size = last;
    r->fnv = fnv_more(FNV_OF_NOTHING, r->text, r->size);
    if (lines != r->lines)
        return recording_fault(r->name, r->lines + 1, "damaged: %zu lines before the closing line, which says %" PRIu64,
                               r->lines, lines);
    if (fnv != r->fnv)
        return recording_fault(r->name, r->lines + 1,
                               "damaged: checksum %016" PRIx64 ", the closing line says %016" PRIx64, r->fnv, fnv);
    return true;
}

/* Counts the lines before the last one, and finds where the last one begins. */
static size_t find_last_line(struct recording *r)
{
    size_t last = 0;
    for (size_t k = 0; k + 1 < r->size; k++)
        if (r->text[k] == '\n') {
            last = k + 1;
            r->lines++;
        }
    return last;
}

/* Room for any frame, and for the words of any meter: 2 and 8 digits are one. */
static bool make_room(struct recording *r)
{
    r->bytes = malloc(r->size / 2 + 1);
    r->words = malloc((r->size / 8 + PW_CALIBRATION) * sizeof *r->words);
    return (r->bytes != NULL && r->words != NULL) || no_file(r->name, "no memory for it");
}

bool recording_read(struct recording *r, const char *name)
{
    *r = (struct recording){.name = name};
    if (!read_all(r))
        return false;
    if (r->size == 0)
        return recording_fault(name, 1, "empty");
    return check_first_line(r) && check_closing_line(r, find_last_line(r)) && make_room(r);
}

void recording_free(struct recording *r)
{
    free(r->text);
    free(r->bytes);
    free(r->words);
}
