#include "words.h"

#include "hex.h"

#include <string.h>

/* ---- words ---- */

bool word_is(struct word w, const char *text)
{
    return w.length == strlen(text) && memcmp(w.at, text, w.length) == 0;
}

/* The white space between words: ASCII's, without the vertical tab. */
static bool is_space(char c)
{
    return c == ' ' || c == '\t' || c == '\n' || c == '\f' || c == '\r';
}

struct word trim(struct word w)
{
    while (w.length > 0 && (is_space(w.at[0]) || w.at[0] == '\v')) {
        w.at++;
        w.length--;
    }
    while (w.length > 0 && (is_space(w.at[w.length - 1]) || w.at[w.length - 1] == '\v'))
        w.length--;
    return w;
}

size_t split(struct word line, struct word *words, size_t most)
{
    size_t count = 0;
    for (size_t k = 0; k < line.length;) {
        size_t start = k;
        while (k < line.length && !is_space(line.at[k]))
            k++;
        if (k > start && count++ < most)
            words[count - 1] = (struct word){line.at + start, k - start};
        while (k < line.length && is_space(line.at[k]))
            k++;
    }
    return count;
}

/* Takes the character c off the front of the word, if it is there. */
static bool take(struct word *w, char c)
{
    if (w->length == 0 || w->at[0] != c)
        return false;
    w->at++;
    w->length--;
    return true;
}

/* ---- reading: false means not understood ---- */

bool read_bytes(struct word w, uint8_t *bytes, size_t count)
{
    if (w.length != 2 * count)
        return false;
    for (size_t k = 0; k < count; k++) {
        unsigned high, low;
        if (!read_hex_digit(w.at[2 * k], &high) || !read_hex_digit(w.at[2 * k + 1], &low))
            return false;
        bytes[k] = (uint8_t)(high << 4 | low);
    }
    return true;
}

/* One or more hex digits, the first one the highest, not above `most`; a plus sign is allowed. */
static bool read_hex(struct word w, uint32_t most, uint32_t *n)
{
    uint32_t sum = 0;
    take(&w, '+');
    for (size_t k = 0; k < w.length; k++) {
        unsigned digit;
        if (!read_hex_digit(w.at[k], &digit) || sum > (most - digit) / 16)
            return false;
        sum = 16 * sum + digit;
    }
    *n = sum;
    return w.length > 0;
}

/* Exactly 8 characters: hex digits, or a plus sign and 7 of them. */
static bool read_bits(struct word w, uint32_t *bits)
{
    return w.length == 8 && read_hex(w, UINT32_MAX, bits);
}

bool read_float(struct word w, float *x)
{
    uint32_t bits = 0x7FC00000;
    if (!word_is(w, "nan") && !read_bits(w, &bits))
        return false;
    memcpy(x, &bits, sizeof *x);
    return true;
}

bool read_floats(const struct word *w, float *x, size_t count)
{
    for (size_t k = 0; k < count; k++)
        if (!read_float(w[k], &x[k]))
            return false;
    return true;
}

bool read_bool(struct word w, bool *yes)
{
    *yes = word_is(w, "1");
    return *yes || word_is(w, "0");
}

/* One or more decimal digits, not above `most`, which is 9 or more. */
static bool read_digits(struct word w, uint64_t most, uint64_t *n)
{
    uint64_t sum = 0;
    for (size_t k = 0; k < w.length; k++) {
        if (w.at[k] < '0' || w.at[k] > '9')
            return false;
        uint64_t digit = (uint64_t)(w.at[k] - '0');
        if (sum > (most - digit) / 10)
            return false;
        sum = 10 * sum + digit;
    }
    *n = sum;
    return w.length > 0;
}

static bool read_unsigned(struct word w, uint64_t most, uint64_t *n)
{
    take(&w, '+');
    return read_digits(w, most, n);
}

/* From -most - 1 to most. */
static bool read_signed(struct word w, int64_t most, int64_t *n)
{
    bool minus = take(&w, '-');
    if (!minus)
        take(&w, '+');
    uint64_t size;
    if (!read_digits(w, (uint64_t)most + (minus ? 1 : 0), &size))
        return false;
    *n = !minus ? (int64_t)size : size == 0 ? 0 : -(int64_t)(size - 1) - 1;
    return true;
}

bool read_u8(struct word w, uint8_t *n)
{
    uint64_t wide;
    if (!read_unsigned(w, UINT8_MAX, &wide))
        return false;
    *n = (uint8_t)wide;
    return true;
}

bool read_u16(struct word w, uint16_t *n)
{
    uint64_t wide;
    if (!read_unsigned(w, UINT16_MAX, &wide))
        return false;
    *n = (uint16_t)wide;
    return true;
}

bool read_u32(struct word w, uint32_t *n)
{
    uint64_t wide;
    if (!read_unsigned(w, UINT32_MAX, &wide))
        return false;
    *n = (uint32_t)wide;
    return true;
}

bool read_u64(struct word w, uint64_t *n)
{
    return read_unsigned(w, UINT64_MAX, n);
}

bool read_i8(struct word w, int8_t *n)
{
    int64_t wide;
    if (!read_signed(w, INT8_MAX, &wide))
        return false;
    *n = (int8_t)wide;
    return true;
}

bool read_i64(struct word w, int64_t *n)
{
    return read_signed(w, INT64_MAX, n);
}

/* N of zN is below 2^64, as Rust's usize is; the oracle then asks for the room
 * of N words and ends where it gets none, which needs no room here. */
static bool read_zeros(struct word w, struct calibration_words *words)
{
    uint64_t count;
    if (!read_unsigned(w, UINT64_MAX, &count))
        return false;
    memset(words->at, 0, sizeof words->at);
    words->count = count <= PW_CALIBRATION ? (size_t)count : PW_CALIBRATION + 1;
    return true;
}

bool read_calibration_words(struct word w, struct calibration_words *words)
{
    words->count = 0;
    if (word_is(w, "-"))
        return true;
    if (take(&w, 'z'))
        return read_zeros(w, words);
    if (w.length % 8 != 0)
        return false;
    for (size_t k = 0; k < w.length; k += 8) {
        uint32_t bits;
        if (!read_bits((struct word){w.at + k, 8}, &bits))
            return false;
        if (words->count <= PW_CALIBRATION)
            words->at[words->count++] = bits;
    }
    return true;
}

bool read_flags(struct word w, uint8_t *flags)
{
    uint32_t wide;
    if (!read_hex(w, UINT8_MAX, &wide))
        return false;
    *flags = (uint8_t)wide;
    return true;
}

bool read_range(struct word w, uint16_t *range)
{
    uint8_t number;
    if (word_is(w, "k"))
        *range = PW_KEEP;
    else if (word_is(w, "a"))
        *range = PW_AUTO;
    else if (read_u8(w, &number))
        *range = number;
    else
        return false;
    return true;
}

bool read_frame(struct word w, struct frame_bytes *frame)
{
    uint8_t byte;
    frame->count = 0;
    if (word_is(w, "-"))
        return true;
    if (w.length % 2 != 0)
        return false;
    for (size_t k = 0; k < w.length; k += 2) {
        if (!read_bytes((struct word){w.at + k, 2}, &byte, 1))
            return false;
        if (frame->count <= PW_FRAME_LENGTH)
            frame->at[frame->count++] = byte;
    }
    return true;
}
