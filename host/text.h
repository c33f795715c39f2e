/* text.h: an answer while it is written, and how numbers are spelled in one. */
#ifndef TEXT_H
#define TEXT_H

#include "pw.h"

#include <stdbool.h>
#include <stddef.h>
#include <stdint.h>
#include <stdlib.h>
#include <string.h>

/* No answer is as long: a reading with the dump behind it has less than 5000 characters. */
enum { TEXT_ROOM = 8192 };

/* The `length` characters at `at`; where `hashing`, the hash of the first `hashed` of them. */
struct text {
    size_t length;
    bool hashing;
    size_t hashed;
    uint64_t hash;
    char at[TEXT_ROOM];
};

/* Room for `count` more characters, which are counted as written. */
static inline char *room_for(struct text *t, size_t count)
{
    if (count > TEXT_ROOM - t->length)
        abort();
    char *at = t->at + t->length;
    t->length += count;
    return at;
}

static inline void put_chars(struct text *t, const char *chars, size_t count)
{
    memcpy(room_for(t, count), chars, count);
}

static inline void put_char(struct text *t, char c)
{
    *room_for(t, 1) = c;
}

static inline void put_text(struct text *t, const char *text)
{
    put_chars(t, text, strlen(text));
}

/* Decimal digits. */
static inline void put_u64(struct text *t, uint64_t n)
{
    char digits[20];
    size_t first = sizeof digits;
    if (n < 10) {
        put_char(t, (char)('0' + n));
        return;
    }
    do {
        digits[--first] = (char)('0' + n % 10);
        n /= 10;
    } while (n > 0);
    put_chars(t, digits + first, sizeof digits - first);
}

/* The same, behind a minus sign where it is below zero. */
static inline void put_i64(struct text *t, int64_t n)
{
    if (n < 0)
        put_char(t, '-');
    put_u64(t, n < 0 ? 0 - (uint64_t)n : (uint64_t)n);
}

/* So many hex digits, the highest first. */
static inline void put_hex(struct text *t, uint64_t bits, unsigned digits)
{
    char *at = room_for(t, digits);
    for (unsigned k = digits; k-- > 0; bits >>= 4)
        at[k] = "0123456789abcdef"[bits & 15];
}

/* The 8 hex digits of a float's bits, or `nan` for each NaN. */
static inline void put_float(struct text *t, float x)
{
    uint32_t bits;
    memcpy(&bits, &x, sizeof bits);
    if ((bits & 0x7FFFFFFF) > 0x7F800000)
        put_chars(t, "nan", 3);
    else
        put_hex(t, bits, 8);
}

/* A time, or `-` where there is none. */
static inline void put_stamp(struct text *t, struct pw_stamp stamp)
{
    if (stamp.set)
        put_u64(t, stamp.at);
    else
        put_char(t, '-');
}

/* Number, decimals, unit and over mark, with commas between. */
static inline void put_val(struct text *t, struct pw_val v)
{
    put_float(t, v.number);
    put_char(t, ',');
    put_u64(t, v.decimals);
    put_char(t, ',');
    put_text(t, pw_unit_name(v.unit));
    put_text(t, v.over ? ",1" : ",0");
}

#endif
