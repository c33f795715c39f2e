/* words.h: the words of a line of the script protocol, and what they mean. */
#ifndef WORDS_H
#define WORDS_H

#include "pw.h"

#include <stdbool.h>
#include <stddef.h>
#include <stdint.h>

/* A word of a line, or a line: no terminating zero, and zeros may be in it. */
struct word {
    const char *at;
    size_t length;
};

/* ---- words ---- */

bool word_is(struct word w, const char *text);

/* The line without the white space at its ends. */
struct word trim(struct word line);

/* The number of words in the line; the first `most` of them are stored. */
size_t split(struct word line, struct word *words, size_t most);

/* ---- reading: false means not understood ---- */

/* Exactly `count` bytes of two hex digits each. */
bool read_bytes(struct word w, uint8_t *bytes, size_t count);

/* The bits of a float as 8 hex digits, or as a plus sign and 7 of them, which Rust's parser takes; or
 * `nan`. */
bool read_float(struct word w, float *x);

/* A float from each of `count` words. */
bool read_floats(const struct word *w, float *x, size_t count);

/* 0 or 1. */
bool read_bool(struct word w, bool *yes);

/* Rust's parse of a whole number: decimal digits, as many as one likes, in the
 * type's range. A plus sign is allowed, a minus sign only for signed types. */
bool read_u8(struct word w, uint8_t *n);
bool read_u16(struct word w, uint16_t *n);
bool read_u32(struct word w, uint32_t *n);
bool read_u64(struct word w, uint64_t *n);
bool read_i8(struct word w, int8_t *n);
bool read_i64(struct word w, int64_t *n);

/* Calibration words. Of more than a calibration has only one more is kept, and
 * `count` is then that many: enough to know that they are too many. */
struct calibration_words {
    uint32_t at[PW_CALIBRATION + 1];
    size_t count;
};

/* 8 characters for each word, as of a float, run together; or zN for N zeros; or - for none. */
bool read_calibration_words(struct word w, struct calibration_words *words);

/* The flags of a frame: Rust's parse of a byte in base 16, so hex digits, as many as one likes, in the
 * byte's range; a plus sign is allowed. */
bool read_flags(struct word w, uint8_t *flags);

/* A range asked for: k, a, or a byte as of read_u8. */
bool read_range(struct word w, uint16_t *range);

/* The bytes of a frame. Of more than a frame has only one more is kept, as of calibration words. */
struct frame_bytes {
    uint8_t at[PW_FRAME_LENGTH + 1];
    size_t count;
};

/* Two hex digits for each byte, run together; or - for none. */
bool read_frame(struct word w, struct frame_bytes *frame);

#endif
