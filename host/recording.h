/* recording.h: a recorded day of a bench: the calls that its host made, in a text file.
 *
 * One event a line, one space between items, each line ended by a line feed:
 *
 *     pw-recording 1                  the format's name and version, the first line
 *     # any text                      a comment; it and an empty line say nothing
 *     meter MV0 MV1 SH0 SH1 SH2 OVER A_AUTO VALID WORDS
 *                                     before every other event, and once: the description's six floats,
 *                                     each as the 8 hex digits of its bits, a_auto and the words' valid
 *                                     mark as 0 or 1, and the calibration words as 8 hex digits each, run
 *                                     together; or zN for N words of zero, or - for none
 *     on T | off T | zero T | gain T | reapply T
 *     method T ALT | coupling T COUPLING | ranges T V I | phase | ereset | run YES
 *     set COMP R0 R1 R2 I_CONT T_LIM MAIN
 *     frame T FLAGS BYTES
 *     end LINES CHECKSUM              the closing line: how many lines are before it, and the FNV-1a of
 *                                     all bytes before it as 16 hex digits; nothing is behind it
 *
 * T is a time in ms, decimal; by custom that since midnight. ALT, YES and COMP are 0 or 1. V and I are a
 * range, a for automatic or k for kept. R0, R1, R2 and I_CONT are floats as the description's, T_LIM and MAIN
 * decimal. FLAGS and BYTES are hex, two digits a byte, - for no byte. The events are spelled as in the script
 * protocol of pwscript, so that a recording without its first and last line is a script. A call that the meter
 * refuses is an event like any other.
 */
#ifndef RECORDING_H
#define RECORDING_H

#include "pw.h"

#include <stdbool.h>
#include <stddef.h>
#include <stdint.h>

#define RECORDING_NAME "pw-recording"
#define RECORDING_VERSION 1

/* FNV-1a of 64 bits: of no byte, and of `size` bytes more. */
#define FNV_OF_NOTHING UINT64_C(0xcbf29ce484222325)
uint64_t fnv_more(uint64_t fnv, const char *bytes, size_t size);

/* A recording in memory, whose first and last line have been checked. */
struct recording {
    const char *name; /* the file's */
    char *text;
    size_t size;     /* the bytes before the closing line */
    size_t lines;    /* the lines before the closing line */
    uint64_t fnv;    /* of the bytes before the closing line */
    uint8_t *bytes;  /* room for the bytes of any frame in it */
    uint32_t *words; /* room for the words of any meter in it */
};

/* Reads the file `name`. False where it cannot be read, is empty, of another format or version, short or
 * damaged; then a message with the name and the line is on standard error. */
bool recording_read(struct recording *r, const char *name);

void recording_free(struct recording *r);

/* Says on standard error what is wrong with a line of the file; the format is printf's. Always false. */
bool recording_fault(const char *name, size_t line, const char *format, ...)
    __attribute__((format(printf, 3, 4)));

enum event_kind {
    EVENT_NOTHING, /* a comment or an empty line */
    EVENT_METER,
    EVENT_ON,
    EVENT_OFF,
    EVENT_METHOD,
    EVENT_RANGES,
    EVENT_COUPLING,
    EVENT_ZERO,
    EVENT_GAIN,
    EVENT_PHASE,
    EVENT_ERESET,
    EVENT_RUN,
    EVENT_SET,
    EVENT_REAPPLY,
    EVENT_FRAME
};

struct event {
    enum event_kind kind;
    bool timed;
    uint64_t time;
    bool yes;         /* ALT or YES */
    uint8_t coupling; /* as it stands */
    uint16_t v;       /* a range, PW_AUTO or PW_KEEP */
    uint16_t i;
    struct pw_settings settings;
    uint8_t flags;
    const uint8_t *bytes; /* in the recording's own room, until the next event is read */
    size_t length;
    struct pw_description description;
    const uint32_t *words;
    size_t count;
    bool valid;
};

/* Where the next line begins, and its number. */
struct place {
    size_t at;
    size_t line;
};

/* The place behind the first line. */
struct place recording_start(const struct recording *r);

bool recording_at_end(const struct recording *r, struct place place);

/* Reads the event at the place and moves on to the next line. False where the line is not understood; then
 * a message is on standard error. */
bool recording_next(struct recording *r, struct place *place, struct event *event);

#endif
