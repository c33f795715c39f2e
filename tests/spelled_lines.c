/* spelled_lines SEED LINES: random lines of calls, dumps and hashes, most of them spelled in some other way: with
 * characters and words put in, left out, put in place of others or doubled. The same seed gives the same lines. No
 * line is a function's, and none asks for more words of calibration than there is room for. */
#include "bits.h"
#include "lines.h"

#include <inttypes.h>
#include <stdio.h>

#define ONES "3f800000 3f800000 3f800000 3f800000 3f800000 3f800000"
static const char *const lines[] = {
    "meter " ONES " 0 1 z73", "meter " ONES " 1 0 3f800000", "on 5", "off 7", "method 9 1", "method 9 0", "ranges 10 k a",
    "ranges 11 2 3", "ranges 12 a k", "ranges 13 255 0", "coupling 14 1", "coupling 15 3", "zero 16", "gain 17", "phase",
    "ereset", "run 1", "run 0", "set 1 3c23d70a 3f000000 423e0000 40c00000 30 0", "set 0 nan 7f800001 ff800000 FFC00001 65535 255",
    "set 1 +c23d70a 00000000 80000000 nan +0 +2", "reapply 20", "frame 21 1c 00112233445566778899aabbccdd", "frame 22 18 -",
    "frame 23 04 0011", "frame 281474976710655 1c 0000000000000000000000000000", "on 281474976710656",
    "frame 18446744073709551615 ff ffffffffffffffffffffffffffff", "dump", "dump on", "dump off", "hash",
};
static const char *const pieces[] = {
    " ", "  ", "\t", "\v", "\f", "\r", "+", "-", "0", "1", "9", "a", "k", "K", "z", "g", "x", ".", "#", "?", "00", "1c", "1C", "+1",
    "-0", "nan", "255", "256", "65535", "65536", "on", "off", "hash", "dump", "frame", "281474976710656", "18446744073709551616", "\x01",
};

/* A line as it is spelled so far. */
struct spelled {
    size_t length;
    char at[1024];
};

static size_t below(uint64_t *state, size_t n)
{
    return (size_t)(next(state) % n);
}

/* `count` characters from `at` on give way to the piece, if there is room. */
static void replace(struct spelled *s, size_t at, size_t count, const char *piece)
{
    size_t length = strlen(piece);
    if (s->length - count + length > sizeof s->at)
        return;
    memmove(s->at + at + length, s->at + at + count, s->length - at - count);
    memcpy(s->at + at, piece, length);
    s->length = s->length - count + length;
}

/* The word that the character lies in, or the space itself. */
static size_t word_at(const struct spelled *s, size_t *at)
{
    size_t end = *at;
    while (*at > 0 && s->at[*at] != ' ' && s->at[*at - 1] != ' ')
        --*at;
    while (end < s->length && s->at[end] != ' ')
        end++;
    return end > *at ? end - *at : 1;
}

static void spell(struct spelled *s, uint64_t *state)
{
    if (s->length == 0)
        return;
    size_t at = below(state, s->length);
    const char *piece = pieces[below(state, sizeof pieces / sizeof pieces[0])];
    switch (below(state, 6)) {
    case 0:
        replace(s, at, 0, piece);
        break;
    case 1:
        replace(s, at, 1, "");
        break;
    case 2:
        replace(s, at, 1, piece);
        break;
    case 3:
        replace(s, s->length, 0, " ");
        replace(s, s->length, 0, piece);
        break;
    default: {
        size_t count = word_at(s, &at);
        if (below(state, 2) == 0)
            replace(s, at, 0, (const char *[]){"+", "000", "0", "+00"}[below(state, 4)]);
        else
            replace(s, at, count, below(state, 4) == 0 ? "" : piece);
    }
    }
}

/* A function's line, or one with z and more than six characters behind it. */
static bool left_out(const struct spelled *s)
{
    size_t first = 0;
    while (first < s->length && strchr(" \t\v\f\r", s->at[first]) != NULL)
        first++;
    if (first < s->length && s->at[first] == 'f' && (first + 1 == s->length || s->at[first + 1] != 'r'))
        return true;
    for (size_t k = 0; k < s->length; k++)
        if (s->at[k] == 'z' && k > 0 && k + 7 < s->length && memchr(s->at + k, ' ', 8) == NULL)
            return true;
    return false;
}

static void put_line(uint64_t *state)
{
    struct spelled s;
    do {
        const char *line = lines[below(state, sizeof lines / sizeof lines[0])];
        s.length = 0;
        replace(&s, 0, 0, line);
        for (size_t k = below(state, 4); k > 0; k--)
            spell(&s, state);
    } while (left_out(&s));
    fwrite(s.at, 1, s.length, stdout);
    putchar('\n');
}

int main(int argc, char **argv)
{
    return put_lines(argc, argv, put_line);
}
