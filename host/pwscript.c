/* pwscript: answers the script protocol (script.h).
 *
 * One command a line on standard input, its answer on standard output; with
 * --echo each line is written before its answer. Comments (#) and empty lines
 * give no answer. Every line that is not understood answers `?` and changes
 * nothing; so does `f knobs`, which is not served. The meter is libpw.a's, the
 * functions are libpw.a's and libleaves.a's; what is here only reads and writes
 * text.
 *
 * A dump has no line with #, which says what is the oracle's own.
 *
 * Lines may be of any length, may hold any byte, and the last one needs no
 * line feed. Words are split as by the oracle; only white space outside ASCII
 * at the ends of a line, which the oracle trims, is not white space here.
 */
#define _POSIX_C_SOURCE 200809L
#include "script.h"

#include <stdio.h>

/* The commands that are no call to a meter. */
static const struct {
    const char *name;
    bool (*handler)(struct script *s, const struct word *argument, size_t count, struct text *out);
} commands[] = {
    {"hash", hash_line},
    {"f", function_line},
    {"meter", meter_line},
    {"dump", dump_line},
};

static bool command(struct script *s, const struct word *words, size_t count, struct text *out)
{
    for (size_t k = 0; k < sizeof commands / sizeof commands[0]; k++)
        if (word_is(words[0], commands[k].name))
            return commands[k].handler(s, words + 1, count - 1, out);
    return call_line(s, words, count, out);
}

/* No line of the protocol has more words that count: `f vals` with its 12 arguments. */
enum { MOST_WORDS = 14 };

static void answer(struct script *s, struct word line, struct text *out)
{
    struct word words[MOST_WORDS];
    out->length = 0;
    line = trim(line);
    if (line.length == 0 || line.at[0] == '#')
        return;
    size_t count = split(line, words, MOST_WORDS);
    if (!command(s, words, count, out))
        put_text(out, "?\n");
}

static void echo(struct word line)
{
    fwrite(line.at, 1, line.length, stdout);
    if (line.length == 0 || line.at[line.length - 1] != '\n')
        putchar('\n');
}

int main(int argc, char **argv)
{
    static struct script script;
    static struct text out;
    bool echoes = argc == 2 && strcmp(argv[1], "--echo") == 0;
    if (argc > 1 && !echoes) {
        fprintf(stderr, "usage: pwscript [--echo] < SCRIPT > ANSWERS\n");
        return 2;
    }
    char *text = NULL;
    size_t room = 0;
    ssize_t length;
    while ((length = getline(&text, &room, stdin)) >= 0) {
        struct word line = {text, (size_t)length};
        if (echoes)
            echo(line);
        answer(&script, line, &out);
        fwrite(out.at, 1, out.length, stdout);
    }
    free(text);
    if (!feof(stdin) || ferror(stdin) || fflush(stdout) != 0 || ferror(stdout)) {
        fprintf(stderr, "pwscript: a line could not be read or an answer not written\n");
        return 1;
    }
    return 0;
}
