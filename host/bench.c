/* bench: replays a recorded day of frames through the meter and writes the licence sheet.
 *
 * All figures come from libpw.a; what is here reads a recording (recording.h), makes its calls in their order
 * (replay.h) and writes what the meter holds at the end (sheet.h). The sheet is written only where the whole
 * recording was understood. Status 0; 1 where the recording is bad or the sheet cannot be written; 2 for wrong
 * usage.
 */
#define _POSIX_C_SOURCE 200809L
#include "recording.h"
#include "replay.h"
#include "sheet.h"

#include <errno.h>
#include <inttypes.h>
#include <stdio.h>
#include <stdlib.h>
#include <string.h>
#include <unistd.h>

static const char usage[] =
    "usage: bench [-q] [-o FILE] RECORDING\n"
    "       bench --help | --version\n";

static const char help[] =
    "\n"
    "Replays the recording of a day through the meter and writes the licence sheet:\n"
    "energy, apparent energy, time counted, mean power, the zeros and gains that jobs\n"
    "have earned, how each job ended, and the refusals met.\n"
    "\n"
    "  -o FILE    writes the sheet to FILE in place of standard output: whole, or not\n"
    "             at all; a FILE that was there is then as it was\n"
    "  -q         no progress on the terminal\n"
    "  --help     this text\n"
    "  --version  the version of the recordings that are read\n"
    "\n"
    "Status: 0; 1 where the recording is bad or the sheet cannot be written; 2 for\n"
    "wrong usage.\n";

struct options {
    const char *recording;
    const char *sheet; /* NULL for standard output */
    bool quiet;
};

static int wrong_usage(const char *what, const char *which)
{
    fprintf(stderr, "bench: %s%s\n%s", what, which, usage);
    return 2;
}

/* 0, or the status to end with. */
static int read_options(int count, char **arguments, struct options *o)
{
    bool names_only = false;
    *o = (struct options){NULL, NULL, false};
    for (int k = 1; k < count; k++) {
        const char *a = arguments[k];
        if (names_only || a[0] != '-') {
            if (o->recording != NULL)
                return wrong_usage("one recording at a time: ", a);
            o->recording = a;
        } else if (strcmp(a, "--") == 0) {
            names_only = true;
        } else if (strcmp(a, "-q") == 0) {
            o->quiet = true;
        } else if (strcmp(a, "-o") == 0) {
            if (++k == count)
                return wrong_usage("no file behind ", a);
            if (o->sheet != NULL)
                return wrong_usage("one sheet at a time: ", arguments[k]);
            o->sheet = arguments[k];
        } else {
            return wrong_usage("unknown option ", a);
        }
    }
    return o->recording != NULL ? 0 : wrong_usage("no recording", "");
}

/* ---- progress ---- */

static void show_progress(const struct replay *p, double part)
{
    if (p->frames % 2048 != 0)
        return;
    fprintf(stderr, "\r%3.0f %%  %zu frames  ", part * 100.0, p->frames);
    write_clock(stderr, p->latest_time);
    fprintf(stderr, "  %.3f W\033[K", (double)p->watts);
    fflush(stderr);
}

static void clear_progress(void)
{
    fputs("\r\033[K", stderr);
    fflush(stderr);
}

/* ---- the sheet ---- */

static int cannot_write(const char *name)
{
    fprintf(stderr, "bench: %s: %s\n", name, strerror(errno));
    return 1;
}

static int sheet_to_output(const struct recording *r, const struct replay *p)
{
    write_sheet(stdout, r, p);
    return ferror(stdout) || fflush(stdout) != 0 ? cannot_write("standard output") : 0;
}

/* Writes the sheet to the file `made`, which is removed again where that fails. */
static bool sheet_to(const char *made, const struct recording *r, const struct replay *p)
{
    FILE *out = fopen(made, "w");
    if (out == NULL)
        return false;
    write_sheet(out, r, p);
    bool written = !ferror(out) && fflush(out) == 0 && fsync(fileno(out)) == 0;
    int error = errno;
    written = fclose(out) == 0 && written;
    if (!written) {
        remove(made);
        errno = error != 0 ? error : errno;
    }
    return written;
}

/* The whole sheet in a file beside `name`, which then takes its place. */
static int sheet_to_file(const char *name, const struct recording *r, const struct replay *p)
{
    size_t room = strlen(name) + sizeof ".tmp";
    char *made = malloc(room);
    if (made == NULL)
        return cannot_write(name);
    snprintf(made, room, "%s.tmp", name);
    int status = 0;
    if (!sheet_to(made, r, p)) {
        status = cannot_write(made);
    } else if (rename(made, name) != 0) {
        status = cannot_write(name);
        remove(made);
    }
    free(made);
    return status;
}

static int bench(const struct options *o)
{
    struct recording recording;
    struct replay replay = {.made = false};
    bool shown = !o->quiet && isatty(STDERR_FILENO);
    int status = 1;
    if (recording_read(&recording, o->recording)) {
        bool whole = replay_run(&replay, &recording, shown ? show_progress : NULL);
        if (shown)
            clear_progress();
        if (whole)
            status = o->sheet != NULL ? sheet_to_file(o->sheet, &recording, &replay) : sheet_to_output(&recording, &replay);
    }
    replay_free(&replay);
    recording_free(&recording);
    return status;
}

/* Ends with what standard output could take. */
static int tell(const char *text, const char *more)
{
    return fputs(text, stdout) < 0 || fputs(more, stdout) < 0 || fflush(stdout) != 0 ? cannot_write("standard output") : 0;
}

int main(int count, char **arguments)
{
    struct options options;
    if (count == 2 && strcmp(arguments[1], "--help") == 0)
        return tell(usage, help);
    if (count == 2 && strcmp(arguments[1], "--version") == 0) {
        char version[64];
        snprintf(version, sizeof version, "bench, reads %s %d\n", RECORDING_NAME, RECORDING_VERSION);
        return tell(version, "");
    }
    int status = read_options(count, arguments, &options);
    return status != 0 ? status : bench(&options);
}
