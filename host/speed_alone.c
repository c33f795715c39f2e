/* speed_alone: nanoseconds a call through the C interface: frames of each kind, and the functions of pw.h
 * beside them. The best of several rounds. */
#define _POSIX_C_SOURCE 200809L
#include "pw.h"
#include "speed.h"

#include <stdio.h>
#include <string.h>
#include <time.h>

enum { FRAMES = 5000, ROUNDS = 101, CALLS = 10000 };

static double seconds(void)
{
    struct timespec t;
    clock_gettime(CLOCK_MONOTONIC, &t);
    return (double)t.tv_sec + (double)t.tv_nsec * 1e-9;
}

/* A float of every sign and size, not NaN and not infinite, from a counter. */
static float some_float(uint32_t k)
{
    uint32_t bits = k * 2654435761u & 0xFF7FFFFFu;
    float x;
    memcpy(&x, &bits, sizeof x);
    return x;
}

/* A figure below 16, with a fraction, from a counter. */
static float some_figure(uint32_t k)
{
    return (float)(k * 2654435761u >> 8) * 0x1p-20f;
}

/* Times CALLS calls of EXPRESSION in k, ROUNDS times; the results are summed, so that none is left out. The
 * functions are in an archive and are not inlined. */
#define SPEED(name, type, expression)                                         \
    do {                                                                      \
        double best = 1e9;                                                    \
        for (int round = 0; round < ROUNDS; round++) {                        \
            volatile type sum = 0;                                            \
            double start = seconds();                                         \
            for (uint32_t k = 0; k < CALLS; k++)                              \
                sum = sum + (type)(expression);                               \
            double took = seconds() - start;                                  \
            best = took < best ? took : best;                                 \
        }                                                                     \
        printf("%-32s %8.1f ns\n", name, best * 1e9 / CALLS);                 \
    } while (0)

static void speed_of_frames(void)
{
    static struct speed_frame frames[FRAMES];
    for (size_t k = 0; k < speed_kinds(); k++) {
        double best = 1e9;
        char name[64];
        speed_make_frames(k, frames, FRAMES);
        for (int round = 0; round < ROUNDS; round++) {
            speed_start(k);
            double start = seconds();
            speed_frames(frames, FRAMES);
            double took = seconds() - start;
            best = took < best ? took : best;
        }
        snprintf(name, sizeof name, "pw_frame, %s", speed_kind(k)->name);
        printf("%-32s %8.1f ns\n", name, best * 1e9 / FRAMES);
    }
}

static void speed_of_functions(void)
{
    static uint8_t frames[64][PW_FRAME_LENGTH];
    struct pw_acc acc = pw_acc_fresh();
    for (uint32_t k = 0; k < sizeof frames; k++)
        frames[k / PW_FRAME_LENGTH][k % PW_FRAME_LENGTH] = (uint8_t)(k * 2654435761u >> 24);
    SPEED("pw_decode", uint64_t, pw_decode(frames[k % 64], PW_FRAME_LENGTH).rms);
    SPEED("pw_cmp_window", uint64_t, pw_cmp_window((float)(k % 4096) * 0x1p-10f - 2.0f, some_float(~k)).r21);
    SPEED("pw_acc_add", uint64_t, pw_acc_add(&acc, some_figure(k)));
    SPEED("pw_acc_wh", float, pw_acc_wh((struct pw_acc){k * INT64_C(0x9E3779B9), some_figure(k)}));
    SPEED("pw_energy_format", float, pw_energy_format(some_float(k), (k & 1) != 0).number);
    SPEED("pw_p_format", float, pw_p_format(some_float(k), some_figure(k), (k & 1) != 0).number);
}

/* Of a meter that has measured all. */
static void speed_of_values(void)
{
    struct speed_frame frames[8];
    speed_make_frames(0, frames, 8);
    speed_start(0);
    speed_frames(frames, 8);
    struct pw_meter meter = speed_meter();
    struct pw_vals vals = pw_vals(meter);
    SPEED("a meter in and out, nothing else", uint64_t, (meter = speed_same(meter, k).meter).clock.t_poll);
    SPEED("pw_vals", float, pw_vals(meter).vals.load.p);
    SPEED("pw_reading_vals", float, pw_reading_vals(vals.vals).main.number);
}

int main(void)
{
    speed_of_frames();
    speed_of_functions();
    speed_of_values();
    return 0;
}
