/* jobs.h: what the leaves of the jobs and of the phase calibration make of each call of a transcript
 * (transcript.h), beside what the published Rust made of it. */
#ifndef JOBS_H
#define JOBS_H

#include "transcript.h"

/* A frame in a job, a job start that is accepted or turned away, a phase start: how many values differ.
 * They are shown with `what`, as many as `most`. Other calls have nothing to compare here. */
size_t check_jobs(const struct call *c, const char *what, size_t most);

/* The same of an accepted frame outside a job, after which leaf_frame left the meter `taken`: the phase
 * calibration's part of the accounting step where the frame gave a reading, else nothing more. */
size_t check_account(const struct call *c, const struct pw_meter *taken, const char *what, size_t most);

/* How many frames in a job were compared. */
uint64_t frames_in_jobs(void);

/* Prints how often each case was met; whether it was `least` times or more for each of them. */
bool put_job_cases(uint64_t least);

#endif
