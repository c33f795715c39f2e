/* sheet.h: the licence sheet of a replayed day. */
#ifndef SHEET_H
#define SHEET_H

#include "recording.h"
#include "replay.h"

#include <stdio.h>

/* A time in ms as hours, minutes, seconds and ms: 49:00:00.001 for two days, an hour and a ms. */
void write_clock(FILE *out, uint64_t ms);

void write_sheet(FILE *out, const struct recording *r, const struct replay *p);

#endif
