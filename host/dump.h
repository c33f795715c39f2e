/* dump.h: the state of a meter and all that is read off it, as the script protocol writes it. */
#ifndef DUMP_H
#define DUMP_H

#include "pw.h"
#include "text.h"

/* The lines D0 to D11, each with its line feed. */
void put_dump(struct text *t, const struct pw_meter *m);

/* Values of a meter, each behind its name and with spaces between. */
void put_values(struct text *t, const struct pw_power_vals *vals);

/* The three readouts behind their names, and the power in W or VA. */
void put_readouts(struct text *t, const struct pw_readouts *r);

/* The number of the latest conversion, then the latest sixteen, the oldest first, with semicolons between:
 * which result it was, dropped or not, its codes and the ms since the one before. */
void put_ring(struct text *t, const struct pw_ring *ring);

/* FNV-1a of 64 bits over the characters of the dump. */
uint64_t dump_hash(const struct pw_meter *m);

#endif
