/* meters.h: meters to try, of any bytes. */
#ifndef METERS_H
#define METERS_H

#include "fields.h"

/* Any bits in each field; a bool is yes or no. */
static inline struct pw_meter some_meter(uint64_t *state)
{
    struct pw_meter pw = {.barred = 0};
    for (const struct field *f = fields; f < fields + FIELDS; f++)
        for (size_t k = 0; k < f->count; k++) {
            uint64_t r = next(state);
            set_value(&pw, f, k, f->kind == BOOL || f->kind == STAMPED ? r & 1 : r);
        }
    return pw;
}

#endif
