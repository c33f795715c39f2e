/* hex.h: a hex digit of either case, as recordings and scripts have it. */
#ifndef HEX_H
#define HEX_H

#include <stdbool.h>

/* The value of the digit; false where c is none. */
static inline bool read_hex_digit(char c, unsigned *digit)
{
    if (c >= '0' && c <= '9')
        *digit = (unsigned)(c - '0');
    else if (c >= 'a' && c <= 'f')
        *digit = (unsigned)(c - 'a') + 10;
    else if (c >= 'A' && c <= 'F')
        *digit = (unsigned)(c - 'A') + 10;
    else
        return false;
    return true;
}

#endif
