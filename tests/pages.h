/* pages.h: a page between two that cannot be read or written.
 *
 * What is lent to a function lies at an end of the page, so that a byte read
 * or written beside it is a fault that ends the test program: a sanitizer
 * would not see it, since the libraries are not compiled with one. The file
 * that includes this defines _DEFAULT_SOURCE first. */
#ifndef PAGES_H
#define PAGES_H

#include <stdint.h>
#include <stdio.h>
#include <stdlib.h>
#include <sys/mman.h>
#include <unistd.h>

struct pages {
    size_t size;
    uint8_t *page; /* the one between */
};

static inline struct pages guarded_pages(void)
{
    size_t size = (size_t)sysconf(_SC_PAGESIZE);
    void *all = mmap(NULL, 3 * size, PROT_NONE, MAP_PRIVATE | MAP_ANONYMOUS, -1, 0);
    if (all == MAP_FAILED) {
        perror("mmap");
        exit(1);
    }
    return (struct pages){size, (uint8_t *)all + size};
}

static inline void protect(struct pages p, int protection)
{
    if (mprotect(p.page, p.size, protection) != 0) {
        perror("mprotect");
        exit(1);
    }
}

#endif
