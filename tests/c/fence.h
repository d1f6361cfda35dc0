/* What the C tests share: a wrong number is told and kept, memory is lent at a fence, and random numbers are the same in every run. */
#ifndef FENCE_H
#define FENCE_H
#define _DEFAULT_SOURCE
#include "rokemaipu.h"

#include <inttypes.h>
#include <stdio.h>
#include <stdlib.h>
#include <string.h>
#include <sys/mman.h>
#include <unistd.h>

static int bad;

#define IS(got, want) is(__LINE__, #got, (uint64_t)(got), (uint64_t)(want))
static void is(int line, const char *what, uint64_t got, uint64_t want) {
    if (got != want) {
        printf("%s:%d: %s is %" PRIu64 ", not %" PRIu64 "\n", __BASE_FILE__, line, what, got, want);
        bad = 1;
    }
}

#define R(n) (ROKEMAIPU_REFUSED + (n))

/* ---- memory with a page behind it that may not be touched: one byte too many ends the test */

static inline uint8_t *fenced(size_t size) {
    size_t page = (size_t)sysconf(_SC_PAGESIZE), body = (size + page - 1) / page * page;
    uint8_t *p = mmap(NULL, body + 2 * page, PROT_READ | PROT_WRITE, MAP_PRIVATE | MAP_ANONYMOUS, -1, 0);
    if (p == MAP_FAILED || mprotect(p + page + body, page, PROT_NONE) || mprotect(p, page, PROT_NONE)) {
        perror("mmap");
        exit(1);
    }
    return p + page + body - size; /* ends at the fence */
}

/* ---- random numbers */

static uint64_t state = 88172645463325252ull;
static uint64_t next(void) {
    state ^= state << 13;
    state ^= state >> 7;
    return state ^= state << 17;
}
static inline uint32_t below(uint32_t n) { return (uint32_t)(next() % n); }

/* ---- lent memory: it ends at a fence, and what stands before it and behind its places may not change either */

enum { BEFORE = 16, MOST = 16 };

typedef struct lent {
    uint8_t *end, *at, copy[8 * (BEFORE + MOST)];
    size_t width, places;
} lent;

static inline void lend(lent *l, size_t places) {
    l->places = places, l->at = l->end - places * l->width;
    uint8_t *from = l->at - BEFORE * l->width;
    for (uint8_t *p = from; p < l->end; p++) *p = (uint8_t)next();
    memcpy(l->copy, from, (BEFORE + places) * l->width);
}

/* the first n places are those wanted, and all else is as it was lent */
static inline void lent_is(int line, const lent *l, const void *want, size_t n) {
    const uint8_t *was = l->copy + BEFORE * l->width;
    is(line, "what stands before the lent memory, changed", memcmp(l->at - BEFORE * l->width, l->copy, BEFORE * l->width) != 0, 0);
    is(line, "a place that was to be written, other", n && memcmp(l->at, want, n * l->width), 0);
    is(line, "a place that was to be left, changed", memcmp(l->at + n * l->width, was + n * l->width, (l->places - n) * l->width) != 0, 0);
}

#endif
