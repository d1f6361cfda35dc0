/* What a revision of the library is to bench/revisions.c: its entries, and its table, which is as large as that revision's header says. */
#ifndef REVISION_H
#define REVISION_H
#include <stdbool.h>
#include <stddef.h>
#include <stdint.h>

typedef struct {
    const char *name;
    uint32_t (*frame)(void *t, uint32_t channel, uint32_t time, uint32_t id, bool extended, const uint8_t *payload, size_t length);
    uint32_t (*tick)(void *t, uint32_t channel, uint32_t time);
    void (*set_up)(void *t, uint32_t posts); /* post i on channel i, for i < posts */
    uint32_t posts;
    size_t size;
} revision;
#endif
