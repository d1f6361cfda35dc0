/* One revision of the library for bench/revisions.c, compiled with that revision's header: SIDE is the name of it. */
#include "revision.h"
#include "rokemaipu.h"

#include <string.h>

#define JOINED(a, b) a##b
#define NAMED(a, b) JOINED(a, b)
extern uint32_t NAMED(SIDE, _rokemaipu_frame)(void *, uint32_t, uint32_t, uint32_t, bool, const uint8_t *, size_t);
extern uint32_t NAMED(SIDE, _rokemaipu_tick)(void *, uint32_t, uint32_t);

static void set_up(void *memory, uint32_t posts) {
    rokemaipu_table *t = memory;
    memset(t, 0, sizeof *t);
    for (uint32_t i = 0; i < posts; i++) {
        /* a head begins with its flag, its channel and its limits in every revision since heads are stepped by themselves */
        const uint32_t head[] = {1, i, 5000, 1000, 500, 500};
        memcpy(&t->posts[i], head, sizeof head);
#if ROKEMAIPU_POSTS >= 16
        t->index[i] = i + 1;
#endif
    }
}

const revision SIDE = {0, NAMED(SIDE, _rokemaipu_frame), NAMED(SIDE, _rokemaipu_tick), set_up, ROKEMAIPU_POSTS, sizeof(rokemaipu_table)};
