/* A frame and a tick in place by several revisions of the library, taking turns in one run: `bench/revisions`. Each has tables at sixteen places, of which the
 * best turn counts, and the mean of the places is told, as in bench.c. The answers of all are compared first, over frames that every revision has. */
#define _POSIX_C_SOURCE 199309L
#include "bench.h"
#include "revision.h"

#include <string.h>

#define SIDE(variable, told) extern const revision variable;
#include "named.h"
#undef SIDE
#define SIDE(variable, told) {told, &variable},
static const struct { const char *name; const revision *is; } sides[] = {
#include "named.h"
};

enum { SIDES = sizeof sides / sizeof *sides, PAGE = 4096, PLACES = 16, STEP = PAGE / PLACES + 8, TURNS = 1000 };
static _Alignas(PAGE) uint8_t rooms[SIDES][5 * PAGE];
static uint64_t sum;
static int again = 40;

/* The mix on the posts in turn. Not built into its callers, so that all sides have the same loop. */
__attribute__((noinline)) static uint64_t frames(const revision *s, void *t, uint32_t channel, uint32_t time) {
    uint64_t seen = 0;
    for (const frame *f = mix; f < mix + MIX; f++) seen = 31 * seen + s->frame(t, channel, time, f->id, true, f->bytes, f->n);
    return seen;
}

static double turns(const revision *s, void *t, bool tick, uint32_t posts) {
    double from = now();
    for (uint32_t turn = 0; turn < (tick ? 4 : 1) * TURNS; turn++) sum += tick ? s->tick(t, turn % posts, 2001) : frames(s, t, turn % posts, 2000);
    return (now() - from) / (tick ? 4 * TURNS : TURNS * MIX);
}

/* A line for a number of posts; ratios are of the sources as they stand, the last side, to each revision. */
static void line(bool tick, uint32_t posts) {
    double mean[SIDES] = {0};
    for (int place = 0; place < PLACES; place++) {
        double best[SIDES];
        for (int k = 0; k < SIDES; k++) {
            best[k] = 1e300;
            if (sides[k].is->posts < posts) continue;
            void *t = rooms[k] + place * STEP;
            sides[k].is->set_up(t, posts);
            for (uint32_t turn = 0; turn < 1000; turn++) frames(sides[k].is, t, turn % posts, turn);
        }
        for (int turn = 0; turn < again; turn++)
            for (int k = 0; k < SIDES; k++) {
                if (sides[k].is->posts < posts) continue;
                double took = turns(sides[k].is, rooms[k] + place * STEP, tick, posts);
                if (took < best[k]) best[k] = took;
            }
        for (int k = 0; k < SIDES; k++) mean[k] += best[k] / PLACES;
    }
    printf("%-6s %2u post%s", tick ? "tick," : "frame,", posts, posts > 1 ? "s" : " ");
    for (int k = 0; k < SIDES; k++) {
        if (sides[k].is->posts < posts) printf("%20s", "-");
        else if (k + 1 < SIDES) printf("%9.2f ns, %5.2f x", mean[k], mean[SIDES - 1] / mean[k]);
        else printf("%9.2f ns", mean[k]);
    }
    printf("\n");
}

/* Without F12, which the earliest revisions do not have: its bit is left out. */
static void compare(void) {
    uint32_t x = 1, time = 0;
    for (int k = 0; k < SIDES; k++) {
        if (sides[k].is->size > sizeof rooms[k] - PAGE) differ("room");
        sides[k].is->set_up(rooms[k], 8);
    }
    for (int n = 0; n < 200000; n++) {
        x = 1664525 * x + 1013904223;
        frame f = mix[(x >> 24) % MIX];
        x = 1664525 * x + 1013904223;
        uint32_t channel = (x >> 24) % 10;
        if ((x >> 16) % 8 == 0) f.bytes[(x >> 8) % 8] ^= x >> 20;
        if ((x >> 12) % 32 == 0) f.n = (x >> 8) % 9;
        x = 1664525 * x + 1013904223;
        time += (x >> 24) % 64 - ((x >> 16) % 64 == 0 ? 100 : 0);
        uint32_t want = 0;
        for (int k = 0; k < SIDES; k++) {
            uint32_t a = (x >> 8) % 10 ? sides[k].is->frame(rooms[k], channel, time, f.id, true, f.bytes, f.n) : sides[k].is->tick(rooms[k], channel, time);
            if (a < 65536) a &= 2047;
            if (k == 0) want = a;
            else if (a != want) differ(sides[k].name);
        }
    }
}

int main(int n, char **words) {
    if (n > 1) again = atoi(words[1]);
    compare();
    printf("%15s", "");
    for (int k = 0; k < SIDES; k++) printf(k + 1 < SIDES ? "%12s        " : "%12s", sides[k].name);
    printf("\n");
    line(false, 1);
    line(false, 8);
    line(false, 16);
    line(true, 1);
    line(true, 8);
    line(true, 16);
    return sum == 42;
}
