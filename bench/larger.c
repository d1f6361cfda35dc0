/* A frame and a tick in place with 32 posts of 50 places beside the library's 16 posts of 25 places, in one run: what they take is not to grow with the table.
 * The larger entries are built from the same sources with two numbers changed (bench/larger), for this alone. */
#define _POSIX_C_SOURCE 199309L
#include "bench.h"
#include "rokemaipu.h"

#include <stdlib.h>
#include <string.h>

typedef struct { rokemaipu_head head; rokemaipu_slot latest[50]; } larger_post;
typedef struct { larger_post posts[32]; uint32_t index[ROKEMAIPU_CHANNELS]; uint64_t refused; } larger_table;
uint32_t larger_rokemaipu_frame(larger_table *t, uint32_t channel, uint32_t time, uint32_t id, bool extended, const uint8_t *payload, size_t length);
uint32_t larger_rokemaipu_tick(larger_table *t, uint32_t channel, uint32_t time);

enum { PAGE = 4096, PLACES = 16, STEP = PAGE / PLACES + 8, TURNS = 1000, AGAIN = 90 };
static _Alignas(PAGE) uint8_t room[5 * PAGE], large_room[13 * PAGE];
static uint64_t sum;

_Static_assert((PLACES - 1) * STEP + sizeof(rokemaipu_table) <= sizeof room, "the tables have room");
_Static_assert((PLACES - 1) * STEP + sizeof(larger_table) <= sizeof large_room, "the larger tables have room");

static uint64_t frames(rokemaipu_table *t, larger_table *l, bool large, uint32_t channel, uint32_t time) {
    uint64_t seen = 0;
    for (const frame *f = mix; f < mix + MIX; f++)
        seen = 31 * seen + (large ? larger_rokemaipu_frame(l, channel, time, f->id, true, f->bytes, f->n) : rokemaipu_frame(t, channel, time, f->id, true, f->bytes, f->n));
    return seen;
}

static double turns(rokemaipu_table *t, larger_table *l, bool large, bool tick, uint32_t posts) {
    double from = now();
    for (uint32_t turn = 0; turn < (tick ? 4 : 1) * TURNS; turn++)
        sum += tick ? large ? larger_rokemaipu_tick(l, turn % posts, 2001) : rokemaipu_tick(t, turn % posts, 2001) : frames(t, l, large, turn % posts, 2000);
    return (now() - from) / (tick ? 4 * TURNS : TURNS * MIX);
}

static void line(bool tick, uint32_t posts) {
    double mean[2] = {0};
    for (int place = 0; place < PLACES; place++) {
        rokemaipu_table *t = (rokemaipu_table *)(room + place * STEP);
        larger_table *l = (larger_table *)(large_room + place * STEP);
        double best[2] = {1e300, 1e300};
        rokemaipu_start(t);
        memset(l, 0, sizeof *l);
        for (uint32_t i = 0; i < posts; i++) {
            if (rokemaipu_set_up(t, i, i, 5000, 1000, 500, 500, 0, 0)) differ("set-up");
            l->posts[i].head = t->posts[i].head, l->index[i] = t->index[i];
        }
        for (uint32_t turn = 0; turn < 1000; turn++)
            if (frames(t, l, false, turn % posts, turn) != frames(t, l, true, turn % posts, turn)) differ("frame");
        for (uint32_t i = 0; i < posts; i++)
            if (memcmp(&t->posts[i].head, &l->posts[i].head, sizeof(rokemaipu_head)) || memcmp(t->posts[i].latest, l->posts[i].latest, sizeof t->posts[i].latest)) differ("table");
        for (int again = 0; again < AGAIN; again++)
            for (int large = 0; large < 2; large++) {
                double took = turns(t, l, large, tick, posts);
                if (took < best[large]) best[large] = took;
            }
        for (int large = 0; large < 2; large++) mean[large] += best[large] / PLACES;
    }
    printf("%s, %u post%s set up %7.1f ns of 32 with 50 places  %7.1f ns of 16 with 25, %5.2f times\n", tick ? "tick" : "frame", posts, posts > 1 ? "s" : "",
        mean[1], mean[0], mean[1] / mean[0]);
}

int main(void) {
    line(false, 1);
    line(false, 16);
    line(true, 1);
    line(true, 16);
    return sum == 42;
}
