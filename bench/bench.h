/* What the benches share: the frames, the clock, and how a difference is told. */
#ifndef BENCH_H
#define BENCH_H
#include <stdint.h>
#include <stdio.h>
#include <stdlib.h>
#include <time.h>

/* The charger's nine messages, as a charging session mixes them: what comes every 100 ms by the pages more than once, the rest once. */
typedef struct { uint32_t id; uint8_t n, bytes[8]; } frame;
static const frame mix[] = {
    {0x63000, 8, {0xa0, 0x0f, 0x83, 0x00, 0x41, 0x40, 0x01, 0x64}}, {0x6b000, 1, {7}},
    {0x6b003, 7, {0xa0, 0x0f, 0x90, 0x00, 0x00, 0x00, 0x48}},       {0x6b001, 2, {2, 1}},
    {0x63000, 8, {0xa1, 0x0f, 0x85, 0x00, 0x41, 0x40, 0x01, 0x64}}, {0x6b000, 1, {7}},
    {0x6b003, 7, {0xa0, 0x0f, 0x91, 0x00, 0x00, 0x00, 0x48}},       {0x63001, 8, {0x88, 0x13, 0xe8, 0x03, 0xf4, 0x01, 0, 0}},
    {0x63000, 8, {0xa2, 0x0f, 0x87, 0x00, 0x41, 0x40, 0x01, 0x64}}, {0x6b105, 6, {1, 2, 3, 4, 5, 6}},
    {0x6b003, 7, {0xa0, 0x0f, 0x92, 0x00, 0x00, 0x00, 0x48}},       {0x6b002, 1, {1}},
    {0x6b005, 1, {1}},                                              {0x6b004, 1, {0}},
};

/* A log is the mix over and over, 10 ms apart, and a tick after each of its turns. */
enum { MIX = sizeof mix / sizeof *mix, FIRST = 3600000, APART = 10 };

static inline double now(void) {
    struct timespec t;
    clock_gettime(CLOCK_MONOTONIC, &t);
    return (double)t.tv_sec * 1e9 + (double)t.tv_nsec;
}

static inline void differ(const char *what) {
    printf("bench: %s: the sides differ\n", what);
    exit(1);
}
#endif
