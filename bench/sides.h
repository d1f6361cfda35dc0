/* The sides that bench.c compares: the library, plain C on the same table, plain C on a table of its own, which is timed where there is a table, and with
 * BEFORE the library of an older revision (bench/before), whose symbols begin with before_. */
#ifndef SIDES_H
#define SIDES_H
#include "peer.h"

typedef struct {
    const char *name;
    uint32_t (*read)(uint32_t id, bool extended, const uint8_t *payload, size_t length, int64_t *raws, size_t places);
    uint32_t (*write)(uint32_t kind, const int64_t *raws, size_t places, uint8_t *buffer, size_t room);
    uint32_t (*change)(uint32_t id, bool extended, uint8_t *payload, size_t length, uint32_t start, int64_t raw);
    uint32_t (*start)(rokemaipu_table *t);
    uint32_t (*set_up)(rokemaipu_table *t, uint32_t post, uint32_t channel, uint32_t voltage, uint32_t charge, uint32_t discharge, uint32_t silence, uint32_t sensor, uint32_t interface);
    uint32_t (*frame)(rokemaipu_table *t, uint32_t channel, uint32_t time, uint32_t id, bool extended, const uint8_t *payload, size_t length);
    uint32_t (*tick)(rokemaipu_table *t, uint32_t channel, uint32_t time);
    uint32_t (*log_frame)(uint32_t time, uint32_t channel, uint32_t id, bool extended, const uint8_t *payload, size_t length, uint8_t *buffer, size_t room);
    uint32_t (*log_tick)(uint32_t time, uint32_t channel, uint8_t *buffer, size_t room);
    uint32_t (*log_record)(const uint8_t *log, size_t size, size_t at, uint64_t *numbers, size_t places);
    bool table_only;
} side;

#define LIBRARY(name, prefix)                                                                                                                              \
    {name, prefix##rokemaipu_read, prefix##rokemaipu_write, prefix##rokemaipu_change, prefix##rokemaipu_start, prefix##rokemaipu_set_up, prefix##rokemaipu_frame, \
     prefix##rokemaipu_tick, prefix##rokemaipu_log_frame, prefix##rokemaipu_log_tick, prefix##rokemaipu_log_record, false}

#ifdef BEFORE
extern __typeof__(rokemaipu_read) before_rokemaipu_read;
extern __typeof__(rokemaipu_write) before_rokemaipu_write;
extern __typeof__(rokemaipu_change) before_rokemaipu_change;
extern __typeof__(rokemaipu_start) before_rokemaipu_start;
extern __typeof__(rokemaipu_set_up) before_rokemaipu_set_up;
extern __typeof__(rokemaipu_frame) before_rokemaipu_frame;
extern __typeof__(rokemaipu_tick) before_rokemaipu_tick;
extern __typeof__(rokemaipu_log_frame) before_rokemaipu_log_frame;
extern __typeof__(rokemaipu_log_tick) before_rokemaipu_log_tick;
extern __typeof__(rokemaipu_log_record) before_rokemaipu_log_record;
#endif

static const side sides[] = {
    LIBRARY("the library", ),
    {"plain C", peer_read, peer_write, peer_change, rokemaipu_start, rokemaipu_set_up, peer_frame, peer_tick, peer_log_frame, peer_log_tick, peer_log_record, false},
    {"with a table of its own", peer_read, peer_write, peer_change, own_start, own_set_up, own_frame, own_tick, peer_log_frame, peer_log_tick, peer_log_record, true},
#ifdef BEFORE
    LIBRARY("before", before_),
#endif
};
enum { SIDES = sizeof sides / sizeof *sides };
#endif
