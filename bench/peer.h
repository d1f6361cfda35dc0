/* The same rules in plain C, as a code generator for DBC files would unroll the signals, with the same checks; the watch on the library's table, and on one
 * of its own. */
#ifndef PEER_H
#define PEER_H
#include "rokemaipu.h"
uint32_t peer_read(uint32_t id, bool extended, const uint8_t *p, size_t n, int64_t *raws, size_t places);
uint32_t peer_write(uint32_t kind, const int64_t *raws, size_t places, uint8_t *buffer, size_t room);
uint32_t peer_change(uint32_t id, bool extended, uint8_t *p, size_t n, uint32_t start, int64_t raw);
uint32_t peer_frame(rokemaipu_table *t, uint32_t channel, uint32_t time, uint32_t id, bool extended, const uint8_t *p, size_t n);
uint32_t peer_tick(rokemaipu_table *t, uint32_t channel, uint32_t time);

/* The table that one would write for it: flags as bool, times of 32 bits, nothing kept twice. It lies in memory that is lent as the library's, and is
 * smaller. */
typedef struct { bool known; uint8_t kind; uint32_t time; uint64_t raw; } peer_slot;
typedef struct { bool opened; uint32_t since; uint64_t first; peer_slot status, control, stop; } peer_session;
typedef struct { bool used; uint32_t channel; rokemaipu_limits limits; bool heard; uint32_t time; peer_slot latest[ROKEMAIPU_PLACES]; peer_session session;
    uint32_t counts[ROKEMAIPU_COUNTS]; } peer_post;
typedef struct { peer_post posts[ROKEMAIPU_POSTS]; uint8_t index[ROKEMAIPU_CHANNELS]; uint32_t refused; } peer_table;
uint32_t own_start(rokemaipu_table *memory);
uint32_t own_set_up(rokemaipu_table *memory, uint32_t post, uint32_t channel, uint32_t voltage, uint32_t charge, uint32_t discharge, uint32_t silence, uint32_t sensor, uint32_t interface);
uint32_t own_frame(rokemaipu_table *memory, uint32_t channel, uint32_t time, uint32_t id, bool extended, const uint8_t *p, size_t n);
uint32_t own_tick(rokemaipu_table *memory, uint32_t channel, uint32_t time);

uint32_t peer_log_frame(uint32_t time, uint32_t channel, uint32_t id, bool extended, const uint8_t *payload, size_t length, uint8_t *buffer, size_t room);
uint32_t peer_log_tick(uint32_t time, uint32_t channel, uint8_t *buffer, size_t room);
uint32_t peer_log_record(const uint8_t *log, size_t size, size_t at, uint64_t *numbers, size_t places);
uint32_t peer_batch(rokemaipu_table *t, const uint8_t *records, size_t length, uint32_t *answers, size_t places);
uint32_t peer_compare(const uint8_t *a, size_t size_a, const uint8_t *b, size_t size_b, uint32_t *first, size_t room_first, uint32_t *second, size_t room_second, uint32_t *places, size_t channels, uint64_t *numbers, size_t two);
#endif
