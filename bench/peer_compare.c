/* Two recordings compared in plain C: both logs taken apart, the records paired off, and the channels gone through, with the same checks in the same order. */
#include "peer.h"

#include <string.h>

#define R(n) (ROKEMAIPU_REFUSED + (n))

enum { MOST = ROKEMAIPU_COMPARE_RECORDS };

/* a log's records: where each begins, and its channel and time in one number */
typedef struct { const uint8_t *log; size_t n, starts[MOST + 1]; uint64_t keys[MOST]; } rows;

/* A number of at most five groups, of which the last is not empty: whether there is one at *at, which is moved behind it. */
static inline bool number(const uint8_t *log, size_t size, size_t *at, uint32_t *out) {
    uint32_t n = 0;
    for (int shift = 0; *at < size; shift += 7) {
        uint8_t b = log[(*at)++];
        if (shift == 28 && b > 15) return false;
        n |= (uint32_t)(b & 127) << shift;
        if (b < 128) return *out = n, !shift || b;
    }
    return false;
}

static inline bool one(const uint8_t *log, size_t size, size_t *at, uint64_t *key) {
    uint32_t time, channel, part, length;
    if (!number(log, size, at, &time) || !number(log, size, at, &channel) || channel > 31) return false;
    if (!number(log, size, at, &part) || (part & 1 ? part >> 30 : part >> 12)) return false;
    if (!number(log, size, at, &length) || length > 9 || (length == 9 && part)) return false;
    if (length == 9) length = 0;
    if (size - *at < length) return false;
    return *at += length, *key = (uint64_t)channel << 32 | time, true;
}

/* All records of a log, of which the first 512 are kept; or n is the byte where one is malformed or cut. */
static bool take_apart(const uint8_t *log, size_t size, rows *r) {
    size_t n = 0, at = 0;
    r->log = log, r->starts[0] = 0;
    while (at < size) {
        size_t from = at;
        uint64_t key;
        if (!one(log, size, &at, &key)) return r->n = from, false;
        if (n < MOST) r->keys[n] = key, r->starts[n + 1] = at;
        n++;
    }
    return r->n = n, true;
}

static inline bool same(const rows *x, size_t i, const rows *y, size_t j) {
    if (x->keys[i] != y->keys[j]) return false;
    size_t n = x->starts[i + 1] - x->starts[i];
    return n == y->starts[j + 1] - y->starts[j] && !memcmp(x->log + x->starts[i], y->log + y->starts[j], n);
}

static uint32_t place(const rows *x, const rows *y, uint64_t channel) {
    size_t i = 0, j = 0;
    for (uint32_t k = 1;; k++, i++, j++) {
        while (i < x->n && x->keys[i] >> 32 != channel) i++;
        while (j < y->n && y->keys[j] >> 32 != channel) j++;
        if (i >= x->n && j >= y->n) return 0;
        if (i >= x->n || j >= y->n || !same(x, i, y, j)) return k;
    }
}

static uint32_t refused(uint64_t *numbers, uint32_t number, uint64_t side, uint64_t byte) { return numbers[0] = side, numbers[1] = byte, R(number); }

uint32_t peer_compare(const uint8_t *a, size_t size_a, const uint8_t *b, size_t size_b, uint32_t *first, size_t room_first, uint32_t *second, size_t room_second, uint32_t *places, size_t channels, uint64_t *numbers, size_t two) {
    rows x, y;
    uint8_t used[MOST] = {0};
    size_t k = 0, l = 0, low = 0;
    uint32_t seen = 0;
    if (two < ROKEMAIPU_COMPARED_NUMBERS) return R(8);
    if (!take_apart(a, size_a, &x)) return refused(numbers, 26, 1, x.n);
    if (!take_apart(b, size_b, &y)) return refused(numbers, 26, 2, y.n);
    if (x.n > MOST) return refused(numbers, 27, 1, 0);
    if (y.n > MOST) return refused(numbers, 27, 2, 0);
    if (room_first < MOST) return refused(numbers, 28, 1, 0);
    if (room_second < MOST) return refused(numbers, 28, 2, 0);
    if (channels < ROKEMAIPU_CHANNELS) return refused(numbers, 8, 0, 0);
    for (size_t i = 0, j; i < x.n; i++) {
        while (low < y.n && used[low]) low++;
        for (j = low; j < y.n && (used[j] || !same(&x, i, &y, j));) j++;
        if (j < y.n) used[j] = 1;
        else first[k++] = (uint32_t)i + 1;
    }
    for (size_t j = 0; j < y.n; j++)
        if (!used[j]) second[l++] = (uint32_t)j + 1;
    for (size_t i = 0; i < x.n; i++) seen |= 1u << (x.keys[i] >> 32);
    for (size_t j = 0; j < y.n; j++) seen |= 1u << (y.keys[j] >> 32);
    for (uint32_t c = 0; c < ROKEMAIPU_CHANNELS; c++) places[c] = seen >> c & 1 ? place(&x, &y, c) : 0;
    return numbers[0] = k, numbers[1] = l, 0;
}
