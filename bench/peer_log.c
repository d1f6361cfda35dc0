/* The night log in plain C, with the same checks. */
#include "peer.h"

#include <string.h>

#define R(n) (ROKEMAIPU_REFUSED + (n))

/* ---- writing */

static size_t put(uint8_t *to, uint32_t n) {
    size_t i = 0;
    for (; n > 127; n >>= 7) to[i++] = (uint8_t)(n | 128);
    to[i++] = (uint8_t)n;
    return i;
}

static uint32_t record(uint32_t time, uint32_t channel, uint32_t part, uint32_t length, const uint8_t *payload, size_t n, uint8_t *buffer, size_t room) {
    uint8_t head[ROKEMAIPU_RECORD_BYTES];
    size_t i = put(head, time);
    i += put(head + i, channel), i += put(head + i, part), i += put(head + i, length);
    if (room < i + n) return R(8);
    memcpy(buffer, head, i);
    if (n) memcpy(buffer + i, payload, n);
    return (uint32_t)(i + n);
}

uint32_t peer_log_frame(uint32_t time, uint32_t channel, uint32_t id, bool extended, const uint8_t *payload, size_t length, uint8_t *buffer, size_t room) {
    if (channel > 31) return R(17);
    if (!extended && id > 2047) return R(18);
    if (extended && id >> 29) return R(19);
    if (length > 8) return R(20);
    return record(time, channel, id * 2 + extended, (uint32_t)length, payload, length, buffer, room);
}

uint32_t peer_log_tick(uint32_t time, uint32_t channel, uint8_t *buffer, size_t room) {
    if (channel > 31) return R(17);
    return record(time, channel, 0, 9, NULL, 0, buffer, room);
}

/* ---- reading */

/* The number at *at, which is moved behind it. Answers 0, 2 where the log ends in the number, or the refusal of an ill-formed one. */
static uint32_t number(const uint8_t *log, size_t size, size_t *at, uint32_t *out) {
    uint32_t n = 0;
    for (int shift = 0;; shift += 7) {
        if (*at >= size) return ROKEMAIPU_FOUND_PIECE;
        uint8_t b = log[(*at)++];
        if (shift == 28 && b > 15) return R(16);
        n |= (uint32_t)(b & 127) << shift;
        if (b < 128) return *out = n, shift && !b ? R(16) : 0;
    }
}

uint32_t peer_log_record(const uint8_t *log, size_t size, size_t at, uint64_t *numbers, size_t places) {
    uint32_t time, channel, part, length, wrong;
    if (at >= size) return ROKEMAIPU_FOUND_END;
    if ((wrong = number(log, size, &at, &time))) return wrong;
    if ((wrong = number(log, size, &at, &channel))) return wrong;
    if (channel > 31) return R(17);
    if ((wrong = number(log, size, &at, &part))) return wrong;
    if (part & 1 ? part >> 30 : part >> 12) return R(part & 1 ? 19 : 18);
    if ((wrong = number(log, size, &at, &length))) return wrong;
    if (length > 9) return R(20);
    if (length == 9 && part) return R(21);
    bool tick = length == 9;
    if (tick) length = 0;
    if (size - at < length) return ROKEMAIPU_FOUND_PIECE;
    if (places < ROKEMAIPU_ENTRY_NUMBERS) return R(8);
    numbers[0] = tick, numbers[1] = time, numbers[2] = channel, numbers[3] = part >> 1;
    numbers[4] = part & 1, numbers[5] = at, numbers[6] = length, numbers[7] = at + length;
    return ROKEMAIPU_FOUND_RECORD;
}
