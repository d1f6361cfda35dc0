/* A batch in plain C: judged in a first pass, and then fed, over one buffer. */
#include "peer.h"

#define R(n) (ROKEMAIPU_REFUSED + (n))

uint32_t peer_batch(rokemaipu_table *t, const uint8_t *records, size_t length, uint32_t *answers, size_t places) {
    uint64_t e[ROKEMAIPU_ENTRY_NUMBERS];
    uint32_t count = 0;
    if (length > ROKEMAIPU_BATCH_BYTES) return R(22);
    for (size_t at = 0; at < length; at = e[7], count++)
        if (peer_log_record(records, length, at, e, ROKEMAIPU_ENTRY_NUMBERS) != ROKEMAIPU_FOUND_RECORD) return R(23);
    if (places < count) return R(24);
    for (size_t at = 0; at < length; at = e[7]) {
        peer_log_record(records, length, at, e, ROKEMAIPU_ENTRY_NUMBERS);
        *answers++ = e[0] ? peer_tick(t, (uint32_t)e[2], (uint32_t)e[1])
                          : peer_frame(t, (uint32_t)e[2], (uint32_t)e[1], (uint32_t)e[3], e[4], records + e[5], e[6]);
    }
    return count;
}
