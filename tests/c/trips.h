/* Messages of one document's pages there and back: every accepted frame comes back byte for byte, into memory that ends at a fence. */
#ifndef TRIPS_H
#define TRIPS_H
#include "fence.h"
#include "kinds.h"

typedef uint32_t reader(uint32_t id, bool extended, const uint8_t *payload, size_t length, int64_t *raws, size_t places);
typedef uint32_t writer(uint32_t kind, const int64_t *raws, size_t places, uint8_t *buffer, size_t room);

/* the kinds from first on, so many, by their pages; the other pages have none of them. Two of them have bits that no signal covers. */
static void trips(uint32_t first, uint32_t count, reader *read, writer *write, reader *other_read, writer *other_write, const uint32_t uncovered[2]) {
    uint32_t seen[ROKEMAIPU_KINDS][32] = {{0}};
    uint8_t *in = fenced(9) + 9, *out = fenced(9) + 9;
    for (uint32_t turn = 0; turn < 200000 && !bad; turn++) {
        uint32_t which = first + turn % count, most = below(4) ? 4 : 256, id = ids_of[which];
        size_t whole = lengths_of[which], length = below(8) ? whole : below(10);
        uint8_t *frame = in - length;
        for (size_t i = 0; i < length; i++) frame[i] = (uint8_t)below(most);
        int64_t raws[ROKEMAIPU_SIGNALS];
        uint32_t kind = read(id, true, frame, length, raws, ROKEMAIPU_SIGNALS);
        seen[which][rokemaipu_refusal(kind)]++;
        IS(rokemaipu_refusal(kind) == 4, length < whole);
        IS(rokemaipu_refusal(kind) == 15, length > whole);
        IS(other_read(id, true, frame, length, raws, ROKEMAIPU_SIGNALS), R(3));
        if (rokemaipu_refusal(kind)) continue;
        IS(kind, which);
        read(id, true, frame, length, raws, ROKEMAIPU_SIGNALS);
        IS(write(kind, raws, ROKEMAIPU_SIGNALS, out - length, length), length);
        IS(memcmp(out - length, frame, length), 0);
        IS(write(kind, raws, ROKEMAIPU_SIGNALS, out - length + 1, length - 1), R(8));
        IS(other_write(kind, raws, ROKEMAIPU_SIGNALS, out - length, length), R(7));
    }
    for (uint32_t which = first; which < first + count; which++) {
        IS(seen[which][0] && seen[which][4] && seen[which][15], true);
        IS(seen[which][6] > 0, which == uncovered[0] || which == uncovered[1]);
    }
}

/* each bit of a frame by itself: 6 where none of those covers it, as bits says, and nothing else where one does and has no label */
static inline void bit_by_bit(uint32_t kind, reader *read, const char *covered) {
    int64_t raws[ROKEMAIPU_SIGNALS];
    for (uint32_t bit = 0; bit < 8 * lengths_of[kind]; bit++) {
        uint8_t one[8] = {0};
        one[bit / 8] = (uint8_t)(1 << bit % 8);
        IS(read(ids_of[kind], true, one, lengths_of[kind], raws, ROKEMAIPU_SIGNALS), covered[bit] == '1' ? kind : R(6));
    }
}

/* Sequence_Control and ADM_CS_SPCC_Inputs of either document: the bits that their signals cover */
#define SEQUENCE_CONTROL_COVERED "11000000" "11100000" "10000000"
#define SPCC_INPUTS_COVERED "11111111" "11111111" "11111111" "11111111" "11111111" "00000000" "11111111" "11111111"

#endif
