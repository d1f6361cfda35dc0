/* The kinds: which frames they are, which interface has them, and where the latest of each stands in a post. */
#ifndef KINDS_H
#define KINDS_H
#include "rokemaipu.h"

static const uint32_t lengths_of[ROKEMAIPU_KINDS] = {8, 8, 1, 2, 1, 7, 1, 1, 6, 8, 8, 8, 8, 8, 3, 8, 8, 2, 4, 1, 5, 1, 1, 1, 8, 8, 6, 8, 8, 8, 3, 8, 6, 6, 8, 8, 6, 8, 8, 8, 8, 8, 2};

#define IDS_OF_KINDS 0x63000, 0x63001, 0x6b000, 0x6b001, 0x6b002, 0x6b003, 0x6b004, 0x6b005, 0x6b105, 6, 7, 8, 0x60010, 0x60011, 0x60012, 0x60013, 0x68001, 0x68002, 0x68003, \
    0x68004, 0x68005, 0x68006, 0x68007, 0x68009, 0x6800a, 0x6800b, 0x6800c, 0x6800d, 0x6800e, 0x6800f, 0x63002, 0x63201, 0x6b100, 0x6b101, 0x6b102, 0x6b103, 0x6b104, 0x6b200, 0x6b201, \
    0x6b202, 0x6b203, 0x6b204, 0x6b300
static const uint32_t ids_of[] = {IDS_OF_KINDS};
_Static_assert(sizeof ids_of / sizeof *ids_of == ROKEMAIPU_KINDS, "an identifier for each kind");

static inline bool is_standard(uint32_t kind) { return kind >= ROKEMAIPU_CHARGE_CONTROL_1 && kind <= ROKEMAIPU_PT1000_STATE; }

/* the safety controller's both interfaces have */
static inline bool is_older(uint32_t kind) { return kind >= ROKEMAIPU_CHARGE_CONTROL_1 && kind < ROKEMAIPU_SEQUENCE_CONTROL; }
static inline bool is_newer(uint32_t kind) { return !is_older(kind) || is_standard(kind); }

static inline uint32_t place_of(uint32_t kind) { return kind < 12 ? kind : kind < 21 ? kind - 12 : kind < 30 ? kind - 9 : kind - 18; }

/* the kind that has a place on a post of an interface; 21 to 24 only the newer one's kinds have */
static inline uint32_t kind_at(uint32_t place, uint32_t interface) {
    if (place >= 9 && place < 12) return place;
    return interface == ROKEMAIPU_OLDER && place < 21 ? place + (place < 9 ? 12 : 9) : place + (place < 9 ? 0 : 18);
}

#endif
