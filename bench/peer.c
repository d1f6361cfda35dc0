#include "peer.h"

#define R(n) (ROKEMAIPU_REFUSED + (n))
#define R5(start) (R(5) + 256 * (start))

static uint64_t number(const uint8_t *p, size_t n) {
    uint64_t r = 0;
    for (size_t i = 0; i < n; i++) r |= (uint64_t)p[i] << (8 * i);
    return r;
}

/* byte 0 highest */
static uint64_t big(const uint8_t *p) {
    uint64_t r = 0;
    for (size_t i = 0; i < 8; i++) r = r << 8 | p[i];
    return r;
}

/* The safety controller's: standard frames of eight bytes, and the bits that their signals cover. */
static uint32_t judge_standard(uint32_t id, const uint8_t *p, size_t n, uint64_t *raw) {
    static const uint64_t covered[] = {0x83ff030000000000, 0x83ff1f070f1f0000, UINT64_MAX};
    if (id < 6 || id > 8) return R(3);
    if (n != 8) return R(n < 8 ? 4 : 15);
    *raw = big(p);
    return *raw & ~covered[id - 6] ? R(6) : id + 3;
}

/* What is wrong in the messages that documents 000 and 001 lay out alike and that have uncovered bits or labels; else 0. */
enum { SEQUENCE, SPCC, CCS, MCS };
static uint32_t wrong_in(int message, uint64_t r) {
    switch (message) {
    case SEQUENCE: return r & ~(uint64_t)0x010703 ? R(6) : 0;
    case SPCC: return r >> 40 & 0xff ? R(6) : 0;
    case CCS: return (r & 0xff) > 12 || (r & 0xff) % 3 ? R5(0) : 0;
    default: return (r & 0xff) > 9 ? R5(0) : (r >> 8 & 0xff) > 3 ? R5(8) : 0;
    }
}

/* The kind and the payload number, or the refusal. */
static uint32_t judge(uint32_t id, bool extended, const uint8_t *p, size_t n, uint64_t *raw) {
    uint32_t kind;
    size_t length;
    if (!extended) return judge_standard(id, p, n, raw);
    switch (id) {
    case 0x63000: kind = 0, length = 8; break;
    case 0x63001: kind = 1, length = 8; break;
    case 0x6b000: kind = 2, length = 1; break;
    case 0x6b001: kind = 3, length = 2; break;
    case 0x6b002: kind = 4, length = 1; break;
    case 0x6b003: kind = 5, length = 7; break;
    case 0x6b004: kind = 6, length = 1; break;
    case 0x6b005: kind = 7, length = 1; break;
    case 0x6b105: kind = 8, length = 6; break;
    case 0x63002: kind = 30, length = 3; break;
    case 0x63201: kind = 31, length = 8; break;
    case 0x6b100: kind = 32, length = 6; break;
    case 0x6b101: kind = 33, length = 6; break;
    case 0x6b102: kind = 34, length = 8; break;
    case 0x6b103: kind = 35, length = 8; break;
    case 0x6b104: kind = 36, length = 6; break;
    case 0x6b200: kind = 37, length = 8; break;
    case 0x6b201: kind = 38, length = 8; break;
    case 0x6b202: kind = 39, length = 8; break;
    case 0x6b203: kind = 40, length = 8; break;
    case 0x6b204: kind = 41, length = 8; break;
    case 0x6b300: kind = 42, length = 2; break;
    default: return R(3);
    }
    if (n != length) return R(n < length ? 4 : 15);
    uint64_t r = *raw = number(p, n);
    uint32_t wrong = 0;
    switch (kind) {
    case 0: if ((r >> 48 & 0xff) > 1) return R5(48); break;
    case 2: if (r > 13) return R5(0); break;
    case 3: if ((r & 0xff) > 7) return R5(0); if ((r >> 8 & 0xff) > 4) return R5(8); break;
    case 4: if (r > 1) return R5(0); break;
    case 5: if (!(0x117 >> (r >> 48 & 15) & 1)) return R5(48); break;
    case 6: if (r > 1) return R5(0); break;
    case 7: if (r != 1 && r != 3) return R5(0); break;
    case 30: wrong = wrong_in(SEQUENCE, r); break;
    case 39: wrong = wrong_in(SPCC, r); break;
    case 40: wrong = wrong_in(CCS, r); break;
    case 41: wrong = wrong_in(MCS, r); break;
    }
    return wrong ? wrong : kind;
}

/* The older controllers': by the identifier's place in document 001. */
static uint32_t judge_older(uint32_t id, const uint8_t *p, size_t n, uint64_t *raw) {
    static const uint8_t lengths[] = {8, 8, 3, 8, 8, 2, 4, 1, 5, 1, 1, 1, 8, 8, 6, 8, 8, 8};
    uint32_t which;
    if (id >= 0x60010 && id <= 0x60013) which = id - 0x60010;
    else if (id >= 0x68001 && id <= 0x68007) which = id - 0x68001 + 4;
    else if (id >= 0x68009 && id <= 0x6800f) which = id - 0x68009 + 11;
    else return R(3);
    if (n != lengths[which]) return R(n < lengths[which] ? 4 : 15);
    uint64_t r = *raw = number(p, n);
    uint32_t wrong = 0;
    switch (which) {
    case 0: if ((r >> 48 & 0xff) > 1) return R5(48); break;
    case 2: wrong = wrong_in(SEQUENCE, r); break;
    case 4: if ((r & 0xff) > 7) return R5(0); if ((r >> 8 & 0xff) > 4) return R5(8); break;
    case 7: if (r > 1) return R5(0); break;
    case 9: if (r != 1 && r != 3) return R5(0); break;
    case 10: if (r > 1) return R5(0); break;
    case 11: if (r > 13) return R5(0); break;
    case 15: wrong = wrong_in(SPCC, r); break;
    case 16: wrong = wrong_in(CCS, r); break;
    case 17: wrong = wrong_in(MCS, r); break;
    }
    return wrong ? wrong : which + ROKEMAIPU_OLDER_POWER_MODULES_STATUS;
}

/* By the pages of a post's interface, and 29 for an identifier that only the other's have. */
static uint32_t judge_for(uint32_t interface, uint32_t id, bool extended, const uint8_t *p, size_t n, uint64_t *raw) {
    uint64_t none;
    bool older = interface == ROKEMAIPU_OLDER;
    uint32_t kind = older && extended ? judge_older(id, p, n, raw) : judge(id, extended, p, n, raw);
    if (kind != R(3) || !extended) return kind;
    return (older ? judge(id, true, NULL, 0, &none) : judge_older(id, NULL, 0, &none)) == R(3) ? R(3) : R(29);
}

/* What a frame of either interface is to the rules, and where the latest of its kind stands. */
enum { STATUS_OF = 1, LIMITS_TOLD, CONTROLLER_OF, OPENING, COMMAND, FINISHED, STOPPING };
static uint32_t asked(uint32_t kind) {
    static const uint8_t all[ROKEMAIPU_KINDS] = {[0] = STATUS_OF, [1] = LIMITS_TOLD, [2] = CONTROLLER_OF, [3] = OPENING, [5] = COMMAND, [6] = FINISHED, [7] = STOPPING,
        [12] = STATUS_OF, [13] = LIMITS_TOLD, [23] = CONTROLLER_OF, [16] = OPENING, [17] = COMMAND, [18] = COMMAND, [20] = COMMAND, [21] = STOPPING, [22] = FINISHED};
    return all[kind];
}
static uint32_t place_by(uint32_t kind) { return kind < 12 ? kind : kind < 21 ? kind - 12 : kind < 30 ? kind - 9 : kind - 18; }

/* The power function that a frame asks for: DC_Power_Control's, or that for which the older interface's message stands. */
static uint64_t function_of(uint32_t kind, uint64_t r) { return kind == 17 ? 2 : kind == 18 ? 4 : kind == 20 ? 8 : r >> 48 & 15; }

/* What limits that were told make of a default: voltage, charge and discharge stand at 0, 16 and 32. Power_Modules_Limits has no discharge, and a current of 0
 * or less means the default. */
static uint32_t told(uint32_t kind, uint64_t r, uint32_t most, int shift) {
    uint32_t got = (uint32_t)(r >> shift & 0xffff);
    if (kind == ROKEMAIPU_OLDER_POWER_MODULES_LIMITS && (shift == 32 || (shift == 16 && got >> 15))) return most;
    return got && got < most ? got : most;
}

static int64_t s16(uint64_t x) { return (int16_t)x; }
static int64_t s14(uint64_t x) { return (int64_t)((x & 0x3fff) ^ 0x2000) - 0x2000; }

static void bits(int64_t *raws, int n, uint64_t r) {
    for (int i = 0; i < n; i++) raws[i] = r >> i & 1;
}

uint32_t peer_read(uint32_t id, bool extended, const uint8_t *p, size_t n, int64_t *raws, size_t places) {
    uint64_t r;
    uint32_t kind = judge(id, extended, p, n, &r);
    if (kind >= ROKEMAIPU_REFUSED) return kind;
    if (places < ROKEMAIPU_SIGNALS) return R(8);
    for (int i = 0; i < ROKEMAIPU_SIGNALS; i++) raws[i] = 0;
    switch (kind) {
    case 0: raws[0] = r & 0xffff, raws[1] = s16(r >> 16), raws[2] = r >> 32 & 0xff, raws[3] = r >> 40 & 0xff, raws[4] = r >> 48 & 0xff, raws[5] = r >> 56; break;
    case 1: raws[0] = r & 0xffff, raws[1] = r >> 16 & 0xffff, raws[2] = r >> 32 & 0xffff, raws[3] = s16(r >> 48); break;
    case 3: raws[0] = r & 0xff, raws[1] = r >> 8 & 0xff; break;
    case 5:
        raws[0] = r & 0xffff, raws[1] = s16(r >> 16), raws[2] = s16(r >> 32), raws[3] = r >> 48 & 15;
        raws[4] = r >> 52 & 1, raws[5] = r >> 53 & 1, raws[6] = r >> 54 & 1, raws[7] = r >> 55 & 1;
        break;
    case 8: for (int i = 0; i < 6; i++) raws[i] = r >> (8 * i) & 0xff; break;
    case 9: raws[0] = r >> 48 & 0x3ff, raws[1] = r >> 63, raws[2] = r >> 40 & 1, raws[3] = r >> 41 & 1; break;
    case 10:
        raws[0] = r >> 48 & 0x3ff, raws[1] = r >> 63, raws[2] = r >> 40 & 7, raws[3] = r >> 43 & 1, raws[4] = r >> 44 & 1, raws[5] = r >> 32 & 7;
        for (int i = 0; i < 4; i++) raws[6 + i] = r >> (24 + i) & 1;
        for (int i = 0; i < 5; i++) raws[10 + i] = r >> (16 + i) & 1;
        break;
    case 11: for (int i = 0; i < 4; i++, r <<= 16) raws[3 * i] = s14(r >> 50), raws[3 * i + 1] = r >> 48 & 1, raws[3 * i + 2] = r >> 49 & 1; break;
    case 30: raws[0] = r & 1, raws[1] = r >> 1 & 1, raws[2] = r >> 8 & 1, raws[3] = r >> 9 & 1, raws[4] = r >> 10 & 1, raws[5] = r >> 16; break;
    case 31: bits(raws, 4, r), raws[4] = r >> 4; break;
    case 32: raws[0] = r & 0xffff; for (int i = 0; i < 4; i++) raws[1 + i] = r >> (16 + 8 * i) & 0xff; break;
    case 33: case 34: case 35: for (int i = 0; i < 4; i++) raws[i] = r >> (16 * i) & 0xffff; break;
    case 36: for (int i = 0; i < 3; i++) raws[i] = s16(r >> (16 * i)); break;
    case 37: bits(raws, 6, r), raws[6] = r >> 6 & 0x3ffffff; for (int i = 0; i < 4; i++) raws[7 + i] = r >> (32 + 8 * i) & 0xff; break;
    case 38: bits(raws, 4, r), raws[4] = r >> 4 & 0xfffffffff; for (int i = 0; i < 3; i++) raws[5 + i] = r >> (40 + 8 * i) & 0xff; break;
    case 39: bits(raws, 4, r), raws[4] = r >> 4 & 15; for (int i = 0; i < 6; i++) raws[5 + i] = r >> (8 + 8 * (i < 4 ? i : i + 1)) & 0xff; break;
    case 40: raws[0] = r & 0xff, raws[1] = r >> 8 & 0xffff, raws[2] = r >> 24; break;
    case 41: raws[0] = r & 0xff, raws[1] = r >> 8 & 0xff, raws[2] = r >> 16; break;
    case 42: raws[0] = s16(r); break;
    default: raws[0] = r & 0xff; break;
    }
    return kind;
}

static bool in(int64_t z, int64_t low, int64_t high) { return low <= z && z <= high; }

static bool flags(const int64_t *z, int n) {
    for (int i = 0; i < n; i++)
        if (!in(z[i], 0, 1)) return false;
    return true;
}

/* the number of n signals of so many bits each, one after the other; R7 is told where one does not hold its number */
static uint64_t joined(const int64_t *z, int n, int width, int negative, bool *bad) {
    uint64_t r = 0;
    int64_t most = ((int64_t)1 << (width - negative)) - 1;
    for (int i = 0; i < n; i++) {
        if (!in(z[i], negative ? -most - 1 : 0, most)) *bad = true;
        r |= ((uint64_t)z[i] & (((uint64_t)1 << width) - 1)) << (i * width);
    }
    return r;
}

static bool is_little(uint32_t kind) { return kind < 9 || kind >= 30; }

static void store(uint32_t kind, uint8_t *p, size_t n, uint64_t r) {
    if (is_little(kind)) for (size_t i = 0; i < n; i++) p[i] = (uint8_t)(r >> (8 * i));
    else for (size_t i = 0; i < n; i++) p[i] = (uint8_t)(r >> (56 - 8 * i));
}

uint32_t peer_write(uint32_t kind, const int64_t *z, size_t places, uint8_t *buffer, size_t room) {
    uint64_t r;
    size_t n;
    bool bad = false;
    if (places < ROKEMAIPU_SIGNALS) return R(7);
    switch (kind) {
    case 0:
        if (!in(z[0], 0, 65535) || !in(z[1], -32768, 32767) || !in(z[2], 0, 255) || !in(z[3], 0, 255) || !in(z[4], 0, 1) || !in(z[5], 0, 255)) return R(7);
        n = 8, r = (uint64_t)z[0] | (uint64_t)(uint16_t)z[1] << 16 | (uint64_t)z[2] << 32 | (uint64_t)z[3] << 40 | (uint64_t)z[4] << 48 | (uint64_t)z[5] << 56;
        break;
    case 1:
        if (!in(z[0], 0, 65535) || !in(z[1], 0, 65535) || !in(z[2], 0, 65535) || !in(z[3], -32768, 32767)) return R(7);
        n = 8, r = (uint64_t)z[0] | (uint64_t)z[1] << 16 | (uint64_t)z[2] << 32 | (uint64_t)(uint16_t)z[3] << 48;
        break;
    case 2: if (!in(z[0], 0, 13)) return R(7); n = 1, r = (uint64_t)z[0]; break;
    case 3: if (!in(z[0], 0, 7) || !in(z[1], 0, 4)) return R(7); n = 2, r = (uint64_t)z[0] | (uint64_t)z[1] << 8; break;
    case 5:
        if (!in(z[0], 0, 65535) || !in(z[1], -32768, 32767) || !in(z[2], -32768, 32767) || !in(z[3], 0, 15) || !(0x117 >> z[3] & 1) || !in(z[4], 0, 1) || !in(z[5], 0, 1)
            || !in(z[6], 0, 1) || !in(z[7], 0, 1))
            return R(7);
        n = 7, r = (uint64_t)z[0] | (uint64_t)(uint16_t)z[1] << 16 | (uint64_t)(uint16_t)z[2] << 32 | (uint64_t)z[3] << 48 | (uint64_t)z[4] << 52 | (uint64_t)z[5] << 53
            | (uint64_t)z[6] << 54 | (uint64_t)z[7] << 55;
        break;
    case 4: case 6: if (!in(z[0], 0, 1)) return R(7); n = 1, r = (uint64_t)z[0]; break;
    case 7: if (z[0] != 1 && z[0] != 3) return R(7); n = 1, r = (uint64_t)z[0]; break;
    case 8:
        n = 6, r = 0;
        for (int i = 0; i < 6; i++) {
            if (!in(z[i], 0, 255)) return R(7);
            r |= (uint64_t)z[i] << (8 * i);
        }
        break;
    case 9:
        if (!in(z[0], 0, 1023) || !flags(z + 1, 3)) return R(7);
        n = 8, r = (uint64_t)z[0] << 48 | (uint64_t)z[1] << 63 | (uint64_t)z[2] << 40 | (uint64_t)z[3] << 41;
        break;
    case 10:
        if (!in(z[0], 0, 1023) || !flags(z + 1, 1) || !in(z[2], 0, 7) || !flags(z + 3, 2) || !in(z[5], 0, 7) || !flags(z + 6, 9)) return R(7);
        n = 8, r = (uint64_t)z[0] << 48 | (uint64_t)z[1] << 63 | (uint64_t)z[2] << 40 | (uint64_t)z[3] << 43 | (uint64_t)z[4] << 44 | (uint64_t)z[5] << 32;
        for (int i = 0; i < 4; i++) r |= (uint64_t)z[6 + i] << (24 + i);
        for (int i = 0; i < 5; i++) r |= (uint64_t)z[10 + i] << (16 + i);
        break;
    case 11:
        n = 8, r = 0;
        for (int i = 0; i < 4; i++, z += 3) {
            if (!in(z[0], -8192, 8191) || !flags(z + 1, 2)) return R(7);
            r = r << 16 | ((uint64_t)z[0] & 0x3fff) << 2 | (uint64_t)z[2] << 1 | (uint64_t)z[1];
        }
        break;
    case 30: n = 3, r = joined(z, 2, 1, 0, &bad) | joined(z + 2, 3, 1, 0, &bad) << 8 | joined(z + 5, 1, 1, 0, &bad) << 16; break;
    case 31: n = 8, r = joined(z, 4, 1, 0, &bad) | joined(z + 4, 1, 60, 0, &bad) << 4; break;
    case 32: n = 6, r = joined(z, 1, 16, 0, &bad) | joined(z + 1, 4, 8, 0, &bad) << 16; break;
    case 33: n = 6, r = joined(z, 3, 16, 0, &bad); break;
    case 34: case 35: n = 8, r = joined(z, 4, 16, 0, &bad); break;
    case 36: n = 6, r = joined(z, 3, 16, 1, &bad); break;
    case 37: n = 8, r = joined(z, 6, 1, 0, &bad) | joined(z + 6, 1, 26, 0, &bad) << 6 | joined(z + 7, 4, 8, 0, &bad) << 32; break;
    case 38: n = 8, r = joined(z, 4, 1, 0, &bad) | joined(z + 4, 1, 36, 0, &bad) << 4 | joined(z + 5, 3, 8, 0, &bad) << 40; break;
    case 39: n = 8, r = joined(z, 4, 1, 0, &bad) | joined(z + 4, 1, 4, 0, &bad) << 4 | joined(z + 5, 4, 8, 0, &bad) << 8 | joined(z + 9, 2, 8, 0, &bad) << 48; break;
    case 40: n = 8, r = joined(z, 1, 8, 0, &bad) | joined(z + 1, 1, 16, 0, &bad) << 8 | joined(z + 2, 1, 40, 0, &bad) << 24, bad |= wrong_in(CCS, r) != 0; break;
    case 41: n = 8, r = joined(z, 2, 8, 0, &bad) | joined(z + 2, 1, 48, 0, &bad) << 16, bad |= wrong_in(MCS, r) != 0; break;
    case 42: n = 2, r = joined(z, 1, 16, 1, &bad); break;
    default: return R(7);
    }
    if (bad) return R(7);
    if (room < n) return R(8);
    store(kind, buffer, n, r);
    return (uint32_t)n;
}

/* A signal, its lowest bit in the payload number, and the numbers that have a label: all where that is 0. */
typedef struct { uint8_t kind, start, width, low, negative; uint16_t labels; } place;
static const place places[] = {
    {0, 0, 16, 0, 0, 0}, {0, 16, 16, 16, 1, 0}, {0, 32, 8, 32, 0, 0}, {0, 40, 8, 40, 0, 0}, {0, 48, 8, 48, 0, 3}, {0, 56, 8, 56, 0, 0},
    {1, 0, 16, 0, 0, 0}, {1, 16, 16, 16, 0, 0}, {1, 32, 16, 32, 0, 0}, {1, 48, 16, 48, 1, 0},
    {2, 0, 8, 0, 0, 0x3fff}, {3, 0, 8, 0, 0, 0xff}, {3, 8, 8, 8, 0, 0x1f}, {4, 0, 8, 0, 0, 3},
    {5, 0, 16, 0, 0, 0}, {5, 16, 16, 16, 1, 0}, {5, 32, 16, 32, 1, 0}, {5, 48, 4, 48, 0, 0x117},
    {5, 52, 1, 52, 0, 0}, {5, 53, 1, 53, 0, 0}, {5, 54, 1, 54, 0, 0}, {5, 55, 1, 55, 0, 0},
    {6, 0, 8, 0, 0, 3}, {7, 0, 8, 0, 0, 10},
    {8, 0, 8, 0, 0, 0}, {8, 8, 8, 8, 0, 0}, {8, 16, 8, 16, 0, 0}, {8, 24, 8, 24, 0, 0}, {8, 32, 8, 32, 0, 0}, {8, 40, 8, 40, 0, 0},
    {9, 1, 10, 48, 0, 0}, {9, 7, 1, 63, 0, 0}, {9, 16, 1, 40, 0, 0}, {9, 17, 1, 41, 0, 0},
    {10, 1, 10, 48, 0, 0}, {10, 7, 1, 63, 0, 0}, {10, 18, 3, 40, 0, 0}, {10, 19, 1, 43, 0, 0}, {10, 20, 1, 44, 0, 0}, {10, 26, 3, 32, 0, 0},
    {10, 32, 1, 24, 0, 0}, {10, 33, 1, 25, 0, 0}, {10, 34, 1, 26, 0, 0}, {10, 35, 1, 27, 0, 0},
    {10, 40, 1, 16, 0, 0}, {10, 41, 1, 17, 0, 0}, {10, 42, 1, 18, 0, 0}, {10, 43, 1, 19, 0, 0}, {10, 44, 1, 20, 0, 0},
    {11, 7, 14, 50, 1, 0}, {11, 8, 1, 48, 0, 0}, {11, 9, 1, 49, 0, 0}, {11, 23, 14, 34, 1, 0}, {11, 24, 1, 32, 0, 0}, {11, 25, 1, 33, 0, 0},
    {11, 39, 14, 18, 1, 0}, {11, 40, 1, 16, 0, 0}, {11, 41, 1, 17, 0, 0}, {11, 55, 14, 2, 1, 0}, {11, 56, 1, 0, 0, 0}, {11, 57, 1, 1, 0, 0},
    {30, 0, 1, 0, 0, 0}, {30, 1, 1, 1, 0, 0}, {30, 8, 1, 8, 0, 0}, {30, 9, 1, 9, 0, 0}, {30, 10, 1, 10, 0, 0}, {30, 16, 1, 16, 0, 0},
    {31, 0, 1, 0, 0, 0}, {31, 1, 1, 1, 0, 0}, {31, 2, 1, 2, 0, 0}, {31, 3, 1, 3, 0, 0}, {31, 4, 60, 4, 0, 0},
    {32, 0, 16, 0, 0, 0}, {32, 16, 8, 16, 0, 0}, {32, 24, 8, 24, 0, 0}, {32, 32, 8, 32, 0, 0}, {32, 40, 8, 40, 0, 0},
    {33, 0, 16, 0, 0, 0}, {33, 16, 16, 16, 0, 0}, {33, 32, 16, 32, 0, 0},
    {34, 0, 16, 0, 0, 0}, {34, 16, 16, 16, 0, 0}, {34, 32, 16, 32, 0, 0}, {34, 48, 16, 48, 0, 0},
    {35, 0, 16, 0, 0, 0}, {35, 16, 16, 16, 0, 0}, {35, 32, 16, 32, 0, 0}, {35, 48, 16, 48, 0, 0},
    {36, 0, 16, 0, 1, 0}, {36, 16, 16, 16, 1, 0}, {36, 32, 16, 32, 1, 0},
    {37, 0, 1, 0, 0, 0}, {37, 1, 1, 1, 0, 0}, {37, 2, 1, 2, 0, 0}, {37, 3, 1, 3, 0, 0}, {37, 4, 1, 4, 0, 0}, {37, 5, 1, 5, 0, 0},
    {37, 6, 26, 6, 0, 0}, {37, 32, 8, 32, 0, 0}, {37, 40, 8, 40, 0, 0}, {37, 48, 8, 48, 0, 0}, {37, 56, 8, 56, 0, 0},
    {38, 0, 1, 0, 0, 0}, {38, 1, 1, 1, 0, 0}, {38, 2, 1, 2, 0, 0}, {38, 3, 1, 3, 0, 0}, {38, 4, 36, 4, 0, 0}, {38, 40, 8, 40, 0, 0},
    {38, 48, 8, 48, 0, 0}, {38, 56, 8, 56, 0, 0},
    {39, 0, 1, 0, 0, 0}, {39, 1, 1, 1, 0, 0}, {39, 2, 1, 2, 0, 0}, {39, 3, 1, 3, 0, 0}, {39, 4, 4, 4, 0, 0}, {39, 8, 8, 8, 0, 0},
    {39, 16, 8, 16, 0, 0}, {39, 24, 8, 24, 0, 0}, {39, 32, 8, 32, 0, 0}, {39, 48, 8, 48, 0, 0}, {39, 56, 8, 56, 0, 0},
    {40, 0, 8, 0, 0, 0x1249}, {40, 8, 16, 8, 0, 0}, {40, 24, 40, 24, 0, 0},
    {41, 0, 8, 0, 0, 0x3ff}, {41, 8, 8, 8, 0, 15}, {41, 16, 48, 16, 0, 0},
    {42, 0, 16, 0, 1, 0},
};

uint32_t peer_change(uint32_t id, bool extended, uint8_t *p, size_t n, uint32_t start, int64_t z) {
    static const uint8_t firsts[] = {0, 6, 10, 11, 13, 14, 22, 23, 24, 30, 34, 49, 61, 67, 72, 77, 80, 84, 88, 91, 102, 110, 121, 124, 127, sizeof places / sizeof *places};
    uint64_t r;
    uint32_t kind = judge(id, extended, p, n, &r);
    if (kind >= ROKEMAIPU_REFUSED) return kind;
    const uint8_t *first = firsts + (kind < 12 ? kind : kind - 18);
    const place *s = places + first[0], *end = places + first[1];
    while (s < end && s->start != start) s++;
    if (s == end) return R(13);
    int64_t most = ((int64_t)1 << (s->width - s->negative)) - 1;
    if (!in(z, s->negative ? -most - 1 : 0, most)) return R(7);
    if (s->labels && (z > 15 || !(s->labels >> z & 1))) return R5(start);
    if (is_little(kind) && start % 8 == 0 && s->width % 8 == 0) {
        for (size_t i = 0; i < s->width / 8; i++) p[start / 8 + i] = (uint8_t)(z >> (8 * i));
        return 0;
    }
    uint64_t ones = (((uint64_t)1 << s->width) - 1) << s->low;
    r = (r & ~ones) | ((uint64_t)z << s->low & ones);
    store(kind, p, n, r);
    return 0;
}

static uint64_t since(uint64_t now, uint64_t from) { return from <= now ? now - from : 0; }

static bool poor(uint32_t sensor, uint64_t r) { return sensor == ROKEMAIPU_YES_NO ? !(r >> 56) : (r >> 56) * 200 < (r & 0xffff); }

static bool powered(uint64_t f) { return f == 2 || f == 4 || f == 8; }

/* ---- the watch, on the library's own table and on one that a C programmer would write */

#define TABLE rokemaipu_table
#define POST rokemaipu_post
#define SESSION rokemaipu_session
#define SLOT rokemaipu_slot
#define HEAD(p) ((p)->head)
#define STATUS(s) ((s)->kept[ROKEMAIPU_KEPT_STATUS])
#define CONTROL(s) ((s)->kept[ROKEMAIPU_KEPT_CONTROL])
#define STOP(s) ((s)->kept[ROKEMAIPU_KEPT_STOP])
#define CONTROLLER(p) ((p)->head.controller)
#define PARAMETERS(p) ((p)->head.parameters)
#define KEEP_IN_HEAD(p, role, slot) do { if (role == CONTROLLER_OF) (p)->head.controller = slot; if (role == LIMITS_TOLD) (p)->head.parameters = slot; } while (0)
#define SET(flag) ((flag) == 1)
#define NAMED(name) peer_##name
#include "peer_watch.h"

#undef TABLE
#undef POST
#undef SESSION
#undef SLOT
#undef HEAD
#undef STATUS
#undef CONTROL
#undef STOP
#undef CONTROLLER
#undef PARAMETERS
#undef KEEP_IN_HEAD
#undef SET
#undef NAMED
#define TABLE peer_table
#define POST peer_post
#define SESSION peer_session
#define SLOT peer_slot
#define HEAD(p) (*(p))
#define STATUS(s) ((s)->status)
#define CONTROL(s) ((s)->control)
#define STOP(s) ((s)->stop)
#define CONTROLLER(p) ((p)->latest[(p)->limits.interface == ROKEMAIPU_OLDER ? 14 : 2])
#define PARAMETERS(p) ((p)->latest[1])
#define KEEP_IN_HEAD(p, role, slot)
#define SET(flag) (flag)
#define NAMED(name) own_##name
#include "peer_watch.h"

uint32_t own_start(rokemaipu_table *memory) {
    *(peer_table *)memory = (peer_table){0};
    return 0;
}

/* Without set-up's refusals: nothing is timed here. */
uint32_t own_set_up(rokemaipu_table *memory, uint32_t post, uint32_t channel, uint32_t voltage, uint32_t charge, uint32_t discharge, uint32_t silence, uint32_t sensor, uint32_t interface) {
    peer_table *t = (peer_table *)memory;
    t->posts[post] = (peer_post){.used = true, .channel = channel, .limits = {voltage, charge, discharge, silence, sensor, interface}};
    t->index[channel] = (uint8_t)(post + 1);
    return 0;
}
