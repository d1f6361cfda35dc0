/* 02, Req 14: the rest of document 000 from C, from Sequence_Control to OCPP_Control: each of the thirteen messages read, written back and changed, by its
 * bytes and as plain C does it; Reserved signals of up to 60 bits carried; bits that no signal covers; and on posts of both interfaces. Prints a line for
 * each part and 'ok', or says what was wrong and where, and exits 1. */
#include "trips.h"

#include "peer.h"

enum { FIRST = ROKEMAIPU_SEQUENCE_CONTROL, REST = ROKEMAIPU_KINDS - FIRST, NEW = 4, OLD = 5 };

static void there_and_back(void) {
    const uint32_t uncovered[2] = {ROKEMAIPU_SEQUENCE_CONTROL, ROKEMAIPU_ADM_CS_SPCC_INPUTS};
    trips(FIRST, REST, rokemaipu_read, rokemaipu_write, rokemaipu_read_older, rokemaipu_write_older, uncovered);
    bit_by_bit(ROKEMAIPU_SEQUENCE_CONTROL, rokemaipu_read, SEQUENCE_CONTROL_COVERED);
    bit_by_bit(ROKEMAIPU_ADM_CS_SPCC_INPUTS, rokemaipu_read, SPCC_INPUTS_COVERED);
    puts("rest: thirteen messages there and back; 4, 15 and 6, for each bit that no signal covers");
}

/* ---- a frame of each, and what its page makes of it */

static const struct { uint32_t kind; uint8_t bytes[8]; int64_t raws[ROKEMAIPU_SIGNALS]; } said[REST] = {
    {ROKEMAIPU_SEQUENCE_CONTROL, {0x02, 0x05, 0x01}, {0, 1, 1, 0, 1, 1}},
    {ROKEMAIPU_ADM_CS_SECC_OUTPUTS, {0xf5, 0xff, 0xff, 0xff, 0xff, 0xff, 0xff, 0xff}, {1, 0, 1, 0, (1ll << 60) - 1}},
    {ROKEMAIPU_EV_INFORMATION_BATTERY, {0x4b, 0x01, 37, 10, 80, 100}, {331, 37, 10, 80, 100}},
    {ROKEMAIPU_EV_INFORMATION_VOLTAGES, {0xc4, 0x09, 0x28, 0x23, 0xa0, 0x0f}, {2500, 9000, 4000}},
    {ROKEMAIPU_EV_INFORMATION_CHARGE_LIMITS, {10, 0, 0xff, 0xff, 1, 0, 0x5e, 0x01}, {10, 65535, 1, 350}},
    {ROKEMAIPU_EV_INFORMATION_DISCHARGE_LIMITS, {11, 0, 0x00, 0x80, 2, 0, 0x5f, 0x01}, {11, 32768, 2, 351}},
    {ROKEMAIPU_EV_INFORMATION_ENERGY, {0xff, 0xff, 0x00, 0x80, 0xff, 0x7f}, {-1, -32768, 32767}},
    {ROKEMAIPU_ADM_CO_CUI1_INPUTS, {0xe1, 0xff, 0xff, 0xbf, 65, 66, 67, 255}, {1, 0, 0, 0, 0, 1, 0x2ffffff, 65, 66, 67, 255}},
    {ROKEMAIPU_ADM_CS_SECC_INPUTS, {0x18, 0, 0, 0, 0x80, 65, 66, 67}, {0, 0, 0, 1, 0x800000001, 65, 66, 67}},
    {ROKEMAIPU_ADM_CS_SPCC_INPUTS, {0xa6, 1, 2, 3, 4, 0, 6, 7}, {0, 1, 1, 0, 10, 1, 2, 3, 4, 6, 7}},
    {ROKEMAIPU_CCS_EXTRA_INFORMATION, {9, 0xe9, 0x03, 1, 0, 0, 0, 0x80}, {ROKEMAIPU_CCS_EXTRA_INFORMATION_CP_STATE_B, 1001, 0x8000000001}},
    {ROKEMAIPU_MCS_EXTRA_INFORMATION, {7, 3, 1, 0, 0, 0, 0, 0x80},
        {ROKEMAIPU_MCS_EXTRA_INFORMATION_CE_STATE_C_AUX, ROKEMAIPU_MCS_EXTRA_INFORMATION_ID_STATE_MATED_EVSEAUX, 0x800000000001}},
    {ROKEMAIPU_OCPP_CONTROL, {0x83, 0xff}, {-125}},
};

static void by_bytes(void) {
    for (uint32_t i = 0; i < REST; i++) {
        uint32_t kind = said[i].kind, length = lengths_of[kind];
        int64_t raws[ROKEMAIPU_SIGNALS];
        uint8_t buffer[8];
        IS(kind, FIRST + i);
        IS(rokemaipu_read(ids_of[kind], true, said[i].bytes, length, raws, ROKEMAIPU_SIGNALS), kind);
        IS(memcmp(raws, said[i].raws, sizeof raws), 0);
        IS(rokemaipu_write(kind, said[i].raws, ROKEMAIPU_SIGNALS, buffer, 8), length);
        IS(memcmp(buffer, said[i].bytes, length), 0);
        IS(rokemaipu_read(ids_of[kind], false, said[i].bytes, length, raws, ROKEMAIPU_SIGNALS), R(3));
        IS(rokemaipu_read_older(ids_of[kind], true, said[i].bytes, length, raws, ROKEMAIPU_SIGNALS), R(3));
    }
    puts("rest: a frame of each by its bytes and its raw numbers, Reserved of 4, 26, 36, 40, 48 and 60 bits among them");
}

/* read, written and changed as plain C does it, with raw numbers on both sides of what a signal holds */
static void as_plain_c(void) {
    static const int64_t edges[] = {-1, 0, 1, 2, 3, 4, 8, 9, 10, 12, 13, 255, 256, 32767, 32768, -32768, -32769, 65535, 65536, (1ll << 60) - 1, 1ll << 60, INT64_MIN, INT64_MAX};
    uint32_t seen[32] = {0};
    for (uint32_t turn = 0; turn < 400000 && !bad; turn++) {
        uint32_t kind = FIRST + below(REST), id = ids_of[kind], length = lengths_of[kind];
        uint8_t ours[8], plain[8];
        int64_t raws[ROKEMAIPU_SIGNALS] = {0}, want[ROKEMAIPU_SIGNALS] = {0};
        uint32_t most = below(2) ? 4 : 256;
        for (uint32_t i = 0; i < 8; i++) ours[i] = plain[i] = (uint8_t)below(most);
        uint32_t word = peer_read(id, true, plain, length, want, ROKEMAIPU_SIGNALS);
        IS(rokemaipu_read(id, true, ours, length, raws, ROKEMAIPU_SIGNALS), word);
        IS(memcmp(raws, want, sizeof raws), 0);
        seen[rokemaipu_refusal(word)]++;
        int64_t raw = below(3) ? edges[below(sizeof edges / sizeof *edges)] : (int64_t)below(300);
        uint32_t start = below(70);
        word = peer_change(id, true, plain, length, start, raw);
        IS(rokemaipu_change(id, true, ours, length, start, raw), word);
        IS(memcmp(ours, plain, 8), 0);
        seen[rokemaipu_refusal(word)]++;
        raws[below(ROKEMAIPU_SIGNALS)] = raw;
        size_t room = below(4) ? 8 : below(9);
        word = peer_write(kind, raws, ROKEMAIPU_SIGNALS, plain, room);
        IS(rokemaipu_write(kind, raws, ROKEMAIPU_SIGNALS, ours, room), word);
        IS(memcmp(ours, plain, 8), 0);
        seen[rokemaipu_refusal(word)]++;
    }
    IS(seen[0] && seen[5] && seen[6] && seen[7] && seen[8] && seen[13], true);
    puts("rest: read, written and changed as plain C does it; 5, 6, 7, 8 and 13");
}

static void changes(void) {
    uint8_t outputs[8] = {0x0f}, energy[6] = {0}, control[3] = {0}, charge[8] = {0};
    IS(rokemaipu_change(0x63201, true, outputs, 8, 4, (1ll << 60) - 1), 0);
    IS(memcmp(outputs, (const uint8_t[]){255, 255, 255, 255, 255, 255, 255, 255}, 8), 0);
    IS(rokemaipu_change(0x63201, true, outputs, 8, 4, 1ll << 60), R(7));
    IS(rokemaipu_change(0x63201, true, outputs, 8, 3, 0), 0);
    IS(outputs[0], 0xf7);
    IS(rokemaipu_change(0x6b104, true, energy, 6, 16, -2), 0);
    IS(rokemaipu_change(0x6b104, true, energy, 6, 16, 65534), R(7)); /* signed */
    IS(memcmp(energy, (const uint8_t[]){0, 0, 0xfe, 0xff, 0, 0}, 6), 0);
    IS(rokemaipu_change(0x6b102, true, charge, 8, 16, 65534), 0);
    IS(rokemaipu_change(0x6b102, true, charge, 8, 16, -2), R(7)); /* unsigned */
    IS(rokemaipu_change(0x63002, true, control, 3, 16, ROKEMAIPU_SEQUENCE_CONTROL_USER_STOP_BUTTON_PRESSED), 0);
    IS(rokemaipu_change(0x63002, true, control, 3, 17, 1), R(13)); /* no signal starts there */
    IS(control[0] == 0 && control[1] == 0 && control[2] == 1, true);
    control[1] = 8;
    IS(rokemaipu_change(0x63002, true, control, 3, 16, 0), R(6));
    uint8_t pilot[8] = {0};
    IS(rokemaipu_change(0x6b203, true, pilot, 8, 0, 1), R(5));
    IS(rokemaipu_change(0x6b204, true, pilot, 8, 8, 4), R(5) + 256 * 8);
    puts("rest: a Reserved signal of 60 bits, a signed and an unsigned one, labels and gaps changed");
}

/* ---- on posts: accepted where 3 was given, and 29 on a post of the older interface */

static rokemaipu_table t;

static void watched(void) {
    memset(&t, 0, sizeof t);
    IS(rokemaipu_set_up(&t, 0, NEW, 5000, 1000, 500, 500, 0, ROKEMAIPU_NEWER), 0);
    IS(rokemaipu_set_up(&t, 1, OLD, 5000, 1000, 500, 500, 0, ROKEMAIPU_OLDER), 0);
    for (uint32_t i = 0; i < REST; i++) {
        uint32_t kind = said[i].kind, id = ids_of[kind], length = lengths_of[kind];
        rokemaipu_head before = t.posts[1].head;
        IS(rokemaipu_frame(&t, NEW, 10 + i, id, true, said[i].bytes, length), 0);
        IS(rokemaipu_frame(&t, NEW, 10 + i, id, false, said[i].bytes, length), R(3));
        IS(rokemaipu_frame(&t, NEW, 9 + i, id, true, said[i].bytes, length), R(2));
        IS(rokemaipu_frame(&t, NEW, 10 + i, id, true, said[i].bytes, length - 1), R(4));
        IS(rokemaipu_frame(&t, OLD, 10 + i, id, true, said[i].bytes, length), R(29));
        IS(rokemaipu_frame(&t, OLD, 10 + i, id, true, said[i].bytes, length - 1), R(29));
        IS(rokemaipu_frame(&t, OLD, 10 + i, id, false, said[i].bytes, length), R(3));
        IS(memcmp(&before, &t.posts[1].head, sizeof before), 0);
    }
    for (uint32_t i = 0; i < REST; i++) {
        uint32_t kind = said[i].kind, length = lengths_of[kind], times[ROKEMAIPU_TIMES];
        const rokemaipu_slot *slot = &t.posts[0].latest[kind - 18];
        uint8_t buffer[8];
        IS(slot->known == 1 && slot->kind == kind && slot->time == 10 + i, true);
        IS(rokemaipu_latest(&t, 0, kind, times, ROKEMAIPU_TIMES, buffer, 8), length);
        IS(times[ROKEMAIPU_WHEN] == 10 + i && times[ROKEMAIPU_WHEN_AGE] == REST - 1 - i && times[ROKEMAIPU_WHEN_KIND] == kind, true);
        IS(memcmp(buffer, said[i].bytes, length), 0);
        IS(rokemaipu_latest(&t, 1, kind, times, ROKEMAIPU_TIMES, buffer, 8), 0);
    }
    IS(t.posts[0].head.counts[ROKEMAIPU_ACCEPTED], REST);
    IS(rokemaipu_refused(&t), 6 * REST);
    for (uint32_t place = 0; place < ROKEMAIPU_PLACES; place++) IS(t.posts[0].latest[place].known, place >= 12);
    uint8_t gap[8] = {0, 0, 0, 0, 0, 1, 0, 0};
    rokemaipu_post before = t.posts[0];
    IS(rokemaipu_frame(&t, NEW, 90, ids_of[ROKEMAIPU_SEQUENCE_CONTROL], true, (const uint8_t[]){4, 0, 0}, 3), R(6));
    IS(rokemaipu_frame(&t, NEW, 90, ids_of[ROKEMAIPU_ADM_CS_SPCC_INPUTS], true, gap, 8), R(6));
    IS(memcmp(&before, &t.posts[0], sizeof before), 0);
    puts("rest: on a newer post accepted and kept, each at its place; on an older one 29");
}

/* 02, reading R10: "The thirteen new messages raise only F1 and F2" */
static void found(void) {
    for (uint32_t i = 0; i < REST; i++) {
        uint32_t id = ids_of[said[i].kind], length = lengths_of[said[i].kind];
        memset(&t, 0, sizeof t);
        IS(rokemaipu_set_up(&t, 0, NEW, 5000, 1000, 500, 500, 0, ROKEMAIPU_NEWER), 0);
        IS(rokemaipu_frame(&t, NEW, 0, id, true, said[i].bytes, length), 0);
        IS(t.posts[0].head.session.opened, 0);
        IS(rokemaipu_frame(&t, NEW, 0, 0x6b000, true, (const uint8_t[]){7}, 1), 0);
        IS(rokemaipu_frame(&t, NEW, 0, 0x6b001, true, (const uint8_t[]){2, 1}, 2), 0);
        rokemaipu_head opened = t.posts[0].head;
        IS(rokemaipu_frame(&t, NEW, 200, id, true, said[i].bytes, length), 0);
        IS(memcmp(&opened.session, &t.posts[0].head.session, sizeof opened.session), 0);
        IS(memcmp(&opened.parameters, &t.posts[0].head.parameters, sizeof opened.parameters), 0);
        IS(memcmp(&opened.controller, &t.posts[0].head.controller, sizeof opened.controller), 0);
        IS(rokemaipu_frame(&t, NEW, 201, id, true, said[i].bytes, length), ROKEMAIPU_F(2));
        IS(rokemaipu_frame(&t, NEW, 500, id, true, said[i].bytes, length), ROKEMAIPU_F(2));
        IS(rokemaipu_frame(&t, NEW, 501, id, true, said[i].bytes, length), ROKEMAIPU_F(1) | ROKEMAIPU_F(2));
    }
    puts("rest: F1 and F2 alone; no session opened, no limit and no controller status told");
}

int main(void) {
    there_and_back();
    by_bytes();
    as_plain_c();
    changes();
    watched();
    found();
    puts(bad ? "BAD" : "ok");
    return bad;
}
