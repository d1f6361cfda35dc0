/* The C interface, from C: layout, paper 01's readings, any input, and nothing outside the lent memory changed.
 * Prints a line for each part and 'ok', or says what was wrong and where, and exits 1. */
#include "fence.h"
#include "peer.h"
#include "tables.h"

/* ---- tables have no padding */

static bool same_post(const rokemaipu_post *p, const rokemaipu_post *q) { return !memcmp(p, q, sizeof *p); }

static bool same_table(const rokemaipu_table *a, const rokemaipu_table *b) { return !memcmp(a, b, sizeof *a); }

/* ---- the layout that the archive has */

static void layout(void) {
    IS(rokemaipu_layout(), ROKEMAIPU_LAYOUT);
    IS(rokemaipu_layout(), 13576 + 16 * (1ull << 32) + 25 * (1ull << 40) + 7 * (1ull << 48));
    rokemaipu_table t, zero;
    memset(&t, 0, sizeof t);
    memset(&zero, 0, sizeof zero);
    IS(rokemaipu_set_up(&t, 15, 31, 1, 2, 3, 100, ROKEMAIPU_YES_NO, ROKEMAIPU_NEWER), 0);
    IS(t.posts[15].head.used, 1);
    IS(t.posts[15].head.channel, 31);
    IS(t.posts[15].head.limits.voltage, 1);
    IS(t.posts[15].head.limits.charge, 2);
    IS(t.posts[15].head.limits.discharge, 3);
    IS(t.posts[15].head.limits.silence, 100);
    IS(t.posts[15].head.limits.sensor, 1);
    IS(t.posts[15].head.limits.interface, 0);
    for (uint32_t channel = 0; channel < ROKEMAIPU_CHANNELS; channel++) IS(t.index[channel], channel == 31 ? 16 : 0);
    IS(rokemaipu_frame(&t, 31, 9, 0x6b001, true, (const uint8_t[]){2, 1}, 2), 0);
    IS(rokemaipu_frame(&t, 31, 10, 0x63000, true, (const uint8_t[]){1, 2, 3, 4, 5, 6, 1, 8}, 8), ROKEMAIPU_F(8)); /* 0x0403 tenths of an ampere, above 2 */
    IS(t.posts[15].head.heard, 1);
    IS(t.posts[15].head.time, 10);
    IS(t.posts[15].latest[ROKEMAIPU_POWER_MODULES_STATUS].known, 1);
    IS(t.posts[15].latest[ROKEMAIPU_POWER_MODULES_STATUS].time, 10);
    IS(t.posts[15].latest[ROKEMAIPU_POWER_MODULES_STATUS].raw, 0x0801060504030201u);
    IS(t.posts[15].head.session.opened, 1);
    IS(t.posts[15].head.session.since, 9);
    IS(t.posts[15].head.session.first, 0x0102);
    IS(t.posts[15].head.session.kept[ROKEMAIPU_KEPT_STATUS].raw, 0x0801060504030201u);
    IS(t.posts[15].head.session.kept[ROKEMAIPU_KEPT_CONTROL].known, 0);
    IS(rokemaipu_frame(&t, 31, 11, 0x6b000, true, (const uint8_t[]){7}, 1), 0);
    IS(rokemaipu_frame(&t, 31, 11, 0x63001, true, (const uint8_t[]){1, 2, 3, 4, 5, 6, 7, 8}, 8), 0);
    IS(t.posts[15].head.controller.raw, 7);
    IS(t.posts[15].head.parameters.raw, 0x0807060504030201u);
    IS(memcmp(&t.posts[15].head.controller, &t.posts[15].latest[ROKEMAIPU_CONTROLLER_STATUS], sizeof(rokemaipu_slot)), 0);
    IS(memcmp(&t.posts[15].head.parameters, &t.posts[15].latest[ROKEMAIPU_DC_POWER_PARAMETERS], sizeof(rokemaipu_slot)), 0);
    IS(rokemaipu_frame(&t, 31, 11, 8, false, (const uint8_t[]){1, 2, 3, 4, 5, 6, 7, 8}, 8), 0);
    IS(t.posts[15].latest[ROKEMAIPU_PT1000_STATE].raw, 0x0102030405060708u); /* byte 0 highest */
    IS(t.posts[15].head.session.kept[ROKEMAIPU_KEPT_STOP].known, 0);
    IS(rokemaipu_frame(&t, 31, 12, 0x6b005, true, (const uint8_t[]){3}, 1), 0);
    IS(t.posts[15].head.session.kept[ROKEMAIPU_KEPT_STOP].raw, 3);
    IS(memcmp(&t.posts[15].head.session.kept[ROKEMAIPU_KEPT_STOP], &t.posts[15].latest[ROKEMAIPU_EMERGENCY_STOP], sizeof(rokemaipu_slot)), 0);
    IS(rokemaipu_frame(&t, 31, 12, 0x6b003, true, (const uint8_t[]){0, 0, 0, 0, 0, 0, 4}, 7), ROKEMAIPU_F(12));
    for (int k = 0; k < ROKEMAIPU_COUNTS; k++) IS(t.posts[15].head.counts[k], !k ? 7 : k == 8 || k == 12);
    IS(rokemaipu_tick(&t, 30, 12), R(1));
    IS(t.refused, 1);
    IS(rokemaipu_start(&t), 0);
    IS(same_table(&t, &zero), 1);
    puts("layout: as the header says; zeroed memory is the started table");
}

/* ---- E1 to E16 */

static const uint8_t e1[8] = {0xa0, 0x0f, 0x83, 0xff, 0x41, 0x00, 0x01, 0x64};

static void frames(void) {
    int64_t raws[ROKEMAIPU_SIGNALS];
    IS(rokemaipu_read(0x63000, true, e1, 8, raws, ROKEMAIPU_SIGNALS), ROKEMAIPU_POWER_MODULES_STATUS); /* E1 */
    const int64_t want[ROKEMAIPU_SIGNALS] = {4000, -125, 65, 0, 1, 100};
    IS(memcmp(raws, want, sizeof want), 0);
    IS(rokemaipu_read(0x63003, true, e1, 8, raws, ROKEMAIPU_SIGNALS), R(3)); /* E4 */
    IS(rokemaipu_read(0x63000, false, e1, 8, raws, ROKEMAIPU_SIGNALS), R(3));
    IS(rokemaipu_read(0x63000, true, e1, 8, raws, ROKEMAIPU_SIGNALS - 1), R(8));
    IS(rokemaipu_read(0x6b001, true, (const uint8_t[]){2, 1}, 2, raws, ROKEMAIPU_SIGNALS), ROKEMAIPU_NEW_CHARGE_SESSION); /* E15 */
    IS(raws[0], 2);
    IS(raws[1], 1);
    uint8_t buf[10];
    memset(buf, 0x55, sizeof buf);
    int64_t hot[ROKEMAIPU_SIGNALS] = {4000, -125, 255, 0, 1, 100, 9, 9};
    IS(rokemaipu_write(0, hot, ROKEMAIPU_SIGNALS, buf, 10), 8); /* E5: 215 °C is raw 255 */
    IS(memcmp(buf, (const uint8_t[]){0xa0, 0x0f, 0x83, 0xff, 0xff, 0x00, 0x01, 0x64, 0x55, 0x55}, 10), 0);
    hot[2] = 256;
    IS(rokemaipu_write(0, hot, ROKEMAIPU_SIGNALS, buf, 10), R(7));
    IS(rokemaipu_write(0, hot, ROKEMAIPU_SIGNALS, buf, 7), R(7));
    hot[2] = 65;
    IS(rokemaipu_write(0, hot, ROKEMAIPU_SIGNALS, buf, 7), R(8));
    IS(rokemaipu_write(0, hot, ROKEMAIPU_SIGNALS - 1, buf, 10), R(7));
    IS(rokemaipu_write(ROKEMAIPU_KINDS, hot, ROKEMAIPU_SIGNALS, buf, 10), R(7));
    hot[4] = 2;
    IS(rokemaipu_write(0, hot, ROKEMAIPU_SIGNALS, buf, 10), R(7)); /* no label */
    uint8_t c[8];
    memcpy(c, e1, 8);
    IS(rokemaipu_change(0x63000, true, c, 8, 16, -1), 0); /* E7 */
    IS(memcmp(c, (const uint8_t[]){0xa0, 0x0f, 0xff, 0xff, 0x41, 0x00, 0x01, 0x64}, 8), 0);
    IS(rokemaipu_change(0x63000, true, c, 8, 17, 0), R(13));
    IS(rokemaipu_change(0x63000, true, c, 8, 16, 32768), R(7));
    puts("frames: E1, E4 to E7, E15");
}

/* ---- 02: refusal 5 "is to carry the start bit of the first offending signal, lowest start first", and "4 when too short, 15 when too long" */

static void refuses(int line, uint32_t word, uint32_t number, uint32_t start) {
    is(line, "the refusal's number", rokemaipu_refusal(word), number);
    is(line, "the start bit", rokemaipu_start_bit(word), start);
    is(line, "the word", word, R(number) + 256 * start);
}
#define REFUSES(word, number, start) refuses(__LINE__, word, number, start)

static const uint8_t e3[8] = {0xa0, 0x0f, 0x83, 0xff, 0x41, 0x00, 0x02, 0x64};

static void refused_frames(void) {
    int64_t raws[ROKEMAIPU_SIGNALS];
    REFUSES(rokemaipu_read(0x63000, true, e1, 7, raws, ROKEMAIPU_SIGNALS), 4, 0); /* E2 */
    REFUSES(rokemaipu_read(0x63000, true, e3, 8, raws, ROKEMAIPU_SIGNALS), 5, 48); /* E3 */
    REFUSES(rokemaipu_read(0x6b001, true, NULL, 0, raws, ROKEMAIPU_SIGNALS), 4, 0); /* E16 */
    REFUSES(rokemaipu_read(0x63000, true, (const uint8_t[9]){0}, 9, raws, ROKEMAIPU_SIGNALS), 15, 0);
    REFUSES(rokemaipu_read(0x6b001, true, (const uint8_t[]){8, 5, 0}, 3, raws, ROKEMAIPU_SIGNALS), 15, 0); /* before the labels */
    REFUSES(rokemaipu_read(0x6b001, true, (const uint8_t[]){8}, 1, raws, ROKEMAIPU_SIGNALS), 4, 0);
    REFUSES(rokemaipu_read(0x6b001, true, (const uint8_t[]){8, 5}, 2, raws, 0), 5, 0); /* two offend; before 8 */
    REFUSES(rokemaipu_read(0x6b001, true, (const uint8_t[]){7, 5}, 2, raws, ROKEMAIPU_SIGNALS), 5, 8);
    REFUSES(rokemaipu_read(0x6b001, true, (const uint8_t[]){8, 4}, 2, raws, ROKEMAIPU_SIGNALS), 5, 0);
    IS(rokemaipu_read(0x6b001, true, (const uint8_t[]){7, 4}, 2, raws, ROKEMAIPU_SIGNALS), ROKEMAIPU_NEW_CHARGE_SESSION);
    rokemaipu_table t;
    memset(&t, 0, sizeof t);
    IS(rokemaipu_set_up(&t, 0, 4, 5000, 1000, 500, 500, 0, 0), 0);
    REFUSES(rokemaipu_frame(&t, 4, 0, 0x63000, true, e1, 7), 4, 0);
    REFUSES(rokemaipu_frame(&t, 4, 0, 0x63000, true, e3, 8), 5, 48);
    REFUSES(rokemaipu_frame(&t, 4, 0, 0x6b001, true, (const uint8_t[]){8, 5}, 2), 5, 0);
    REFUSES(rokemaipu_frame(&t, 4, 0, 0x6b001, true, (const uint8_t[]){7, 5}, 2), 5, 8);
    REFUSES(rokemaipu_frame(&t, 4, 0, 0x6b001, true, (const uint8_t[]){8, 5, 0}, 3), 15, 0);
    REFUSES(rokemaipu_frame(&t, 5, 0, 0x6b001, true, (const uint8_t[]){8, 5}, 2), 1, 0);
    IS(t.posts[0].head.heard, 0);
    for (uint32_t answer = 0; answer < ROKEMAIPU_REFUSED; answer++)
        if (rokemaipu_refusal(answer) || rokemaipu_start_bit(answer)) IS(answer, 0); /* findings are no refusal */
    puts("refused frames: E2, E3, E16; too long; two signals without a label");
}

static void refused_changes(void) {
    uint8_t c[9] = {0};
    memcpy(c, e1, 8);
    REFUSES(rokemaipu_change(0x63000, true, c, 7, 17, 0), 4, 0); /* the frame's own go first */
    REFUSES(rokemaipu_change(0x63000, true, c, 9, 17, 0), 15, 0);
    REFUSES(rokemaipu_change(0x63000, true, c, 8, 17, 0), 13, 0);
    REFUSES(rokemaipu_change(0x63000, true, c, 8, 48, 256), 7, 0);
    REFUSES(rokemaipu_change(0x63000, true, c, 8, 48, 2), 5, 48); /* the new label */
    IS(memcmp(c, e1, 8), 0);
    memcpy(c, e3, 8);
    REFUSES(rokemaipu_change(0x63000, true, c, 8, 17, 0), 5, 48); /* the frame's */
    uint8_t session[2] = {2, 1};
    REFUSES(rokemaipu_change(0x6b001, true, session, 2, 0, 8), 5, 0);
    REFUSES(rokemaipu_change(0x6b001, true, session, 2, 8, 5), 5, 8);
    session[1] = 5;
    REFUSES(rokemaipu_change(0x6b001, true, session, 2, 0, 8), 5, 8); /* the frame's before the new one's */
    puts("refused changes: the frame's own, then 13, 7, and 5 with the changed signal's start bit");
}

/* ---- 02: "Duty 53.3 % with PWM active begins 82 15; -10.0 °C in the first probe is FE 70" */

static void trips(int line, uint32_t id, const uint8_t bytes[8], const int64_t want[ROKEMAIPU_SIGNALS]) {
    int64_t raws[ROKEMAIPU_SIGNALS];
    uint8_t back[8];
    uint32_t kind = rokemaipu_read(id, false, bytes, 8, raws, ROKEMAIPU_SIGNALS);
    is(line, "the kind", kind, id + 3);
    is(line, "the raw numbers, other", memcmp(raws, want, sizeof raws) != 0, 0);
    is(line, "the bytes written", rokemaipu_write(kind, want, ROKEMAIPU_SIGNALS, back, 8), 8);
    is(line, "the bytes, other", memcmp(back, bytes, 8) != 0, 0);
}
#define BYTES(...) (const uint8_t[8]){__VA_ARGS__}
#define TRIPS(id, bytes, ...) trips(__LINE__, id, bytes, (const int64_t[ROKEMAIPU_SIGNALS]){__VA_ARGS__})

static void safety(void) {
    TRIPS(6, BYTES(0x82, 0x15), 533, 1);
    TRIPS(6, BYTES(0x03, 0xe9, 0x02), 1001, 0, 0, 1); /* above 100.0 % it keeps its number */
    TRIPS(6, BYTES(0x03, 0xff, 0x01), 1023, 0, 1, 0);
    TRIPS(7, BYTES(0x82, 0x15, 0x0b, 0x05, 0x05, 0x12), 533, 1, 3, 1, 0, 5, 1, 0, 1, 0, 0, 1, 0, 0, 1);
    TRIPS(7, BYTES(0x00, 0x01, 0x14, 0x02, 0x0a, 0x0d), 1, 0, 4, 0, 1, 2, 0, 1, 0, 1, 1, 0, 1, 1, 0);
    TRIPS(8, BYTES(0xfe, 0x70), -100);
    TRIPS(8, BYTES(0x7f, 0xfc, 0xff, 0xfe, 0x80, 0x01, 0x00, 0x04), 8191, 0, 0, -1, 0, 1, -8192, 1, 0, 1, 0, 0);
    int64_t raws[ROKEMAIPU_SIGNALS] = {1024};
    uint8_t c[9] = {0x80, 0, 3};
    IS(rokemaipu_write(ROKEMAIPU_CHARGE_CONTROL_1, raws, ROKEMAIPU_SIGNALS, c, 8), R(7));
    raws[0] = 8192;
    IS(rokemaipu_write(ROKEMAIPU_PT1000_STATE, raws, ROKEMAIPU_SIGNALS, c, 8), R(7));
    IS(rokemaipu_change(6, false, c, 8, 1, 533), 0); /* by its highest bit, which is the page's start */
    IS(memcmp(c, BYTES(0x82, 0x15, 3), 8), 0);
    IS(rokemaipu_change(6, false, c, 8, 0, 0), R(13));
    IS(rokemaipu_change(6, false, c, 8, 1, 1024), R(7));
    rokemaipu_table t;
    memset(&t, 0, sizeof t);
    IS(rokemaipu_set_up(&t, 0, 4, 5000, 1000, 500, 500, 0, 0), 0);
    IS(rokemaipu_frame(&t, 4, 0, 6, false, c, 8), 0); /* closed contactors, and no F3 */
    IS(rokemaipu_frame(&t, 4, 0, 6, true, c, 8), R(3));
    IS(rokemaipu_frame(&t, 4, 0, 9, false, c, 8), R(3));
    IS(rokemaipu_frame(&t, 4, 0, 0x6b000, false, (const uint8_t[]){7}, 1), R(3));
    IS(rokemaipu_frame(&t, 4, 0, 6, false, c, 7), R(4));
    IS(rokemaipu_frame(&t, 4, 0, 6, false, c, 9), R(15));
    c[7] = 1;
    IS(rokemaipu_frame(&t, 4, 0, 6, false, c, 8), R(6));
    IS(rokemaipu_read(6, false, c, 8, raws, 0), R(6));
    IS(rokemaipu_change(6, false, c, 8, 0, 0), R(6));
    IS(rokemaipu_frame(&t, 4, 0, 8, false, c, 8), 0); /* every bit of these is covered */
    uint32_t times[ROKEMAIPU_TIMES];
    uint8_t buf[8];
    IS(rokemaipu_latest(&t, 0, ROKEMAIPU_PT1000_STATE, times, 3, buf, 8), 8);
    IS(memcmp(buf, c, 8), 0);
    IS(rokemaipu_frame(&t, 4, 10, 0x6b000, true, (const uint8_t[]){7}, 1), 0);
    IS(rokemaipu_frame(&t, 4, 10, 0x6b001, true, (const uint8_t[]){2, 1}, 2), 0);
    IS(rokemaipu_frame(&t, 4, 510, 8, false, c, 8), ROKEMAIPU_F(2));
    IS(rokemaipu_frame(&t, 4, 511, 8, false, c, 8), ROKEMAIPU_F(1) | ROKEMAIPU_F(2)); /* it is no Power_Modules_Status */
    puts("safety controller: 82 15 and FE 70, its refusals, its frames on a post");
}

/* Every number: C's own division is correctly rounded too, so that the floats are the same bit by bit. */
static void screen(void) {
    for (int32_t raw = INT16_MIN; raw <= INT16_MAX; raw++) {
        float degrees = rokemaipu_probe_degrees((int16_t)raw), own = raw == 8191 ? 0 : (float)raw / 10.0f;
        IS(rokemaipu_probe_used((int16_t)raw), raw != 8191);
        IS(memcmp(&degrees, &own, sizeof own), 0);
        if (bad) return;
    }
    for (uint32_t raw = 0; raw <= UINT16_MAX; raw++) IS(rokemaipu_limited_duty((uint16_t)raw), raw < 1000 ? raw : 1000);
    puts("service screen: every probe's degrees or that it is not used, every duty's limit");
}

static void posts(void) {
    rokemaipu_table t;
    memset(&t, 0, sizeof t);
    IS(rokemaipu_frame(&t, 4, 0, 0x63000, true, e1, 8), R(1));
    IS(rokemaipu_set_up(&t, 0, 4, 5000, 1000, 500, 500, 0, 0), 0);
    uint8_t s[8] = {0, 0, 0, 0, 65, 65, 1, 255}, d[7] = {0x88, 0x13, 0, 0, 0, 0, 4};
    IS(rokemaipu_frame(&t, 4, 0, 0x6b001, true, (const uint8_t[]){2, 1}, 2), 0); /* E8 */
    IS(rokemaipu_frame(&t, 4, 10, 0x63000, true, s, 8), 0);
    IS(rokemaipu_frame(&t, 4, 20, 0x6b003, true, d, 7), 0);
    s[0] = 0x88, s[1] = 0x13, s[7] = 25;
    IS(rokemaipu_frame(&t, 4, 30, 0x63000, true, s, 8), 0);
    s[7] = 24;
    IS(rokemaipu_frame(&t, 4, 40, 0x63000, true, s, 8), ROKEMAIPU_F(9));
    IS(rokemaipu_start(&t), 0); /* E9 */
    IS(rokemaipu_set_up(&t, 0, 4, 5000, 1000, 500, 500, 0, 0), 0);
    IS(rokemaipu_frame(&t, 4, 1000, 0x6b000, true, (const uint8_t[]){7}, 1), 0);
    IS(rokemaipu_tick(&t, 4, 1200), 0);
    IS(rokemaipu_tick(&t, 4, 1201), ROKEMAIPU_F(2));
    IS(rokemaipu_set_up(&t, 0, 4, 5000, 1000, 500, 500, 0, 0), 0); /* E10 */
    s[0] = 0, s[1] = 0, s[7] = 255;
    IS(rokemaipu_frame(&t, 4, 0, 0x6b001, true, (const uint8_t[]){2, 1}, 2), 0);
    IS(rokemaipu_tick(&t, 4, 500), 0);
    IS(rokemaipu_frame(&t, 4, 501, 0x63000, true, s, 8), ROKEMAIPU_F(1));
    IS(rokemaipu_tick(&t, 4, 1001), 0);
    IS(rokemaipu_tick(&t, 4, 1002), ROKEMAIPU_F(1));
    IS(rokemaipu_set_up(&t, 0, 4, 5000, 1000, 500, 500, 0, 0), 0); /* E11 */
    d[6] = 0x48;
    IS(rokemaipu_frame(&t, 4, 0, 0x6b003, true, d, 7), ROKEMAIPU_F(3) | ROKEMAIPU_F(4));
    IS(rokemaipu_set_up(&t, 1, 4, 5000, 1000, 500, 500, 0, 0), R(11)); /* E12 */
    IS(rokemaipu_set_up(&t, 0, 4, 5000, 1000, 500, 500, 0, 0), 0);
    IS(t.posts[0].head.heard, 0);
    IS(rokemaipu_set_up(&t, 16, 5, 5000, 1000, 500, 500, 0, 0), R(9)); /* 02: "Refusal 9 now begins at 16" */
    IS(rokemaipu_set_up(&t, 1, 32, 5000, 1000, 500, 500, 0, 0), R(10));
    IS(rokemaipu_set_up(&t, 1, 5, 5000, 1000, 500, 99, 0, 0), R(12));
    uint8_t p[8] = {0xa0, 0x0f, 0, 0, 0, 0, 0, 0}; /* E13 */
    IS(rokemaipu_frame(&t, 4, 0, 0x63001, true, p, 8), 0);
    d[0] = 0xa0, d[1] = 0x0f, d[6] = 1;
    IS(rokemaipu_frame(&t, 4, 1, 0x6b003, true, d, 7), 0);
    d[0] = 0xa1;
    IS(rokemaipu_frame(&t, 4, 2, 0x6b003, true, d, 7), ROKEMAIPU_F(7));
    IS(rokemaipu_tick(&t, 4, 100), 0); /* E14 */
    IS(rokemaipu_tick(&t, 4, 99), R(2));
    IS(rokemaipu_tick(&t, 4, 100), 0);
    IS(rokemaipu_release(&t, 0), 0);
    IS(rokemaipu_release(&t, 0), R(14));
    IS(rokemaipu_release(&t, 15), R(14));
    IS(rokemaipu_release(&t, 16), R(9));
    IS(rokemaipu_tick(&t, 4, 101), R(1));
    puts("posts: E8 to E14");
}

/* ---- 02: "For a yes/no sensor F9's insulation test is raw 0 and nothing else; for a measuring one F9 stays" */

static void sensors(void) {
    static const struct { uint32_t sensor, voltage, insulation, found; } rows[] = {
        {ROKEMAIPU_YES_NO, 0, 0, ROKEMAIPU_F(9)},    {ROKEMAIPU_MEASURING, 0, 0, 0}, /* the site's reading */
        {ROKEMAIPU_YES_NO, 0, 1, 0},                 {ROKEMAIPU_MEASURING, 0, 1, 0},
        {ROKEMAIPU_YES_NO, 0, 255, 0},               {ROKEMAIPU_MEASURING, 0, 255, 0},
        {ROKEMAIPU_YES_NO, 1, 0, ROKEMAIPU_F(9)},    {ROKEMAIPU_MEASURING, 1, 0, ROKEMAIPU_F(9)},
        {ROKEMAIPU_YES_NO, 5000, 24, 0},             {ROKEMAIPU_MEASURING, 5000, 24, ROKEMAIPU_F(9)}, /* E8 */
        {ROKEMAIPU_YES_NO, 5000, 25, 0},             {ROKEMAIPU_MEASURING, 5000, 25, 0},
        {ROKEMAIPU_YES_NO, 65535, 1, 0},             {ROKEMAIPU_MEASURING, 65535, 1, ROKEMAIPU_F(9)},
    };
    static const uint32_t unknown[] = {2, 3, 256, 257, UINT32_MAX};
    rokemaipu_table t, before;
    memset(&t, 0, sizeof t);
    for (size_t i = 0; i < sizeof rows / sizeof *rows; i++) {
        const uint8_t valid[8] = {0, 0, 0, 0, 65, 65, 1, 255}, precharge[7] = {0, 0, 0, 0, 0, 0, 4};
        const uint8_t s[8] = {(uint8_t)rows[i].voltage, (uint8_t)(rows[i].voltage >> 8), 0, 0, 65, 65, 1, (uint8_t)rows[i].insulation};
        IS(rokemaipu_set_up(&t, 0, 4, 5000, 1000, 500, 500, rows[i].sensor, 0), 0); /* a second set-up names the kind anew */
        IS(rokemaipu_frame(&t, 4, 0, 0x6b001, true, (const uint8_t[]){2, 1}, 2), 0);
        IS(rokemaipu_frame(&t, 4, 0, 0x63000, true, valid, 8), 0);
        IS(rokemaipu_frame(&t, 4, 0, 0x6b003, true, precharge, 7), 0);
        IS(rokemaipu_frame(&t, 4, 0, 0x63000, true, s, 8), rows[i].found);
    }
    before = t;
    for (size_t i = 0; i < sizeof unknown / sizeof *unknown; i++) {
        IS(rokemaipu_set_up(&t, 0, 4, 5000, 1000, 500, 500, unknown[i], 0), R(12));
        IS(rokemaipu_set_up(&t, 1, 4, 5000, 1000, 500, 500, unknown[i], 0), R(11)); /* 9, 10 and 11 before 12 */
    }
    IS(same_table(&t, &before), true);
    puts("sensors: F9 of both kinds at 0 V and at E8's edge; an unknown kind");
}

/* a post's numbers, field by field */
static void numbers_are(int line, const rokemaipu_table *t, uint32_t post, const uint32_t want[ROKEMAIPU_NUMBERS]) {
    uint32_t got[ROKEMAIPU_NUMBERS + 1];
    memset(got, 0x55, sizeof got);
    is(line, "the look-up's answer", rokemaipu_look_up(t, post, got, ROKEMAIPU_NUMBERS + 1), 0);
    for (int i = 0; i < ROKEMAIPU_NUMBERS; i++) is(line, "a number looked up", got[i], want[i]);
    is(line, "the place behind the numbers", got[ROKEMAIPU_NUMBERS], 0x55555555);
}
#define NUMBERS(t, post, ...) numbers_are(__LINE__, t, post, (const uint32_t[ROKEMAIPU_NUMBERS]){__VA_ARGS__})

static void looks(void) {
    rokemaipu_table t;
    uint32_t numbers[ROKEMAIPU_NUMBERS], times[ROKEMAIPU_TIMES] = {77, 77, 77};
    uint8_t buf[8];
    memset(&t, 0, sizeof t);
    memset(numbers, 0, sizeof numbers);
    IS(rokemaipu_look_up(&t, 0, numbers, ROKEMAIPU_NUMBERS), R(14));
    IS(rokemaipu_look_up(&t, 15, numbers, ROKEMAIPU_NUMBERS), R(14));
    IS(rokemaipu_look_up(&t, 16, numbers, ROKEMAIPU_NUMBERS), R(9));
    IS(rokemaipu_look_up(&t, 16, NULL, 0), R(9)); /* 9 and 14 before 8 */
    IS(rokemaipu_look_up(&t, 0, NULL, 0), R(14));
    IS(rokemaipu_set_up(&t, 0, 4, 5000, 1000, 500, 600, ROKEMAIPU_YES_NO, ROKEMAIPU_NEWER), 0); /* as E8 */
    IS(rokemaipu_look_up(&t, 0, numbers, ROKEMAIPU_NUMBERS - 1), R(8));
    NUMBERS(&t, 0, 4, 5000, 1000, 500, 600, 1, 0, 0, 0, 0, 0, 0, 0, 0);
    IS(rokemaipu_latest(&t, 0, ROKEMAIPU_NEW_CHARGE_SESSION, NULL, 0, NULL, 0), 0);
    const uint8_t s[8] = {0x88, 0x13, 0, 0, 65, 65, 1, 25}, d[7] = {0x88, 0x13, 0, 0, 0, 0, 4};
    IS(rokemaipu_frame(&t, 4, 5, 0x6b001, true, (const uint8_t[]){2, 1}, 2), 0);
    NUMBERS(&t, 0, 4, 5000, 1000, 500, 600, 1, 1, 5, 1, 5, 2, 1, 0, 0);
    IS(rokemaipu_frame(&t, 4, 10, 0x63000, true, s, 8), 0);
    IS(rokemaipu_frame(&t, 4, 20, 0x6b003, true, d, 7), 0);
    IS(rokemaipu_frame(&t, 4, 25, 0x6b001, true, (const uint8_t[]){3, 2}, 2), ROKEMAIPU_F(10)); /* repeated: the first protocol and plug stay */
    IS(rokemaipu_tick(&t, 4, 30), 0);
    NUMBERS(&t, 0, 4, 5000, 1000, 500, 600, 1, 1, 30, 1, 5, 2, 1, 25, 0);
    memset(buf, 0x55, sizeof buf);
    IS(rokemaipu_latest(&t, 0, ROKEMAIPU_POWER_MODULES_STATUS, times, 3, buf, 8), 8);
    IS(times[0], 10);
    IS(times[1], 20);
    IS(memcmp(buf, s, 8), 0);
    memset(buf, 0x55, sizeof buf);
    IS(rokemaipu_latest(&t, 0, ROKEMAIPU_DC_POWER_CONTROL, times, 3, buf, 8), 7);
    IS(times[0], 20);
    IS(times[1], 10);
    IS(memcmp(buf, d, 7), 0);
    IS(buf[7], 0x55);
    IS(rokemaipu_latest(&t, 0, ROKEMAIPU_NEW_CHARGE_SESSION, times, 3, buf, 2), 2);
    IS(times[0], 25);
    IS(times[1], 5);
    IS(memcmp(buf, (const uint8_t[]){3, 2}, 2), 0);
    IS(rokemaipu_latest(&t, 0, ROKEMAIPU_EV_ID, times, 3, buf, 8), 0);
    IS(times[0], 25);
    IS(rokemaipu_latest(&t, 0, ROKEMAIPU_KINDS, times, 3, buf, 8), R(3));
    IS(rokemaipu_latest(&t, 0, ROKEMAIPU_KINDS, NULL, 0, NULL, 0), R(3));
    IS(rokemaipu_latest(&t, 1, ROKEMAIPU_KINDS, times, 3, buf, 8), R(14)); /* 9 and 14 before 3 */
    IS(rokemaipu_latest(&t, 16, ROKEMAIPU_KINDS, times, 3, buf, 8), R(9));
    IS(rokemaipu_latest(&t, 0, ROKEMAIPU_POWER_MODULES_STATUS, times, 3, buf, 7), R(8));
    IS(rokemaipu_latest(&t, 0, ROKEMAIPU_POWER_MODULES_STATUS, times, 2, buf, 8), R(8)); /* no place for the kind */
    IS(rokemaipu_latest(&t, 0, ROKEMAIPU_POWER_MODULES_STATUS, NULL, 0, buf, 8), R(8));
    IS(rokemaipu_frame(&t, 4, 31, 0x6b004, true, (const uint8_t[]){0}, 1), 0); /* finished: the session's part is none, the frames stay */
    NUMBERS(&t, 0, 4, 5000, 1000, 500, 600, 1, 1, 31, 0, 0, 0, 0, 0, 0);
    IS(rokemaipu_latest(&t, 0, ROKEMAIPU_DC_POWER_CONTROL, times, 3, buf, 8), 7);
    IS(rokemaipu_set_up(&t, 0, 6, 5000, 1000, 500, 600, 0, 0), 0); /* E12: an empty history */
    NUMBERS(&t, 0, 6, 5000, 1000, 500, 600, 0, 0, 0, 0, 0, 0, 0, 0, 0);
    IS(rokemaipu_latest(&t, 0, ROKEMAIPU_DC_POWER_CONTROL, times, 3, buf, 8), 0);
    puts("look-ups: E8's and E12's posts, their numbers and their latest frames");
}

/* ---- 02: "eleven counts, one per finding, and the count of accepted frames and ticks since set-up", and Req 14's twelfth; "of frames and ticks refused" */

static void counts_are(int line, const rokemaipu_table *t, uint32_t post, const uint32_t want[ROKEMAIPU_COUNTS]) {
    uint32_t got[ROKEMAIPU_COUNTS + 1];
    memset(got, 0x55, sizeof got);
    is(line, "the answer to a look-up of counts", rokemaipu_counts(t, post, got, ROKEMAIPU_COUNTS + 1), 0);
    for (int k = 0; k < ROKEMAIPU_COUNTS; k++) is(line, "a count", got[k], want[k]);
    is(line, "the place behind the counts", got[ROKEMAIPU_COUNTS], 0x55555555);
}
#define COUNTS(t, post, ...) counts_are(__LINE__, t, post, (const uint32_t[ROKEMAIPU_COUNTS]){__VA_ARGS__})

static void counts(void) {
    rokemaipu_table t;
    uint32_t n[ROKEMAIPU_COUNTS];
    const uint8_t d[7] = {0x88, 0x13, 0, 0, 0, 0, 0x48};
    memset(&t, 0, sizeof t);
    IS(rokemaipu_refused(&t), 0);
    IS(rokemaipu_counts(&t, 0, n, ROKEMAIPU_COUNTS), R(14));
    IS(rokemaipu_counts(&t, 16, NULL, 0), R(9)); /* 9 and 14 before 8 */
    IS(rokemaipu_set_up(&t, 0, 4, 5000, 1000, 500, 500, 0, 0), 0);
    IS(rokemaipu_set_up(&t, 1, 5, 5000, 1000, 500, 500, 0, 0), 0);
    IS(rokemaipu_counts(&t, 0, n, ROKEMAIPU_COUNTS - 1), R(8));
    COUNTS(&t, 0, 0);
    IS(rokemaipu_frame(&t, 4, 0, 0x6b003, true, d, 7), ROKEMAIPU_F(3) | ROKEMAIPU_F(4)); /* E11 */
    IS(rokemaipu_frame(&t, 4, 10, 0x6b000, true, (const uint8_t[]){7}, 1), 0);
    IS(rokemaipu_tick(&t, 4, 211), ROKEMAIPU_F(2));
    IS(rokemaipu_frame(&t, 4, 211, 0x6b004, true, (const uint8_t[]){0}, 1), ROKEMAIPU_F(2) | ROKEMAIPU_F(11));
    COUNTS(&t, 0, 4, 0, 2, 1, 1, 0, 0, 0, 0, 0, 0, 1);
    COUNTS(&t, 1, 0);
    IS(rokemaipu_tick(&t, 4, 210), R(2));
    IS(rokemaipu_frame(&t, 4, 999, 0x6b004, true, (const uint8_t[]){2}, 1), R(5));
    IS(rokemaipu_tick(&t, 6, 0), R(1));
    IS(rokemaipu_refused(&t), 3);
    IS(rokemaipu_set_up(&t, 2, 4, 5000, 1000, 500, 500, 0, 0), R(11)); /* no other refusal counts */
    IS(rokemaipu_release(&t, 2), R(14));
    IS(rokemaipu_look_up(&t, 2, n, ROKEMAIPU_COUNTS), R(14));
    IS(rokemaipu_refused(&t), 3);
    COUNTS(&t, 0, 4, 0, 2, 1, 1, 0, 0, 0, 0, 0, 0, 1);
    IS(rokemaipu_set_up(&t, 0, 4, 5000, 1000, 500, 500, 0, 0), 0); /* set-up makes them 0 */
    COUNTS(&t, 0, 0);
    IS(rokemaipu_release(&t, 0), 0);
    IS(rokemaipu_refused(&t), 3);
    puts("counts: each finding's, those accepted, and those refused");
}

/* 02: "would take its post's count past the largest", "judged after all others"; the refused count "stays at 4,294,967,295 once there" */
static void full_counts(void) {
    rokemaipu_table t, before;
    const uint8_t d[7] = {0x88, 0x13, 0, 0, 0, 0, 0x48};
    memset(&t, 0, sizeof t);
    IS(rokemaipu_set_up(&t, 0, 4, 5000, 1000, 500, 500, 0, 0), 0);
    IS(rokemaipu_set_up(&t, 1, 5, 5000, 1000, 500, 500, 0, 0), 0);
    t.posts[0].head.counts[0] = UINT32_MAX - 1;
    IS(rokemaipu_tick(&t, 4, 10), 0); /* the largest itself is reached */
    COUNTS(&t, 0, UINT32_MAX);
    before = t;
    IS(rokemaipu_tick(&t, 4, 10), R(25));
    IS(rokemaipu_frame(&t, 4, 11, 0x6b003, true, d, 7), R(25));
    IS(rokemaipu_tick(&t, 4, 9), R(2));
    IS(rokemaipu_frame(&t, 4, 11, 0x63003, true, d, 7), R(3));
    IS(rokemaipu_frame(&t, 4, 11, 0x6b003, true, d, 6), R(4));
    IS(rokemaipu_frame(&t, 4, 11, 0x6b004, true, (const uint8_t[]){2}, 1), R(5));
    IS(rokemaipu_frame(&t, 4, 11, 6, false, BYTES(0, 0, 0, 1), 8), R(6));
    IS(rokemaipu_frame(&t, 4, 11, 0x6b004, true, (const uint8_t[]){0, 0}, 2), R(15));
    IS(rokemaipu_refused(&t), 8);
    before.refused = 8;
    IS(same_table(&t, &before), true);
    IS(rokemaipu_tick(&t, 5, 10), 0); /* the other post has a count of its own */
    COUNTS(&t, 1, 1);
    IS(rokemaipu_set_up(&t, 0, 4, 5000, 1000, 500, 500, 0, 0), 0);
    IS(rokemaipu_tick(&t, 4, 0), 0);
    COUNTS(&t, 0, 1);
    t.refused = UINT32_MAX - 1;
    for (int again = 0; again < 3; again++) {
        IS(rokemaipu_tick(&t, 6, 0), R(1));
        IS(rokemaipu_refused(&t), UINT32_MAX);
    }
    t.refused = UINT64_MAX - 1; /* a table of one's own making */
    IS(rokemaipu_refused(&t), UINT32_MAX);
    IS(rokemaipu_tick(&t, 6, 0), R(1));
    IS(t.refused, UINT64_MAX - 1);
    puts("full counts: 25 behind 4,294,967,295, after all other refusals; the refused count stays there");
}

/* ---- any input: tables of random numbers, slices of every length, lent at a fence; a refusal leaves all as it was */

/* by kind, and behind the kinds such that are none */
static const uint32_t ids[] = {IDS_OF_KINDS, 0x63003, 0x68008, 0, 9, 0xffffffff};
enum { IDS = sizeof ids / sizeof *ids };
static bool some_form(uint32_t which) { return is_standard(which) ? !below(8) : below(8) != 0; }

/* what an answered frame or tick leaves of the counts of a table */
static void counted(rokemaipu_table *t, uint32_t channel, uint32_t answer) {
    if (rokemaipu_refusal(answer)) {
        t->refused += t->refused < UINT32_MAX;
        return;
    }
    uint32_t *counts = t->posts[rokemaipu_holder(t, channel)].head.counts;
    counts[0]++;
    for (int k = 1; k < ROKEMAIPU_COUNTS; k++) counts[k] += (answer & ROKEMAIPU_F(k)) != 0;
}

static bool same_counts(const rokemaipu_table *a, const rokemaipu_table *b) {
    for (int i = 0; i < ROKEMAIPU_POSTS; i++)
        if (memcmp(a->posts[i].head.counts, b->posts[i].head.counts, sizeof a->posts[i].head.counts)) return false;
    return a->refused == b->refused;
}

/* what an accepted set-up or release leaves of the index: nothing on the channel that the post held, and the post on the channel that it is given */
static void indexed(rokemaipu_table *t, uint32_t post, const uint32_t *channel) {
    const rokemaipu_head *h = &t->posts[post].head;
    if (h->used == 1 && h->channel < ROKEMAIPU_CHANNELS) t->index[h->channel] = 0;
    if (channel) t->index[*channel] = post + 1;
}

static void anything(void) {
    rokemaipu_table *t = (rokemaipu_table *)fenced(sizeof *t), before;
    uint8_t *end = fenced(12) + 12;
    uint32_t full = 0;
    for (int turn = 0; turn < 200000; turn++) {
        if (turn % 50 == 0) random_table(t);
        before = *t;
        size_t length = below(12);
        uint8_t *payload = end - length; /* ends at the fence */
        for (size_t i = 0; i < length; i++) payload[i] = below(3) ? (uint8_t)below(6) : (uint8_t)next();
        uint32_t post = below(20), channel = below(40), which = below(IDS), what = below(4), r;
        uint32_t time = below(2) ? (uint32_t)next() : (uint32_t)t->posts[below(ROKEMAIPU_POSTS)].head.time;
        switch (what) {
        case 0: r = rokemaipu_frame(t, channel, time, ids[which], some_form(which), payload, length); break;
        case 1: r = rokemaipu_tick(t, channel, time); break;
        case 2: r = rokemaipu_release(t, post); break;
        default: r = rokemaipu_set_up(t, post, channel, below(70000), below(40000), below(40000), below(70000), some_sensor(), some_interface()); break;
        }
        if (what < 2) {
            counted(&before, channel, r);
            IS(same_counts(t, &before), true);
            full += rokemaipu_refusal(r) == 25;
        }
        if (rokemaipu_refusal(r) && !same_table(t, &before)) IS(r, 0);
        if (what > 1 && !rokemaipu_refusal(r)) indexed(&before, post, what > 2 ? &channel : NULL);
        IS(memcmp(t->index, before.index, sizeof t->index), 0);
        if (!rokemaipu_refusal(r) && r > 4095) IS(r, 4095);
        for (int i = 0, changed = 0; i < ROKEMAIPU_POSTS; i++) {
            changed += !same_post(&t->posts[i], &before.posts[i]);
            if (changed > 1) IS(changed, 1);
        }
        if (bad) return;
    }
    IS(full > 0, true);
    puts("any table and any step: answered and counted; one post changed at most and what the index says of it, none by a refusal, 25 among them");
}

/* any frame, read and watched as plain C does it */
static void any_frame(void) {
    uint8_t *end = fenced(12) + 12;
    uint32_t seen[32] = {0}, starts[256] = {0}, low[2][2] = {{0}}, found[2][ROKEMAIPU_COUNTS] = {{0}}, other[2] = {0}, time = 0;
    rokemaipu_table ours, plain;
    memset(&ours, 0, sizeof ours);
    IS(rokemaipu_set_up(&ours, 0, 4, 5000, 1000, 500, 500, 0, ROKEMAIPU_NEWER), 0);
    IS(rokemaipu_set_up(&ours, 1, 5, 5000, 1000, 500, 500, 0, ROKEMAIPU_OLDER), 0);
    plain = ours;
    for (int turn = 0; turn < 800000 && !bad; turn++) {
        int64_t got[ROKEMAIPU_SIGNALS] = {0}, want[ROKEMAIPU_SIGNALS] = {0};
        uint32_t which = below(IDS), most = below(4) ? 10 : 1;
        size_t length = which < ROKEMAIPU_KINDS && below(2) ? lengths_of[which] : below(11);
        uint8_t *payload = end - length;
        for (size_t i = 0; i < length; i++) payload[i] = below(3) ? (uint8_t)below(most) : (uint8_t)next();
        bool extended = some_form(which);
        uint32_t id = ids[which], word = peer_read(id, extended, payload, length, want, ROKEMAIPU_SIGNALS);
        IS(rokemaipu_read(id, extended, payload, length, got, ROKEMAIPU_SIGNALS), word);
        IS(memcmp(got, want, sizeof want), 0);
        seen[rokemaipu_refusal(word)]++;
        if (rokemaipu_refusal(word) == 5) starts[rokemaipu_start_bit(word)]++;
        time += below(20);
        uint32_t post = below(2);
        if (turn % 50 == 0) ours.posts[post].head.limits.sensor = plain.posts[post].head.limits.sensor = some_sensor();
        word = peer_frame(&plain, 4 + post, time, id, extended, payload, length);
        IS(rokemaipu_frame(&ours, 4 + post, time, id, extended, payload, length), word);
        if (!same_table(&ours, &plain)) IS(turn, -1);
        if (rokemaipu_refusal(word)) other[post] += rokemaipu_refusal(word) == 29;
        else for (int k = 1; k <= ROKEMAIPU_FINDINGS; k++) found[post][k] += (word & ROKEMAIPU_F(k)) != 0;
        if (!rokemaipu_refusal(word) && (word & ROKEMAIPU_F(9))) low[plain.posts[post].head.limits.sensor == ROKEMAIPU_YES_NO][!payload[0] && !payload[1]]++;
    }
    IS(seen[0] && seen[3] && seen[4] && seen[6] && seen[15], true);
    for (int k = 1; k <= ROKEMAIPU_FINDINGS; k++) IS(found[0][k] > 0, true);
    for (int k = 1; k <= ROKEMAIPU_FINDINGS; k++) IS(found[1][k] > 0, k != 3 && k != 6 && k != 7); /* 02: "F3, F6 and F7 give no finding there" */
    IS(other[0] && other[1], true);
    IS(starts[0] && starts[8] && starts[48], true);
    IS(low[0][0] && !low[0][1] && low[1][0] && low[1][1], true);
    puts("any frame, any sensor, either interface: read and watched as plain C does it, with the start bits 0, 8 and 48, F9 at 0 V by a yes/no sensor, and 29");
}

static void lengths(void) {
    uint8_t *end = fenced(4096) + 4096, *raws_end = fenced(4096) + 4096;
    for (size_t length = 0; length <= 4096; length += length < 40 ? 1 : 997)
        for (size_t places = 0; places < 20; places++)
            for (int turn = 0; turn < 20; turn++) {
                uint8_t *bytes = end - length, copy[4096];
                int64_t *raws = (int64_t *)raws_end - places, raws_copy[20];
                for (size_t i = 0; i < length; i++) bytes[i] = below(2) ? (uint8_t)below(6) : (uint8_t)next();
                for (size_t i = 0; i < places; i++) raws[i] = below(2) ? (int64_t)below(300) : (int64_t)next();
                memcpy(copy, bytes, length), memcpy(raws_copy, raws, places * sizeof *raws);
                uint32_t which = below(IDS), id = ids[which], r = rokemaipu_read(id, some_form(which), bytes, length, raws, places);
                if (rokemaipu_refusal(r)) IS(memcmp(raws, raws_copy, places * sizeof *raws), 0);
                IS(memcmp(bytes, copy, length), 0);
                r = rokemaipu_change(id, !is_standard(which), bytes, length, below(70), below(2) ? (int64_t)below(300) : (int64_t)next());
                if (rokemaipu_refusal(r)) IS(memcmp(bytes, copy, length), 0);
                memcpy(copy, bytes, length);
                r = rokemaipu_write(below(ROKEMAIPU_KINDS + 2), raws, places, bytes, length);
                if (rokemaipu_refusal(r)) IS(memcmp(bytes, copy, length), 0);
                else IS(memcmp(bytes + r, copy + r, length - r), 0);
                if (bad) return;
            }
    puts("slices of every length: answered; nothing past them touched, none changed by a refusal");
}

static uint32_t least(uint32_t a, uint32_t b) { return a < b ? a : b; }

static void any_look(void) {
    size_t page = (size_t)sysconf(_SC_PAGESIZE);
    fenced_table f = table_alone(); /* pages of its own, which are read-only while it is looked at */
    rokemaipu_table *t = f.table;
    lent numbers = {.end = fenced(page) + page, .width = 4}, times = {.end = fenced(page) + page, .width = 4}, buf = {.end = fenced(page) + page, .width = 1};
    for (int turn = 0; turn < 300; turn++) {
        only_read(f, false);
        random_table(t);
        for (int i = 0; turn % 3 && i < ROKEMAIPU_POSTS; i++) t->posts[i].head.used = 1;
        only_read(f, true);
        for (uint32_t post = 0; post < ROKEMAIPU_POSTS + 2; post++) {
            const rokemaipu_post *p = &t->posts[post % ROKEMAIPU_POSTS];
            const rokemaipu_head *h = &p->head;
            const rokemaipu_session *s = &h->session;
            bool heard = h->heard == 1, opened = s->opened == 1;
            uint32_t refused = post > 15 ? R(9) : h->used != 1 ? R(14) : 0;
            const uint32_t want[ROKEMAIPU_NUMBERS] = {h->channel, h->limits.voltage, h->limits.charge, h->limits.discharge, h->limits.silence,
                h->limits.sensor == ROKEMAIPU_YES_NO, heard, heard ? (uint32_t)h->time : 0,
                opened, opened ? (uint32_t)s->since : 0, opened ? least(s->first & 0xff, 7) : 0, opened ? least(s->first >> 8 & 0xff, 4) : 0, /* without a label: the last one */
                opened ? age_of(h->time, s->since) : 0, h->limits.interface == ROKEMAIPU_OLDER};
            for (size_t places = 0; places <= MOST; places++) {
                uint32_t answer = refused ? refused : places < ROKEMAIPU_NUMBERS ? R(8) : 0;
                lend(&numbers, places);
                IS(rokemaipu_look_up(t, post, (uint32_t *)numbers.at, places), answer);
                lent_is(__LINE__, &numbers, want, answer ? 0 : ROKEMAIPU_NUMBERS);
                answer = refused ? refused : places < ROKEMAIPU_COUNTS ? R(8) : 0;
                lend(&numbers, places);
                IS(rokemaipu_counts(t, post, (uint32_t *)numbers.at, places), answer);
                lent_is(__LINE__, &numbers, h->counts, answer ? 0 : ROKEMAIPU_COUNTS);
            }
            for (uint32_t kind = 0; kind < ROKEMAIPU_KINDS + 2; kind++)
                for (size_t places = 0; places < 5; places++)
                    for (size_t room = 0; room <= 10; room++) {
                        const rokemaipu_slot *l = &p->latest[place_of(kind % ROKEMAIPU_KINDS)];
                        bool kept = l->known == 1 && l->kind == kind; /* the other interface's kind may stand there, or none */
                        uint32_t length = lengths_of[kind % ROKEMAIPU_KINDS], answer = refused ? refused : kind >= ROKEMAIPU_KINDS ? R(3) : !kept ? 0 : places < ROKEMAIPU_TIMES || room < length ? R(8) : length;
                        bool out = answer && !rokemaipu_refusal(answer);
                        uint8_t bytes[8];
                        uint32_t when[ROKEMAIPU_TIMES] = {(uint32_t)l->time, age_of(h->time, l->time), kind};
                        for (int i = 0; i < 8; i++) bytes[i] = (uint8_t)(l->raw >> 8 * (is_standard(kind) ? 7 - i : i));
                        lend(&times, places), lend(&buf, room);
                        IS(rokemaipu_latest(t, post, kind, (uint32_t *)times.at, places, buf.at, room), answer);
                        lent_is(__LINE__, &times, when, out ? ROKEMAIPU_TIMES : 0);
                        lent_is(__LINE__, &buf, bytes, out ? length : 0);
                    }
            if (bad) return;
        }
        uint32_t far = below(2) ? 0xffffffff : 16 + below(1000); /* any number */
        IS(rokemaipu_look_up(t, far, NULL, 0), R(9));
        IS(rokemaipu_counts(t, far, NULL, 0), R(9));
        IS(rokemaipu_refused(t), t->refused);
        IS(rokemaipu_latest(t, far, far, NULL, 0, NULL, 0), R(9));
        if (t->posts[0].head.used == 1) IS(rokemaipu_latest(t, 0, 0x80000000u + below(9), NULL, 0, NULL, 0), R(3));
    }
    puts("any table looked up, with lent memory of every length: answered; the table only read, no other place written");
}

int main(void) {
    layout();
    frames();
    refused_frames();
    refused_changes();
    safety();
    screen();
    posts();
    sensors();
    looks();
    counts();
    full_counts();
    anything();
    any_frame();
    lengths();
    any_look();
    puts(bad ? "BAD" : "ok");
    return bad;
}
