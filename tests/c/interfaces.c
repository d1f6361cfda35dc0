/* 02, Req 11: posts of either interface in one table, from C: set-up and look-up, 29 in 3's place, the safety controller's frames on both, the rules on a
 * post of the older interface, the latest frame by its kind, and tables of the caller's own making with kinds that are none.
 * Prints a line for each part and 'ok', or says what was wrong and where, and exits 1. */
#include "fence.h"
#include "kinds.h"

enum { OLD = 4, NEW = 5 }; /* the channels of posts 0 and 1 */

static rokemaipu_table t;

static void set_up(void) {
    memset(&t, 0, sizeof t);
    IS(rokemaipu_set_up(&t, 0, OLD, 5000, 1000, 500, 500, ROKEMAIPU_MEASURING, ROKEMAIPU_OLDER), 0);
    IS(rokemaipu_set_up(&t, 1, NEW, 5000, 1000, 500, 500, ROKEMAIPU_MEASURING, ROKEMAIPU_NEWER), 0);
}

/* the frame's bytes, and its answer */
#define FRAME(channel, time, id, extended, ...) rokemaipu_frame(&t, channel, time, id, extended, (const uint8_t[]){__VA_ARGS__}, sizeof (const uint8_t[]){__VA_ARGS__})
#define OLDER(time, id, ...) FRAME(OLD, time, id, true, __VA_ARGS__)
#define OPENS(time, protocol, plug) OLDER(time, 0x68001, protocol, plug, 0, 0, 0, 0, 0, 0)
#define STATUS(time, amps, enable, insulation) OLDER(time, 0x60010, 0x88, 0x13, (uint8_t)(amps), (uint8_t)((amps) >> 8), 65, 65, enable, insulation)
#define LIMITS(time, volts, amps) OLDER(time, 0x60011, (uint8_t)(volts), (uint8_t)((volts) >> 8), (uint8_t)(amps), (uint8_t)((amps) >> 8), 0, 0, 0, 0)

static void settings(void) {
    uint32_t n[ROKEMAIPU_NUMBERS];
    set_up();
    IS(rokemaipu_look_up(&t, 0, n, ROKEMAIPU_NUMBERS), 0);
    IS(n[ROKEMAIPU_INTERFACE], ROKEMAIPU_OLDER);
    IS(rokemaipu_look_up(&t, 1, n, ROKEMAIPU_NUMBERS), 0);
    IS(n[ROKEMAIPU_INTERFACE], ROKEMAIPU_NEWER);
    static const uint32_t unknown[] = {2, 3, 255, 256, 0x80000000, UINT32_MAX};
    rokemaipu_table was = t;
    for (size_t i = 0; i < sizeof unknown / sizeof *unknown; i++) {
        IS(rokemaipu_set_up(&t, 0, OLD, 5000, 1000, 500, 500, 0, unknown[i]), R(12));
        IS(rokemaipu_set_up(&t, 2, OLD, 5000, 1000, 500, 500, 0, unknown[i]), R(11)); /* 9, 10 and 11 before 12 */
        IS(rokemaipu_set_up(&t, 2, 32, 5000, 1000, 500, 500, 0, unknown[i]), R(10));
        IS(rokemaipu_set_up(&t, 16, OLD, 5000, 1000, 500, 500, 0, unknown[i]), R(9));
    }
    IS(memcmp(&was, &t, sizeof t), 0);
    IS(OLDER(0, 0x68002, 0, 0), ROKEMAIPU_F(4));
    IS(rokemaipu_set_up(&t, 0, OLD, 5000, 1000, 500, 500, 0, ROKEMAIPU_NEWER), 0); /* a second set-up names the interface anew */
    IS(OLDER(0, 0x68002, 0, 0), R(29));
    IS(OLDER(0, 0x6b001, 2, 1), 0);
    puts("interfaces: set up and looked up; any other number gets 12, in 12's place");
}

/* ---- "A frame whose identifier only the other interface has" */

static void others(void) {
    static const uint32_t newer[] = {0x63000, 0x63001, 0x6b000, 0x6b001, 0x6b002, 0x6b003, 0x6b004, 0x6b005, 0x6b105};
    static const uint32_t older[] = {0x60010, 0x60011, 0x60012, 0x60013, 0x68001, 0x68002, 0x68003, 0x68004, 0x68005, 0x68006, 0x68007, 0x68009, 0x6800a, 0x6800b, 0x6800c, 0x6800d,
        0x6800e, 0x6800f};
    uint8_t *end = fenced(9) + 9;
    memset(end - 9, 0xff, 9);
    set_up();
    IS(rokemaipu_tick(&t, OLD, 100), 0);
    IS(rokemaipu_tick(&t, NEW, 100), 0);
    rokemaipu_table was = t;
    for (size_t length = 0; length <= 9; length++) { /* whatever the length and the bytes */
        for (size_t i = 0; i < sizeof newer / sizeof *newer; i++) {
            IS(rokemaipu_frame(&t, OLD, 100, newer[i], true, end - length, length), R(29));
            IS(rokemaipu_frame(&t, OLD, 99, newer[i], true, end - length, length), R(2)); /* 1 and 2 before 29 */
            IS(rokemaipu_frame(&t, 6, 99, newer[i], true, end - length, length), R(1));
            IS(rokemaipu_frame(&t, OLD, 100, newer[i], false, end - length, length), R(3)); /* the exact form counts */
            IS(rokemaipu_refusal(rokemaipu_frame(&t, NEW, 100, newer[i], true, end - length, length)) == 29, false);
            t.posts[1] = was.posts[1];
        }
        for (size_t i = 0; i < sizeof older / sizeof *older; i++) {
            IS(rokemaipu_frame(&t, NEW, 100, older[i], true, end - length, length), R(29));
            IS(rokemaipu_frame(&t, NEW, 99, older[i], true, end - length, length), R(2));
            IS(rokemaipu_frame(&t, NEW, 100, older[i], false, end - length, length), R(3));
            IS(rokemaipu_refusal(rokemaipu_frame(&t, OLD, 100, older[i], true, end - length, length)) == 29, false);
            t.posts[0] = was.posts[0];
        }
        IS(rokemaipu_frame(&t, OLD, 100, 0x68008, true, end - length, length), R(3)); /* neither has it */
        IS(rokemaipu_frame(&t, NEW, 100, 0x68008, true, end - length, length), R(3));
    }
    IS(memcmp(was.posts, t.posts, sizeof t.posts), 0);
    IS(rokemaipu_refused(&t) > 500, true); /* they are counted */
    puts("others: 29 for each identifier of the other interface, of any length, after 1 and 2; 3 for an identifier of neither");
}

static void safety(void) {
    uint32_t times[ROKEMAIPU_TIMES];
    uint8_t buffer[8];
    set_up();
    for (uint32_t channel = OLD; channel <= NEW; channel++) {
        IS(FRAME(channel, 1, 6, false, 0x82, 0x15, 3, 0, 0, 0, 0, 0), 0);
        IS(FRAME(channel, 2, 7, false, 0x82, 0x15, 3, 3, 3, 0, 0, 0), 0);
        IS(FRAME(channel, 3, 8, false, 0xFE, 0x70, 0x7F, 0xFC, 0, 0, 0, 0), 0);
        for (uint32_t kind = ROKEMAIPU_CHARGE_CONTROL_1; kind <= ROKEMAIPU_PT1000_STATE; kind++) {
            IS(rokemaipu_latest(&t, channel - OLD, kind, times, ROKEMAIPU_TIMES, buffer, 8), 8);
            IS(times[ROKEMAIPU_WHEN], kind - 8);
            IS(times[ROKEMAIPU_WHEN_KIND], kind);
        }
        IS(buffer[0] == 0xFE && buffer[3] == 0xFC, true);
    }
    IS(memcmp(t.posts[0].latest, t.posts[1].latest, sizeof t.posts[0].latest), 0);
    puts("safety: the frames of document 004 on posts of either interface");
}

/* ---- 01's rules on a post of the older interface */

static void rules(void) {
    set_up();
    IS(OLDER(0, 0x68002, 0, 0), ROKEMAIPU_F(4)); /* Insulation_Test, Precharge and Charging_Loop with no session open */
    IS(OLDER(0, 0x68003, 0, 0, 0, 0), ROKEMAIPU_F(4));
    IS(OLDER(0, 0x68005, 0, 0, 0, 0, 0), ROKEMAIPU_F(4));
    IS(OLDER(0, 0x68007, 0), ROKEMAIPU_F(11));
    IS(OPENS(10, 2, 1), 0);
    IS(OLDER(20, 0x68002, 0, 0), ROKEMAIPU_F(5)); /* no status yet, and then Not_Allowed */
    IS(STATUS(30, 0, 0, 255), 0);
    IS(OLDER(40, 0x68003, 0, 0, 0, 0), ROKEMAIPU_F(5));
    IS(STATUS(50, 0, 1, 255), 0);
    IS(OLDER(60, 0x68003, 0xff, 0xff, 0xff, 0xff), 0); /* above every limit, and not found */
    IS(STATUS(70, 0, 1, 25), 0);                       /* under precharge, 500.0 V */
    IS(STATUS(80, 0, 1, 24), ROKEMAIPU_F(9));
    IS(OLDER(90, 0x68002, 0, 0), 0);
    IS(STATUS(100, 0, 1, 24), 0); /* not under an insulation test */
    IS(OLDER(110, 0x68005, 0xff, 0xff, 0xff, 0x7f, 0), 0);
    IS(STATUS(120, 0, 1, 24), ROKEMAIPU_F(9));
    IS(OPENS(130, 2, 1), 0);
    IS(OLDER(130, 0x68001, 2, 1, 1, 2, 3, 4, 5, 6), 0); /* "F10 compares protocol and plug only" */
    IS(OPENS(130, 3, 1), ROKEMAIPU_F(10));
    IS(OPENS(130, 2, 2), ROKEMAIPU_F(10));
    IS(OLDER(140, 0x68006, 1), 0);
    IS(OLDER(140, 0x68003, 0, 0, 0, 0), ROKEMAIPU_F(12));
    IS(OLDER(140, 0x68007, 0), 0);
    puts("rules: F4, F5, F9, F10, F11 and F12 on a post of the older interface, and no F3, F6, F7");
}

static void limits(void) {
    set_up();
    IS(OPENS(0, 2, 1), 0);
    IS(STATUS(1, 1000, 1, 255), 0); /* the defaults */
    IS(STATUS(2, 1001, 1, 255), ROKEMAIPU_F(8));
    IS(LIMITS(3, 0, 900), 0);
    IS(STATUS(4, 900, 1, 255), 0);
    IS(STATUS(5, 901, 1, 255), ROKEMAIPU_F(8));
    IS(STATUS(6, -500, 1, 255), 0); /* "the discharge default stays" */
    IS(STATUS(7, -501, 1, 255), ROKEMAIPU_F(8));
    static const int defaults[] = {0, -1, -32768, 1000, 32767}; /* "a current of 0 or less meaning the default" */
    for (size_t i = 0; i < sizeof defaults / sizeof *defaults; i++) {
        IS(LIMITS(8, 0, defaults[i]), 0);
        IS(STATUS(8, 1000, 1, 255), 0);
        IS(STATUS(8, 1001, 1, 255), ROKEMAIPU_F(8));
    }
    IS(t.posts[0].head.parameters.kind, ROKEMAIPU_OLDER_POWER_MODULES_LIMITS);
    puts("limits: Power_Modules_Limits, with a current of 0 or less, and F8 by it; the discharge default stays");
}

static void silence(void) {
    set_up();
    IS(OPENS(0, 2, 1), 0);
    IS(rokemaipu_tick(&t, OLD, 500), 0);
    IS(STATUS(501, 0, 1, 255), ROKEMAIPU_F(1));
    IS(rokemaipu_tick(&t, OLD, 1001), 0);
    IS(rokemaipu_tick(&t, OLD, 1002), ROKEMAIPU_F(1));
    set_up();
    IS(OLDER(1000, 0x68009, 7), 0);
    IS(rokemaipu_tick(&t, OLD, 1200), 0);
    IS(rokemaipu_tick(&t, OLD, 1201), ROKEMAIPU_F(2));
    IS(t.posts[0].head.controller.kind, ROKEMAIPU_OLDER_CONTROLLER_STATUS);
    puts("silence: F1 at W and above it, F2 at 200 ms and above it, by the older interface's messages");
}

/* ---- the latest frames */

static void latest_is(int line, uint32_t post, uint32_t kind, uint32_t time, uint32_t length) {
    uint32_t times[ROKEMAIPU_TIMES] = {77, 77, 77};
    uint8_t buffer[8] = {77};
    is(line, "the latest's bytes", rokemaipu_latest(&t, post, kind, times, ROKEMAIPU_TIMES, buffer, 8), length);
    is(line, "its time", times[ROKEMAIPU_WHEN], length ? time : 77);
    is(line, "its kind", times[ROKEMAIPU_WHEN_KIND], length ? kind : 77);
    is(line, "its first byte", buffer[0], length ? 1 : 77);
}

/* CCS_Extra_Information, whose CP_State has no label 1 */
static bool is_pilot(uint32_t kind) { return kind == ROKEMAIPU_CCS_EXTRA_INFORMATION || kind == ROKEMAIPU_OLDER_CCS_EXTRA_INFORMATION; }

static void latest(void) {
    uint8_t bytes[8] = {1}; /* the lowest bit of each message is a signal's, and 1 mostly has a label */
    set_up();
    for (uint32_t kind = 0; kind < ROKEMAIPU_KINDS; kind++) {
        bytes[0] = is_pilot(kind) ? 0 : 1;
        IS(rokemaipu_refusal(rokemaipu_frame(&t, OLD, 100 + kind, ids_of[kind], !is_standard(kind), bytes, lengths_of[kind])), is_older(kind) ? 0 : 29);
        IS(rokemaipu_refusal(rokemaipu_frame(&t, NEW, 200 + kind, ids_of[kind], !is_standard(kind), bytes, lengths_of[kind])), is_newer(kind) ? 0 : 29);
    }
    for (uint32_t kind = 0; kind < ROKEMAIPU_KINDS; kind++) {
        if (is_pilot(kind)) continue;
        latest_is(__LINE__, 0, kind, 100 + kind, is_older(kind) ? lengths_of[kind] : 0); /* a kind that the post's pages have not was never accepted */
        latest_is(__LINE__, 1, kind, 200 + kind, is_newer(kind) ? lengths_of[kind] : 0);
        if (is_older(kind)) IS(t.posts[0].latest[place_of(kind)].kind, kind);
        if (is_newer(kind)) IS(t.posts[1].latest[place_of(kind)].kind, kind);
    }
    for (uint32_t place = 0; place < ROKEMAIPU_PLACES; place++) { /* the older pages have fewer */
        IS(t.posts[0].latest[place].known, place < 21);
        IS(t.posts[1].latest[place].known, 1);
    }
    for (uint32_t post = 0; post < 2; post++) {
        IS(rokemaipu_latest(&t, post, ROKEMAIPU_KINDS, NULL, 0, NULL, 0), R(3));
        IS(rokemaipu_latest(&t, post, UINT32_MAX, NULL, 0, NULL, 0), R(3));
    }
    puts("latest: each of the forty-three kinds on posts of either interface, by its kind");
}

/* which of the three messages stands for DC_Power_Control */
static void in_session(void) {
    static const struct { uint32_t id, kind; } functions[] = {{0x68002, ROKEMAIPU_OLDER_INSULATION_TEST}, {0x68005, ROKEMAIPU_OLDER_CHARGING_LOOP}, {0x68003, ROKEMAIPU_OLDER_PRECHARGE}};
    uint32_t times[ROKEMAIPU_TIMES];
    uint8_t buffer[8], payload[8] = {0x88, 0x13};
    set_up();
    IS(OPENS(0, 2, 1), 0);
    IS(STATUS(5, 0, 1, 255), 0);
    IS(rokemaipu_in_session(&t, 0, ROKEMAIPU_KEPT_CONTROL, times, ROKEMAIPU_TIMES, buffer, 8), 0);
    for (uint32_t i = 0; i < 3; i++) {
        uint32_t length = lengths_of[functions[i].kind];
        IS(rokemaipu_frame(&t, OLD, 10 + i, functions[i].id, true, payload, length), 0);
        IS(rokemaipu_in_session(&t, 0, ROKEMAIPU_KEPT_CONTROL, times, ROKEMAIPU_TIMES, buffer, 8), length);
        IS(times[ROKEMAIPU_WHEN], 10 + i);
        IS(times[ROKEMAIPU_WHEN_KIND], functions[i].kind);
        IS(memcmp(buffer, payload, length), 0);
    }
    IS(rokemaipu_in_session(&t, 0, ROKEMAIPU_KEPT_STATUS, times, ROKEMAIPU_TIMES, buffer, 8), 8);
    IS(times[ROKEMAIPU_WHEN_KIND], ROKEMAIPU_OLDER_POWER_MODULES_STATUS);
    IS(rokemaipu_frame(&t, OLD, 20, 0x68007, true, payload + 2, 1), 0);
    IS(rokemaipu_in_session(&t, 0, ROKEMAIPU_KEPT_CONTROL, times, ROKEMAIPU_TIMES, buffer, 8), 0);
    puts("in session: the latest of the three functions' messages, and which of them it is");
}

/* ---- tables of the caller's own making, with kinds that are none or that have another place */

static void odd(void) {
    uint32_t times[ROKEMAIPU_TIMES];
    uint8_t buffer[8];
    set_up();
    t.posts[0].latest[5] = (rokemaipu_slot){1, UINT32_MAX, 7, 0};
    for (uint32_t kind = 0; kind < ROKEMAIPU_KINDS; kind++) IS(rokemaipu_latest(&t, 0, kind, times, ROKEMAIPU_TIMES, buffer, 8), 0);
    t.posts[0].latest[5].kind = ROKEMAIPU_DC_POWER_CONTROL; /* the number that was put there is answered */
    IS(rokemaipu_latest(&t, 0, ROKEMAIPU_DC_POWER_CONTROL, times, ROKEMAIPU_TIMES, buffer, 8), 7);
    IS(rokemaipu_latest(&t, 0, ROKEMAIPU_OLDER_INSULATION_TEST, times, ROKEMAIPU_TIMES, buffer, 8), 0);
    t.posts[0].latest[5].kind = ROKEMAIPU_POWER_MODULES_STATUS; /* in a place that is not its own: nobody asks there */
    for (uint32_t kind = 0; kind < ROKEMAIPU_KINDS; kind++) IS(rokemaipu_latest(&t, 0, kind, times, ROKEMAIPU_TIMES, buffer, 8), 0);
    t.posts[0].head.session.opened = 1;
    for (uint32_t kind = 0; kind < 300; kind++) {
        t.posts[0].head.session.kept[ROKEMAIPU_KEPT_CONTROL] = (rokemaipu_slot){1, kind, 7, 0};
        IS(rokemaipu_in_session(&t, 0, ROKEMAIPU_KEPT_CONTROL, times, ROKEMAIPU_TIMES, buffer, 8), kind < ROKEMAIPU_KINDS ? lengths_of[kind] : 0);
        IS(rokemaipu_refusal(STATUS(kind, 0, 1, 24)), 0); /* answered, whatever stands there */
        t.posts[0].head.parameters.kind = kind * 0x01000193u;
    }
    t.posts[0].head.limits.interface = 7; /* every other number counts as the newer one */
    IS(OLDER(400, 0x68002, 0, 0), R(29));
    IS(rokemaipu_refusal(OLDER(400, 0x6b001, 2, 1)), 0);
    puts("odd: kinds that are none, or in another's place, and interfaces that are none");
}

int main(void) {
    settings();
    others();
    safety();
    rules();
    limits();
    silence();
    latest();
    in_session();
    odd();
    puts(bad ? "BAD" : "ok");
    return bad;
}
