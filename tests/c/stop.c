/* 02, Req 14: "F12 is a DC_Power_Control with insulation test, precharge or power transfer in a session after an Emergency_Stop accepted in it; the record's
 * session part keeps the stop. F12 has its own tally", from C, on posts of either interface, and beside plain C.
 * Prints a line for each part and 'ok', or says what was wrong and where, and exits 1. */
#include "fence.h"
#include "peer.h"

enum { NEW = 4, OLD = 5 }; /* the channels of posts 0 and 1 */

static rokemaipu_table t;

static void set_up(rokemaipu_table *of) {
    memset(of, 0, sizeof *of);
    IS(rokemaipu_set_up(of, 0, NEW, 5000, 1000, 500, 60000, ROKEMAIPU_MEASURING, ROKEMAIPU_NEWER), 0);
    IS(rokemaipu_set_up(of, 1, OLD, 5000, 1000, 500, 60000, ROKEMAIPU_MEASURING, ROKEMAIPU_OLDER), 0);
}

typedef struct { uint32_t id; uint8_t length, bytes[8]; } message;

/* by the post: what opens a session, what allows power, the two stops, what finishes it */
enum { OPENS, ALLOWS, BY_THE_CHARGER, BY_THE_VEHICLE, FINISHES, SAID };
static const message said[2][SAID] = {
    {{0x6b001, 2, {2, 1}}, {0x63000, 8, {0, 0, 0, 0, 65, 65, 1, 255}}, {0x6b005, 1, {1}}, {0x6b005, 1, {3}}, {0x6b004, 1, {0}}},
    {{0x68001, 8, {2, 1}}, {0x60010, 8, {0, 0, 0, 0, 65, 65, 1, 255}}, {0x68006, 1, {1}}, {0x68006, 1, {3}}, {0x68007, 1, {0}}},
};

/* by the post: insulation test, precharge and power transfer, and what asks for no power: Off and Standby; on a post of the older interface, which has
 * neither, what tells of a charge all the same */
enum { POWERED = 3, COMMANDS = 5 };
static const message commands[2][COMMANDS] = {
    {{0x6b003, 7, {0, 0, 0, 0, 0, 0, 2}}, {0x6b003, 7, {0, 0, 0, 0, 0, 0, 4}}, {0x6b003, 7, {0, 0, 0, 0, 0, 0, 8}}, {0x6b003, 7, {0}}, {0x6b003, 7, {0, 0, 0, 0, 0, 0, 1}}},
    {{0x68002, 2, {0}}, {0x68003, 4, {0}}, {0x68005, 5, {0}}, {0x68004, 1, {1}}, {0x60012, 3, {0}}},
};

static uint32_t tell(uint32_t post, uint32_t time, const message *m) { return rokemaipu_frame(&t, NEW + post, time, m->id, true, m->bytes, m->length); }
#define SAY(what) tell(post, time, &said[post][what])

/* each of the commands finds `powered` where it asks for power, and nothing else */
static void commands_find(int line, uint32_t post, uint32_t time, uint32_t powered) {
    for (int k = 0; k < COMMANDS; k++) is(line, "what a command finds", tell(post, time, &commands[post][k]), k < POWERED ? powered : 0);
}
#define FIND(powered) commands_find(__LINE__, post, time, powered)

/* ---- "in a session after an Emergency_Stop accepted in it" */

static void sessions(void) {
    for (uint32_t post = 0; post < 2; post++)
        for (int stop = BY_THE_CHARGER; stop <= BY_THE_VEHICLE; stop++) {
            uint32_t time = 1000;
            set_up(&t);
            IS(SAY(stop), 0);
            FIND(ROKEMAIPU_F(4)); /* no session is open: F4, and not F12 */
            IS(SAY(OPENS), 0);
            FIND(ROKEMAIPU_F(5)); /* the stop came before the opening */
            IS(SAY(ALLOWS), 0);
            FIND(0);
            IS(SAY(stop), 0);
            FIND(ROKEMAIPU_F(12));
            FIND(ROKEMAIPU_F(12)); /* once more: a stop is not used up */
            IS(SAY(OPENS), 0);
            FIND(ROKEMAIPU_F(12)); /* a repeat opens nothing anew */
            time += 50000;
            FIND(ROKEMAIPU_F(12));
            IS(tell(1 - post, 0, &said[1 - post][OPENS]), 0); /* the other post has a session of its own */
            commands_find(__LINE__, 1 - post, 0, ROKEMAIPU_F(5));
            IS(SAY(FINISHES), 0);
            FIND(ROKEMAIPU_F(4));
            IS(SAY(OPENS), 0);
            IS(SAY(ALLOWS), 0);
            FIND(0); /* nothing is left of the session before */
        }
    puts("sessions: F12 of each function after a stop accepted in the session, and not before one, without a session, or in the next");
}

static void refused(void) {
    for (uint32_t post = 0; post < 2; post++) {
        uint32_t time = 5, id = said[post][BY_THE_CHARGER].id;
        set_up(&t);
        IS(SAY(OPENS), 0);
        IS(SAY(ALLOWS), 0);
        for (uint32_t origin = 0; origin < 256; origin++)
            if (origin != 1 && origin != 3) IS(rokemaipu_frame(&t, NEW + post, time, id, true, (const uint8_t[]){(uint8_t)origin}, 1), R(5));
        IS(rokemaipu_frame(&t, NEW + post, time, id, true, NULL, 0), R(4));
        IS(rokemaipu_frame(&t, NEW + post, time, id, true, (const uint8_t[]){1, 0}, 2), R(15));
        IS(rokemaipu_frame(&t, NEW + post, time, id, false, (const uint8_t[]){1}, 1), R(3));
        IS(rokemaipu_frame(&t, NEW + post, time - 1, id, true, (const uint8_t[]){1}, 1), R(2));
        IS(tell(post, time, &said[1 - post][BY_THE_CHARGER]), R(29));
        FIND(0); /* none of them was accepted */
        IS(SAY(BY_THE_CHARGER), 0);
        FIND(ROKEMAIPU_F(12));
    }
    puts("refused: a stop that is not accepted is none");
}

static void beside(void) {
    uint32_t post = 0, time = 10;
    set_up(&t);
    IS(SAY(OPENS), 0);
    IS(SAY(BY_THE_VEHICLE), 0);
    FIND(ROKEMAIPU_F(5) | ROKEMAIPU_F(12));
    IS(SAY(ALLOWS), 0);
    IS(tell(post, time, &(message){0x6b003, 7, {0x89, 0x13, 0, 0, 0, 0, 0x48}}), ROKEMAIPU_F(7) | ROKEMAIPU_F(12)); /* 500.1 V, contactors closed */
    IS(tell(post, time, &(message){0x6b003, 7, {0, 0, 0, 0, 0, 0, 0x84}}), ROKEMAIPU_F(6) | ROKEMAIPU_F(12));     /* lowering */
    IS(tell(post, time, &(message){0x6b003, 7, {0, 0, 0, 0, 0, 0, 0xc1}}), 0);
    IS(tell(post, time, &(message){0x63000, 8, {0x88, 0x13, 0, 0, 65, 65, 1, 24}}), 0); /* F9 asks for the latest control, which is Standby */
    IS(tell(post, time + 60001, &commands[post][0]), ROKEMAIPU_F(1) | ROKEMAIPU_F(12));
    puts("beside: F12 with F1, F5, F6 and F7 in one answer");
}

/* ---- "the record's session part keeps the stop" and "F12 has its own tally" */

static void stop_is(int line, uint32_t post, uint32_t time, uint32_t age, uint32_t origin) {
    uint32_t times[ROKEMAIPU_TIMES] = {77, 77, 77};
    uint8_t byte = 0x55;
    is(line, "the stop's bytes", rokemaipu_in_session(&t, post, ROKEMAIPU_KEPT_STOP, times, ROKEMAIPU_TIMES, &byte, 1), origin != 0);
    is(line, "its time", times[ROKEMAIPU_WHEN], origin ? time : 77);
    is(line, "its age", times[ROKEMAIPU_WHEN_AGE], origin ? age : 77);
    is(line, "its kind", times[ROKEMAIPU_WHEN_KIND], !origin ? 77 : post ? ROKEMAIPU_OLDER_EMERGENCY_STOP : ROKEMAIPU_EMERGENCY_STOP);
    is(line, "its origin", byte, origin ? origin : 0x55);
}
#define STOP(time, age, origin) stop_is(__LINE__, post, time, age, origin)
#define NONE() stop_is(__LINE__, post, 0, 0, 0)

static void tallies_are(int line, uint32_t post, uint32_t accepted, uint32_t f11, uint32_t f12) {
    uint32_t counts[ROKEMAIPU_COUNTS];
    is(line, "the look-up's answer", rokemaipu_counts(&t, post, counts, ROKEMAIPU_COUNTS), 0);
    is(line, "the accepted", counts[ROKEMAIPU_ACCEPTED], accepted);
    for (int k = 1; k <= 10; k++) is(line, "the tally of another finding", counts[k], 0);
    is(line, "F11's tally", counts[11], f11);
    is(line, "F12's tally", counts[12], f12);
}
#define TALLIES(accepted, f11, f12) tallies_are(__LINE__, post, accepted, f11, f12)

static void kept(void) {
    for (uint32_t post = 0; post < 2; post++) {
        uint32_t time = 10, kind = post ? ROKEMAIPU_OLDER_EMERGENCY_STOP : ROKEMAIPU_EMERGENCY_STOP, times[ROKEMAIPU_TIMES];
        uint8_t byte;
        set_up(&t);
        NONE();
        IS(SAY(BY_THE_CHARGER), 0);
        NONE(); /* no session is open */
        IS(SAY(OPENS), 0);
        IS(SAY(ALLOWS), 0);
        NONE();
        time = 20;
        IS(SAY(BY_THE_CHARGER), 0);
        STOP(20, 0, 1);
        time = 35;
        IS(tell(post, time, &commands[post][2]), ROKEMAIPU_F(12));
        STOP(20, 15, 1);
        TALLIES(5, 0, 1);
        IS(SAY(BY_THE_VEHICLE), 0);
        STOP(35, 0, 3); /* the latest one */
        IS(rokemaipu_in_session(&t, post, ROKEMAIPU_KEPT_STOP, times, ROKEMAIPU_TIMES, NULL, 0), R(8));
        IS(rokemaipu_in_session(&t, post, ROKEMAIPU_KEPT_STOP, times, ROKEMAIPU_TIMES - 1, &byte, 1), R(8));
        IS(SAY(OPENS), 0);
        STOP(35, 0, 3);
        IS(tell(post, time, &commands[post][0]), ROKEMAIPU_F(12));
        TALLIES(8, 0, 2);
        IS(SAY(FINISHES), 0);
        NONE();
        IS(SAY(FINISHES), ROKEMAIPU_F(11));
        TALLIES(10, 1, 2);
        IS(rokemaipu_latest(&t, post, kind, times, ROKEMAIPU_TIMES, &byte, 1), 1); /* the latest of the kind stays */
        IS(byte, 3);
        IS(SAY(OPENS), 0);
        NONE();
        IS(tell(post, time, &said[post][ALLOWS]), 0);
        IS(tell(post, time, &commands[post][0]), 0);
        TALLIES(13, 1, 2);
    }
    puts("kept: the latest stop of the open session, none of the one before; F12 in a tally of its own");
}

/* ---- any order of them, beside plain C and beside the two words of the rule: whether a session is open, and whether a stop came in it */

static void any_order(void) {
    bool open[2] = {false}, stopped[2] = {false};
    uint32_t found[2][COMMANDS] = {{0}}, quiet[2] = {0}, tally[2] = {0};
    rokemaipu_table plain;
    set_up(&t);
    plain = t;
    for (uint32_t turn = 0; turn < 200000 && !bad; turn++) {
        uint32_t post = below(2), which = below(SAID + COMMANDS), command = which - SAID;
        const message *m = which < SAID ? &said[post][which] : &commands[post][command];
        uint32_t answer = tell(post, turn, m);
        IS(answer, peer_frame(&plain, NEW + post, turn, m->id, true, m->bytes, m->length));
        IS(memcmp(&t, &plain, sizeof t), 0);
        bool wanted = which >= SAID && command < POWERED && open[post] && stopped[post];
        IS(rokemaipu_refusal(answer) ? 2 : (answer & ROKEMAIPU_F12_POWER_AFTER_STOP) != 0, wanted);
        tally[post] += wanted;
        if (wanted) found[post][command]++;
        else quiet[post] += which >= SAID;
        if (which == OPENS) open[post] = true;
        if ((which == BY_THE_CHARGER || which == BY_THE_VEHICLE) && open[post]) stopped[post] = true;
        if (which == FINISHES) open[post] = stopped[post] = false;
        IS(t.posts[post].head.counts[12], tally[post]);
        IS(t.posts[post].head.session.kept[ROKEMAIPU_KEPT_STOP].known, stopped[post]);
    }
    for (int post = 0; post < 2; post++) IS(found[post][0] > 1000 && found[post][1] > 1000 && found[post][2] > 1000 && quiet[post] > 1000, true);
    puts("any order: 200,000 frames on two posts find F12, keep the stop and count as plain C does it");
}

int main(void) {
    sessions();
    refused();
    beside();
    kept();
    any_order();
    puts(bad ? "BAD" : "ok");
    return bad;
}
