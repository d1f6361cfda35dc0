/* Who holds a channel, and the latest status, control and stop of an open session, asked from C: on posts that were set up, and on tables of random numbers
 * which may only be read. Prints a line for each part and 'ok', or says what was wrong and where, and exits 1. */
#include "tables.h"

/* ---- 01: "A frame or tick goes to the post that holds its channel" */

/* every channel has the holder wanted, NOBODY for none */
enum { NOBODY = ROKEMAIPU_POSTS };
static void holders_are(int line, const rokemaipu_table *t, const uint8_t want[32]) {
    for (uint32_t channel = 0; channel < 32; channel++) is(line, "the holder", rokemaipu_holder(t, channel), want[channel] < NOBODY ? want[channel] : R(1));
    for (uint32_t channel = 32; channel < 300; channel++) is(line, "the holder of no channel", rokemaipu_holder(t, channel), R(1));
    is(line, "the holder of no channel", rokemaipu_holder(t, UINT32_MAX), R(1));
}
#define HOLDERS(t, ...) do { uint8_t want[32]; memset(want, NOBODY, 32); __VA_ARGS__; holders_are(__LINE__, t, want); } while (0)

static void holder(void) {
    rokemaipu_table t;
    memset(&t, 0, sizeof t);
    HOLDERS(&t, (void)0); /* a post that is not set up stands on channel 0, and does not hold it */
    IS(rokemaipu_set_up(&t, 3, 4, 5000, 1000, 500, 500, 0, 0), 0);
    IS(rokemaipu_set_up(&t, 0, 31, 5000, 1000, 500, 500, 0, 0), 0);
    IS(rokemaipu_set_up(&t, 15, 0, 5000, 1000, 500, 500, 0, 0), 0);
    IS(rokemaipu_set_up(&t, 1, 4, 5000, 1000, 500, 500, 0, 0), R(11));
    HOLDERS(&t, want[4] = 3, want[31] = 0, want[0] = 15);
    IS(rokemaipu_tick(&t, 4, 9), 0);
    IS(t.posts[rokemaipu_holder(&t, 4)].head.time, 9); /* it went there */
    IS(rokemaipu_set_up(&t, 3, 5, 5000, 1000, 500, 500, 0, 0), 0);
    HOLDERS(&t, want[5] = 3, want[31] = 0, want[0] = 15);
    IS(rokemaipu_release(&t, 15), 0);
    HOLDERS(&t, want[5] = 3, want[31] = 0);
    puts("holders: set up, moved, released; no channel");
}

static void any_holder(void) {
    fenced_table f = table_alone();
    rokemaipu_table *t = f.table;
    uint32_t found = 0, above = 0, lied = 0;
    for (int turn = 0; turn < 2000 && !bad; turn++) {
        only_read(f, false);
        random_table(t);
        for (int i = 0; turn % 3 && i < ROKEMAIPU_POSTS; i++) t->posts[i].head.used = 1;
        only_read(f, true);
        for (uint32_t channel = 0; channel < 42; channel++) {
            bool held = channel < 32 && holds(t, named(t, channel), channel);
            IS(rokemaipu_holder(t, channel), held ? named(t, channel) : R(1));
            found += held, above += channel > 31 && searched(t, channel), lied += channel < 32 && !held && searched(t, channel);
        }
    }
    IS(found && above && lied, true); /* also where a table of another's making has a post on channel 32 and above, and an index that is not true */
    puts("any table's holders: the post that the index names, where it holds the channel; the table only read");
}

/* ---- 01: "the latest Power_Modules_Status and DC_Power_Control accepted in that session, each possibly none", and Req 14's stop */

static const uint8_t status[8] = {0x88, 0x13, 0, 0, 65, 65, 1, 25}, other[8] = {0x89, 0x13, 0, 0, 65, 65, 1, 25}, control[7] = {0x88, 0x13, 0, 0, 0, 0, 4};

static void part_is(int line, const rokemaipu_table *t, uint32_t part, uint32_t time, uint32_t age, uint32_t kind, const uint8_t *bytes, uint32_t length) {
    uint32_t got[ROKEMAIPU_TIMES + 1] = {77, 77, 77, 77};
    uint8_t buffer[10];
    memset(buffer, 0x55, sizeof buffer);
    is(line, "the part's bytes", rokemaipu_in_session(t, 0, part, got, ROKEMAIPU_TIMES + 1, buffer, 10), length);
    is(line, "its time", got[ROKEMAIPU_WHEN], length ? time : 77);
    is(line, "its age", got[ROKEMAIPU_WHEN_AGE], length ? age : 77);
    is(line, "its kind", got[ROKEMAIPU_WHEN_KIND], length ? kind : 77);
    is(line, "the place behind the kind", got[ROKEMAIPU_TIMES], 77);
    is(line, "its bytes, other", memcmp(buffer, bytes, length) != 0, 0);
    for (uint32_t i = length; i < 10; i++) is(line, "a byte behind it", buffer[i], 0x55);
}
#define PART(part, time, age, kind, bytes) part_is(__LINE__, &t, part, time, age, kind, bytes, sizeof bytes)
#define NONE(part) part_is(__LINE__, &t, part, 0, 0, 0, status, 0)

static void in_session(void) {
    rokemaipu_table t;
    memset(&t, 0, sizeof t);
    IS(rokemaipu_in_session(&t, 16, 3, NULL, 0, NULL, 0), R(9)); /* 9, 14 and 3 before 8 */
    IS(rokemaipu_in_session(&t, 0, 3, NULL, 0, NULL, 0), R(14));
    IS(rokemaipu_set_up(&t, 0, 4, 5000, 1000, 500, 500, 0, 0), 0);
    IS(rokemaipu_in_session(&t, 0, 3, NULL, 0, NULL, 0), R(3));
    IS(rokemaipu_in_session(&t, 0, ROKEMAIPU_KEPT, NULL, 0, NULL, 0), R(3));
    IS(rokemaipu_in_session(&t, 0, 0, NULL, 0, NULL, 0), 0); /* none, whatever is lent */
    IS(rokemaipu_frame(&t, 4, 10, 0x63000, true, other, 8), 0);
    NONE(ROKEMAIPU_KEPT_STATUS); /* before the session */
    IS(rokemaipu_frame(&t, 4, 20, 0x6b001, true, (const uint8_t[]){2, 1}, 2), 0);
    NONE(ROKEMAIPU_KEPT_STATUS);
    NONE(ROKEMAIPU_KEPT_CONTROL);
    NONE(ROKEMAIPU_KEPT_STOP);
    IS(rokemaipu_frame(&t, 4, 30, 0x63000, true, other, 8), 0);
    IS(rokemaipu_frame(&t, 4, 40, 0x63000, true, status, 8), 0);
    PART(ROKEMAIPU_KEPT_STATUS, 40, 0, ROKEMAIPU_POWER_MODULES_STATUS, status);
    NONE(ROKEMAIPU_KEPT_CONTROL);
    IS(rokemaipu_frame(&t, 4, 50, 0x6b003, true, control, 7), 0);
    PART(ROKEMAIPU_KEPT_STATUS, 40, 10, ROKEMAIPU_POWER_MODULES_STATUS, status);
    PART(ROKEMAIPU_KEPT_CONTROL, 50, 0, ROKEMAIPU_DC_POWER_CONTROL, control);
    uint32_t times[ROKEMAIPU_TIMES];
    uint8_t buffer[8];
    IS(rokemaipu_in_session(&t, 0, 0, times, 3, buffer, 7), R(8));
    IS(rokemaipu_in_session(&t, 0, 0, times, 2, buffer, 8), R(8));
    IS(rokemaipu_in_session(&t, 0, 0, NULL, 0, buffer, 8), R(8));
    IS(rokemaipu_in_session(&t, 0, 1, times, 3, buffer, 7), 7);
    IS(rokemaipu_frame(&t, 4, 60, 0x6b004, true, (const uint8_t[]){0}, 1), 0); /* finished */
    NONE(ROKEMAIPU_KEPT_STATUS);
    NONE(ROKEMAIPU_KEPT_CONTROL);
    IS(rokemaipu_latest(&t, 0, ROKEMAIPU_POWER_MODULES_STATUS, times, 3, buffer, 8), 8); /* the latest of the kind stays */
    IS(rokemaipu_frame(&t, 4, 70, 0x6b001, true, (const uint8_t[]){2, 1}, 2), 0);
    NONE(ROKEMAIPU_KEPT_STATUS); /* nothing is kept from the session before */
    puts("in session: before, in it, finished, opened anew; its refusals in their order");
}

static void any_session(void) {
    size_t page = (size_t)sysconf(_SC_PAGESIZE);
    fenced_table f = table_alone();
    rokemaipu_table *t = f.table;
    lent times = {.end = fenced(page) + page, .width = 4}, buf = {.end = fenced(page) + page, .width = 1};
    for (int turn = 0; turn < 300 && !bad; turn++) {
        only_read(f, false);
        random_table(t);
        for (int i = 0; turn % 3 && i < ROKEMAIPU_POSTS; i++) t->posts[i].head.used = t->posts[i].head.session.opened = 1;
        only_read(f, true);
        for (uint32_t post = 0; post < ROKEMAIPU_POSTS + 2; post++)
            for (uint32_t part = 0; part < 5; part++)
                for (size_t places = 0; places < 5; places++)
                    for (size_t room = 0; room <= 10; room++) {
                        const rokemaipu_head *h = &t->posts[post % ROKEMAIPU_POSTS].head;
                        const rokemaipu_slot *l = &h->session.kept[part % ROKEMAIPU_KEPT];
                        bool kept = h->session.opened == 1 && l->known == 1 && l->kind < ROKEMAIPU_KINDS, big = l->kind >= 9 && l->kind < 12;
                        uint32_t length = kept ? lengths_of[l->kind] : 0, when[ROKEMAIPU_TIMES] = {(uint32_t)l->time, age_of(h->time, l->time), l->kind};
                        uint32_t answer = post > 15 ? R(9) : h->used != 1 ? R(14) : part >= ROKEMAIPU_KEPT ? R(3)
                            : !kept ? 0 : places < ROKEMAIPU_TIMES || room < length ? R(8) : length;
                        bool out = answer && !rokemaipu_refusal(answer);
                        uint8_t bytes[8];
                        for (int i = 0; i < 8; i++) bytes[i] = (uint8_t)(l->raw >> 8 * (big ? 7 - i : i));
                        lend(&times, places), lend(&buf, room);
                        IS(rokemaipu_in_session(t, post, part, (uint32_t *)times.at, places, buf.at, room), answer);
                        lent_is(__LINE__, &times, when, out ? ROKEMAIPU_TIMES : 0);
                        lent_is(__LINE__, &buf, bytes, out ? length : 0);
                    }
        uint32_t far = below(2) ? 0xffffffff : 16 + below(1000);
        IS(rokemaipu_in_session(t, far, far, NULL, 0, NULL, 0), R(9));
        if (t->posts[0].head.used == 1) IS(rokemaipu_in_session(t, 0, far, NULL, 0, NULL, 0), R(3));
    }
    puts("any table's session, with lent memory of every length: answered; the table only read, no other place written");
}

int main(void) {
    holder();
    any_holder();
    in_session();
    any_session();
    puts(bad ? "BAD" : "ok");
    return bad;
}
