/* 02, Req 09: the clock comes round, asked from C: what is earlier, ages of what is kept, F1 and F2 across the round, a hundred days of hours. Prints a line
 * for each part and 'ok', or says what was wrong and where, and exits 1. */
#include "tables.h"

static const uint8_t status[8] = {0x88, 0x13, 0, 0, 65, 65, 1, 255}, controller[1] = {7}, session[2] = {2, 1};

static void begin(rokemaipu_table *t) {
    IS(rokemaipu_start(t), 0);
    IS(rokemaipu_set_up(t, 0, 4, 5000, 1000, 500, 500, 0, 0), 0);
}

/* the latest frame of a kind stands at its time as received, with its age */
static void when_is(int line, const rokemaipu_table *t, uint32_t kind, uint32_t time, uint32_t age) {
    uint32_t times[ROKEMAIPU_TIMES];
    uint8_t buffer[8];
    is(line, "a frame, refused", rokemaipu_refusal(rokemaipu_latest(t, 0, kind, times, ROKEMAIPU_TIMES, buffer, 8)), 0);
    is(line, "its time", times[ROKEMAIPU_WHEN], time);
    is(line, "its age", times[ROKEMAIPU_WHEN_AGE], age);
}
#define WHEN(kind, time, age) when_is(__LINE__, &t, kind, time, age)

static void earlier(void) {
    rokemaipu_table t;
    memset(&t, 0, sizeof t);
    begin(&t);
    IS(rokemaipu_tick(&t, 4, 100), 0); /* E14 */
    IS(rokemaipu_tick(&t, 4, 99), R(2));
    IS(rokemaipu_tick(&t, 4, 100), 0);
    begin(&t);
    IS(rokemaipu_frame(&t, 4, 4294967290u, 0x63000, true, status, 8), 0); /* the first time may be any */
    IS(rokemaipu_tick(&t, 4, 5), 0);
    WHEN(ROKEMAIPU_POWER_MODULES_STATUS, 4294967290u, 11);
    IS(rokemaipu_tick(&t, 4, 4294967290u), R(2));
    IS(t.posts[0].head.time, 4294967301u);
    begin(&t);
    IS(rokemaipu_tick(&t, 4, 7), 0);
    IS(rokemaipu_tick(&t, 4, 7 + 0x80000000u), R(2)); /* half the range is earlier */
    IS(rokemaipu_tick(&t, 4, 6 + 0x80000000u), 0);
    IS(rokemaipu_tick(&t, 4, 6), R(2));
    IS(rokemaipu_tick(&t, 4, 5), 0);
    IS(t.posts[0].head.time, 4294967301u);
    puts("earlier: E14, across the round, both sides of half the range");
}

static void found(void) {
    rokemaipu_table t;
    uint32_t numbers[ROKEMAIPU_NUMBERS];
    memset(&t, 0, sizeof t);
    begin(&t);
    IS(rokemaipu_frame(&t, 4, 4294967290u, 0x6b001, true, session, 2), 0);
    IS(rokemaipu_tick(&t, 4, 494), 0);
    IS(rokemaipu_tick(&t, 4, 495), ROKEMAIPU_F(1));
    IS(rokemaipu_look_up(&t, 0, numbers, ROKEMAIPU_NUMBERS), 0);
    IS(numbers[ROKEMAIPU_SINCE], 4294967290u);
    IS(numbers[ROKEMAIPU_SINCE_AGE], 501);
    begin(&t);
    IS(rokemaipu_frame(&t, 4, 4294967290u, 0x6b000, true, controller, 1), 0);
    IS(rokemaipu_tick(&t, 4, 194), 0);
    IS(rokemaipu_tick(&t, 4, 195), ROKEMAIPU_F(2));
    puts("found: F1 at 501 ms and F2 at 201 ms across the round");
}

static void ages(void) {
    rokemaipu_table t;
    memset(&t, 0, sizeof t);
    begin(&t);
    IS(rokemaipu_frame(&t, 4, 0, 0x6b000, true, controller, 1), 0);
    IS(rokemaipu_tick(&t, 4, 0x7fffffff), ROKEMAIPU_F(2));
    IS(rokemaipu_tick(&t, 4, 0xfffffffe), ROKEMAIPU_F(2));
    WHEN(ROKEMAIPU_CONTROLLER_STATUS, 0, 0xfffffffe);
    IS(rokemaipu_tick(&t, 4, 0xffffffff), ROKEMAIPU_F(2));
    WHEN(ROKEMAIPU_CONTROLLER_STATUS, 0, 0xffffffff);
    IS(rokemaipu_tick(&t, 4, 0), ROKEMAIPU_F(2)); /* at the same time as received, a round later */
    WHEN(ROKEMAIPU_CONTROLLER_STATUS, 0, 0xffffffff);
    IS(rokemaipu_tick(&t, 4, 150), ROKEMAIPU_F(2));
    begin(&t);
    uint32_t time = 4294967290u;
    IS(rokemaipu_frame(&t, 4, time, 0x6b001, true, session, 2), 0);
    IS(rokemaipu_frame(&t, 4, time, 0x6b000, true, controller, 1), 0);
    for (uint64_t hour = 1; hour <= 2400; hour++) {
        IS(rokemaipu_tick(&t, 4, time += 3600000), ROKEMAIPU_F(1) | ROKEMAIPU_F(2));
        WHEN(ROKEMAIPU_CONTROLLER_STATUS, 4294967290u, age_of(4294967290u + hour * 3600000, 4294967290u));
    }
    IS(t.posts[0].head.time / 4294967296u, 3); /* it had begun just before a round, and came through two more */
    IS(t.posts[0].head.counts[0], 2402);
    puts("ages: up to the largest and no further; a hundred days, ticked every hour");
}

/* a table of the caller's own making: its clock has 64 bits, and comes round there */
static void any_clock(void) {
    rokemaipu_table *t = table_alone().table;
    rokemaipu_head *h = &t->posts[0].head;
    for (int turn = 0; turn < 20000 && !bad; turn++) {
        random_table(t);
        for (int i = 0; i < ROKEMAIPU_POSTS; i++) t->posts[i].head.used = !i;
        t->index[4] = 1, h->channel = 4, h->heard = 1, h->counts[0] = below(1000), h->time = below(3) ? some_time() : UINT64_MAX - below(3000000000u);
        uint64_t from = h->time;
        uint32_t later = below(2) ? (uint32_t)next() : 0x7fffffff + below(3), time = (uint32_t)from + later;
        IS(rokemaipu_refusal(rokemaipu_tick(t, 4, time)), later >> 31 ? 2 : 0);
        IS(h->time == (later >> 31 ? from : from + later), true);
    }
    puts("any clock: later by the wrapped difference, in 64 bits");
}

int main(void) {
    earlier();
    found();
    ages();
    any_clock();
    puts(bad ? "BAD" : "ok");
    return bad;
}
