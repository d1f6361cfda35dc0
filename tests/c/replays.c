/* Replay over the C interface (02, Req 05): its lines are those of the records fed singly, over the functions for one record, one frame and one tick; one a
 * call; every other answer leaves all as it was. Prints a line for each part and 'ok', or says what was wrong and where, and exits 1. */
#include "fence.h"

static const uint8_t channel_32[2] = {0, 32}, ticks[10] = {0xac, 0x02, 0x02, 0x00, 0x09, 0xac, 0x02, 0x03, 0x00, 0x09};

static uint32_t set_up(rokemaipu_replay *r, uint32_t post, uint32_t channel) { return rokemaipu_replay_set_up(r, post, channel, 5000, 1000, 500, 500, 0, 0); }

/* a call that is to leave all as it was */
static void stays(int line, rokemaipu_replay *r, const uint8_t *log, size_t size, size_t at, size_t room, size_t places, uint32_t want) {
    rokemaipu_replay before = *r;
    uint8_t text[64], was[64];
    uint64_t next[2] = {77, 78};
    for (size_t i = 0; i < sizeof text; i++) text[i] = was[i] = (uint8_t)(i * 7);
    is(line, "the answer", rokemaipu_replay_line(r, log, size, at, text, room, next, places), want);
    is(line, "the replay, changed", memcmp(r, &before, sizeof before) != 0, 0);
    is(line, "the line, changed", memcmp(text, was, sizeof was) != 0, 0);
    is(line, "the next byte, changed", next[0] != 77 || next[1] != 78, 0);
}
#define STAYS(r, log, size, at, room, places, want) stays(__LINE__, r, log, size, at, room, places, want)

static void told(int line, rokemaipu_replay *r, const uint8_t *log, size_t size, uint64_t *at, const char *want) {
    uint8_t text[ROKEMAIPU_LINE_BYTES + 1];
    uint64_t next[2] = {0, 78};
    memset(text, 0x55, sizeof text);
    uint32_t n = rokemaipu_replay_line(r, log, size, *at, text, ROKEMAIPU_LINE_BYTES, next, 2);
    is(line, "the line's bytes", n, strlen(want));
    is(line, "the line, other", memcmp(text, want, strlen(want)) != 0, 0);
    for (size_t i = strlen(want); i < sizeof text; i++) is(line, "a byte behind the line", text[i], 0x55);
    is(line, "the place behind the next byte", next[1], 78);
    *at = next[0];
}
#define TOLD(want) told(__LINE__, &r, log, sizeof log, &at, want)

static void worked(void) {
    const uint8_t log[] = {0xac, 0x02, 0x02, 0x00, 0x09, 0xac, 0x02, 0x03, 0x00, 0x09, 0xab, 0x02, 0x02, 0x00, 0x09, 0xac};
    rokemaipu_replay r;
    uint64_t at = 0;
    memset(&r, 0, sizeof r);
    IS(set_up(&r, 0, 2), 0);
    TOLD("1 0 A0\n");
    IS(at, 5);
    TOLD("2 - R1\n");
    TOLD("3 0 R2\n");
    IS(at, 15);
    IS(r.count, 3);
    STAYS(&r, log, sizeof log, at, ROKEMAIPU_LINE_BYTES, 1, 1); /* a piece */
    STAYS(&r, log, 15, at, ROKEMAIPU_LINE_BYTES, 1, 0);         /* the end */
    STAYS(&r, log, 15, 99, ROKEMAIPU_LINE_BYTES, 1, 0);
    STAYS(&r, channel_32, 2, 0, ROKEMAIPU_LINE_BYTES, 1, R(17));
    STAYS(&r, channel_32, 2, 0, ROKEMAIPU_LINE_BYTES - 1, 1, R(8)); /* 8 first */
    STAYS(&r, channel_32, 2, 0, ROKEMAIPU_LINE_BYTES, 0, R(8));
    rokemaipu_replay before = r;
    IS(set_up(&r, 1, 3), 1); /* late */
    IS(set_up(&r, 16, 3), 1);
    IS(memcmp(&r, &before, sizeof r), 0);
    puts("02's replay: its lines, the piece, the end, a malformed record; 8 first; a late set-up");
}

/* the last count, a post of two digits and a start bit of two: no line is longer than ROKEMAIPU_LINE_BYTES */
static void longest(void) {
    const uint8_t log[] = {0x00, 0x1f, 0x81, 0xc0, 0x31, 0x08, 0xa0, 0x0f, 0x83, 0xff, 0x41, 0x00, 0x02, 0x64, 0x00, 0x1f, 0x00, 0x09};
    rokemaipu_replay r;
    uint64_t at = 0;
    memset(&r, 0, sizeof r);
    IS(set_up(&r, 15, 31), 0);
    IS(set_up(&r, 10, 30), 0);
    r.count = UINT64_MAX - 2;
    TOLD("18446744073709551614 15 R5 48\n");
    IS(at, 14);
    TOLD("18446744073709551615 15 A0\n");
    puts("the longest lines: of a post with two digits, with the last counts");
}

static void refused(void) {
    rokemaipu_replay r, zero;
    memset(&r, 0, sizeof r), memset(&zero, 0, sizeof zero);
    const struct { uint32_t post, channel, silence, number; } rows[] = {{16, 2, 500, 9}, {1, 32, 500, 10}, {1, 2, 500, 11}, {1, 3, 99, 12}};
    for (size_t i = 0; i < sizeof rows / sizeof *rows; i++) {
        IS(rokemaipu_replay_start(&r), 0);
        IS(memcmp(&r, &zero, sizeof r), 0);
        IS(set_up(&r, 0, 2), 0);
        IS(rokemaipu_replay_set_up(&r, rows[i].post, rows[i].channel, 5000, 1000, 500, rows[i].silence, 0, 0), R(rows[i].number));
        IS(r.course, R(rows[i].number));
        IS(set_up(&r, 15, 5), R(rows[i].number)); /* it has ended, also where a later one would be accepted */
        STAYS(&r, ticks, sizeof ticks, 0, ROKEMAIPU_LINE_BYTES, 1, R(rows[i].number));
        STAYS(&r, ticks, sizeof ticks, 0, ROKEMAIPU_LINE_BYTES - 1, 1, R(8));
    }
    puts("a refused set-up ends the replay with its number and no line");
}

/* ---- any log: the line of each record is that of the record fed singly */

static uint32_t feed(rokemaipu_table *t, const uint8_t *log, const uint64_t *e) {
    uint32_t channel = (uint32_t)e[ROKEMAIPU_ENTRY_CHANNEL], time = (uint32_t)e[ROKEMAIPU_ENTRY_TIME];
    if (e[ROKEMAIPU_ENTRY_TICK]) return rokemaipu_tick(t, channel, time);
    return rokemaipu_frame(t, channel, time, (uint32_t)e[ROKEMAIPU_ENTRY_ID], e[ROKEMAIPU_ENTRY_EXTENDED] != 0, log + e[ROKEMAIPU_ENTRY_START], e[ROKEMAIPU_ENTRY_LENGTH]);
}

static int plain_line(char *out, uint64_t count, uint32_t post, uint32_t answer) {
    uint32_t number = rokemaipu_refusal(answer);
    char who[12], what[24];
    if (number == 1) strcpy(who, "-");
    else sprintf(who, "%" PRIu32, post);
    if (number == 5) sprintf(what, "R5 %" PRIu32, rokemaipu_start_bit(answer));
    else sprintf(what, number ? "R%" PRIu32 : "A%" PRIu32, number ? number : answer);
    return sprintf(out, "%" PRIu64 " %s %s\n", count, who, what);
}

static size_t some_log(uint8_t *log, size_t most, uint32_t *time) {
    static const struct { uint32_t id; uint8_t n; } kinds[] = {{0x63000, 8}, {0x63001, 8}, {0x6b000, 1}, {0x6b001, 2}, {0x6b003, 7}, {0x6b004, 1}, {0x12345, 3},
        {0x60010, 8}, {0x68001, 8}, {0x68005, 5}, {0x68007, 1}};
    size_t size = 0;
    while (size + ROKEMAIPU_RECORD_BYTES < most) {
        uint32_t channel = below(5), which = below(sizeof kinds / sizeof *kinds);
        uint8_t payload[8];
        *time += below(300);
        for (int i = 0; i < 8; i++) payload[i] = below(3) ? (uint8_t)below(3) : (uint8_t)next();
        size += below(3) ? rokemaipu_log_frame(*time, channel, kinds[which].id, true, payload, kinds[which].n - (below(9) == 0), log + size, most - size)
                         : rokemaipu_log_tick(below(6) ? *time : *time / 2, channel, log + size, most - size);
    }
    return size;
}

static void any_log(void) {
    enum { MOST_BYTES = 4096 };
    static uint8_t log[MOST_BYTES];
    size_t page = (size_t)sysconf(_SC_PAGESIZE);
    lent text = {.end = fenced(page) + page, .width = 1}, place = {.end = fenced(page) + page, .width = 8};
    uint64_t seen[32] = {0}, lines = 0;
    for (int turn = 0; turn < 60 && !bad; turn++) {
        rokemaipu_replay *r = (rokemaipu_replay *)fenced(sizeof *r);
        rokemaipu_table singly;
        memset(r, 0, sizeof *r), memset(&singly, 0, sizeof singly);
        for (uint32_t post = 0; post < 4; post++) {
            IS(rokemaipu_replay_set_up(r, 12 - 3 * post, post, 5000, 1000, 500, 500, post % 2, post / 2), 0);
            IS(rokemaipu_set_up(&singly, 12 - 3 * post, post, 5000, 1000, 500, 500, post % 2, post / 2), 0);
        }
        uint32_t time = 0;
        size_t size = some_log(log, MOST_BYTES - below(200), &time), at = 0;
        if (turn % 3 == 1) size -= below(4);                      /* a piece may be left */
        if (turn % 3 == 2) log[below((uint32_t)size)] = 0xff;      /* a record may be malformed */
        for (uint64_t count = 1; !bad; count++) {
            uint64_t e[ROKEMAIPU_ENTRY_NUMBERS];
            uint32_t found = rokemaipu_log_record(log, size, at, e, ROKEMAIPU_ENTRY_NUMBERS);
            if (found != ROKEMAIPU_FOUND_RECORD) {
                STAYS(r, log, size, at, ROKEMAIPU_LINE_BYTES, 1, found == ROKEMAIPU_FOUND_END ? 0 : found == ROKEMAIPU_FOUND_PIECE ? 1 : found);
                break;
            }
            uint32_t post = rokemaipu_holder(&singly, (uint32_t)e[ROKEMAIPU_ENTRY_CHANNEL]), answer = feed(&singly, log, e);
            char want[64];
            int length = plain_line(want, count, post, answer);
            lend(&text, ROKEMAIPU_LINE_BYTES), lend(&place, 1 + below(3));
            IS(rokemaipu_replay_line(r, log, size, at, text.at, text.places, (uint64_t *)place.at, place.places), (uint32_t)length);
            lent_is(__LINE__, &text, want, (size_t)length);
            lent_is(__LINE__, &place, &e[ROKEMAIPU_ENTRY_NEXT], 1);
            IS(memcmp(&r->table, &singly, sizeof singly), 0);
            IS(r->count, count);
            IS(r->course, 1);
            seen[rokemaipu_refusal(answer)]++, lines++;
            at = e[ROKEMAIPU_ENTRY_NEXT];
        }
    }
    IS(seen[0] && seen[1] && seen[2] && seen[3] && seen[4] && seen[5] && seen[29], true);
    printf("any log: %" PRIu64 " lines are those of the records fed singly, and so is the table; nothing beside the lent memory is touched\n", lines);
}

int main(void) {
    worked();
    longest();
    refused();
    any_log();
    puts(bad ? "BAD" : "ok");
    return bad;
}
