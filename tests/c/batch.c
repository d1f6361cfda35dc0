/* A batch in one call, from C: the answers and the table of single calls in order, each refusal in its order and nothing changed by it, the edge at
 * 4,096 bytes, and nothing outside the lent memory touched. Prints a line for each part and 'ok', or says what was wrong and where, and exits 1. */
#include "fence.h"

enum { KEPT = 0xdeadbeef, PLACES = 1100 };

/* ---- records */

typedef struct { uint8_t bytes[2 * ROKEMAIPU_BATCH_BYTES]; size_t size; uint32_t count; } records;

static void add_tick(records *r, uint32_t time, uint32_t channel) {
    r->size += rokemaipu_log_tick(time, channel, r->bytes + r->size, ROKEMAIPU_RECORD_BYTES), r->count++;
}

static void add_frame(records *r, uint32_t time, uint32_t channel, uint32_t id, bool extended, const uint8_t *payload, size_t n) {
    r->size += rokemaipu_log_frame(time, channel, id, extended, payload, n, r->bytes + r->size, ROKEMAIPU_RECORD_BYTES), r->count++;
}

/* What the posts hear, what they refuse with 1 to 6, 15 and 29, and 5 at each start: identifiers and bytes that are mostly the pages' of either interface. */
static void add_any(records *r, uint32_t *time) {
    static const uint32_t ids[2][10] = {{0x63000, 0x63001, 0x6b000, 0x6b001, 0x6b002, 0x6b003, 0x6b004, 0x6b005, 0x6b105, 0x6b777},
        {0x60010, 0x60011, 0x68009, 0x68001, 0x68002, 0x68003, 0x68005, 0x68007, 0x60012, 0x68008}};
    static const size_t sizes[2][10] = {{8, 8, 1, 2, 1, 7, 1, 1, 6, 3}, {8, 8, 1, 8, 2, 4, 5, 1, 3, 3}};
    uint32_t k = below(12), channel = below(ROKEMAIPU_POSTS + 2), pages = below(8) ? channel / 4 % 2 : below(2);
    *time += below(300);
    uint32_t at = below(20) ? *time : *time - below(*time + 1);
    if (!below(5)) return add_tick(r, at, channel);
    uint8_t payload[8];
    for (int i = 0; i < 8; i++) payload[i] = (uint8_t)(below(3) ? below(6) : below(256));
    if (k == 5 && !pages) payload[6] = (uint8_t)(below(4) ? 0x40 | 1u << below(4) : below(256));
    /* one after the other: compilers differ in which argument they work out first */
    uint32_t id = k >= 10 ? 6 + below(4) : ids[pages][k], length = k >= 10 ? (below(8) ? 8 : below(9)) : below(12) ? sizes[pages][k] : below(9);
    add_frame(r, at, channel, id, k < 10, payload, length);
}

static records some(size_t most) {
    records r = {{0}, 0, 0};
    uint32_t time = below(1000);
    while (r.size + ROKEMAIPU_RECORD_BYTES <= most) add_any(&r, &time);
    return r;
}

/* ---- single calls */

static uint32_t singly(rokemaipu_table *t, const records *r, uint32_t *words) {
    uint64_t e[ROKEMAIPU_ENTRY_NUMBERS];
    uint32_t n = 0;
    for (size_t at = 0; rokemaipu_log_record(r->bytes, r->size, at, e, ROKEMAIPU_ENTRY_NUMBERS) == ROKEMAIPU_FOUND_RECORD; at = e[ROKEMAIPU_ENTRY_NEXT])
        words[n++] = e[ROKEMAIPU_ENTRY_TICK]
            ? rokemaipu_tick(t, (uint32_t)e[ROKEMAIPU_ENTRY_CHANNEL], (uint32_t)e[ROKEMAIPU_ENTRY_TIME])
            : rokemaipu_frame(t, (uint32_t)e[ROKEMAIPU_ENTRY_CHANNEL], (uint32_t)e[ROKEMAIPU_ENTRY_TIME], (uint32_t)e[ROKEMAIPU_ENTRY_ID], e[ROKEMAIPU_ENTRY_EXTENDED],
                              r->bytes + e[ROKEMAIPU_ENTRY_START], e[ROKEMAIPU_ENTRY_LENGTH]);
    return n;
}

/* ---- memory at fences: the table, the records to their last byte, the answers to their last place, and words before them */

static uint8_t *table_end, *bytes_end, *words_end;
enum { AHEAD = 8 };

static rokemaipu_table *the_table(void) { return (rokemaipu_table *)(table_end - sizeof(rokemaipu_table)); }

static uint32_t call(const uint8_t *bytes, size_t size, size_t places) {
    memcpy(bytes_end - size, bytes, size);
    uint32_t *words = (uint32_t *)words_end - places;
    for (uint32_t *w = words - AHEAD; w < (uint32_t *)words_end; w++) *w = KEPT;
    return rokemaipu_batch(the_table(), bytes_end - size, size, words, places);
}

/* The first n places are those wanted; the words before and the places behind them are as they were lent. */
static void words_are(int line, const uint32_t *want, uint32_t n, size_t places) {
    const uint32_t *words = (uint32_t *)words_end - places;
    uint32_t other = 0;
    for (const uint32_t *w = words - AHEAD; w < words; w++) other += *w != KEPT;
    for (size_t k = 0; k < places; k++) other += words[k] != (k < n ? want[k] : KEPT);
    is(line, "words that are not as they should be", other, 0);
}

static void refused(int line, const uint8_t *bytes, size_t size, size_t places, uint32_t number) {
    rokemaipu_table was = *the_table();
    is(line, "the answer", call(bytes, size, places), R(number));
    is(line, "a table that was to stay, changed", memcmp(&was, the_table(), sizeof was) != 0, 0);
    words_are(line, NULL, 0, places);
}

static void taken(int line, const records *r, size_t places) {
    static uint32_t want[PLACES];
    rokemaipu_table t = *the_table();
    is(line, "the records", singly(&t, r, want), r->count);
    is(line, "the answer", call(r->bytes, r->size, places), r->count);
    is(line, "a table other than that of single calls", memcmp(&t, the_table(), sizeof t) != 0, 0);
    words_are(line, want, r->count, places);
}

static void set_up(void) {
    rokemaipu_start(the_table());
    for (uint32_t i = 0; i < ROKEMAIPU_POSTS; i++) /* posts of either interface */
        IS(rokemaipu_set_up(the_table(), i, i, 5000, 1000, 500, 500, i % 2, i / 4 % 2), 0);
}

/* ---- the parts */

static void singles(void) {
    uint32_t found[12] = {0}, numbers[32] = {0}, starts = 0, total = 0;
    for (int turn = 0; turn < 400; turn++) {
        set_up();
        for (int k = 0; k < 3; k++) {
            records r = some(below(ROKEMAIPU_BATCH_BYTES + 1));
            taken(__LINE__, &r, r.count + below(9));
            const uint32_t *words = (uint32_t *)words_end - r.count;
            taken(__LINE__, &r, r.count);
            for (uint32_t i = 0; i < r.count; i++) {
                if (rokemaipu_refusal(words[i])) numbers[rokemaipu_refusal(words[i])]++, starts += rokemaipu_start_bit(words[i]) != 0;
                else for (int f = 1; f <= 11; f++) found[f] += (words[i] & ROKEMAIPU_F(f)) != 0;
            }
            total += r.count;
        }
    }
    for (int f = 1; f <= 11; f++) is(__LINE__, "a finding that no record had", found[f] == 0, 0);
    for (int n = 1; n <= 6; n++) is(__LINE__, "a refusal that no record had", numbers[n] == 0, 0);
    IS(numbers[15] == 0 || numbers[29] == 0, 0);
    IS(starts == 0, 0);
    printf("single calls: the same words and the same table over %" PRIu32 " random records, on posts of either interface, with every finding, 1 to 6, 15 and 29 among them\n", total);
}

static void edges(void) {
    static const uint8_t tick[] = {0, 0, 0, 9};
    records full = {{0}, 0, 0};
    for (int k = 0; k < ROKEMAIPU_BATCH_BYTES / 4; k++) add_tick(&full, 0, 0);
    IS(full.size, ROKEMAIPU_BATCH_BYTES);
    set_up();
    taken(__LINE__, &full, full.count);
    taken(__LINE__, &full, full.count + 5);
    refused(__LINE__, full.bytes, full.size, full.count - 1, 24);
    add_tick(&full, 0, 0);
    refused(__LINE__, full.bytes, ROKEMAIPU_BATCH_BYTES + 1, PLACES, 22); /* 4,097: before the cut record that they end in */
    refused(__LINE__, full.bytes, ROKEMAIPU_BATCH_BYTES + 4, 0, 22);      /* and before the places, which are too few */
    refused(__LINE__, full.bytes, ROKEMAIPU_BATCH_BYTES - 1, PLACES, 23); /* a cut record */
    refused(__LINE__, full.bytes, ROKEMAIPU_BATCH_BYTES - 1, 0, 23);      /* before the places */
    records none = {{0}, 0, 0};
    taken(__LINE__, &none, 0);
    taken(__LINE__, &none, 7);
    rokemaipu_table was = *the_table();
    IS(rokemaipu_batch(the_table(), NULL, 0, NULL, 0), 0);
    IS(memcmp(&was, the_table(), sizeof was), 0);
    IS(rokemaipu_batch(the_table(), tick, sizeof tick, NULL, 0), R(24));
    IS(memcmp(&was, the_table(), sizeof was), 0);
    puts("edges: 4,096 bytes and none are taken, 4,097 are not; 22 before 23 before 24");
}

/* Any batch cut after any byte is taken where the cut falls between records, and refused whole where it does not; so is one with any byte changed, by
 * what the log reads there. */
static void cuts(void) {
    set_up();
    uint32_t between = 0, within = 0, broken = 0;
    records r = some(300);
    for (size_t cut = 0; cut <= r.size; cut++) {
        records s = r;
        uint64_t e[ROKEMAIPU_ENTRY_NUMBERS];
        s.size = cut, s.count = 0;
        size_t at = 0;
        while (rokemaipu_log_record(s.bytes, cut, at, e, ROKEMAIPU_ENTRY_NUMBERS) == ROKEMAIPU_FOUND_RECORD) at = e[ROKEMAIPU_ENTRY_NEXT], s.count++;
        if (at == cut) taken(__LINE__, &s, s.count + 2), between++;
        else refused(__LINE__, s.bytes, cut, s.count + 2, 23), within++;
    }
    IS(between, r.count + 1);
    for (int turn = 0; turn < 3000; turn++) {
        records s = r;
        uint64_t e[ROKEMAIPU_ENTRY_NUMBERS];
        uint32_t place = below((uint32_t)s.size);
        s.bytes[place] = (uint8_t)next();
        size_t at = 0;
        uint32_t answer;
        s.count = 0;
        while ((answer = rokemaipu_log_record(s.bytes, s.size, at, e, ROKEMAIPU_ENTRY_NUMBERS)) == ROKEMAIPU_FOUND_RECORD) at = e[ROKEMAIPU_ENTRY_NEXT], s.count++;
        if (answer == ROKEMAIPU_FOUND_END) taken(__LINE__, &s, s.count);
        else refused(__LINE__, s.bytes, s.size, below(2) ? PLACES : s.count, 23), broken += answer != ROKEMAIPU_FOUND_PIECE;
    }
    IS(broken == 0, 0);
    printf("cuts: %" PRIu32 " between records taken, %" PRIu32 " within one refused whole; so are malformed records, wherever they stand\n", between, within);
}

int main(void) {
    table_end = fenced(sizeof(rokemaipu_table)) + sizeof(rokemaipu_table);
    bytes_end = fenced(2 * ROKEMAIPU_BATCH_BYTES) + 2 * ROKEMAIPU_BATCH_BYTES;
    words_end = fenced(4 * (PLACES + AHEAD)) + 4 * (PLACES + AHEAD);
    singles();
    edges();
    cuts();
    puts(bad ? "batch: something is wrong" : "ok");
    return bad;
}
