/* Two recordings compared, from C: the lists and places of 02's words, counted out record by record; each refusal in its order, with side and byte, and
 * nothing changed by it; and nothing outside the lent memory touched. Prints a line for each part and 'ok', or says what was wrong and where, and exits 1. */
#include "fence.h"

enum { KEPT = 0xdeadbeef, AHEAD = 8, ROOM = ROKEMAIPU_COMPARE_RECORDS, MANY = 700, BYTES = MANY * ROKEMAIPU_RECORD_BYTES, WIDE = ROOM + 100 };

/* ---- records, by their parts */

typedef struct { uint64_t tick, time, channel, id, extended, length; uint8_t payload[8]; } rec;
typedef struct { uint8_t bytes[BYTES]; size_t size; } recording;

static void add(recording *r, const rec *x) {
    uint8_t *to = r->bytes + r->size;
    r->size += x->tick ? rokemaipu_log_tick((uint32_t)x->time, (uint32_t)x->channel, to, ROKEMAIPU_RECORD_BYTES)
                       : rokemaipu_log_frame((uint32_t)x->time, (uint32_t)x->channel, (uint32_t)x->id, x->extended, x->payload, x->length, to, ROKEMAIPU_RECORD_BYTES);
}

/* Few times, channels, identifiers and bytes, so that records are repeated, and that many differ in one part alone. */
static rec any(void) {
    rec x = {0};
    x.time = below(3) * 200, x.channel = below(3) * 15, x.tick = below(3) == 0;
    if (x.tick) return x;
    x.extended = below(2), x.id = below(2) * 5, x.length = below(4) ? below(3) : 8;
    for (size_t i = 0; i < x.length; i++) x.payload[i] = (uint8_t)below(2);
    return x;
}

/* What the log reads as: how many records, and whether and where one is malformed or cut. */
typedef struct { rec at[MANY + 1]; size_t n, byte; bool broken; } told;

static void read_back(const recording *r, told *t) {
    uint64_t e[ROKEMAIPU_ENTRY_NUMBERS];
    uint32_t found;
    size_t at = 0;
    memset(t, 0, sizeof *t);
    while ((found = rokemaipu_log_record(r->bytes, r->size, at, e, ROKEMAIPU_ENTRY_NUMBERS)) == ROKEMAIPU_FOUND_RECORD) {
        rec *x = &t->at[t->n++];
        x->tick = e[ROKEMAIPU_ENTRY_TICK], x->time = e[ROKEMAIPU_ENTRY_TIME], x->channel = e[ROKEMAIPU_ENTRY_CHANNEL];
        x->id = e[ROKEMAIPU_ENTRY_ID], x->extended = e[ROKEMAIPU_ENTRY_EXTENDED], x->length = e[ROKEMAIPU_ENTRY_LENGTH];
        memcpy(x->payload, r->bytes + e[ROKEMAIPU_ENTRY_START], x->length);
        at = e[ROKEMAIPU_ENTRY_NEXT];
    }
    t->broken = found != ROKEMAIPU_FOUND_END, t->byte = at;
}

/* ---- 02's words, counted out */

static size_t count(const rec *x, const rec *among, size_t n) {
    size_t k = 0;
    for (size_t i = 0; i < n; i++) k += !memcmp(x, &among[i], sizeof *x);
    return k;
}

static uint32_t surplus(const told *own, const told *other, uint32_t *list) {
    uint32_t k = 0;
    for (size_t i = 0; i < own->n; i++)
        if (count(&own->at[i], own->at, i + 1) > count(&own->at[i], other->at, other->n)) list[k++] = (uint32_t)i + 1;
    return k;
}

static size_t sequence(const told *t, uint32_t c, const rec **out) {
    size_t k = 0;
    for (size_t i = 0; i < t->n; i++)
        if (t->at[i].channel == c) out[k++] = &t->at[i];
    return k;
}

static uint32_t place(const told *a, const told *b, uint32_t c) {
    static const rec *x[MANY + 1], *y[MANY + 1];
    size_t n = sequence(a, c, x), m = sequence(b, c, y);
    for (size_t i = 0; i < n || i < m; i++)
        if (i >= n || i >= m || memcmp(x[i], y[i], sizeof(rec))) return (uint32_t)i + 1;
    return 0;
}

/* ---- memory at fences: both logs to their last byte, both lists, the places and the numbers to their last place, and words before them */

typedef struct { size_t first, second, places, numbers; } rooms;
static const rooms enough = {ROOM, ROOM, ROKEMAIPU_CHANNELS, ROKEMAIPU_COMPARED_NUMBERS};

static uint8_t *a_end, *b_end, *first_end, *second_end, *places_end, *numbers_end;

static uint32_t *fill(uint8_t *end, size_t n) {
    for (uint32_t *w = (uint32_t *)end - n - AHEAD; w < (uint32_t *)end; w++) *w = KEPT;
    return (uint32_t *)end - n;
}

static void kept(int line, const char *what, const uint8_t *end, size_t n, const uint32_t *want, size_t found) {
    const uint32_t *at = (const uint32_t *)end - n;
    uint32_t other = 0;
    for (const uint32_t *w = at - AHEAD; w < at; w++) other += *w != KEPT;
    for (size_t k = 0; k < n; k++) other += at[k] != (k < found ? want[k] : KEPT);
    is(line, what, other, 0);
}

static uint32_t call(const recording *a, const recording *b, rooms r) {
    memcpy(a_end - a->size, a->bytes, a->size), memcpy(b_end - b->size, b->bytes, b->size);
    uint32_t *first = fill(first_end, r.first), *second = fill(second_end, r.second), *places = fill(places_end, r.places);
    uint64_t *numbers = (uint64_t *)(void *)fill(numbers_end, 2 * r.numbers);
    return rokemaipu_compare(a_end - a->size, a->size, b_end - b->size, b->size, first, r.first, second, r.second, places, r.places, numbers, r.numbers);
}

/* The numbers, as the words that they lie in. */
static void left(int line, rooms r, const uint32_t *first, size_t n, const uint32_t *second, size_t m, const uint32_t *places, const uint64_t *numbers) {
    kept(line, "places of the first list that are not as they should be", first_end, r.first, first, n);
    kept(line, "places of the second list that are not as they should be", second_end, r.second, second, m);
    kept(line, "channels' places that are not as they should be", places_end, r.places, places, places ? ROKEMAIPU_CHANNELS : 0);
    uint32_t words[2 * ROKEMAIPU_COMPARED_NUMBERS];
    if (numbers) memcpy(words, numbers, sizeof words);
    kept(line, "numbers that are not as they should be", numbers_end, 2 * r.numbers, words, numbers ? 2 * ROKEMAIPU_COMPARED_NUMBERS : 0);
}

static void refused(int line, const recording *a, const recording *b, rooms r, uint32_t number, uint64_t side, uint64_t byte) {
    uint64_t numbers[] = {side, byte};
    is(line, "the answer", call(a, b, r), R(number));
    left(line, r, NULL, 0, NULL, 0, NULL, numbers);
}

/* Any pair and any lent memory, judged in 02's order. Answers the number of the refusal, 0 where it is taken, and tells how many records were listed. */
static uint32_t judged(int line, const recording *a, const recording *b, rooms r, size_t *listed) {
    static told x, y;
    static uint32_t first[MANY + 1], second[MANY + 1], places[ROKEMAIPU_CHANNELS];
    read_back(a, &x), read_back(b, &y);
    if (r.numbers < ROKEMAIPU_COMPARED_NUMBERS) {
        is(line, "the answer", call(a, b, r), R(8));
        left(line, r, NULL, 0, NULL, 0, NULL, NULL);
        return 8;
    }
    if (x.broken) return refused(line, a, b, r, 26, 1, x.byte), 26;
    if (y.broken) return refused(line, a, b, r, 26, 2, y.byte), 26;
    if (x.n > ROOM) return refused(line, a, b, r, 27, 1, 0), 27;
    if (y.n > ROOM) return refused(line, a, b, r, 27, 2, 0), 27;
    if (r.first < ROOM) return refused(line, a, b, r, 28, 1, 0), 28;
    if (r.second < ROOM) return refused(line, a, b, r, 28, 2, 0), 28;
    if (r.places < ROKEMAIPU_CHANNELS) return refused(line, a, b, r, 8, 0, 0), 8;
    uint64_t numbers[] = {surplus(&x, &y, first), surplus(&y, &x, second)};
    for (uint32_t c = 0; c < ROKEMAIPU_CHANNELS; c++) places[c] = place(&x, &y, c);
    is(line, "the answer", call(a, b, r), 0);
    left(line, r, first, numbers[0], second, numbers[1], places, numbers);
    *listed += numbers[0] + numbers[1];
    return 0;
}

/* ---- the parts */

static recording a, b;

static void some(recording *r, size_t n) {
    r->size = 0;
    for (size_t k = 0; k < n; k++) {
        rec x = any();
        add(r, &x);
    }
}

/* The second is the first with records taken out, put in, changed and in another order. */
static void like(recording *r, const recording *as) {
    static told t;
    read_back(as, &t);
    r->size = 0;
    for (size_t k = 0; k < t.n; k++) {
        rec x = below(6) ? t.at[k] : any();
        if (k + 1 < t.n && !below(8)) add(r, &t.at[k + 1]);
        if (below(9)) add(r, &x);
        if (!below(9)) x = any(), add(r, &x);
    }
}

static void pairs(void) {
    size_t listed = 0, taken = 0;
    for (int turn = 0; turn < 6000; turn++) {
        size_t n = turn % 100 ? below(14) : ROOM - 4 + below(7);
        some(&a, n);
        if (below(2)) like(&b, &a);
        else some(&b, turn % 100 ? below(14) : ROOM - 4 + below(7));
        rooms r = {ROOM + below(4), ROOM + below(100), ROKEMAIPU_CHANNELS + below(3), ROKEMAIPU_COMPARED_NUMBERS + below(2)};
        taken += !judged(__LINE__, &a, &b, r, &listed);
        taken += !judged(__LINE__, &b, &a, r, &listed);
        size_t none = 0;
        if (!judged(__LINE__, &a, &a, r, &none)) IS(none, 0);
    }
    IS(listed == 0, 0);
    printf("pairs: %zu random pairs have the lists and places of 02's words, %zu records listed\n", taken, listed);
}

static void refusals(void) {
    static const size_t counts[] = {0, 3, ROOM, ROOM + 1, 600};
    size_t listed = 0, seen[29] = {0};
    for (int turn = 0; turn < 1500; turn++) {
        some(&a, counts[below(5)]), some(&b, counts[below(5)]);
        if (!below(4) && a.size) a.size -= 1 + below(a.size < 3 ? (uint32_t)a.size : 3);
        if (!below(4) && b.size) b.bytes[below((uint32_t)b.size)] = (uint8_t)next();
        rooms r = {ROOM - below(2), ROOM - below(2), ROKEMAIPU_CHANNELS - !below(4), ROKEMAIPU_COMPARED_NUMBERS - !below(8)};
        seen[judged(__LINE__, &a, &b, r, &listed)]++;
    }
    IS(!seen[0] || !seen[8] || !seen[26] || !seen[27] || !seen[28], 0);
    printf("refusals: in 02's order over any logs and any lent memory, and nothing changed: %zu times 26, %zu 27, %zu 28, %zu 8\n", seen[26], seen[27], seen[28], seen[8]);
}

static void edges(void) {
    static const rec tick = {1, 300, 2, 0, 0, 0, {0}}, other = {1, 300, 3, 0, 0, 0, {0}};
    static const rooms nothing = {0, 0, 0, ROKEMAIPU_COMPARED_NUMBERS};
    static recording three, one, full, long_one;
    size_t listed = 0;
    for (int k = 0; k < 3; k++) add(&three, &tick);
    add(&one, &tick), add(&one, &other);
    IS(call(&three, &one, enough), 0); /* three against one: the later repeats, 2 and 3 */
    left(__LINE__, enough, (uint32_t[]){2, 3}, 2, (uint32_t[]){2}, 1, (uint32_t[ROKEMAIPU_CHANNELS]){0, 0, 2, 1}, (uint64_t[]){2, 1});
    for (int k = 0; k < ROOM; k++) add(&full, &tick);
    IS(judged(__LINE__, &full, &full, enough, &listed), 0);
    IS(judged(__LINE__, &full, &one, enough, &listed), 0);
    add(&full, &tick);
    refused(__LINE__, &full, &full, nothing, 27, 1, 0);
    refused(__LINE__, &one, &full, nothing, 27, 2, 0);
    for (int k = 0; k < 600; k++) add(&long_one, &tick); /* 600 good records, and then a bad one */
    size_t byte = long_one.size;
    memcpy(long_one.bytes + byte, "\0\x20", 2), long_one.size += 2;
    refused(__LINE__, &long_one, &full, nothing, 26, 1, byte);
    refused(__LINE__, &full, &long_one, nothing, 26, 2, byte); /* before 27 of the first */
    refused(__LINE__, &three, &one, (rooms){ROOM - 1, 0, 0, 2}, 28, 1, 0);
    refused(__LINE__, &three, &one, (rooms){ROOM, ROOM - 1, 0, 2}, 28, 2, 0);
    refused(__LINE__, &three, &one, (rooms){ROOM, ROOM, ROKEMAIPU_CHANNELS - 1, 2}, 8, 0, 0);
    IS(rokemaipu_compare(NULL, 0, NULL, 0, NULL, 0, NULL, 0, NULL, 0, NULL, 0), R(8));
    recording none = {{0}, 0};
    IS(judged(__LINE__, &none, &none, enough, &listed), 0);
    IS(judged(__LINE__, &none, &full, nothing, &listed), 27);
    puts("edges: 512 records are taken and 513 are not; 600 good records and then a bad one are 26; 26 before 27 before 28, the first log first");
}

/* Any log cut after any byte is compared where the cut falls between records, and refused with 26 and the piece's first byte where it does not. */
static void cuts(void) {
    size_t listed = 0, taken = 0, within = 0;
    some(&a, 30), like(&b, &a);
    recording c = a;
    for (c.size = 0; c.size <= a.size; c.size++)
        if (judged(__LINE__, &c, &b, enough, &listed)) within++, IS(judged(__LINE__, &b, &c, enough, &listed), 26);
        else taken++;
    IS(taken, 31);
    printf("cuts: %zu between records compared, %zu within one refused\n", taken, within);
}

int main(void) {
    a_end = fenced(BYTES) + BYTES, b_end = fenced(BYTES) + BYTES;
    first_end = fenced(4 * (WIDE + AHEAD)) + 4 * (WIDE + AHEAD), second_end = fenced(4 * (WIDE + AHEAD)) + 4 * (WIDE + AHEAD);
    places_end = fenced(4 * (WIDE + AHEAD)) + 4 * (WIDE + AHEAD), numbers_end = fenced(8 * (16 + AHEAD)) + 8 * (16 + AHEAD);
    pairs();
    refusals();
    edges();
    cuts();
    puts(bad ? "compare: something is wrong" : "ok");
    return bad;
}
