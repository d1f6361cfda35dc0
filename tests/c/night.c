/* The night log through the C interface: paper 02's bytes, every refusal, any log and any buffer lent at a fence, logs cut after every byte. What is
 * right for random input is told by the same log in plain C, bench/peer_log.c. */
#include "fence.h"
#include "peer.h"

enum { N = ROKEMAIPU_ENTRY_NUMBERS };

#define BYTES(...) (const uint8_t[]){__VA_ARGS__}, sizeof(const uint8_t[]){__VA_ARGS__}

/* ---- the papers' bytes, and every refusal */

static void entry_is(int line, const uint8_t *log, size_t size, size_t at, const uint64_t want[N]) {
    uint64_t e[N];
    is(line, "the answer of a record", rokemaipu_log_record(log, size, at, e, N), ROKEMAIPU_FOUND_RECORD);
    for (int i = 0; i < N; i++) is(line, "a number of the record", e[i], want[i]);
}
#define ENTRY(log, size, at, ...) entry_is(__LINE__, log, size, at, (const uint64_t[N]){__VA_ARGS__})

static uint32_t found(const uint8_t *log, size_t size) {
    uint64_t e[N];
    return rokemaipu_log_record(log, size, 0, e, N);
}

static void papers(void) {
    static const uint8_t two[] = {0xac, 0x02, 0x02, 0x00, 0x09, 0xac, 0x02, 0x02, 0x81, 0xc0, 0x35, 0x01, 0x01};
    uint8_t log[sizeof two];
    memset(log, 0x55, sizeof log);
    IS(rokemaipu_log_tick(300, 2, log, sizeof log), 5);
    IS(log[5], 0x55);
    IS(rokemaipu_log_frame(300, 2, 0x6b000, true, (const uint8_t[]){1}, 1, log + 5, 8), 8);
    IS(memcmp(log, two, sizeof two), 0);
    ENTRY(log, sizeof log, 0, 1, 300, 2, 0, 0, 5, 0, 5);
    ENTRY(log, sizeof log, 5, 0, 300, 2, 0x6b000, 1, 12, 1, 13);
    IS(rokemaipu_log_record(log, sizeof log, sizeof log, NULL, 0), ROKEMAIPU_FOUND_END);
    IS(rokemaipu_log_record(log, sizeof log, SIZE_MAX, NULL, 0), ROKEMAIPU_FOUND_END);
    IS(rokemaipu_log_record(NULL, 0, 0, NULL, 0), ROKEMAIPU_FOUND_END);
    IS(rokemaipu_log_record(log, sizeof log, 0, NULL, 0), R(8));
    for (size_t size = 6; size < sizeof log; size++) IS(rokemaipu_log_record(log, size, 5, NULL, 0), ROKEMAIPU_FOUND_PIECE);
    puts("02's record: written and read; cut, a piece");
}

static void writer_refuses(void) {
    static const uint8_t payload[9];
    uint8_t out[ROKEMAIPU_RECORD_BYTES];
    size_t room = sizeof out;
    IS(rokemaipu_log_tick(0, 32, out, room), R(17));
    IS(rokemaipu_log_tick(0, UINT32_MAX, NULL, 0), R(17));
    IS(rokemaipu_log_tick(0, 31, out, 3), R(8));
    IS(rokemaipu_log_tick(0, 31, out, 4), 4);
    IS(rokemaipu_log_frame(0, 32, 2048, false, payload, 9, NULL, 0), R(17)); /* the earliest bad part, and 8 last */
    IS(rokemaipu_log_frame(0, 31, 2048, false, payload, 9, NULL, 0), R(18));
    IS(rokemaipu_log_frame(0, 31, UINT32_MAX, false, payload, 8, out, room), R(18));
    IS(rokemaipu_log_frame(0, 31, 1u << 29, true, payload, 9, NULL, 0), R(19));
    IS(rokemaipu_log_frame(0, 31, UINT32_MAX, true, payload, 8, out, room), R(19));
    IS(rokemaipu_log_frame(0, 31, 2047, false, payload, 9, NULL, 0), R(20));
    IS(rokemaipu_log_frame(0, 31, 2047, false, payload, 8, NULL, 0), R(8));
    IS(rokemaipu_log_frame(0, 31, 2047, false, payload, 8, out, room), 13);
    IS(rokemaipu_log_frame(UINT32_MAX, 31, (1u << 29) - 1, true, payload, 8, out, room - 1), R(8));
    IS(rokemaipu_log_frame(UINT32_MAX, 31, (1u << 29) - 1, true, payload, 8, out, room), ROKEMAIPU_RECORD_BYTES); /* the longest */
    ENTRY(out, room, 0, 0, UINT32_MAX, 31, (1u << 29) - 1, 1, 12, 8, 20);
    puts("the writer's refusals: 17, 18, 19, 20, 8");
}

static void reader_refuses(void) {
    IS(found(BYTES(0x80, 0x00)), R(16));                             /* not the shortest form */
    IS(found(BYTES(0x80, 0x80, 0x80, 0x80, 0x00, 0, 0, 9)), R(16));
    IS(found(BYTES(0xff, 0xff, 0xff, 0xff, 0x10)), R(16));           /* 33 bits */
    IS(found(BYTES(0x80, 0x80, 0x80, 0x80, 0x80)), R(16));           /* more than five groups, told before the cut */
    IS(found(BYTES(0x80, 0x80, 0x80, 0x80)), ROKEMAIPU_FOUND_PIECE);
    IS(found(BYTES(0, 0x80, 0x00)), R(16));
    IS(found(BYTES(0, 0, 0x80, 0x00)), R(16));
    IS(found(BYTES(0, 0, 0, 0x80, 0x00)), R(16));
    IS(found(BYTES(0, 32)), R(17));
    IS(found(BYTES(0, 31)), ROKEMAIPU_FOUND_PIECE);
    IS(found(BYTES(0, 0, 0x80, 0x20)), R(18));                       /* standard 2,048 */
    IS(found(BYTES(0, 0, 0xfe, 0x1f)), ROKEMAIPU_FOUND_PIECE);
    IS(found(BYTES(0, 0, 0x81, 0x80, 0x80, 0x80, 0x04)), R(19));     /* extended 2^29 */
    IS(found(BYTES(0, 0, 0xff, 0xff, 0xff, 0xff, 0x03)), ROKEMAIPU_FOUND_PIECE);
    IS(found(BYTES(0, 0, 0, 10)), R(20));
    IS(found(BYTES(0, 0, 2, 10)), R(20));
    IS(found(BYTES(0, 0, 2, 9)), R(21));
    IS(found(BYTES(0, 32, 0x80, 0x20, 10)), R(17));                  /* the earliest bad part */
    IS(found(BYTES(0, 0, 0x80, 0x20, 10)), R(18));
    IS(found(BYTES(0, 0, 0, 8, 1, 2, 3, 4, 5, 6, 7)), ROKEMAIPU_FOUND_PIECE);
    IS(found(BYTES(0, 0, 0, 8, 1, 2, 3, 4, 5, 6, 7, 8)), ROKEMAIPU_FOUND_RECORD);
    IS(found(BYTES(0, 0, 0, 0)), ROKEMAIPU_FOUND_RECORD); /* identifier 0, a frame */
    puts("the reader's refusals: 16 to 21");
}

/* ---- any record, into buffers of every length that end at a fence */

static uint32_t any_word(void) { return (uint32_t)(next() >> (32 + below(33))); }

typedef struct record {
    uint32_t time, channel, id;
    bool tick, extended;
    size_t length;
    uint8_t payload[12];
} record;

static record any_record(bool holdable) {
    record x = {.time = any_word(), .channel = below(holdable ? 32 : 36), .tick = below(5) == 0, .extended = below(3) > 0, .length = below(holdable ? 9 : 11)};
    x.id = holdable ? any_word() % (x.extended ? 1u << 29 : 2048) : any_word();
    for (size_t i = 0; i < sizeof x.payload; i++) x.payload[i] = (uint8_t)next();
    return x;
}

static uint32_t logged(const record *x, uint8_t *out, size_t room) {
    return x->tick ? rokemaipu_log_tick(x->time, x->channel, out, room) : rokemaipu_log_frame(x->time, x->channel, x->id, x->extended, x->payload, x->length, out, room);
}

static uint32_t peer_logged(const record *x, uint8_t *out, size_t room) {
    return x->tick ? peer_log_tick(x->time, x->channel, out, room) : peer_log_frame(x->time, x->channel, x->id, x->extended, x->payload, x->length, out, room);
}

static void any_buffer(void) {
    lent out = {.end = fenced(4096) + 4096, .width = 1};
    uint32_t seen[32] = {0};
    for (int turn = 0; turn < 20000 && !bad; turn++) {
        record x = any_record(turn % 2);
        for (size_t room = 0; room <= ROKEMAIPU_RECORD_BYTES + 2; room++) {
            uint8_t bytes[ROKEMAIPU_RECORD_BYTES];
            uint32_t want = peer_logged(&x, bytes, room < sizeof bytes ? room : sizeof bytes);
            lend(&out, room);
            IS(logged(&x, out.at, room), want);
            lent_is(__LINE__, &out, bytes, rokemaipu_refusal(want) ? 0 : want);
            seen[rokemaipu_refusal(want)]++;
        }
    }
    static const int all[] = {0, 8, 17, 18, 19, 20};
    for (size_t i = 0; i < sizeof all / sizeof *all; i++) IS(seen[all[i]] > 0, true);
    puts("any record into buffers of every length: only its own bytes written, none by a refusal");
}

/* ---- any bytes, read at every byte; the log has a fence on both sides and is read-only */

static void any_log(void) {
    size_t page = (size_t)sysconf(_SC_PAGESIZE);
    uint8_t *log = fenced(page);
    lent numbers = {.end = fenced(page) + page, .width = 8};
    uint32_t seen[32] = {0}, pieces = 0;
    for (int turn = 0; turn < 40 && !bad; turn++) {
        if (mprotect(log, page, PROT_READ | PROT_WRITE)) exit(1);
        for (size_t i = 0; i < page; i++) log[i] = turn == 0 ? 0x80 : below(3) ? (uint8_t)below(12) : (uint8_t)next();
        if (mprotect(log, page, PROT_READ)) exit(1);
        for (size_t at = 0; at <= page + 1; at++) {
            uint64_t e[N] = {0};
            size_t places = turn % 4 ? N : below(MOST + 1), from = turn % 3 ? 0 : at; /* lent whole, and from the byte itself on */
            if (from > page) from = page;
            uint32_t want = peer_log_record(log + from, page - from, at - from, e, places);
            lend(&numbers, places);
            IS(rokemaipu_log_record(log + from, page - from, at - from, (uint64_t *)numbers.at, places), want);
            lent_is(__LINE__, &numbers, e, want ? 0 : N);
            seen[rokemaipu_refusal(want)]++, pieces += want == ROKEMAIPU_FOUND_PIECE;
        }
    }
    for (int n = 16; n <= 21; n++) IS(seen[n] > 0, true);
    IS(seen[8] > 0 && pieces > 0, true);
    puts("any bytes, read at every byte: answered; nothing beside the log read, no other place written");
}

/* ---- logs of random records */

enum { RECORDS = 5000, CUT = 300 };

static bool same(const record *x, const uint8_t *log, const uint64_t *e) {
    if (x->time != e[ROKEMAIPU_ENTRY_TIME] || x->channel != e[ROKEMAIPU_ENTRY_CHANNEL] || x->tick != e[ROKEMAIPU_ENTRY_TICK]) return false;
    if (x->tick) return !e[ROKEMAIPU_ENTRY_ID] && !e[ROKEMAIPU_ENTRY_EXTENDED] && !e[ROKEMAIPU_ENTRY_LENGTH];
    return x->id == e[ROKEMAIPU_ENTRY_ID] && x->extended == e[ROKEMAIPU_ENTRY_EXTENDED] && x->length == e[ROKEMAIPU_ENTRY_LENGTH]
        && !memcmp(x->payload, log + e[ROKEMAIPU_ENTRY_START], x->length);
}

/* reads the log up to its end, holds its records to those wanted, and answers how many; what stands behind them and where goes out */
static size_t read_back(const uint8_t *log, size_t size, const record *xs, uint32_t *ending, size_t *at) {
    uint64_t e[N];
    size_t n = 0;
    for (*at = 0; (*ending = rokemaipu_log_record(log, size, *at, e, N)) == ROKEMAIPU_FOUND_RECORD && !bad; *at = e[ROKEMAIPU_ENTRY_NEXT], n++)
        IS(n < RECORDS && same(&xs[n], log, e), true);
    return n;
}

static void round_trip(void) {
    static record xs[RECORDS];
    static uint8_t log[RECORDS * ROKEMAIPU_RECORD_BYTES];
    size_t ends[RECORDS + 1] = {0}, at;
    uint32_t ending;
    for (size_t n = 0; n < RECORDS; n++) {
        xs[n] = any_record(true);
        ends[n + 1] = ends[n] + logged(&xs[n], log + ends[n], sizeof log - ends[n]);
    }
    IS(read_back(log, ends[RECORDS], xs, &ending, &at), RECORDS);
    IS(ending, ROKEMAIPU_FOUND_END);
    uint8_t *fence = fenced(ends[CUT]) + ends[CUT];
    for (size_t size = 0, whole = 0; size <= ends[CUT] && !bad; size++) { /* cut after any byte */
        if (size == ends[whole + 1]) whole++;
        uint8_t *cut = memcpy(fence - size, log, size);
        IS(read_back(cut, size, xs, &ending, &at), whole);
        IS(ending, size == ends[whole] ? ROKEMAIPU_FOUND_END : ROKEMAIPU_FOUND_PIECE);
        IS(at, ends[whole]);
    }
    printf("a log of %d records: read back as written; cut after any byte, the records wholly before the cut, and the piece's first byte\n", RECORDS);
}

int main(void) {
    papers();
    writer_refuses();
    reader_refuses();
    any_buffer();
    any_log();
    round_trip();
    puts(bad ? "BAD" : "ok");
    return bad;
}
