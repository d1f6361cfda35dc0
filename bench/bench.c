/* The library beside plain C and, with BEFORE, beside an older revision of itself, on the same input in one run: ns a call and the ratios. All give
 * the same answers, or the run stops. The sides take turns of about a millisecond, short enough to fall between other work, and the best of each counts. */
#define _POSIX_C_SOURCE 199309L
#include "bench.h"
#include "sides.h"

#include <inttypes.h>
#include <string.h>

enum { TURNS = 1000, AGAIN = 1500 };

static uint64_t sum; /* keeps the calls alive */

/* ---- the sides' turns */

/* `work` makes `calls` calls; the sum that it answers is the same for every side. */
typedef uint64_t work(const side *s, void *with);

typedef struct { double took[SIDES]; } times;

static times timed(const char *what, work *f, void *with, int turns, double calls, int again, bool table) {
    times best;
    uint64_t first = f(&sides[0], with);
    best.took[0] = 1e300;
    for (int k = 1; k < SIDES; k++) {
        best.took[k] = 1e300;
        if (f(&sides[k], with) != first) differ(what);
    }
    while (again-- > 0)
        for (int k = 0; k < SIDES; k++) {
            if (sides[k].table_only && !table) continue;
            double from = now();
            for (int turn = 0; turn < turns; turn++) sum += f(&sides[k], with);
            double took = (now() - from) / (turns * calls);
            if (took < best.took[k]) best.took[k] = took;
        }
    return best;
}

static void told(const char *what, times t) {
    printf("%-26s %7.1f ns", what, t.took[0]);
    for (int k = 1; k < SIDES; k++)
        if (t.took[k] < 1e299) printf("   %7.1f ns %s, %5.2f times", t.took[k], sides[k].name, t.took[0] / t.took[k]);
    printf("\n");
}

static times line(const char *what, work *f, void *with, int turns, double calls) {
    times t = timed(what, f, with, turns, calls, AGAIN, false);
    told(what, t);
    return t;
}

/* ---- frames without a table */

/* The rest of document 000, from Sequence_Control to OCPP_Control: the messages that no rule asks for, and that of every 100 ms twice. */
static const frame rest_mix[MIX] = {
    {0x63002, 3, {0x01, 0x07, 0x00}},                               {0x63201, 8, {0xf7, 0xff, 0xff, 0xff, 0xff, 0xff, 0xff, 0xff}},
    {0x6b100, 6, {76, 0, 40, 10, 80, 100}},                         {0x6b101, 6, {0xc4, 0x09, 0x94, 0x11, 0x0a, 0x0f}},
    {0x6b102, 8, {50, 0, 0xdc, 0x05, 2, 0, 60, 0}},                 {0x6b103, 8, {0, 0, 0x2c, 0x01, 0, 0, 11, 0}},
    {0x6b104, 6, {0xfb, 0xff, 30, 0, 46, 0}},                       {0x6b200, 8, {5, 0, 0, 0, 78, 84, 57, 57}},
    {0x6b201, 8, {1, 0, 0, 0, 0, 81, 58, 59}},                      {0x6b202, 8, {2, 81, 82, 58, 59, 0, 60, 61}},
    {0x6b203, 8, {6, 50, 0, 0, 0, 0, 0, 0}},                        {0x6b204, 8, {6, 1, 0, 0, 0, 0, 0, 0}},
    {0x6b203, 8, {6, 51, 0, 0, 0, 0, 0, 0}},                        {0x6b300, 2, {0xe8, 0x03}},
};

typedef struct { const frame *mix; uint32_t kind[MIX]; int64_t raws[MIX][ROKEMAIPU_SIGNALS]; } messages;

static uint64_t read_mix(const side *s, void *with) {
    const messages *m = with;
    int64_t raws[ROKEMAIPU_SIGNALS] = {0};
    uint64_t seen = 0;
    for (const frame *f = m->mix; f < m->mix + MIX; f++) seen = 31 * seen + s->read(f->id, true, f->bytes, f->n, raws, ROKEMAIPU_SIGNALS) + (uint64_t)raws[0];
    return seen;
}

static uint64_t write_mix(const side *s, void *with) {
    const messages *m = with;
    uint8_t bytes[8] = {0};
    uint64_t seen = 0;
    for (int i = 0; i < MIX; i++) seen = 31 * seen + s->write(m->kind[i], m->raws[i], ROKEMAIPU_SIGNALS, bytes, 8) + bytes[0];
    return seen;
}

static void bench_codec(const char *read, const char *write, const frame *mix) {
    static messages m;
    m.mix = mix;
    for (int i = 0; i < MIX; i++) m.kind[i] = sides[0].read(mix[i].id, true, mix[i].bytes, mix[i].n, m.raws[i], ROKEMAIPU_SIGNALS);
    line(read, read_mix, &m, TURNS, MIX);
    line(write, write_mix, &m, TURNS, MIX);
}

/* ---- a signal changed: of 16 bits on byte edges, and of one bit */

/* A frame of the mix, and the start of one of its signals. */
typedef struct { int frame; uint32_t start; } spot;
static const spot words[] = {{0, 0}, {2, 0}, {7, 0}, {2, 16}, {0, 16}, {7, 16}, {2, 32}, {7, 32}}, flags[] = {{2, 52}, {2, 53}, {2, 54}, {2, 55}};

typedef struct { const spot *spots; int n; int64_t most, raw[SIDES]; frame frames[SIDES][MIX]; } changes;

static uint64_t change_each(const side *s, void *with) {
    changes *c = with;
    frame *frames = c->frames[s - sides];
    int64_t raw = c->raw[s - sides]++ & c->most;
    uint64_t seen = 0;
    for (const spot *at = c->spots; at < c->spots + c->n; at++) {
        frame *f = &frames[at->frame];
        seen = 31 * seen + s->change(f->id, true, f->bytes, f->n, at->start, raw);
    }
    return seen;
}

static void bench_change(const char *what, const spot *spots, int n, int64_t most) {
    static changes c;
    memset(&c, 0, sizeof c);
    c.spots = spots, c.n = n, c.most = most;
    for (int k = 0; k < SIDES; k++) memcpy(c.frames[k], mix, sizeof mix);
    line(what, change_each, &c, TURNS, n);
}

/* Every start and raw numbers from both sides of each edge, in answers and bytes. */
static void same_changes(const frame *f, bool extended, const side *s) {
    static const int64_t raws[] = {0, 1, 8, 13, 14, 255, 256, 32767, 32768, 65535, 65536, -1, -8192, -32768, -32769, INT64_MIN, INT64_MAX};
    for (uint32_t start = 0; start < 66; start++)
        for (size_t k = 0; k < sizeof raws / sizeof *raws; k++) {
            frame a = *f, b = *f;
            if (sides[0].change(a.id, extended, a.bytes, a.n, start, raws[k]) != s->change(b.id, extended, b.bytes, b.n, start, raws[k]) || memcmp(a.bytes, b.bytes, 8)) differ("change");
        }
}

/* A revision before Req 04 knows no frame of the safety controller, one before Req 14 none of the rest. */
static void bench_changes(void) {
    for (int k = 1; k < SIDES; k++)
        for (const frame *f = mix; f < mix + MIX; f++) same_changes(f, true, &sides[k]);
    for (uint32_t id = 6; id <= 8; id++) same_changes(&(frame){id, 8, {0x82, 0x15, 3}}, false, &sides[1]);
    for (const frame *f = rest_mix; f < rest_mix + MIX; f++) same_changes(f, true, &sides[1]);
    bench_change("change, 16 bits", words, sizeof words / sizeof *words, 0x7fff);
    bench_change("change, one bit", flags, sizeof flags / sizeof *flags, 1);
}

/* ---- the watch: frames and ticks at one time on posts in turn, in each side's own table. How fast a post is copied hangs on where it lies in a line of the
 * cache, and whether a load waits for a store that has nothing to do with it on where both lie in their pages: one place can cost a third. So the tables
 * are put to places over a page and over a line, the same for every side, and the mean counts. */

enum { PAGE = 4096, PLACES = 16, STEP = PAGE / PLACES + 8 };

/* The same session as the older controllers tell it: a message of document 001 for each of the mix. */
static const frame older_mix[MIX] = {
    {0x60010, 8, {0xa0, 0x0f, 0x83, 0x00, 0x41, 0x40, 0x01, 0x64}}, {0x68009, 1, {7}},
    {0x68005, 5, {0xa0, 0x0f, 0x90, 0x00, 0x32}},                   {0x68001, 8, {2, 1, 0x94, 0x11, 0xe2, 0x04, 0x32, 0x25}},
    {0x60010, 8, {0xa1, 0x0f, 0x85, 0x00, 0x41, 0x40, 0x01, 0x64}}, {0x68009, 1, {7}},
    {0x68005, 5, {0xa0, 0x0f, 0x91, 0x00, 0x32}},                   {0x60011, 8, {0x88, 0x13, 0xe8, 0x03, 0, 0, 0, 0}},
    {0x60010, 8, {0xa2, 0x0f, 0x87, 0x00, 0x41, 0x40, 0x01, 0x64}}, {0x6800c, 6, {1, 2, 3, 4, 5, 6}},
    {0x68005, 5, {0xa0, 0x0f, 0x92, 0x00, 0x32}},                   {0x68004, 1, {1}},
    {0x68006, 1, {1}},                                              {0x68007, 1, {0}},
};

static const frame *newer_mix = mix; /* or rest_mix */

typedef struct { _Alignas(PAGE) uint8_t room[SIDES][5 * PAGE]; size_t at; const frame *mix; uint32_t posts, turn[SIDES]; } depot;

_Static_assert((PLACES - 1) * STEP + sizeof(rokemaipu_table) <= 5 * PAGE, "the tables have room");

static rokemaipu_table *table_of(depot *d, const side *s) { return (rokemaipu_table *)(d->room[s - sides] + d->at); }

static uint32_t channel_of(depot *d, const side *s) { return d->turn[s - sides]++ % d->posts; }

static uint64_t frames(const side *s, void *with) {
    depot *d = with;
    rokemaipu_table *t = table_of(d, s);
    uint32_t channel = channel_of(d, s);
    uint64_t seen = 0;
    for (const frame *f = d->mix; f < d->mix + MIX; f++) seen = 31 * seen + s->frame(t, channel, 2000, f->id, true, f->bytes, f->n);
    return seen;
}

static uint64_t tick(const side *s, void *with) {
    depot *d = with;
    return s->tick(table_of(d, s), channel_of(d, s), 2001);
}

/* Posts and messages drawn at random, an order that no processor learns. A stop is none of them: a revision before Req 14 finds nothing behind it. */
enum { LOT = 1 << 16 };
typedef struct { uint8_t post, frame; } drawn;
static drawn lot[LOT];

static void draw(void) {
    uint32_t x = 1;
    for (drawn *next = lot; next < lot + LOT; next++) {
        do x = 1664525 * x + 1013904223, next->post = x >> 24, next->frame = (x >> 8) % MIX;
        while (mix[next->frame].id == 0x6b005);
    }
}

static uint64_t any_frames(const side *s, void *with) {
    depot *d = with;
    rokemaipu_table *t = table_of(d, s);
    uint64_t seen = 0;
    for (const drawn *next = lot; next < lot + LOT; next++) {
        const frame *f = &d->mix[next->frame];
        seen = 31 * seen + s->frame(t, next->post % d->posts, 2000, f->id, true, f->bytes, f->n);
    }
    return seen;
}

static uint64_t any_ticks(const side *s, void *with) {
    depot *d = with;
    uint64_t seen = 0;
    for (const drawn *next = lot; next < lot + LOT; next++) seen = 31 * seen + s->tick(table_of(d, s), next->post % d->posts, 2001);
    return seen;
}

static void charge(depot *d, uint32_t turn) {
    for (const frame *f = d->mix; f < d->mix + MIX; f++) {
        uint32_t first = sides[0].frame(table_of(d, &sides[0]), turn % d->posts, turn, f->id, true, f->bytes, f->n);
        for (int k = 1; k < SIDES; k++)
            if (sides[k].frame(table_of(d, &sides[k]), turn % d->posts, turn, f->id, true, f->bytes, f->n) != first) differ("frame");
    }
}

static void set_up(depot *d, uint32_t interface, uint32_t posts, size_t at) {
    memset(d, 0, sizeof *d);
    d->mix = interface == ROKEMAIPU_OLDER ? older_mix : newer_mix, d->posts = posts, d->at = at;
    for (const side *s = sides; s < sides + SIDES; s++) {
        s->start(table_of(d, s));
        for (uint32_t i = 0; i < posts; i++) s->set_up(table_of(d, s), i, i, 5000, 1000, 500, 500, 0, interface);
    }
    for (uint32_t turn = 0; turn < 1000; turn++) charge(d, turn);
}

static void bench_watch(const char *what, work *f, uint32_t interface, uint32_t posts, int turns, double calls) {
    static depot d;
    times mean = {{0}};
    for (int place = 0; place < PLACES; place++) {
        set_up(&d, interface, posts, (size_t)place * STEP);
        times t = timed(what, f, &d, turns, calls, AGAIN / PLACES, true);
        for (int k = 0; k < SIDES; k++) mean.took[k] += t.took[k] / PLACES;
    }
    told(what, mean);
}

/* ---- the night log, on one channel */

enum { RECORDS = 300 * (MIX + 1), LOG_TURNS = 3, CHANNEL = 4, ROOM = RECORDS * ROKEMAIPU_RECORD_BYTES };

typedef struct { size_t size; uint8_t bytes[ROOM]; } night;

static uint64_t write_log(const side *s, void *with) {
    night *log = with;
    size_t at = 0;
    uint32_t time = FIRST;
    for (int k = 0; k < RECORDS; k++, time += APART) {
        int i = k % (MIX + 1);
        at += i < MIX ? s->log_frame(time, CHANNEL, mix[i].id, true, mix[i].bytes, mix[i].n, log->bytes + at, ROOM - at) : s->log_tick(time, CHANNEL, log->bytes + at, ROOM - at);
    }
    return log->size = at;
}

static uint64_t read_log(const side *s, void *with) {
    const night *log = with;
    uint64_t e[ROKEMAIPU_ENTRY_NUMBERS], seen = 0;
    for (size_t at = 0; s->log_record(log->bytes, log->size, at, e, ROKEMAIPU_ENTRY_NUMBERS) == ROKEMAIPU_FOUND_RECORD; at = e[ROKEMAIPU_ENTRY_NEXT]) seen = 31 * seen + e[ROKEMAIPU_ENTRY_TIME] + e[ROKEMAIPU_ENTRY_START];
    return seen;
}

static void speed(times t, double bytes) {
    printf("%26s", "");
    for (int k = 0; k < SIDES; k++)
        if (!sides[k].table_only) printf("%s %s %.1f million records/s, %.0f MB/s", k ? ";" : "", sides[k].name, 1e3 / t.took[k], 1e3 * bytes / t.took[k]);
    printf("\n");
}

static void bench_log(void) {
    static night logs[SIDES];
    for (int k = 0; k < SIDES; k++)
        if (write_log(&sides[k], &logs[k]) != logs[0].size || memcmp(logs[k].bytes, logs[0].bytes, logs[0].size)) differ("log");
    double bytes = (double)logs[0].size / RECORDS;
    speed(line("log, a record written", write_log, &logs[0], LOG_TURNS, RECORDS), bytes);
    speed(line("log, a record read", read_log, &logs[0], LOG_TURNS, RECORDS), bytes);
}

/* ---- a batch: as many records as 4,096 bytes hold, of the mix and a tick, going round the posts, beside plain C that does the same over one buffer, and
 * beside single calls: each record is read from the same bytes and fed. All start from the same table, and leave the same. */

typedef uint32_t batch(rokemaipu_table *t, const uint8_t *records, size_t length, uint32_t *answers, size_t places);

static uint32_t single_calls(rokemaipu_table *t, const uint8_t *records, size_t length, uint32_t *answers, size_t places) {
    uint64_t e[ROKEMAIPU_ENTRY_NUMBERS];
    uint32_t n = 0;
    for (size_t at = 0; n < places && rokemaipu_log_record(records, length, at, e, ROKEMAIPU_ENTRY_NUMBERS) == ROKEMAIPU_FOUND_RECORD; at = e[ROKEMAIPU_ENTRY_NEXT])
        answers[n++] = e[ROKEMAIPU_ENTRY_TICK] ? rokemaipu_tick(t, (uint32_t)e[ROKEMAIPU_ENTRY_CHANNEL], (uint32_t)e[ROKEMAIPU_ENTRY_TIME])
                                               : rokemaipu_frame(t, (uint32_t)e[ROKEMAIPU_ENTRY_CHANNEL], (uint32_t)e[ROKEMAIPU_ENTRY_TIME], (uint32_t)e[ROKEMAIPU_ENTRY_ID],
                                                                 e[ROKEMAIPU_ENTRY_EXTENDED], records + e[ROKEMAIPU_ENTRY_START], e[ROKEMAIPU_ENTRY_LENGTH]);
    return n;
}

static void bench_batch(void) {
    enum { WAYS = 3, ONCE = 4 };
    static batch *const ways[WAYS] = {rokemaipu_batch, peer_batch, single_calls};
    static const char *const names[WAYS] = {"the library", "plain C", "single calls"};
    static rokemaipu_table tables[WAYS];
    static uint32_t answers[WAYS][ROKEMAIPU_BATCH_BYTES];
    static uint8_t bytes[ROKEMAIPU_BATCH_BYTES];
    size_t size = 0;
    for (uint32_t k = 0;; k++) {
        uint8_t record[ROKEMAIPU_RECORD_BYTES];
        uint32_t i = k % (MIX + 1), channel = k / (MIX + 1) % ROKEMAIPU_POSTS;
        uint32_t n = i < MIX ? peer_log_frame(2000, channel, mix[i].id, true, mix[i].bytes, mix[i].n, record, sizeof record) : peer_log_tick(2000, channel, record, sizeof record);
        if (size + n > sizeof bytes) break;
        memcpy(bytes + size, record, n), size += n;
    }
    double best[WAYS] = {1e300, 1e300, 1e300};
    uint32_t count = 0;
    for (int w = 0; w < WAYS; w++) {
        for (uint32_t i = 0; i < ROKEMAIPU_POSTS; i++) rokemaipu_set_up(&tables[w], i, i, 5000, 1000, 500, 500, 0, 0);
        count = ways[w](&tables[w], bytes, size, answers[w], ROKEMAIPU_BATCH_BYTES);
        if (memcmp(&tables[w], &tables[0], sizeof tables[0]) || memcmp(answers[w], answers[0], sizeof answers[0])) differ("batch");
    }
    for (int again = 0; again < AGAIN; again++)
        for (int w = 0; w < WAYS; w++) {
            double from = now();
            for (int turn = 0; turn < ONCE; turn++) sum += ways[w](&tables[w], bytes, size, answers[w], ROKEMAIPU_BATCH_BYTES);
            double took = (now() - from) / (ONCE * (double)count);
            if (took < best[w]) best[w] = took;
        }
    printf("%-26s %7.1f ns", "batch, a record", best[0]);
    for (int w = 1; w < WAYS; w++) printf("   %7.1f ns %s, %5.2f times", best[w], names[w], best[0] / best[w]);
    printf("   (%" PRIu32 " records, %zu bytes)\n", count, size);
}

/* ---- two recordings compared: 512 records against 512, beside plain C that does the same in the same order */

typedef struct { uint8_t bytes[ROKEMAIPU_COMPARE_RECORDS * ROKEMAIPU_RECORD_BYTES]; size_t size; } recording;

/* Record k of a recording: a frame of the mix on one of four channels at its own time, every tenth a tick. */
static void record(recording *r, uint32_t time, uint32_t channel, uint32_t k) {
    const frame *f = &mix[k % MIX];
    uint8_t *to = r->bytes + r->size;
    r->size += k % 10 == 9 ? peer_log_tick(time, channel, to, ROKEMAIPU_RECORD_BYTES) : peer_log_frame(time, channel, f->id, true, f->bytes, f->n, to, ROKEMAIPU_RECORD_BYTES);
}

typedef uint32_t comparison(const uint8_t *a, size_t size_a, const uint8_t *b, size_t size_b, uint32_t *first, size_t room_first, uint32_t *second, size_t room_second, uint32_t *places, size_t channels, uint64_t *numbers, size_t two);
typedef struct { uint32_t first[ROKEMAIPU_COMPARE_RECORDS], second[ROKEMAIPU_COMPARE_RECORDS], places[ROKEMAIPU_CHANNELS]; uint64_t numbers[ROKEMAIPU_COMPARED_NUMBERS]; } listing;

static uint32_t compared(comparison *f, const recording *a, const recording *b, listing *l) {
    return f(a->bytes, a->size, b->bytes, b->size, l->first, ROKEMAIPU_COMPARE_RECORDS, l->second, ROKEMAIPU_COMPARE_RECORDS, l->places, ROKEMAIPU_CHANNELS, l->numbers, ROKEMAIPU_COMPARED_NUMBERS);
}

static void bench_compare(const char *what, const recording *a, const recording *b) {
    static comparison *const ways[2] = {rokemaipu_compare, peer_compare};
    static listing l[2];
    double best[2] = {1e300, 1e300};
    memset(l, 0, sizeof l);
    if (compared(ways[0], a, b, &l[0]) != compared(ways[1], a, b, &l[1]) || memcmp(&l[0], &l[1], sizeof l[0])) differ("compare");
    for (int again = 0; again < AGAIN / 3; again++)
        for (int w = 0; w < 2; w++) {
            double from = now();
            for (int turn = 0; turn < 4; turn++) sum += compared(ways[w], a, b, &l[w]);
            double took = (now() - from) / 4;
            if (took < best[w]) best[w] = took;
        }
    printf("compare, %-17s %7.1f us   %7.1f us plain C, %5.2f times   (%" PRIu64 " and %" PRIu64 " listed)\n", what, best[0] / 1e3, best[1] / 1e3, best[0] / best[1], l[0].numbers[0], l[0].numbers[1]);
}

static void bench_comparisons(void) {
    enum { N = ROKEMAIPU_COMPARE_RECORDS };
    static recording a, less, back, other, alone, alike, one;
    for (uint32_t k = 0; k < N; k++) {
        record(&a, FIRST + k * APART, k % 4, k), record(&back, FIRST + (N - 1 - k) * APART, (N - 1 - k) % 4, N - 1 - k);
        record(&other, FIRST + (N + k) * APART, k % 4, k), record(&one, FIRST, 1, 9);
        if (k) record(&less, FIRST + k * APART, k % 4, k);
        uint8_t bytes[8] = {(uint8_t)k, (uint8_t)(k >> 8)};
        alone.size += peer_log_frame(FIRST, 1, 0x6b000, true, bytes, 8, alone.bytes + alone.size, ROKEMAIPU_RECORD_BYTES), bytes[7] = 1;
        alike.size += peer_log_frame(FIRST, 1, 0x6b000, true, bytes, 8, alike.bytes + alike.size, ROKEMAIPU_RECORD_BYTES);
    }
    record(&less, FIRST + N * APART, 0, 9);
    bench_compare("the same log", &a, &a);
    bench_compare("one missing", &a, &less);
    bench_compare("backwards", &a, &back);
    bench_compare("nothing shared", &a, &other);
    bench_compare("all at one time", &alone, &alike);
    bench_compare("one record, 512 x", &one, &one);
}

#ifndef BEFORE
static void bench_rest(void) {
    bench_codec("rest, read", "rest, write", rest_mix);
    newer_mix = rest_mix;
    bench_watch("rest, frame, 1 post", frames, ROKEMAIPU_NEWER, 1, TURNS, MIX);
    newer_mix = mix;
}
#endif

int main(void) {
    bench_codec("read", "write", mix);
    bench_changes();
    bench_watch("frame in place, 1 post", frames, ROKEMAIPU_NEWER, 1, TURNS, MIX);
    bench_watch("frame in place, 8 posts", frames, ROKEMAIPU_NEWER, 8, TURNS, MIX);
#ifndef BEFORE /* a revision before Req 13 has 8 posts, one before Req 11 none of the older interface, one before Req 14 no rest of 000 */
    bench_watch("frame in place, 16 posts", frames, ROKEMAIPU_NEWER, 16, TURNS, MIX);
    bench_watch("older frame, 1 post", frames, ROKEMAIPU_OLDER, 1, TURNS, MIX);
    bench_watch("older frame, 16 posts", frames, ROKEMAIPU_OLDER, 16, TURNS, MIX);
    bench_rest();
#endif
    draw();
    bench_watch("frame, 8 posts, any order", any_frames, ROKEMAIPU_NEWER, 8, 1, LOT);
#ifndef BEFORE
    bench_watch("frame, 16 posts, any order", any_frames, ROKEMAIPU_NEWER, 16, 1, LOT);
#endif
    bench_watch("tick in place, 1 post", tick, ROKEMAIPU_NEWER, 1, 4 * TURNS, 1);
    bench_watch("tick in place, 8 posts", tick, ROKEMAIPU_NEWER, 8, 4 * TURNS, 1);
#ifndef BEFORE
    bench_watch("tick in place, 16 posts", tick, ROKEMAIPU_NEWER, 16, 4 * TURNS, 1);
#endif
    bench_watch("tick, 8 posts, any order", any_ticks, ROKEMAIPU_NEWER, 8, 1, LOT);
    bench_log();
    bench_batch();
    bench_comparisons();
    return sum == 42;
}
