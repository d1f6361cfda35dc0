/* The desk's steps over the C interface: reads a script and answers it as the desk does, so that the same scripts hold both. What is no raw number
 * (a temperature of document 000, kOhm) is worked out here. */
#define _DEFAULT_SOURCE
#include "replay.h"
#include "rokemaipu.h"

#include <inttypes.h>
#include <stdio.h>
#include <stdlib.h>
#include <string.h>

enum { LONGEST = 65535, MOST = 64, MOST_PLACES = 2048 };

/* what stands in a place for a batch's answer before the call */
#define UNTOUCHED 3735928559u

static rokemaipu_table table;

/* ---- a line's fields */

typedef struct { const char *at; size_t n; } word;

static word words[MOST];
static size_t count;

static void split(const char *line, size_t n) {
    const char *from = line, *end = line + n;
    count = 0;
    for (const char *p = line;; p++)
        if (p == end || *p == ' ') {
            if (count < MOST) words[count] = (word){from, (size_t)(p - from)};
            count++;
            if (p == end) return;
            from = p + 1;
        }
}

static int digit(char c) { return c >= '0' && c <= '9' ? c - '0' : c >= 'a' && c <= 'f' ? c - 'a' + 10 : 16; }

static bool number(word w, uint64_t base, uint64_t most, uint64_t *out) {
    uint64_t v = 0;
    if (!w.n || (w.n > 1 && *w.at == '0')) return false;
    for (size_t i = 0; i < w.n; i++) {
        uint64_t d = (uint64_t)digit(w.at[i]);
        if (d >= base || v > most / base || d > most - v * base) return false;
        v = v * base + d;
    }
    return *out = v, true;
}

static bool u32(size_t i, uint32_t *out) {
    uint64_t v;
    return number(words[i], 10, UINT32_MAX, &v) && (*out = (uint32_t)v, true);
}

static bool whole(word w, int64_t *out) {
    uint64_t v;
    if (w.n && *w.at == '-') return number((word){w.at + 1, w.n - 1}, 10, (uint64_t)INT64_MAX + 1, &v) && v && (*out = -(int64_t)(v - 1) - 1, true);
    return number(w, 10, INT64_MAX, &v) && (*out = (int64_t)v, true);
}

static bool frame_id(size_t i, uint32_t *id, bool *extended) {
    uint64_t v;
    char form = words[i + 1].n == 1 ? *words[i + 1].at : 0;
    if (!number(words[i], 16, UINT32_MAX, &v) || (form != 'x' && form != 's')) return false;
    return *id = (uint32_t)v, *extended = form == 'x', true;
}

static uint8_t bytes[LONGEST];
static size_t size;

static bool hex(word w) {
    size = w.n / 2;
    if (w.n == 1 && *w.at == '-') return true;
    if (!w.n || w.n % 2) return false;
    for (size_t i = 0; i < w.n; i++)
        if (digit(w.at[i]) == 16) return false;
    for (size_t i = 0; i < size; i++) bytes[i] = (uint8_t)(digit(w.at[2 * i]) * 16 + digit(w.at[2 * i + 1]));
    return true;
}

/* ---- answers */

static void put_hex(const uint8_t *from, size_t n) {
    if (!n) putchar('-');
    for (size_t i = 0; i < n; i++) printf("%02x", from[i]);
}

/* the lent bytes as they are after the call, behind what it answered */
static void put_lent(void) {
    putchar(' ');
    put_hex(bytes, size);
    putchar('\n');
}

static void put_refusal(uint32_t word) {
    printf("R%" PRIu32, rokemaipu_refusal(word));
    if (rokemaipu_refusal(word) == 5) printf(":%" PRIu32, rokemaipu_start_bit(word));
}

static void answer(uint32_t word, bool numbered) {
    if (word >= ROKEMAIPU_REFUSED) put_refusal(word), putchar('\n');
    else if (numbered) printf("A%" PRIu32 "\n", word);
    else puts("A");
}

/* ---- messages: identifier, form and number of fields of each kind; what is no raw number: temperatures, insulation and Battery_Capacity */

static const struct { uint32_t id; bool extended; size_t n; } kinds[ROKEMAIPU_KINDS] = {{0x63000, true, 6}, {0x63001, true, 4}, {0x6b000, true, 1}, {0x6b001, true, 2}, {0x6b002, true, 1},
    {0x6b003, true, 8}, {0x6b004, true, 1}, {0x6b005, true, 1}, {0x6b105, true, 6}, {6, false, 4}, {7, false, 15}, {8, false, 12},
    {0x60010, true, 6}, {0x60011, true, 3}, {0x60012, true, 6}, {0x60013, true, 5}, {0x68001, true, 6}, {0x68002, true, 1}, {0x68003, true, 2}, {0x68004, true, 1}, {0x68005, true, 3},
    {0x68006, true, 1}, {0x68007, true, 1}, {0x68009, true, 1}, {0x6800a, true, 11}, {0x6800b, true, 8}, {0x6800c, true, 6}, {0x6800d, true, 11}, {0x6800e, true, 3}, {0x6800f, true, 3},
    {0x63002, true, 6}, {0x63201, true, 5}, {0x6b100, true, 5}, {0x6b101, true, 3}, {0x6b102, true, 4}, {0x6b103, true, 4}, {0x6b104, true, 3}, {0x6b200, true, 11}, {0x6b201, true, 8},
    {0x6b202, true, 11}, {0x6b203, true, 3}, {0x6b204, true, 3}, {0x6b300, true, 1}};

static bool is_older(uint32_t kind) { return kind > ROKEMAIPU_PT1000_STATE && kind < ROKEMAIPU_SEQUENCE_CONTROL; }

static bool is_celsius(uint32_t kind, size_t i) {
    switch (kind) {
    case ROKEMAIPU_POWER_MODULES_STATUS: case ROKEMAIPU_OLDER_POWER_MODULES_STATUS: return i == 2 || i == 3;
    case ROKEMAIPU_ADM_CO_CUI1_INPUTS: case ROKEMAIPU_OLDER_ADM_CO_CUI1_INPUTS: return i >= 7;
    case ROKEMAIPU_ADM_CS_SECC_INPUTS: case ROKEMAIPU_ADM_CS_SPCC_INPUTS: case ROKEMAIPU_OLDER_ADM_CS_SECC_INPUTS: case ROKEMAIPU_OLDER_ADM_CS_SPCC_INPUTS: return i >= 5;
    default: return false;
    }
}
static bool is_doubled(uint32_t kind, size_t i) {
    return i == 5 ? kind == ROKEMAIPU_POWER_MODULES_STATUS || kind == ROKEMAIPU_OLDER_POWER_MODULES_STATUS : i == 4 && kind == ROKEMAIPU_OLDER_NEW_CHARGE_SESSION;
}

/* by the pages of an interface */
static uint32_t read_on(uint32_t interface, uint32_t id, bool extended, const uint8_t *payload, size_t n, int64_t *raws) {
    return (interface == ROKEMAIPU_OLDER ? rokemaipu_read_older : rokemaipu_read)(id, extended, payload, n, raws, ROKEMAIPU_SIGNALS);
}

static void put_message(uint32_t kind, const int64_t *raws) {
    printf("%" PRIx32 "%c:", kinds[kind].id, kinds[kind].extended ? 'x' : 's');
    for (size_t i = 0; i < kinds[kind].n; i++) printf("%s%" PRId64, i ? "," : "", is_celsius(kind, i) ? raws[i] - 40 : is_doubled(kind, i) ? raws[i] * 2 : raws[i]);
}

static void put_dated(const uint8_t *payload, size_t n, const uint32_t times[ROKEMAIPU_TIMES]) {
    int64_t raws[ROKEMAIPU_SIGNALS];
    uint32_t kind = times[ROKEMAIPU_WHEN_KIND];
    if (read_on(is_older(kind) ? ROKEMAIPU_OLDER : ROKEMAIPU_NEWER, kinds[kind].id, kinds[kind].extended, payload, n, raws) != kind) exit(fprintf(stderr, "desk.c: a kept frame is no frame\n"));
    put_message(kind, raws);
    printf("@%" PRIu32 "+%" PRIu32, times[ROKEMAIPU_WHEN], times[ROKEMAIPU_WHEN_AGE]);
}

static void put_part(const char *name, uint32_t post, uint32_t part) {
    uint8_t payload[8];
    uint32_t times[ROKEMAIPU_TIMES], length = rokemaipu_in_session(&table, post, part, times, ROKEMAIPU_TIMES, payload, sizeof payload);
    printf(" %s=", name);
    if (length) put_dated(payload, length, times);
    else putchar('-');
}

static bool behind(uint32_t kind, uint32_t other) {
    return kinds[kind].extended != kinds[other].extended ? kinds[kind].extended : kinds[kind].id > kinds[other].id;
}

static void put_counts(uint32_t post) {
    uint32_t counts[ROKEMAIPU_COUNTS];
    if (rokemaipu_counts(&table, post, counts, ROKEMAIPU_COUNTS)) exit(fprintf(stderr, "desk.c: a post that is looked up has no counts\n"));
    printf(" n=%" PRIu32 " tally=", counts[0]);
    for (size_t k = 1; k < ROKEMAIPU_COUNTS; k++) printf("%s%" PRIu32, k > 1 ? "," : "", counts[k]);
}

/* the standard ones come first, then the extended ones, each by identifier; behind no kind stands the first */
static uint32_t next_kind(uint32_t kind) {
    uint32_t found = ROKEMAIPU_KINDS;
    for (uint32_t k = 0; k < ROKEMAIPU_KINDS; k++)
        if ((kind == ROKEMAIPU_KINDS || behind(k, kind)) && (found == ROKEMAIPU_KINDS || behind(found, k))) found = k;
    return found;
}

static void record(uint32_t post) {
    uint32_t n[ROKEMAIPU_NUMBERS], times[ROKEMAIPU_TIMES];
    uint8_t payload[8];
    bool some = false;
    uint32_t refused = rokemaipu_look_up(&table, post, n, ROKEMAIPU_NUMBERS);
    if (refused) {
        answer(refused, false);
        return;
    }
    printf("K ch=%" PRIu32 " volt=%" PRIu32 " chg=%" PRIu32 " dis=%" PRIu32 " w=%" PRIu32 " sensor=%" PRIu32 " iface=%" PRIu32, n[ROKEMAIPU_CHANNEL], n[ROKEMAIPU_VOLTAGE],
        n[ROKEMAIPU_CHARGE], n[ROKEMAIPU_DISCHARGE], n[ROKEMAIPU_SILENCE], n[ROKEMAIPU_SENSOR], n[ROKEMAIPU_INTERFACE]);
    if (n[ROKEMAIPU_HEARD]) printf(" last=%" PRIu32, n[ROKEMAIPU_TIME]);
    else printf(" last=-");
    if (n[ROKEMAIPU_OPENED]) {
        printf(" open=1 since=%" PRIu32 "+%" PRIu32 " first=%" PRIu32 ",%" PRIu32, n[ROKEMAIPU_SINCE], n[ROKEMAIPU_SINCE_AGE], n[ROKEMAIPU_PROTOCOL], n[ROKEMAIPU_PLUG]);
        put_part("spms", post, ROKEMAIPU_KEPT_STATUS);
        put_part("sdpc", post, ROKEMAIPU_KEPT_CONTROL);
        put_part("sstop", post, ROKEMAIPU_KEPT_STOP);
    } else
        printf(" open=0 since=- first=- spms=- sdpc=- sstop=-");
    put_counts(post);
    printf(" latest=");
    for (uint32_t i = 0, kind = ROKEMAIPU_KINDS; i < ROKEMAIPU_KINDS; i++) {
        kind = next_kind(kind);
        uint32_t length = rokemaipu_latest(&table, post, kind, times, ROKEMAIPU_TIMES, payload, sizeof payload);
        if (!length) continue;
        if (some) putchar(';');
        put_dated(payload, length, times);
        some = true;
    }
    puts(some ? "" : "-");
}

static void put_index(void) {
    putchar('I');
    for (int channel = 0; channel < ROKEMAIPU_CHANNELS; channel++) {
        if (table.index[channel]) printf(" %" PRIu32, table.index[channel] - 1);
        else printf(" -");
    }
    putchar('\n');
}

/* ---- steps; false: no step */

static bool is(const char *name, size_t fields) { return words[0].n == strlen(name) && !memcmp(words[0].at, name, words[0].n) && count == fields + 1; }

static bool write_step(uint32_t interface) {
    const int64_t FAR = (int64_t)1 << 61;
    int64_t raws[ROKEMAIPU_SIGNALS] = {0}, value;
    uint32_t id, written;
    bool extended, fits = true;
    size_t n = 0;
    if (!frame_id(1, &id, &extended) || !hex(words[4])) return false;
    bool older = interface == ROKEMAIPU_OLDER;
    uint32_t kind = 0;
    while (kind < ROKEMAIPU_KINDS && (kinds[kind].id != id || kinds[kind].extended != extended)) kind++;
    if (kind < ROKEMAIPU_KINDS && extended && is_older(kind) != older) kind = ROKEMAIPU_KINDS;
    for (const char *p = words[3].at, *end = p + words[3].n;; p++, n++) {
        const char *from = p;
        while (p < end && *p != ',') p++;
        if (!whole((word){from, (size_t)(p - from)}, &value)) return false;
        if (n < ROKEMAIPU_SIGNALS) {
            /* far outside every signal: no overflow below, and refused all the same */
            if (value > FAR || value < -FAR) value = FAR;
            raws[n] = value;
        }
        if (p == end) break;
    }
    n++;
    if (kind == ROKEMAIPU_KINDS) return puts("X"), true;
    if (n != kinds[kind].n) return false;
    for (size_t i = 0; i < n; i++) {
        if (is_celsius(kind, i)) raws[i] += 40;
        if (is_doubled(kind, i)) fits = raws[i] % 2 == 0, raws[i] /= 2;
    }
    written = fits ? (older ? rokemaipu_write_older : rokemaipu_write)(kind, raws, ROKEMAIPU_SIGNALS, bytes, size) : ROKEMAIPU_REFUSED + 7;
    if (written < ROKEMAIPU_REFUSED) printf("A %" PRIx32 " %" PRIu32, id, written);
    else put_refusal(written);
    return put_lent(), true;
}

static bool change_step(uint32_t interface) {
    uint32_t id, start, changed;
    int64_t raw;
    bool extended;
    if (!frame_id(1, &id, &extended) || !hex(words[3]) || !u32(4, &start) || !whole(words[5], &raw)) return false;
    changed = (interface == ROKEMAIPU_OLDER ? rokemaipu_change_older : rokemaipu_change)(id, extended, bytes, size, start, raw);
    if (changed < ROKEMAIPU_REFUSED) putchar('A');
    else put_refusal(changed);
    return put_lent(), true;
}

static bool read_step(uint32_t interface) {
    int64_t raws[ROKEMAIPU_SIGNALS];
    uint32_t id, kind;
    bool extended;
    if (!frame_id(1, &id, &extended) || !hex(words[3])) return false;
    kind = read_on(interface, id, extended, bytes, size, raws);
    if (kind >= ROKEMAIPU_REFUSED) return answer(kind, false), true;
    printf("A ");
    put_message(kind, raws);
    return putchar('\n'), true;
}

static bool probe_step(void) {
    int64_t raw;
    float degrees;
    uint32_t bits;
    if (!whole(words[1], &raw) || raw < -8192 || raw > 8191) return false;
    if (!rokemaipu_probe_used((int16_t)raw)) return puts("N"), true;
    degrees = rokemaipu_probe_degrees((int16_t)raw);
    memcpy(&bits, &degrees, sizeof bits);
    return printf("D %08" PRIx32 "\n", bits), true;
}

static bool duty_step(void) {
    uint32_t raw;
    return u32(1, &raw) && raw <= 1023 && (printf("A %" PRIu16 "\n", rokemaipu_limited_duty((uint16_t)raw)), true);
}

static bool log_write_step(void) {
    static uint8_t payload[LONGEST];
    uint32_t time, channel, id, written;
    size_t length;
    bool extended;
    char form = words[1].n == 1 ? *words[1].at : 0;
    if (!u32(2, &time) || !u32(3, &channel)) return false;
    if (form == 't' && count == 5) {
        if (!hex(words[4])) return false;
        written = rokemaipu_log_tick(time, channel, bytes, size);
    } else {
        if (form != 'f' || count != 8 || !frame_id(4, &id, &extended) || !hex(words[6])) return false;
        memcpy(payload, bytes, length = size);
        if (!hex(words[7])) return false;
        written = rokemaipu_log_frame(time, channel, id, extended, payload, length, bytes, size);
    }
    if (written < ROKEMAIPU_REFUSED) printf("A %" PRIu32, written);
    else put_refusal(written);
    return put_lent(), true;
}

static void put_entry(const uint64_t *e) {
    printf(" %c,%" PRIu64 ",%" PRIu64, e[ROKEMAIPU_ENTRY_TICK] ? 't' : 'f', e[ROKEMAIPU_ENTRY_TIME], e[ROKEMAIPU_ENTRY_CHANNEL]);
    if (e[ROKEMAIPU_ENTRY_TICK]) return;
    printf(",%" PRIx64 ",%c,", e[ROKEMAIPU_ENTRY_ID], e[ROKEMAIPU_ENTRY_EXTENDED] ? 'x' : 's');
    put_hex(bytes + e[ROKEMAIPU_ENTRY_START], e[ROKEMAIPU_ENTRY_LENGTH]);
}

static bool log_read_step(void) {
    uint64_t e[ROKEMAIPU_ENTRY_NUMBERS];
    uint32_t found;
    size_t at = 0, records = 0;
    if (!hex(words[1])) return false;
    for (; (found = rokemaipu_log_record(bytes, size, at, e, ROKEMAIPU_ENTRY_NUMBERS)) == ROKEMAIPU_FOUND_RECORD; at = e[ROKEMAIPU_ENTRY_NEXT]) records++;
    printf("L %zu", records);
    for (at = 0; rokemaipu_log_record(bytes, size, at, e, ROKEMAIPU_ENTRY_NUMBERS) == ROKEMAIPU_FOUND_RECORD; at = e[ROKEMAIPU_ENTRY_NEXT]) put_entry(e);
    putchar(' ');
    put_ending(found, at);
    return putchar('\n'), true;
}

/* what stands before the mark, and in *rest what stands behind it; behind the last there is no rest */
static word cut(word *rest, char mark) {
    const char *end = memchr(rest->at, mark, rest->n);
    word first = {rest->at, end ? (size_t)(end - rest->at) : rest->n};
    *rest = end ? (word){end + 1, rest->n - first.n - 1} : (word){NULL, 0};
    return first;
}

static bool set_up_numbers(word w, uint32_t n[8]) {
    size_t i = 0;
    uint64_t v;
    n[6] = ROKEMAIPU_MEASURING, n[7] = ROKEMAIPU_NEWER;
    do {
        if (i == 8 || !number(cut(&w, ','), 10, UINT32_MAX, &v)) return false;
        n[i++] = (uint32_t)v;
    } while (w.at);
    return i >= 6;
}

static bool replay_step(void) {
    static rokemaipu_replay own;
    uint32_t n[8], refused = 0;
    word w = words[2];
    bool none = w.n == 1 && *w.at == '-';
    if (!hex(words[1])) return false;
    rokemaipu_replay_start(&own);
    while (!none && w.at) {
        if (!set_up_numbers(cut(&w, ';'), n)) return false;
        refused = rokemaipu_replay_set_up(&own, n[0], n[1], n[2], n[3], n[4], n[5], n[6], n[7]); /* once refused, always */
    }
    if (refused) printf("SETUP "), put_refusal(refused);
    else put_replay(&own, bytes, size);
    return putchar('\n'), true;
}

/* every place is shown afterwards, after a refusal too */
static bool batch_step(void) {
    static uint32_t answers[MOST_PLACES];
    uint32_t places, word;
    if (!hex(words[1]) || !u32(2, &places) || places > MOST_PLACES) return false;
    for (uint32_t i = 0; i < places; i++) answers[i] = UNTOUCHED;
    word = rokemaipu_batch(&table, bytes, size, answers, places);
    if (word < ROKEMAIPU_REFUSED) putchar('A');
    else put_refusal(word);
    for (uint32_t i = 0; i < places; i++) printf(" %" PRIu32, answers[i]);
    return putchar('\n'), true;
}

static void put_numbers(const char *name, const uint32_t *numbers, uint64_t n) {
    printf(" %s=%s", name, n ? "" : "-");
    for (uint64_t i = 0; i < n; i++) printf("%s%" PRIu32, i ? "," : "", numbers[i]);
}

static void put_places(const uint32_t *places) {
    bool any = false;
    printf(" chan=");
    for (int c = 0; c < ROKEMAIPU_CHANNELS; c++)
        if (places[c]) printf("%s%d:%" PRIu32, any ? "," : "", c, places[c]), any = true;
    puts(any ? "" : "-");
}

static bool compare_step(void) {
    static uint8_t log[LONGEST];
    static uint32_t first[MOST_PLACES], second[MOST_PLACES], places[ROKEMAIPU_CHANNELS];
    uint64_t numbers[ROKEMAIPU_COMPARED_NUMBERS];
    uint32_t room1, room2, word;
    size_t length;
    if (!hex(words[1])) return false;
    memcpy(log, bytes, length = size);
    if (!hex(words[2]) || !u32(3, &room1) || !u32(4, &room2) || room1 > MOST_PLACES || room2 > MOST_PLACES) return false;
    word = rokemaipu_compare(log, length, bytes, size, first, room1, second, room2, places, ROKEMAIPU_CHANNELS, numbers, ROKEMAIPU_COMPARED_NUMBERS);
    if (word >= ROKEMAIPU_REFUSED) {
        printf("R%" PRIu32 ":%" PRIu64, rokemaipu_refusal(word), numbers[ROKEMAIPU_COMPARED_FIRST]);
        if (rokemaipu_refusal(word) == ROKEMAIPU_R26_COMPARE_LOG) printf(":%" PRIu64, numbers[ROKEMAIPU_COMPARED_SECOND]);
        return putchar('\n'), true;
    }
    putchar('A');
    put_numbers("first", first, numbers[ROKEMAIPU_COMPARED_FIRST]);
    put_numbers("second", second, numbers[ROKEMAIPU_COMPARED_SECOND]);
    return put_places(places), true;
}

static bool step(void) {
    uint32_t a, b, c, d, e, f, sensor = ROKEMAIPU_MEASURING, interface = ROKEMAIPU_NEWER, id;
    bool extended;
    if (is("frame", 5)) return u32(1, &a) && u32(2, &b) && frame_id(3, &id, &extended) && hex(words[5]) && (answer(rokemaipu_frame(&table, a, b, id, extended, bytes, size), true), true);
    if (is("tick", 2)) return u32(1, &a) && u32(2, &b) && (answer(rokemaipu_tick(&table, a, b), true), true);
    if (is("setup", 6) || is("setup", 7) || is("setup", 8))
        return u32(1, &a) && u32(2, &b) && u32(3, &c) && u32(4, &d) && u32(5, &e) && u32(6, &f) && (count < 8 || u32(7, &sensor)) && (count < 9 || u32(8, &interface))
            && (answer(rokemaipu_set_up(&table, a, b, c, d, e, f, sensor, interface), false), true);
    if (is("release", 1)) return u32(1, &a) && (answer(rokemaipu_release(&table, a), false), true);
    if (is("record", 1)) return u32(1, &a) && (record(a), true);
    if (is("index", 0)) return put_index(), true;
    if (is("refused", 0)) return printf("N %" PRIu32 "\n", rokemaipu_refused(&table)), true;
    if (is("read", 3)) return read_step(ROKEMAIPU_NEWER);
    if (is("change", 5)) return change_step(ROKEMAIPU_NEWER);
    if (is("write", 4)) return write_step(ROKEMAIPU_NEWER);
    if (is("read1", 3)) return read_step(ROKEMAIPU_OLDER);
    if (is("change1", 5)) return change_step(ROKEMAIPU_OLDER);
    if (is("write1", 4)) return write_step(ROKEMAIPU_OLDER);
    if (is("probe", 1)) return probe_step();
    if (is("duty", 1)) return duty_step();
    if (is("logw", 4) || is("logw", 7)) return log_write_step();
    if (is("logr", 1)) return log_read_step();
    if (is("replay", 2)) return replay_step();
    if (is("batch", 2)) return batch_step();
    if (is("compare", 4)) return compare_step();
    return false;
}

int main(void) {
    char *line = NULL;
    size_t room = 0;
    ssize_t n;
    rokemaipu_start(&table);
    while ((n = getline(&line, &room, stdin)) > 0) {
        if (line[n - 1] == '\n') n--;
        if (!n || *line == '#') continue;
        split(line, (size_t)n);
        if (n > LONGEST || !step()) puts("?");
    }
    free(line);
    return ferror(stdin) || fflush(stdout) ? 1 : 0;
}
