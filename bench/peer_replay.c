/* The replay of a night in plain C, peer_replay POSTS LOG: the same lines on standard output, the same ending and counts on standard error. The set-ups are
 * those of a bench: a line that is none ends it, and none is refused. */
#define _POSIX_C_SOURCE 200809L
#include "peer.h"

#include <fcntl.h>
#include <stdio.h>
#include <stdlib.h>
#include <string.h>
#include <unistd.h>

enum { PIECE = 65536 };

static rokemaipu_table table;
static uint64_t records, accepted, refusals[32], findings[32];

static void fail(const char *what) {
    perror(what);
    exit(1);
}

/* ---- lines */

static char out[PIECE];
static size_t filled;

static void flush(void) {
    for (size_t at = 0; at < filled;) {
        ssize_t n = write(STDOUT_FILENO, out + at, filled - at);
        if (n < 0) fail("writing");
        at += (size_t)n;
    }
    filled = 0;
}

static void put(char c) { out[filled++] = c; }

static void put_decimal(uint64_t n) {
    char digits[20];
    int k = 0;
    do digits[k++] = (char)('0' + n % 10); while (n /= 10);
    while (k) put(digits[--k]);
}

static void put_line(uint32_t post, uint32_t answer) {
    uint32_t refusal = rokemaipu_refusal(answer);
    if (filled > PIECE / 2) flush();
    put_decimal(records), put(' ');
    if (refusal == 1) put('-');
    else put_decimal(post);
    put(' '), put(answer < ROKEMAIPU_REFUSED ? 'A' : 'R'), put_decimal(answer < ROKEMAIPU_REFUSED ? answer : refusal);
    if (refusal == 5) put(' '), put_decimal(rokemaipu_start_bit(answer));
    put('\n');
}

/* ---- records */

/* a dash is told where it is none */
static uint32_t place(uint32_t channel) { return table.index[channel] - 1; }

static void count(uint32_t answer) {
    records++;
    if (answer >= ROKEMAIPU_REFUSED) {
        refusals[rokemaipu_refusal(answer) % 32]++;
        return;
    }
    accepted++;
    for (int k = 1; answer; k++, answer >>= 1) findings[k] += answer & 1;
}

static void feed(const uint8_t *log, const uint64_t *e) {
    uint32_t channel = (uint32_t)e[ROKEMAIPU_ENTRY_CHANNEL], time = (uint32_t)e[ROKEMAIPU_ENTRY_TIME], post = place(channel);
    uint32_t answer = e[ROKEMAIPU_ENTRY_TICK] ? peer_tick(&table, channel, time)
                                              : peer_frame(&table, channel, time, (uint32_t)e[ROKEMAIPU_ENTRY_ID], e[ROKEMAIPU_ENTRY_EXTENDED],
                                                           log + e[ROKEMAIPU_ENTRY_START], e[ROKEMAIPU_ENTRY_LENGTH]);
    count(answer);
    put_line(post, answer);
}

/* Answers what ended the log; *at is the byte of the file behind its records. */
static uint32_t replay(int file, uint64_t *at) {
    static uint8_t piece[PIECE];
    for (;;) {
        ssize_t n = pread(file, piece, sizeof piece, (off_t)*at);
        if (n < 0) fail("reading");
        if (n == 0) return ROKEMAIPU_FOUND_END;
        uint64_t e[ROKEMAIPU_ENTRY_NUMBERS];
        size_t i = 0;
        uint32_t found;
        for (; (found = peer_log_record(piece, (size_t)n, i, e, ROKEMAIPU_ENTRY_NUMBERS)) == ROKEMAIPU_FOUND_RECORD; i = e[ROKEMAIPU_ENTRY_NEXT]) feed(piece, e);
        *at += i;
        if (found >= ROKEMAIPU_REFUSED || i == 0) return found;
    }
}

/* ---- files */

static void set_ups(const char *name) {
    FILE *file = fopen(name, "r");
    if (!file) fail(name);
    char text[256];
    while (fgets(text, sizeof text, file)) {
        uint32_t post, channel;
        rokemaipu_limits l = {0};
        if (text[0] == '#' || text[0] == '\n') continue;
        int read = sscanf(text, "setup %u %u %u %u %u %u %u %u", &post, &channel, &l.voltage, &l.charge, &l.discharge, &l.silence, &l.sensor, &l.interface);
        if (read < 6 || post >= ROKEMAIPU_POSTS || channel >= ROKEMAIPU_CHANNELS) {
            fprintf(stderr, "%s: no set-up: %s", name, text);
            exit(1);
        }
        table.posts[post] = (rokemaipu_post){.head = {.used = 1, .channel = channel, .limits = l}};
        table.index[channel] = post + 1;
    }
    fclose(file);
}

static void say_counts(char name, const uint64_t *counts) {
    for (int k = 0; k < 32; k++)
        if (counts[k]) fprintf(stderr, "%c%d: %llu\n", name, k, (unsigned long long)counts[k]);
}

int main(int argc, char **argv) {
    uint64_t at = 0;
    if (argc != 3) return fputs("usage: peer_replay POSTS LOG\n", stderr), 1;
    set_ups(argv[1]);
    int file = open(argv[2], O_RDONLY);
    if (file < 0) fail(argv[2]);
    uint32_t found = replay(file, &at);
    flush();
    if (found == ROKEMAIPU_FOUND_END) fputs("END\n", stderr);
    else if (found == ROKEMAIPU_FOUND_PIECE) fprintf(stderr, "CUT@%llu\n", (unsigned long long)at);
    else fprintf(stderr, "BAD R%u@%llu\n", rokemaipu_refusal(found), (unsigned long long)at);
    fprintf(stderr, "%llu records: %llu accepted, %llu refused\n", (unsigned long long)records, (unsigned long long)accepted, (unsigned long long)(records - accepted));
    say_counts('R', refusals);
    say_counts('F', findings);
    return 0;
}
