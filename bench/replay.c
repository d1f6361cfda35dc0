/* The program replay beside plain C, as commands over the same posts and log: ns a record, records/s, and the program's peak memory. Both write the same lines
 * and say the same, or the run stops. Usage: bench_replay FOLDER OURS PLAIN [COMMAND...], where COMMAND starts a program and FOLDER takes the files. */
#define _DEFAULT_SOURCE
#include "bench.h"
#include "peer.h"

#include <fcntl.h>
#include <string.h>
#include <sys/resource.h>
#include <sys/wait.h>
#include <unistd.h>

enum { RECORDS = 1000000, FEWER = 100000, AGAIN = 7, COMMAND = 8, FREE_CHANNEL = 31 };

static void fail(const char *what) {
    perror(what);
    exit(1);
}

static FILE *opened(const char *name, const char *how) {
    FILE *file = fopen(name, how);
    if (!file) fail(name);
    return file;
}

static void closed(FILE *file, const char *name) {
    if (fclose(file)) fail(name);
}

/* ---- the files */

static void make_posts(const char *name) {
    FILE *file = opened(name, "w");
    for (int i = 0; i < ROKEMAIPU_POSTS; i++) fprintf(file, "setup %d %d 5000 1000 500 500\n", i, i);
    closed(file, name);
}

/* The mix goes from post to post; each hundredth of its turns is on a channel that nobody holds. Answers the number of bytes. */
static double make_log(const char *name, int records) {
    FILE *file = opened(name, "wb");
    size_t size = 0;
    uint32_t time = FIRST;
    for (int k = 0; k < records; k++, time += APART) {
        uint8_t record[ROKEMAIPU_RECORD_BYTES];
        int i = k % (MIX + 1), turn = k / (MIX + 1);
        uint32_t channel = turn % 100 == 99 ? FREE_CHANNEL : (uint32_t)(turn % ROKEMAIPU_POSTS);
        size_t n = i < MIX ? peer_log_frame(time, channel, mix[i].id, true, mix[i].bytes, mix[i].n, record, sizeof record) : peer_log_tick(time, channel, record, sizeof record);
        size += fwrite(record, 1, n, file);
    }
    closed(file, name);
    return (double)size;
}

static bool same(const char *left, const char *right) {
    static char a[65536], b[65536];
    FILE *x = opened(left, "rb"), *y = opened(right, "rb");
    bool equal = true;
    for (size_t n = 1; equal && n;) {
        n = fread(a, 1, sizeof a, x);
        equal = fread(b, 1, sizeof b, y) == n && !memcmp(a, b, n);
    }
    closed(x, left), closed(y, right);
    return equal;
}

/* ---- the programs */

typedef struct { double took; long memory; } run;

static void output(int fd, const char *name) {
    int file = open(name, O_WRONLY | O_CREAT | O_TRUNC, 0666);
    if (file < 0 || dup2(file, fd) < 0) fail(name);
}

/* A run with its lines and what it says in files. ru_maxrss counts what this program has at the fork too, so that it has little. */
static run ran(char **command, const char *lines, const char *said) {
    struct rusage usage;
    int status;
    double from = now();
    pid_t child = fork();
    if (child < 0) fail("fork");
    if (child == 0) {
        output(STDOUT_FILENO, lines), output(STDERR_FILENO, said);
        execvp(command[0], command);
        fail(command[0]);
    }
    if (wait4(child, &status, 0, &usage) != child || status) {
        printf("bench: %s failed, see %s\n", command[0], said);
        exit(1);
    }
    return (run){now() - from, usage.ru_maxrss};
}

static void told(double ours, double plain, double bytes) {
    printf("%-26s %7.1f ns   %7.1f ns plain C, %5.2f times\n", "replay, a record", ours, plain, ours / plain);
    printf("%26s the program %.2f million records/s, %.0f MB/s; plain C %.2f million records/s, %.0f MB/s\n", "", 1e3 / ours, 1e3 * bytes / ours, 1e3 / plain, 1e3 * bytes / plain);
}

static void bench(char **ours, char **plain, const char *posts, const char *log) {
    make_posts(posts);
    make_log(log, FEWER);
    long fewer = ran(ours, "ours.lines", "ours.said").memory;
    double bytes = make_log(log, RECORDS);
    long more = ran(ours, "ours.lines", "ours.said").memory;
    ran(plain, "plain.lines", "plain.said");
    if (!same("ours.lines", "plain.lines") || !same("ours.said", "plain.said")) differ("replay");
    double best[2] = {1e300, 1e300};
    for (int i = 0; i < 2 * AGAIN; i++) {
        double took = ran(i % 2 ? plain : ours, "/dev/null", "/dev/null").took;
        if (took < best[i % 2]) best[i % 2] = took;
    }
    told(best[0] / RECORDS, best[1] / RECORDS, bytes / RECORDS);
    printf("replay's peak memory: %ld kB over %d records, %ld kB over %d\n", fewer, FEWER, more, RECORDS);
}

int main(int argc, char **argv) {
    char *commands[2][COMMAND + 4], *posts = "bench.posts", *log = "bench.log";
    if (argc < 4 || argc > 4 + COMMAND) return fputs("usage: bench_replay FOLDER OURS PLAIN [COMMAND...]\n", stderr), 1;
    for (int i = 0; i < 2; i++) {
        int n = 0;
        for (int k = 4; k < argc; k++) commands[i][n++] = argv[k];
        commands[i][n++] = argv[2 + i], commands[i][n++] = posts, commands[i][n++] = log, commands[i][n] = NULL;
    }
    if (chdir(argv[1])) fail(argv[1]);
    bench(commands[0], commands[1], posts, log);
    return 0;
}
