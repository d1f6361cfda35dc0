/* os WORD..: calls every function of tools/processors/os_c.c and tells what came of it. It is linked to the kit's own C part and to ours, and to ours for the
 * other processor; every open is wrapped (-Wl,--wrap=openat), its flags told by their names, since they have other numbers on another processor. */
#define _GNU_SOURCE
#include <errno.h>
#include <fcntl.h>
#include <stdbool.h>
#include <stdint.h>
#include <stdio.h>
#include <stdlib.h>
#include <string.h>
#include <sys/socket.h>
#include <sys/stat.h>
#include <sys/types.h>
#include <unistd.h>

int rattle_errno(void);
void rattle_set_errno(int error);
size_t rattle_arg_count(void);
ssize_t rattle_arg(size_t i, uint8_t *buffer, size_t room);
ssize_t rattle_env(const char *name, uint8_t *buffer, size_t room);
ssize_t rattle_env_at(size_t i, uint8_t *buffer, size_t room);
int rattle_open_dir_at(int folder, const char *name);
int rattle_set_nonblocking(int fd, bool on);
int rattle_lock_range(int fd, int16_t kind, int64_t start, int64_t length);
ssize_t rattle_write_parts(int fd, bool is_socket, const uint8_t *a, size_t na, const uint8_t *b, size_t nb, const uint8_t *c, size_t nc, const uint8_t *d, size_t nd);
struct tried { bool ok; void *p; };
struct tried rattle_alloc(size_t n, size_t align);
struct tried rattle_realloc(void *p, size_t kept, size_t n, size_t align);
void rattle_dealloc(void *p);

static const struct { int flag; const char *name; } FLAGS[] = {
    {O_CREAT, "CREAT"}, {O_EXCL, "EXCL"}, {O_TRUNC, "TRUNC"}, {O_APPEND, "APPEND"}, {O_CLOEXEC, "CLOEXEC"}, {O_NOCTTY, "NOCTTY"}, {O_NONBLOCK, "NONBLOCK"},
    {O_DIRECTORY, "DIRECTORY"}, {O_NOFOLLOW, "NOFOLLOW"}, {O_SYNC, "SYNC"},
};

int __real_openat(int folder, const char *path, int flags, mode_t mode);

int __wrap_openat(int folder, const char *path, int flags, ...) {
    printf("open %s: %s", path, (flags & O_ACCMODE) == O_RDONLY ? "RDONLY" : (flags & O_ACCMODE) == O_WRONLY ? "WRONLY" : "RDWR");
    int left = flags & ~O_ACCMODE;
    for (size_t k = 0; k < sizeof FLAGS / sizeof *FLAGS; k++)
        if ((flags & FLAGS[k].flag) == FLAGS[k].flag) printf(" %s", FLAGS[k].name), left &= ~FLAGS[k].flag;
    printf(left ? " and others\n" : "\n");
    return __real_openat(folder, path, flags, 0);
}

static void folder(const char *name) {
    int fd = rattle_open_dir_at(AT_FDCWD, name), error = rattle_errno();
    struct stat is = {0};
    if (fd < 0) {
        printf("folder %s: errno %d\n", name, error);
        return;
    }
    printf("folder %s: folder %d, closed on exec %d\n", name, !fstat(fd, &is) && S_ISDIR(is.st_mode), fcntl(fd, F_GETFD) & FD_CLOEXEC);
    close(fd);
}

/* what rooms from 0 on a text is put into, and what stands behind it */
static void put(const char *what, ssize_t way(size_t, uint8_t *, size_t), size_t i) {
    for (size_t room = 0; room < 9; room += 4) {
        uint8_t buffer[9];
        memset(buffer, '.', sizeof buffer);
        long n = (long)way(i, buffer, room);
        printf("%s %zu in %zu bytes: %ld %.9s\n", what, i, room, n, buffer);
    }
}
static const char *const NAMES[] = {"NONE", "EMPTY", "FOUR", "FIVE"};
static ssize_t named(size_t i, uint8_t *buffer, size_t room) { return rattle_env(NAMES[i], buffer, room); }

static void parts(int fd, bool is_socket) {
    ssize_t n = rattle_write_parts(fd, is_socket, (const uint8_t *)"ab", 2, (const uint8_t *)"", 0, (const uint8_t *)"cde", 3, (const uint8_t *)"f", 1);
    printf("four parts: %zd, errno %d\n", n, n < 0 ? rattle_errno() : 0);
}

int main(void) {
    if (mkdir("inner", 0700) || symlink("inner", "link")) return 1;
    fclose(fopen("file", "w"));
    folder("inner");
    folder("link");
    folder("link/");
    folder("file");
    folder("missing");
    rattle_set_errno(EPROTO);
    printf("errno %d, set to %d\n", errno == EPROTO, rattle_errno() == EPROTO);

    printf("%zu arguments\n", rattle_arg_count());
    for (size_t i = 1; i < rattle_arg_count() + 2; i++) put("argument", rattle_arg, i);
    clearenv();
    put("entry of none", rattle_env_at, 0);
    setenv("EMPTY", "", 1), setenv("FOUR", "abcd", 1), setenv("FIVE", "abcde", 1);
    for (size_t i = 0; i < sizeof NAMES / sizeof *NAMES; i++) put(NAMES[i], named, i);
    for (size_t i = 0; i < 5; i++) put("entry", rattle_env_at, i);

    int file = open("file", O_RDWR), pair[2], pipes[2];
    if (socketpair(AF_UNIX, SOCK_STREAM, 0, pair) || pipe(pipes)) return 1;
    for (int on = 1; on >= 0; on--) {
        int set = rattle_set_nonblocking(pipes[1], on);
        printf("nonblocking %d: %d, %d\n", on, set, (fcntl(pipes[1], F_GETFL) & O_NONBLOCK) != 0);
    }
    int none = rattle_set_nonblocking(-1, true);
    printf("nonblocking of none: %d, errno %d\n", none, rattle_errno());
    parts(file, false);
    parts(pair[0], true);
    parts(file, true);
    parts(-1, false);
    close(pair[1]);
    parts(pair[0], true);
    char text[8] = {0};
    ssize_t got = pread(file, text, sizeof text - 1, 0);
    printf("the file has %.8s, %zd bytes\n", text, got);

    int other = open("file", O_RDWR);
    printf("locked: %d\n", rattle_lock_range(file, F_WRLCK, 2, 3));
    for (int at = 0; at < 6; at++) {
        int done = rattle_lock_range(other, F_WRLCK, at, 1);
        printf("locked at %d by another: %d, errno %d\n", at, done, done ? rattle_errno() : 0);
    }
    int unlocked = rattle_lock_range(file, F_UNLCK, 2, 3), locked = rattle_lock_range(other, F_RDLCK, 0, 0);
    printf("unlocked: %d, and locked by another: %d\n", unlocked, locked);

    struct tried a = rattle_alloc(5, 1), b = rattle_alloc(0, 16), never = rattle_alloc((size_t)1 << 62, 1), more;
    printf("memory: %d %d %d %d, for too much: %d %d\n", a.ok, a.p != NULL, b.ok, (uintptr_t)b.p % 16 == 0, never.ok, never.p != NULL);
    memcpy(a.p, "abcd", 5);
    more = rattle_realloc(a.p, 5, (size_t)1 << 62, 1);
    printf("more than there is: %d %d, and it still has %s\n", more.ok, more.p != NULL, (char *)a.p);
    more = rattle_realloc(a.p, 5, 100000, 1);
    printf("more: %d, and it has %s\n", more.ok, (char *)more.p);
    more = rattle_realloc(more.p, 5, 0, 8);
    printf("none: %d %d\n", more.ok, more.p != NULL);
    rattle_dealloc(more.p);
    rattle_dealloc(b.p);
    return 0;
}
