/* What the kit's c/libos_c.a and c/liblibc_c.a have, which are for x86-64 alone: the C functions that the kit's libraries os and libc declare and that no proof
 * covers, to the same words (rattle/os/src/c.rt and rattle/libc/src/heap.rt of the kit), but for those of sockets, threads and other programs, which nothing
 * here reaches. tests/processors holds each of them to the kit's own. */
#define _GNU_SOURCE
#include <errno.h>
#include <fcntl.h>
#include <stdbool.h>
#include <stddef.h>
#include <stdint.h>
#include <stdlib.h>
#include <sys/ioctl.h>
#include <sys/socket.h>
#include <sys/types.h>
#include <sys/uio.h>
#include <unistd.h>

static int count;
static char **words;

/* glibc hands a constructor what it hands main */
__attribute__((constructor)) static void keep(int argc, char **argv) {
    count = argc;
    words = argv;
}

/* The length of a text, which is put at the start of buffer; -1 where it is missing, -2 where it does not fit, and then the buffer is full. */
static ssize_t put(const char *text, uint8_t *buffer, size_t room) {
    if (!text) return -1;
    size_t n = 0;
    for (; text[n]; n++) {
        if (n == room) return -2;
        buffer[n] = (uint8_t)text[n];
    }
    return (ssize_t)n;
}

size_t rattle_arg_count(void) { return (size_t)count; }
ssize_t rattle_arg(size_t i, uint8_t *buffer, size_t room) { return put(i < (size_t)count ? words[i] : NULL, buffer, room); }

ssize_t rattle_env(const char *name, uint8_t *buffer, size_t room) { return put(getenv(name), buffer, room); }

ssize_t rattle_env_at(size_t i, uint8_t *buffer, size_t room) {
    char **entry = environ;
    for (; entry && *entry && i; i--) entry++;
    return put(entry ? *entry : NULL, buffer, room);
}

int rattle_open_dir_at(int folder, const char *name) { return openat(folder, name, O_RDONLY | O_DIRECTORY | O_NOFOLLOW | O_CLOEXEC); }

int rattle_set_nonblocking(int fd, bool on) {
    int set = on;
    return ioctl(fd, FIONBIO, &set);
}

int rattle_lock_range(int fd, int16_t kind, int64_t start, int64_t length) {
    struct flock range = {.l_type = kind, .l_whence = SEEK_SET, .l_start = start, .l_len = length};
    return fcntl(fd, F_OFD_SETLK, &range);
}

ssize_t rattle_write_parts(int fd, bool is_socket, const uint8_t *a, size_t na, const uint8_t *b, size_t nb, const uint8_t *c, size_t nc, const uint8_t *d, size_t nd) {
    struct iovec parts[4] = {{(void *)a, na}, {(void *)b, nb}, {(void *)c, nc}, {(void *)d, nd}};
    if (!is_socket) return writev(fd, parts, 4);
    struct msghdr message = {.msg_iov = parts, .msg_iovlen = 4};
    return sendmsg(fd, &message, MSG_NOSIGNAL);
}

int rattle_errno(void) { return errno; }
void rattle_set_errno(int error) { errno = error; }

/* Whether there is memory, and where; where there is none, a byte that is kept here. The first is a bool to those that ask, and fills its register. */
struct tried { uint64_t ok; void *p; };
static char none;

static struct tried told(void *p) { return (struct tried){p != NULL, p ? p : &none}; }

struct tried rattle_alloc(size_t n, size_t align) { return told(malloc(n ? n : align)); }
struct tried rattle_realloc(void *p, size_t kept, size_t n, size_t align) { return (void)kept, told(realloc(p, n ? n : align)); }
void rattle_dealloc(void *p) { free(p); }
