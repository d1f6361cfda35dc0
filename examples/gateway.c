/* A gateway's main loop: log first, then watch.
 *
 *     gateway POSTS LOG INTERFACE..    frames of SocketCAN interfaces, as can4 or vcan4: the number is the channel
 *     gateway POSTS LOG < RECORDING    frames of a recording of candump -L, by its own stamps
 *
 * POSTS has a line for each post: setup POST CHANNEL VOLT CHG DIS W [SENSOR [IFACE]], blank lines and comments with #. Every frame, and every 100 ms a tick on
 * the channel of each post, is appended to the night log LOG and then handed to the watch. What is found goes to standard output, a line each:
 * `frame 4 110 6b003 x F3 F4`, `tick 4 300 F1`. It drives no hardware: what it hears it tells.
 *
 * cc gateway.c $(pkg-config --cflags --libs rokemaipu) -o gateway */
#define _GNU_SOURCE
#include <ctype.h>
#include <errno.h>
#include <fcntl.h>
#include <inttypes.h>
#include <net/if.h>
#include <poll.h>
#include <signal.h>
#include <stdio.h>
#include <stdlib.h>
#include <string.h>
#include <sys/ioctl.h>
#include <sys/mman.h>
#include <sys/socket.h>
#include <sys/stat.h>
#include <time.h>
#include <unistd.h>

#include <linux/can.h>
#include <linux/can/raw.h>

#include "rokemaipu.h"

#define TICK_MS 100

static rokemaipu_table table; /* zeroed memory is a table */
static uint32_t channels[ROKEMAIPU_POSTS];
static size_t posts;
static const char *log_name;
static int night_log;
static volatile sig_atomic_t ended;

static void stop(const char *what, const char *why) {
    fprintf(stderr, "gateway: %s: %s\n", what, why);
    exit(1);
}

/* ---- the posts */

static void set_up(const char *name) {
    FILE *file = fopen(name, "r");
    if (!file) stop(name, strerror(errno));
    char line[256];
    for (unsigned number = 1; fgets(line, sizeof line, file); number++) {
        uint32_t post, channel, voltage, charge, discharge, silence, sensor = ROKEMAIPU_MEASURING, interface = ROKEMAIPU_NEWER;
        char where[64];
        if (line[0] == '#' || line[0] == '\n') continue;
        snprintf(where, sizeof where, "line %u of the posts", number);
        int read = sscanf(line, "setup %" SCNu32 " %" SCNu32 " %" SCNu32 " %" SCNu32 " %" SCNu32 " %" SCNu32 " %" SCNu32 " %" SCNu32, &post, &channel, &voltage, &charge, &discharge,
                          &silence, &sensor, &interface);
        if (read < 6) stop(where, "no setup POST CHANNEL VOLT CHG DIS W [SENSOR [IFACE]]");
        if (rokemaipu_refusal(rokemaipu_set_up(&table, post, channel, voltage, charge, discharge, silence, sensor, interface))) stop(where, "the set-up is refused");
    }
    fclose(file);
    for (uint32_t channel = 0; channel < ROKEMAIPU_CHANNELS; channel++)
        if (!rokemaipu_refusal(rokemaipu_holder(&table, channel))) channels[posts++] = channel;
}

/* ---- the night log */

/* Opens the log. After a pulled plug a piece of a record may be left over: it is cut off. A log with a malformed record is left as it is. */
static void open_log(const char *name) {
    struct stat held;
    log_name = name;
    night_log = open(name, O_RDWR | O_CREAT | O_APPEND | O_CLOEXEC, 0666);
    if (night_log < 0 || fstat(night_log, &held)) stop(name, strerror(errno));
    if (!held.st_size) return;
    size_t size = (size_t)held.st_size, at = 0;
    uint8_t *bytes = mmap(NULL, size, PROT_READ, MAP_PRIVATE, night_log, 0);
    if (bytes == MAP_FAILED) stop(name, strerror(errno));
    uint64_t entry[ROKEMAIPU_ENTRY_NUMBERS];
    uint32_t found;
    while ((found = rokemaipu_log_record(bytes, size, at, entry, ROKEMAIPU_ENTRY_NUMBERS)) == ROKEMAIPU_FOUND_RECORD) at = entry[ROKEMAIPU_ENTRY_NEXT];
    munmap(bytes, size);
    if (rokemaipu_refusal(found)) stop(name, "a record is malformed, and nothing is appended");
    if (found == ROKEMAIPU_FOUND_PIECE) {
        if (ftruncate(night_log, (off_t)at)) stop(name, strerror(errno));
        fprintf(stderr, "gateway: %s: cut back to byte %zu\n", name, at);
    }
}

/* A record is appended by one write. What the log cannot hold is watched all the same, and refused there. */
static void append(const uint8_t *record, uint32_t size) {
    if (rokemaipu_refusal(size)) return;
    ssize_t wrote = write(night_log, record, size);
    if (wrote != (ssize_t)size) stop(log_name, wrote < 0 ? strerror(errno) : "a record was not written whole");
}

/* ---- frames and ticks: log first, then watch */

static void tell(const char *words, uint32_t answer) {
    if (rokemaipu_refusal(answer) || !answer) return;
    fputs(words, stdout);
    for (int k = 1; k <= 16; k++)
        if (answer >> (k - 1) & 1) printf(" F%d", k);
    putchar('\n');
}

static void frame(uint32_t channel, uint32_t time, uint32_t id, bool extended, const uint8_t *payload, size_t length) {
    uint8_t record[ROKEMAIPU_RECORD_BYTES];
    char words[64];
    append(record, rokemaipu_log_frame(time, channel, id, extended, payload, length, record, sizeof record));
    snprintf(words, sizeof words, "frame %" PRIu32 " %" PRIu32 " %" PRIx32 " %c", channel, time, id, extended ? 'x' : 's');
    tell(words, rokemaipu_frame(&table, channel, time, id, extended, payload, length));
}

/* A tick on the channel of each post; then what was found is told at once. */
static void tick(uint32_t time) {
    for (size_t k = 0; k < posts; k++) {
        uint8_t record[ROKEMAIPU_RECORD_BYTES];
        char words[64];
        append(record, rokemaipu_log_tick(time, channels[k], record, sizeof record));
        snprintf(words, sizeof words, "tick %" PRIu32 " %" PRIu32, channels[k], time);
        tell(words, rokemaipu_tick(&table, channels[k], time));
    }
    fflush(stdout);
}

/* Times are counted in 64 bits here; the log and the watch have 32. */
static uint64_t next_tick;

static bool ticks_until(uint64_t now) {
    if (!next_tick) next_tick = now + TICK_MS;
    bool due = next_tick <= now;
    for (; next_tick <= now; next_tick += TICK_MS) tick((uint32_t)next_tick);
    return due;
}

/* ---- a recording of candump -L: (1742000000.123456) can4 0006B003#A00F0000000048 */

static bool number_of(const char *interface, uint32_t *channel) {
    const char *digits = interface + strlen(interface);
    while (digits > interface && isdigit((unsigned char)digits[-1])) digits--;
    return sscanf(digits, "%" SCNu32, channel) == 1;
}

/* False where the line is no frame of a CAN bus with up to 8 bytes. */
static bool recorded(const char *line) {
    uint64_t seconds;
    uint32_t micros, id, channel;
    char interface[32], identifier[9], bytes[17] = "";
    uint8_t payload[8];
    int end = 0;
    if (sscanf(line, "(%" SCNu64 ".%6" SCNu32 ") %31s %8[0-9A-Fa-f]#%n", &seconds, &micros, interface, identifier, &end) != 4 || !end) return false;
    sscanf(line + end, "%16[0-9A-Fa-f]%n", bytes, &end);
    const char *behind = strchr(line, '#') + 1 + strlen(bytes);
    size_t length = strlen(bytes) / 2;
    bool extended = strlen(identifier) == 8;
    if (!number_of(interface, &channel) || strlen(bytes) % 2 || (*behind && !isspace((unsigned char)*behind)) || (!extended && strlen(identifier) != 3)) return false;
    for (size_t k = 0; k < length; k++) {
        const char two[] = {bytes[2 * k], bytes[2 * k + 1], 0};
        payload[k] = (uint8_t)strtoul(two, NULL, 16);
    }
    id = (uint32_t)strtoul(identifier, NULL, 16);
    uint64_t now = seconds * 1000 + micros / 1000;
    ticks_until(now);
    frame(channel, (uint32_t)now, id, extended, payload, length);
    return true;
}

static void recording(void) {
    char line[256];
    unsigned left_out = 0;
    while (!ended && fgets(line, sizeof line, stdin)) left_out += !recorded(line);
    if (left_out) fprintf(stderr, "gateway: %u lines of the recording are no frames\n", left_out);
}

/* ---- SocketCAN */

static uint64_t now_ms(void) {
    struct timespec now;
    clock_gettime(CLOCK_REALTIME, &now);
    return (uint64_t)now.tv_sec * 1000 + (uint64_t)now.tv_nsec / 1000000;
}

static int bus(const char *interface) {
    struct sockaddr_can address = {.can_family = AF_CAN, .can_ifindex = (int)if_nametoindex(interface)};
    int bus = socket(PF_CAN, SOCK_RAW | SOCK_CLOEXEC, CAN_RAW);
    if (!address.can_ifindex || bus < 0 || bind(bus, (struct sockaddr *)&address, sizeof address)) stop(interface, strerror(errno));
    return bus;
}

static void buses(char **interfaces, int count) {
    struct pollfd heard[ROKEMAIPU_CHANNELS];
    uint32_t channel[ROKEMAIPU_CHANNELS];
    if (count > ROKEMAIPU_CHANNELS) stop("interfaces", "more than there are channels");
    for (int k = 0; k < count; k++) {
        if (!number_of(interfaces[k], &channel[k])) stop(interfaces[k], "an interface without a number has no channel");
        heard[k] = (struct pollfd){.fd = bus(interfaces[k]), .events = POLLIN};
    }
    while (!ended) {
        /* what was logged since the last tick is on the disk before more is waited for */
        if (ticks_until(now_ms()) && fdatasync(night_log)) stop(log_name, strerror(errno));
        uint64_t now = now_ms();
        if (poll(heard, (nfds_t)count, next_tick > now ? (int)(next_tick - now) : 0) < 0 && errno != EINTR) stop("poll", strerror(errno));
        for (int k = 0; k < count && !ended; k++) {
            struct can_frame came;
            if (!(heard[k].revents & POLLIN) || read(heard[k].fd, &came, sizeof came) != sizeof came || came.can_id & (CAN_RTR_FLAG | CAN_ERR_FLAG)) continue;
            bool extended = came.can_id & CAN_EFF_FLAG;
            uint64_t at = now_ms();
            ticks_until(at);
            frame(channel[k], (uint32_t)at, came.can_id & (extended ? CAN_EFF_MASK : CAN_SFF_MASK), extended, came.data, came.can_dlc);
        }
    }
}

static void end(int number) { ended = number; }

int main(int count, char **words) {
    if (count < 3) {
        fputs("usage: gateway POSTS LOG INTERFACE..; gateway POSTS LOG < RECORDING\n", stderr);
        return 2;
    }
    if (rokemaipu_layout() != ROKEMAIPU_LAYOUT) stop("rokemaipu.h", "is of another version than the library");
    struct sigaction ends = {.sa_handler = end};
    sigaction(SIGINT, &ends, NULL);
    sigaction(SIGTERM, &ends, NULL);
    set_up(words[1]);
    open_log(words[2]);
    if (count > 3) buses(words + 3, count - 3);
    else recording();
    if (fsync(night_log)) stop(log_name, strerror(errno));
    if (fflush(stdout)) stop("standard output", strerror(errno));
    fprintf(stderr, "gateway: %" PRIu32 " frames and ticks refused\n", rokemaipu_refused(&table));
    return 0;
}
