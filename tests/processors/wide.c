/* By Arm's procedure call standard a caller fills the bits of its argument and leaves the register's others as they were. So each entry that takes a bool or a
 * number of 16 bits is called as if it took 64 bits, with others set behind those that count, and answers as it does when called by the header. */
#include <stdio.h>
#include <stdlib.h>
#include <string.h>

#include "rokemaipu.h"

#define HELD(what) ((what) ? (void)0 : (fprintf(stderr, "tests/processors/wide.c:%d: %s\n", __LINE__, #what), exit(1)))

/* the compiler is not to see which function it is that is called otherwise than it was declared */
static void *hidden(void *function) {
    void *volatile hidden = function;
    return hidden;
}
#define AS(type, function) ((type *)hidden((void *)function))

typedef uint32_t frame_wide(rokemaipu_table *, uint32_t, uint32_t, uint32_t, uint64_t, const uint8_t *, size_t);
typedef uint32_t read_wide(uint32_t, uint64_t, const uint8_t *, size_t, int64_t *, size_t);
typedef uint32_t change_wide(uint32_t, uint64_t, uint8_t *, size_t, uint32_t, int64_t);
typedef uint32_t log_wide(uint32_t, uint32_t, uint32_t, uint64_t, const uint8_t *, size_t, uint8_t *, size_t);
typedef uint64_t of_16(uint64_t);
typedef float degrees_wide(uint64_t);

int main(void) {
    static const uint64_t OTHERS[] = {0, 0x100, 0xffffffffffffff00, 0xa5a5a5a5a5a5a500, 0xffffffff00000000};
    static const uint8_t STATUS[8] = {0xa0, 0x0f, 0x83, 0xff, 0x41, 0x00, 0x01, 0x64}, SAFETY[8] = {0x82, 0x15};
    for (size_t k = 0; k < sizeof OTHERS / sizeof *OTHERS; k++)
        for (int extended = 0; extended < 2; extended++) {
            uint64_t wide = OTHERS[k] | (uint64_t)extended;
            const uint32_t ids[] = {0x63000, 6};
            for (int n = 0; n < 2; n++) {
                const uint8_t *payload = n ? SAFETY : STATUS;
                rokemaipu_table a, b;
                memset(&a, 0, sizeof a);
                HELD(rokemaipu_set_up(&a, 0, 4, 5000, 1000, 500, 500, ROKEMAIPU_MEASURING, ROKEMAIPU_NEWER) == 0);
                b = a;
                HELD(rokemaipu_frame(&a, 4, 20, ids[n], extended, payload, 8) == AS(frame_wide, rokemaipu_frame)(&b, 4, 20, ids[n], wide, payload, 8));
                HELD(!memcmp(&a, &b, sizeof a));
                int64_t raws[ROKEMAIPU_SIGNALS], other[ROKEMAIPU_SIGNALS];
                memset(raws, 1, sizeof raws), memset(other, 1, sizeof other);
                HELD(rokemaipu_read(ids[n], extended, payload, 8, raws, ROKEMAIPU_SIGNALS) ==
                     AS(read_wide, rokemaipu_read)(ids[n], wide, payload, 8, other, ROKEMAIPU_SIGNALS));
                HELD(!memcmp(raws, other, sizeof raws));
                uint8_t one[8], two[8];
                memcpy(one, payload, 8), memcpy(two, payload, 8);
                HELD(rokemaipu_change(ids[n], extended, one, 8, 16, 1) == AS(change_wide, rokemaipu_change)(ids[n], wide, two, 8, 16, 1));
                HELD(!memcmp(one, two, 8));
                uint8_t record[ROKEMAIPU_RECORD_BYTES] = {0}, second[ROKEMAIPU_RECORD_BYTES] = {0};
                HELD(rokemaipu_log_frame(20, 4, ids[n], extended, payload, 8, record, sizeof record) ==
                     AS(log_wide, rokemaipu_log_frame)(20, 4, ids[n], wide, payload, 8, second, sizeof second));
                HELD(!memcmp(record, second, sizeof record));
            }
        }
    for (size_t k = 0; k < sizeof OTHERS / sizeof *OTHERS; k++)
        for (uint32_t raw = 0; raw < 65536; raw++) {
            uint64_t wide = (OTHERS[k] & ~(uint64_t)0xffff) | raw;
            HELD(rokemaipu_limited_duty((uint16_t)raw) == (uint16_t)AS(of_16, rokemaipu_limited_duty)(wide));
            HELD(rokemaipu_probe_used((int16_t)raw) == (AS(of_16, rokemaipu_probe_used)(wide) & 0xff));
            HELD(rokemaipu_probe_degrees((int16_t)raw) == AS(degrees_wide, rokemaipu_probe_degrees)(wide));
        }
    return 0;
}
