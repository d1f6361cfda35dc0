/* The bytes that one call copies by memcpy and memmove, counted: linked with --wrap, so that the library's own calls go through the counters. */
#include "rokemaipu.h"

#include <stdio.h>

static size_t copied;

void *__real_memcpy(void *to, const void *from, size_t n);
void *__real_memmove(void *to, const void *from, size_t n);
void *__wrap_memcpy(void *to, const void *from, size_t n);
void *__wrap_memmove(void *to, const void *from, size_t n);

void *__wrap_memcpy(void *to, const void *from, size_t n) {
    copied += n;
    return __real_memcpy(to, from, n);
}

void *__wrap_memmove(void *to, const void *from, size_t n) {
    copied += n;
    return __real_memmove(to, from, n);
}

static size_t counted(uint32_t answer) {
    size_t n = answer < 65536 ? copied : (size_t)-1;
    copied = 0;
    return n;
}

int main(void) {
    static rokemaipu_table t;
    static const uint8_t status[8] = {0xa0, 0x0f, 0x83, 0x00, 0x41, 0x40, 0x01, 0x64}, session[2] = {2, 1};
    rokemaipu_start(&t);
    for (uint32_t post = 0; post < ROKEMAIPU_POSTS; post++) rokemaipu_set_up(&t, post, post, 5000, 1000, 500, 500, 0, 0);
    copied = 0;
    size_t first = counted(rokemaipu_frame(&t, 0, 10, 0x6b001, true, session, 2));
    size_t last = counted(rokemaipu_frame(&t, 15, 10, 0x63000, true, status, 8));
    size_t tick = counted(rokemaipu_tick(&t, 15, 20));
    size_t holder = counted(rokemaipu_holder(&t, 15));
    size_t setting = counted(rokemaipu_set_up(&t, 15, 15, 5000, 1000, 500, 500, 0, 0));
    if (first == (size_t)-1 || last == (size_t)-1 || tick == (size_t)-1 || holder == (size_t)-1 || setting == (size_t)-1)
        return printf("bench: a step was refused\n"), 1;
    printf("bytes copied by memcpy: frame on the first of 16 posts %zu, on the last %zu; tick %zu; holder %zu; set-up %zu\n", first, last, tick, holder, setting);
    printf("a table has %zu bytes, a post %zu\n", sizeof(rokemaipu_table), sizeof(rokemaipu_post));
}
