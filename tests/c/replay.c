#include "replay.h"

#include <inttypes.h>
#include <stdio.h>

void put_replay(rokemaipu_replay *replay, const uint8_t *log, size_t size) {
    uint8_t line[ROKEMAIPU_LINE_BYTES];
    uint64_t at = 0;
    uint32_t n;
    while ((n = rokemaipu_replay_line(replay, log, size, at, line, sizeof line, &at, 1)) >= 3 && !rokemaipu_refusal(n)) printf("%.*s|", (int)n - 1, (const char *)line);
    put_ending(n == 0 ? ROKEMAIPU_FOUND_END : n == 1 ? ROKEMAIPU_FOUND_PIECE : n, at);
}

void put_ending(uint32_t found, size_t at) {
    if (found == ROKEMAIPU_FOUND_END) printf("END");
    else if (found == ROKEMAIPU_FOUND_PIECE) printf("CUT@%zu", at);
    else printf("BAD R%" PRIu32 "@%zu", rokemaipu_refusal(found), at);
}
