/* A night log replayed over the C interface (02, Req 05), as the desk in C shows it. */
#ifndef REPLAY_H
#define REPLAY_H

#include "rokemaipu.h"

/* The lines of a log's records, each with a bar behind it, and the ending. */
void put_replay(rokemaipu_replay *replay, const uint8_t *log, size_t size);

/* END, CUT@BYTE or BAD R<n>@BYTE, by what was found at that byte where no record is. */
void put_ending(uint32_t found, size_t at);

#endif
