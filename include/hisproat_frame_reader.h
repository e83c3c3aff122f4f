/*
 * Hisproat's frame reader without an engine: what a frame says, for a program that looks at frames and holds no connection, as a recorder or a tap.
 * Link libframe_reader.a (x86-64). It may be linked beside libhisproat.a.
 *
 * A slice is a pointer and then its length in bytes. A pointer must not be null, also where the length is 0. The two slices must not overlap.
 */
#ifndef HISPROAT_FRAME_READER_H
#define HISPROAT_FRAME_READER_H

#include <stddef.h>
#include <stdint.h>

#ifdef __cplusplus
extern "C" {
#endif

/* How many bytes an answer has, and its places; numbers are big-endian. */
enum {
    HISPROAT_FRAME_SIZE = 27,
    HISPROAT_FRAME_AT_CODE = 0,     /* 1 byte: the performative, 16 (Open) to 24 (Close); 0 for an empty frame */
    HISPROAT_FRAME_AT_CHANNEL = 1,  /* 2 bytes */
    HISPROAT_FRAME_AT_BODY = 3,     /* 8 bytes: where the body starts */
    HISPROAT_FRAME_AT_END = 11,     /* 8 bytes: where the performative ends, counted from the body's start; 0 for an empty frame. A Transfer's payload starts there */
    HISPROAT_FRAME_AT_CONSUMED = 19 /* 8 bytes: how many bytes the frame has. The first 4 are 0; whoever reads the last 4 alone does not wait for both halves to be stored */
};

/* Reads the frame that the slice starts with; bytes after it are not looked at. It has at most `reading_limit` bytes, and its channel is at most `channel_max`.
 * Returns 0, or the number of a refusal, and then the answer is as it was. In this order:
 * 9 an answer of less than 27 bytes; 1 fewer than 4 bytes are there; 3 a length under 8; 4 over the reading limit; 1 the frame is not whole yet; 5 its type is not 0 or
 * its doff not 2; 7 its channel is above channel_max; 6 its body is malformed. */
uint8_t hisproat_read_frame(const uint8_t *frame, size_t frame_len, uint32_t reading_limit, uint16_t channel_max, uint8_t *answer, size_t answer_len);

#ifdef __cplusplus
}
#endif

#endif
