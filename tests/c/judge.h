/*
 * The bytes of a state, written from crates/engine_bytes/specs/Bytes.antt and crates/channels/specs/Places.antt: where things stand, which fixed parts are an engine's,
 * and what the tables say.
 */
#ifndef JUDGE_H
#define JUDGE_H

#include "hisproat.h"

/* Places in the fixed part. The bytes from AT_MOVING on, up to AT_ID_LENGTH, are those that an event may change. */
enum {
    AT_VERSION = 0,
    AT_ROLE = 4,
    AT_HAS_IDLE = 5,
    AT_CHANNEL_MAX = 6,    /* 2 bytes */
    AT_MAX_FRAME_SIZE = 8, /* 4 */
    AT_IDLE = 12,          /* 4 */
    AT_MOVING = 16,
    AT_PHASE = 16,
    AT_OUTCOME = 17,
    AT_STATE = 18,
    AT_AGREED = 19,
    AT_READING_LIMIT = 20, /* 4 */
    AT_WRITING_LIMIT = 24, /* 4 */
    AT_USED = 28,          /* 4: how many of the lowest numbers were handed out at some time */
    AT_HEAD = 32,          /* 4: the one that was freed last */
    AT_FREED = 36,         /* 4: how many of those that were handed out are free */
    AT_AGREED_MAX = 40,    /* 2 */
    AT_ID_LENGTH = 42,     /* 2 */
    AT_ID = 44,
    AT_TABLES = HISPROAT_FIXED_SIZE
};

/* The fields of a place, 4 bytes each: of the outgoing channel of its number its link, its handle and the first incoming channel that is tied through it; of the incoming one
 * the outgoing channel through which it is tied, the handle, and the next and the previous channel in the list of the outgoing one. In FIRST, TIED_THROUGH, NEXT and PREVIOUS a
 * channel is one more than its number, and 0 is none. */
enum { LINK = 0, HANDLE = 1, FIRST = 2, TIED_THROUGH = 3, TIED_HANDLE = 4, NEXT = 5, PREVIOUS = 6, FIELDS = 7 };

/* The link of a number that is taken, and the most channels that there are. */
enum { TAKEN_LINK = 65536, MOST_CHANNELS = 65536 };

int is_utf8(const uint8_t *s, size_t n);

/* Whether a state of so many bytes is an engine's: its fixed part is one, and it is long enough. */
int stands(const uint8_t *state, size_t len);

/* How long a state must be, by its own channel-max; of fewer bytes than a fixed part, the size of one. */
size_t needed(const uint8_t *state, size_t len);

/* ---- Numbers of the fixed part, of 2 bytes where AT_.. says so and else of 4, and fields of the tables */

uint32_t fixed_number(const uint8_t *state, size_t at);
void put_fixed_number(uint8_t *state, size_t at, uint32_t number);
uint32_t field_of(const uint8_t *state, uint32_t channel, unsigned field);
void put_field(uint8_t *state, uint32_t channel, unsigned field, uint32_t number);

/* ---- What fixed part and tables say, whoever wrote them. The handle, or -1 for none. */

int64_t taken_by(const uint8_t *state, uint32_t channel);
int64_t tied_to(const uint8_t *state, uint32_t channel);

/* The outgoing channel through which an incoming one is tied, or -1 where it is not tied. */
int64_t tied_through(const uint8_t *state, uint32_t channel);

/* The first number to be handed out, or -1 for none. */
int64_t first_free(const uint8_t *state);

/* The numbers to be handed out, in order; `list` has room for all. Returns how many there are, or -1 where the links lead out of the tables. */
int64_t hand_out_list(const uint8_t *state, uint16_t list[MOST_CHANNELS]);

/* Whether the tables are as the engine leaves them: the free numbers and the taken ones are together 0 to the agreed channel-max, each once. */
int are_shared(const uint8_t *state);

/* Whether the ties are as the engine leaves them: each names a taken channel and has its handle, stands once in the list of this channel, and nothing else stands in a list. */
int are_tied(const uint8_t *state);

#endif
