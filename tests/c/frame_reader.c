/*
 * Tests of the frame reader through C: frames with their answers, and the reader beside an engine that reads the same bytes.
 * The last line is 'frame_reader: N frames, 0 wrong'; the exit status is 1 where something is wrong.
 */
#include "hisproat.h"
#include "hisproat_frame_reader.h"

#include <stdio.h>
#include <string.h>

enum { LIMIT = 512, CHANNEL_MAX = 7, STATE = HISPROAT_STATE_SIZE(CHANNEL_MAX), DAMAGED = 200000 };

static unsigned long frames, fine, wrong;

static void check(int holds, const char *what)
{
    if (!holds) {
        printf("wrong: %s (frame %lu)\n", what, frames);
        wrong++;
    }
}

static uint64_t number(const uint8_t *at, size_t width)
{
    return hisproat_number(at, width);
}

/* One frame: what is returned, and the places of its answer. */
static void reads(const uint8_t *frame, size_t len, uint8_t returned, unsigned code, unsigned channel, size_t end, size_t size)
{
    uint8_t answer[HISPROAT_FRAME_SIZE + 1];
    frames++;
    memset(answer, 0xA5, sizeof answer);
    check(hisproat_read_frame(frame, len, LIMIT, CHANNEL_MAX, answer, sizeof answer) == returned, "the number");
    check(answer[HISPROAT_FRAME_SIZE] == 0xA5, "a byte after the answer");
    if (returned != 0) {
        for (size_t i = 0; i < sizeof answer; i++)
            check(answer[i] == 0xA5, "a refusal changes no byte");
        return;
    }
    check(answer[HISPROAT_FRAME_AT_CODE] == code, "the code");
    check(number(answer + HISPROAT_FRAME_AT_CHANNEL, 2) == channel, "the channel");
    check(number(answer + HISPROAT_FRAME_AT_BODY, 8) == 8, "the body's start");
    check(number(answer + HISPROAT_FRAME_AT_END, 8) == end, "the performative's end");
    check(number(answer + HISPROAT_FRAME_AT_CONSUMED, 8) == size, "the size");
    for (size_t short_len = 0; short_len < HISPROAT_FRAME_SIZE; short_len++)
        check(hisproat_read_frame(frame, len, LIMIT, CHANNEL_MAX, answer, short_len) == HISPROAT_REFUSED_NO_ROOM, "too short an answer");
}

#define READS(returned, code, channel, end, size, ...)                                                                                                        \
    do {                                                                                                                                                      \
        const uint8_t frame[] = {__VA_ARGS__};                                                                                                                \
        reads(frame, sizeof frame, returned, code, channel, end, size);                                                                                       \
    } while (0)

static void known_frames(void)
{
    READS(0, 0, 0, 0, 8, 0, 0, 0, 8, 2, 0, 0, 0);
    READS(0, 24, 0, 4, 12, 0, 0, 0, 0x0C, 2, 0, 0, 0, 0, 0x53, 0x18, 0x45);
    READS(0, 20, 7, 4, 15, 0, 0, 0, 0x0F, 2, 0, 0, 7, 0, 0x53, 0x14, 0x45, 'a', 'b', 'c', 'n', 'e', 'x', 't');
    READS(0, 17, 3, 12, 20, 0, 0, 0, 0x14, 2, 0, 0, 3, 0, 0x53, 0x11, 0xC0, 0x07, 0x04, 0x40, 0x43, 0x52, 100, 0x52, 100);
    READS(1, 0, 0, 0, 0, 0, 0, 0);
    READS(1, 0, 0, 0, 0, 0, 0, 2, 0);
    READS(1, 0, 0, 0, 0, 0, 0, 0, 9, 2, 0, 0, 0);
    READS(3, 0, 0, 0, 0, 0, 0, 0, 7, 2, 0, 0, 0);
    READS(4, 0, 0, 0, 0, 0, 0, 2, 1);
    READS(5, 0, 0, 0, 0, 0, 0, 0, 8, 3, 0, 0, 0);
    READS(5, 0, 0, 0, 0, 0, 0, 0, 8, 2, 1, 0, 9);
    READS(7, 0, 0, 0, 0, 0, 0, 0, 9, 2, 0, 0, 8, 0xFF);
    READS(6, 0, 0, 0, 0, 0, 0, 0, 9, 2, 0, 0, 7, 0xFF);
}

static uint64_t next(uint64_t *seed)
{
    *seed = *seed * 6364136223846793005u + 1442695040888963407u;
    return *seed >> 33;
}

/* A listener that has read its peer's Open, in `state`. */
static void open_engine(uint8_t *state)
{
    static const uint8_t header[] = {'A', 'M', 'Q', 'P', 0, 1, 0, 0}, peers_open[] = {0, 0, 0, 0x11, 2, 0, 0, 0, 0, 0x53, 0x10, 0xC0, 4, 1, 0xA1, 1, 'p'};
    static uint8_t output[HISPROAT_OUTPUT_ROOM];
    uint8_t answer[HISPROAT_ANSWER_SIZE];
    check(hisproat_listener(state, STATE, header, 1, LIMIT, CHANNEL_MAX, 0, 0) == 0, "a listener");
    check(hisproat_send_header(state, STATE, output, sizeof output, answer, sizeof answer) == 0, "a header sent");
    check(hisproat_receive_header(state, STATE, header, sizeof header, answer, sizeof answer) == 0, "a header received");
    check(hisproat_send_open(state, STATE, output, sizeof output, answer, sizeof answer) == 0, "an Open sent");
    check(hisproat_on_incoming(state, STATE, peers_open, sizeof peers_open, 0, header, 0, output, sizeof output, answer, sizeof answer) == 0, "an Open received");
}

/* The reader and an opened engine agree which refusal of the input a frame has, and how many bytes are consumed. */
static void beside_engine(const uint8_t *opened, const uint8_t *frame, size_t len)
{
    static uint8_t output[HISPROAT_OUTPUT_ROOM];
    uint8_t state[STATE], answer[HISPROAT_ANSWER_SIZE], told[HISPROAT_FRAME_SIZE];
    frames++;
    memcpy(state, opened, sizeof state);
    uint8_t returned = hisproat_on_incoming(state, sizeof state, frame, len, 0, frame, 0, output, sizeof output, answer, sizeof answer);
    uint8_t refused = answer[HISPROAT_AT_KIND] == HISPROAT_KIND_REFUSED ? answer[HISPROAT_AT_DETAIL] : 0;
    if (returned != 0 || refused >= HISPROAT_REFUSED_ILLEGAL_STATE)
        refused = returned;
    uint8_t read = hisproat_read_frame(frame, len, LIMIT, CHANNEL_MAX, told, sizeof told);
    check(read == refused, "the reader's refusal and the engine's");
    fine += read == 0;
    if (read == 0)
        check(number(told + HISPROAT_FRAME_AT_CONSUMED, 8) == hisproat_consumed(answer), "bytes consumed");
}

static void damaged_frames(void)
{
    static const uint8_t good[] = {0,    0,    0,    0x26, 2,    0,    0, 3, 0, 0x53, 0x14, 0xC0, 0x0C, 0x08, 0x43, 0x43, 0xA0, 0x01, 0x07,
                                   0x43, 0x42, 0x40, 0x41, 0x52, 0x09, 0, 0, 0, 0x53, 0x75, 0xA0, 4,    'p',  'a',  'd',  '1',  0,    0};
    uint8_t opened[STATE], frame[sizeof good];
    uint64_t seed = 1;
    open_engine(opened);
    for (int round = 0; round < DAMAGED; round++) {
        memcpy(frame, good, sizeof good);
        for (uint64_t changes = next(&seed) % 3; changes > 0; changes--)
            frame[next(&seed) % sizeof good] = (uint8_t)(next(&seed) % 4 == 0 ? next(&seed) : good[next(&seed) % sizeof good]);
        beside_engine(opened, frame, sizeof good - next(&seed) % 4 * (next(&seed) % 2));
    }
}

int main(void)
{
    known_frames();
    damaged_frames();
    check(fine > DAMAGED / 4 && fine < DAMAGED / 4 * 3, "some damaged frames are read, and some refused");
    printf("frame_reader: %lu frames, %lu wrong\n", frames, wrong);
    return wrong != 0;
}
