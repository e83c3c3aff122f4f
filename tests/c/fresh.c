/*
 * New engines in memory that had other bytes, and in memory that nobody wrote to: they believe nothing of it.
 */
#include "rig.h"

#include <stdlib.h>
#include <string.h>

enum { CHANNEL_MAX = 7 };

static uint8_t filler(unsigned kind, size_t i)
{
    /* taken by 42, with a list that begins with channel 2; tied through channel 0 to 43, and between the channels 4 and 2 in a list */
    static const uint8_t LOOKS_TAKEN[HISPROAT_PLACE_SIZE] = { 0, 1, 0, 0, 0, 0, 0, 42, 0, 0, 0, 3, 0, 0, 0, 1, 0, 0, 0, 43, 0, 0, 0, 5, 0, 0, 0, 3 };
    switch (kind) {
    case 0:
        return 0xFF;
    case 1:
        return LOOKS_TAKEN[(i + 8) % HISPROAT_PLACE_SIZE]; /* the tables start at 300, which is 20 beyond a multiple of 28 */
    case 2:
        return i % 4 == 3;
    default:
        return (uint8_t)(i * i * 31 + i / 7 * 5 + 1);
    }
}

/* An engine that was made in memory with such bytes lives as one that was made in zeros. */
static void in_used_memory(Tally *t, unsigned kind, int is_listener)
{
    Slice zeros = lend_pattern(t, HISPROAT_STATE_SIZE(p1().channel_max)), used = lend_pattern(t, zeros.len);
    memset(zeros.at, 0, zeros.len);
    for (size_t i = 0; i < used.len; i++)
        used.at[i] = filler(kind, i);
    Engine first = new_engine_in(t, zeros, is_listener, p1()), second = new_engine_in(t, used, is_listener, p1());
    same_life(&first, &second);
    /* and again, each in what the other left */
    Engine third = new_engine_in(t, second.state, is_listener, p1()), fourth = new_engine_in(t, first.state, is_listener, p1());
    same_life(&third, &fourth);
    drop_engine(&third);
    drop_engine(&fourth);
}

/* The same in memory that nobody has written to: valgrind tells if an answer depends on it. */
static void in_unwritten_memory(Tally *t, int is_listener)
{
    static const uint8_t HEADER_BYTES[] = { 'A', 'M', 'Q', 'P', 0, 1, 0, 0 };
    static uint8_t output[HISPROAT_OUTPUT_ROOM];
    uint8_t *s = malloc(HISPROAT_STATE_SIZE(CHANNEL_MAX)), a[HISPROAT_ANSWER_SIZE];
    size_t n = HISPROAT_STATE_SIZE(CHANNEL_MAX), on = sizeof output, an = sizeof a;
    Piece open = frame(0, OPEN_OF_H), begins = begin_for(6, 1), transfer = frame(6, TRANSFER), stray = frame(5, TRANSFER);
    const Piece *frames[] = { &open, &begins, &transfer };
    if (s == NULL)
        exit(2);
    check(t, (is_listener ? hisproat_listener : hisproat_dialler)(s, n, HEADER_BYTES, 4, 512, CHANNEL_MAX, 0, 0) == 0, "an engine in unwritten memory");
    check(t, hisproat_receive_header(s, n, HEADER_BYTES, 8, a, an) == 0 && hisproat_send_header(s, n, output, on, a, an) == 0, "headers");
    check(t, hisproat_send_open(s, n, output, on, a, an) == 0, "an Open");
    for (size_t i = 0; i < 3; i++) {
        check(t, hisproat_on_incoming(s, n, frames[i]->at, frames[i]->len, 0, output, 0, output, on, a, an) == 0 && a[HISPROAT_AT_KIND] != HISPROAT_KIND_REFUSED, "a frame");
        check(t, hisproat_on_allocate(s, n, 42, a, an) == 0 && hisproat_on_allocate(s, n, 43, a, an) == 0, "two channels are taken");
        check(t, i == 2 || hisproat_on_deallocate(s, n, 0, a, an) == 0, "one is freed");
    }
    check(t, hisproat_on_allocate(s, n, 44, a, an) == 23, "and then there is none");
    for (uint16_t k = 0; k <= CHANNEL_MAX + 1; k++) {
        check(t, hisproat_handle_at(s, n, k, a, an) == 0 && a[0] == (k < 4), "four channels are taken");
        check(t, hisproat_tied_handle(s, n, k, a, an) == 0 && a[0] == (k == 6), "one channel is tied");
    }
    check(t, hisproat_on_incoming(s, n, stray.at, stray.len, 0, output, 0, output, on, a, an) == 0 && a[HISPROAT_AT_DETAIL] == HISPROAT_REFUSED_NOT_FOUND, "no other is");
    free(s);
}

void fresh_tables(Tally *t)
{
    t->part = "fresh tables";
    for (int is_listener = 0; is_listener < 2; is_listener++) {
        for (unsigned kind = 0; kind < 4; kind++)
            in_used_memory(t, kind, is_listener);
        in_unwritten_memory(t, is_listener);
    }
}
