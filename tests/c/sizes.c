/*
 * Lengths of lent slices: states of HISPROAT_STATE_SIZE(channel_max) bytes, of fewer and of more, and answers and outputs of their sizes and of others.
 * Also two engines beside each other, of which one has a longer state, or one that had other bytes before: they tell the same all their lives.
 */
#include "rig.h"

#include "judge.h"

#include <string.h>

_Static_assert(HISPROAT_STATE_SIZE(0) == 328 && HISPROAT_STATE_SIZE(255) == 7468 && HISPROAT_STATE_SIZE(65535) == 1835308, "the sizes that the header tells");

/* ---- Two engines that must tell the same */

typedef struct {
    Engine *first, *second;
} Twins;

static int same_status(Status a, Status b)
{
    return a.role == b.role && a.phase == b.phase && a.outcome == b.outcome && a.state == b.state && a.reading_limit == b.reading_limit
        && a.writing_limit == b.writing_limit && a.agreed == b.agreed && a.channel_max == b.channel_max && a.taken == b.taken;
}

static int same_handles(Twins *w, uint32_t channel)
{
    uint16_t k = (uint16_t)channel;
    return handle_at(w->first, k) == handle_at(w->second, k) && tied_handle(w->first, k) == tied_handle(w->second, k);
}

static void both(Twins *w, Order order)
{
    Tally *t = w->first->tally;
    Said first = perform(w->first, order), second = perform(w->second, order);
    uint32_t past = fixed_number(w->first->state.at, AT_CHANNEL_MAX) + 2;
    check(t, same_said(&first, &second) && same(wire(w->first), wire(w->second)), "two engines answer the same");
    check(t, same_status(status(w->first), status(w->second)), "two engines have the same status");
    for (uint32_t k = 0; k <= past; k++)
        check(t, same_handles(w, k), "two engines have the same handles");
    check(t, same_handles(w, 65535), "and none at 65,535");
}

static void both_on_frame(Twins *w, Event event, Piece frame)
{
    both(w, (Order){ .event = event, .input = of(&frame), .number = 77 });
}

/* Channels are taken, freed and taken again; sessions begin and end, and their frames come. */
static void sessions_of_both(Twins *w)
{
    for (uint32_t i = 0; i < 4; i++)
        both(w, (Order){ .event = ON_ALLOCATE, .number = 0xA0000000 + i });
    both(w, (Order){ .event = ON_DEALLOCATE, .number = 2 });
    both(w, (Order){ .event = ON_DEALLOCATE, .number = 0 });
    both(w, (Order){ .event = ON_DEALLOCATE, .number = 2 });
    both(w, (Order){ .event = ON_DEALLOCATE, .number = 5 });
    both_on_frame(w, ON_INCOMING, begin_for(6, 1));
    both_on_frame(w, ON_INCOMING, begin_for(7, 3));
    both_on_frame(w, ON_INCOMING, frame(6, TRANSFER));
    both(w, (Order){ .event = ON_ALLOCATE, .number = 9 });
    both_on_frame(w, ON_OUTGOING, begin_for(0, 5));
    both_on_frame(w, ON_OUTGOING, frame(0, TRANSFER));
    both_on_frame(w, ON_INCOMING, frame(7, END));
    both_on_frame(w, ON_INCOMING, frame(6, ATTACH));
    for (uint32_t i = 0; i < 8; i++)
        both(w, (Order){ .event = ON_ALLOCATE, .number = i });
    both(w, (Order){ .event = ON_TICK });
}

void same_life(Engine *first, Engine *second)
{
    Twins w = { first, second };
    Piece close = frame(0, CLOSE), waiting = frame(1, TRANSFER);
    both(&w, (Order){ .event = ON_SEND_HEADER });
    both_on_frame(&w, ON_RECEIVE_HEADER, hex(HEADER));
    both(&w, (Order){ .event = ON_ALLOCATE });
    both(&w, (Order){ .event = ON_SEND_OPEN });
    both_on_frame(&w, ON_INCOMING, frame(0, "005310 C0 04 01 A10168"));
    sessions_of_both(&w);
    Engine third = copy_of(first), fourth = copy_of(second);
    Twins copies = { &third, &fourth };
    both_on_frame(&copies, ON_INCOMING, frame(5, TRANSFER));
    both(&copies, (Order){ .event = ON_INCOMING, .input = of(&close), .waiting = of(&waiting) });
    drop_engine(&third);
    drop_engine(&fourth);
    both_on_frame(&w, ON_INCOMING, begin(4));
    both(&w, (Order){ .event = ON_DEALLOCATE, .number = 1 });
    both(&w, (Order){ .event = ON_END_OF_INPUT });
}

/* ---- States */

static void state_size(Tally *t, uint16_t channel_max, size_t len)
{
    size_t least = HISPROAT_STATE_SIZE(channel_max);
    uint8_t returned = len >= least ? 0 : 8;
    Slice state = lend_pattern(t, len), answer = lend_pattern(t, HISPROAT_STATUS_SIZE), id = lend(t, text("p1"));
    check(t, hisproat_dialler(state.at, state.len, id.at, id.len, 512, channel_max, 0, 0) == returned, "a dialler in a state of this size");
    check(t, hisproat_status(state.at, state.len, answer.at, answer.len) == returned, "the status of a state of this size");
    check(t, is_patterned(&answer, 0) == (returned != 0), "a refusal leaves the answer");
    check(t, hisproat_listener(state.at, state.len, id.at, id.len, 512, channel_max, 0, 0) == returned, "a listener in a state of this size");
    check(t, is_patterned(&state, 0) == (returned != 0), "a refusal leaves the state");
    check(t, returned != 0 || is_patterned(&state, least), "bytes past the tables are as they were");
    give_back(t, &state);
    give_back(t, &answer);
    give_back(t, &id);
}

static void state_sizes(Tally *t)
{
    static const uint16_t CHANNEL_MAX[] = { 0, 1, 7, 255, 256, 65535 };
    for (size_t i = 0; i < sizeof CHANNEL_MAX / sizeof CHANNEL_MAX[0]; i++) {
        size_t least = HISPROAT_STATE_SIZE(CHANNEL_MAX[i]);
        state_size(t, CHANNEL_MAX[i], least);
        state_size(t, CHANNEL_MAX[i], least - 1);
        state_size(t, CHANNEL_MAX[i], least + 1);
        state_size(t, CHANNEL_MAX[i], least + HISPROAT_PLACE_SIZE);
        state_size(t, CHANNEL_MAX[i], least - HISPROAT_PLACE_SIZE);
        state_size(t, CHANNEL_MAX[i], HISPROAT_FIXED_SIZE - 1);
        state_size(t, CHANNEL_MAX[i], 0);
    }
}

/* An engine's bytes, cut off, are refused by each event too, after a small answer or output. */
static void cut_off(Tally *t, const Engine *whole, size_t len)
{
    Engine other = { .tally = t, .state = lend(t, (Bytes){ whole->state.at, len }) };
    Piece header = hex(HEADER), transfer = frame(0, TRANSFER);
    for (int i = 0; i < EVENTS; i++) {
        Order order = any_order((Event)i, &header, &transfer);
        refused(&other, order, 8, "an event on a state that is too short");
        order.output_short = 1;
        refused(&other, order, writes((Event)i) ? 9 : 8, "a small output and a state that is too short");
        order.answer_short = 1;
        refused(&other, order, 9, "a small answer and a state that is too short");
    }
    drop_engine(&other);
}

static void cut_offs(Tally *t)
{
    static const size_t SHORTER[] = { 1, HISPROAT_PLACE_SIZE, 8 * HISPROAT_PLACE_SIZE, 8 * HISPROAT_PLACE_SIZE + 1 };
    Engine fresh = new_engine(t, 0, p1()), open = opened(t, 1);
    for (size_t i = 0; i < sizeof SHORTER / sizeof SHORTER[0]; i++) {
        cut_off(t, &fresh, fresh.state.len - SHORTER[i]);
        cut_off(t, &open, open.state.len - SHORTER[i]);
    }
    cut_off(t, &open, 0);
    drop_engine(&fresh);
    drop_engine(&open);
}

/* An engine in a longer state lives as one whose state has its size. perform() checks the bytes past the tables. */
static void longer_states(Tally *t)
{
    static const size_t MORE[] = { 1, HISPROAT_PLACE_SIZE - 1, HISPROAT_PLACE_SIZE, 1000 };
    for (size_t i = 0; i < sizeof MORE / sizeof MORE[0]; i++)
        for (int is_listener = 0; is_listener < 2; is_listener++) {
            Engine exact = new_engine(t, is_listener, p1());
            Engine longer = new_engine_in(t, lend_pattern(t, exact.state.len + MORE[i]), is_listener, p1());
            same_life(&exact, &longer);
            check(t, memcmp(exact.state.at, longer.state.at, exact.state.len) == 0, "a longer state has the same bytes");
            check(t, is_patterned(&longer.state, exact.state.len), "and what it has more is as it was");
            drop_engine(&exact);
            drop_engine(&longer);
        }
}

/* ---- Answers and outputs */

static void reader_sizes(Tally *t, size_t status_len, size_t handle_len, uint8_t returned)
{
    Engine e = new_engine(t, 0, p1());
    Slice answer = lend_pattern(t, status_len), at = lend_pattern(t, handle_len), tied = lend_pattern(t, handle_len);
    check(t, hisproat_status(e.state.at, e.state.len, answer.at, answer.len) == returned, "a status of this size");
    check(t, hisproat_handle_at(e.state.at, e.state.len, 0, at.at, at.len) == returned, "a handle of this size");
    check(t, hisproat_tied_handle(e.state.at, e.state.len, 0, tied.at, tied.len) == returned, "a tied handle of this size");
    check(t, is_patterned(&answer, returned ? 0 : HISPROAT_STATUS_SIZE), "the rest of a status is as it was");
    check(t, is_patterned(&at, returned ? 0 : HISPROAT_HANDLE_SIZE) && is_patterned(&tied, returned ? 0 : HISPROAT_HANDLE_SIZE), "and of a handle");
    uint8_t broken = returned ? returned : 8; /* 9 comes before 8 */
    check(t, hisproat_status(e.state.at, e.state.len - 1, answer.at, answer.len) == broken, "a status of a state that is too short");
    check(t, hisproat_handle_at(e.state.at, e.state.len - 1, 0, at.at, at.len) == broken, "a handle of a state that is too short");
    check(t, hisproat_tied_handle(e.state.at, e.state.len - 1, 0, tied.at, tied.len) == broken, "a tied handle of a state that is too short");
    e.state.at[0] ^= 1;
    check(t, hisproat_status(e.state.at, e.state.len, answer.at, answer.len) == broken, "a status of no engine");
    check(t, hisproat_handle_at(e.state.at, e.state.len, 0, at.at, at.len) == broken, "a handle of no engine");
    check(t, hisproat_tied_handle(e.state.at, e.state.len, 0, tied.at, tied.len) == broken, "a tied handle of no engine");
    give_back(t, &answer);
    give_back(t, &at);
    give_back(t, &tied);
    drop_engine(&e);
}

/* A larger answer, and a larger output, are taken; what stands behind is left. */
static void larger(Tally *t)
{
    Engine e = new_engine(t, 0, p1());
    Slice output = lend_pattern(t, HISPROAT_OUTPUT_ROOM + 100), answer = lend_pattern(t, HISPROAT_ANSWER_SIZE + 7);
    check(t, hisproat_send_header(e.state.at, e.state.len, output.at, output.len, answer.at, answer.len) == 0, "a header into larger slices");
    check(t, hisproat_written(answer.at) == 8 && is_patterned(&output, 8), "writes 8 bytes");
    check(t, is_patterned(&answer, HISPROAT_ANSWER_SIZE), "and 42 of the answer");
    give_back(t, &output);
    give_back(t, &answer);
    drop_engine(&e);
}

void sizes(Tally *t)
{
    t->part = "sizes";
    state_sizes(t);
    cut_offs(t);
    longer_states(t);
    reader_sizes(t, HISPROAT_STATUS_SIZE, HISPROAT_HANDLE_SIZE, 0);
    reader_sizes(t, HISPROAT_STATUS_SIZE + 1, HISPROAT_HANDLE_SIZE + 1, 0);
    reader_sizes(t, HISPROAT_STATUS_SIZE - 1, HISPROAT_HANDLE_SIZE - 1, 9);
    reader_sizes(t, 0, 0, 9);
    larger(t);
}
