/*
 * Each byte of the fixed part of a state altered, of engines of several kinds. `stands` (judge.c) says which fixed parts are an engine's, and hisproat_status must say the
 * same. Altered bytes that are still an engine's are driven on by a tick, which must leave a state that can be read. Of the tables no byte is judged.
 */
#include "rig.h"

#include "judge.h"

#include <stdio.h>
#include <string.h>

enum { CHANNEL_MAX = 7, SIZE = HISPROAT_STATE_SIZE(CHANNEL_MAX) };

/* ---- What is done with each altered state */

typedef struct {
    Tally *tally;
    Slice state;  /* altered */
    Slice driven; /* a copy that a tick changes */
    Slice status;
    Slice output;
    Slice answer;
} Bench;

static uint8_t read_status(Bench *b, const Slice *state)
{
    return hisproat_status(state->at, state->len, b->status.at, b->status.len);
}

/* A tick is done or refused for the phase, and leaves an engine. */
static int drives_on(Bench *b)
{
    memcpy(b->driven.at, b->state.at, b->state.len);
    uint8_t refused = hisproat_on_tick(b->driven.at, b->driven.len, b->output.at, b->output.len, b->answer.at, b->answer.len);
    int expected = refused == (b->state.at[AT_PHASE] == HISPROAT_PHASE_RUNNING ? 0 : 20);
    return expected && stands(b->driven.at, b->driven.len) && read_status(b, &b->driven) == 0;
}

/* Whether the altered state is read as `stands` has it, nothing else changes, and what is an engine can be driven on. */
static int is_judged(Bench *b)
{
    uint8_t state[SIZE], told[HISPROAT_STATUS_SIZE];
    int sound = stands(b->state.at, b->state.len);
    memcpy(state, b->state.at, sizeof state);
    memcpy(told, b->status.at, sizeof told);
    if (read_status(b, &b->state) != (sound ? 0 : 8) || memcmp(state, b->state.at, sizeof state) != 0)
        return 0;
    return sound ? drives_on(b) : memcmp(told, b->status.at, sizeof told) == 0;
}

static void try_value(Bench *b, const char *name, size_t place, uint8_t value)
{
    uint8_t before = b->state.at[place];
    char what[80] = "";
    b->state.at[place] = value;
    int good = is_judged(b);
    if (!good)
        snprintf(what, sizeof what, "%s, byte %zu is %u in the place of %u", name, place, value, before);
    check(b->tally, good, what);
    b->state.at[place] = before;
}

static void alter(Tally *t, const char *name, const Engine *engine, int all_values)
{
    static const uint8_t SOME[] = { 0, 1, 2, 14, 128, 255 };
    Bytes bytes = { .at = engine->state.at, .len = engine->state.len };
    Bench b = {
        .tally = t,
        .state = lend(t, bytes),
        .driven = lend(t, bytes),
        .status = lend_pattern(t, HISPROAT_STATUS_SIZE),
        .output = lend_pattern(t, HISPROAT_OUTPUT_ROOM),
        .answer = lend_pattern(t, HISPROAT_ANSWER_SIZE),
    };
    check(t, stands(b.state.at, b.state.len) && are_shared(b.state.at), "the bytes of an engine are those of an engine");
    for (size_t place = 0; place < b.state.len; place++) {
        if (place < AT_TABLES && all_values)
            for (unsigned value = 0; value < 256; value++)
                try_value(&b, name, place, (uint8_t)value);
        else
            for (size_t i = 0; i < sizeof SOME; i++)
                try_value(&b, name, place, SOME[i]);
    }
    check(t, memcmp(b.state.at, bytes.at, bytes.len) == 0, "each byte was put back");
    give_back(t, &b.state);
    give_back(t, &b.driven);
    give_back(t, &b.status);
    give_back(t, &b.output);
    give_back(t, &b.answer);
}

/* Two numbers of the fixed part altered together, or the four bytes that stand at a place. */
static void alter_both(Tally *t, const Engine *engine, size_t first, uint32_t value, size_t second, uint32_t other)
{
    Engine copy = copy_of(engine);
    Slice answer = lend_pattern(t, HISPROAT_STATUS_SIZE);
    put_fixed_number(copy.state.at, first, value);
    put_fixed_number(copy.state.at, second, other);
    int sound = stands(copy.state.at, copy.state.len);
    check(t, hisproat_status(copy.state.at, copy.state.len, answer.at, answer.len) == (sound ? 0 : 8), "two numbers altered together");
    check(t, sound || is_patterned(&answer, 0), "a refusal leaves the answer");
    give_back(t, &answer);
    drop_engine(&copy);
}

/* The counts against each other and the agreed channel-max, the limits against the settings, and a container-id of other lengths. */
static void pairs(Tally *t, const Engine *engine)
{
    static const size_t COUNTS[] = { AT_USED, AT_HEAD, AT_FREED, AT_AGREED_MAX, AT_CHANNEL_MAX };
    static const uint32_t VALUES[] = { 0, 1, 2, 5, 6, 7, 8, 9, 255, 256, 65535, 65536, 0xFFFFFFFF };
    static const uint32_t LIMITS[] = { 0, 511, 512, 513, 1024, 16383, 16384, 16385, 0x01000200, 0xFFFFFFFF };
    for (size_t i = 0; i < sizeof VALUES / sizeof VALUES[0]; i++)
        for (size_t j = 0; j < sizeof VALUES / sizeof VALUES[0]; j++)
            for (size_t k = 0; k < 25; k++)
                alter_both(t, engine, COUNTS[k / 5], VALUES[i], COUNTS[k % 5], VALUES[j]);
    for (size_t i = 0; i < sizeof LIMITS / sizeof LIMITS[0]; i++)
        for (size_t j = 0; j < sizeof LIMITS / sizeof LIMITS[0]; j++) {
            alter_both(t, engine, AT_READING_LIMIT, LIMITS[i], AT_MAX_FRAME_SIZE, LIMITS[j]);
            alter_both(t, engine, AT_READING_LIMIT, LIMITS[i], AT_WRITING_LIMIT, LIMITS[j]);
        }
    for (uint32_t value = 0; value < 256; value++) {
        alter_both(t, engine, AT_ID_LENGTH, 6, AT_ID + 2, value << 24 | value);
        alter_both(t, engine, AT_ID_LENGTH, 254 + value % 4, AT_ID + 252, value % 3 ? 0x41414141 : 0xE282ACC3);
    }
}

/* Phase and outcome, state and whether a channel-max is agreed stand one after the other: all of their numbers, and some beyond. */
static void phases(Tally *t, const Engine *engine)
{
    for (uint32_t phase = 0; phase < 5; phase++)
        for (uint32_t outcome = 0; outcome < 9; outcome++)
            for (uint32_t state = 0; state < 16; state++)
                for (uint32_t agreed = 0; agreed < 3; agreed++)
                    alter_both(t, engine, AT_PHASE, phase << 24 | outcome << 16 | state << 8 | agreed, AT_HEAD, 0);
}

/* ---- What the peer's Open settles: a channel-max is agreed exactly where it has come, and then the limits are those that it set */

static void judged(Tally *t, const Engine *engine, size_t place, uint8_t value, uint8_t returned, const char *what)
{
    Engine copy = copy_of(engine);
    uint8_t answer[HISPROAT_STATUS_SIZE];
    copy.state.at[place] = value;
    check(t, stands(copy.state.at, copy.state.len) == (returned == 0), what);
    check(t, hisproat_status(copy.state.at, copy.state.len, answer, sizeof answer) == returned, what);
    drop_engine(&copy);
}

/* A copy that has stopped because of a transport error, which can be in every state. */
static Engine failed(const Engine *engine)
{
    Engine copy = copy_of(engine);
    copy.state.at[AT_PHASE] = HISPROAT_PHASE_STOPPED;
    copy.state.at[AT_OUTCOME] = HISPROAT_OUTCOME_TRANSPORT_ERROR;
    return copy;
}

static void agreed(Tally *t, const Engine *fresh, const Engine *opened)
{
    static const uint8_t AFTER_OPEN[] = { HISPROAT_STATE_OPEN_RECEIVED, HISPROAT_STATE_OPENED, HISPROAT_STATE_CLOSE_SENT };
    static const uint8_t AFTER_EITHER[] = { HISPROAT_STATE_CLOSE_RECEIVED, HISPROAT_STATE_DISCARDING, HISPROAT_STATE_END };
    for (size_t i = 0; i < 3; i++) {
        judged(t, fresh, AT_STATE, AFTER_OPEN[i], 8, "nothing is agreed in a state that follows the peer's Open");
        judged(t, fresh, AT_STATE, AFTER_EITHER[i], 0, "nothing need be agreed where a Close or an error came first");
        judged(t, opened, AT_STATE, AFTER_EITHER[i], 0, "nor need it be absent");
        Engine over = copy_of(fresh);
        over.state.at[AT_STATE] = AFTER_EITHER[i];
        judged(t, &over, AT_WRITING_LIMIT + 3, 1, 8, "nothing is agreed, and the writing limit is 513");
        judged(t, &over, AT_READING_LIMIT + 2, 16, 8, "nothing is agreed, and the reading limit is the setting, 4096");
        judged(t, &over, AT_USED + 3, 1, 8, "nothing is agreed, and a channel is taken");
        judged(t, &over, AT_AGREED_MAX + 1, 7, 8, "nothing is agreed, and there is an agreed channel-max");
        drop_engine(&over);
    }
    judged(t, opened, AT_STATE, HISPROAT_STATE_CLOSE_SENT, 0, "a Close was sent after the Opens");
    judged(t, opened, AT_STATE, HISPROAT_STATE_OPEN_SENT, 8, "something is agreed before the peer's Open");
    judged(t, opened, AT_STATE, HISPROAT_STATE_OPEN_RECEIVED, 0, "the peer's Open has come, and this side's has not");
    judged(t, opened, AT_CHANNEL_MAX + 1, 6, 8, "an agreed channel-max above the local one");
    judged(t, opened, AT_CHANNEL_MAX + 1, 8, 8, "tables that are a place too short");
    judged(t, opened, AT_VERSION + 3, '1', 8, "the layout before this one");
    judged(t, opened, AT_READING_LIMIT + 2, 2, 8, "something is agreed, and the reading limit is 512, where the setting is 16384");
    judged(t, opened, AT_WRITING_LIMIT + 2, 2, 0, "something is agreed, and the writing limit is 512");
}

/* ---- The engines: new; opened, with a container-id that is not ASCII, taken channels, ties and freed channels out of order; awaiting; stopped */

static Engine busy(Tally *t)
{
    Settings settings = { .container_id = "h\xC3\xBC" "b", .max_frame_size = 16384, .channel_max = CHANNEL_MAX, .has_idle_time_out = 1, .idle_time_out = 30000 };
    Piece peer_open = frame(0, "005310 C0 04 01 A10168"), begin_5 = begin(5), begin_7 = begin(7);
    Engine e = new_engine(t, 1, settings);
    open_with(&e, of(&peer_open));
    for (uint32_t i = 0; i < 4; i++)
        allocate(&e, 0xA0000000 + i);
    deallocate(&e, 2);
    deallocate(&e, 0);
    incoming(&e, of(&begin_5), 0xFFFFFFFF);
    incoming(&e, of(&begin_7), 0);
    deallocate(&e, 1);
    deallocate(&e, 3);
    return e;
}

void state_bytes(Tally *t, int all)
{
    Piece close = frame(0, CLOSE);
    t->part = "state bytes";
    Engine fresh = new_engine(t, 0, p1()), open = busy(t), late = busy(t), over = busy(t);
    not_delivered(&late, 1);
    incoming(&over, of(&close), 0);
    alter(t, "new", &fresh, all);
    alter(t, "opened", &open, all);
    alter(t, "awaiting", &late, all);
    alter(t, "stopped", &over, all);
    pairs(t, &open);
    pairs(t, &fresh);
    phases(t, &open);
    phases(t, &fresh);
    Engine fresh_failed = failed(&fresh), open_failed = failed(&open);
    agreed(t, &fresh_failed, &open_failed);
    judged(t, &open, AT_STATE, HISPROAT_STATE_CLOSE_RECEIVED, 8, "a running engine in CloseReceived");
    judged(t, &late, AT_STATE, HISPROAT_STATE_OPENED, 8, "the peer's Close is awaited in Opened");
    judged(t, &over, AT_STATE, HISPROAT_STATE_CLOSE_SENT, 8, "closed by the peer, and its Close is still to come");
    drop_engine(&fresh_failed);
    drop_engine(&open_failed);
    drop_engine(&fresh);
    drop_engine(&open);
    drop_engine(&late);
    drop_engine(&over);
}
