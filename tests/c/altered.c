/*
 * Tables that are altered between calls. Little is promised of them, and that is what is checked. Each call is made twice, with its slices right before and right behind pages that
 * cannot be touched. It ends; both give the same; a refusal changes no lent byte; else the fixed part is an engine's, with the same settings, and bytes past the tables are as they
 * were. The readers tell what the bytes say, whoever wrote them.
 */
#include "rig.h"

#include "fence.h"
#include "judge.h"

#include <stdio.h>
#include <stdlib.h>
#include <string.h>

enum { CHANNEL_MAX = 7, AGREED_MAX = 5, MORE = 37, MOST_ORDERS = 96 }; /* MORE: bytes past the tables */

/* ---- A call on altered bytes, made twice */

typedef struct {
    Tally *tally;
    char name[96];  /* what is altered */
    uint8_t *state; /* with the alteration */
    uint8_t *after; /* what the last call left */
    size_t len;
    unsigned stride; /* one of so many orders is tried after an alteration, */
    unsigned turn;   /* the next one after the next alteration */
} Bench;

static Slice lend_copy(unsigned slot, int second, Bytes bytes)
{
    Slice slice = { .at = fenced(slot + (second ? 6 : 0), bytes.len, second), .len = bytes.len };
    if (bytes.len > 0)
        memcpy(slice.at, bytes.at, bytes.len);
    return slice;
}

/* What output and answer have before a call: other bytes in the second one. */
static Bytes old_bytes(int second, size_t len)
{
    static uint8_t olds[2][HISPROAT_OUTPUT_ROOM + 4096];
    if (len > sizeof olds[0])
        exit(2);
    if (olds[second][0] == 0)
        memset(olds[second], second ? 0xA5 : 0x3C, sizeof olds[second]);
    return (Bytes){ olds[second], len };
}

static Lent lend_for(const Bench *b, const Order *order, int second)
{
    return (Lent){
        .state = lend_copy(0, second, (Bytes){ b->state, b->len }),
        .input = lend_copy(1, second, order->input),
        .description = lend_copy(2, second, order->description),
        .waiting = lend_copy(3, second, order->waiting),
        .output = lend_copy(4, second, old_bytes(second, hisproat_room(order->waiting.len))),
        .answer = lend_copy(5, second, old_bytes(second, HISPROAT_ANSWER_SIZE)),
    };
}

static int is_old(const Slice *slice, size_t from, int second)
{
    return memcmp(slice->at + from, old_bytes(second, slice->len - from).at, slice->len - from) == 0;
}

static int are_inputs(const Order *order, const Lent *l)
{
    return same((Bytes){ l->input.at, l->input.len }, order->input) && same((Bytes){ l->description.at, l->description.len }, order->description)
        && same((Bytes){ l->waiting.at, l->waiting.len }, order->waiting);
}

/* What is wrong with a call, or NULL. */
static const char *wrong_with(const Bench *b, const Order *order, const Lent *l, uint8_t returned, int second)
{
    const uint8_t *s = l->state.at;
    size_t end = needed(b->state, b->len), written = returned ? 0 : hisproat_written(l->answer.at);
    if (!are_inputs(order, l))
        return "an input is changed";
    if (written > l->output.len || !is_old(&l->output, written, second))
        return "the output is changed beyond what was written";
    if (returned != 0)
        return memcmp(s, b->state, b->len) == 0 && is_old(&l->answer, 0, second) ? NULL : "a refusal changes state or answer";
    if (!stands(s, l->state.len))
        return "what is left is no engine";
    if (memcmp(s, b->state, AT_MOVING) != 0 || memcmp(s + AT_ID_LENGTH, b->state + AT_ID_LENGTH, AT_TABLES - AT_ID_LENGTH) != 0)
        return "settings are changed";
    if (memcmp(s + end, b->state + end, b->len - end) != 0)
        return "bytes past the tables are changed";
    return l->answer.at[HISPROAT_AT_STOPPED] == (s[AT_PHASE] == HISPROAT_PHASE_STOPPED) ? NULL : "answer and state differ about the stop";
}

static const char *unlike(const Lent *x, const Lent *y, uint8_t first, uint8_t second)
{
    if (first != second || memcmp(x->state.at, y->state.at, x->state.len) != 0)
        return "the same call returns another number, or leaves other bytes";
    if (first == 0 && (memcmp(x->answer.at, y->answer.at, x->answer.len) != 0 || memcmp(x->output.at, y->output.at, hisproat_written(x->answer.at)) != 0))
        return "the same call answers otherwise";
    return NULL;
}

/* The number that the call returns. What it leaves is in `after`. */
static uint8_t tried(Bench *b, const Order *order)
{
    Lent x = lend_for(b, order, 0), y = lend_for(b, order, 1);
    uint8_t first = call_event(order, &x), second = call_event(order, &y);
    const char *wrong = unlike(&x, &y, first, second);
    char what[256] = "";
    wrong = wrong ? wrong : wrong_with(b, order, &x, first, 0);
    wrong = wrong ? wrong : wrong_with(b, order, &y, second, 1);
    if (wrong)
        snprintf(what, sizeof what, "%s; event %d, number %u, a frame of %zu bytes: %s", b->name, order->event, order->number, order->input.len, wrong);
    check(b->tally, wrong == NULL, what);
    memcpy(b->after, x.state.at, b->len);
    return first;
}

/* ---- What is tried on each altered state */

typedef struct {
    Order orders[MOST_ORDERS];
    Piece pieces[MOST_ORDERS];
    size_t count;
} Orders;

static void add_order(Orders *o, Event event, Piece input, uint32_t number)
{
    o->pieces[o->count] = input;
    o->orders[o->count] = (Order){ .event = event, .input = of(&o->pieces[o->count]), .description = none(), .waiting = none(), .number = number };
    o->count += 1;
}

static const Orders *all_orders(void)
{
    static Orders o;
    static Piece waiting;
    Piece nothing = { .len = 0 };
    if (o.count > 0)
        return &o;
    waiting = joined(begin_for(1, 2), frame(3, TRANSFER));
    for (uint16_t k = 0; k <= CHANNEL_MAX + 1; k++) {
        add_order(&o, ON_DEALLOCATE, nothing, k);
        add_order(&o, ON_INCOMING, frame(k, k & 1 ? TRANSFER : ATTACH), 90);
        add_order(&o, ON_INCOMING, frame(k, END), 90);
        add_order(&o, ON_INCOMING, begin_for(6, k), 91);
        add_order(&o, ON_INCOMING, begin(k), 92);
        add_order(&o, ON_OUTGOING, begin_for(k, 4), 0);
        add_order(&o, ON_OUTGOING, begin_for(2, k), 0);
    }
    add_order(&o, ON_DEALLOCATE, nothing, 65535);
    add_order(&o, ON_INCOMING, frame(65535, TRANSFER), 90);
    add_order(&o, ON_INCOMING, begin_for(65535, 65535), 91);
    add_order(&o, ON_OUTGOING, begin_for(65535, 65535), 0);
    add_order(&o, ON_ALLOCATE, nothing, 93);
    add_order(&o, ON_OUTGOING, frame(2, TRANSFER), 0);
    add_order(&o, ON_INCOMING, frame(0, OPEN_OF_H), 0);
    add_order(&o, ON_INCOMING, frame(0, CLOSE), 0);
    add_order(&o, ON_CLOSE, nothing, 0);
    o.orders[o.count - 1].waiting = of(&waiting);
    o.orders[o.count - 2].waiting = of(&waiting);
    add_order(&o, ON_CLOSE_WITH_ERROR, hex("613A62"), 0);
    add_order(&o, ON_TICK, nothing, 0);
    add_order(&o, ON_END_OF_INPUT, nothing, 0);
    add_order(&o, ON_NOT_DELIVERED, nothing, 0);
    return &o;
}

static int tells(const uint8_t *answer, int64_t handle)
{
    return answer[HISPROAT_HANDLE_AT_FOUND] == (handle >= 0) && hisproat_number(answer + HISPROAT_HANDLE_AT_NUMBER, 4) == (handle >= 0 ? (uint64_t)handle : 0);
}

/* The readers tell what the bytes say, or refuse them with 8. */
static void read_by_all(Bench *b)
{
    static const uint16_t CHANNELS[] = { 0, 1, 2, 3, 4, 5, 6, 7, 8, 255, 256, 65534, 65535 };
    uint8_t *s = lend_copy(0, 0, (Bytes){ b->state, b->len }).at, told[HISPROAT_STATUS_SIZE], at[HISPROAT_HANDLE_SIZE], tied[HISPROAT_HANDLE_SIZE];
    int sound = stands(s, b->len), good = hisproat_status(s, b->len, told, sizeof told) == (sound ? 0 : 8);
    if (sound)
        good = good && hisproat_number(told + HISPROAT_STATUS_AT_TAKEN, 4) == fixed_number(s, AT_USED) - fixed_number(s, AT_FREED);
    for (size_t i = 0; i < sizeof CHANNELS / sizeof CHANNELS[0]; i++) {
        uint16_t k = CHANNELS[i];
        good = good && hisproat_handle_at(s, b->len, k, at, sizeof at) == (sound ? 0 : 8) && hisproat_tied_handle(s, b->len, k, tied, sizeof tied) == (sound ? 0 : 8);
        good = good && (!sound || (tells(at, taken_by(s, k)) && tells(tied, tied_to(s, k))));
    }
    check(b->tally, good && memcmp(s, b->state, b->len) == 0, good ? "a reader changes the state" : b->name);
}

/* Each order on the altered state, and then some of them one after the other. */
static void drive(Bench *b)
{
    const Orders *o = all_orders();
    uint8_t *altered = b->state;
    int sound = stands(altered, b->len);
    read_by_all(b);
    for (size_t i = b->turn++ % b->stride; i < o->count; i += b->stride)
        if (tried(b, &o->orders[i]) != 8 && !sound)
            check(b->tally, 0, "a fixed part that is no engine's is taken");
    if (!sound)
        return;
    b->state = b->after;
    memcpy(b->after, altered, b->len);
    for (unsigned i = 0; i < 40 / b->stride; i++) {
        Order allocates = { .event = ON_ALLOCATE, .input = none(), .description = none(), .waiting = none(), .number = i };
        Order frees = allocates;
        frees.event = ON_DEALLOCATE;
        frees.number = i * 5 % (CHANNEL_MAX + 1);
        tried(b, i / 10 % 2 ? &frees : &allocates);
    }
    read_by_all(b);
    b->state = altered;
}

/* ---- Alterations */

/* A copy of an engine's state, with bytes behind its tables, on which alterations are tried. These bytes look like the place of one more channel, which is tied through
 * channel 1, so that whoever goes on there would write there too. */
static Bench bench_of(Tally *t, const Engine *engine, unsigned stride)
{
    size_t len = engine->state.len + MORE;
    Bench b = { .tally = t, .name = "unaltered", .state = malloc(len), .after = malloc(len), .len = len, .stride = stride };
    if (b.state == NULL || b.after == NULL)
        exit(2);
    memcpy(b.state, engine->state.at, engine->state.len);
    memset(b.state + engine->state.len, 0x77, MORE);
    put_field(b.state, fixed_number(b.state, AT_CHANNEL_MAX) + 1, TIED_THROUGH, 2);
    put_field(b.state, fixed_number(b.state, AT_CHANNEL_MAX) + 1, NEXT, 1);
    return b;
}

static void end_bench(Bench *b)
{
    free(b->state);
    free(b->after);
}

/* Numbers about the limits of a channel, a link and a count. In a list of ties CHANNEL_MAX + 1 is the last channel, and CHANNEL_MAX + 2 the place behind the tables. */
static const uint32_t VALUES[] = { 0, 1, 3, AGREED_MAX, AGREED_MAX + 1, CHANNEL_MAX, CHANNEL_MAX + 1, CHANNEL_MAX + 2, 65535, 65536, 65537, 0x80000000, 0xFFFFFFFF };

enum { VALUE_COUNT = sizeof VALUES / sizeof VALUES[0] };

static void one_field(Bench *b, uint32_t channel, unsigned field)
{
    uint32_t before = field_of(b->state, channel, field);
    for (size_t i = 0; i < VALUE_COUNT; i++) {
        snprintf(b->name, sizeof b->name, "field %u of channel %u is %u", field, channel, VALUES[i]);
        put_field(b->state, channel, field, VALUES[i]);
        drive(b);
    }
    put_field(b->state, channel, field, before);
}

/* A number of the fixed part, at its limits and beyond; and then all links altered besides. */
static void one_number(Bench *b, size_t at, const char *name)
{
    uint8_t kept[HISPROAT_STATE_SIZE(CHANNEL_MAX)];
    memcpy(kept, b->state, sizeof kept);
    for (size_t i = 0; i < VALUE_COUNT; i++)
        for (size_t j = 0; j <= VALUE_COUNT; j++) {
            put_fixed_number(b->state, at, VALUES[i]);
            for (uint32_t k = 0; j > 0 && k <= CHANNEL_MAX; k++)
                put_field(b->state, k, LINK, VALUES[j - 1]);
            snprintf(b->name, sizeof b->name, "%s is %u, links %zu", name, VALUES[i], j);
            drive(b);
            memcpy(b->state, kept, sizeof kept);
        }
}

/* Links that lead round in circles of each length, with each number of freed channels. */
static void circles(Bench *b)
{
    uint8_t kept[HISPROAT_STATE_SIZE(CHANNEL_MAX)];
    memcpy(kept, b->state, sizeof kept);
    for (uint32_t length = 1; length <= AGREED_MAX + 1; length++)
        for (uint32_t freed = 0; freed <= AGREED_MAX + 2; freed++)
            for (uint32_t head = 0; head <= AGREED_MAX + 1; head++) {
                for (uint32_t k = 0; k <= AGREED_MAX; k++)
                    put_field(b->state, k, LINK, (k + 1) % length);
                put_fixed_number(b->state, AT_USED, AGREED_MAX + 1);
                put_fixed_number(b->state, AT_HEAD, head);
                put_fixed_number(b->state, AT_FREED, freed);
                snprintf(b->name, sizeof b->name, "a circle of %u links from %u on, %u freed", length, head, freed);
                drive(b);
            }
    memcpy(b->state, kept, sizeof kept);
}

/* Every channel is tied through channel 1, and the list of channel 1 has so many of them, linked in a circle. One thing is altered besides: where the list begins, where it leads
 * to at its end, what comes before a channel, or through which channel some of them are tied. */
static void tie_lists(Bench *b)
{
    static const char *const ALTERED[] = { "begins with", "ends with", "leads back to", "has a tie through" };
    uint8_t kept[HISPROAT_STATE_SIZE(CHANNEL_MAX)];
    memcpy(kept, b->state, sizeof kept);
    for (uint32_t length = 1; length <= CHANNEL_MAX + 1; length++)
        for (unsigned what = 0; what < 4; what++)
            for (size_t i = 0; i < VALUE_COUNT; i++) {
                for (uint32_t k = 0; k <= CHANNEL_MAX; k++) {
                    put_field(b->state, k, TIED_THROUGH, what == 3 && k % 3 == 1 ? VALUES[i] : 2);
                    put_field(b->state, k, NEXT, (k + 1) % length + 1);
                    put_field(b->state, k, PREVIOUS, what == 2 ? VALUES[i] : (k + length - 1) % length + 1);
                }
                put_field(b->state, 1, FIRST, what == 0 ? VALUES[i] : 1);
                if (what == 1)
                    put_field(b->state, length - 1, NEXT, VALUES[i]);
                snprintf(b->name, sizeof b->name, "a list of ties, a circle of %u, %s %u", length, ALTERED[what], VALUES[i]);
                drive(b);
            }
    memcpy(b->state, kept, sizeof kept);
}

static void alter_all(Tally *t, const Engine *engine, unsigned stride)
{
    Bench b = bench_of(t, engine, stride);
    drive(&b);
    for (uint32_t channel = 0; channel <= CHANNEL_MAX; channel++)
        for (unsigned field = 0; field < FIELDS; field++)
            one_field(&b, channel, field);
    one_number(&b, AT_USED, "used");
    one_number(&b, AT_HEAD, "head");
    one_number(&b, AT_FREED, "freed");
    one_number(&b, AT_AGREED_MAX, "the agreed channel-max");
    circles(&b);
    tie_lists(&b);
    check(t, memcmp(b.state, engine->state.at, engine->state.len) == 0, "each alteration was put back");
    end_bench(&b);
}

/* ---- The engines: channel-max 7, agreed 5; taken channels, three ties through one of them and one through another, and freed channels out of order */

static Engine busy(Tally *t, int is_listener)
{
    static const uint16_t TIES[][2] = { { 6, 1 }, { 7, 1 }, { 5, 4 }, { 2, 1 } };
    Piece peer_open = frame(0, "005310 C0 09 04 A10168 40 40 600005");
    Engine e = new_engine(t, is_listener, p1());
    open_with(&e, of(&peer_open));
    for (uint32_t i = 0; i < 5; i++)
        allocate(&e, 0xA0000000 + i);
    for (size_t i = 0; i < sizeof TIES / sizeof TIES[0]; i++) {
        Piece begins = begin_for(TIES[i][0], TIES[i][1]);
        incoming(&e, of(&begins), 0);
    }
    deallocate(&e, 2);
    deallocate(&e, 0);
    deallocate(&e, 3);
    check(t, are_shared(e.state.at) && are_tied(e.state.at) && status(&e).channel_max == AGREED_MAX && status(&e).taken == 2, "an engine to be altered");
    check(t, tied_through(e.state.at, 2) == 1 && tied_through(e.state.at, 5) == 4 && field_of(e.state.at, 1, FIRST) == 3, "with ties");
    return e;
}

/* The same with 65,536 channels, at their far end. */
static void alter_large(Tally *t, unsigned stride)
{
    static const uint32_t TOP[] = { 0, 65534, 65535, 65536, 65537, 0xFFFFFFFF };
    Settings settings = p1();
    settings.channel_max = 65535;
    Engine e = new_engine(t, 1, settings);
    Piece peer_open = frame(0, "005310 C0 04 01 A10168");
    open_with(&e, of(&peer_open));
    Bench b = bench_of(t, &e, stride);
    for (size_t i = 0; i < 6; i++)
        for (size_t j = 0; j < 6; j++) {
            put_fixed_number(b.state, AT_USED, i % 2 ? 65536 : 65535);
            put_fixed_number(b.state, AT_FREED, j % 2 ? 65535 : 2);
            put_fixed_number(b.state, AT_HEAD, TOP[j]);
            put_field(b.state, 65535, LINK, TOP[i]);
            put_field(b.state, 65534, LINK, TOP[(i + j) % 6]);
            put_field(b.state, 0, LINK, 65535);
            put_field(b.state, 1, LINK, TAKEN_LINK);
            put_field(b.state, 1, FIRST, TOP[j]);
            put_field(b.state, 65535, TIED_THROUGH, i % 2 ? 2 : TOP[j]);
            put_field(b.state, 65535, NEXT, TOP[i]);
            put_field(b.state, 65535, PREVIOUS, TOP[(i + j) % 6]);
            snprintf(b.name, sizeof b.name, "65,536 channels: head %u, links %u and %u", TOP[j], TOP[i], TOP[(i + j) % 6]);
            drive(&b);
        }
    /* all of them in the list of channel 1, which has no end */
    for (uint32_t k = 0; k < MOST_CHANNELS; k++) {
        put_field(b.state, k, TIED_THROUGH, 2);
        put_field(b.state, k, NEXT, (k + 1) % MOST_CHANNELS + 1);
        put_field(b.state, k, PREVIOUS, (k + MOST_CHANNELS - 1) % MOST_CHANNELS + 1);
    }
    put_field(b.state, 1, LINK, TAKEN_LINK);
    put_field(b.state, 1, FIRST, 2);
    put_fixed_number(b.state, AT_USED, 65536);
    put_fixed_number(b.state, AT_FREED, 0);
    put_fixed_number(b.state, AT_HEAD, 0);
    Order frees = { .event = ON_DEALLOCATE, .input = none(), .description = none(), .waiting = none(), .number = 1 };
    snprintf(b.name, sizeof b.name, "65,536 ties in a circle");
    check(t, tried(&b, &frees) == 0 && tied_to(b.after, 65535) == -1 && tied_to(b.after, 0) == -1, "the walk along a circle of 65,536 ties ends, and has dropped them");
    end_bench(&b);
    drop_engine(&e);
}

void altered_tables(Tally *t, int all)
{
    unsigned stride = all ? 1 : 36;
    t->part = "altered tables";
    Engine listener = busy(t, 1), dialler = busy(t, 0), closing = busy(t, 1), new = new_engine(t, 1, p1());
    close_order(&closing, none());
    alter_all(t, &listener, stride);
    alter_all(t, &dialler, stride);
    alter_all(t, &closing, all ? 5 : 36);
    alter_all(t, &new, all ? 5 : 36);
    alter_large(t, all ? 7 : 24);
    drop_engine(&listener);
    drop_engine(&dialler);
    drop_engine(&closing);
    drop_engine(&new);
}
