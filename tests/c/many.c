/*
 * Connections with 65,536 channels: each is taken, begun, used in both directions, ended and freed, in another order each time, and the order in which they are handed out
 * is compared with a plain list. Then every incoming channel is tied through one outgoing channel, and through as many, and the ties are dropped. The states have 1.8 MB, so a
 * call's bytes are not compared as a whole; the tables are looked through now and then.
 */
#include "rig.h"

#include "judge.h"

#include <stdlib.h>
#include <string.h>

enum { TOP = 65535, COUNT = TOP + 1, PAD_HANDLE = 0x10000000, HUB_HANDLE = 0x20000000 };

typedef struct {
    Tally *tally;
    uint8_t *state;
    size_t len;
    uint8_t output[HISPROAT_OUTPUT_ROOM];
    uint8_t answer[HISPROAT_ANSWER_SIZE];
    /* the model: the channels to be handed out, the next one last */
    uint32_t free[COUNT];
    uint32_t free_count;
    unsigned long wrong;
} End;

/* A fault is told once for each kind; there may be tens of thousands. */
static void need(End *e, int holds, const char *what)
{
    if (holds)
        e->tally->checks += 1;
    else if (e->wrong++ < 5)
        check(e->tally, 0, what);
}

/* Another order of the channels: an odd factor, so that each occurs once. */
static uint16_t mixed(uint32_t i, uint32_t factor)
{
    return (uint16_t)(i * factor + 12345);
}

/* ---- Calls */

static uint8_t kind_of(const End *e)
{
    return e->answer[HISPROAT_AT_KIND];
}

static void came(End *e, Piece piece, uint32_t spare, uint8_t kind, uint32_t handle, const char *what)
{
    uint8_t refused = hisproat_on_incoming(e->state, e->len, piece.at, piece.len, spare, piece.at, 0, e->output, sizeof e->output, e->answer, sizeof e->answer);
    need(e, refused == 0 && kind_of(e) == kind && hisproat_handle(e->answer) == handle && hisproat_written(e->answer) == 0, what);
}

static void goes(End *e, Piece piece, const char *what)
{
    uint8_t refused = hisproat_on_outgoing(e->state, e->len, piece.at, piece.len, e->output, sizeof e->output, e->answer, sizeof e->answer);
    need(e, refused == 0 && kind_of(e) == HISPROAT_KIND_WROTE && hisproat_written(e->answer) == piece.len && memcmp(e->output, piece.at, piece.len) == 0, what);
}

static uint16_t takes(End *e, uint32_t handle)
{
    uint8_t refused = hisproat_on_allocate(e->state, e->len, handle, e->answer, sizeof e->answer);
    uint16_t channel = hisproat_channel(e->answer);
    if (e->free_count == 0) {
        need(e, refused == HISPROAT_REFUSED_NO_CHANNEL_LEFT, "there is no channel left");
        return channel;
    }
    e->free_count -= 1;
    need(e, refused == 0 && kind_of(e) == HISPROAT_KIND_CHANNEL && channel == e->free[e->free_count], "the next channel of the list");
    return channel;
}

static void frees(End *e, uint16_t channel, uint32_t handle)
{
    uint8_t refused = hisproat_on_deallocate(e->state, e->len, channel, e->answer, sizeof e->answer);
    need(e, refused == 0 && kind_of(e) == HISPROAT_KIND_FREED && hisproat_handle(e->answer) == handle, "a channel is freed");
    if (e->free_count < COUNT)
        e->free[e->free_count++] = channel;
}

static int64_t handle_by(End *e, int is_tie, uint16_t channel)
{
    uint8_t found[HISPROAT_HANDLE_SIZE];
    uint8_t refused = (is_tie ? hisproat_tied_handle : hisproat_handle_at)(e->state, e->len, channel, found, sizeof found);
    need(e, refused == 0, "a handle is looked up");
    return found[HISPROAT_HANDLE_AT_FOUND] ? (int64_t)hisproat_number(found + HISPROAT_HANDLE_AT_NUMBER, 4) : -1;
}

/* The tables are whole, and so many channels are taken. */
static void stands_with(End *e, uint32_t taken, const char *what)
{
    uint8_t told[HISPROAT_STATUS_SIZE];
    uint8_t refused = hisproat_status(e->state, e->len, told, sizeof told);
    need(e, refused == 0 && hisproat_number(told + HISPROAT_STATUS_AT_TAKEN, 4) == taken && hisproat_number(told + HISPROAT_STATUS_AT_CHANNEL_MAX, 2) == TOP, what);
    need(e, stands(e->state, e->len) && are_shared(e->state) && e->free_count == COUNT - taken, "free and taken channels are together all, each once");
    need(e, are_tied(e->state), "each tie stands in the list of its channel");
}

/* ---- Two ends that know each other */

static End *new_end(Tally *t, int is_listener)
{
    End *e = calloc(1, sizeof *e);
    Piece header = hex(HEADER), open = frame(0, "005310 C0 04 01 A10168");
    if (e == NULL || (e->state = malloc(HISPROAT_STATE_SIZE(TOP))) == NULL)
        exit(2);
    e->tally = t;
    e->len = HISPROAT_STATE_SIZE(TOP);
    memset(e->state, 0x5A, e->len);
    uint8_t refused = (is_listener ? hisproat_listener : hisproat_dialler)(e->state, e->len, header.at, 4, 4096, TOP, 0, 0);
    refused |= hisproat_send_header(e->state, e->len, e->output, sizeof e->output, e->answer, sizeof e->answer);
    refused |= hisproat_receive_header(e->state, e->len, header.at, header.len, e->answer, sizeof e->answer);
    refused |= hisproat_send_open(e->state, e->len, e->output, sizeof e->output, e->answer, sizeof e->answer);
    need(e, refused == 0, "an end is made");
    came(e, open, 0, HISPROAT_KIND_OPENED, 0, "and opened");
    for (uint32_t i = 0; i < COUNT; i++)
        e->free[i] = TOP - i;
    e->free_count = COUNT;
    return e;
}

/* The engine goes to another place in memory, and its old bytes are overwritten. */
static void move(End *e)
{
    uint8_t *elsewhere = malloc(e->len);
    if (elsewhere == NULL)
        exit(2);
    memcpy(elsewhere, e->state, e->len);
    memset(e->state, 0xEE, e->len);
    free(e->state);
    e->state = elsewhere;
}

static void drop_end(End *e)
{
    free(e->state);
    free(e);
}

/* ---- The life of the connection. With a step, only some of the sessions are begun and used; the first and the last always are. */

/* The pad takes all its channels, and begins a session on each, in another order. The hub gives them its channels in the order in which they come. */
static void begin_all(End *pad, End *hub, uint32_t step)
{
    for (uint32_t i = 0; i < COUNT; i++)
        need(pad, takes(pad, PAD_HANDLE + i) == i, "channels are handed out from 0 on");
    takes(pad, 1);
    stands_with(pad, COUNT, "the pad has taken all");
    for (uint32_t i = 0; i < COUNT; i++) {
        uint16_t from = mixed(i, 40503);
        if (i % step != 0 && from != TOP && i != TOP) {
            takes(hub, HUB_HANDLE + i);
            continue;
        }
        goes(pad, begin(from), "the pad's Begin");
        came(hub, begin(from), HUB_HANDLE + i, HISPROAT_KIND_BEGAN, HUB_HANDLE + i, "comes to the hub");
        hub->free_count -= 1;
        need(hub, hisproat_channel(hub->answer) == i && hub->free[hub->free_count] == i, "which takes the next channel for it");
        goes(hub, begin_for((uint16_t)i, from), "the hub's Begin");
        came(pad, begin_for((uint16_t)i, from), 0, HISPROAT_KIND_FORWARD, PAD_HANDLE + from, "comes to the session that it answers");
    }
    stands_with(hub, COUNT, "the hub has taken all");
    takes(hub, 1);
}

/* A Transfer of each session in each direction, in yet another order. */
static void use_all(End *pad, End *hub, uint32_t step)
{
    for (uint32_t n = 0; n < COUNT; n++) {
        uint32_t i = mixed(n, 30001);
        uint16_t from = mixed(i, 40503);
        if (i % step != 0 && from != TOP && i != TOP)
            continue;
        goes(pad, frame(from, TRANSFER), "a Transfer of the pad");
        came(hub, frame(from, TRANSFER), 0, HISPROAT_KIND_FORWARD, HUB_HANDLE + i, "reaches the hub's session");
        goes(hub, frame((uint16_t)i, TRANSFER), "a Transfer of the hub");
        came(pad, frame((uint16_t)i, TRANSFER), 0, HISPROAT_KIND_FORWARD, PAD_HANDLE + from, "reaches the pad's session");
        need(hub, handle_by(hub, 1, from) == HUB_HANDLE + i && handle_by(hub, 0, (uint16_t)i) == HUB_HANDLE + i, "the hub's handles");
        need(pad, handle_by(pad, 1, (uint16_t)i) == PAD_HANDLE + from && handle_by(pad, 0, from) == PAD_HANDLE + from, "the pad's handles");
    }
}

/* Ends of each session in both directions; then its channels are free. */
static void end_all(End *pad, End *hub, uint32_t step)
{
    for (uint32_t n = 0; n < COUNT; n++) {
        uint32_t i = mixed(n, 51217);
        uint16_t from = mixed(i, 40503);
        int begun = i % step == 0 || from == TOP || i == TOP;
        if (begun) {
            goes(pad, frame(from, END), "an End of the pad");
            came(hub, frame(from, END), 0, HISPROAT_KIND_FORWARD, HUB_HANDLE + i, "reaches the hub's session");
            need(hub, handle_by(hub, 1, from) == -1, "and unties its channel");
        }
        if (begun) {
            goes(hub, frame((uint16_t)i, END), "an End of the hub");
            came(pad, frame((uint16_t)i, END), 0, HISPROAT_KIND_FORWARD, PAD_HANDLE + from, "reaches the pad's session");
        }
        frees(hub, (uint16_t)i, HUB_HANDLE + i);
        frees(pad, from, PAD_HANDLE + from);
        if (n % 8192 == 4321) {
            stands_with(pad, TOP - n, "so many of the pad's channels are taken");
            stands_with(hub, TOP - n, "so many of the hub's channels are taken");
        }
    }
    stands_with(pad, 0, "the pad has no channel taken");
    stands_with(hub, 0, "the hub has no channel taken");
}

/* Channels are taken and freed in turns; the list of the model tells which one is next. */
static void take_again(End *e)
{
    for (uint32_t n = 0; n < COUNT; n++) {
        uint16_t channel = takes(e, n);
        if (n % 3 == 1)
            frees(e, channel, n);
    }
    stands_with(e, COUNT - (COUNT + 1) / 3, "two thirds are taken");
    while (e->free_count > 0)
        takes(e, 5);
    takes(e, 6);
}

/* A channel above all that are tied, and a session when no channel is left. */
static void far_end(End *hub)
{
    Piece stray = frame(TOP, TRANSFER), more = begin(TOP);
    End *copy = malloc(sizeof *copy);
    uint8_t *state = malloc(hub->len);
    if (copy == NULL || state == NULL)
        exit(2);
    *copy = *hub;
    copy->state = memcpy(state, hub->state, hub->len);
    hisproat_on_incoming(copy->state, copy->len, more.at, more.len, 9, more.at, 0, copy->output, sizeof copy->output, copy->answer, sizeof copy->answer);
    need(hub, kind_of(copy) == HISPROAT_KIND_REFUSED && copy->answer[HISPROAT_AT_DETAIL] == HISPROAT_REFUSED_NOT_IMPLEMENTED, "no channel is left for a session");
    need(hub, hisproat_status(copy->state, copy->len - 1, copy->answer, sizeof copy->answer) == 8, "65,536 channels, and a byte too few");
    need(hub, hisproat_on_deallocate(hub->state, hub->len - 1, 0, hub->answer, sizeof hub->answer) == 8, "the same of an event");
    drop_end(copy);
    hisproat_on_incoming(hub->state, hub->len, stray.at, stray.len, 0, stray.at, 0, hub->output, sizeof hub->output, hub->answer, sizeof hub->answer);
    need(hub, kind_of(hub) == HISPROAT_KIND_REFUSED && hub->answer[HISPROAT_AT_DETAIL] == HISPROAT_REFUSED_NOT_FOUND, "a channel that is tied no more");
}

/* How many incoming channels are tied; each of them to this handle. */
static uint32_t tied_count(End *e, uint32_t handle)
{
    uint32_t count = 0;
    for (uint32_t k = 0; k < COUNT; k++) {
        int64_t tied = handle_by(e, 1, (uint16_t)k);
        need(e, tied == -1 || tied == handle, "a tie to another handle");
        count += tied >= 0;
    }
    return count;
}

/* All incoming channels are tied through one outgoing channel. Some of these ties end, and the others are dropped at once. */
static void ties_through_one(End *e, uint32_t step)
{
    uint16_t other = takes(e, 8), channel = takes(e, 7);
    uint32_t ties = 0;
    for (uint32_t n = 0; n < COUNT; n += step, ties++)
        came(e, begin_for(mixed(n, 40503), channel), 0, HISPROAT_KIND_FORWARD, 7, "a tie more through one channel");
    need(e, tied_count(e, 7) == ties, "so many ties through one channel");
    for (uint32_t n = 0; n < COUNT; n += 3 * step, ties--)
        came(e, frame(mixed(n, 40503), END), 0, HISPROAT_KIND_FORWARD, 7, "a tie less");
    stands_with(e, 2, "two channels are taken");
    need(e, tied_count(e, 7) == ties, "so many ties are left");
    frees(e, other, 8);
    need(e, tied_count(e, 7) == ties, "another channel has none of them");
    frees(e, channel, 7);
    need(e, tied_count(e, 7) == 0, "one call drops them all");
    stands_with(e, 0, "no channel is taken");
    need(e, takes(e, 9) == channel && tied_count(e, 9) == 0, "the channel given anew has none");
    frees(e, channel, 9);
}

/* Each incoming channel is tied through an outgoing channel of its own, and all to one handle. Each channel that is freed drops its own tie alone. */
static void ties_through_all(End *e, uint32_t step)
{
    uint32_t ties = 0;
    for (uint32_t n = 0; n < COUNT; n++)
        takes(e, 7);
    for (uint32_t n = 0; n < COUNT; n += step, ties++)
        came(e, begin_for(mixed(n, 30001), (uint16_t)n), 0, HISPROAT_KIND_FORWARD, 7, "a tie through a channel of its own");
    need(e, tied_count(e, 7) == ties, "so many ties through as many channels");
    for (uint32_t n = 0; n < COUNT; n++) {
        uint16_t channel = mixed(n, 51217), own = mixed(channel, 30001);
        int is_tied = channel % step == 0;
        need(e, handle_by(e, 1, own) == (is_tied ? 7 : -1), "a tie stands until its channel is freed");
        frees(e, channel, 7);
        need(e, handle_by(e, 1, own) == -1, "and goes with it");
        ties -= (uint32_t)is_tied;
        if (n % 16384 == 5000) {
            need(e, tied_count(e, 7) == ties, "and no other goes");
            stands_with(e, TOP - n, "so many channels are taken");
        }
    }
    stands_with(e, 0, "no channel is taken");
    need(e, tied_count(e, 7) == 0, "and no tie is left");
}

void many_channels(Tally *t, int all)
{
    uint32_t step = all ? 1 : 256;
    t->part = "65,536 channels";
    End *pad = new_end(t, 0), *hub = new_end(t, 1);
    begin_all(pad, hub, step);
    use_all(pad, hub, step);
    move(pad);
    move(hub);
    use_all(pad, hub, step);
    end_all(pad, hub, step);
    move(hub);
    take_again(hub);
    take_again(pad);
    far_end(hub);
    drop_end(pad);
    drop_end(hub);
    for (int is_listener = 0; is_listener < 2; is_listener++) {
        End *end = new_end(t, is_listener);
        ties_through_one(end, all ? 1 : 16);
        ties_through_all(end, all ? 1 : 16);
        drop_end(end);
    }
}
