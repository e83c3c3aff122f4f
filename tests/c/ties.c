/*
 * Ties: which session an incoming channel's frames reach. A tie is made through an outgoing channel, and goes when that channel is freed: that one alone, by its channel and not by
 * its handle, and in every state. After each call the lists in the tables must agree with the ties (are_tied).
 */
#include "rig.h"

#include "judge.h"

enum { CHANNEL_MAX = 7, CHANNELS = CHANNEL_MAX + 1, AGREED = 4 };

/* ---- Short lists of calls */

static void stands_whole(const Engine *e)
{
    check(e->tally, are_shared(e->state.at) && are_tied(e->state.at), "channels and ties are as an engine leaves them");
}

static Said reads(Engine *e, Piece piece)
{
    Said said = incoming(e, of(&piece), 70);
    stands_whole(e);
    return said;
}

static Said sends(Engine *e, Piece piece)
{
    Said said = outgoing(e, of(&piece));
    stands_whole(e);
    return said;
}

static Said frees(Engine *e, uint16_t channel)
{
    Said said = deallocate(e, channel);
    stands_whole(e);
    return said;
}

/* A Begin on an incoming channel for an outgoing one, which has this handle. */
static void ties_to(Engine *e, uint16_t channel, uint16_t outgoing_channel, uint32_t handle)
{
    Said said = reads(e, begin_for(channel, outgoing_channel));
    check(e->tally, said.kind == HISPROAT_KIND_FORWARD && said.detail == HISPROAT_BEGIN && said.number == handle, "a Begin reaches the channel's handle");
    check(e->tally, tied_handle(e, channel) == handle && tied_through(e->state.at, channel) == outgoing_channel, "and ties through the channel");
}

/* A frame on a channel reaches this handle, on a copy. */
static void reaches(const Engine *e, uint16_t channel, uint32_t handle, const char *what)
{
    Engine copy = copy_of(e);
    Said said = reads(&copy, frame(channel, TRANSFER));
    check(e->tally, said.kind == HISPROAT_KIND_FORWARD && said.number == handle, what);
    drop_engine(&copy);
}

/* Each frame of a session on a channel is a frame for nobody: 24, and the connection closes with an error. Tried on copies. */
static void reaches_nobody(const Engine *e, uint16_t channel, const char *what)
{
    static const char *const BODIES[] = { ATTACH, FLOW, TRANSFER, DISPOSITION, DETACH, END };
    Tally *t = e->tally;
    Piece told = close_with("amqp:not-found", ""), close = frame(0, CLOSE);
    for (size_t i = 0; i < sizeof BODIES / sizeof BODIES[0]; i++) {
        Engine copy = copy_of(e);
        check(t, tied_handle(&copy, channel) == -1, what);
        Said said = reads(&copy, frame(channel, BODIES[i]));
        check(t, said.kind == HISPROAT_KIND_REFUSED && said.detail == HISPROAT_REFUSED_NOT_FOUND && said.number == 0 && said.body_length == 0, what);
        check(t, same(wire(&copy), of(&told)) && status(&copy).phase == HISPROAT_PHASE_AWAITING, "the peer is told by a Close");
        said = reads(&copy, close);
        check(t, said.stopped && said.outcome == HISPROAT_OUTCOME_NOT_FOUND, "and the connection is over with NOT_FOUND");
        drop_engine(&copy);
    }
}

/* An open engine whose outgoing channels 0 to 3 have these handles. */
static Engine with_channels(Tally *t, int is_listener, const uint32_t handles[AGREED])
{
    Engine e = opened(t, is_listener);
    for (uint32_t i = 0; i < AGREED; i++)
        check(t, allocate(&e, handles[i]).channel == i, "a channel is taken");
    return e;
}

static const uint32_t OWN[AGREED] = { 10, 11, 12, 13 }, SAME[AGREED] = { 10, 10, 10, 10 };

/* A tied channel is freed: its late frames reach nobody, also when the channel has another handle, until a Begin ties them. */
static void freed_while_tied(Tally *t, int is_listener)
{
    Engine e = with_channels(t, is_listener, OWN);
    ties_to(&e, 5, 2, 12);
    ties_to(&e, 6, 1, 11);
    reaches(&e, 5, 12, "a frame while the channel is taken");
    check(t, frees(&e, 2).number == 12, "a tied channel is freed");
    reaches_nobody(&e, 5, "a late frame");
    reaches(&e, 6, 11, "another tie stands");
    Engine none_there = copy_of(&e);
    Said said = reads(&none_there, begin_for(5, 2));
    check(t, said.kind == HISPROAT_KIND_REFUSED && said.detail == HISPROAT_REFUSED_NOT_FOUND, "a Begin for a channel that is free");
    drop_engine(&none_there);
    check(t, allocate(&e, 99).channel == 2, "the channel is given anew");
    reaches_nobody(&e, 5, "a late frame does not reach the new session");
    ties_to(&e, 4, 2, 99);
    reaches_nobody(&e, 5, "not even when that is tied");
    check(t, frees(&e, 2).number == 99 && tied_handle(&e, 4) == -1 && tied_handle(&e, 6) == 11, "and the new tie goes as well");
    check(t, allocate(&e, 98).channel == 2, "the channel is given once more");
    ties_to(&e, 5, 2, 98);
    reaches(&e, 5, 98, "a Begin ties it again");
    drop_engine(&e);
}

/* Channels that have one handle: only the ties through the freed one go. */
static void same_handle(Tally *t, int is_listener)
{
    Engine e = with_channels(t, is_listener, SAME);
    ties_to(&e, 5, 0, 10);
    ties_to(&e, 6, 1, 10);
    ties_to(&e, 7, 0, 10);
    check(t, frees(&e, 0).number == 10, "one of the channels is freed");
    reaches_nobody(&e, 5, "a tie through it");
    reaches_nobody(&e, 7, "the other tie through it");
    reaches(&e, 6, 10, "the tie through the other channel with that handle");
    check(t, frees(&e, 1).number == 10 && tied_handle(&e, 6) == -1, "which goes with its own channel");
    drop_engine(&e);
}

/* A tie that a later Begin replaced goes with the later one's channel. */
static void replaced(Tally *t, const uint32_t handles[AGREED])
{
    for (int is_listener = 0; is_listener < 2; is_listener++) {
        Engine e = with_channels(t, is_listener, handles);
        ties_to(&e, 6, 2, handles[2]);
        ties_to(&e, 5, 2, handles[2]);
        ties_to(&e, 7, 2, handles[2]);
        ties_to(&e, 5, 1, handles[1]);
        Engine other = copy_of(&e);
        check(t, frees(&e, 2).number == handles[2] && tied_handle(&e, 5) == handles[1], "the old channel is freed, and the tie stands");
        check(t, tied_handle(&e, 6) == -1 && tied_handle(&e, 7) == -1, "the ties beside it in the list go");
        reaches(&e, 5, handles[1], "a frame on it");
        check(t, frees(&e, 1).number == handles[1], "the new channel is freed");
        reaches_nobody(&e, 5, "a late frame after that");
        check(t, frees(&other, 1).number == handles[1] && tied_handle(&other, 5) == -1, "the new channel is freed first");
        check(t, tied_handle(&other, 6) == handles[2] && tied_handle(&other, 7) == handles[2], "the ties through the old one stand");
        check(t, frees(&other, 2).number == handles[2] && tied_handle(&other, 6) == -1 && tied_handle(&other, 7) == -1, "until that is freed");
        drop_engine(&other);
        drop_engine(&e);
    }
}

/* A second Begin for the same channel: one tie, which an End ends or a free drops. */
static void begun_twice(Tally *t, int is_listener)
{
    Engine e = with_channels(t, is_listener, OWN);
    ties_to(&e, 4, 0, 10);
    ties_to(&e, 5, 0, 10);
    ties_to(&e, 5, 0, 10);
    ties_to(&e, 6, 0, 10);
    ties_to(&e, 5, 0, 10);
    Engine ended = copy_of(&e);
    check(t, frees(&e, 0).number == 10, "the channel is freed");
    reaches_nobody(&e, 5, "an End, or another frame, after that");
    reaches_nobody(&e, 4, "the tie before it");
    reaches_nobody(&e, 6, "the tie between");
    Said said = reads(&ended, frame(5, END));
    check(t, said.kind == HISPROAT_KIND_FORWARD && said.detail == HISPROAT_END && said.number == 10, "one End");
    reaches_nobody(&ended, 5, "after one End");
    reaches(&ended, 4, 10, "the tie before it stands");
    reaches(&ended, 6, 10, "and the one between");
    check(t, frees(&ended, 0).number == 10 && tied_handle(&ended, 4) == -1 && tied_handle(&ended, 6) == -1, "until the channel is freed");
    drop_engine(&ended);
    drop_engine(&e);
}

/* The other ways to tie: a listener's new session, through the channel that it gets; and a Begin that a listener sends, through the channel that it is sent on. */
static void tied_by_listener(Tally *t)
{
    Engine e = opened(t, 1);
    Said said = reads(&e, begin(4));
    check(t, said.kind == HISPROAT_KIND_BEGAN && said.channel == 0 && tied_handle(&e, 4) == 70 && tied_through(e.state.at, 4) == 0, "a new session ties through its channel");
    said = reads(&e, begin(4));
    check(t, said.channel == 1 && tied_through(e.state.at, 4) == 1, "another one on the same channel ties through the next");
    check(t, frees(&e, 0).number == 70 && tied_handle(&e, 4) == 70, "the channel of the first is freed: the tie stands");
    check(t, frees(&e, 1).number == 70, "and that of the second");
    reaches_nobody(&e, 4, "a late frame of a new session");
    check(t, allocate(&e, 20).channel == 1 && allocate(&e, 21).channel == 0, "two channels are taken");
    check(t, sends(&e, begin_for(0, 6)).kind == HISPROAT_KIND_WROTE && tied_handle(&e, 6) == 21 && tied_through(e.state.at, 6) == 0, "a Begin that is sent ties");
    check(t, sends(&e, begin_for(1, 6)).kind == HISPROAT_KIND_WROTE && tied_handle(&e, 6) == 20 && tied_through(e.state.at, 6) == 1, "another one replaces it");
    check(t, sends(&e, begin_for(1, 7)).kind == HISPROAT_KIND_WROTE && tied_handle(&e, 7) == 20, "and ties a second channel");
    Engine failed = copy_of(&e);
    said = sends(&failed, begin_for(3, 6));
    check(t, said.kind == HISPROAT_KIND_REFUSED && said.detail == HISPROAT_REFUSED_NOT_FOUND && tied_through(failed.state.at, 6) == 1, "a Begin on a free channel ties nothing");
    drop_engine(&failed);
    check(t, frees(&e, 0).number == 21 && tied_handle(&e, 6) == 20, "the first sender's channel is freed: the tie stands");
    check(t, frees(&e, 1).number == 20, "and the other's");
    reaches_nobody(&e, 6, "a late frame after a Begin that was sent");
    reaches_nobody(&e, 7, "the same of the second channel");
    drop_engine(&e);
}

/* A dialler's Begin ties nothing, so there is nothing to drop. */
static void untied_by_dialler(Tally *t)
{
    Engine e = with_channels(t, 0, OWN);
    check(t, sends(&e, begin_for(0, 6)).kind == HISPROAT_KIND_WROTE && tied_handle(&e, 6) == -1, "a dialler's Begin");
    ties_to(&e, 6, 1, 11);
    check(t, sends(&e, begin_for(0, 6)).kind == HISPROAT_KIND_WROTE && tied_through(e.state.at, 6) == 1, "changes no tie");
    check(t, frees(&e, 0).number == 10 && tied_handle(&e, 6) == 11, "and goes with none");
    drop_engine(&e);
}

/* Where no frame of a session is read any more, ties go with their channels all the same. */
static void dropped_unseen(Tally *t, int is_listener)
{
    Piece waiting = begin_for(3, 4), other_open = frame(0, OPEN_OF_H);
    Engine e = with_channels(t, is_listener, OWN);
    ties_to(&e, 5, 2, 12);
    ties_to(&e, 6, 1, 11);
    Engine discarding = copy_of(&e), awaiting = copy_of(&e);
    check(t, close_order(&e, of(&waiting)).kind == HISPROAT_KIND_WROTE && status(&e).state == HISPROAT_STATE_CLOSE_SENT, "a close order, while a Begin waits");
    check(t, tied_handle(&e, 4) == (is_listener ? 13 : -1), "which ties, if a listener sends it");
    check(t, frees(&e, 3).number == 13 && tied_handle(&e, 4) == -1 && tied_handle(&e, 5) == 12, "its tie is dropped in CloseSent");
    check(t, frees(&e, 2).number == 12 && tied_handle(&e, 5) == -1 && tied_handle(&e, 6) == 11, "and the other one");
    check(t, close_error(&discarding, "a:b", "", none()).kind == HISPROAT_KIND_WROTE && status(&discarding).state == HISPROAT_STATE_DISCARDING, "a close order with an error");
    check(t, frees(&discarding, 2).number == 12 && tied_handle(&discarding, 5) == -1 && tied_handle(&discarding, 6) == 11, "a tie is dropped in Discarding");
    check(t, reads(&awaiting, other_open).detail == HISPROAT_REFUSED_ILLEGAL_STATE && status(&awaiting).phase == HISPROAT_PHASE_AWAITING, "an engine that awaits the Close");
    refused(&awaiting, (Order){ .event = ON_DEALLOCATE, .number = 2 }, 20, "frees nothing");
    check(t, tied_handle(&awaiting, 5) == 12, "and its ties stand");
    drop_engine(&awaiting);
    drop_engine(&discarding);
    drop_engine(&e);
}

/* The order that loses no frame: this side's End, the peer's End, then the channel is freed. Nothing is wrong with such a connection. */
static void in_order(Tally *t, int is_listener)
{
    Piece close = frame(0, CLOSE);
    Engine e = with_channels(t, is_listener, OWN);
    ties_to(&e, 5, 2, 12);
    check(t, sends(&e, frame(2, END)).kind == HISPROAT_KIND_WROTE, "this side's End");
    check(t, reads(&e, frame(5, TRANSFER)).number == 12, "a frame that was on its way");
    check(t, reads(&e, frame(5, END)).number == 12 && tied_handle(&e, 5) == -1, "the peer's End");
    check(t, frees(&e, 2).number == 12 && allocate(&e, 40).channel == 2, "the channel is freed, and given to another");
    ties_to(&e, 5, 2, 40);
    check(t, reads(&e, frame(5, TRANSFER)).number == 40, "a frame of that one");
    check(t, close_order(&e, none()).kind == HISPROAT_KIND_WROTE, "a close order");
    Said said = incoming(&e, of(&close), 0);
    check(t, said.stopped && said.outcome == HISPROAT_OUTCOME_FINE, "a clean end");
    drop_engine(&e);
}

void ties(Tally *t)
{
    t->part = "ties";
    for (int is_listener = 0; is_listener < 2; is_listener++) {
        freed_while_tied(t, is_listener);
        same_handle(t, is_listener);
        begun_twice(t, is_listener);
        dropped_unseen(t, is_listener);
        in_order(t, is_listener);
    }
    replaced(t, OWN);
    replaced(t, SAME);
    tied_by_listener(t);
    untied_by_dialler(t);
}

/* ---- Long lists of calls, beside a model: which handle each outgoing channel has, and through which outgoing channel each incoming one is tied. -1 for none. */

typedef struct {
    Engine engine;
    int is_listener;
    int64_t handles[CHANNELS];
    int64_t through[CHANNELS];
    uint32_t chance;
    unsigned dropped; /* how many ties went with their channels */
} Walk;

static uint32_t below(Walk *w, uint32_t bound)
{
    w->chance = w->chance * 1103515245 + 12345;
    return (w->chance >> 16) % bound;
}

/* A channel that has something in a list, from a random place on; -1 where none has. */
static int some(Walk *w, const int64_t list[CHANNELS])
{
    uint32_t from = below(w, CHANNELS);
    for (uint32_t i = 0; i < CHANNELS; i++)
        if (list[(from + i) % CHANNELS] >= 0)
            return (int)((from + i) % CHANNELS);
    return -1;
}

static void agrees(Walk *w)
{
    Engine *e = &w->engine;
    int right = 1;
    for (uint16_t k = 0; k < CHANNELS; k++) {
        int64_t through = w->through[k];
        right = right && handle_at(e, k) == w->handles[k] && tied_handle(e, k) == (through < 0 ? -1 : w->handles[through]);
        right = right && tied_through(e->state.at, k) == through;
    }
    check(e->tally, right, "handles and ties are those of the model");
    stands_whole(e);
}

/* A session comes: by an order, or by a Begin of the peer's, which a listener takes. Few handles, so that many channels have the same. */
static void comes(Walk *w, uint16_t channel)
{
    uint32_t handle = below(w, 3);
    Piece begins = begin(channel);
    int begun = w->is_listener && below(w, 2);
    Engine copy = copy_of(&w->engine);
    int room = allocate(&copy, 0).refused == 0;
    drop_engine(&copy);
    if (!room)
        return;
    Said said = begun ? incoming(&w->engine, of(&begins), handle) : allocate(&w->engine, handle);
    check(w->engine.tally, said.kind == (begun ? HISPROAT_KIND_BEGAN : HISPROAT_KIND_CHANNEL) && w->handles[said.channel] == -1, "a session comes");
    w->handles[said.channel] = handle;
    if (begun)
        w->through[channel] = said.channel;
}

static void leaves(Walk *w)
{
    int channel = some(w, w->handles);
    if (channel < 0)
        return;
    check(w->engine.tally, deallocate(&w->engine, (uint16_t)channel).number == w->handles[channel], "a channel is freed");
    w->handles[channel] = -1;
    for (uint32_t k = 0; k < CHANNELS; k++)
        if (w->through[k] == channel) {
            w->through[k] = -1;
            w->dropped += 1;
        }
}

/* A Begin for a taken channel comes, or goes out, which ties where a listener sends it. */
static void ties_one(Walk *w, uint16_t channel)
{
    int outgoing_channel = some(w, w->handles), sent = below(w, 3) == 0;
    if (outgoing_channel < 0)
        return;
    Piece piece = sent ? begin_for((uint16_t)outgoing_channel, channel) : begin_for(channel, (uint16_t)outgoing_channel);
    Said said = sent ? outgoing(&w->engine, of(&piece)) : incoming(&w->engine, of(&piece), 0);
    check(w->engine.tally, said.kind == (sent ? HISPROAT_KIND_WROTE : HISPROAT_KIND_FORWARD), "a Begin");
    if (!sent || w->is_listener)
        w->through[channel] = outgoing_channel;
}

/* A frame on a channel: it reaches the handle of the channel through which that is tied, or nobody, on a copy. */
static void frame_comes(Walk *w, uint16_t channel)
{
    int ends = below(w, 2), tied = w->through[channel] >= 0;
    Piece piece = frame(channel, ends ? END : TRANSFER);
    Engine copy = copy_of(&w->engine);
    Said said = incoming(tied ? &w->engine : &copy, of(&piece), 0);
    drop_engine(&copy);
    if (tied)
        check(w->engine.tally, said.kind == HISPROAT_KIND_FORWARD && said.number == w->handles[w->through[channel]], "a frame reaches its handle");
    else
        check(w->engine.tally, said.kind == HISPROAT_KIND_REFUSED && said.detail == HISPROAT_REFUSED_NOT_FOUND, "a frame reaches nobody");
    if (tied && ends)
        w->through[channel] = -1;
}

static void walk(Tally *t, int is_listener, unsigned steps)
{
    Piece peer_open = frame(0, "005310 C0 04 01 A10168");
    Walk w = { .engine = new_engine(t, is_listener, p1()), .is_listener = is_listener, .chance = 7 };
    open_with(&w.engine, of(&peer_open));
    for (uint32_t k = 0; k < CHANNELS; k++)
        w.handles[k] = w.through[k] = -1;
    for (unsigned i = 0; i < steps; i++) {
        uint16_t channel = (uint16_t)below(&w, CHANNELS);
        uint32_t what = below(&w, 20);
        if (what < 5)
            comes(&w, channel);
        else if (what < 8)
            leaves(&w);
        else if (what < 15)
            ties_one(&w, channel);
        else
            frame_comes(&w, channel);
        agrees(&w);
    }
    check(t, w.dropped > steps / 20, "many ties are dropped");
    drop_engine(&w.engine);
}

void tie_walks(Tally *t, int all)
{
    t->part = "ties at random";
    for (int is_listener = 0; is_listener < 2; is_listener++)
        walk(t, is_listener, all ? 20000 : 300);
}
