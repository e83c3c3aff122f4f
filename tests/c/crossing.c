/*
 * Tests of the library through its C interface. Usage: crossing [all]
 * With `all`, the parts in other files try more values and more channels; without, so many that a run under valgrind is quick enough.
 * Prints a line for each part, and `N checks, 0 wrong`. Exits with 1 if anything was wrong.
 */
#include "rig.h"

#include "judge.h"

#include <stdio.h>
#include <stdlib.h>
#include <string.h>

/* ---- Wall: the starred wall cases, in the order of crates/wall/specs/Wall.antt.
 * Each of its rows goes through C. Three things look different from here:
 * - a row that only reads a header is a new engine's receive_header; one that only reads a frame is a new engine's on_incoming, whose reading limit is 512;
 * - the refusal of a frame that came, other than 1, is no refusal of the event: it is told by the answer, and the engine takes its error path;
 * - so after a 24 the state is Discarding, where a bare connection would still be Opened: the row that comes after it is tried on a copy from before. */

static void wall_header(Tally *t, const char *digits, int sent_before, uint8_t refused, uint8_t kind, uint8_t state)
{
    Engine e = new_engine(t, 0, p1());
    Piece header = hex(digits);
    if (sent_before)
        send_header(&e);
    Said said = receive_header(&e, of(&header));
    check(t, said.refused == refused && said.kind == kind, digits);
    check(t, said.consumed == (refused ? 0 : 8), "a header that is read consumes 8 bytes");
    check(t, status(&e).state == state, "the state after a header");
    drop_engine(&e);
}

static void wall_frame(Tally *t, const char *digits, uint8_t refused, uint8_t kind, uint8_t detail, uint64_t consumed)
{
    Engine e = new_engine(t, 0, p1());
    Piece piece = hex(digits);
    Said said = incoming(&e, of(&piece), 0);
    check(t, said.refused == refused && said.kind == kind && said.detail == detail && said.consumed == consumed, digits);
    check(t, said.stopped == (kind == HISPROAT_KIND_REFUSED), "a frame that is refused inside stops a new engine");
    drop_engine(&e);
}

static Engine wall_opened(Tally *t, uint32_t sessions)
{
    Piece peer_open = frame(0, OPEN_OF_H);
    Engine e = new_engine(t, 0, p1());
    open_with(&e, of(&peer_open));
    for (uint32_t i = 0; i < sessions; i++) {
        Said said = allocate(&e, 10 + i);
        check(t, said.kind == HISPROAT_KIND_CHANNEL && said.channel == i, "local channel-max 7, the peer's 3: 0, 1, 2, 3");
    }
    return e;
}

static void wall_channels(Tally *t)
{
    Engine e = wall_opened(t, 4);
    check(t, allocate(&e, 14).refused == HISPROAT_REFUSED_NO_CHANNEL_LEFT, "then 23");
    check(t, status(&e).channel_max == 3 && status(&e).taken == 4, "channel-max 3 is agreed, and four channels are taken");
    check(t, deallocate(&e, 1).number == 11, "free 1");
    check(t, deallocate(&e, 3).number == 13, "then 3");
    check(t, allocate(&e, 15).channel == 3, "next 3");
    check(t, allocate(&e, 16).channel == 1, "then 1");
    drop_engine(&e);
}

static void wall_ties(Tally *t)
{
    Engine e = wall_opened(t, 4);
    Piece begin_5_for_2 = hex("00000014 02000005 005311 C00704 600002 43 43 43"), attach_5 = frame(5, ATTACH);
    Piece not_found = close_with("amqp:not-found", "");
    Said said = incoming(&e, of(&begin_5_for_2), 0);
    check(t, said.kind == HISPROAT_KIND_FORWARD && said.detail == HISPROAT_BEGIN && said.number == 12, "Begin on 5 for 2");
    check(t, deallocate(&e, 2).number == 12, "free 2");
    Engine before = copy_of(&e);
    said = incoming(&e, of(&attach_5), 0);
    check(t, said.kind == HISPROAT_KIND_REFUSED && said.detail == HISPROAT_REFUSED_NOT_FOUND && said.consumed == attach_5.len, "Attach on 5 gives 24");
    check(t, same(wire(&e), of(&not_found)), "the peer is told by a Close");
    check(t, status(&e).phase == HISPROAT_PHASE_AWAITING && status(&e).state == HISPROAT_STATE_DISCARDING, "its Close is awaited");
    said = incoming(&before, of(&begin_5_for_2), 0);
    check(t, said.kind == HISPROAT_KIND_REFUSED && said.detail == HISPROAT_REFUSED_NOT_FOUND && said.consumed == 20, "Begin for 2 gives 24");
    check(t, same(wire(&before), of(&not_found)), "the peer is told by a Close");
    drop_engine(&e);
    drop_engine(&before);
}

static void wall_written(Tally *t)
{
    Engine e = new_engine(t, 0, p1());
    Piece header = hex(HEADER), peer_open = frame(0, OPEN_OF_H), close = hex("0000000C 02000000 005318 45");
    Piece open = hex("0000001B 02000000 005310 C00E04 A1027031 40 7000001000 600007");
    send_header(&e);
    check(t, same(wire(&e), of(&header)), "the header that is sent");
    receive_header(&e, of(&header));
    send_open(&e);
    check(t, same(wire(&e), of(&open)), "container p1, 4096, channel-max 7, no idle");
    incoming(&e, of(&peer_open), 0);
    close_order(&e, none());
    check(t, same(wire(&e), of(&close)), "a Close without error");
    drop_engine(&e);
}

static void wall(Tally *t)
{
    t->part = "wall";
    wall_header(t, "414D5150 00010000", 0, 0, HISPROAT_KIND_HEADER, HISPROAT_STATE_HEADER_RECEIVED);
    wall_header(t, "414D5150 03010000", 0, 0, HISPROAT_KIND_OTHER_PROTOCOL, HISPROAT_STATE_END);
    wall_header(t, "414D5150 01010000", 0, HISPROAT_REFUSED_HEADER_MALFORMED, 0, HISPROAT_STATE_START);
    wall_header(t, "414D5150 00010000", 1, 0, HISPROAT_KIND_HEADER, HISPROAT_STATE_HEADER_EXCHANGE);
    wall_header(t, "414D5150 03010000", 1, 0, HISPROAT_KIND_OTHER_PROTOCOL, HISPROAT_STATE_END);
    wall_header(t, "414D5150 01010000", 1, HISPROAT_REFUSED_HEADER_MALFORMED, 0, HISPROAT_STATE_HEADER_SENT);
    wall_frame(t, "00000008 02000000", 0, HISPROAT_KIND_NOTHING, 0, 8);
    wall_frame(t, "00000007 02000000", 0, HISPROAT_KIND_REFUSED, HISPROAT_REFUSED_LENGTH_UNDER_8, 0);
    wall_frame(t, "00000200 02000000", HISPROAT_REFUSED_BYTES_MISSING, 0, 0, 0);
    wall_frame(t, "00000201 02000000", 0, HISPROAT_KIND_REFUSED, HISPROAT_REFUSED_OVER_READING_LIMIT, 0);
    wall_channels(t);
    wall_ties(t);
    wall_written(t);
}

/* ---- Conversation: a pad that dials and a hub that listens, each the other's peer. */

typedef struct {
    Engine pad;
    Engine hub;
} Pair;

/* Hands what one end wrote to the other, frame by frame; the answer to the last frame. */
static Said deliver(Engine *from, Engine *to, uint32_t spare)
{
    Bytes rest = wire(from);
    Said said = { .refused = 0xFF };
    while (rest.len > 0) {
        said = incoming(to, rest, spare);
        if (said.refused || said.consumed == 0 || said.consumed > rest.len)
            break;
        rest.at += said.consumed;
        rest.len -= (size_t)said.consumed;
    }
    check(from->tally, rest.len == 0, "all that one end wrote is taken by the other");
    return said;
}

/* A session's frame goes from one end to the other, and reaches this handle with its body in place. */
static void passes(Engine *from, Engine *to, Piece piece, uint8_t performative, uint32_t handle)
{
    Tally *t = from->tally;
    Said sent = outgoing(from, of(&piece));
    check(t, sent.kind == HISPROAT_KIND_WROTE && !sent.stopped && sent.consumed == 0, "a session's frame goes out");
    check(t, same(wire(from), of(&piece)), "a frame in the shortest form is written as it is lent");
    Said said = deliver(from, to, 0);
    check(t, said.kind == HISPROAT_KIND_FORWARD && said.detail == performative && said.number == handle, "it reaches its handle");
    check(t, said.body_start == 8 && said.body_length == piece.len - 8 && said.consumed == piece.len && said.channel == 0, "its body is the rest of it");
}

/* The pad begins a session on a channel that it has taken for `handle`. The hub takes it with `spare`, on the channel `back`. */
static void session(Pair *p, uint16_t channel, uint32_t handle, uint32_t spare, uint16_t back)
{
    Tally *t = p->pad.tally;
    Piece request = begin(channel);
    check(t, allocate(&p->pad, handle).channel == channel, "the pad takes a channel");
    check(t, outgoing(&p->pad, of(&request)).kind == HISPROAT_KIND_WROTE, "a Begin goes out");
    Said began = deliver(&p->pad, &p->hub, spare);
    check(t, began.kind == HISPROAT_KIND_BEGAN && began.detail == HISPROAT_BEGIN, "the hub has a new session");
    check(t, began.channel == back && began.number == spare, "with a channel and the spare handle");
    check(t, began.body_start == 8 && began.body_length == request.len - 8, "the Begin's body is handed on");
    passes(&p->hub, &p->pad, begin_for(back, channel), HISPROAT_BEGIN, handle);
    check(t, handle_at(&p->pad, channel) == handle && tied_handle(&p->pad, back) == handle, "the pad's channels have its handle");
    check(t, handle_at(&p->hub, back) == spare && tied_handle(&p->hub, channel) == spare, "the hub's channels have its handle");
}

static void part_from(Pair *p)
{
    drop_engine(&p->pad);
    drop_engine(&p->hub);
}

static Pair introduced(Tally *t)
{
    Settings hub = { .container_id = "hub", .max_frame_size = 16384, .channel_max = 3, .has_idle_time_out = 255, .idle_time_out = 30000 };
    Pair p = { .pad = new_engine(t, 0, p1()), .hub = new_engine(t, 1, hub) };
    check(t, send_header(&p.pad).written == 8, "the pad's header");
    check(t, receive_header(&p.hub, wire(&p.pad)).kind == HISPROAT_KIND_HEADER, "comes to the hub");
    check(t, send_header(&p.hub).written == 8, "the hub's header");
    check(t, receive_header(&p.pad, wire(&p.hub)).kind == HISPROAT_KIND_HEADER, "comes to the pad");
    send_open(&p.pad);
    Said opened = deliver(&p.pad, &p.hub, 0);
    check(t, opened.kind == HISPROAT_KIND_OPENED && opened.number == 0, "the pad's Open has no idle-time-out");
    send_open(&p.hub);
    opened = deliver(&p.hub, &p.pad, 0);
    check(t, opened.kind == HISPROAT_KIND_OPENED && opened.number == 30000, "the hub's Open has one");
    return p;
}

static void limits_agreed(Pair *p)
{
    Tally *t = p->pad.tally;
    Status pad = status(&p->pad), hub = status(&p->hub);
    check(t, pad.role == HISPROAT_ROLE_DIALLER && hub.role == HISPROAT_ROLE_LISTENER, "roles");
    check(t, pad.state == HISPROAT_STATE_OPENED && hub.state == HISPROAT_STATE_OPENED, "both are open");
    check(t, pad.reading_limit == 4096 && pad.writing_limit == 16384, "the pad's limits");
    check(t, hub.reading_limit == 16384 && hub.writing_limit == 4096, "the hub's limits");
    check(t, pad.agreed == 1 && pad.channel_max == 3 && hub.agreed == 1 && hub.channel_max == 3, "the smaller channel-max is agreed");
    check(t, pad.taken == 0 && hub.taken == 0 && handle_at(&p->pad, 0) == -1 && tied_handle(&p->hub, 65535) == -1, "no channel is taken or tied");
}

static void heartbeats(Pair *p)
{
    Tally *t = p->pad.tally;
    Piece empty = hex("00000008 02000000");
    check(t, tick(&p->pad).kind == HISPROAT_KIND_WROTE && same(wire(&p->pad), of(&empty)), "a tick writes an empty frame");
    check(t, deliver(&p->pad, &p->hub, 0).kind == HISPROAT_KIND_NOTHING, "that asks for nothing");
    check(t, tick(&p->hub).written == 8, "a tick of the hub");
    check(t, deliver(&p->hub, &p->pad, 0).kind == HISPROAT_KIND_NOTHING, "that asks for nothing");
}

/* A frame that is not in the shortest form: its descriptor has eight bytes, its list four-byte sizes. */
static void shortened(Pair *p)
{
    Tally *t = p->pad.tally;
    Piece lent = frame(0, "00 80 0000000000000014 D0 0000000B 00000005 43 43 A00100 43 42 005377 5201"), written = frame(0, TRANSFER);
    check(t, outgoing(&p->pad, of(&lent)).kind == HISPROAT_KIND_WROTE, "a frame in a long form goes out");
    check(t, same(wire(&p->pad), of(&written)), "in the shortest form");
    check(t, deliver(&p->pad, &p->hub, 0).kind == HISPROAT_KIND_FORWARD, "and is taken");
}

/* The hub has freed the channel of a session: a frame that the pad still sends on it belongs to nobody, whoever has the channel then. Tried on copies. */
static void too_late(Pair *p, const char *what)
{
    Tally *t = p->pad.tally;
    Piece transfer = frame(0, TRANSFER), told = close_with("amqp:not-found", "");
    Pair copies = { .pad = copy_of(&p->pad), .hub = copy_of(&p->hub) };
    check(t, outgoing(&copies.pad, of(&transfer)).kind == HISPROAT_KIND_WROTE, "a late frame goes out");
    Said said = deliver(&copies.pad, &copies.hub, 0);
    check(t, said.kind == HISPROAT_KIND_REFUSED && said.detail == HISPROAT_REFUSED_NOT_FOUND && said.number == 0 && !said.stopped, what);
    check(t, same(wire(&copies.hub), of(&told)) && status(&copies.hub).outcome == HISPROAT_OUTCOME_NOT_FOUND, "and the hub closes the connection with an error");
    said = deliver(&copies.hub, &copies.pad, 0);
    check(t, said.kind == HISPROAT_KIND_CLOSED && said.outcome == HISPROAT_OUTCOME_REMOTE_CLOSED_WITH_ERROR, "which the pad is told");
    said = deliver(&copies.pad, &copies.hub, 0);
    check(t, said.stopped && said.outcome == HISPROAT_OUTCOME_NOT_FOUND, "until its Close comes back");
    part_from(&copies);
}

/* Sessions end, and their channels are used again. Then the hub ends a session while the pad still sends on it, in the order that loses no frame: its End, the pad's End, and
 * only then it frees the channel. */
static void ends_and_late_frames(Pair *p)
{
    Tally *t = p->pad.tally;
    passes(&p->pad, &p->hub, frame(0, END), HISPROAT_END, 100);
    passes(&p->hub, &p->pad, frame(1, END), HISPROAT_END, 10);
    check(t, tied_handle(&p->hub, 0) == -1 && tied_handle(&p->pad, 1) == -1, "an End unties");
    check(t, deallocate(&p->hub, 1).number == 100 && deallocate(&p->pad, 0).number == 10, "both free their channels");
    check(t, handle_at(&p->hub, 1) == -1 && handle_at(&p->pad, 0) == -1, "and nobody has them");
    session(p, 0, 12, 102, 1);
    passes(&p->hub, &p->pad, frame(1, END), HISPROAT_END, 12);
    passes(&p->pad, &p->hub, frame(0, TRANSFER), HISPROAT_TRANSFER, 102);
    check(t, handle_at(&p->hub, 1) == 102 && tied_handle(&p->hub, 0) == 102, "after the hub's End late frames still reach the handle");
    Pair early = { .pad = copy_of(&p->pad), .hub = copy_of(&p->hub) };
    check(t, deallocate(&early.hub, 1).number == 102 && tied_handle(&early.hub, 0) == -1, "a channel that is freed before the pad's End takes its tie with it");
    too_late(&early, "a frame on a channel that was freed too early");
    check(t, allocate(&early.hub, 103).channel == 1 && tied_handle(&early.hub, 0) == -1, "the channel is given to another session");
    too_late(&early, "which late frames do not reach");
    part_from(&early);
    passes(&p->pad, &p->hub, frame(0, END), HISPROAT_END, 102);
    check(t, deallocate(&p->hub, 1).number == 102, "after the pad's End the hub frees the channel");
    too_late(p, "a frame of the pad after its own End");
    check(t, allocate(&p->hub, 103).channel == 1 && deallocate(&p->pad, 0).number == 12, "both channels are free for others");
    too_late(p, "a frame of a session that is over");
    session(p, 0, 13, 104, 3);
}

/* A listener's Begin ties the channel that it names to the handle that sends it; a dialler's ties nothing. */
static void ties_by_sending(Pair *p)
{
    Tally *t = p->pad.tally;
    Piece from_hub = begin_for(0, 3), from_pad = begin_for(0, 0);
    check(t, outgoing(&p->hub, of(&from_hub)).kind == HISPROAT_KIND_WROTE && tied_handle(&p->hub, 3) == 90, "a listener's Begin ties");
    check(t, outgoing(&p->pad, of(&from_pad)).kind == HISPROAT_KIND_WROTE && tied_handle(&p->pad, 0) == -1, "a dialler's does not");
}

/* The pad closes while frames wait; the hub answers by itself. */
static void closes_with_waiting(Pair *p)
{
    Tally *t = p->pad.tally;
    Piece waiting = joined(frame(0, TRANSFER), frame(0, END)), close = frame(0, CLOSE);
    Piece all = joined(waiting, close);
    Said said = close_order(&p->pad, of(&waiting));
    check(t, said.kind == HISPROAT_KIND_WROTE && !said.stopped && same(wire(&p->pad), of(&all)), "waiting frames go out, then a Close");
    check(t, status(&p->pad).phase == HISPROAT_PHASE_RUNNING && status(&p->pad).state == HISPROAT_STATE_CLOSE_SENT, "the pad goes on");
    check(t, tick(&p->pad).written == 0, "a tick after the Close writes nothing");
    /* the tick's bytes are none: what the close order wrote is delivered */
    memcpy(p->pad.wire, all.at, all.len);
    p->pad.wire_len = all.len;
    said = deliver(&p->pad, &p->hub, 0);
    check(t, said.kind == HISPROAT_KIND_CLOSED && said.detail == 0 && said.stopped && said.outcome == HISPROAT_OUTCOME_REMOTE_CLOSED, "the hub stops");
    check(t, same(wire(&p->hub), of(&close)), "and answers with a Close");
    said = deliver(&p->hub, &p->pad, 0);
    check(t, said.kind == HISPROAT_KIND_CLOSED && said.stopped && said.outcome == HISPROAT_OUTCOME_FINE, "the pad stops too");
    check(t, status(&p->pad).state == HISPROAT_STATE_END && status(&p->hub).state == HISPROAT_STATE_END, "the connection is over");
    check(t, tick(&p->pad).refused == 20 && end_of_input(&p->hub).refused == 20, "a stopped engine takes no event");
}

static void first_life(Tally *t)
{
    Pair p = introduced(t);
    limits_agreed(&p);
    heartbeats(&p);
    check(t, allocate(&p.hub, 90).channel == 0, "the hub takes a channel for itself");
    session(&p, 0, 10, 100, 1);
    session(&p, 1, 11, 101, 2);
    passes(&p.pad, &p.hub, frame(0, ATTACH), HISPROAT_ATTACH, 100);
    passes(&p.hub, &p.pad, frame(1, ATTACH), HISPROAT_ATTACH, 10);
    passes(&p.hub, &p.pad, frame(1, FLOW), HISPROAT_FLOW, 10);
    for (int i = 0; i < 10; i++) {
        passes(&p.pad, &p.hub, frame(0, TRANSFER), HISPROAT_TRANSFER, 100);
        passes(&p.pad, &p.hub, frame(1, TRANSFER), HISPROAT_TRANSFER, 101);
        heartbeats(&p);
    }
    shortened(&p);
    passes(&p.hub, &p.pad, frame(2, DISPOSITION), HISPROAT_DISPOSITION, 11);
    passes(&p.pad, &p.hub, frame(0, DETACH), HISPROAT_DETACH, 100);
    passes(&p.hub, &p.pad, frame(1, DETACH), HISPROAT_DETACH, 10);
    ends_and_late_frames(&p);
    ties_by_sending(&p);
    closes_with_waiting(&p);
    part_from(&p);
}

/* The hub closes with an error. Frames that the pad had waiting come before its Close, and the hub lets them pass. */
static void second_life(Tally *t)
{
    Pair p = introduced(t);
    session(&p, 0, 10, 100, 0);
    Piece waiting = joined(frame(0, TRANSFER), frame(0, TRANSFER)), answer = joined(waiting, frame(0, CLOSE));
    Piece told = close_with("amqp:connection:forced", "lane closed");
    Said said = close_error(&p.hub, "amqp:connection:forced", "lane closed", none());
    check(t, said.kind == HISPROAT_KIND_WROTE && same(wire(&p.hub), of(&told)), "the hub closes with an error");
    said = incoming_while(&p.pad, wire(&p.hub), of(&waiting));
    check(t, said.kind == HISPROAT_KIND_CLOSED && said.detail == 1 && said.outcome == HISPROAT_OUTCOME_REMOTE_CLOSED_WITH_ERROR, "the pad stops");
    check(t, same(wire(&p.pad), of(&answer)), "it sends what waits, and its Close");
    said = incoming(&p.hub, wire(&p.pad), 0);
    check(t, said.kind == HISPROAT_KIND_NOTHING && !said.stopped, "the hub looks at no session's frame any more");
    said = deliver(&p.pad, &p.hub, 0);
    check(t, said.kind == HISPROAT_KIND_CLOSED && said.stopped && said.outcome == HISPROAT_OUTCOME_FINE, "the hub stops with the pad's Close");
    part_from(&p);
}

/* Waiting frames that are not written still wait; frames and Closes that cross; the input ends. */
static void third_life(Tally *t)
{
    Pair p = introduced(t);
    session(&p, 0, 10, 100, 0);
    Piece flow = frame(0, FLOW), transfer = frame(0, TRANSFER), both = joined(flow, frame(0, CLOSE));
    Said said = incoming_while(&p.pad, of(&flow), of(&transfer));
    check(t, said.kind == HISPROAT_KIND_FORWARD && said.written == 0, "waiting frames go out with a Close only");
    close_order(&p.pad, none());
    said = incoming_while(&p.hub, wire(&p.pad), of(&flow));
    check(t, said.outcome == HISPROAT_OUTCOME_REMOTE_CLOSED && same(wire(&p.hub), of(&both)), "the hub sends what waits, and its Close");
    said = incoming(&p.pad, of(&flow), 0);
    check(t, said.kind == HISPROAT_KIND_REFUSED && said.detail == 20 && said.written == 0, "a frame of a session comes to the pad after its Close");
    check(t, status(&p.pad).phase == HISPROAT_PHASE_AWAITING && status(&p.pad).outcome == HISPROAT_OUTCOME_ILLEGAL_STATE, "the pad keeps the outcome");
    check(t, tick(&p.pad).refused == 20, "and takes no order any more");
    Engine other = copy_of(&p.pad), third = copy_of(&p.pad);
    said = incoming(&other, of(&flow), 0);
    check(t, said.stopped && said.outcome == HISPROAT_OUTCOME_ILLEGAL_STATE, "one more frame of a session stops it");
    said = incoming(&third, (Bytes){ both.at + flow.len, both.len - flow.len }, 0);
    check(t, said.kind == HISPROAT_KIND_CLOSED && said.stopped && said.outcome == HISPROAT_OUTCOME_ILLEGAL_STATE, "and so does the hub's Close");
    drop_engine(&other);
    drop_engine(&third);
    check(t, end_of_input(&p.pad).outcome == HISPROAT_OUTCOME_TRANSPORT_ERROR, "the input ends before the hub's Close");
    part_from(&p);
}

static void fourth_life(Tally *t)
{
    Pair p = introduced(t);
    Piece told = close_with("amqp:illegal-state", "");
    Said said = end_of_input(&p.hub);
    check(t, said.stopped && said.kind == HISPROAT_KIND_NONE && said.outcome == HISPROAT_OUTCOME_TRANSPORT_ERROR, "the hub's input ends");
    check(t, same(wire(&p.hub), of(&told)), "the pad is told, if it still reads");
    said = deliver(&p.hub, &p.pad, 0);
    check(t, said.kind == HISPROAT_KIND_CLOSED && said.outcome == HISPROAT_OUTCOME_REMOTE_CLOSED_WITH_ERROR, "the pad stops");
    part_from(&p);
}

static void conversation(Tally *t)
{
    t->part = "conversation";
    first_life(t);
    second_life(t);
    third_life(t);
    fourth_life(t);
}

/* ---- Refusals: every number that an event returns. perform() checks that nothing changes.
 * 4, 24, 25 and 27 are never returned: they occur inside an event, and are in the part on outcomes. */

static Engine awaiting(Tally *t)
{
    Engine e = opened(t, 1);
    not_delivered(&e, 1);
    check(t, status(&e).phase == HISPROAT_PHASE_AWAITING, "an engine that awaits the peer's Close");
    return e;
}

static Engine stopped(Tally *t)
{
    Piece close = frame(0, CLOSE);
    Engine e = opened(t, 1);
    incoming(&e, of(&close), 0);
    check(t, status(&e).phase == HISPROAT_PHASE_STOPPED, "an engine that has stopped");
    return e;
}

/* Frames that a session cannot send, with the refusal of each. */
static const struct {
    const char *digits;
    uint8_t number;
} UNSENDABLE[] = {
    { "000000", 1 },                                                     /* under 4 bytes */
    { "0000000D 02000000 005317 45", 1 },                                /* under its length */
    { "00000007 02000000", 3 },                                          /* a length under 8 */
    { "0000000C 03000000 005317 45", 5 },                                /* a doff that is not 2 */
    { "0000000C 02010000 005317 45", 5 },                                /* a type that is not 0 */
    { "00000008 02000000", 6 },                                          /* no body */
    { "0000000C 02000000 005318 45", 6 },                                /* a Close */
    { "0000000D 02000000 005317 45 40", 6 },                             /* bytes after an End */
    { "0000000C 02000000 005311 45", 6 },                                /* a Begin without its fields */
    { "00000014 02000000 005311 C00704 600008 43 43 43", 7 },            /* a remote-channel above the local channel-max, which is 7 */
    { "00000012 02000000 005316 C0 05 03 43 41 0053", 6 },               /* an error that is cut off */
    { "00000014 02000000 005314 C0 07 01 B0 FFFFFFFF 40 ", 6 },          /* more bytes claimed than there are */
};

static void unsendable(Tally *t)
{
    Engine e = opened(t, 1);
    Piece good = frame(0, TRANSFER), close = frame(0, CLOSE);
    for (size_t i = 0; i < sizeof UNSENDABLE / sizeof UNSENDABLE[0]; i++) {
        Piece bad = hex(UNSENDABLE[i].digits), second = joined(good, bad);
        uint8_t number = UNSENDABLE[i].number;
        const char *what = UNSENDABLE[i].digits;
        refused(&e, (Order){ .event = ON_OUTGOING, .input = of(&bad) }, number, what);
        refused(&e, (Order){ .event = ON_INCOMING, .input = of(&close), .waiting = of(&second) }, number, what);
        refused(&e, (Order){ .event = ON_CLOSE, .waiting = of(&second) }, number, what);
        refused(&e, (Order){ .event = ON_CLOSE_WITH_ERROR, .input = text("a:b"), .waiting = of(&bad) }, number, what);
    }
    drop_engine(&e);
}

static void texts(Tally *t)
{
    static const char *const BAD_UTF8[] = { "\xC3", "\xC3\x28", "\xE2\x82", "\xC0\xAF", "\xED\xA0\x80", "\xF5\x80\x80\x80", "\xFF" };
    char long_text[257];
    Engine e = opened(t, 0), end = stopped(t);
    memset(long_text, 'x', sizeof long_text - 1);
    long_text[sizeof long_text - 1] = 0;
    refused(&e, (Order){ .event = ON_CLOSE_WITH_ERROR, .input = text(long_text) }, 8, "a condition of 256 bytes");
    refused(&e, (Order){ .event = ON_CLOSE_WITH_ERROR, .input = text("caf\xC3\xA9") }, 8, "a condition that is not ASCII");
    refused(&e, (Order){ .event = ON_CLOSE_WITH_ERROR, .input = text("a:b"), .flag = 1, .description = text(long_text) }, 8, "a description of 256 bytes");
    for (size_t i = 0; i < sizeof BAD_UTF8 / sizeof BAD_UTF8[0]; i++)
        refused(&e, (Order){ .event = ON_CLOSE_WITH_ERROR, .input = text("a:b"), .flag = 2, .description = text(BAD_UTF8[i]) }, 8, "no UTF-8");
    refused(&end, (Order){ .event = ON_CLOSE_WITH_ERROR, .input = text("\x80") }, 8, "8 comes before 20");
    refused(&e, (Order){ .event = ON_CLOSE_WITH_ERROR, .input = text("\x80"), .output_short = 1 }, 9, "9 comes before 8");
    refused(&e, (Order){ .event = ON_CLOSE_WITH_ERROR, .input = text(long_text), .output_short = 1 }, 9, "9 comes before 8");
    Said said = perform(&e, (Order){ .event = ON_CLOSE_WITH_ERROR, .input = text("a:b"), .description = text("\xFF") });
    check(t, said.kind == HISPROAT_KIND_WROTE, "without its flag a description is not looked at");
    drop_engine(&e);
    drop_engine(&end);
}

static void every_event(Tally *t)
{
    Engine fresh = new_engine(t, 0, p1()), late = awaiting(t), over = stopped(t), broken = new_engine(t, 0, p1()), unsound = new_engine(t, 0, p1());
    Piece header = hex(HEADER), transfer = frame(0, TRANSFER);
    broken.state.at[0] ^= 1;
    unsound.state.at[AT_STATE] = HISPROAT_STATE_OPENED; /* and no channel-max is agreed */
    for (int i = 0; i < EVENTS; i++) {
        Order order = any_order((Event)i, &header, &transfer);
        refused(&broken, order, 8, "bytes that are no engine");
        refused(&unsound, order, 8, "bytes that are no sound engine");
        refused(&over, order, 20, "every event of a stopped engine");
        if (i != ON_INCOMING && i != ON_END_OF_INPUT)
            refused(&late, order, 20, "every other event of an engine that awaits a Close");
        order.answer_short = 1;
        refused(&fresh, order, 9, "an answer of 41 bytes");
        refused(&broken, order, 9, "9 for the answer comes before 8 for the state");
        refused(&unsound, order, 9, "9 for the answer comes before 8 for the state");
        refused(&over, order, 9, "9 for the answer comes before 20");
        order.answer_short = HISPROAT_ANSWER_SIZE;
        refused(&fresh, order, 9, "an answer of no bytes");
        order.answer_short = 0;
        order.output_short = 1;
        if (writes((Event)i)) {
            refused(&fresh, order, 9, "an output that is a byte too small");
            refused(&broken, order, 9, "9 for the output comes before 8 for the state");
            refused(&unsound, order, 9, "9 for the output comes before 8 for the state");
            refused(&over, order, 9, "9 for the output comes before 20");
        }
    }
    drop_engine(&fresh);
    drop_engine(&late);
    drop_engine(&over);
    drop_engine(&broken);
    drop_engine(&unsound);
}

static void by_state(Tally *t)
{
    Engine e = new_engine(t, 0, p1()), over = stopped(t);
    Piece header = hex(HEADER), short_header = hex("414D5150 000100"), bad_header = hex("414D5151 00010000"), peer_open = frame(0, OPEN_OF_H);
    Piece part = hex("0000000C 02000000 005317");
    refused(&e, (Order){ .event = ON_RECEIVE_HEADER, .input = of(&short_header) }, 1, "seven bytes of a header");
    refused(&e, (Order){ .event = ON_RECEIVE_HEADER }, 1, "no byte of a header");
    refused(&e, (Order){ .event = ON_RECEIVE_HEADER, .input = of(&bad_header) }, 2, "a malformed header");
    refused(&e, (Order){ .event = ON_INCOMING }, 1, "no byte of a frame");
    refused(&e, (Order){ .event = ON_INCOMING, .input = of(&part) }, 1, "a byte of a frame is missing");
    refused(&over, (Order){ .event = ON_INCOMING, .input = of(&part) }, 20, "20 for the phase comes before 1");
    refused(&e, (Order){ .event = ON_ALLOCATE }, 21, "a channel before the peer's Open");
    refused(&e, (Order){ .event = ON_DEALLOCATE }, 26, "freeing what is not taken");
    refused(&e, (Order){ .event = ON_SEND_OPEN }, 20, "an Open before the headers");
    open_with(&e, of(&peer_open));
    refused(&e, (Order){ .event = ON_SEND_HEADER }, 20, "a header in Opened");
    refused(&e, (Order){ .event = ON_RECEIVE_HEADER, .input = of(&header) }, 20, "a header that comes in Opened");
    refused(&e, (Order){ .event = ON_SEND_OPEN }, 20, "an Open in Opened");
    for (uint32_t i = 0; i < 4; i++)
        allocate(&e, i);
    refused(&e, (Order){ .event = ON_ALLOCATE }, 23, "a fifth channel of four");
    refused(&e, (Order){ .event = ON_DEALLOCATE, .number = 65535 }, 26, "freeing a channel that there is not");
    close_order(&e, none());
    refused(&e, (Order){ .event = ON_ALLOCATE }, 22, "a channel after the Close");
    check(t, deallocate(&e, 3).number == 3, "channels are freed in every state");
    drop_engine(&e);
    drop_engine(&over);
}

typedef uint8_t Maker(uint8_t *, size_t, const uint8_t *, size_t, uint32_t, uint16_t, uint8_t, uint32_t);

static void makes(Tally *t, Maker *make, Bytes id, uint32_t max_frame_size, uint16_t channel_max, uint8_t returned, const char *what)
{
    Slice state = lend_pattern(t, HISPROAT_STATE_SIZE(channel_max)), lent_id = lend(t, id);
    check(t, make(state.at, state.len, lent_id.at, lent_id.len, max_frame_size, channel_max, 1, 0xFFFFFFFF) == returned, what);
    check(t, is_patterned(&state, 0) == (returned != 0), "a refusal leaves the state");
    give_back(t, &state);
    give_back(t, &lent_id);
}

static void settings_with(Tally *t, Maker *make)
{
    uint8_t long_id[256];
    memset(long_id, 'p', sizeof long_id);
    makes(t, make, none(), 512, 0, 0, "the smallest settings");
    makes(t, make, (Bytes){ long_id, 255 }, 16384, 65535, 0, "the largest settings");
    makes(t, make, (Bytes){ long_id, 256 }, 512, 0, 8, "a container-id of 256 bytes");
    makes(t, make, text("pad \xF0\x9F\x8F\x8A"), 512, 0, 0, "a container-id of UTF-8");
    makes(t, make, text("pad \xF0\x9F\x8F"), 512, 0, 8, "a container-id that is cut off");
    makes(t, make, text("pad"), 511, 0, 8, "a max-frame-size of 511");
    makes(t, make, text("pad"), 16385, 0, 8, "a max-frame-size of 16385");
    makes(t, make, text("pad"), 0xFFFFFFFF, 0, 8, "the largest number as max-frame-size");
    makes(t, make, text("pad"), 512, 255, 0, "a channel-max of 255");
    makes(t, make, text("pad"), 512, 256, 0, "a channel-max of 256");
}

static void refusals(Tally *t)
{
    t->part = "refusals";
    unsendable(t);
    texts(t);
    every_event(t);
    by_state(t);
    settings_with(t, hisproat_dialler);
    settings_with(t, hisproat_listener);
}

/* ---- Outcomes: each of the seven, and the error path that leads there */

static void ends_with(Engine *e, Said said, uint8_t outcome, const char *what)
{
    check(e->tally, said.stopped && said.outcome == outcome, what);
    drop_engine(e);
}

/* A frame is refused inside its event: a Close tells the peer, and its Close ends the engine with the outcome that was kept. */
static void told_by_close(Engine *e, Said said, uint8_t detail, uint8_t outcome, Piece told)
{
    Tally *t = e->tally;
    Piece other = frame(0, TRANSFER), close = frame(0, CLOSE);
    check(t, said.kind == (detail ? HISPROAT_KIND_REFUSED : HISPROAT_KIND_NONE) && said.detail == detail, "what the event tells of its cause");
    check(t, !said.stopped && same(wire(e), of(&told)), "the peer is told by a Close");
    check(t, status(e).phase == HISPROAT_PHASE_AWAITING && status(e).outcome == outcome, "the outcome is kept");
    said = incoming(e, of(&other), 0);
    check(t, said.kind == HISPROAT_KIND_NOTHING && said.consumed == other.len, "other frames are not looked at");
    ends_with(e, incoming(e, of(&close), 0), outcome, "the peer's Close ends it with the outcome that was kept");
}

static void fine(Tally *t)
{
    Piece close = frame(0, CLOSE), header = hex(HEADER), sasl = hex("414D5150 03010000");
    Engine e = opened(t, 0);
    check(t, !close_order(&e, none()).stopped, "a close order does not stop an engine");
    ends_with(&e, incoming(&e, of(&close), 0), HISPROAT_OUTCOME_FINE, "closed from this side");
    e = new_engine(t, 0, p1());
    check(t, !receive_header(&e, of(&sasl)).stopped, "another protocol's header");
    Said said = tick(&e);
    check(t, said.kind == HISPROAT_KIND_END && said.written == 0, "a tick tells that the connection is over");
    ends_with(&e, said, HISPROAT_OUTCOME_FINE, "another protocol");
    e = opened(t, 0);
    close_error(&e, "amqp:connection:forced", "", none());
    ends_with(&e, end_of_input(&e), HISPROAT_OUTCOME_FINE, "the input ends after a Close with an error");
    e = new_engine(t, 0, p1());
    send_header(&e);
    receive_header(&e, of(&header));
    send_open(&e);
    close_order(&e, none());
    check(t, status(&e).state == HISPROAT_STATE_CLOSE_PIPE, "a Close before the peer's Open");
    ends_with(&e, end_of_input(&e), HISPROAT_OUTCOME_FINE, "the input ends after it");
}

/* Frames that cannot be read, with the refusal of each and how many bytes are consumed. */
static const struct {
    const char *digits;
    uint8_t detail;
    uint8_t consumed;
} UNREADABLE[] = {
    { "00000007 02000000", 3, 0 },                       /* a length under 8 */
    { "00001001 02000000", 4, 0 },                       /* a byte over the reading limit of 4096, judged before the rest is there */
    { "0000000C 03000000 00000000", 5, 12 },             /* a doff that is not 2 */
    { "00000008 02010000", 5, 8 },                       /* a type that is not 0 */
    { "0000000A 02000000 0053", 6, 10 },                 /* a body that is cut off */
    { "0000000E 02000000 00 A301 61 45 40", 6, 14 },     /* a symbolic descriptor */
    { "00000008 02000008", 7, 8 },                       /* a channel above the local channel-max, which is 7 */
};

/* A Transfer of n bytes in all, on channel 0. The caller frees it. */
static uint8_t *long_transfer(size_t n)
{
    Piece start = hex("00000000 02000000 005314 45");
    uint8_t *bytes = calloc(1, n);
    if (bytes == NULL)
        exit(2);
    memcpy(bytes, start.at, start.len);
    bytes[2] = (uint8_t)(n >> 8);
    bytes[3] = (uint8_t)n;
    return bytes;
}

static const char *const OPEN_OF_500 = "005310 C0 0A 03 A10168 40 70000001F4";

static void too_long(Tally *t)
{
    Piece open_of_500 = frame(0, OPEN_OF_500);
    uint8_t *longest = long_transfer(512), *longer = long_transfer(513);
    Engine e = new_engine(t, 0, p1());
    open_with(&e, of(&open_of_500));
    check(t, status(&e).writing_limit == 512, "a peer's limit under 512 counts as 512");
    check(t, outgoing(&e, (Bytes){ longest, 512 }).written == 512, "a frame as long as the peer takes");
    Said said = outgoing(&e, (Bytes){ longer, 513 });
    check(t, said.kind == HISPROAT_KIND_REFUSED && said.detail == HISPROAT_REFUSED_OVER_WRITING_LIMIT && said.written == 0, "a byte more is 27");
    ends_with(&e, said, HISPROAT_OUTCOME_TRANSPORT_ERROR, "a frame that is too long to send");
    free(longest);
    free(longer);
}

/* A lone frame asks for 16,384 bytes of output, however long it is. */
static void too_long_for_any(Tally *t)
{
    static const size_t LONG[] = { 16384, 16385, 20000, 65535 };
    Piece open_of_all = frame(0, "005310 C0 0A 03 A10168 40 70FFFFFFFF");
    for (size_t i = 0; i < sizeof LONG / sizeof LONG[0]; i++) {
        uint8_t *bytes = long_transfer(LONG[i]);
        Order order = { .event = ON_OUTGOING, .input = { bytes, LONG[i] }, .output_short = 1 };
        Engine e = new_engine(t, 0, p1());
        open_with(&e, of(&open_of_all));
        refused(&e, order, 9, "16,383 bytes of output");
        order.output_short = 0;
        Said said = perform(&e, order);
        if (LONG[i] <= 16384) {
            check(t, said.kind == HISPROAT_KIND_WROTE && same(wire(&e), order.input), "the longest frame, into 16,384 bytes");
            drop_engine(&e);
        } else {
            check(t, said.kind == HISPROAT_KIND_REFUSED && said.detail == HISPROAT_REFUSED_OVER_WRITING_LIMIT, "a longer one is judged, and is 27");
            ends_with(&e, said, HISPROAT_OUTCOME_TRANSPORT_ERROR, "a frame that is too long to send");
        }
        free(bytes);
    }
}

/* Waiting frames ask for twice their bytes besides, and for no byte more. */
static void waiting_room(Tally *t)
{
    Piece close = frame(0, CLOSE), waiting = joined(frame(0, TRANSFER), frame(0, END)), all = joined(waiting, close);
    Order orders[] = { { .event = ON_INCOMING, .input = of(&close) }, { .event = ON_CLOSE }, { .event = ON_CLOSE_WITH_ERROR, .input = text("a:b") } };
    for (size_t i = 0; i < 3; i++) {
        Engine e = opened(t, 1);
        Order order = orders[i];
        order.waiting = of(&waiting);
        order.output_short = 1;
        refused(&e, order, 9, "a byte less than 16,384 and twice the waiting frames");
        order.output_short = 0;
        Said said = perform(&e, order);
        check(t, said.refused == 0 && e.wire_len > waiting.len && memcmp(e.wire, all.at, waiting.len) == 0, "the waiting frames go out");
        drop_engine(&e);
    }
}

/* A frame, and behind it one of 513 bytes, which is too long for a peer that takes 500. */
static Piece and_too_long(Piece first)
{
    uint8_t *longer = long_transfer(513);
    memcpy(first.at + first.len, longer, 513);
    first.len += 513;
    free(longer);
    return first;
}

/* Waiting frames that cannot be sent: those before them go out, and the error path decides the rest. */
static void waiting_unsent(Tally *t)
{
    Piece open_of_500 = frame(0, OPEN_OF_500), close = frame(0, CLOSE), good = frame(0, TRANSFER), waiting = and_too_long(good), both = joined(good, begin_for(2, 1));
    Piece told = close_with("amqp:not-found", "Outgoing channel is not found"), after_good = joined(good, told);
    Engine closing = new_engine(t, 1, p1()), closed = new_engine(t, 1, p1());
    open_with(&closing, of(&open_of_500));
    open_with(&closed, of(&open_of_500));
    Said said = close_order(&closing, of(&waiting));
    check(t, said.kind == HISPROAT_KIND_REFUSED && said.detail == 27 && same(wire(&closing), of(&good)), "a waiting frame that is too long, at a close order");
    ends_with(&closing, said, HISPROAT_OUTCOME_TRANSPORT_ERROR, "no Close is sent");
    said = incoming_while(&closed, of(&close), of(&waiting));
    check(t, said.kind == HISPROAT_KIND_CLOSED && same(wire(&closed), of(&good)), "a waiting frame that is too long, at the peer's Close");
    ends_with(&closed, said, HISPROAT_OUTCOME_TRANSPORT_ERROR, "no Close is sent");
    closed = opened(t, 1);
    said = incoming_while(&closed, of(&close), of(&both));
    check(t, said.kind == HISPROAT_KIND_CLOSED && same(wire(&closed), of(&after_good)), "a waiting Begin on a channel that is not taken");
    ends_with(&closed, said, HISPROAT_OUTCOME_NOT_FOUND, "the peer's Close is answered with the error");
}

static void transport_error(Tally *t)
{
    for (size_t i = 0; i < sizeof UNREADABLE / sizeof UNREADABLE[0]; i++) {
        Engine e = opened(t, 0);
        Piece bad = hex(UNREADABLE[i].digits);
        Said said = incoming(&e, of(&bad), 0);
        check(t, said.kind == HISPROAT_KIND_REFUSED && said.detail == UNREADABLE[i].detail, UNREADABLE[i].digits);
        check(t, said.consumed == UNREADABLE[i].consumed && said.written == 0, "what it consumes; the peer is told nothing");
        ends_with(&e, said, HISPROAT_OUTCOME_TRANSPORT_ERROR, "a frame that cannot be read");
    }
    too_long(t);
    too_long_for_any(t);
    waiting_room(t);
    waiting_unsent(t);
    Engine e = awaiting(t);
    ends_with(&e, end_of_input(&e), HISPROAT_OUTCOME_TRANSPORT_ERROR, "the input ends while the peer's Close is awaited");
    e = opened(t, 0);
    close_order(&e, none());
    ends_with(&e, end_of_input(&e), HISPROAT_OUTCOME_TRANSPORT_ERROR, "the input ends after a Close without an error, which is not answered");
}

static void illegal_state(Tally *t)
{
    Piece peer_open = frame(0, OPEN_OF_H), transfer = frame(0, TRANSFER);
    Engine e = opened(t, 0);
    told_by_close(&e, incoming(&e, of(&peer_open), 0), 20, HISPROAT_OUTCOME_ILLEGAL_STATE, close_with("amqp:illegal-state", ""));
    e = new_engine(t, 0, p1());
    Said said = incoming(&e, of(&peer_open), 0);
    check(t, said.kind == HISPROAT_KIND_REFUSED && said.detail == 20 && said.written == 0, "an Open before the headers");
    ends_with(&e, said, HISPROAT_OUTCOME_ILLEGAL_STATE, "there is nothing to close yet");
    e = new_engine(t, 0, p1());
    said = outgoing(&e, of(&transfer));
    check(t, said.kind == HISPROAT_KIND_REFUSED && said.detail == 20, "a session's frame is to go out before the Opens");
    ends_with(&e, said, HISPROAT_OUTCOME_ILLEGAL_STATE, "there is nothing to close yet");
    e = new_engine(t, 1, p1());
    said = not_delivered(&e, 0);
    check(t, said.kind == HISPROAT_KIND_NONE && said.written == 0, "something is not delivered before the Opens");
    ends_with(&e, said, HISPROAT_OUTCOME_ILLEGAL_STATE, "there is nothing to close yet, whatever the first error was");
    e = new_engine(t, 1, p1());
    said = end_of_input(&e);
    check(t, said.written == 0, "the input ends before the headers");
    ends_with(&e, said, HISPROAT_OUTCOME_ILLEGAL_STATE, "there is nothing to close yet");
}

static void not_found(Tally *t)
{
    Piece attach = frame(5, ATTACH), begins = begin_for(2, 1), end = frame(6, END);
    Engine e = opened(t, 0);
    told_by_close(&e, incoming(&e, of(&attach), 0), 24, HISPROAT_OUTCOME_NOT_FOUND, close_with("amqp:not-found", ""));
    e = opened(t, 1);
    told_by_close(&e, incoming(&e, of(&end), 0), 24, HISPROAT_OUTCOME_NOT_FOUND, close_with("amqp:not-found", ""));
    e = opened(t, 1);
    told_by_close(&e, outgoing(&e, of(&begins)), 24, HISPROAT_OUTCOME_NOT_FOUND, close_with("amqp:not-found", "Outgoing channel is not found"));
    e = opened(t, 1);
    told_by_close(&e, not_delivered(&e, 0), 0, HISPROAT_OUTCOME_NOT_FOUND, close_with("amqp:not-found", "Session is not found"));
    e = opened(t, 0);
    told_by_close(&e, not_delivered(&e, 1), 0, HISPROAT_OUTCOME_NOT_FOUND, close_with("amqp:not-found", "Session is not found"));
}

static void not_implemented(Tally *t)
{
    Piece begins = begin(0);
    Engine e = opened(t, 0);
    told_by_close(&e, incoming(&e, of(&begins), 0), 25, HISPROAT_OUTCOME_NOT_IMPLEMENTED,
                  close_with("amqp:not-implemented", "Remotely initiazted session is not supported yet"));
    e = opened(t, 1);
    for (uint32_t i = 0; i < 4; i++)
        check(t, incoming(&e, of(&begins), i).channel == i, "a listener takes sessions while it has channels");
    told_by_close(&e, incoming(&e, of(&begins), 4), 25, HISPROAT_OUTCOME_NOT_IMPLEMENTED, close_with("amqp:not-implemented", ""));
    e = opened(t, 1);
    told_by_close(&e, not_delivered(&e, 255), 0, HISPROAT_OUTCOME_NOT_IMPLEMENTED, close_with("amqp:not-implemented", ""));
}

static void remote_closed(Tally *t)
{
    Piece close = frame(0, CLOSE), close_error_frame = frame(0, CLOSE_WITH_ERROR);
    Engine e = opened(t, 0);
    Said said = incoming(&e, of(&close), 0);
    check(t, said.kind == HISPROAT_KIND_CLOSED && said.detail == 0 && same(wire(&e), of(&close)), "the peer closes, and is answered");
    ends_with(&e, said, HISPROAT_OUTCOME_REMOTE_CLOSED, "closed by the peer");
    e = opened(t, 0);
    said = incoming(&e, of(&close_error_frame), 0);
    check(t, said.kind == HISPROAT_KIND_CLOSED && said.detail == 1 && same(wire(&e), of(&close)), "the peer closes with an error, and is answered");
    ends_with(&e, said, HISPROAT_OUTCOME_REMOTE_CLOSED_WITH_ERROR, "closed by the peer with an error");
    e = awaiting(t);
    said = incoming(&e, of(&close_error_frame), 0);
    check(t, said.written == 0, "a Close that was awaited is not answered");
    ends_with(&e, said, HISPROAT_OUTCOME_REMOTE_CLOSED_WITH_ERROR, "its error is the outcome, in the place of the one that was kept");
}

static void outcomes(Tally *t)
{
    t->part = "outcomes";
    fine(t);
    transport_error(t);
    illegal_state(t);
    not_found(t);
    not_implemented(t);
    remote_closed(t);
}

/* ---- Kept as in the Rust, against Part 2: the rows of docs/DIFFERENCES.md, and what the header says about them */

/* A listener with one session of the peer's, on the peer's channel 0 and with the handle 100. */
static Engine with_session(Tally *t)
{
    Engine e = opened(t, 1);
    Piece begins = begin(0), answer = begin_for(0, 0);
    check(t, incoming(&e, of(&begins), 100).kind == HISPROAT_KIND_BEGAN, "the peer begins a session");
    check(t, outgoing(&e, of(&answer)).kind == HISPROAT_KIND_WROTE, "which is answered");
    return e;
}

/* After a close order the frames that are still on their way are 20, the first one as well as the next. */
static void closed_under_traffic(Tally *t)
{
    Piece flow = hex("0000000C 02000000 005313 45"), transfer = frame(0, TRANSFER);
    Engine e = with_session(t);
    close_order(&e, none());
    Said said = incoming(&e, of(&flow), 0);
    check(t, said.kind == HISPROAT_KIND_REFUSED && said.detail == 20 && !said.stopped && said.written == 0, "a session's frame after the close order");
    check(t, said.number == 0 && said.body_length == 0, "it is not handed on");
    refused(&e, (Order){ .event = ON_OUTGOING, .input = of(&transfer) }, 20, "nothing goes out while the Close is awaited");
    ends_with(&e, incoming(&e, of(&flow), 0), HISPROAT_OUTCOME_ILLEGAL_STATE, "the next one stops the engine");
    e = with_session(t);
    close_order(&e, none());
    said = outgoing(&e, of(&transfer));
    check(t, said.kind == HISPROAT_KIND_REFUSED && said.detail == 20 && said.written == 0, "a frame to be sent after the close order");
    check(t, status(&e).phase == HISPROAT_PHASE_AWAITING && status(&e).outcome == HISPROAT_OUTCOME_ILLEGAL_STATE, "is an error of this side's own");
    drop_engine(&e);
}

/* The two ways to a clean end: the sessions end first, or the Close has an error, after which frames are passed over. */
static void closed_cleanly(Tally *t)
{
    Piece end = frame(0, END), flow = frame(0, FLOW), close = frame(0, CLOSE);
    Engine e = with_session(t);
    check(t, outgoing(&e, of(&end)).kind == HISPROAT_KIND_WROTE, "this side ends the session");
    check(t, incoming(&e, of(&flow), 0).kind == HISPROAT_KIND_FORWARD, "frames still come");
    check(t, incoming(&e, of(&end), 0).detail == HISPROAT_END, "until the peer's End");
    close_order(&e, none());
    ends_with(&e, incoming(&e, of(&close), 0), HISPROAT_OUTCOME_FINE, "a close order after the sessions have ended");
    e = with_session(t);
    close_error(&e, "amqp:connection:forced", "", none());
    check(t, incoming(&e, of(&flow), 0).kind == HISPROAT_KIND_NOTHING, "after a Close with an error a frame is passed over");
    ends_with(&e, incoming(&e, of(&close), 0), HISPROAT_OUTCOME_FINE, "a close order with an error under traffic");
}

/* A Begin on a channel that is tied replaces the tie. */
static void tie_replaced(Tally *t)
{
    Piece first = hex("00000014 02000005 005311 C00704 600002 434343"), second = hex("00000014 02000005 005311 C00704 600001 434343");
    Piece also = begin_for(6, 1), attach = frame(5, ATTACH), end = frame(5, END), begins = begin(0);
    Engine e = wall_opened(t, 4);
    check(t, incoming(&e, of(&first), 0).number == 12 && tied_handle(&e, 5) == 12, "a Begin ties a channel");
    check(t, incoming(&e, of(&second), 0).number == 11 && tied_handle(&e, 5) == 11, "a second one on the same channel ties it to another handle");
    check(t, incoming(&e, of(&attach), 0).number == 11, "which its frames then reach");
    check(t, incoming(&e, of(&also), 0).number == 11 && tied_handle(&e, 5) == 11 && tied_handle(&e, 6) == 11, "two channels may be tied to one handle");
    check(t, deallocate(&e, 2).number == 12 && tied_handle(&e, 5) == 11, "freeing the outgoing channel of the tie that was replaced changes nothing");
    check(t, incoming(&e, of(&end), 0).number == 11 && tied_handle(&e, 5) == -1 && tied_handle(&e, 6) == 11, "an End ends the tie of its own channel");
    drop_engine(&e);
    e = opened(t, 1);
    for (uint32_t i = 0; i < 2; i++)
        check(t, incoming(&e, of(&begins), 100 + i).kind == HISPROAT_KIND_BEGAN && tied_handle(&e, 0) == 100 + i, "a listener's new session on a tied channel");
    check(t, handle_at(&e, 0) == 100 && status(&e).taken == 2, "the outgoing channel of the first stays taken");
    drop_engine(&e);
}

/* An Open on a channel other than 0, an empty frame before it, and a max-frame-size under 512 are taken. */
static void opened_oddly(Tally *t)
{
    Piece empty = hex("00000008 02000000"), header = hex(HEADER), open_on_3 = hex("00000011 02000003 005310 C00401 A10168");
    Piece open_of_0 = hex("00000013 02000000 005310 C00603 A10168 40 43");
    Engine e = new_engine(t, 1, p1());
    receive_header(&e, of(&header));
    send_header(&e);
    check(t, incoming(&e, of(&empty), 0).kind == HISPROAT_KIND_NOTHING, "an empty frame before the Open");
    Engine other = copy_of(&e);
    check(t, incoming(&e, of(&open_on_3), 0).kind == HISPROAT_KIND_OPENED && status(&e).state == HISPROAT_STATE_OPEN_RECEIVED, "an Open on channel 3");
    check(t, status(&e).writing_limit == 16384, "without a max-frame-size, which is then 16384");
    check(t, incoming(&other, of(&open_of_0), 0).kind == HISPROAT_KIND_OPENED && status(&other).writing_limit == 512, "a max-frame-size of 0 counts as 512");
    drop_engine(&e);
    drop_engine(&other);
}

/* A dialler takes no session that the peer begins. */
static void session_not_taken(Tally *t)
{
    Piece of_proton = hex("0000001A 02000000 005311 C00D04 40 43 707FFFFFFF 707FFFFFFF");
    Engine e = opened(t, 0);
    Said said = incoming(&e, of(&of_proton), 7);
    check(t, said.kind == HISPROAT_KIND_REFUSED && said.detail == HISPROAT_REFUSED_NOT_IMPLEMENTED, "a Begin without a remote-channel, as Proton's server writes it");
    check(t, status(&e).phase == HISPROAT_PHASE_AWAITING && status(&e).outcome == HISPROAT_OUTCOME_NOT_IMPLEMENTED, "it closes the connection");
    drop_engine(&e);
}

static void kept(Tally *t)
{
    t->part = "kept as in the Rust";
    closed_under_traffic(t);
    closed_cleanly(t);
    tie_replaced(t);
    opened_oddly(t);
    session_not_taken(t);
}

int main(int argc, char **argv)
{
    Tally t = { .part = "" }, totals = { .part = "" };
    void (*const parts[])(Tally *) = { wall, conversation, refusals, outcomes, kept, sizes, fresh_tables, ties };
    void (*const long_parts[])(Tally *, int) = { state_bytes, altered_tables, tie_walks, many_channels };
    size_t count = sizeof parts / sizeof parts[0];
    for (size_t i = 0; i < count; i++) {
        parts[i](&t);
        part_done(&t, &totals);
    }
    for (size_t i = 0; i < sizeof long_parts / sizeof long_parts[0]; i++) {
        long_parts[i](&t, argc > 1 && strcmp(argv[1], "all") == 0);
        part_done(&t, &totals);
    }
    /* the short ones again, with guard bytes around every lent slice */
    t.guard = 64;
    for (size_t i = 0; i < count; i++)
        parts[i](&t);
    t.part = "guards";
    part_done(&t, &totals);
    printf("%lu checks, %lu wrong\n", totals.checks, totals.wrong);
    return totals.wrong > 0;
}
