/*
 * A hub that counts the presses of pads, one engine for each pad's connection. Usage: hub RECORDING
 *
 * The pads' bytes come from a recording (tests/make_pads.py makes it and tells its story): pieces of arbitrary size, as sockets would give them. What the hub
 * would send is counted and dropped. A hub with a clock would tick each line at least twice in the pad's idle-time-out; here a tick comes every few pieces.
 *
 * The hub gives each session a handle: the number of its row in a table. A session's presses are the Transfers that its engine hands on with that handle.
 *
 * Pad B is replaced by pad D on lane 2. D dials in on a connection of its own while B's last presses are still on their way. As soon as D's session begins, the hub
 * ends B's session: it sends an End. It goes on reading B's connection until B's own End: frames that B sent before it heard of its end are late, and the engine still
 * gives them B's handle. So they are counted for B, and none for D. Only when B's End has come does the hub free the channel that it used: with the channel the engine
 * drops the tie by which B's frames are known as the session's, and a frame that came after that would close B's connection.
 * Pad E is replaced by pad I on lane 4 in the same way, but E goes on pressing after its own End. These frames belong to no session: they are counted for nobody, and
 * the engine closes E's connection. I hears nothing of it.
 * Later pad A ends its session and begins another on the same channel: that is a new handle, and a new row.
 *
 * A pad that does something wrong ends its own line, and the others go on. There are three ways:
 * - a call is refused, as for the header of pad G, or the header is another protocol's, as that of F: the hub hangs up;
 * - the engine has stopped, as for a frame of H that is too long: the hub sends what was written, and hangs up;
 * - the engine has written a Close that tells the pad, and awaits the pad's Close, as for the presses of E that belong to no session. Until then it takes frames, which
 *   are counted no more, and the end of the input. It refuses ticks and orders, so the hub asks for the phase before it makes one.
 * What was wrong first is told at the end, in words, beside the pad.
 */
#include "hisproat.h"

#include <stdio.h>
#include <stdlib.h>
#include <string.h>

enum { PADS = 9, LANES = 6, SESSIONS_EACH = 4, SESSIONS = PADS * SESSIONS_EACH, CHANNEL_MAX = 511, MAX_FRAME = 1024, MAX_PIECE = 255, TICK_EVERY = 32 };

typedef struct {
    const char *name;
    unsigned lane;
} Pad;

static const Pad PAD[PADS] = { { "A", 1 }, { "B", 2 }, { "C", 3 }, { "D", 2 }, { "E", 4 }, { "F", 5 }, { "G", 5 }, { "H", 6 }, { "I", 4 } };

typedef struct {
    unsigned pad;
    uint16_t channel; /* the outgoing one */
    int is_open;      /* the hub has not sent an End */
    unsigned presses;
    unsigned late; /* of these, those that came after the hub's End */
} Session;

/* A connection: its engine, what came and is not yet a whole frame, and how it ended. */
typedef struct {
    uint8_t state[HISPROAT_STATE_SIZE(CHANNEL_MAX)];
    uint8_t held[MAX_FRAME + MAX_PIECE];
    size_t held_len;
    int has_header;
    int is_over;
    uint8_t outcome;
    const char *fault; /* what was wrong first; NULL while nothing was */
    size_t bytes_in;
    size_t bytes_out;
} Line;

typedef struct {
    Line lines[PADS];
    Session sessions[SESSIONS];
    uint32_t session_count;
    uint8_t output[HISPROAT_OUTPUT_ROOM];
    uint8_t answer[HISPROAT_ANSWER_SIZE];
} Hub;

static void fail(const char *what, unsigned number)
{
    fprintf(stderr, "hub: %s: %u\n", what, number);
    exit(1);
}

/* ---- After each call: what was written is sent, and the line is over where the engine has stopped or refused the call */

/* What was wrong with a frame, in words: the detail of KIND_REFUSED. */
static const char *fault_of(uint8_t detail)
{
    switch (detail) {
    case HISPROAT_REFUSED_LENGTH_UNDER_8:
    case HISPROAT_REFUSED_FRAME_TYPE:
    case HISPROAT_REFUSED_BODY_MALFORMED:
        return "it sent a frame that is malformed";
    case HISPROAT_REFUSED_OVER_READING_LIMIT:
        return "it sent a frame that is too long";
    case HISPROAT_REFUSED_CHANNEL_TOO_HIGH:
        return "it sent a frame on a channel that is too high";
    case HISPROAT_REFUSED_ILLEGAL_STATE:
        return "it sent a frame out of turn";
    case HISPROAT_REFUSED_NOT_FOUND:
        return "it sent a frame that belongs to no session";
    case HISPROAT_REFUSED_NOT_IMPLEMENTED:
        return "it began too many sessions";
    default:
        return "a frame of the hub could not be sent to it";
    }
}

/* The first fault of a line is the one that is told. */
static void blame(Line *line, const char *fault)
{
    if (line->fault == NULL)
        line->fault = fault;
}

/* A hub with sockets would close this pad's. */
static void hang_up(Line *line, const char *fault)
{
    blame(line, fault);
    line->is_over = 1;
}

static void done(Hub *hub, Line *line, uint8_t refused)
{
    const uint8_t *answer = hub->answer;
    if (refused != HISPROAT_OK) {
        hang_up(line, refused == HISPROAT_REFUSED_HEADER_MALFORMED ? "it does not begin with an AMQP header" : "a call of the hub was refused");
        return;
    }
    /* a hub with sockets would send hub->output here */
    line->bytes_out += hisproat_written(answer);
    if (answer[HISPROAT_AT_KIND] == HISPROAT_KIND_REFUSED)
        blame(line, fault_of(answer[HISPROAT_AT_DETAIL]));
    if (answer[HISPROAT_AT_STOPPED]) {
        line->is_over = 1;
        line->outcome = answer[HISPROAT_AT_OUTCOME];
    }
}

/* Whether a line takes orders: its engine is running, and neither awaits the pad's Close nor has stopped. */
static int takes_orders(const Line *line)
{
    uint8_t status[HISPROAT_STATUS_SIZE];
    return !line->is_over && hisproat_status(line->state, sizeof line->state, status, sizeof status) == HISPROAT_OK
        && status[HISPROAT_STATUS_AT_PHASE] == HISPROAT_PHASE_RUNNING;
}

static void tick(Hub *hub, Line *line)
{
    if (takes_orders(line))
        done(hub, line, hisproat_on_tick(line->state, sizeof line->state, hub->output, sizeof hub->output, hub->answer, sizeof hub->answer));
}

/* ---- Frames that the hub sends */

static void send_frame(Hub *hub, Line *line, uint16_t channel, const uint8_t *body, size_t len)
{
    uint8_t frame[64] = { 0, 0, 0, (uint8_t)(8 + len), 2, 0, (uint8_t)(channel >> 8), (uint8_t)channel };
    if (8 + len > sizeof frame)
        fail("a frame is too long", (unsigned)len);
    memcpy(frame + 8, body, len);
    if (takes_orders(line))
        done(hub, line, hisproat_on_outgoing(line->state, sizeof line->state, frame, 8 + len, hub->output, sizeof hub->output, hub->answer, sizeof hub->answer));
}

/* Begin: remote-channel, next-outgoing-id 0, both windows 100 */
static void send_begin(Hub *hub, Line *line, uint16_t channel, uint16_t remote)
{
    const uint8_t body[] = { 0x00, 0x53, 0x11, 0xC0, 0x09, 0x04, 0x60, (uint8_t)(remote >> 8), (uint8_t)remote, 0x43, 0x52, 100, 0x52, 100 };
    send_frame(hub, line, channel, body, sizeof body);
}

/* Attach: the link "presses" as its receiver, with a source and the target "lane"; then a Flow with credit for 100 presses */
static void send_attach_and_flow(Hub *hub, Line *line, uint16_t channel)
{
    static const uint8_t attach[] = { 0x00, 0x53, 0x12, 0xC0, 0x1E, 0x07, 0xA1, 7,    'p',  'r',  'e',  's',  's',  'e', 's', 0x43, 0x41, 0x40,
                                      0x40, 0x00, 0x53, 0x28, 0x45, 0x00, 0x53, 0x29, 0xC0, 0x07, 0x01, 0xA1, 4,    'l', 'a', 'n',  'e' };
    static const uint8_t flow[] = { 0x00, 0x53, 0x13, 0xC0, 0x0B, 0x07, 0x43, 0x52, 100, 0x43, 0x52, 100, 0x43, 0x43, 0x52, 100 };
    send_frame(hub, line, channel, attach, sizeof attach);
    send_frame(hub, line, channel, flow, sizeof flow);
}

/* The hub's part of a session is over: an End goes out. The pad's frames are still read, until its own End. */
static void end_session(Hub *hub, Session *session)
{
    static const uint8_t end[] = { 0x00, 0x53, 0x17, 0x45 };
    if (!session->is_open)
        return;
    session->is_open = 0;
    send_frame(hub, &hub->lines[session->pad], session->channel, end, sizeof end);
}

/* The pad's End has come, and the hub's has gone out: the channel is free for another session. */
static void free_channel(Hub *hub, Session *session)
{
    Line *line = &hub->lines[session->pad];
    if (takes_orders(line))
        done(hub, line, hisproat_on_deallocate(line->state, sizeof line->state, session->channel, hub->answer, sizeof hub->answer));
}

/* ---- What the pads send */

static unsigned sessions_of(const Hub *hub, unsigned pad)
{
    unsigned count = 0;
    for (uint32_t i = 0; i < hub->session_count; i++)
        count += hub->sessions[i].pad == pad;
    return count;
}

/* A session began, with the handle that was spare. Another session on the same lane is ended. A pad has so many rows and takes none from the others. */
static void on_began(Hub *hub, unsigned pad, uint16_t channel, uint16_t remote)
{
    Line *line = &hub->lines[pad];
    if (sessions_of(hub, pad) == SESSIONS_EACH) {
        done(hub, line, hisproat_on_not_delivered(line->state, sizeof line->state, 1, hub->output, sizeof hub->output, hub->answer, sizeof hub->answer));
        blame(line, "it began too many sessions");
        return;
    }
    for (uint32_t i = 0; i < hub->session_count; i++)
        if (PAD[hub->sessions[i].pad].lane == PAD[pad].lane)
            end_session(hub, &hub->sessions[i]);
    hub->sessions[hub->session_count] = (Session){ .pad = pad, .channel = channel, .is_open = 1 };
    hub->session_count += 1;
    send_begin(hub, line, channel, remote);
}

static void on_session_frame(Hub *hub, Line *line, uint8_t performative, Session *session)
{
    if (performative == HISPROAT_TRANSFER) {
        session->presses += 1;
        session->late += !session->is_open;
    } else if (performative == HISPROAT_ATTACH && session->is_open) {
        send_attach_and_flow(hub, line, session->channel);
    } else if (performative == HISPROAT_END) {
        end_session(hub, session);
        free_channel(hub, session);
    }
}

static void act_on(Hub *hub, unsigned pad, const uint8_t *frame)
{
    Line *line = &hub->lines[pad];
    const uint8_t *answer = hub->answer;
    switch (answer[HISPROAT_AT_KIND]) {
    case HISPROAT_KIND_OPENED:
        done(hub, line, hisproat_send_open(line->state, sizeof line->state, hub->output, sizeof hub->output, hub->answer, sizeof hub->answer));
        break;
    case HISPROAT_KIND_BEGAN:
        on_began(hub, pad, hisproat_channel(answer), (uint16_t)hisproat_number(frame + 6, 2));
        break;
    case HISPROAT_KIND_FORWARD:
        on_session_frame(hub, line, answer[HISPROAT_AT_DETAIL], &hub->sessions[hisproat_handle(answer)]);
        break;
    default:
        break;
    }
}

/* ---- From pieces to frames */

static void consume(Line *line, size_t count)
{
    line->held_len -= count;
    memmove(line->held, line->held + count, line->held_len);
}

/* Takes the pad's header, once it is there. The hub's goes back. */
static void take_header(Hub *hub, Line *line)
{
    uint8_t refused = hisproat_receive_header(line->state, sizeof line->state, line->held, line->held_len, hub->answer, sizeof hub->answer);
    if (refused == HISPROAT_REFUSED_BYTES_MISSING)
        return;
    done(hub, line, refused);
    if (line->is_over)
        return;
    if (hub->answer[HISPROAT_AT_KIND] == HISPROAT_KIND_OTHER_PROTOCOL) {
        hang_up(line, "it speaks another protocol than AMQP 1.0.0");
        return;
    }
    consume(line, hisproat_consumed(hub->answer));
    line->has_header = 1;
    done(hub, line, hisproat_send_header(line->state, sizeof line->state, hub->output, sizeof hub->output, hub->answer, sizeof hub->answer));
}

/* Hands one frame to the engine. Whether it was a whole one, and another may follow. */
static int take_frame(Hub *hub, unsigned pad)
{
    Line *line = &hub->lines[pad];
    const uint8_t nothing_waits = 0;
    uint8_t frame[8];
    uint8_t refused = hisproat_on_incoming(line->state, sizeof line->state, line->held, line->held_len, hub->session_count, &nothing_waits, 0, hub->output,
                                           sizeof hub->output, hub->answer, sizeof hub->answer);
    if (refused == HISPROAT_REFUSED_BYTES_MISSING)
        return 0;
    done(hub, line, refused);
    if (line->is_over)
        return 0;
    memcpy(frame, line->held, sizeof frame);
    consume(line, hisproat_consumed(hub->answer));
    act_on(hub, pad, frame);
    return 1;
}

static void on_piece(Hub *hub, unsigned pad, const uint8_t *bytes, size_t count)
{
    Line *line = &hub->lines[pad];
    line->bytes_in += count;
    if (line->is_over)
        return;
    memcpy(line->held + line->held_len, bytes, count);
    line->held_len += count;
    if (!line->has_header)
        take_header(hub, line);
    while (line->has_header && !line->is_over && take_frame(hub, pad))
        ;
}

/* Reads one record: its pad and its piece. Whether there was one. */
static int read_record(FILE *recording, unsigned n, unsigned *pad, uint8_t *bytes, size_t *count)
{
    uint8_t head[3];
    size_t got = fread(head, 1, sizeof head, recording);
    if (got == 0)
        return 0;
    *pad = head[0];
    *count = (size_t)hisproat_number(head + 1, 2);
    if (got < sizeof head || *pad >= PADS || *count > MAX_PIECE || fread(bytes, 1, *count, recording) != *count)
        fail("a record that is not right", n);
    return 1;
}

static void play(Hub *hub, FILE *recording)
{
    uint8_t bytes[MAX_PIECE];
    unsigned from;
    size_t count;
    for (unsigned n = 1; read_record(recording, n, &from, bytes, &count); n++) {
        on_piece(hub, from, bytes, count);
        for (unsigned pad = 0; n % TICK_EVERY == 0 && pad < PADS; pad++)
            tick(hub, &hub->lines[pad]);
    }
    for (unsigned pad = 0; pad < PADS; pad++) {
        Line *line = &hub->lines[pad];
        if (!line->is_over)
            done(hub, line, hisproat_on_end_of_input(line->state, sizeof line->state, hub->output, sizeof hub->output, hub->answer, sizeof hub->answer));
    }
}

/* ---- The tables */

static void print_sessions(const Hub *hub)
{
    printf("session  pad  lane  presses  of these late\n");
    for (uint32_t i = 0; i < hub->session_count; i++) {
        const Session *s = &hub->sessions[i];
        printf("%7u  %-3s  %4u  %7u  %13u\n", i, PAD[s->pad].name, PAD[s->pad].lane, s->presses, s->late);
    }
}

static void print_lanes(const Hub *hub)
{
    printf("\nlane  presses\n");
    for (unsigned lane = 1; lane <= LANES; lane++) {
        unsigned presses = 0;
        for (uint32_t i = 0; i < hub->session_count; i++)
            presses += PAD[hub->sessions[i].pad].lane == lane ? hub->sessions[i].presses : 0;
        printf("%4u  %7u\n", lane, presses);
    }
}

/* How a line without a fault ended. */
static const char *end_of(const Line *line)
{
    if (line->bytes_in == 0)
        return "it never came";
    if (line->outcome == HISPROAT_OUTCOME_REMOTE_CLOSED)
        return "closed by the pad";
    if (line->outcome == HISPROAT_OUTCOME_REMOTE_CLOSED_WITH_ERROR)
        return "closed by the pad with an error";
    return "switched off: no Close came";
}

static void print_pads(const Hub *hub)
{
    printf("\npad  bytes in  bytes out  ended\n");
    for (unsigned pad = 0; pad < PADS; pad++) {
        const Line *line = &hub->lines[pad];
        printf("%-3s  %8zu  %9zu  %s%s\n", PAD[pad].name, line->bytes_in, line->bytes_out, line->fault ? "error: " : "", line->fault ? line->fault : end_of(line));
    }
}

int main(int argc, char **argv)
{
    static Hub hub;
    FILE *recording = argc == 2 ? fopen(argv[1], "rb") : NULL;
    if (recording == NULL) {
        fprintf(stderr, "usage: hub RECORDING\n");
        return 2;
    }
    for (unsigned pad = 0; pad < PADS; pad++) {
        uint8_t refused = hisproat_listener(hub.lines[pad].state, sizeof hub.lines[pad].state, (const uint8_t *)"hub", 3, MAX_FRAME, CHANNEL_MAX, 1, 30000);
        if (refused != HISPROAT_OK)
            fail("the settings", refused);
    }
    play(&hub, recording);
    fclose(recording);
    print_sessions(&hub);
    print_lanes(&hub);
    print_pads(&hub);
    return 0;
}
