/*
 * What the tests in C stand on: lent slices that are watched, engines that are driven through the C interface, and frames made by hand.
 * Every call is made on slices of exactly their size, so that a tool that watches memory sees each byte that is read or written beside them.
 */
#ifndef RIG_H
#define RIG_H

#include "hisproat.h"

/* How many checks there were, and how many were wrong, in the part that runs. `guard` bytes stand before and after each lent slice and must stay as they are. */
typedef struct {
    const char *part;
    unsigned long checks;
    unsigned long wrong;
    size_t guard;
} Tally;

void check(Tally *tally, int holds, const char *what);

/* Ends the part: one line with its name and how many checks it had. Adds them to the totals and starts from 0. */
void part_done(Tally *tally, Tally *totals);

/* ---- Bytes */

typedef struct {
    const uint8_t *at;
    size_t len;
} Bytes;

Bytes none(void);
Bytes text(const char *s);
int same(Bytes a, Bytes b);

/* A short piece of protocol that a test makes. */
typedef struct {
    uint8_t at[1200];
    size_t len;
} Piece;

Bytes of(const Piece *piece);

/* The bytes that hexadecimal digits stand for; blanks between them are skipped. */
Piece hex(const char *digits);

/* A frame on a channel, its body in hexadecimal digits. */
Piece frame(uint16_t channel, const char *body);

/* Two pieces one after the other. */
Piece joined(Piece first, Piece second);

/* A Begin without, and with, a remote-channel; and a Close with an error as the engine writes it. An empty description is none. */
Piece begin(uint16_t channel);
Piece begin_for(uint16_t channel, uint16_t remote);
Piece close_with(const char *condition, const char *description);

#define HEADER "414D5150 00010000"
#define ATTACH "005312 45"
#define FLOW "005313 45"
#define TRANSFER "005314 C0 08 05 43 43 A00100 43 42 005377 5201"
#define DISPOSITION "005315 45"
#define DETACH "005316 45"
#define END "005317 45"
#define CLOSE "005318 45"
#define CLOSE_WITH_ERROR "005318 C0 0D 01 00531D C0 07 01 A3 04 6661696C"
#define OPEN_OF_H "005310 C0 09 04 A10168 40 40 600003"

/* ---- Lent slices */

typedef struct {
    uint8_t *block;
    uint8_t *at;
    size_t len;
} Slice;

/* A slice with these bytes, and one with a pattern that `is_patterned` knows again from the n-th byte on. */
Slice lend(const Tally *tally, Bytes bytes);
Slice lend_pattern(const Tally *tally, size_t len);
int is_patterned(const Slice *slice, size_t from);

/* Checks the guards and frees the slice. */
void give_back(Tally *tally, Slice *slice);

/* ---- Engines */

typedef struct {
    Tally *tally;
    Slice state;
    /* what the last call wrote */
    uint8_t wire[HISPROAT_OUTPUT_ROOM];
    size_t wire_len;
} Engine;

typedef struct {
    const char *container_id;
    uint32_t max_frame_size;
    uint16_t channel_max;
    uint8_t has_idle_time_out;
    uint32_t idle_time_out;
} Settings;

/* container p1, max-frame-size 4096, channel-max 7, no idle-time-out */
Settings p1(void);

/* In a state of exactly its size, with a pattern in it; or in this one, whatever it has. */
Engine new_engine(Tally *tally, int is_listener, Settings settings);
Engine new_engine_in(Tally *tally, Slice state, int is_listener, Settings settings);
void drop_engine(Engine *engine);
Bytes wire(const Engine *engine);

/* A new engine whose state is as this one's. */
Engine copy_of(const Engine *engine);

typedef enum {
    ON_SEND_HEADER,
    ON_RECEIVE_HEADER,
    ON_SEND_OPEN,
    ON_INCOMING,
    ON_CLOSE,
    ON_CLOSE_WITH_ERROR,
    ON_ALLOCATE,
    ON_DEALLOCATE,
    ON_OUTGOING,
    ON_TICK,
    ON_END_OF_INPUT,
    ON_NOT_DELIVERED,
    EVENTS
} Event;

/* A call with its arguments. What an event does not take is not looked at. */
typedef struct {
    Event event;
    Bytes input;         /* header, frame or condition */
    Bytes description;   /* of an error */
    Bytes waiting;       /* frames */
    uint32_t number;     /* spare handle, handle or channel */
    uint8_t flag;        /* has_description, new_session */
    size_t output_short; /* by how much the output is smaller than the room that the event asks for */
    size_t answer_short; /* by how much the answer is smaller than HISPROAT_ANSWER_SIZE */
} Order;

/* The slices that one call is lent, and the call. */
typedef struct {
    Slice state, input, description, waiting, output, answer;
} Lent;

uint8_t call_event(const Order *order, const Lent *lent);

/* What a call returned, and its answer taken apart. On a refusal all but `refused` is 0. */
typedef struct {
    uint8_t refused;
    uint8_t stopped;
    uint8_t outcome;
    uint8_t kind;
    uint8_t detail;
    uint16_t channel;
    uint32_t number;
    uint64_t body_start;
    uint64_t body_length;
    uint64_t consumed;
    uint64_t written;
} Said;

int same_said(const Said *a, const Said *b);

/*
 * Makes a call, and checks what holds of every call: a refusal changes no byte of state, output and answer; else nothing is written behind what the answer says;
 * inputs stay as they are, and so do the settings in the state and the bytes past its tables; the state can be read afterwards, and tells of the stop and the outcome
 * what the answer told.
 */
Said perform(Engine *engine, Order order);

/* An order of each event, whose inputs are good. */
Order any_order(Event event, const Piece *header, const Piece *session_frame);

/* Whether an event is lent an output. */
int writes(Event event);

/* An order that must be refused with this number. */
void refused(Engine *engine, Order order, uint8_t number, const char *what);

Said send_header(Engine *engine);
Said receive_header(Engine *engine, Bytes header);
Said send_open(Engine *engine);
Said incoming(Engine *engine, Bytes frame, uint32_t spare);
Said incoming_while(Engine *engine, Bytes frame, Bytes waiting);
Said outgoing(Engine *engine, Bytes frame);
Said allocate(Engine *engine, uint32_t handle);
Said deallocate(Engine *engine, uint16_t channel);
Said close_order(Engine *engine, Bytes waiting);
Said close_error(Engine *engine, const char *condition, const char *description, Bytes waiting);
Said tick(Engine *engine);
Said end_of_input(Engine *engine);
Said not_delivered(Engine *engine, uint8_t new_session);

/* Brings a new engine to Opened: headers, then its own Open, then this one of the peer. */
void open_with(Engine *engine, Bytes peer_open);

typedef struct {
    uint8_t role;
    uint8_t phase;
    uint8_t outcome;
    uint8_t state;
    uint32_t reading_limit;
    uint32_t writing_limit;
    uint8_t agreed;
    uint16_t channel_max;
    uint32_t taken;
} Status;

Status status(Engine *engine);

/* The handle of an outgoing channel, and the one that an incoming channel is tied to; -1 where there is none. */
int64_t handle_at(Engine *engine, uint16_t channel);
int64_t tied_handle(Engine *engine, uint16_t channel);

/* A new engine of p1(), brought to Opened with a peer whose channel-max is 3. */
Engine opened(Tally *tally, int is_listener);

/* ---- Parts in files of their own. With `all` a part tries more values, or more channels; without, it is quick enough for a run under valgrind. */

/* states and answers of their size, and of other sizes */
void sizes(Tally *tally);

/* Drives two new engines of one role, made with p1(), through a life, and checks that they tell the same. */
void same_life(Engine *first, Engine *second);

/* each byte of the fixed part altered */
void state_bytes(Tally *tally, int all);

/* new engines in used memory, and tables that are altered between calls */
void fresh_tables(Tally *tally);
void altered_tables(Tally *tally, int all);

/* ties, and what becomes of them when channels are freed; and long lists of such calls beside a model of them */
void ties(Tally *tally);
void tie_walks(Tally *tally, int all);

/* connections with 65,536 channels */
void many_channels(Tally *tally, int all);

#endif
