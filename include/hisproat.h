/*
 * Hisproat: one end of an AMQP 1.0 connection, as a library without a heap, without globals and without input or output of its own.
 * Link libhisproat.a (x86-64). This header is all that a caller includes.
 *
 * An engine is one connection. It knows the protocol: headers, Open and Close, channel numbers, which frame belongs to which session, and when the
 * connection is over. It does not know sockets, clocks or links. You read the bytes and hand them in, and you send the bytes that it writes.
 *
 *
 * WHAT YOU LEND
 *
 * All memory is yours. A call uses what it is lent until it returns, and keeps no pointer.
 *
 *   state     HISPROAT_STATE_SIZE(channel_max) bytes at least: the engine itself. hisproat_dialler or hisproat_listener makes it; every event changes it in place.
 *             It has no pointers inside: it may be moved, copied, kept in storage and brought back. A copy is another engine that stands where the first one stood.
 *             The first HISPROAT_FIXED_SIZE bytes are the fixed part; behind it stand the tables, 28 bytes for each channel from 0 to channel_max. A new engine
 *             believes nothing that stood there. Bytes past the tables are neither looked at nor changed.
 *             Every call checks the fixed part whole, its numbers, its limits, and that the phase is one that events can lead to in its state, and that the tables are
 *             long enough: what is not an engine's is refused with 8 and left as it is. The tables are not looked through: only hisproat_dialler and
 *             hisproat_listener, which clear two marks in each place, cost more for having more channels.
 *             The tables belong to the engine. If you write into them between calls, each call still ends, stays inside its slices, and changes nothing where
 *             it returns a refusal; but which channels are taken and tied is then up to what you wrote. A tie that names no taken channel, or a list of ties that
 *             leads astray, is met without a fault, and need not be refused with 8.
 *   input     bytes that are only read: a frame, waiting frames, a header, a text.
 *   output    where frames are written. At least HISPROAT_OUTPUT_ROOM bytes, whatever the length of a frame that you lend; where waiting frames are lent to the same
 *             call, hisproat_room(n), n being how many bytes of them there are. Less is refused with 9, also where nothing would be written. What was written
 *             stands at the front. The bytes after it are not touched.
 *   answer    where the answer goes: at least HISPROAT_ANSWER_SIZE, HISPROAT_STATUS_SIZE or HISPROAT_HANDLE_SIZE bytes; less is refused with 9. Only so
 *             many are written.
 *
 * A slice is a pointer and then its length in bytes. A pointer must not be null, also where the length is 0. Slices that are lent to one call must not overlap.
 * A slice may lie anywhere in memory: nothing is asked of its alignment.
 *
 *
 * WHAT COMES BACK
 *
 * Every function returns 0, or the number of a refusal (HISPROAT_REFUSED_..). A refusal changes no lent byte: state, output and answer are as they were, and
 * the call may be made again. Refusals are named at each function in the order of judgement: first the sizes of output and answer (9), from their lengths alone and
 * whatever the state's bytes are; then the state (8): its fixed part and its length; then the rest.
 *
 * On 0 the answer of an event tells, at these places, numbers big-endian:
 *
 *    0   1 byte    1 if the engine has stopped, else 0
 *    1   1 byte    HISPROAT_OUTCOME_..: how it ended; 0 while it goes on
 *    2   1 byte    HISPROAT_KIND_..: what became of the frame, header or order
 *    3   1 byte    detail: a refusal's number (REFUSED), a performative's code (FORWARD, BEGAN), or 1 where an error came with a Close (CLOSED)
 *    4   2 bytes   channel: the outgoing channel (CHANNEL, BEGAN)
 *    6   4 bytes   number: a handle (FORWARD, BEGAN, FREED), or the peer's idle-time-out in milliseconds, 0 for none (OPENED)
 *   10   8 bytes   where the body starts in the lent frame (FORWARD, BEGAN)
 *   18   8 bytes   how long the body is (FORWARD, BEGAN)
 *   26   8 bytes   how many bytes of the input are consumed
 *   34   8 bytes   how many bytes were written to the output: send these
 *
 * What a kind does not have is 0. Send what was written also where the engine has stopped: the Close is among it.
 *
 *
 * HANDLES AND CHANNELS
 *
 * A handle is your 32-bit number for a session. The engine stores it and gives it back; it does not look at it.
 * An outgoing channel is taken by hisproat_on_allocate, or for a session that the peer begins (a listener's, kind BEGAN). Frames that you send for the
 * session carry it. It stays taken until hisproat_on_deallocate; the channel that was freed last is the next that is given.
 * An incoming channel is tied to a handle by a Begin, and its frames reach that handle. Each tie is made through the handle's outgoing channel: the one that the peer's
 * Begin names, the one that a new session gets (BEGAN), or the one that a listener's own Begin is sent on. The tie ends with the peer's End on the incoming channel, or with
 * a later Begin on it, which ties it anew; and it is dropped when the outgoing channel is freed (hisproat_on_deallocate), in every state. A peer may tie several channels
 * through one, by a Begin on each; hisproat_tied_handle tells of each channel. Freeing drops all ties that were made through the channel, and no others: where two
 * channels have the same handle, those of the other one stay.
 *
 * So end a session in this order: send your End (hisproat_on_outgoing); go on reading, since the frames that the peer sent before it heard of it still reach the handle;
 * wait for the peer's End (kind FORWARD, detail HISPROAT_END), and answer it with your End if you have not sent one; then free the channel. A frame that comes on a channel
 * that is not tied, because the outgoing channel was freed before the peer's End, or because the peer sent it after its End, belongs to no session. It is REFUSED with the
 * detail 24 and reaches no handle, also where the freed number has been given to another session; the peer is told by a Close with an error, and the outcome will be
 * NOT_FOUND. Once a handle's channels are freed no frame reaches it, and its number may stand for another session.
 *
 *
 * THE LIFE OF AN ENGINE
 *
 * 1. hisproat_dialler or hisproat_listener.
 * 2. hisproat_send_header, and hisproat_receive_header with what came. A dialler sends first.
 * 3. hisproat_send_open, and hisproat_on_incoming with the peer's Open (kind OPENED).
 * 4. Frames: hisproat_on_incoming for each that comes, hisproat_on_outgoing for each that goes out. hisproat_on_tick writes an empty frame; call it at least once
 *    in half the peer's idle-time-out, which the answer to its Open has.
 * 5. The sessions end, by an End on each side, and their channels are freed. Then hisproat_on_close; or, with sessions or without, hisproat_on_close_with_error; or the
 *    peer's Close comes, and the engine answers it by itself.
 * 6. The answer says stopped. Send what was written, then hang up.
 *
 * The phase (hisproat_status) is one of three. Running takes every event. An engine that met an error of the peer writes a Close that tells it, and then is
 * awaiting: until the peer's Close it takes only hisproat_on_incoming and hisproat_on_end_of_input, and the outcome to come is kept. Stopped takes no event.
 * An event that the phase does not take is refused with 20. hisproat_status and the other readers work in every phase.
 *
 *
 * THREADS AND STACK
 *
 * There are no globals and no thread-local data. Calls on different states may run at the same time. Calls on one state, and on any slice that a call writes
 * to, must come one after the other. Nothing of the C library is used.
 * The most stack that was measured is 10,096 bytes, in hisproat_on_close_with_error while a frame waits whose values stand in arrays, sixteen deep; a Transfer that
 * comes takes 768. Give a thread that calls 12 KiB besides its own.
 *
 *
 * EXAMPLE: a listener that reads a whole recorded input. Returns the outcome, or -1 where an argument was refused.
 *
 *     #include "hisproat.h"
 *
 *     int listen_to(const uint8_t *input, size_t length, void (*send)(const uint8_t *bytes, size_t count))
 *     {
 *         static uint8_t state[HISPROAT_STATE_SIZE(7)], output[HISPROAT_OUTPUT_ROOM], answer[HISPROAT_ANSWER_SIZE];
 *         const uint8_t *none = (const uint8_t *)""; // a slice of length 0 still has a pointer
 *         uint32_t next_handle = 0;
 *
 *         if (hisproat_listener(state, sizeof state, (const uint8_t *)"hub", 3, 4096, 7, 0, 0) != 0)
 *             return -1;
 *         if (hisproat_receive_header(state, sizeof state, input, length, answer, sizeof answer) != 0)
 *             return -1;
 *         input += 8, length -= 8;
 *         if (hisproat_send_header(state, sizeof state, output, sizeof output, answer, sizeof answer) != 0)
 *             return -1;
 *         send(output, hisproat_written(answer));
 *         if (hisproat_send_open(state, sizeof state, output, sizeof output, answer, sizeof answer) != 0)
 *             return -1;
 *         send(output, hisproat_written(answer));
 *         for (;;) {
 *             uint8_t refused = hisproat_on_incoming(state, sizeof state, input, length, next_handle, none, 0,
 *                                                    output, sizeof output, answer, sizeof answer);
 *             if (refused == HISPROAT_REFUSED_BYTES_MISSING) // here the input has ended; from a socket: read more, and try again
 *                 refused = hisproat_on_end_of_input(state, sizeof state, output, sizeof output, answer, sizeof answer);
 *             if (refused != 0)
 *                 return -1;
 *             send(output, hisproat_written(answer));
 *             if (answer[HISPROAT_AT_STOPPED])
 *                 return answer[HISPROAT_AT_OUTCOME];
 *             if (answer[HISPROAT_AT_KIND] == HISPROAT_KIND_BEGAN)
 *                 next_handle += 1; // the session has the handle that was spare
 *             // KIND_FORWARD: the body of hisproat_body_length bytes at input + hisproat_body_start goes to the session hisproat_handle
 *             input += hisproat_consumed(answer), length -= hisproat_consumed(answer);
 *         }
 *     }
 *
 * End of the example.
 */
#ifndef HISPROAT_H
#define HISPROAT_H

#include <stddef.h>
#include <stdint.h>

#ifdef __cplusplus
extern "C" {
#endif

/* ---- Sizes, in bytes */

enum {
    HISPROAT_FIXED_SIZE = 300,   /* the fixed part of a state; the tables stand behind it */
    HISPROAT_PLACE_SIZE = 28,    /* a channel's place in the tables */
    HISPROAT_ANSWER_SIZE = 42,   /* an event's answer */
    HISPROAT_STATUS_SIZE = 19,   /* the answer of hisproat_status */
    HISPROAT_HANDLE_SIZE = 5,    /* the answer of hisproat_handle_at and hisproat_tied_handle */
    HISPROAT_OUTPUT_ROOM = 16384 /* the least output, and the longest frame that is written; hisproat_room has what waiting frames add */
};

/* The least that a state has for a channel-max: 328 bytes for 0, which is one channel, 7,468 for 255, 1,835,308 for 65,535. */
#define HISPROAT_STATE_SIZE(channel_max) (HISPROAT_FIXED_SIZE + HISPROAT_PLACE_SIZE * ((size_t)(channel_max) + 1))

/* ---- Limits of the settings and of an error's texts. What is beyond them is refused with 8. */

enum {
    HISPROAT_MAX_CONTAINER_ID = 255, /* bytes of UTF-8 */
    HISPROAT_MIN_FRAME_SIZE = 512,   /* max-frame-size, from */
    HISPROAT_MAX_FRAME_SIZE = 16384, /* to */
    HISPROAT_MAX_CHANNEL_MAX = 65535, /* channel-max */
    HISPROAT_MAX_CONDITION = 255,    /* bytes of ASCII */
    HISPROAT_MAX_DESCRIPTION = 255   /* bytes of UTF-8 */
};

/* ---- Refusals.
 * 1 to 9 are about what was lent, 20 to 27 about what the connection allows. The functions return those marked R. Those marked I occur inside an event:
 * the function returns 0, the kind is HISPROAT_KIND_REFUSED, and the detail is the number. */

enum {
    HISPROAT_OK = 0,
    HISPROAT_REFUSED_BYTES_MISSING = 1,      /* R   a header under 8 bytes; a frame under 4, or under its own length: call again with more */
    HISPROAT_REFUSED_HEADER_MALFORMED = 2,   /* R   not "AMQP", or an id that is not 0, 2 or 3 */
    HISPROAT_REFUSED_LENGTH_UNDER_8 = 3,     /* R I a frame's length is under 8 */
    HISPROAT_REFUSED_OVER_READING_LIMIT = 4, /*   I a frame that came is over the reading limit */
    HISPROAT_REFUSED_FRAME_TYPE = 5,         /* R I a frame's type is not 0 or its doff not 2 */
    HISPROAT_REFUSED_BODY_MALFORMED = 6,     /* R I a body malformed; or, of a frame to be sent, not a session's performative or followed by bytes */
    HISPROAT_REFUSED_CHANNEL_TOO_HIGH = 7,   /* R I an incoming channel, or the remote-channel of a Begin to be sent, above the local channel-max */
    HISPROAT_REFUSED_BEYOND_LIMITS = 8,      /* R   a setting or text beyond its limits; a state that is too short, or whose fixed part is no engine's */
    HISPROAT_REFUSED_NO_ROOM = 9,            /* R   output or answer too small */
    HISPROAT_REFUSED_ILLEGAL_STATE = 20,     /* R I not in this phase or state */
    HISPROAT_REFUSED_NOT_OPENED = 21,        /* R   no channels before the peer's Open */
    HISPROAT_REFUSED_STOPPED = 22,           /* R   no channels after a Close was sent */
    HISPROAT_REFUSED_NO_CHANNEL_LEFT = 23,   /* R   every channel up to the agreed channel-max is taken */
    HISPROAT_REFUSED_NOT_FOUND = 24,         /*   I no session has this channel */
    HISPROAT_REFUSED_NOT_IMPLEMENTED = 25,   /*   I the peer begins a session, and the engine is a dialler or has no channel left */
    HISPROAT_REFUSED_CHANNEL_NOT_TAKEN = 26, /* R   a channel is freed that is not taken */
    HISPROAT_REFUSED_OVER_WRITING_LIMIT = 27 /*   I a frame to be sent is over the peer's max-frame-size */
};

/* ---- Places in an event's answer */

enum {
    HISPROAT_AT_STOPPED = 0,
    HISPROAT_AT_OUTCOME = 1,
    HISPROAT_AT_KIND = 2,
    HISPROAT_AT_DETAIL = 3,
    HISPROAT_AT_CHANNEL = 4,      /* 2 bytes */
    HISPROAT_AT_NUMBER = 6,       /* 4 bytes */
    HISPROAT_AT_BODY_START = 10,  /* 8 bytes */
    HISPROAT_AT_BODY_LENGTH = 18, /* 8 bytes */
    HISPROAT_AT_CONSUMED = 26,    /* 8 bytes */
    HISPROAT_AT_WRITTEN = 34      /* 8 bytes */
};

/* ---- Kinds: what became of the frame, header or order. REFUSED is a refusal inside the event: see hisproat_on_incoming and hisproat_on_outgoing. */

enum {
    HISPROAT_KIND_NONE = 0,           /* end of input, not delivered: nothing was read or ordered */
    HISPROAT_KIND_REFUSED = 1,        /* detail: the refusal's number */
    HISPROAT_KIND_WROTE = 2,          /* went out; a tick may write 0 bytes */
    HISPROAT_KIND_END = 3,            /* a tick: the connection is over */
    HISPROAT_KIND_HEADER = 4,         /* the header of AMQP 1.0.0 came */
    HISPROAT_KIND_OTHER_PROTOCOL = 5, /* another protocol's header came; the connection is over: hang up. The next tick says stopped */
    HISPROAT_KIND_NOTHING = 6,        /* an empty frame; or any frame but a Close after a Close with an error was sent */
    HISPROAT_KIND_OPENED = 7,         /* the peer's Open. number: its idle-time-out in milliseconds, 0 for none: tick at least once in half of it */
    HISPROAT_KIND_CLOSED = 8,         /* the peer's Close. detail: 1 if with an error */
    HISPROAT_KIND_FORWARD = 9,        /* a session's frame. detail: the performative; number: the handle; body start and length */
    HISPROAT_KIND_BEGAN = 10,         /* the peer began a session. detail: 17; channel: the outgoing channel it got; number: the spare handle, now its own; body */
    HISPROAT_KIND_CHANNEL = 11,       /* channel: the outgoing channel that is now taken */
    HISPROAT_KIND_FREED = 12          /* number: the handle that the freed channel had */
};

/* ---- Performatives that a session has: the detail of FORWARD and BEGAN. After an END the incoming channel is tied no more. */

enum {
    HISPROAT_BEGIN = 17,
    HISPROAT_ATTACH = 18,
    HISPROAT_FLOW = 19,
    HISPROAT_TRANSFER = 20,
    HISPROAT_DISPOSITION = 21,
    HISPROAT_DETACH = 22,
    HISPROAT_END = 23
};

/* ---- Outcomes: how an engine ended, or, while it is awaiting, how it will. hisproat_on_end_of_input says which one the end of the input leads to. */

enum {
    HISPROAT_OUTCOME_FINE = 0,                    /* closed by this side; another protocol; or the input ended after this side's Close */
    HISPROAT_OUTCOME_TRANSPORT_ERROR = 1,         /* a frame that cannot be read or is too long to send, or the input ended too early */
    HISPROAT_OUTCOME_ILLEGAL_STATE = 2,           /* a frame that the state does not allow; or an end or an error before the Opens */
    HISPROAT_OUTCOME_NOT_FOUND = 3,               /* a frame for no session, as one that comes after its channel was freed */
    HISPROAT_OUTCOME_NOT_IMPLEMENTED = 4,         /* a session that was not taken */
    HISPROAT_OUTCOME_REMOTE_CLOSED = 5,           /* closed by the peer */
    HISPROAT_OUTCOME_REMOTE_CLOSED_WITH_ERROR = 6 /* closed by the peer, with an error */
};

/* ---- Places in a status */

enum {
    HISPROAT_STATUS_AT_ROLE = 0,
    HISPROAT_STATUS_AT_PHASE = 1,
    HISPROAT_STATUS_AT_OUTCOME = 2,       /* 0 while running */
    HISPROAT_STATUS_AT_STATE = 3,
    HISPROAT_STATUS_AT_READING_LIMIT = 4, /* 4 bytes: the longest frame that is read */
    HISPROAT_STATUS_AT_WRITING_LIMIT = 8, /* 4 bytes: the longest frame that is written */
    HISPROAT_STATUS_AT_AGREED = 12,       /* 1 after the peer's Open, else 0 */
    HISPROAT_STATUS_AT_CHANNEL_MAX = 13,  /* 2 bytes: the agreed channel-max, the smaller of both sides' */
    HISPROAT_STATUS_AT_TAKEN = 15         /* 4 bytes: how many outgoing channels are taken */
};

enum { HISPROAT_ROLE_DIALLER = 0, HISPROAT_ROLE_LISTENER = 1 };

enum { HISPROAT_PHASE_RUNNING = 0, HISPROAT_PHASE_AWAITING = 1, HISPROAT_PHASE_STOPPED = 2 };

/* The states of AMQP 1.0, Part 2, section 2.4.6 */
enum {
    HISPROAT_STATE_START = 0,
    HISPROAT_STATE_HEADER_RECEIVED = 1,
    HISPROAT_STATE_HEADER_SENT = 2,
    HISPROAT_STATE_HEADER_EXCHANGE = 3,
    HISPROAT_STATE_OPEN_PIPE = 4,
    HISPROAT_STATE_OPEN_CLOSE_PIPE = 5,
    HISPROAT_STATE_OPEN_RECEIVED = 6,
    HISPROAT_STATE_OPEN_SENT = 7,
    HISPROAT_STATE_CLOSE_PIPE = 8,
    HISPROAT_STATE_OPENED = 9,
    HISPROAT_STATE_CLOSE_RECEIVED = 10,
    HISPROAT_STATE_CLOSE_SENT = 11,
    HISPROAT_STATE_DISCARDING = 12,
    HISPROAT_STATE_END = 13
};

/* ---- Places in the answer of hisproat_handle_at and hisproat_tied_handle */

enum {
    HISPROAT_HANDLE_AT_FOUND = 0, /* 1 if there is a handle, else 0 */
    HISPROAT_HANDLE_AT_NUMBER = 1 /* 4 bytes: the handle */
};

/* ---- A new engine.
 * Lays a new engine into the state, whatever stood there. The container-id is copied. The idle-time-out, in milliseconds, is what the peer is told; where
 * has_idle_time_out is 0 it is not looked at. Flags: 0 is no, any other number is yes.
 * A dialler takes no session that the peer begins (25); a listener does.
 * 8: a setting is beyond its limits, or the state is shorter than HISPROAT_STATE_SIZE(channel_max). */

uint8_t hisproat_dialler(uint8_t *state, size_t state_len, const uint8_t *container_id, size_t container_id_len, uint32_t max_frame_size,
                         uint16_t channel_max, uint8_t has_idle_time_out, uint32_t idle_time_out);

uint8_t hisproat_listener(uint8_t *state, size_t state_len, const uint8_t *container_id, size_t container_id_len, uint32_t max_frame_size,
                          uint16_t channel_max, uint8_t has_idle_time_out, uint32_t idle_time_out);

/* ---- Before the first frame */

/* Writes the protocol header, 8 bytes. Kind WROTE. Refusals: 9, 8, 20. */
uint8_t hisproat_send_header(uint8_t *state, size_t state_len, uint8_t *output, size_t output_len, uint8_t *answer, size_t answer_len);

/* Reads a protocol header at the front of the input, and consumes 8 bytes. Kinds HEADER, OTHER_PROTOCOL. Refusals: 9, 8, 20 (phase), 1, 2,
 * 20 (state).
 * A malformed header (2) leaves the engine as it was. */
uint8_t hisproat_receive_header(uint8_t *state, size_t state_len, const uint8_t *input, size_t input_len, uint8_t *answer, size_t answer_len);

/* Writes the Open that the settings make. Kind WROTE. Refusals: 9, 8, 20. */
uint8_t hisproat_send_open(uint8_t *state, size_t state_len, uint8_t *output, size_t output_len, uint8_t *answer, size_t answer_len);

/* ---- Events */

/* A frame came. It stands at the front of the slice; bytes after it are not looked at. `spare` is the handle that a new session would get (a listener's, kind BEGAN).
 * `waiting` are session frames that you have not sent yet, whole frames one after the other; length 0 for none. They are written only where the event answers
 * the peer's Close: the waiting frames first, then a Close. Else they are not written, and still wait. They are judged in each case.
 * Output: hisproat_room(waiting_len).
 * Kinds: NOTHING, OPENED, CLOSED, FORWARD, BEGAN, REFUSED.
 * CLOSED: the engine has stopped. The outcome says which side closed; or, where a waiting frame could not go out, what that led to.
 * REFUSED: the frame is wrong. With the detail 3 to 7 the engine has stopped with TRANSPORT_ERROR. With 20, 24 or 25 it has written a Close that tells the peer,
 * unless one was sent before, and now awaits the peer's Close, or, where there is nothing to close, it has stopped. While awaiting, a frame that is wrong stops it.
 * Consumed: the frame's length; 0 with the details 3 and 4, where it is not known where the next frame starts.
 * Refusals: 9, 8, 20 (stopped), 1 (call again with more bytes), then those of the waiting frames: 1, 3, 5, 6, 7. */
uint8_t hisproat_on_incoming(uint8_t *state, size_t state_len, const uint8_t *frame, size_t frame_len, uint32_t spare, const uint8_t *waiting,
                             size_t waiting_len, uint8_t *output, size_t output_len, uint8_t *answer, size_t answer_len);

/* An order to close. Writes the waiting frames and then a Close. The engine goes on running until the peer's Close comes.
 * From then on frames of sessions are an error, in both directions. One that comes, though the peer may have sent it before it read the Close, is REFUSED with the
 * detail 20 and handed to nobody; the outcome will be ILLEGAL_STATE, and the next one stops the engine. So let the sessions end first, each with its End and the
 * peer's, or close with an error: frames that come after that are passed over, and the peer's Close leads to FINE.
 * Output: hisproat_room(waiting_len). Kind WROTE, or REFUSED: a waiting frame or the Close could not go out, as at hisproat_on_outgoing; what was written
 * before it is written.
 * Refusals: 9, 8, 20 (phase), then those of the waiting frames: 1, 3, 5, 6, 7. */
uint8_t hisproat_on_close(uint8_t *state, size_t state_len, const uint8_t *waiting, size_t waiting_len, uint8_t *output, size_t output_len,
                          uint8_t *answer, size_t answer_len);

/* The same with an error: its condition in ASCII and, where has_description is not 0, its description in UTF-8. From then on only the peer's Close is looked at.
 * Refusals: 9, 8 (the state or a text), 20 (phase), then those of the waiting frames. */
uint8_t hisproat_on_close_with_error(uint8_t *state, size_t state_len, const uint8_t *condition, size_t condition_len, uint8_t has_description,
                                     const uint8_t *description, size_t description_len, const uint8_t *waiting, size_t waiting_len,
                                     uint8_t *output, size_t output_len, uint8_t *answer, size_t answer_len);

/* Takes an outgoing channel for the session `handle`. Kind CHANNEL. Refusals: 9, 8, 20 (phase), 22, 21, 23. */
uint8_t hisproat_on_allocate(uint8_t *state, size_t state_len, uint32_t handle, uint8_t *answer, size_t answer_len);

/* Frees an outgoing channel, and drops every tie that was made through it. Kind FREED: the number is its handle. Free it after your End and the peer's: a frame of the
 * session that comes later is for nobody (24), and closes the connection. Costs more only for the ties that it drops. Refusals: 9, 8, 20 (phase), 26. */
uint8_t hisproat_on_deallocate(uint8_t *state, size_t state_len, uint16_t channel, uint8_t *answer, size_t answer_len);

/* A session's frame goes out: one whole frame with its outgoing channel; bytes after it are not looked at. It is written in its shortest form, so the bytes may
 * differ from those lent. A listener's Begin that has a remote-channel ties that incoming channel through the channel that it is sent on, to its handle.
 * Output: HISPROAT_OUTPUT_ROOM, however long the frame is: one that would be longer is not written (27).
 * Kind WROTE, or REFUSED: with the detail 27 the engine has stopped with TRANSPORT_ERROR; with 20 (not opened yet, or after hisproat_on_close) or 24 (a listener's
 * Begin on a channel that is not taken) as at hisproat_on_incoming.
 * Refusals: 9, 8, 20 (phase), then those of the frame: 1, 3, 5, 6, 7. */
uint8_t hisproat_on_outgoing(uint8_t *state, size_t state_len, const uint8_t *frame, size_t frame_len, uint8_t *output, size_t output_len,
                             uint8_t *answer, size_t answer_len);

/* Time to show that this side is there: writes an empty frame; 0 bytes in the states START and CLOSE_SENT. Due at least once in half the peer's idle-time-out (the
 * number of OPENED) while nothing else is sent. Kind WROTE, or, where the connection is over, END: the engine has stopped. Refusals: 9, 8, 20 (phase). */
uint8_t hisproat_on_tick(uint8_t *state, size_t state_len, uint8_t *output, size_t output_len, uint8_t *answer, size_t answer_len);

/* No more bytes will come. The engine has stopped. Where an Open was sent and no Close, a Close with an error is written, for a peer that still reads.
 * The outcome is FINE after this side's Close with an error, or its Close before the peer's Open (the states DISCARDING and CLOSE_PIPE), and where the connection was
 * over; else TRANSPORT_ERROR, also after a Close without an error that was not answered and while awaiting; and ILLEGAL_STATE before this side's Open.
 * Kind NONE. Refusals: 9, 8, 20 (stopped). */
uint8_t hisproat_on_end_of_input(uint8_t *state, size_t state_len, uint8_t *output, size_t output_len, uint8_t *answer, size_t answer_len);

/* A body could not be handed to its session (NOT_FOUND), or, where new_session is not 0, a session that the peer began (a listener's) could not be taken
 * (NOT_IMPLEMENTED). Writes a Close that tells the peer, and awaits the peer's. Kind NONE. Refusals: 9, 8, 20 (phase). */
uint8_t hisproat_on_not_delivered(uint8_t *state, size_t state_len, uint8_t new_session, uint8_t *output, size_t output_len, uint8_t *answer,
                                  size_t answer_len);

/* ---- Readers. They change nothing but the answer. Refusals: 9, 8. */

/* What the engine is: HISPROAT_STATUS_AT_.. */
uint8_t hisproat_status(const uint8_t *state, size_t state_len, uint8_t *answer, size_t answer_len);

/* The handle of an outgoing channel: HISPROAT_HANDLE_AT_.. */
uint8_t hisproat_handle_at(const uint8_t *state, size_t state_len, uint16_t channel, uint8_t *answer, size_t answer_len);

/* The handle that an incoming channel is tied to: HISPROAT_HANDLE_AT_.. */
uint8_t hisproat_tied_handle(const uint8_t *state, size_t state_len, uint16_t channel, uint8_t *answer, size_t answer_len);

/* ---- Small helpers, not in the archive */

/* The output that hisproat_on_incoming, hisproat_on_close and hisproat_on_close_with_error ask for when so many bytes of waiting frames are lent to them. Each of these
 * frames is written in at most twice its bytes. */
static inline size_t hisproat_room(size_t waiting_len)
{
    return (size_t)HISPROAT_OUTPUT_ROOM + 2 * waiting_len;
}

/* The big-endian number of `width` bytes, at most 8, that starts at `at`. */
static inline uint64_t hisproat_number(const uint8_t *at, size_t width)
{
    uint64_t number = 0;
    for (size_t i = 0; i < width; i++)
        number = number << 8 | at[i];
    return number;
}

/* Of an event's answer: the outgoing channel, the handle, the body's place in the lent frame, and how many bytes were consumed and written. */
static inline uint16_t hisproat_channel(const uint8_t *answer)
{
    return (uint16_t)hisproat_number(answer + HISPROAT_AT_CHANNEL, 2);
}

static inline uint32_t hisproat_handle(const uint8_t *answer)
{
    return (uint32_t)hisproat_number(answer + HISPROAT_AT_NUMBER, 4);
}

static inline size_t hisproat_body_start(const uint8_t *answer)
{
    return (size_t)hisproat_number(answer + HISPROAT_AT_BODY_START, 8);
}

static inline size_t hisproat_body_length(const uint8_t *answer)
{
    return (size_t)hisproat_number(answer + HISPROAT_AT_BODY_LENGTH, 8);
}

static inline size_t hisproat_consumed(const uint8_t *answer)
{
    return (size_t)hisproat_number(answer + HISPROAT_AT_CONSUMED, 8);
}

static inline size_t hisproat_written(const uint8_t *answer)
{
    return (size_t)hisproat_number(answer + HISPROAT_AT_WRITTEN, 8);
}

#ifdef __cplusplus
}
#endif

#endif
