/* See rig.h. */
#include "rig.h"

#include "judge.h"

#include <stdio.h>
#include <stdlib.h>
#include <string.h>

void check(Tally *tally, int holds, const char *what)
{
    tally->checks += 1;
    if (holds)
        return;
    tally->wrong += 1;
    printf("wrong: %s: %s\n", tally->part, what);
}

void part_done(Tally *tally, Tally *totals)
{
    printf("%s: %lu checks\n", tally->part, tally->checks);
    totals->checks += tally->checks;
    totals->wrong += tally->wrong;
    tally->checks = 0;
    tally->wrong = 0;
}

/* ---- Bytes */

Bytes none(void)
{
    return (Bytes){ .at = (const uint8_t *)"", .len = 0 };
}

Bytes text(const char *s)
{
    return (Bytes){ .at = (const uint8_t *)s, .len = strlen(s) };
}

int same(Bytes a, Bytes b)
{
    return a.len == b.len && memcmp(a.at, b.at, a.len) == 0;
}

Bytes of(const Piece *piece)
{
    return (Bytes){ .at = piece->at, .len = piece->len };
}

static void put(Piece *piece, uint8_t byte)
{
    if (piece->len == sizeof piece->at) {
        fprintf(stderr, "a piece is too long\n");
        exit(2);
    }
    piece->at[piece->len++] = byte;
}

static void put_number(Piece *piece, uint32_t number, unsigned width)
{
    while (width-- > 0)
        put(piece, (uint8_t)(number >> 8 * width));
}

static void put_text(Piece *piece, uint8_t code, const char *s)
{
    put(piece, code);
    put(piece, (uint8_t)strlen(s));
    while (*s)
        put(piece, (uint8_t)*s++);
}

static uint8_t digit(char c)
{
    return (uint8_t)(c <= '9' ? c - '0' : c - 'A' + 10);
}

static void put_hex(Piece *piece, const char *digits)
{
    for (; *digits; digits++) {
        if (*digits == ' ')
            continue;
        put(piece, (uint8_t)(digit(digits[0]) << 4 | digit(digits[1])));
        digits++;
    }
}

Piece hex(const char *digits)
{
    Piece piece = { .len = 0 };
    put_hex(&piece, digits);
    return piece;
}

Piece frame(uint16_t channel, const char *body)
{
    Piece content = hex(body), piece = { .len = 0 };
    put_number(&piece, (uint32_t)(8 + content.len), 4);
    put_number(&piece, 0x0200, 2);
    put_number(&piece, channel, 2);
    return joined(piece, content);
}

Piece joined(Piece first, Piece second)
{
    for (size_t i = 0; i < second.len; i++)
        put(&first, second.at[i]);
    return first;
}

Piece begin(uint16_t channel)
{
    return frame(channel, "005311 C0 09 05 40 43 5264 5264 5203");
}

Piece begin_for(uint16_t channel, uint16_t remote)
{
    char body[64];
    snprintf(body, sizeof body, "005311 C0 0B 05 60%04X 43 5264 5264 5203", remote);
    return frame(channel, body);
}

Piece close_with(const char *condition, const char *description)
{
    Piece fields = { .len = 0 }, piece = hex("00000000 0200 0000 005318 C0");
    put_text(&fields, 0xA3, condition);
    if (*description)
        put_text(&fields, 0xA1, description);
    put_number(&piece, (uint32_t)(1 + 6 + fields.len), 1);
    put_hex(&piece, "01 00531D C0");
    put_number(&piece, (uint32_t)(1 + fields.len), 1);
    put_number(&piece, *description ? 2 : 1, 1);
    piece = joined(piece, fields);
    piece.at[3] = (uint8_t)piece.len;
    return piece;
}

/* ---- Lent slices */

static uint8_t pattern(size_t i)
{
    return (uint8_t)(i * 7 + 13);
}

static const uint8_t GUARD = 0xE5;

static Slice new_slice(const Tally *tally, size_t len)
{
    size_t guard = tally->guard;
    /* glibc gives a pointer for 0 bytes too, and a tool that watches memory sees every use of it */
    uint8_t *block = malloc(guard + len + guard);
    if (block == NULL) {
        fprintf(stderr, "no memory\n");
        exit(2);
    }
    memset(block, GUARD, guard);
    memset(block + guard + len, GUARD, guard);
    return (Slice){ .block = block, .at = block + guard, .len = len };
}

Slice lend(const Tally *tally, Bytes bytes)
{
    Slice slice = new_slice(tally, bytes.len);
    memcpy(slice.at, bytes.at, bytes.len);
    return slice;
}

Slice lend_pattern(const Tally *tally, size_t len)
{
    Slice slice = new_slice(tally, len);
    for (size_t i = 0; i < len; i++)
        slice.at[i] = pattern(i);
    return slice;
}

int is_patterned(const Slice *slice, size_t from)
{
    for (size_t i = from; i < slice->len; i++)
        if (slice->at[i] != pattern(i))
            return 0;
    return 1;
}

void give_back(Tally *tally, Slice *slice)
{
    size_t guard = tally->guard;
    int whole = 1;
    for (size_t i = 0; i < guard; i++)
        whole = whole && slice->block[i] == GUARD && slice->at[slice->len + i] == GUARD;
    if (guard > 0)
        check(tally, whole, "bytes beside a lent slice are as they were");
    free(slice->block);
    slice->block = NULL;
    slice->at = NULL;
}

/* ---- Engines */

Settings p1(void)
{
    return (Settings){ .container_id = "p1", .max_frame_size = 4096, .channel_max = 7 };
}

Engine new_engine(Tally *tally, int is_listener, Settings settings)
{
    return new_engine_in(tally, lend_pattern(tally, HISPROAT_STATE_SIZE(settings.channel_max)), is_listener, settings);
}

Engine new_engine_in(Tally *tally, Slice state, int is_listener, Settings settings)
{
    Engine engine = { .tally = tally, .state = state };
    Slice id = lend(tally, text(settings.container_id));
    uint8_t refused = (is_listener ? hisproat_listener : hisproat_dialler)(engine.state.at, engine.state.len, id.at, id.len, settings.max_frame_size,
                                                                          settings.channel_max, settings.has_idle_time_out, settings.idle_time_out);
    check(tally, refused == HISPROAT_OK, "a new engine is made");
    give_back(tally, &id);
    return engine;
}

Engine copy_of(const Engine *engine)
{
    Bytes bytes = { .at = engine->state.at, .len = engine->state.len };
    return (Engine){ .tally = engine->tally, .state = lend(engine->tally, bytes) };
}

void drop_engine(Engine *engine)
{
    give_back(engine->tally, &engine->state);
}

Bytes wire(const Engine *engine)
{
    return (Bytes){ .at = engine->wire, .len = engine->wire_len };
}

static uint8_t frames_event(const Order *order, const Lent *l)
{
    uint8_t *s = l->state.at, *out = l->output.at, *a = l->answer.at;
    size_t sn = l->state.len, on = l->output.len, an = l->answer.len;
    switch (order->event) {
    case ON_INCOMING:
        return hisproat_on_incoming(s, sn, l->input.at, l->input.len, order->number, l->waiting.at, l->waiting.len, out, on, a, an);
    case ON_CLOSE:
        return hisproat_on_close(s, sn, l->waiting.at, l->waiting.len, out, on, a, an);
    case ON_CLOSE_WITH_ERROR:
        return hisproat_on_close_with_error(s, sn, l->input.at, l->input.len, order->flag, l->description.at, l->description.len, l->waiting.at,
                                            l->waiting.len, out, on, a, an);
    case ON_OUTGOING:
        return hisproat_on_outgoing(s, sn, l->input.at, l->input.len, out, on, a, an);
    default:
        fprintf(stderr, "no such event\n");
        exit(2);
    }
}

uint8_t call_event(const Order *order, const Lent *l)
{
    uint8_t *s = l->state.at, *out = l->output.at, *a = l->answer.at;
    size_t sn = l->state.len, on = l->output.len, an = l->answer.len;
    switch (order->event) {
    case ON_SEND_HEADER:
        return hisproat_send_header(s, sn, out, on, a, an);
    case ON_RECEIVE_HEADER:
        return hisproat_receive_header(s, sn, l->input.at, l->input.len, a, an);
    case ON_SEND_OPEN:
        return hisproat_send_open(s, sn, out, on, a, an);
    case ON_ALLOCATE:
        return hisproat_on_allocate(s, sn, order->number, a, an);
    case ON_DEALLOCATE:
        return hisproat_on_deallocate(s, sn, (uint16_t)order->number, a, an);
    case ON_TICK:
        return hisproat_on_tick(s, sn, out, on, a, an);
    case ON_END_OF_INPUT:
        return hisproat_on_end_of_input(s, sn, out, on, a, an);
    case ON_NOT_DELIVERED:
        return hisproat_on_not_delivered(s, sn, order->flag, out, on, a, an);
    default:
        return frames_event(order, l);
    }
}

int same_said(const Said *a, const Said *b)
{
    return a->refused == b->refused && a->stopped == b->stopped && a->outcome == b->outcome && a->kind == b->kind && a->detail == b->detail && a->channel == b->channel
        && a->number == b->number && a->body_start == b->body_start && a->body_length == b->body_length && a->consumed == b->consumed && a->written == b->written;
}

static Said taken_apart(const uint8_t *a)
{
    return (Said){
        .stopped = a[HISPROAT_AT_STOPPED],
        .outcome = a[HISPROAT_AT_OUTCOME],
        .kind = a[HISPROAT_AT_KIND],
        .detail = a[HISPROAT_AT_DETAIL],
        .channel = hisproat_channel(a),
        .number = hisproat_handle(a),
        .body_start = hisproat_body_start(a),
        .body_length = hisproat_body_length(a),
        .consumed = hisproat_consumed(a),
        .written = hisproat_written(a),
    };
}

static void check_inputs(Tally *t, const Order *order, const Lent *l)
{
    check(t, same((Bytes){ l->input.at, l->input.len }, order->input) && same((Bytes){ l->description.at, l->description.len }, order->description)
                 && same((Bytes){ l->waiting.at, l->waiting.len }, order->waiting),
          "inputs are as they were");
}

/* Nothing stands behind what was written, and the state tells what the answer told. */
static void check_done(Engine *engine, const Said *said, const Lent *l)
{
    Tally *t = engine->tally;
    Status now = status(engine);
    check(t, said->written <= l->output.len, "no more is written than there is room");
    check(t, is_patterned(&l->output, (size_t)said->written), "the output behind what was written is as it was");
    check(t, is_patterned(&l->answer, HISPROAT_ANSWER_SIZE), "the rest of the answer's bytes are as they were");
    check(t, said->stopped == (now.phase == HISPROAT_PHASE_STOPPED), "the status tells whether the engine has stopped");
    check(t, said->outcome == (said->stopped ? now.outcome : 0), "the status tells the outcome");
}

/* Of the fixed part an event changes the moving bytes, and past the tables nothing. */
static void check_kept(Tally *t, const Lent *l, Bytes state_before)
{
    const uint8_t *before = state_before.at, *now = l->state.at;
    size_t tables_end = needed(before, l->state.len);
    check(t, memcmp(before, now, AT_MOVING) == 0 && memcmp(before + AT_ID_LENGTH, now + AT_ID_LENGTH, AT_TABLES - AT_ID_LENGTH) == 0, "the settings are as they were");
    check(t, l->state.len >= tables_end && memcmp(before + tables_end, now + tables_end, l->state.len - tables_end) == 0, "bytes past the tables are as they were");
}

static void check_refused(Tally *t, const Lent *l, Bytes state_before)
{
    check(t, same((Bytes){ l->state.at, l->state.len }, state_before), "a refusal leaves the state");
    check(t, is_patterned(&l->output, 0), "a refusal leaves the output");
    check(t, is_patterned(&l->answer, 0), "a refusal leaves the answer");
}

static Order with_slices(Order order)
{
    if (order.input.at == NULL)
        order.input = none();
    if (order.description.at == NULL)
        order.description = none();
    if (order.waiting.at == NULL)
        order.waiting = none();
    return order;
}

Said perform(Engine *engine, Order given)
{
    Tally *t = engine->tally;
    Order order = with_slices(given);
    Lent l = {
        .state = engine->state,
        .input = lend(t, order.input),
        .description = lend(t, order.description),
        .waiting = lend(t, order.waiting),
        .output = lend_pattern(t, hisproat_room(order.waiting.len) - order.output_short),
        .answer = lend_pattern(t, HISPROAT_ANSWER_SIZE - order.answer_short),
    };
    Slice before = lend(t, (Bytes){ l.state.at, l.state.len });
    Said said = { .refused = 0 };
    uint8_t refused = call_event(&order, &l);
    engine->wire_len = 0;
    if (refused == HISPROAT_OK) {
        said = taken_apart(l.answer.at);
        check_done(engine, &said, &l);
        check_kept(t, &l, (Bytes){ before.at, before.len });
        engine->wire_len = said.written <= sizeof engine->wire ? (size_t)said.written : 0;
        memcpy(engine->wire, l.output.at, engine->wire_len);
    } else {
        said.refused = refused;
        check_refused(t, &l, (Bytes){ before.at, before.len });
    }
    check_inputs(t, &order, &l);
    give_back(t, &before);
    give_back(t, &l.input);
    give_back(t, &l.description);
    give_back(t, &l.waiting);
    give_back(t, &l.output);
    give_back(t, &l.answer);
    return said;
}

Order any_order(Event event, const Piece *header, const Piece *session_frame)
{
    Order order = { .event = event };
    if (event == ON_RECEIVE_HEADER)
        order.input = of(header);
    else if (event == ON_INCOMING || event == ON_OUTGOING)
        order.input = of(session_frame);
    else if (event == ON_CLOSE_WITH_ERROR)
        order.input = text("a:b");
    return order;
}

int writes(Event event)
{
    return event != ON_RECEIVE_HEADER && event != ON_ALLOCATE && event != ON_DEALLOCATE;
}

void refused(Engine *engine, Order order, uint8_t number, const char *what)
{
    check(engine->tally, perform(engine, order).refused == number, what);
}

Said send_header(Engine *engine)
{
    return perform(engine, (Order){ .event = ON_SEND_HEADER });
}

Said receive_header(Engine *engine, Bytes header)
{
    return perform(engine, (Order){ .event = ON_RECEIVE_HEADER, .input = header });
}

Said send_open(Engine *engine)
{
    return perform(engine, (Order){ .event = ON_SEND_OPEN });
}

Said incoming(Engine *engine, Bytes frame, uint32_t spare)
{
    return perform(engine, (Order){ .event = ON_INCOMING, .input = frame, .number = spare });
}

Said incoming_while(Engine *engine, Bytes frame, Bytes waiting)
{
    return perform(engine, (Order){ .event = ON_INCOMING, .input = frame, .waiting = waiting });
}

Said outgoing(Engine *engine, Bytes frame)
{
    return perform(engine, (Order){ .event = ON_OUTGOING, .input = frame });
}

Said allocate(Engine *engine, uint32_t handle)
{
    return perform(engine, (Order){ .event = ON_ALLOCATE, .number = handle });
}

Said deallocate(Engine *engine, uint16_t channel)
{
    return perform(engine, (Order){ .event = ON_DEALLOCATE, .number = channel });
}

Said close_order(Engine *engine, Bytes waiting)
{
    return perform(engine, (Order){ .event = ON_CLOSE, .waiting = waiting });
}

Said close_error(Engine *engine, const char *condition, const char *description, Bytes waiting)
{
    return perform(engine, (Order){ .event = ON_CLOSE_WITH_ERROR,
                                    .input = text(condition),
                                    .flag = *description != 0,
                                    .description = text(description),
                                    .waiting = waiting });
}

Said tick(Engine *engine)
{
    return perform(engine, (Order){ .event = ON_TICK });
}

Said end_of_input(Engine *engine)
{
    return perform(engine, (Order){ .event = ON_END_OF_INPUT });
}

Said not_delivered(Engine *engine, uint8_t new_session)
{
    return perform(engine, (Order){ .event = ON_NOT_DELIVERED, .flag = new_session });
}

void open_with(Engine *engine, Bytes peer_open)
{
    Tally *t = engine->tally;
    Piece header = hex(HEADER);
    Said sent = send_header(engine), read = receive_header(engine, of(&header)), open = send_open(engine);
    Said opened = incoming(engine, peer_open, 0);
    check(t, sent.kind == HISPROAT_KIND_WROTE && read.kind == HISPROAT_KIND_HEADER, "headers go both ways");
    check(t, open.kind == HISPROAT_KIND_WROTE && opened.kind == HISPROAT_KIND_OPENED, "Opens go both ways");
    check(t, status(engine).state == HISPROAT_STATE_OPENED, "the engine is open");
}

Engine opened(Tally *tally, int is_listener)
{
    Piece peer_open = frame(0, OPEN_OF_H);
    Engine engine = new_engine(tally, is_listener, p1());
    open_with(&engine, of(&peer_open));
    return engine;
}

Status status(Engine *engine)
{
    Tally *t = engine->tally;
    Slice answer = lend_pattern(t, HISPROAT_STATUS_SIZE);
    const uint8_t *a = answer.at;
    Status now = { .role = 0xFF };
    uint8_t refused = hisproat_status(engine->state.at, engine->state.len, answer.at, answer.len);
    check(t, refused == HISPROAT_OK, "the state can be read");
    if (refused == HISPROAT_OK)
        now = (Status){
            .role = a[HISPROAT_STATUS_AT_ROLE],
            .phase = a[HISPROAT_STATUS_AT_PHASE],
            .outcome = a[HISPROAT_STATUS_AT_OUTCOME],
            .state = a[HISPROAT_STATUS_AT_STATE],
            .reading_limit = (uint32_t)hisproat_number(a + HISPROAT_STATUS_AT_READING_LIMIT, 4),
            .writing_limit = (uint32_t)hisproat_number(a + HISPROAT_STATUS_AT_WRITING_LIMIT, 4),
            .agreed = a[HISPROAT_STATUS_AT_AGREED],
            .channel_max = (uint16_t)hisproat_number(a + HISPROAT_STATUS_AT_CHANNEL_MAX, 2),
            .taken = (uint32_t)hisproat_number(a + HISPROAT_STATUS_AT_TAKEN, 4),
        };
    give_back(t, &answer);
    return now;
}

typedef uint8_t HandleReader(const uint8_t *, size_t, uint16_t, uint8_t *, size_t);

static int64_t read_handle(Engine *engine, HandleReader *reader, uint16_t channel)
{
    Tally *t = engine->tally;
    Slice answer = lend_pattern(t, HISPROAT_HANDLE_SIZE);
    int64_t handle = -1;
    uint8_t refused = reader(engine->state.at, engine->state.len, channel, answer.at, answer.len);
    check(t, refused == HISPROAT_OK, "a handle can be read");
    if (refused == HISPROAT_OK) {
        uint32_t number = (uint32_t)hisproat_number(answer.at + HISPROAT_HANDLE_AT_NUMBER, 4);
        uint8_t found = answer.at[HISPROAT_HANDLE_AT_FOUND];
        check(t, found == 1 || (found == 0 && number == 0), "a handle is there, or there is none and the rest is 0");
        handle = found ? (int64_t)number : -1;
    }
    give_back(t, &answer);
    return handle;
}

int64_t handle_at(Engine *engine, uint16_t channel)
{
    return read_handle(engine, hisproat_handle_at, channel);
}

int64_t tied_handle(Engine *engine, uint16_t channel)
{
    return read_handle(engine, hisproat_tied_handle, channel);
}
