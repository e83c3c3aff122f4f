/*
 * A target for libFuzzer over the C interface. The bytes of an input are read as a program: a list of steps, each a call of one of the seventeen functions with its
 * arguments, or something done to a state's bytes or to the lengths of the slices that the next call is lent. tests/fuzz.sh builds and runs it.
 *
 * Each call is made twice, on other slices that lie elsewhere and whose output and answer have other old bytes. What is checked of both:
 * - the returned number is the one that the header foretells from the state's bytes and the lengths, or one that it names where the frames decide;
 * - on a refusal no byte of state, output and answer is changed, and no byte of the inputs ever;
 * - else the answer is one that the header allows, its counts lie within the slices, only the bytes that it tells of are written, these are whole frames within the
 *   writing limit, the fixed part is an engine's with the same settings, and the bytes past the tables are as they were;
 * - where the tables are as an engine leaves them, they are so afterwards, and channels, handles and ties before and after are what the answer tells: each tie is through one
 *   outgoing channel, stands in its list, and goes when it is freed;
 * - both calls give the same.
 * The first of the two has its slices right before memory that cannot be touched, the second right behind: an access beside a slice ends the program.
 */
#include "rig.h"

#include "fence.h"
#include "judge.h"

#include <stdio.h>
#include <stdlib.h>
#include <string.h>

enum {
    LONGEST = 20000,       /* bytes of a lent input */
    MOST_STEPS = 64,       /* of a program */
    MOST_CHANNEL = 299,    /* the highest channel-max that there is room for */
    MOST_STATE = HISPROAT_STATE_SIZE(MOST_CHANNEL) + 64,
    MOST_OUTPUT = 1 << 16, /* bytes that can be lent as output or answer */
    DEPENDS = 256          /* a number that is not foretold: the frames, or altered tables, decide */
};

/* The functions: the events of rig.h, then these. */
enum { READ_STATUS = EVENTS, READ_HANDLE_AT, READ_TIED_HANDLE, NEW_DIALLER, NEW_LISTENER, FUNCTIONS };

/* Steps that are no calls. */
enum { ODD_LENGTHS = FUNCTIONS, POKE, OTHER_ENGINE, COPY_ENGINE, OPEN_ENGINE };

#define BIT(n) (1u << (n))
#define OF_FRAMES (BIT(1) | BIT(3) | BIT(5) | BIT(6) | BIT(7))
#define OF_STATE (BIT(8) | BIT(9) | BIT(20))
#define KIND(name) BIT(HISPROAT_KIND_##name)

/* Of each function: its name, what it is lent, the refusals that the header names, and the kinds of its answer. */
static const struct {
    const char *name;
    unsigned inputs;
    int has_output;
    size_t answer_size;
    uint32_t refusals;
    uint32_t kinds;
} ABOUT[FUNCTIONS] = {
    [ON_SEND_HEADER] = { "send_header", 0, 1, 42, OF_STATE, KIND(WROTE) },
    [ON_RECEIVE_HEADER] = { "receive_header", 1, 0, 42, OF_STATE | BIT(1) | BIT(2), KIND(HEADER) | KIND(OTHER_PROTOCOL) },
    [ON_SEND_OPEN] = { "send_open", 0, 1, 42, OF_STATE, KIND(WROTE) },
    [ON_INCOMING] = { "on_incoming", 2, 1, 42, OF_STATE | OF_FRAMES,
                      KIND(NOTHING) | KIND(OPENED) | KIND(CLOSED) | KIND(FORWARD) | KIND(BEGAN) | KIND(REFUSED) },
    [ON_CLOSE] = { "on_close", 1, 1, 42, OF_STATE | OF_FRAMES, KIND(WROTE) | KIND(REFUSED) },
    [ON_CLOSE_WITH_ERROR] = { "on_close_with_error", 3, 1, 42, OF_STATE | OF_FRAMES, KIND(WROTE) | KIND(REFUSED) },
    [ON_ALLOCATE] = { "on_allocate", 0, 0, 42, OF_STATE | BIT(21) | BIT(22) | BIT(23), KIND(CHANNEL) },
    [ON_DEALLOCATE] = { "on_deallocate", 0, 0, 42, OF_STATE | BIT(26), KIND(FREED) },
    [ON_OUTGOING] = { "on_outgoing", 1, 1, 42, OF_STATE | OF_FRAMES, KIND(WROTE) | KIND(REFUSED) },
    [ON_TICK] = { "on_tick", 0, 1, 42, OF_STATE, KIND(WROTE) | KIND(END) },
    [ON_END_OF_INPUT] = { "on_end_of_input", 0, 1, 42, OF_STATE, KIND(NONE) },
    [ON_NOT_DELIVERED] = { "on_not_delivered", 0, 1, 42, OF_STATE, KIND(NONE) },
    [READ_STATUS] = { "status", 0, 0, HISPROAT_STATUS_SIZE, BIT(8) | BIT(9), 0 },
    [READ_HANDLE_AT] = { "handle_at", 0, 0, HISPROAT_HANDLE_SIZE, BIT(8) | BIT(9), 0 },
    [READ_TIED_HANDLE] = { "tied_handle", 0, 0, HISPROAT_HANDLE_SIZE, BIT(8) | BIT(9), 0 },
    [NEW_DIALLER] = { "dialler", 1, 0, 0, BIT(8), 0 },
    [NEW_LISTENER] = { "listener", 1, 0, 0, BIT(8), 0 },
};

/* A call with its arguments. */
typedef struct {
    unsigned function;
    Bytes in[3];         /* in the order of the parameters */
    uint32_t number;     /* spare, handle, channel or max-frame-size */
    uint16_t channel_max;
    uint8_t flag;        /* has_description, new_session or has_idle_time_out */
    uint32_t idle;
    size_t state_len;
    size_t output_len;
    size_t answer_len;
    int sound; /* whether the state's bytes are an engine's */
    int whole; /* and its channel numbers are as an engine leaves them */
    int tied;  /* and its ties are */
} Call;

static const Call *current; /* for the report of a fault */

static void demand(int holds, const char *what)
{
    if (holds)
        return;
    fprintf(stderr, "fault: hisproat_%s: %s\n", ABOUT[current->function].name, what);
    abort();
}

/* ---- The tape: the input's bytes, and zeros after them */

typedef struct {
    const uint8_t *at;
    size_t left;
} Tape;

static uint8_t byte(Tape *t)
{
    if (t->left == 0)
        return 0;
    t->left -= 1;
    return *t->at++;
}

static uint32_t number(Tape *t, unsigned width)
{
    uint32_t n = 0;
    while (width-- > 0)
        n = n << 8 | byte(t);
    return n;
}

/* ---- Drafts: inputs in the making */

typedef struct {
    uint8_t at[LONGEST];
    size_t len;
} Draft;

static void add(Draft *d, uint8_t value)
{
    if (d->len < LONGEST)
        d->at[d->len++] = value;
}

static void add_number(Draft *d, uint32_t n, unsigned width)
{
    while (width-- > 0)
        add(d, (uint8_t)(n >> 8 * width));
}

static void add_raw(Draft *d, Tape *t, size_t n)
{
    while (n-- > 0)
        add(d, byte(t));
}

static void add_bytes(Draft *d, Bytes bytes)
{
    for (size_t i = 0; i < bytes.len; i++)
        add(d, bytes.at[i]);
}

static void add_fill(Draft *d, uint8_t value, size_t n)
{
    while (n-- > 0)
        add(d, value);
}

static void set_number(Draft *d, size_t at, size_t n, unsigned width)
{
    for (unsigned i = 0; i < width; i++)
        if (at + i < LONGEST)
            d->at[at + i] = (uint8_t)(n >> 8 * (width - 1 - i));
}

/* Binary, a string or a symbol, with a length of `width` bytes. Lengths from 200 to 1,700 have one byte over and over. */
static void add_text(Draft *d, Tape *t, uint8_t code, unsigned width)
{
    size_t n = byte(t) % (width == 1 ? 40 : 256);
    int is_long = n >= 0xF0;
    n = is_long ? 100 * (n - 0xEE) : n;
    add(d, code);
    add_number(d, (uint32_t)n, width);
    if (is_long)
        add_fill(d, byte(t), n);
    else
        add_raw(d, t, n);
}

static void add_value(Draft *d, Tape *t, unsigned depth);

/* A list or map whose size and count fit, with sizes of `width` bytes. */
static void add_compound(Draft *d, Tape *t, uint8_t code, unsigned width, unsigned depth)
{
    unsigned count = byte(t) % 6;
    size_t at = d->len + 1;
    add(d, code);
    add_number(d, 0, 2 * width);
    for (unsigned i = 0; i < count; i++)
        add_value(d, t, depth + 1);
    set_number(d, at, d->len - at - width, width);
    set_number(d, at + width, count, width);
}

/* An array of elements of a fixed width; its count may be any number where the width is 0. */
static void add_array(Draft *d, Tape *t, uint8_t code, unsigned width)
{
    uint8_t element = byte(t);
    unsigned of = element >> 4, each = of <= 4 || of > 9 ? 0 : 1u << (of - 5);
    uint32_t count = each == 0 ? number(t, 2) : byte(t) % 8u;
    size_t at = d->len + 1;
    add(d, code);
    add_number(d, 0, 2 * width);
    add(d, element);
    add_raw(d, t, each == 0 ? 0 : each * count);
    set_number(d, at, d->len - at - width, width);
    set_number(d, at + width, count, width);
}

/* A value: a code of Part 1, and what belongs to it. */
static void add_value(Draft *d, Tape *t, unsigned depth)
{
    static const uint8_t CODES[] = { 0x40, 0x41, 0x42, 0x43, 0x44, 0x45, 0x50, 0x51, 0x52, 0x53, 0x54, 0x55, 0x56, 0x60, 0x61, 0x70, 0x71, 0x72, 0x73, 0x74,
                                     0x80, 0x81, 0x82, 0x83, 0x84, 0x94, 0x98, 0xA0, 0xA1, 0xA3, 0xB0, 0xB1, 0xB3, 0xC0, 0xC1, 0xD0, 0xD1, 0xE0, 0xF0, 0x00 };
    uint8_t code = t->left == 0 || depth > 18 ? 0x40 : CODES[byte(t) % sizeof CODES];
    unsigned kind = code >> 4, wide = kind == 0xB || kind == 0xD || kind == 0xF ? 4 : 1;
    if (code == 0) {
        add(d, 0);
        add_value(d, t, depth + 1);
        add_value(d, t, depth + 1);
    } else if (kind >= 0xE) {
        add_array(d, t, code, wide);
    } else if (kind >= 0xC) {
        add_compound(d, t, code, wide, depth);
    } else if (kind >= 0xA) {
        add_text(d, t, code, wide);
    } else {
        add(d, code);
        add_raw(d, t, kind == 4 ? 0 : 1u << (kind - 5));
    }
}

/* A uint, as short as it goes or not. */
static void add_uint(Draft *d, Tape *t)
{
    uint8_t form = byte(t) % 3;
    add(d, (uint8_t[]){ 0x43, 0x52, 0x70 }[form]);
    add_raw(d, t, (size_t[]){ 0, 1, 4 }[form]);
}

/* A field of the type that a letter names: s string, h ushort, u uint, e error, v any. It may also be null, or a value of another type. */
static void add_field(Draft *d, Tape *t, char type)
{
    uint8_t how = byte(t);
    if (how == 0) {
        add(d, 0x40);
    } else if (how >= 0xF0 || type == 'v') {
        add_value(d, t, 1);
    } else if (type == 's') {
        add(d, 0xA1);
        add(d, how);
        add_raw(d, t, how);
    } else if (type == 'h') {
        add(d, 0x60);
        add_number(d, byte(t) + (how < 0xC0 ? 0 : 200u), 2);
    } else if (type == 'u') {
        add_uint(d, t);
    } else {
        add_number(d, 0x00531D, 3);
        add_compound(d, t, how & 1 ? 0xC0 : 0xD0, how & 1 ? 1 : 4, 2);
    }
}

/* What comes after a performative: so many bytes, or as many as bring the frame that starts at `start` to a limit, or one byte beside it. */
static void add_payload(Draft *d, Tape *t, size_t start)
{
    static const size_t LIMITS[] = { 512, 1024, 16384 };
    size_t n = number(t, 2), length = d->len - start, target = LIMITS[n % 3] + n / 3 % 3 - 1;
    if (n >= 17000)
        n = target > length ? target - length : 0;
    add_fill(d, n > 0 ? byte(t) : 0, n);
}

/* A performative with its fields, in a frame that starts at `start`. The first byte has the forms of descriptor and list, and whether something comes after it. */
static void add_performative(Draft *d, Tape *t, uint8_t descriptor, size_t start)
{
    static const char *const TYPES[] = { "ssuhuvvvvv", "huuuuvvv", "vvvvvvvvvvvvvv", "vvvvvvvvvvv", "vvvvvvvvvvv", "vvvvvv", "vve", "e", "e" };
    const char *types = TYPES[(descriptor - 0x10) % 9];
    uint8_t forms = byte(t);
    size_t most = strlen(types), count = byte(t) % (most + 2);
    unsigned width = forms & 4 ? 4 : 1;
    add_number(d, forms & 2 ? 0x0080 : 0x0053, 2);
    add_number(d, 0, forms & 2 ? 7 : 0);
    add(d, descriptor);
    if (count == 0 && !(forms & 4)) {
        add(d, 0x45);
    } else {
        size_t at = d->len + 1;
        add(d, width == 1 ? 0xC0 : 0xD0);
        add_number(d, 0, 2 * width);
        for (size_t i = 0; i < count; i++)
            add_field(d, t, i < most ? types[i] : 'v');
        set_number(d, at, d->len - at - width, width);
        set_number(d, at + width, count, width);
    }
    if (forms & 8)
        add_payload(d, t, start);
}

/* A frame of the right length: a performative, an empty one, or any body. */
static void add_frame(Draft *d, Tape *t)
{
    uint8_t what = byte(t) % 11, channel = byte(t);
    size_t at = d->len;
    add_number(d, 0, 4);
    add_number(d, 0x0200, 2);
    if (channel == 0xFF)
        add_raw(d, t, 2);
    else
        add_number(d, channel < 0xF0 ? channel % 9 : 250u + channel % 16 * 4, 2);
    if (what < 9)
        add_performative(d, t, (uint8_t)(0x10 + what), at);
    else if (what == 10)
        add_raw(d, t, byte(t));
    set_number(d, at, d->len - at, 4);
}

/* Some bytes altered, and the end moved. */
static void damage(Draft *d, Tape *t, unsigned edits, int moves_end)
{
    for (; edits > 0 && d->len > 0; edits--) {
        size_t place = number(t, 2) % d->len;
        d->at[place] ^= byte(t);
    }
    if (!moves_end)
        return;
    int by = (int8_t)byte(t);
    for (; by > 0; by--)
        add(d, 0);
    d->len = (size_t)-by < d->len ? d->len - (size_t)-by : 0;
}

/* ---- Engines: two of them, so that each can be given what the other wrote */

typedef struct {
    uint8_t state[MOST_STATE];
    uint8_t sound[MOST_STATE]; /* the last one that stood for an engine */
    Draft wire;                /* what was written last */
} Machine;

typedef struct {
    Machine engines[2];
    unsigned turn;
    unsigned calls; /* how many there were */
    /* of the next call: whether its lengths are odd, and how */
    unsigned odd;
    uint32_t lengths[3];
    unsigned poked; /* what was altered of the state since the last call: 0 nothing, else a place, or a field and its value */
    Draft drafts[3];
} World;

static const uint8_t AMQP_HEADER[8] = { 'A', 'M', 'Q', 'P', 0, 1, 0, 0 };

/* What a slice has before it is damaged. `wire` is what the other engine wrote. */
static void draw(Draft *d, Tape *t, unsigned kind, const Draft *wire)
{
    size_t n = 0;
    switch (kind) {
    case 0:
        break;
    case 1:
        add_raw(d, t, byte(t));
        break;
    case 2:
        n = number(t, 2);
        add_fill(d, byte(t), n);
        break;
    case 3:
        add_bytes(d, (Bytes){ AMQP_HEADER, sizeof AMQP_HEADER });
        break;
    case 4:
        add_bytes(d, (Bytes){ wire->at, wire->len });
        break;
    case 5:
        for (n = byte(t) % 4 + 1; n > 0; n--)
            add_frame(d, t);
        break;
    case 6:
        add_frame(d, t);
        break;
    default:
        add_raw(d, t, number(t, 2));
    }
}

/* The next slice to lend: its first byte has the kind, how many bytes are altered, and whether the end is moved. */
static Bytes slice(World *w, Tape *t, unsigned which)
{
    Draft *d = &w->drafts[which];
    uint8_t how = byte(t);
    d->len = 0;
    draw(d, t, how & 7, &w->engines[1 - w->turn].wire);
    damage(d, t, how >> 3 & 3, how & 0x80);
    return (Bytes){ .at = d->at, .len = d->len };
}

/* ---- Lent slices */

enum { LENT_STATE, LENT_IN_1, LENT_IN_2, LENT_IN_3, LENT_OUTPUT, LENT_ANSWER, SLOTS };

/* The slices of one call, and what it returned. */
typedef struct {
    uint8_t *at[SLOTS];
    size_t len[SLOTS];
    const uint8_t *old; /* what output and answer had before */
    uint8_t returned;
} Round;

static void lend_slice(Round *r, unsigned which, Bytes bytes, unsigned second)
{
    r->at[which] = fenced(which + SLOTS * second, bytes.len, (int)second);
    r->len[which] = bytes.len;
    if (bytes.len > 0)
        memcpy(r->at[which], bytes.at, bytes.len);
}

static void lend_all(Round *r, const Call *c, const uint8_t *state, unsigned second)
{
    static uint8_t olds[2][MOST_OUTPUT];
    if (olds[second][0] == 0)
        memset(olds[second], second ? 0xA5 : 0x3C, MOST_OUTPUT);
    r->old = olds[second];
    lend_slice(r, LENT_STATE, (Bytes){ state, c->state_len }, second);
    for (unsigned i = 0; i < 3; i++)
        lend_slice(r, LENT_IN_1 + i, c->in[i], second);
    lend_slice(r, LENT_OUTPUT, (Bytes){ r->old, c->output_len }, second);
    lend_slice(r, LENT_ANSWER, (Bytes){ r->old, c->answer_len }, second);
}

static int is_old(const Round *r, unsigned which, size_t from)
{
    return from >= r->len[which] || memcmp(r->at[which] + from, r->old, r->len[which] - from) == 0;
}

/* ---- The call */

#define LENDS(which) r->at[which], r->len[which]

static uint8_t other_call(Round *r, const Call *c)
{
    switch (c->function) {
    case READ_STATUS:
        return hisproat_status(LENDS(LENT_STATE), LENDS(LENT_ANSWER));
    case READ_HANDLE_AT:
        return hisproat_handle_at(LENDS(LENT_STATE), (uint16_t)c->number, LENDS(LENT_ANSWER));
    case READ_TIED_HANDLE:
        return hisproat_tied_handle(LENDS(LENT_STATE), (uint16_t)c->number, LENDS(LENT_ANSWER));
    case NEW_DIALLER:
        return hisproat_dialler(LENDS(LENT_STATE), LENDS(LENT_IN_1), c->number, c->channel_max, c->flag, c->idle);
    default:
        return hisproat_listener(LENDS(LENT_STATE), LENDS(LENT_IN_1), c->number, c->channel_max, c->flag, c->idle);
    }
}

static uint8_t call(Round *r, const Call *c)
{
    switch (c->function) {
    case ON_SEND_HEADER:
        return hisproat_send_header(LENDS(LENT_STATE), LENDS(LENT_OUTPUT), LENDS(LENT_ANSWER));
    case ON_RECEIVE_HEADER:
        return hisproat_receive_header(LENDS(LENT_STATE), LENDS(LENT_IN_1), LENDS(LENT_ANSWER));
    case ON_SEND_OPEN:
        return hisproat_send_open(LENDS(LENT_STATE), LENDS(LENT_OUTPUT), LENDS(LENT_ANSWER));
    case ON_INCOMING:
        return hisproat_on_incoming(LENDS(LENT_STATE), LENDS(LENT_IN_1), c->number, LENDS(LENT_IN_2), LENDS(LENT_OUTPUT), LENDS(LENT_ANSWER));
    case ON_CLOSE:
        return hisproat_on_close(LENDS(LENT_STATE), LENDS(LENT_IN_1), LENDS(LENT_OUTPUT), LENDS(LENT_ANSWER));
    case ON_CLOSE_WITH_ERROR:
        return hisproat_on_close_with_error(LENDS(LENT_STATE), LENDS(LENT_IN_1), c->flag, LENDS(LENT_IN_2), LENDS(LENT_IN_3), LENDS(LENT_OUTPUT),
                                            LENDS(LENT_ANSWER));
    case ON_ALLOCATE:
        return hisproat_on_allocate(LENDS(LENT_STATE), c->number, LENDS(LENT_ANSWER));
    case ON_DEALLOCATE:
        return hisproat_on_deallocate(LENDS(LENT_STATE), (uint16_t)c->number, LENDS(LENT_ANSWER));
    case ON_OUTGOING:
        return hisproat_on_outgoing(LENDS(LENT_STATE), LENDS(LENT_IN_1), LENDS(LENT_OUTPUT), LENDS(LENT_ANSWER));
    case ON_TICK:
        return hisproat_on_tick(LENDS(LENT_STATE), LENDS(LENT_OUTPUT), LENDS(LENT_ANSWER));
    case ON_END_OF_INPUT:
        return hisproat_on_end_of_input(LENDS(LENT_STATE), LENDS(LENT_OUTPUT), LENDS(LENT_ANSWER));
    case ON_NOT_DELIVERED:
        return hisproat_on_not_delivered(LENDS(LENT_STATE), c->flag, LENDS(LENT_OUTPUT), LENDS(LENT_ANSWER));
    default:
        return other_call(r, c);
    }
}

/* ---- What the header foretells */

/* The frames that wait. */
static Bytes waiting_frames(const Call *c)
{
    switch (c->function) {
    case ON_INCOMING:
        return c->in[1];
    case ON_CLOSE_WITH_ERROR:
        return c->in[2];
    case ON_CLOSE:
        return c->in[0];
    default:
        return none();
    }
}

static int is_ascii(Bytes text)
{
    for (size_t i = 0; i < text.len; i++)
        if (text.at[i] >= 0x80)
            return 0;
    return 1;
}

static int are_settings(const Call *c)
{
    return c->in[0].len <= HISPROAT_MAX_CONTAINER_ID && is_utf8(c->in[0].at, c->in[0].len) && c->number >= HISPROAT_MIN_FRAME_SIZE
        && c->number <= HISPROAT_MAX_FRAME_SIZE;
}

static int is_error(const Call *c)
{
    Bytes condition = c->in[0], description = c->in[1];
    return condition.len <= HISPROAT_MAX_CONDITION && is_ascii(condition)
        && (c->flag == 0 || (description.len <= HISPROAT_MAX_DESCRIPTION && is_utf8(description.at, description.len)));
}

/* What is said of a frame's first bytes: 0, or a refusal. `limit` is the longest that is looked at. */
static int frame_refused(Bytes frame, uint64_t limit)
{
    uint64_t length = frame.len < 4 ? 0 : hisproat_number(frame.at, 4);
    if (frame.len < 4)
        return HISPROAT_REFUSED_BYTES_MISSING;
    if (length < 8)
        return HISPROAT_REFUSED_LENGTH_UNDER_8;
    if (length > limit)
        return HISPROAT_REFUSED_OVER_READING_LIMIT;
    if (length > frame.len)
        return HISPROAT_REFUSED_BYTES_MISSING;
    return frame.at[4] == 2 && frame.at[5] == 0 ? 0 : HISPROAT_REFUSED_FRAME_TYPE;
}

/* The same of frames to be sent. After the first bytes it is the body that decides, or the next frame. */
static int sent_refused(Bytes frames)
{
    int refused = frame_refused(frames, UINT32_MAX);
    return refused ? refused : DEPENDS;
}

static int header_refused(Bytes header, uint8_t state)
{
    if (header.len < 8)
        return HISPROAT_REFUSED_BYTES_MISSING;
    if (memcmp(header.at, "AMQP", 4) != 0 || header.at[4] == 1 || header.at[4] > 3)
        return HISPROAT_REFUSED_HEADER_MALFORMED;
    return BIT(state) & (BIT(HISPROAT_STATE_START) | BIT(HISPROAT_STATE_HEADER_SENT)) ? 0 : HISPROAT_REFUSED_ILLEGAL_STATE;
}

static int channel_refused(const uint8_t *s)
{
    if (s[AT_STATE] == HISPROAT_STATE_CLOSE_SENT || s[AT_STATE] == HISPROAT_STATE_DISCARDING || s[AT_STATE] == HISPROAT_STATE_END)
        return HISPROAT_REFUSED_STOPPED;
    if (!s[AT_AGREED])
        return HISPROAT_REFUSED_NOT_OPENED;
    return first_free(s) >= 0 ? 0 : HISPROAT_REFUSED_NO_CHANNEL_LEFT;
}

/* The refusal of an event that its phase takes and that has all its room. */
static int event_refused(const Call *c, const uint8_t *s)
{
    static const uint32_t SENDS_HEADER = BIT(HISPROAT_STATE_START) | BIT(HISPROAT_STATE_HEADER_RECEIVED);
    static const uint32_t SENDS_OPEN = BIT(HISPROAT_STATE_HEADER_EXCHANGE) | BIT(HISPROAT_STATE_OPEN_RECEIVED) | BIT(HISPROAT_STATE_HEADER_SENT);
    Bytes waiting = waiting_frames(c);
    switch (c->function) {
    case ON_SEND_HEADER:
        return BIT(s[AT_STATE]) & SENDS_HEADER ? 0 : HISPROAT_REFUSED_ILLEGAL_STATE;
    case ON_SEND_OPEN:
        return BIT(s[AT_STATE]) & SENDS_OPEN ? 0 : HISPROAT_REFUSED_ILLEGAL_STATE;
    case ON_RECEIVE_HEADER:
        return header_refused(c->in[0], s[AT_STATE]);
    case ON_ALLOCATE:
        return c->whole ? channel_refused(s) : DEPENDS;
    case ON_DEALLOCATE:
        return c->whole ? taken_by(s, c->number) >= 0 ? 0 : HISPROAT_REFUSED_CHANNEL_NOT_TAKEN : DEPENDS;
    case ON_INCOMING:
        if (frame_refused(c->in[0], hisproat_number(s + AT_READING_LIMIT, 4)) == HISPROAT_REFUSED_BYTES_MISSING)
            return HISPROAT_REFUSED_BYTES_MISSING;
        return waiting.len > 0 ? sent_refused(waiting) : 0;
    case ON_OUTGOING:
        return sent_refused(c->in[0]);
    default:
        return waiting.len > 0 ? sent_refused(waiting) : 0;
    }
}

/* Whether the answer, and where there is one the output, are too small. */
static int lacks_room(const Call *c)
{
    return c->answer_len < ABOUT[c->function].answer_size || (ABOUT[c->function].has_output && c->output_len < hisproat_room(waiting_frames(c).len));
}

/* The number that is to be returned, or DEPENDS. */
static int foretold(const Call *c, const uint8_t *s)
{
    int in_time = c->function == ON_INCOMING || c->function == ON_END_OF_INPUT ? s[AT_PHASE] != HISPROAT_PHASE_STOPPED : s[AT_PHASE] == HISPROAT_PHASE_RUNNING;
    if (c->function < NEW_DIALLER && lacks_room(c))
        return HISPROAT_REFUSED_NO_ROOM;
    if (c->function >= NEW_DIALLER)
        return are_settings(c) && c->state_len >= HISPROAT_STATE_SIZE(c->channel_max) ? 0 : HISPROAT_REFUSED_BEYOND_LIMITS;
    if (!c->sound)
        return HISPROAT_REFUSED_BEYOND_LIMITS;
    if (c->function >= EVENTS)
        return 0;
    if (c->function == ON_CLOSE_WITH_ERROR && !is_error(c))
        return HISPROAT_REFUSED_BEYOND_LIMITS;
    return in_time ? event_refused(c, s) : HISPROAT_REFUSED_ILLEGAL_STATE;
}

/* ---- What holds of an answer. `s` is the state before, `now` the state after. */

/* Whole frames, or nothing; none is over the limit. */
static int are_frames(const uint8_t *at, size_t len, uint64_t limit)
{
    while (len > 0) {
        Bytes rest = { .at = at, .len = len };
        if (frame_refused(rest, limit) != 0)
            return 0;
        size_t taken = (size_t)hisproat_number(at, 4);
        at += taken;
        len -= taken;
    }
    return 1;
}

static void check_written(const Round *r, const Call *c, const uint8_t *s)
{
    uint64_t written = hisproat_written(r->at[LENT_ANSWER]);
    if (c->function == ON_SEND_HEADER)
        demand(written == 8 && memcmp(r->at[LENT_OUTPUT], AMQP_HEADER, 8) == 0, "the header is another");
    else
        demand(are_frames(r->at[LENT_OUTPUT], (size_t)written, hisproat_number(s + AT_WRITING_LIMIT, 4)), "what was written is not whole frames within the limit");
}

static void check_consumed(const Round *r, const Call *c)
{
    const uint8_t *a = r->at[LENT_ANSWER];
    uint64_t consumed = hisproat_consumed(a), expected = 0;
    int unknown = a[HISPROAT_AT_KIND] == HISPROAT_KIND_REFUSED && (a[HISPROAT_AT_DETAIL] == 3 || a[HISPROAT_AT_DETAIL] == 4);
    if (c->function == ON_RECEIVE_HEADER)
        expected = 8;
    else if (c->function == ON_INCOMING && !unknown)
        expected = hisproat_number(c->in[0].at, 4);
    demand(consumed == expected && consumed <= c->in[0].len, "consumed is not the header's or the frame's length");
}

/* The detail that a kind may have. */
static int is_detail(const Call *c, uint8_t kind, uint8_t detail)
{
    static const uint32_t INCOMING = BIT(3) | BIT(4) | BIT(5) | BIT(6) | BIT(7) | BIT(20) | BIT(24) | BIT(25), SENT = BIT(20) | BIT(24) | BIT(27);
    if (kind == HISPROAT_KIND_REFUSED)
        return detail < 32 && (BIT(detail) & (c->function == ON_INCOMING ? INCOMING : SENT)) != 0;
    if (kind == HISPROAT_KIND_FORWARD)
        return detail >= HISPROAT_BEGIN && detail <= HISPROAT_END;
    if (kind == HISPROAT_KIND_BEGAN)
        return detail == HISPROAT_BEGIN;
    return kind == HISPROAT_KIND_CLOSED ? detail <= 1 : detail == 0;
}

/* The numbers that a kind does not have are 0, and a body ends with its frame. */
static void check_numbers(const uint8_t *a)
{
    uint32_t kind = BIT(a[HISPROAT_AT_KIND]);
    uint64_t start = hisproat_number(a + HISPROAT_AT_BODY_START, 8), length = hisproat_number(a + HISPROAT_AT_BODY_LENGTH, 8);
    demand((kind & (KIND(CHANNEL) | KIND(BEGAN))) || hisproat_channel(a) == 0, "a channel, and the kind has none");
    demand((kind & (KIND(FORWARD) | KIND(BEGAN) | KIND(FREED) | KIND(OPENED))) || hisproat_handle(a) == 0, "a number, and the kind has none");
    if (kind & (KIND(FORWARD) | KIND(BEGAN)))
        demand(start == 8 && length == hisproat_consumed(a) - 8, "the body is not the rest of the frame");
    else
        demand(start == 0 && length == 0, "a body, and the kind has none");
}

/* What an event does with channels and ties, by its answer: which outgoing channel is taken or freed, which incoming one is tied or untied, and through which outgoing one
 * it is tied. -1 for none. */
typedef struct {
    int64_t taken, freed, tied, untied, through;
    uint32_t handle;
} Change;

/* The remote-channel of a frame that was taken, where it is a Begin that has one; else -1. Its descriptor has one byte or eight, and its list sizes of one byte or four. */
static int64_t remote_channel(Bytes frame)
{
    const uint8_t *at = frame.at + 8;
    size_t descriptor = at[1] == 0x53 ? 2 : 9;
    uint8_t list = at[1 + descriptor];
    const uint8_t *field = at + 1 + descriptor + (list == 0xC0 ? 3 : 9);
    return at[descriptor] == HISPROAT_BEGIN && field[0] == 0x60 ? (int64_t)hisproat_number(field + 1, 2) : -1;
}

static int64_t channel_of(Bytes frame)
{
    return (int64_t)hisproat_number(frame.at + 6, 2);
}

/* A listener's frame went out: a Begin that has a remote-channel ties it. */
static Change change_by_sending(Change change, const Call *c, const uint8_t *s)
{
    Bytes frame = c->in[0];
    int64_t remote = remote_channel(frame);
    if (remote < 0)
        return change;
    change.tied = remote;
    change.through = channel_of(frame);
    demand(taken_by(s, (uint32_t)change.through) >= 0, "a Begin goes out on a channel that is not taken, and ties");
    change.handle = (uint32_t)taken_by(s, (uint32_t)change.through);
    return change;
}

static Change change_of(const Call *c, const uint8_t *a, const uint8_t *s)
{
    Change change = { -1, -1, -1, -1, -1, hisproat_handle(a) };
    int64_t incoming = c->function == ON_INCOMING && c->in[0].len >= 8 ? channel_of(c->in[0]) : -1;
    uint8_t kind = a[HISPROAT_AT_KIND], detail = a[HISPROAT_AT_DETAIL];
    if (c->function == ON_OUTGOING && kind == HISPROAT_KIND_WROTE && s[AT_ROLE] == HISPROAT_ROLE_LISTENER)
        return change_by_sending(change, c, s);
    if (kind == HISPROAT_KIND_CHANNEL)
        change.handle = c->number;
    if (kind == HISPROAT_KIND_CHANNEL || kind == HISPROAT_KIND_BEGAN)
        change.taken = hisproat_channel(a);
    if (kind == HISPROAT_KIND_FREED)
        change.freed = c->number;
    if (kind == HISPROAT_KIND_BEGAN || (kind == HISPROAT_KIND_FORWARD && detail == HISPROAT_BEGIN))
        change.tied = incoming;
    if (change.tied >= 0)
        change.through = kind == HISPROAT_KIND_BEGAN ? change.taken : remote_channel(c->in[0]);
    if (kind == HISPROAT_KIND_FORWARD && detail == HISPROAT_END)
        change.untied = incoming;
    return change;
}

/* The numbers to be handed out: without the first where one was taken, with the one that was freed in front, all of them after the peer's Open, and else as before. */
static void check_hand_out(const uint8_t *a, Change change, const uint8_t *s, const uint8_t *now)
{
    static uint16_t before[MOST_CHANNELS + 1], after[MOST_CHANNELS];
    uint16_t *list = before + 1;
    int64_t count = hand_out_list(s, list), left = hand_out_list(now, after);
    if (change.taken >= 0) {
        demand(count > 0 && list[0] == change.taken, "another channel is taken");
        list += 1;
        count -= 1;
    } else if (change.freed >= 0) {
        *--list = (uint16_t)change.freed;
        count += 1;
    } else if (a[HISPROAT_AT_KIND] == HISPROAT_KIND_OPENED) {
        for (count = 0; count <= (int64_t)fixed_number(now, AT_AGREED_MAX); count++)
            list[count] = (uint16_t)count;
    }
    demand(count == left && memcmp(list, after, (size_t)count * sizeof list[0]) == 0, "channels will be handed out in another order");
}

/* Whether a handle is that of a taken channel. */
static int is_handle(const uint8_t *s, int64_t handle)
{
    for (uint32_t k = 0; k < fixed_number(s, AT_USED); k++)
        if (handle >= 0 && taken_by(s, k) == handle)
            return 1;
    return 0;
}

/* Whether an event may have sent waiting frames of a listener's, and so tied channels. Which of them went out is not foretold. */
static int may_tie(const Call *c, const uint8_t *s)
{
    return s[AT_ROLE] == HISPROAT_ROLE_LISTENER && waiting_frames(c).len > 0;
}

/* Each outgoing channel's handle, before and after. */
static void check_channels(Change change, const uint8_t *a, const uint8_t *s, const uint8_t *now)
{
    demand(change.freed < 0 || taken_by(s, (uint32_t)change.freed) == change.handle, "a channel that is freed had another handle");
    check_hand_out(a, change, s, now);
    for (uint32_t k = 0; k <= fixed_number(s, AT_CHANNEL_MAX); k++)
        demand(taken_by(now, k) == (change.taken == k ? (int64_t)change.handle : change.freed == k ? -1 : taken_by(s, k)), "a channel has another handle");
}

/* Each incoming channel's tie, before and after: made, replaced or ended by a frame on it, dropped with the channel through which it was made, and else as it was. */
static void check_ties(const Call *c, Change change, const uint8_t *s, const uint8_t *now)
{
    for (uint32_t k = 0; k <= fixed_number(s, AT_CHANNEL_MAX); k++) {
        int64_t through = tied_through(s, k), tied = tied_to(s, k);
        if (change.tied == k) {
            through = change.through;
            tied = change.handle;
        } else if (change.untied == k || (change.freed >= 0 && change.freed == through)) {
            through = -1;
            tied = -1;
        }
        int as_told = tied_through(now, k) == through && tied_to(now, k) == tied;
        demand(as_told || (may_tie(c, s) && tied_through(now, k) >= 0 && is_handle(s, tied_to(now, k))), "a channel is tied otherwise");
    }
}

/* A frame that is handed on came for a session: its channel was tied, or is tied by it to the handle of a taken channel. */
static void check_forward(const Call *c, const uint8_t *a, const uint8_t *s)
{
    uint32_t incoming = c->in[0].len >= 8 ? (uint32_t)hisproat_number(c->in[0].at + 6, 2) : 0;
    if (a[HISPROAT_AT_KIND] == HISPROAT_KIND_BEGAN)
        demand(s[AT_ROLE] == HISPROAT_ROLE_LISTENER && hisproat_handle(a) == c->number, "a session has another handle");
    if (a[HISPROAT_AT_KIND] == HISPROAT_KIND_FORWARD && a[HISPROAT_AT_DETAIL] == HISPROAT_BEGIN)
        demand(is_handle(s, hisproat_handle(a)), "a session is begun that nobody has");
    else if (a[HISPROAT_AT_KIND] == HISPROAT_KIND_FORWARD)
        demand(tied_to(s, incoming) == hisproat_handle(a), "a frame reaches another handle");
}

static int same_settings(const uint8_t *s, const uint8_t *now)
{
    return memcmp(s, now, AT_MOVING) == 0 && memcmp(s + AT_ID_LENGTH, now + AT_ID_LENGTH, AT_TABLES - AT_ID_LENGTH) == 0;
}

static void check_state(const Call *c, const uint8_t *a, const uint8_t *s, const uint8_t *now)
{
    int stopped = now[AT_PHASE] == HISPROAT_PHASE_STOPPED;
    demand(stands(now, c->state_len), "the state is no engine any more");
    demand(same_settings(s, now), "settings are changed");
    demand(now[AT_PHASE] >= s[AT_PHASE], "the phase goes back");
    demand(a[HISPROAT_AT_STOPPED] == stopped, "the answer and the state differ about the stop");
    demand(a[HISPROAT_AT_OUTCOME] == (stopped ? now[AT_OUTCOME] : 0), "the answer and the state differ about the outcome");
}

/* What a refusal inside an event leads to. */
static void check_error_path(const Round *r)
{
    const uint8_t *a = r->at[LENT_ANSWER], *now = r->at[LENT_STATE];
    uint8_t detail = a[HISPROAT_AT_DETAIL], outcome = HISPROAT_OUTCOME_TRANSPORT_ERROR;
    if (a[HISPROAT_AT_KIND] != HISPROAT_KIND_REFUSED)
        return;
    if (detail == HISPROAT_REFUSED_ILLEGAL_STATE)
        outcome = HISPROAT_OUTCOME_ILLEGAL_STATE;
    else if (detail == HISPROAT_REFUSED_NOT_FOUND)
        outcome = HISPROAT_OUTCOME_NOT_FOUND;
    else if (detail == HISPROAT_REFUSED_NOT_IMPLEMENTED)
        outcome = HISPROAT_OUTCOME_NOT_IMPLEMENTED;
    demand(now[AT_PHASE] == HISPROAT_PHASE_STOPPED || (now[AT_PHASE] == HISPROAT_PHASE_AWAITING && outcome != HISPROAT_OUTCOME_TRANSPORT_ERROR),
           "after a refusal inside the engine goes on");
    demand(now[AT_OUTCOME] == outcome, "a refusal inside leads to another outcome");
}

static void check_event(const Round *r, const Call *c, const uint8_t *s)
{
    const uint8_t *a = r->at[LENT_ANSWER], *now = r->at[LENT_STATE];
    uint8_t kind = a[HISPROAT_AT_KIND];
    demand(kind < 32 && (BIT(kind) & ABOUT[c->function].kinds), "a kind that the header does not name here");
    demand(is_detail(c, kind, a[HISPROAT_AT_DETAIL]), "a detail that the header does not name here");
    check_consumed(r, c);
    check_numbers(a);
    check_written(r, c, s);
    check_state(c, a, s, now);
    check_error_path(r);
    if (!c->whole)
        return;
    Change change = change_of(c, a, s);
    demand(are_shared(now), "the channel numbers are not as an engine leaves them any more");
    check_channels(change, a, s, now);
    check_forward(c, a, s);
    if (!c->tied)
        return;
    demand(are_tied(now), "the ties are not as an engine leaves them any more");
    check_ties(c, change, s, now);
}

/* A reader's answer, byte for byte from the state's bytes, whoever wrote them. */
static void check_reader(const Round *r, const Call *c, const uint8_t *s)
{
    uint8_t told[HISPROAT_STATUS_SIZE] = { s[AT_ROLE], s[AT_PHASE], s[AT_OUTCOME], s[AT_STATE] };
    uint32_t taken = fixed_number(s, AT_USED) - fixed_number(s, AT_FREED), channel = c->number & 0xFFFF;
    if (c->function == READ_STATUS) {
        memcpy(told + HISPROAT_STATUS_AT_READING_LIMIT, s + AT_READING_LIMIT, 8);
        told[HISPROAT_STATUS_AT_AGREED] = s[AT_AGREED];
        memcpy(told + HISPROAT_STATUS_AT_CHANNEL_MAX, s + AT_AGREED_MAX, 2);
        for (unsigned i = 0; i < 4; i++)
            told[HISPROAT_STATUS_AT_TAKEN + i] = (uint8_t)(taken >> 8 * (3 - i));
    } else {
        int64_t handle = c->function == READ_HANDLE_AT ? taken_by(s, channel) : tied_to(s, channel);
        told[HISPROAT_HANDLE_AT_FOUND] = handle >= 0;
        for (unsigned i = 0; i < 4; i++)
            told[HISPROAT_HANDLE_AT_NUMBER + i] = (uint8_t)(handle < 0 ? 0 : handle >> 8 * (3 - i));
    }
    demand(memcmp(r->at[LENT_ANSWER], told, ABOUT[c->function].answer_size) == 0, "a reader tells another thing than the state's bytes");
    demand(memcmp(r->at[LENT_STATE], s, c->state_len) == 0, "a reader changes the state");
}

/* A new engine: the settings, and nothing else. Nothing of what stood there is believed. */
static void check_new(const Round *r, const Call *c)
{
    const uint8_t *s = r->at[LENT_STATE];
    demand(stands(s, c->state_len) && s[AT_STATE] == HISPROAT_STATE_START && !s[AT_AGREED], "no new engine");
    demand(s[AT_PHASE] == HISPROAT_PHASE_RUNNING && s[AT_ROLE] == (c->function == NEW_LISTENER), "another role or phase");
    demand(fixed_number(s, AT_MAX_FRAME_SIZE) == c->number && fixed_number(s, AT_CHANNEL_MAX) == c->channel_max, "other settings");
    demand(s[AT_HAS_IDLE] == (c->flag != 0) && (!c->flag || fixed_number(s, AT_IDLE) == c->idle), "another idle-time-out");
    demand(fixed_number(s, AT_ID_LENGTH) == c->in[0].len && memcmp(s + AT_ID, c->in[0].at, c->in[0].len) == 0, "another container-id");
    for (uint32_t k = 0; k <= c->channel_max; k++)
        demand(taken_by(s, k) < 0 && tied_to(s, k) < 0 && field_of(s, k, FIRST) == 0, "a new engine has a channel");
}

/* What is checked of the lent bytes, of both calls. `before` are the bytes that the state had. */
static void check_bytes(const Round *r, const Call *c, const uint8_t *before)
{
    for (unsigned i = 0; i < 3; i++)
        demand(c->in[i].len == 0 || memcmp(r->at[LENT_IN_1 + i], c->in[i].at, c->in[i].len) == 0, "an input is changed");
    if (r->returned == 0) {
        size_t written = c->function < EVENTS ? hisproat_written(r->at[LENT_ANSWER]) : 0;
        demand(written <= r->len[LENT_OUTPUT], "written is more than the output has");
        demand(is_old(r, LENT_OUTPUT, written), "the output is changed after what was written");
        demand(is_old(r, LENT_ANSWER, ABOUT[c->function].answer_size), "the answer is changed after its size");
        size_t end = needed(r->at[LENT_STATE], c->state_len);
        demand(end <= c->state_len && memcmp(r->at[LENT_STATE] + end, before + end, c->state_len - end) == 0, "bytes past the tables are changed");
        return;
    }
    demand(memcmp(r->at[LENT_STATE], before, c->state_len) == 0, "a refusal changes the state");
    demand(is_old(r, LENT_OUTPUT, 0), "a refusal changes the output");
    demand(is_old(r, LENT_ANSWER, 0), "a refusal changes the answer");
}

/* Two calls on the same bytes give the same. */
static void check_same(const Round *a, const Round *b, const Call *c)
{
    size_t written = 0;
    demand(a->returned == b->returned, "the same call returns another number");
    demand(memcmp(a->at[LENT_STATE], b->at[LENT_STATE], c->state_len) == 0, "the same call leaves another state");
    if (a->returned != 0)
        return;
    demand(memcmp(a->at[LENT_ANSWER], b->at[LENT_ANSWER], ABOUT[c->function].answer_size) == 0, "the same call answers otherwise");
    if (c->function < EVENTS)
        written = hisproat_written(a->at[LENT_ANSWER]);
    demand(memcmp(a->at[LENT_OUTPUT], b->at[LENT_OUTPUT], written) == 0, "the same call writes other bytes");
}

/* What is checked of the returned number and the answer, of one call; the other gave the same. */
static void check_meaning(const Round *r, const Call *c, const uint8_t *before)
{
    int expected = foretold(c, before);
    demand(expected == DEPENDS || r->returned == expected, "another number is returned than the header foretells");
    if (r->returned != 0)
        demand(r->returned < 32 && (BIT(r->returned) & ABOUT[c->function].refusals), "a refusal that the header does not name here");
    else if (c->function < EVENTS)
        check_event(r, c, before);
    else if (c->function < NEW_DIALLER)
        check_reader(r, c, before);
    else
        check_new(r, c);
}

/* ---- What the fuzzer is told besides the edges: which function had which result, by role and state, with whole and with altered tables; what a call returned after each
 * alteration; and whether a function returned 0 for a state that is a byte too short, as long as it must be, and longer. */

enum { RESULTS = 96, PLACES_POKED = 32, FIELD_VALUES = 17, POKES = PLACES_POKED + FIELDS * FIELD_VALUES };

static struct {
    uint8_t results[FUNCTIONS][2][14][RESULTS][2];
    uint8_t pokes[POKES][3];
    uint8_t lengths[FUNCTIONS][4][2];
} seen __attribute__((used, section("__libfuzzer_extra_counters")));

static void note(const World *w, const Round *r, const Call *c, const uint8_t *s)
{
    const uint8_t *a = r->at[LENT_ANSWER];
    unsigned result = r->returned;
    size_t size = c->function >= NEW_DIALLER ? HISPROAT_STATE_SIZE(c->channel_max) : needed(s, MOST_STATE);
    seen.pokes[w->poked][result == 0 ? 0 : result == 8 ? 1 : 2] = 1;
    seen.lengths[c->function][c->state_len + 1 == size ? 0 : c->state_len == size ? 1 : c->state_len > size ? 2 : 3][result == 0] = 1;
    if (s[AT_ROLE] > 1 || s[AT_STATE] > 13)
        return;
    if (result == 0 && c->function < EVENTS) {
        uint8_t kind = a[HISPROAT_AT_KIND], detail = a[HISPROAT_AT_DETAIL];
        result = 28u + kind;
        if (kind == HISPROAT_KIND_REFUSED)
            result = 41u + detail;
        else if (kind == HISPROAT_KIND_FORWARD)
            result = 69u + detail - HISPROAT_BEGIN;
        else if (kind == HISPROAT_KIND_CLOSED)
            result = 76u + a[HISPROAT_AT_OUTCOME];
    }
    seen.results[c->function][s[AT_ROLE]][s[AT_STATE]][result][c->whole] = 1;
}

/* ---- Steps */

/* How long the state is that a call is lent: as long as it must be, or some bytes longer; or any length; or one about the size. */
static size_t state_length(const World *w, const Call *c)
{
    size_t size = c->function >= NEW_DIALLER ? HISPROAT_STATE_SIZE(c->channel_max) : needed(w->engines[w->turn].state, MOST_STATE);
    uint32_t n = w->lengths[0];
    if (!(w->odd & 1))
        size += w->calls % 3 == 2 ? 40 : 0;
    else if (n < 0x4000)
        size = n;
    else
        size = size + n % 64 - 32;
    return size < MOST_STATE ? size : MOST_STATE;
}

static void make(World *w, Call c)
{
    Machine *m = &w->engines[w->turn];
    Round first, second;
    c.state_len = state_length(w, &c);
    c.output_len = ABOUT[c.function].has_output ? hisproat_room(waiting_frames(&c).len) + (w->odd & 2 ? w->lengths[1] % 512 : 256) - 256 : 0;
    c.answer_len = w->odd & 4 ? w->lengths[2] % 64 : ABOUT[c.function].answer_size + w->calls % 3;
    c.sound = stands(m->state, c.state_len);
    c.whole = c.sound && are_shared(m->state);
    c.tied = c.whole && are_tied(m->state);
    w->calls += 1;
    current = &c;
    lend_all(&first, &c, m->state, 0);
    lend_all(&second, &c, m->state, 1);
    first.returned = call(&first, &c);
    second.returned = call(&second, &c);
    check_bytes(&first, &c, m->state);
    check_bytes(&second, &c, m->state);
    check_same(&first, &second, &c);
    check_meaning(&first, &c, m->state);
    note(w, &first, &c, m->state);
    w->odd = 0;
    w->poked = 0;
    if (first.returned == 0)
        memcpy(m->state, first.at[LENT_STATE], c.state_len);
    if (first.returned == 0 && c.function < EVENTS) {
        m->wire.len = 0;
        add_bytes(&m->wire, (Bytes){ first.at[LENT_OUTPUT], hisproat_written(first.at[LENT_ANSWER]) });
    }
    /* bytes that are no engine are tried once */
    if (stands(m->state, MOST_STATE))
        memcpy(m->sound, m->state, sizeof m->sound);
    else
        memcpy(m->state, m->sound, sizeof m->state);
}

static Call new_engine_call(unsigned function, Bytes id, uint32_t size, uint16_t channel_max)
{
    return (Call){ .function = function, .in = { id }, .number = size, .channel_max = channel_max };
}

/* A max-frame-size: any number, or one at the limits. */
static uint32_t frame_size(Tape *t)
{
    static const uint32_t SIZES[] = { 511, 512, 513, 1024, 16383, 16384, 16385, UINT32_MAX };
    uint32_t n = number(t, 4);
    return n < 1u << 24 ? n : SIZES[n % 8];
}

/* A channel: one of the first, or one that no engine has, or any. */
static uint32_t channel_number(Tape *t)
{
    uint32_t n = number(t, 1);
    return n < 0x80 ? n : n < 0xFF ? 0x100 + n % 0x80 : number(t, 2);
}

/* A call with its arguments from the tape. */
static void call_step(World *w, Tape *t, unsigned function)
{
    Call c = { .function = function };
    for (unsigned i = 0; i < ABOUT[function].inputs; i++)
        c.in[i] = slice(w, t, i);
    if (function >= NEW_DIALLER) {
        c.number = frame_size(t);
        c.channel_max = (uint16_t)number(t, 2);
        c.flag = byte(t);
        c.idle = c.flag ? number(t, 4) : 0x01020304;
    } else if (function == ON_INCOMING || function == ON_ALLOCATE) {
        c.number = number(t, 1);
        if (c.number == 0xFF)
            c.number = number(t, 4);
    } else if (function == ON_DEALLOCATE || function == READ_HANDLE_AT || function == READ_TIED_HANDLE) {
        c.number = channel_number(t);
    } else if (function == ON_CLOSE_WITH_ERROR || function == ON_NOT_DELIVERED) {
        c.flag = byte(t);
    }
    make(w, c);
}

/* All channels up to this one are taken, as if each had been asked for. */
static void take_up_to(uint8_t *state, uint32_t channel)
{
    for (uint32_t k = 0; k <= channel; k++) {
        put_field(state, k, LINK, TAKEN_LINK);
        put_field(state, k, HANDLE, 1000 + k);
    }
    put_fixed_number(state, AT_USED, channel + 1);
}

/* An engine that is open, or on the way there: the low bits of the first byte say how far, the next one the role. Where the byte is high, it has many channels, most of them
 * taken or all. */
static void open_step(World *w, Tape *t)
{
    static const uint8_t OPEN[] = { 0, 0, 0, 0x1B, 2, 0, 0, 0, 0, 0x53, 0x10, 0xC0, 0x0E, 4, 0xA1, 2, 'p', '1', 0x40, 0x70, 0, 0, 0x04, 0, 0x60, 0, 3 };
    static const uint8_t OPEN_OF_MANY[] = { 0, 0, 0, 0x11, 2, 0, 0, 0, 0, 0x53, 0x10, 0xC0, 0x04, 1, 0xA1, 1, 'p' };
    uint8_t how = byte(t);
    unsigned stages = how & 7, many = how >= 0xE0;
    w->odd = 0;
    make(w, new_engine_call(how & 8 ? NEW_LISTENER : NEW_DIALLER, (Bytes){ .at = (const uint8_t *)"hub", .len = 3 }, 1024, many ? MOST_CHANNEL : 7));
    const Call WAY[] = {
        { .function = ON_SEND_HEADER },
        { .function = ON_RECEIVE_HEADER, .in = { { AMQP_HEADER, sizeof AMQP_HEADER } } },
        { .function = ON_SEND_OPEN },
        { .function = ON_INCOMING, .in = { many ? (Bytes){ OPEN_OF_MANY, sizeof OPEN_OF_MANY } : (Bytes){ OPEN, sizeof OPEN } } },
        { .function = ON_ALLOCATE, .number = 7 },
    };
    for (unsigned i = 0; i < sizeof WAY / sizeof WAY[0] && stages + i < 8; i++)
        make(w, WAY[i]);
    if (many && w->engines[w->turn].state[AT_AGREED])
        take_up_to(w->engines[w->turn].state, how & 16 ? MOST_CHANNEL : 253);
}

/* A field of the tables is altered: one of a low channel, of the highest, or of any. Returns the number of what was done. */
static unsigned poke_field(uint8_t *state, Tape *t)
{
    static const uint32_t VALUES[] = { 0, 1, 2, 3, 4, 7, 8, 255, 256, 299, 300, 65535, 65536, 65537, 0x80000000, UINT32_MAX };
    uint32_t channel = byte(t), most = fixed_number(state, AT_CHANNEL_MAX);
    unsigned field = byte(t), value = byte(t);
    channel = channel < 0x80 ? channel % 9 : channel < 0xC0 ? most : channel - 0xC0 + 240u;
    if (channel <= MOST_CHANNEL)
        put_field(state, channel, field % FIELDS, value < 0xF0 ? VALUES[value % 16] : number(t, 4));
    return PLACES_POKED + field % FIELDS * FIELD_VALUES + (value < 0xF0 ? value % 16 : 16);
}

/* A byte of the state is altered: one of the fixed part, a field of the tables, or any. */
static void poke_step(World *w, Tape *t)
{
    static const uint16_t PLACES[] = { AT_VERSION + 3, AT_PHASE, AT_OUTCOME, AT_STATE, AT_ROLE, AT_READING_LIMIT + 2, AT_READING_LIMIT + 3, AT_WRITING_LIMIT + 2,
                                       AT_WRITING_LIMIT + 3, AT_MAX_FRAME_SIZE + 2, AT_CHANNEL_MAX, AT_CHANNEL_MAX + 1, AT_HAS_IDLE, AT_IDLE + 3, AT_ID_LENGTH,
                                       AT_ID_LENGTH + 1, AT_ID, AT_ID + 3, AT_AGREED, AT_AGREED_MAX, AT_AGREED_MAX + 1, AT_USED + 1, AT_USED + 2, AT_USED + 3,
                                       AT_HEAD + 2, AT_HEAD + 3, AT_FREED + 2, AT_FREED + 3 };
    uint8_t *state = w->engines[w->turn].state;
    uint8_t which = byte(t);
    unsigned place = which % (sizeof PLACES / sizeof PLACES[0]);
    w->poked = which < 128 ? 1 + place : PLACES_POKED - 1;
    if (which >= 128 && which < 192) {
        w->poked = poke_field(state, t);
        return;
    }
    size_t at = which < 128 ? PLACES[place] : number(t, 2) % MOST_STATE;
    for (unsigned n = which >= 192 ? byte(t) : 1; n > 0 && at < MOST_STATE; n--)
        state[at++] = byte(t);
}

static void odd_step(World *w, Tape *t)
{
    w->odd = byte(t);
    for (unsigned i = 0; i < 3; i++)
        w->lengths[i] = w->odd >> i & 1 ? number(t, 2) : 0;
}

static void step(World *w, Tape *t)
{
    /* steps beyond the functions and the changes are more of the frames */
    unsigned what = byte(t) & 31;
    if (what < FUNCTIONS)
        call_step(w, t, what);
    else if (what == ODD_LENGTHS)
        odd_step(w, t);
    else if (what == POKE)
        poke_step(w, t);
    else if (what == OTHER_ENGINE)
        w->turn = 1 - w->turn;
    else if (what == COPY_ENGINE)
        memcpy(w->engines[1 - w->turn].state, w->engines[w->turn].state, MOST_STATE);
    else if (what == OPEN_ENGINE)
        open_step(w, t);
    else
        call_step(w, t, what & 1 ? ON_OUTGOING : ON_INCOMING);
}

int LLVMFuzzerTestOneInput(const uint8_t *data, size_t size)
{
    static World w;
    Tape t = { .at = data, .left = size };
    w.turn = 0;
    w.calls = 0;
    w.odd = 0;
    w.poked = 0;
    for (unsigned i = 0; i < 2; i++) {
        Machine *m = &w.engines[1 - i];
        memset(m->state, 0x5A, sizeof m->state);
        memset(m->sound, 0x5A, sizeof m->sound);
        m->wire.len = 0;
    }
    for (unsigned i = 0; i < MOST_STEPS && t.left > 0; i++)
        step(&w, &t);
    return 0;
}
