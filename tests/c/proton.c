/*
 * The port's reading and writing of bodies beside Qpid Proton's codec (pn_data of libqpid-proton). Usage: proton [SEED [ROUNDS]]
 *
 * Bodies and values are made by chance as Proton's trees, written by Proton and by hand with every constructor, and damaged. Each is read by both. The
 * statement in proton_bodies.c says what there is to find in a body. The port and Proton must each read it exactly if there is nothing in it that they refuse;
 * so where only one of them reads, a rule below has a name for it.
 * What the port tells of an Open, a Begin or a Close is what Proton's tree of it has. Frames that the port writes are decoded by Proton, and must say what the
 * lent ones say. A value is tried as the last one in a performative's list, whose size shows where the port sees its end.
 * Prints a line for each rule, and 'N bodies, M values, K named disagreements, 0 wrong'. Exits with 1 if anything was wrong, or a rule never occurred.
 */
#include <proton/version.h>
#include <stdio.h>
#include <stdlib.h>
#include <string.h>

#include "hisproat.h"
#include "proton.h"

enum { INCOMING = 5, OUTGOING = 3, TAKEN = CHANNEL_MAX, FIRST_HANDLE = 1000, SPARE = 77 };

/* ---- Rules: on what the two may differ, who is right by Part 1, and the shortest body that shows it. */

enum { SENT_WITH_MORE = FINDINGS, SENT_BUT_NO_SESSIONS, RULES };

typedef struct {
    const char *name, *example, *right, *why;
} Rule;

static const Rule rules[RULES] = {
    /* the port refuses */
    [BOOLEAN_OCTET] = {"boolean-octet", "005313C003015602", "port", "1.6.2 has 00 and 01 after 56; Proton takes any other octet for true"},
    [SIZE_TOO_SMALL] = {"size-too-small", "005313C0010140", "port", "1.2.3, 1.2.4: the elements are as long as the size says; Proton goes by the count"},
    [SIZE_TOO_LARGE] = {"size-too-large", "005313C0020040", "port", "as before; Proton takes the octets left over for what comes next"},
    [ODD_MAP] = {"odd-map", "005313C00501C1020140", "port", "1.6.23: as many keys as values; Proton reads a key without a value"},
    [TOO_DEEP] = {"too-deep", "005313C03201C02F01C02C01C02901C02601C02301C02001C01D01C01A01C01701C01401C01101C00E01C00B01C00801C00501C0020140", "Proton",
                  "Part 1 has no limit; document 01 has sixteen levels"},
    [SYMBOLIC_DESCRIPTOR] = {"symbolic-descriptor", "00A30E616D71703A666C6F773A6C69737445", "Proton", "1.5 has symbols and ulongs; document 01 has a ulong"},
    [NO_PERFORMATIVE] = {"no-performative", "40", "both", "it is a value of Part 1, and no performative of Part 2, which a codec does not know"},
    [TOO_MANY_FIELDS] = {"too-many-fields", "005318C003024040", "both", "as before; document 01 says how many there are"},
    [FIELD_TYPE] = {"field-type", "00531045", "both", "as before; document 01 has the first five of Open and of Begin checked"},
    [ERROR_SHAPE] = {"error-shape", "005318C0020141", "both", "as before; document 01 has errors checked"},
    /* Proton refuses */
    [COMPOUND_DESCRIPTOR] = {"compound-descriptor", "005313C0060100C0010040", "port", "1.2: a descriptor is any value, though 1.5 reserves most of them"},
    [TOO_MANY_NODES] = {"too-many-nodes", "005313C00B01F0000000050000FFFC40", "port", "1.6.24: up to 2^32 - 1 elements; Proton's tree has 65,535 nodes"},
    /* both read it */
    [DESCRIBED_TWICE] = {"described-twice", "005313C009020053010053024042", "port", "1.2: a described value may be described; Proton takes the next into it"},
    /* the port does not send it */
    [SENT_WITH_MORE] = {"sent-with-more", "0053134540", "both", "document 01: only a Transfer is followed by bytes"},
    [SENT_BUT_NO_SESSIONS] = {"sent-but-no-session's", "00531845", "both", "document 01: an Open or a Close is no session's frame"},
};

typedef struct {
    uint8_t opened[HISPROAT_STATE_SIZE(CHANNEL_MAX)]; /* a listener in Opened: all channels but the last taken, incoming channel 5 tied to the first handle */
    uint8_t asking[HISPROAT_STATE_SIZE(CHANNEL_MAX)]; /* the same in OpenSent */
    uint8_t state[HISPROAT_STATE_SIZE(CHANNEL_MAX)], answer[HISPROAT_ANSWER_SIZE];
    uint8_t frame[8 + LONGEST], output[HISPROAT_OUTPUT_ROOM + 2 * (8 + LONGEST)];
    size_t frame_len;
    pn_data_t *made, *tree, *other;
    Chance chance;
    int levels; /* that the value made last has at most; more than sixteen are refused */
    unsigned long bodies, values, both, followed, left_out, named, wrong, times[RULES], alone[RULES];
} Run;

static const uint8_t none[1];

static void print_hex(const uint8_t *at, size_t len)
{
    for (size_t i = 0; i < len; i++)
        printf("%02X", at[i]);
    printf("\n");
}

static void expect(Run *run, int holds, const char *what, const uint8_t *at, size_t len)
{
    if (holds)
        return;
    if (run->wrong++ < 20) {
        printf("wrong: %s: ", what);
        print_hex(at, len);
    }
}

static Body *emptied(Body *body)
{
    body->len = 0;
    body->full = 0;
    return body;
}

static int same(const Body *a, const Body *b)
{
    return !a->full && a->len == b->len && memcmp(a->at, b->at, a->len) == 0;
}

static void from_hex(Body *body, const char *digits)
{
    unsigned byte;
    for (emptied(body); sscanf(digits, "%2x", &byte) == 1; digits += 2)
        add_byte(body, (uint8_t)byte);
}

/* ---- The port */

static void lay_frame(Run *run, uint16_t channel, const uint8_t *at, size_t len)
{
    const uint8_t head[8] = {0, 0, (uint8_t)((len + 8) >> 8), (uint8_t)(len + 8), 2, 0, (uint8_t)(channel >> 8), (uint8_t)channel};
    memcpy(run->frame, head, 8);
    memcpy(run->frame + 8, at, len);
    run->frame_len = len + 8;
}

static uint8_t incoming(Run *run)
{
    return hisproat_on_incoming(run->state, sizeof run->state, run->frame, run->frame_len, SPARE, none, 0, run->output, sizeof run->output, run->answer,
                                sizeof run->answer);
}

/* The performative that the port takes a body for in Opened; 0 where it is malformed, 255 where the port says what it should not. */
static uint8_t port_reads(Run *run, const uint8_t *at, size_t len)
{
    lay_frame(run, INCOMING, at, len);
    memcpy(run->state, run->opened, sizeof run->state);
    if (incoming(run) != 0 || hisproat_consumed(run->answer) != len + 8)
        return 255;
    uint8_t kind = run->answer[HISPROAT_AT_KIND], detail = run->answer[HISPROAT_AT_DETAIL];
    if (kind == HISPROAT_KIND_FORWARD || kind == HISPROAT_KIND_BEGAN)
        return hisproat_body_start(run->answer) == 8 && hisproat_body_length(run->answer) == len ? detail : 255;
    if (kind == HISPROAT_KIND_CLOSED)
        return CLOSE;
    if (kind != HISPROAT_KIND_REFUSED)
        return 255;
    switch (detail) {
    case HISPROAT_REFUSED_BODY_MALFORMED: return 0;
    case HISPROAT_REFUSED_ILLEGAL_STATE: return OPEN; /* a second one; the body is judged before the state */
    case HISPROAT_REFUSED_NOT_FOUND: return BEGIN;    /* for a channel that is not taken */
    default: return 255;
    }
}

/* 0, or the number of the refusal. What is written stands in the output. */
static uint8_t port_writes(Run *run, const uint8_t *at, size_t len)
{
    lay_frame(run, OUTGOING, at, len);
    memcpy(run->state, run->opened, sizeof run->state);
    uint8_t refused = hisproat_on_outgoing(run->state, sizeof run->state, run->frame, run->frame_len, run->output, sizeof run->output, run->answer,
                                           sizeof run->answer);
    return refused != 0 ? refused : run->answer[HISPROAT_AT_KIND] == HISPROAT_KIND_WROTE ? 0 : run->answer[HISPROAT_AT_DETAIL];
}

static int64_t tied(Run *run)
{
    uint8_t answer[HISPROAT_HANDLE_SIZE];
    hisproat_tied_handle(run->state, sizeof run->state, INCOMING, answer, sizeof answer);
    return answer[HISPROAT_HANDLE_AT_FOUND] ? (int64_t)hisproat_number(answer + HISPROAT_HANDLE_AT_NUMBER, 4) : -1;
}

/* ---- What the port tells of a body that it has read, beside Proton's tree of it */

static int tells_begin(Run *run)
{
    uint8_t kind = run->answer[HISPROAT_AT_KIND];
    if (to_field(run->tree, 0) == PN_NULL)
        return kind == HISPROAT_KIND_BEGAN && hisproat_channel(run->answer) == TAKEN && hisproat_handle(run->answer) == SPARE && tied(run) == SPARE;
    uint16_t remote = pn_data_get_ushort(run->tree);
    if (remote >= TAKEN)
        return kind == HISPROAT_KIND_REFUSED;
    return kind == HISPROAT_KIND_FORWARD && hisproat_handle(run->answer) == (uint32_t)(FIRST_HANDLE + remote) && tied(run) == FIRST_HANDLE + remote;
}

/* An Open is read once more, by an engine that waits for it. */
static int tells_open(Run *run)
{
    uint8_t status[HISPROAT_STATUS_SIZE];
    if (run->frame_len > HISPROAT_MIN_FRAME_SIZE)
        return 1;
    memcpy(run->state, run->asking, sizeof run->state);
    if (incoming(run) != 0 || run->answer[HISPROAT_AT_KIND] != HISPROAT_KIND_OPENED)
        return 0;
    hisproat_status(run->state, sizeof run->state, status, sizeof status);
    uint64_t size = to_field(run->tree, 2) == PN_NULL ? 4294967295 : pn_data_get_uint(run->tree);
    uint64_t channels = to_field(run->tree, 3) == PN_NULL ? 65535 : pn_data_get_ushort(run->tree);
    uint64_t idle = to_field(run->tree, 4) == PN_NULL ? 0 : pn_data_get_uint(run->tree);
    uint64_t limit = size < 512 ? 512 : size > 16384 ? 16384 : size;
    return hisproat_number(status + HISPROAT_STATUS_AT_WRITING_LIMIT, 4) == limit &&
           hisproat_number(status + HISPROAT_STATUS_AT_CHANNEL_MAX, 2) == (channels < CHANNEL_MAX ? channels : CHANNEL_MAX) && hisproat_handle(run->answer) == idle;
}

static int tells(Run *run, uint8_t code)
{
    if (code == BEGIN)
        return tells_begin(run);
    if (code == OPEN)
        return tells_open(run);
    return code != CLOSE || (run->answer[HISPROAT_AT_DETAIL] == 1) == (to_field(run->tree, 0) != PN_NULL);
}

/* ---- Proton */

/* How many bytes Proton reads; 0 where it refuses. */
static size_t proton_reads(pn_data_t *tree, const uint8_t *at, size_t len)
{
    pn_data_clear(tree);
    ssize_t end = pn_data_decode(tree, (const char *)at, len);
    pn_data_rewind(tree);
    return end > 0 ? (size_t)end : 0;
}

static void proton_writes(Body *body, pn_data_t *tree)
{
    ssize_t len = pn_data_encode(tree, (char *)body->at, sizeof body->at);
    body->full = len < 0;
    body->len = len < 0 ? 0 : (size_t)len;
}

static void write_whole(Body *body, pn_data_t *tree)
{
    pn_data_rewind(tree);
    pn_data_next(tree);
    write_value(emptied(body), tree, NULL);
    pn_data_rewind(tree);
}

/* ---- The comparison */

static void occurs(Run *run, unsigned rule, int alone)
{
    run->times[rule]++;
    run->alone[rule] += alone ? 1 : 0;
}

/* Each has read, or not; the statement says who may, and names the difference. Whether both have read what both may. */
static int judge(Run *run, int port, int proton, unsigned findings, const Body *body)
{
    unsigned refuses = port ? PROTON_REFUSES : PORT_REFUSES, left = findings & refuses;
    expect(run, port == !(findings & PORT_REFUSES), port ? "the port reads it" : "the port refuses it", body->at, body->len);
    expect(run, proton == !(findings & PROTON_REFUSES), proton ? "Proton reads it" : "Proton refuses it", body->at, body->len);
    run->both += port && proton;
    if (port == proton)
        return port && !(findings & (PORT_REFUSES | PROTON_REFUSES));
    run->named++;
    for (unsigned rule = BOOLEAN_OCTET; rule < FINDINGS; rule++)
        if (left & BIT(rule))
            occurs(run, rule, left == BIT(rule));
    return 0;
}

/* What was written for a tree is well formed; `whole` is NULL where there was none. */
static void well_formed(Run *run, const Body *whole, unsigned findings, const Body *body)
{
    unsigned expected = run->levels > 16 ? BIT(TOO_DEEP) : 0;
    expect(run, whole == NULL || (findings & PORT_REFUSES) == expected, "it was made well formed", body->at, body->len);
}

/* The tree that Proton has read is the one that was written. */
static void same_tree(Run *run, const Body *whole, unsigned findings, const Body *body)
{
    static Body read;
    if (whole == NULL)
        return;
    write_whole(&read, run->tree);
    if (same(&read, whole))
        return;
    expect(run, (findings & BIT(DESCRIBED_TWICE)) != 0, "Proton reads another tree", body->at, body->len);
    occurs(run, DESCRIBED_TWICE, 1);
    run->named++;
}

/* Of what the port has written: descriptor 53, the shortest list, no null at its end, and Begin's handle-max. */
static int in_written_form(pn_data_t *tree, const uint8_t *at, size_t len)
{
    to_field(tree, 0);
    pn_data_exit(tree);
    unsigned fields = (unsigned)pn_data_get_list(tree);
    if (at[0] != 0 || at[1] != 0x53 || (at[2] == BEGIN && to_field(tree, 4) != PN_UINT))
        return 0;
    if (fields == 0)
        return at[3] == 0x45;
    return to_field(tree, fields - 1) != PN_NULL && (at[3] == 0xC0 || (at[3] == 0xD0 && len - 12 > 254));
}

/* What the port does with a body to be sent that both have read. */
static void compare_written(Run *run, const Body *body, Stated stated, size_t end)
{
    static Body lent, written;
    uint8_t refused = port_writes(run, body->at, body->len);
    unsigned rule = stated.code == OPEN || stated.code == CLOSE ? SENT_BUT_NO_SESSIONS : SENT_WITH_MORE;
    if (rule == SENT_BUT_NO_SESSIONS || (stated.code != TRANSFER && end < body->len)) {
        expect(run, refused == HISPROAT_REFUSED_BODY_MALFORMED, "the port sends it", body->at, body->len);
        occurs(run, rule, 1);
        run->named++;
        return;
    }
    if (stated.code == BEGIN && to_field(run->tree, 0) != PN_NULL && pn_data_get_ushort(run->tree) > CHANNEL_MAX) {
        expect(run, refused == HISPROAT_REFUSED_CHANNEL_TOO_HIGH, "the port sends a remote-channel above its channel-max", body->at, body->len);
        return;
    }
    size_t len = refused ? 8 : hisproat_written(run->answer);
    const uint8_t head[8] = {0, 0, (uint8_t)(len >> 8), (uint8_t)len, 2, 0, 0, OUTGOING}, *out = run->output + 8;
    expect(run, refused == 0 && memcmp(run->output, head, 8) == 0, "the port does not send it", body->at, body->len);
    size_t out_end = proton_reads(run->other, out, len - 8);
    expect(run, out_end > 0, "Proton does not read what the port has written for", body->at, body->len);
    if (out_end == 0 || (stated.findings & BIT(DESCRIBED_TWICE))) {
        run->left_out += out_end != 0;
        return;
    }
    write_meaning(emptied(&lent), run->tree);
    write_meaning(emptied(&written), run->other);
    expect(run, lent.full || same(&lent, &written), "the port writes another value for", body->at, body->len);
    expect(run, in_written_form(run->other, out, out_end), "the port does not write the shortest form for", body->at, body->len);
    expect(run, body->len - end == len - 8 - out_end && memcmp(body->at + end, out + out_end, body->len - end) == 0, "the port writes another payload for",
           body->at, body->len);
}

static void compare_body(Run *run, const Body *body, const Body *whole)
{
    if (body->full || body->len == 0)
        return;
    Stated stated = state_body(body->at, body->len);
    uint8_t code = port_reads(run, body->at, body->len);
    size_t end = proton_reads(run->tree, body->at, body->len);
    run->bodies++;
    well_formed(run, whole, stated.findings, body);
    expect(run, code == 0 || (stated.findings & PORT_REFUSES) || code == stated.code, "the port takes it for another performative", body->at, body->len);
    if (!judge(run, code != 0, end != 0, stated.findings, body)) {
        if (code == 0)
            expect(run, port_writes(run, body->at, body->len) == HISPROAT_REFUSED_BODY_MALFORMED, "the port sends what it refuses", body->at, body->len);
        return;
    }
    expect(run, end == stated.end, "Proton finds another end", body->at, body->len);
    run->followed += end < body->len;
    expect(run, tells(run, code), "the port tells something else", body->at, body->len);
    same_tree(run, whole, stated.findings, body);
    compare_written(run, body, stated, end);
}

static void compare_value(Run *run, const Body *value, const Body *whole)
{
    static Body body;
    wrap(emptied(&body), value, &run->chance);
    if (body.full || value->len == 0)
        return;
    unsigned findings = state_value(value->at, value->len).findings;
    uint8_t code = port_reads(run, body.at, body.len);
    size_t end = proton_reads(run->tree, value->at, value->len);
    run->values++;
    well_formed(run, whole, findings, value);
    expect(run, code == 0 || code == body.at[2], "another performative", body.at, body.len);
    if (judge(run, code != 0, end == value->len, findings, value))
        same_tree(run, whole, findings, value);
}

/* ---- Runs */

typedef void Compare(Run *run, const Body *body, const Body *whole);

/* The tree that is made, written by Proton and by hand; and damaged copies of both. */
static void compare_made(Run *run, Compare *compare, int copies)
{
    static Body whole, good, bad;
    write_whole(&whole, run->made);
    for (int by_hand = 0; by_hand < 2; by_hand++) {
        if (by_hand) {
            pn_data_next(run->made);
            write_value(emptied(&good), run->made, &run->chance);
            pn_data_rewind(run->made);
        } else {
            proton_writes(&good, run->made);
        }
        if (good.full || good.len == 0)
            continue;
        compare(run, &good, whole.full ? NULL : &whole);
        for (int i = 0; i < copies; i++) {
            bad.len = good.len, bad.full = 0;
            memcpy(bad.at, good.at, good.len);
            for (uint32_t k = 1 + below(&run->chance, 2); k > 0; k--)
                damage(&bad, &run->chance);
            compare(run, &bad, NULL);
        }
    }
}

static void compare_performative(Run *run, unsigned code, unsigned present, int copies)
{
    pn_data_clear(run->made);
    put_performative(run->made, &run->chance, code, present, below(&run->chance, 4) == 0);
    compare_made(run, compare_body, copies);
}

/* Every combination of null and present fields of every performative; of those with few combinations, each many times. */
static void performatives(Run *run)
{
    for (unsigned code = OPEN; code <= CLOSE; code++) {
        unsigned combinations = 1u << most_fields(code), again = combinations < 1024 ? 2048 / combinations : 1;
        for (unsigned i = 0; i < again * combinations; i++)
            compare_performative(run, code, i % combinations, 4);
    }
}

/* A Transfer with a payload, and others with bytes after them that are not read. */
static void payloads(Run *run)
{
    static Body body;
    for (unsigned i = 0; i < 3000; i++) {
        pn_data_clear(run->made);
        put_performative(run->made, &run->chance, i % 2 ? TRANSFER : OPEN + i / 2 % 9, below(&run->chance, 2048), 0);
        proton_writes(&body, run->made);
        for (uint32_t k = 1 + below(&run->chance, 40); k > 0; k--)
            add_byte(&body, (uint8_t)below(&run->chance, 256));
        compare_body(run, &body, NULL);
    }
}

/* Symbolic descriptors: amqp:open:list and so on. */
static void symbolic(Run *run)
{
    static const char *const names[] = {"amqp:open:list", "amqp:begin:list", "amqp:attach:list", "amqp:flow:list", "amqp:transfer:list",
                                        "amqp:disposition:list", "amqp:detach:list", "amqp:end:list", "amqp:close:list"};
    static Body plain, body;
    for (unsigned i = 0; i < 900; i++) {
        const char *name = names[i % 9];
        pn_data_clear(run->made);
        put_performative(run->made, &run->chance, OPEN + i % 9, below(&run->chance, 16384), 0);
        proton_writes(&plain, run->made);
        add_number(emptied(&body), i % 2 ? 0x00A3 : 0x00B3, 2);
        add_number(&body, strlen(name), i % 2 ? 1 : 4);
        add_bytes(&body, (const uint8_t *)name, strlen(name));
        add_bytes(&body, plain.at + 3, plain.len - 3);
        compare_body(run, &body, NULL);
    }
}

/* A performative with a text of so many bytes, or a list of so many nulls, and little else. */
static void put_long(pn_data_t *tree, unsigned code, size_t len)
{
    static char text[LONGEST];
    pn_bytes_t bytes = pn_bytes(len, text);
    put_composite(tree, code);
    for (unsigned i = 0; i < (code == BEGIN ? 7 : code == DETACH ? 2 : 0); i++) {
        if (code == BEGIN && i > 0 && i < 4)
            pn_data_put_uint(tree, 0);
        else
            pn_data_put_null(tree);
    }
    if (code == OPEN) {
        pn_data_put_string(tree, bytes);
    } else if (code == ATTACH) {
        pn_data_put_list(tree);
        pn_data_enter(tree);
        for (size_t i = 0; i < len; i++)
            pn_data_put_null(tree);
    } else if (code >= DETACH) {
        put_composite(tree, ERROR);
        pn_data_put_symbol(tree, bytes);
    } else {
        pn_data_put_binary(tree, bytes);
    }
}

/* Every length around those at which a constructor becomes wider, and some long ones. */
static void long_bodies(Run *run)
{
    for (size_t len = 0; len < LONGEST; len += len < 300 ? 1 : 997) {
        for (unsigned code = OPEN; code <= CLOSE; code++) {
            pn_data_clear(run->made);
            put_long(run->made, code, len);
            compare_made(run, compare_body, 1);
        }
    }
}

static void random_values(Run *run)
{
    for (unsigned i = 0; i < 16000; i++) {
        pn_data_clear(run->made);
        put_value(run->made, &run->chance, 16);
        compare_made(run, compare_value, 5);
    }
}

/* Values whose deepest place is at each level up to 20. */
static void deep_values(Run *run)
{
    for (int i = 0; i < 2000; i++) {
        pn_data_clear(run->made);
        run->levels = 1 + i % 20;
        put_chain(run->made, &run->chance, run->levels);
        compare_made(run, compare_value, 1);
    }
    run->levels = 0;
}

/* Every value of so many bytes out of these. */
static void all_values(Run *run, const uint8_t *bytes, size_t count, size_t len)
{
    static Body value;
    size_t strings = 1;
    for (size_t i = 0; i < len; i++)
        strings *= count;
    for (size_t n = 0; n < strings; n++) {
        emptied(&value);
        for (size_t rest = n; value.len < len; rest /= count)
            add_byte(&value, bytes[rest % count]);
        compare_value(run, &value, NULL);
    }
}

static void short_values(Run *run)
{
    static const uint8_t few[] = {0x00, 0x01, 0x02, 0x40, 0x45, 0x53, 0xC0, 0xC1, 0xE0, 0x03, 0x56, 0xA1};
    uint8_t all[256];
    for (size_t i = 0; i < 256; i++)
        all[i] = (uint8_t)i;
    all_values(run, all, 256, 1);
    all_values(run, all, 256, 2);
    all_values(run, few, 12, 3);
    all_values(run, few, 12, 4);
    all_values(run, few, 9, 5);
}

/* Each of the 256 codes with up to 17 bytes after it: alone, in a list, in an array, described, as a descriptor, as a key. */
static void each_code(Run *run)
{
    static Body value;
    for (unsigned i = 0; i < 256 * 18 * 12; i++) {
        uint8_t code = (uint8_t)i, place = (uint8_t)(i >> 8) % 6, filler = (uint8_t)(i >> 8) / 6 % 2, len = (uint8_t)((i >> 8) / 12);
        static const uint8_t opening[] = {0, 0xC0, 0xE0, 0, 0, 0xC1};
        emptied(&value);
        if (place > 0)
            add_byte(&value, opening[place]);
        if (place == 1 || place == 2 || place == 5)
            add_number(&value, (uint64_t)(len + 2 + (place == 5)) << 8 | (place == 5 ? 2 : 1), 2);
        if (place == 3)
            add_number(&value, 0x5301, 2);
        add_byte(&value, code);
        for (unsigned k = 0; k < len; k++)
            add_byte(&value, filler);
        if (place >= 4)
            add_byte(&value, 0x40);
        compare_value(run, &value, NULL);
    }
}

/* Arrays that claim many elements of no width. */
static void wide_arrays(Run *run)
{
    static const uint32_t counts[] = {0, 1, 255, 256, 65531, 65532, 65533, 65534, 65535, 65536, 0x7FFFFFFF, 0xFFFFFFFF};
    static Body value;
    for (uint8_t code = 0x40; code <= 0x45; code++) {
        for (size_t i = 0; i < 2 * sizeof counts / sizeof counts[0]; i++) {
            add_byte(emptied(&value), 0xF0);
            add_number(&value, i % 2 ? 7 : 5, 4);
            add_number(&value, counts[i / 2], 4);
            if (i % 2)
                add_number(&value, 0x0044, 2);
            add_byte(&value, code);
            compare_value(run, &value, NULL);
        }
    }
}

/* The shortest body of each rule has its finding and no other. */
static void examples(Run *run)
{
    static Body body;
    for (unsigned rule = BOOLEAN_OCTET; rule < RULES; rule++) {
        from_hex(&body, rules[rule].example);
        unsigned long before = run->alone[rule];
        unsigned findings = state_body(body.at, body.len).findings;
        expect(run, findings == (rule < FINDINGS ? BIT(rule) : 0), "not the example of its rule", body.at, body.len);
        compare_body(run, &body, NULL);
        if (rule == DESCRIBED_TWICE) /* a list of two, of which Proton's tree has one */
            occurs(run, rule, pn_data_next(run->tree) && to_field(run->tree, 0) == PN_DESCRIBED && !pn_data_next(run->tree));
        expect(run, run->alone[rule] == before + 1, "not an example of its rule", body.at, body.len);
    }
}

/* An array of two whose constructor is described twice: Proton's tree has three elements, the inner descriptor among them. */
static void array_described_twice(Run *run)
{
    static Body value;
    from_hex(&value, "E00A02005301005307540506");
    expect(run, state_value(value.at, value.len).findings == BIT(DESCRIBED_TWICE), "not described twice", value.at, value.len);
    compare_value(run, &value, NULL);
    expect(run, pn_data_next(run->tree) && pn_data_get_array(run->tree) == 3, "Proton has the array right", value.at, value.len);
}

/* What Part 1 does not allow and neither of them judges: texts that are not UTF-8 or ASCII, a char that is none, a key that is there twice. */
static void not_judged(Run *run)
{
    static const char *const digits[] = {"A101FF", "A301FF", "730000D800", "7300110000", "C1050440404040"};
    static Body value;
    for (size_t i = 0; i < sizeof digits / sizeof digits[0]; i++) {
        from_hex(&value, digits[i]);
        expect(run, state_value(value.at, value.len).findings == 0, "judged", value.at, value.len);
        compare_value(run, &value, NULL);
    }
}

/* ---- Frames of the engine's own */

static void text_by_chance(Run *run, uint8_t *at, size_t len)
{
    for (size_t i = 0; i < len; i++)
        at[i] = (uint8_t)(32 + below(&run->chance, 95));
}

/* The frame in the output, which was written on channel 0. Proton's tree of it is that of the performative that was made. */
static void compare_own(Run *run)
{
    static Body whole, read;
    size_t len = hisproat_written(run->answer);
    size_t end = len > 8 ? proton_reads(run->tree, run->output + 8, len - 8) : 0;
    run->bodies++;
    int whole_frame = end != 0 && end == len - 8 && hisproat_number(run->output, 4) == len && hisproat_number(run->output + 4, 4) == 0x02000000;
    expect(run, whole_frame, "Proton does not read the engine's own frame", run->output, len);
    if (!whole_frame)
        return;
    write_meaning(emptied(&whole), run->made);
    write_meaning(emptied(&read), run->tree);
    expect(run, same(&whole, &read), "the engine's own frame says something else", run->output, len);
}

static void put_text(pn_data_t *tree, const uint8_t *at, size_t len, int is_symbol)
{
    pn_bytes_t bytes = pn_bytes(len, (const char *)at);
    if (is_symbol)
        pn_data_put_symbol(tree, bytes);
    else
        pn_data_put_string(tree, bytes);
}

static void own_open(Run *run)
{
    static uint8_t state[HISPROAT_STATE_SIZE(HISPROAT_MAX_CHANNEL_MAX)];
    uint8_t id[HISPROAT_MAX_CONTAINER_ID], has_idle = below(&run->chance, 2) == 0;
    size_t len = below(&run->chance, sizeof id + 1);
    uint32_t size = 512 + below(&run->chance, 15873), idle = below(&run->chance, 2) == 0 ? below(&run->chance, 300) : below(&run->chance, 0xFFFFFFFF);
    uint16_t channels = (uint16_t)below(&run->chance, 65536);
    text_by_chance(run, id, len);
    hisproat_dialler(state, sizeof state, id, len, size, channels, has_idle, idle);
    hisproat_send_header(state, sizeof state, run->output, sizeof run->output, run->answer, sizeof run->answer);
    uint8_t refused = hisproat_send_open(state, sizeof state, run->output, sizeof run->output, run->answer, sizeof run->answer);
    expect(run, refused == 0, "no Open is sent", id, len);
    pn_data_clear(run->made);
    put_composite(run->made, OPEN);
    put_text(run->made, id, len, 0);
    pn_data_put_null(run->made);
    pn_data_put_uint(run->made, size);
    pn_data_put_ushort(run->made, channels);
    if (has_idle)
        pn_data_put_uint(run->made, idle);
    compare_own(run);
}

static void own_close(Run *run)
{
    uint8_t condition[HISPROAT_MAX_CONDITION], description[HISPROAT_MAX_DESCRIPTION], has = below(&run->chance, 2) == 0;
    size_t len = below(&run->chance, sizeof condition + 1), more = below(&run->chance, sizeof description + 1);
    text_by_chance(run, condition, len);
    text_by_chance(run, description, more);
    memcpy(run->state, run->opened, sizeof run->state);
    uint8_t refused = hisproat_on_close_with_error(run->state, sizeof run->state, condition, len, has, description, more, none, 0, run->output,
                                                   sizeof run->output, run->answer, sizeof run->answer);
    expect(run, refused == 0, "no Close is sent", condition, len);
    pn_data_clear(run->made);
    put_composite(run->made, CLOSE);
    put_composite(run->made, ERROR);
    put_text(run->made, condition, len, 1);
    if (has)
        put_text(run->made, description, more, 0);
    compare_own(run);
}

static void own_frames(Run *run)
{
    for (int i = 0; i < 2000; i++) {
        own_open(run);
        own_close(run);
    }
    memcpy(run->state, run->opened, sizeof run->state);
    uint8_t refused = hisproat_on_close(run->state, sizeof run->state, none, 0, run->output, sizeof run->output, run->answer, sizeof run->answer);
    expect(run, refused == 0, "no Close without an error is sent", none, 0);
    pn_data_clear(run->made);
    put_composite(run->made, CLOSE);
    compare_own(run);
}

/* ---- Setting up, and the whole run */

static int set_up(Run *run)
{
    static const uint8_t header[] = {0x41, 0x4D, 0x51, 0x50, 0, 1, 0, 0};
    static const uint8_t open[] = {0, 0x53, OPEN, 0xC0, 12, 4, 0xA1, 0, 0x40, 0x70, 0, 0, 0x40, 0, 0x60, CHANNEL_MAX >> 8, CHANNEL_MAX & 0xFF};
    static const uint8_t begin[] = {0, 0x53, BEGIN, 0xC0, 7, 4, 0x60, 0, 0, 0x43, 0x43, 0x43};
    uint8_t wrong = hisproat_listener(run->state, sizeof run->state, none, 0, 16384, CHANNEL_MAX, 0, 0);
    wrong |= hisproat_receive_header(run->state, sizeof run->state, header, sizeof header, run->answer, sizeof run->answer);
    wrong |= hisproat_send_header(run->state, sizeof run->state, run->output, sizeof run->output, run->answer, sizeof run->answer);
    wrong |= hisproat_send_open(run->state, sizeof run->state, run->output, sizeof run->output, run->answer, sizeof run->answer);
    memcpy(run->asking, run->state, sizeof run->state);
    lay_frame(run, 0, open, sizeof open);
    wrong |= incoming(run);
    for (uint32_t i = 0; i < TAKEN; i++)
        wrong |= hisproat_on_allocate(run->state, sizeof run->state, FIRST_HANDLE + i, run->answer, sizeof run->answer);
    lay_frame(run, INCOMING, begin, sizeof begin);
    wrong |= incoming(run);
    memcpy(run->opened, run->state, sizeof run->state);
    run->made = pn_data(0), run->tree = pn_data(0), run->other = pn_data(0);
    return wrong == 0 && tied(run) == FIRST_HANDLE;
}

static void run_all(Run *run)
{
    performatives(run);
    payloads(run);
    symbolic(run);
    long_bodies(run);
    random_values(run);
    deep_values(run);
    short_values(run);
    each_code(run);
    wide_arrays(run);
    own_frames(run);
}

static void report(Run *run)
{
    for (unsigned rule = BOOLEAN_OCTET; rule < RULES; rule++) {
        printf("%-22s %6lu times, alone %6lu. Right: %s. %s\n", rules[rule].name, run->times[rule], run->alone[rule], rules[rule].right, rules[rule].why);
        if (run->alone[rule] < 2) {
            printf("wrong: but for its example, the rule %s never occurs\n", rules[rule].name);
            run->wrong++;
        }
    }
    printf("%lu read by both, %lu of them with bytes after the performative, which both leave unread; "
           "%lu were written with a value that is described twice, and not compared\n",
           run->both, run->followed, run->left_out);
    printf("%lu bodies, %lu values, %lu named disagreements, %lu wrong\n", run->bodies, run->values, run->named, run->wrong);
}

int main(int count, char **words)
{
    static Run run;
    run.chance.state = count > 1 ? strtoull(words[1], NULL, 10) : 20121029;
    printf("Qpid Proton %d.%d.%d, seed %llu\n", PN_VERSION_MAJOR, PN_VERSION_MINOR, PN_VERSION_POINT, (unsigned long long)run.chance.state);
    if (!set_up(&run)) {
        printf("wrong: the engine does not open\n");
        return 1;
    }
    examples(&run);
    array_described_twice(&run);
    not_judged(&run);
    for (unsigned long rounds = count > 2 ? strtoul(words[2], NULL, 10) : 1; rounds > 0; rounds--)
        run_all(&run);
    report(&run);
    pn_data_free(run.made);
    pn_data_free(run.tree);
    pn_data_free(run.other);
    return run.wrong == 0 ? 0 : 1;
}
