/*
 * Frames for a bound on instructions: reading takes some for each byte that is there, and none for what a frame only claims. Usage: linear [slow]
 * A line is printed for each reading: how the frame is read (`typical` frames by the frame reader), how many bytes it has, and its name. tests/linear.py runs this under callgrind, which counts inside
 * `measured`. With `slow` each reading also takes a step for each element that the frame claims, at most 100,000 of them: the bound must notice that.
 */
#include "hisproat.h"
#include "hisproat_frame_reader.h"

#include <stdio.h>
#include <stdlib.h>
#include <string.h>

enum { LONGEST = 70000, CHANNEL_MAX = 7, MOST_STEPS = 100000 };

/* A frame in the making. */
typedef struct {
    uint8_t at[LONGEST];
    size_t len;
    uint32_t claimed; /* the largest count in it */
    uint8_t returned; /* 0, or the refusal that it is due */
} Frame;

/* ---- Frames */

static void put(Frame *f, uint8_t byte)
{
    if (f->len == LONGEST)
        exit(2);
    f->at[f->len++] = byte;
}

static void put_number(Frame *f, uint32_t number)
{
    for (unsigned i = 0; i < 4; i++)
        put(f, (uint8_t)(number >> 8 * (3 - i)));
}

static void set_number(Frame *f, size_t at, size_t number)
{
    for (unsigned i = 0; i < 4; i++)
        f->at[at + i] = (uint8_t)(number >> 8 * (3 - i));
}

static void put_hex(Frame *f, const char *digits)
{
    for (; *digits; digits += 2)
        put(f, (uint8_t)strtoul((char[]){ digits[0], digits[1], 0 }, NULL, 16));
}

/* The start of a list, map or array with sizes of four bytes. Returns the place of its size, which its end sets. */
static size_t open_compound(Frame *f, uint8_t code, uint32_t count)
{
    put(f, code);
    put_number(f, 0);
    put_number(f, count);
    f->claimed = count > f->claimed ? count : f->claimed;
    return f->len - 8;
}

static void close_compound(Frame *f, size_t at)
{
    set_number(f, at, f->len - at - 4);
}

/* A performative with so many fields. Returns the place of the size of its list. */
static size_t start_with(Frame *f, uint8_t performative, uint32_t fields, uint8_t returned)
{
    f->len = 0;
    f->claimed = 0;
    f->returned = returned;
    put_hex(f, "00000000020000000053");
    put(f, performative);
    return open_compound(f, 0xD0, fields);
}

/* An Attach with one field. */
static size_t start(Frame *f, uint8_t returned)
{
    return start_with(f, 0x12, 1, returned);
}

static void finish(Frame *f, size_t list)
{
    close_compound(f, list);
    set_number(f, 0, f->len);
}

/* ---- How a frame is read: by the frame reader, by an engine that it came to, and by one that is to send it */

typedef enum { READER, ENGINE, TO_SEND, WAYS } Way;

static uint8_t opened[HISPROAT_STATE_SIZE(CHANNEL_MAX)]; /* an engine with a session on channel 0 */
static uint8_t state[sizeof opened], output[HISPROAT_OUTPUT_ROOM], answer[HISPROAT_ANSWER_SIZE];
static int is_slow;

static uint8_t came(const uint8_t *frame, size_t len)
{
    const uint8_t nothing = 0;
    uint8_t refused = hisproat_on_incoming(state, sizeof state, frame, len, 0, &nothing, 0, output, sizeof output, answer, sizeof answer);
    return refused == 0 && answer[HISPROAT_AT_KIND] == HISPROAT_KIND_REFUSED ? answer[HISPROAT_AT_DETAIL] : refused;
}

/* The instructions in here are counted. */
__attribute__((noinline)) uint8_t measured(Way way, const Frame *f)
{
    static volatile uint32_t steps;
    for (steps = 0; is_slow && steps < f->claimed && steps < MOST_STEPS; steps++)
        ;
    if (way == READER)
        return hisproat_read_frame(f->at, f->len, LONGEST, CHANNEL_MAX, answer, sizeof answer);
    if (way == ENGINE)
        return came(f->at, f->len);
    return hisproat_on_outgoing(state, sizeof state, f->at, f->len, output, sizeof output, answer, sizeof answer);
}

static void read_frame(const Frame *f, const char *name)
{
    static const char *const NAMES[WAYS] = { "reader", "engine", "to-send" };
    for (Way way = READER; way < WAYS; way++) {
        /* an engine tells at once that a frame is over its limit */
        if (way != READER && f->len > HISPROAT_MAX_FRAME_SIZE)
            continue;
        memcpy(state, opened, sizeof state);
        printf("%s %zu %s\n", NAMES[way], f->len, name);
        if (measured(way, f) != f->returned) {
            printf("linear: %s returns another number than %u\n", NAMES[way], f->returned);
            exit(1);
        }
    }
}

/* ---- Arrays that claim elements without bytes */

static void put_array(Frame *f, uint32_t count, const char *element)
{
    size_t at = open_compound(f, 0xF0, count);
    put_hex(f, element);
    close_compound(f, at);
}

static void claims(Frame *f, uint32_t count)
{
    static const char *const ELEMENTS[] = { "40", "41", "42", "43", "44", "45", "00530140", "00530100530243", "00C002014045" };
    char name[80];
    for (size_t i = 0; i < sizeof ELEMENTS / sizeof ELEMENTS[0]; i++) {
        size_t list = start(f, 0);
        put_array(f, count, ELEMENTS[i]);
        finish(f, list);
        snprintf(name, sizeof name, "an array of %u times %s", count, ELEMENTS[i]);
        read_frame(f, name);
    }
}

/* Such arrays in a list and a map, in an array, and on the fifteenth level. */
static void nested_claims(Frame *f)
{
    size_t list, held, outer[14];
    for (int is_map = 0; is_map < 2; is_map++) {
        list = start(f, 0);
        held = open_compound(f, is_map ? 0xD1 : 0xD0, 8);
        for (int i = 0; i < 8; i++)
            put_array(f, UINT32_MAX, "40");
        close_compound(f, held);
        finish(f, list);
        read_frame(f, is_map ? "a map of such arrays" : "a list of such arrays");
    }
    list = start(f, 0);
    held = open_compound(f, 0xF0, 8);
    put(f, 0xF0);
    for (int i = 0; i < 8; i++)
        put_hex(f, "00000005FFFFFFFF43");
    close_compound(f, held);
    f->claimed = UINT32_MAX;
    finish(f, list);
    read_frame(f, "an array of such arrays");
    list = start(f, 0);
    for (int i = 0; i < 14; i++)
        outer[i] = open_compound(f, 0xD0, 1);
    put_array(f, UINT32_MAX, "45");
    for (int i = 13; i >= 0; i--)
        close_compound(f, outer[i]);
    finish(f, list);
    read_frame(f, "such an array on the fifteenth level");
}

/* Counts that the bytes do not bear out: the first element that is not there decides. */
static void false_claims(Frame *f)
{
    static const struct {
        uint8_t code;
        const char *bytes;
        const char *name;
    } FALSE[] = {
        { 0xD0, "", "a list without its elements" },   { 0xD0, "404040", "a list with three of them" },       { 0xD1, "4040", "a map with one pair" },
        { 0xF0, "50", "an array without its octets" }, { 0xF0, "9800", "an array with one octet" },           { 0xF0, "A0", "an array of binary without any" },
        { 0xF0, "C00100", "an array with one list" },  { 0xF0, "00530150FF", "a described array with one" },
    };
    for (size_t i = 0; i < sizeof FALSE / sizeof FALSE[0]; i++) {
        size_t list = start(f, HISPROAT_REFUSED_BODY_MALFORMED), held = open_compound(f, FALSE[i].code, UINT32_MAX - 1);
        put_hex(f, FALSE[i].bytes);
        close_compound(f, held);
        finish(f, list);
        read_frame(f, FALSE[i].name);
    }
}

/* ---- Ordinary frames of about so many bytes: a list, map or array of one element over and over, in an Attach's one field */

/* Fills the frame up to so many bytes. */
static void fill(Frame *f, uint8_t holder, const char *constructor, const char *element, size_t bytes)
{
    size_t held = open_compound(f, holder, 0);
    put_hex(f, constructor);
    uint32_t count = (uint32_t)((bytes - f->len) / (strlen(element) / 2)) & ~1u;
    for (uint32_t i = 0; i < count; i++)
        put_hex(f, element);
    close_compound(f, held);
    set_number(f, held + 4, count);
    f->claimed = count;
}

static void grown(Frame *f, uint8_t holder, const char *constructor, const char *element, size_t bytes, const char *name)
{
    size_t list = start(f, 0);
    fill(f, holder, constructor, element, bytes);
    finish(f, list);
    read_frame(f, name);
}

static void ordinary(Frame *f, size_t bytes)
{
    grown(f, 0xD0, "", "40", bytes, "a list of nulls");
    grown(f, 0xD0, "", "45", bytes, "a list of empty lists");
    grown(f, 0xD0, "", "5601", bytes, "a list of booleans");
    grown(f, 0xD0, "", "A10161", bytes, "a list of strings");
    grown(f, 0xD0, "", "00530140", bytes, "a list of described nulls");
    grown(f, 0xD0, "", "004040", bytes, "a list of nulls that nulls describe");
    grown(f, 0xD0, "", "0000404040", bytes, "a list of values that described values describe");
    grown(f, 0xD0, "", "0040004040", bytes, "a list of described described values");
    grown(f, 0xD0, "", "000000000000000000000000004040404040404040404040404040", bytes, "a list of values that described values describe, thirteen deep");
    grown(f, 0xD0, "", "004000400040004000400040004000400040004000400040004040", bytes, "a list of described described values, thirteen deep");
    grown(f, 0xD0, "", "C00100", bytes, "a list of lists without elements");
    grown(f, 0xD0, "", "C00B01C00801C00501C0020140", bytes, "a list of lists in lists");
    grown(f, 0xD0, "", "C02301C02001C01D01C01A01C01701C01401C01101C00E01C00B01C00801C00501C0020140", bytes, "a list of lists, twelve deep");
    grown(f, 0xD0, "", "C10100", bytes, "a list of empty maps");
    grown(f, 0xD0, "", "E0020040", bytes, "a list of empty arrays");
    grown(f, 0xD0, "", "E003015601", bytes, "a list of arrays of a boolean");
    grown(f, 0xD0, "", "E00402004040", bytes, "a list of arrays of described nulls");
    grown(f, 0xD0, "", "E0020240", bytes, "a list of arrays of two nulls");
    grown(f, 0xD0, "", "E01C02004000400040004000400040004000400040004000400040560101", bytes, "a list of arrays of two booleans, described twelve times");
    grown(f, 0xD0, "", "00E00602C101000100E00602C101000100", bytes, "a list of arrays of two maps that such arrays describe");
    grown(f, 0xD0, "", "F000000005FFFFFFFF40", bytes, "a list of arrays that claim the most");
    grown(f, 0xD1, "", "40", bytes, "a map of nulls");
    grown(f, 0xF0, "50", "FF", bytes, "an array of octets");
    grown(f, 0xF0, "56", "01", bytes, "an array of booleans");
    grown(f, 0xF0, "A0", "0161", bytes, "an array of binary");
    grown(f, 0xF0, "A0", "00", bytes, "an array of empty binary");
    grown(f, 0xF0, "C0", "0100", bytes, "an array of empty lists");
    grown(f, 0xF0, "C0", "020140", bytes, "an array of lists of a null");
    grown(f, 0xF0, "C0", "0401004040", bytes, "an array of lists of a described null");
    grown(f, 0xF0, "C1", "0100", bytes, "an array of empty maps");
    grown(f, 0xF0, "E0", "020140", bytes, "an array of arrays of a null");
    grown(f, 0xF0, "E0", "020240", bytes, "an array of arrays of two nulls");
    grown(f, 0xF0, "E0", "0802E0020240020240", bytes, "an array of arrays of arrays of two nulls");
    grown(f, 0xF0, "E0", "1A01E01701E01401E01101E00E01E00B01E00801E00501E0020140", bytes, "an array of arrays, nine deep");
}

/* Performatives of which an error is told: the long field stands before it, or is the information in it. */
static void with_errors(Frame *f, size_t bytes)
{
    static const struct {
        uint8_t performative;
        uint32_t fields;
        const char *before, *after;
        const char *name;
    } LONG[] = {
        { 0x16, 3, "", "4100531DC00401A30161", "a Detach with a long handle and an error" },
        { 0x16, 3, "43", "00531DC00401A30161", "a Detach with a long closed and an error" },
        { 0x16, 3, "4341", "", "a Detach with a long error" },
        { 0x17, 1, "", "", "an End with a long error" },
    };
    for (size_t i = 0; i < sizeof LONG / sizeof LONG[0]; i++) {
        size_t list = start_with(f, LONG[i].performative, LONG[i].fields, 0), error = 0;
        int is_error = *LONG[i].after == 0;
        put_hex(f, LONG[i].before);
        if (is_error) {
            put_hex(f, "00531D");
            error = open_compound(f, 0xD0, 3);
            put_hex(f, "A3016140");
        }
        fill(f, 0xD1, "", "00000000000000000000000040404040404040404040404040", bytes - strlen(LONG[i].after) / 2);
        if (is_error)
            close_compound(f, error);
        put_hex(f, LONG[i].after);
        finish(f, list);
        read_frame(f, LONG[i].name);
    }
}

/* Frames as peers send them. */
static void typical(Frame *f)
{
    static const struct {
        const char *bytes;
        const char *name;
    } TYPICAL[] = {
        { "005310C01205A1047061643140700000400060000752FF", "an Open" },
        { "005311C00A04404370000000645264", "a Begin" },
        { "005313C0100943526443526452015200520A520041", "a Flow" },
        { "005314C00D0552035207A004010203044341005375A0156C616E652034207072657373657320303030323137", "a Transfer" },
        { "005315C00B0541520152034100532445", "a Disposition" },
        { "005317C0170100531DC01101A30E616D71703A6E6F742D616C6C6F77", "an End with an error" },
    };
    for (size_t i = 0; i < sizeof TYPICAL / sizeof TYPICAL[0]; i++) {
        start(f, 0);
        f->len = 8;
        put_hex(f, TYPICAL[i].bytes);
        set_number(f, 0, f->len);
        printf("typical %zu %s\n", f->len, TYPICAL[i].name);
        if (measured(READER, f) != 0) {
            printf("linear: %s is refused\n", TYPICAL[i].name);
            exit(1);
        }
    }
}

/* A Transfer with a payload of so many bytes, which is not read. */
static void payload(Frame *f, size_t bytes)
{
    start(f, 0);
    f->len = 8;
    put_hex(f, "00531445");
    while (f->len < bytes)
        put(f, 0xAB);
    set_number(f, 0, f->len);
    read_frame(f, "a payload");
}

/* ---- The engine */

static void need(uint8_t refused)
{
    if (refused != 0)
        exit(2);
}

static void open_engine(void)
{
    static const uint8_t OPEN[] = { 0, 0, 0, 0x11, 2, 0, 0, 0, 0, 0x53, 0x10, 0xC0, 4, 1, 0xA1, 1, 'h' };
    static const uint8_t BEGIN[] = { 0, 0, 0, 0x14, 2, 0, 0, 0, 0, 0x53, 0x11, 0xC0, 7, 4, 0x40, 0x43, 0x52, 100, 0x52, 100 };
    need(hisproat_listener(state, sizeof state, (const uint8_t *)"hub", 3, HISPROAT_MAX_FRAME_SIZE, CHANNEL_MAX, 0, 0));
    need(hisproat_receive_header(state, sizeof state, (const uint8_t *)"AMQP\0\1\0\0", 8, answer, sizeof answer));
    need(hisproat_send_header(state, sizeof state, output, sizeof output, answer, sizeof answer));
    need(came(OPEN, sizeof OPEN));
    need(hisproat_send_open(state, sizeof state, output, sizeof output, answer, sizeof answer));
    need(came(BEGIN, sizeof BEGIN));
    memcpy(opened, state, sizeof opened);
}

int main(int argc, char **argv)
{
    static const uint32_t COUNTS[] = { 0xFF, 0xFFFF, UINT32_MAX };
    static const size_t SIZES[] = { 64, 512, 4096, 16384, 65536 };
    static Frame f;
    is_slow = argc == 2 && strcmp(argv[1], "slow") == 0;
    setvbuf(stdout, NULL, _IOLBF, BUFSIZ); /* so that a reading that does not end is the last line */
    open_engine();
    for (size_t i = 0; i < sizeof COUNTS / sizeof COUNTS[0]; i++)
        claims(&f, COUNTS[i]);
    nested_claims(&f);
    false_claims(&f);
    typical(&f);
    for (size_t i = 0; i < sizeof SIZES / sizeof SIZES[0]; i++) {
        ordinary(&f, SIZES[i]);
        with_errors(&f, SIZES[i]);
        payload(&f, SIZES[i]);
    }
    return 0;
}
