/* Bodies for the comparison with Qpid Proton's codec: see proton.h. */
#include "proton.h"

#include <string.h>

/* ---- Chance and bytes */

uint32_t below(Chance *chance, uint32_t n)
{
    uint64_t x = chance->state += 0x9E3779B97F4A7C15u;
    x = (x ^ x >> 30) * 0xBF58476D1CE4E5B9u;
    x = (x ^ x >> 27) * 0x94D049BB133111EBu;
    return (uint32_t)((x ^ x >> 31) >> 32) % n;
}

void add_byte(Body *body, uint8_t byte)
{
    if (body->len < LONGEST)
        body->at[body->len++] = byte;
    else
        body->full = 1;
}

void add_bytes(Body *body, const uint8_t *at, size_t len)
{
    for (size_t i = 0; i < len; i++)
        add_byte(body, at[i]);
}

void add_number(Body *body, uint64_t number, size_t width)
{
    for (size_t i = width; i-- > 0;)
        add_byte(body, (uint8_t)(number >> 8 * i));
}

static uint64_t number_at(const uint8_t *at, size_t width)
{
    uint64_t number = 0;
    for (size_t i = 0; i < width; i++)
        number = number << 8 | at[i];
    return number;
}

/* ---- The codes of Part 1, section 1.6: of each its type, and how wide its body, or its size, is. A type's widest code comes first. */

typedef enum { FIXED, BOOLEAN, VARIABLE, LIST, MAP, ARRAY } Form;

typedef struct {
    uint8_t code;
    pn_type_t type;
    Form form;
    size_t width;
} Code;

static const Code codes[] = {
    {0x40, PN_NULL, FIXED, 0},      {0x56, PN_BOOL, BOOLEAN, 1},    {0x41, PN_BOOL, FIXED, 0},       {0x42, PN_BOOL, FIXED, 0},
    {0x50, PN_UBYTE, FIXED, 1},     {0x60, PN_USHORT, FIXED, 2},    {0x70, PN_UINT, FIXED, 4},       {0x52, PN_UINT, FIXED, 1},
    {0x43, PN_UINT, FIXED, 0},      {0x80, PN_ULONG, FIXED, 8},     {0x53, PN_ULONG, FIXED, 1},      {0x44, PN_ULONG, FIXED, 0},
    {0x51, PN_BYTE, FIXED, 1},      {0x61, PN_SHORT, FIXED, 2},     {0x71, PN_INT, FIXED, 4},        {0x54, PN_INT, FIXED, 1},
    {0x81, PN_LONG, FIXED, 8},      {0x55, PN_LONG, FIXED, 1},      {0x72, PN_FLOAT, FIXED, 4},      {0x82, PN_DOUBLE, FIXED, 8},
    {0x74, PN_DECIMAL32, FIXED, 4}, {0x84, PN_DECIMAL64, FIXED, 8}, {0x94, PN_DECIMAL128, FIXED, 16}, {0x73, PN_CHAR, FIXED, 4},
    {0x83, PN_TIMESTAMP, FIXED, 8}, {0x98, PN_UUID, FIXED, 16},     {0xB0, PN_BINARY, VARIABLE, 4},  {0xA0, PN_BINARY, VARIABLE, 1},
    {0xB1, PN_STRING, VARIABLE, 4}, {0xA1, PN_STRING, VARIABLE, 1}, {0xB3, PN_SYMBOL, VARIABLE, 4},  {0xA3, PN_SYMBOL, VARIABLE, 1},
    {0xD0, PN_LIST, LIST, 4},       {0xC0, PN_LIST, LIST, 1},       {0x45, PN_LIST, FIXED, 0},       {0xD1, PN_MAP, MAP, 4},
    {0xC1, PN_MAP, MAP, 1},         {0xF0, PN_ARRAY, ARRAY, 4},     {0xE0, PN_ARRAY, ARRAY, 1},
};

enum { CODES = sizeof codes / sizeof codes[0] };

static const Code *code_of(uint8_t byte)
{
    for (size_t i = 0; i < CODES; i++)
        if (codes[i].code == byte)
            return &codes[i];
    return NULL;
}

/* ---- Values by chance */

static uint64_t some_number(Chance *chance)
{
    static const uint64_t edges[] = {0, 1, 2, 127, 128, 129, 255, 256, 32767, 32768, 65535, 65536, 0x7FFFFFFF, 0x80000000, 0xFFFFFFFF, 0x7FFFFFFFFFFFFFFF};
    uint64_t number = edges[below(chance, sizeof edges / sizeof edges[0])];
    if (below(chance, 2) == 0)
        number = (uint64_t)below(chance, 0xFFFFFFFF) << 32 | below(chance, 0xFFFFFFFF);
    return below(chance, 2) == 0 ? number : 0 - number;
}

/* Text that is not judged: any bytes. */
static pn_bytes_t some_bytes(Chance *chance, char room[300])
{
    size_t len = below(chance, 16) == 0 ? 254 + below(chance, 4) : below(chance, 9);
    for (size_t i = 0; i < len; i++)
        room[i] = (char)below(chance, 256);
    return pn_bytes(len, room);
}

static void put_wide(pn_data_t *tree, Chance *chance, int is_uuid)
{
    pn_decimal128_t decimal;
    pn_uuid_t uuid;
    for (size_t i = 0; i < 16; i++)
        uuid.bytes[i] = decimal.bytes[i] = (char)below(chance, 256);
    if (is_uuid)
        pn_data_put_uuid(tree, uuid);
    else
        pn_data_put_decimal128(tree, decimal);
}

static void put_atom(pn_data_t *tree, Chance *chance, pn_type_t type)
{
    char room[300];
    uint64_t n = some_number(chance);
    float single = (float)(int64_t)n / 3;
    switch (type) {
    case PN_BOOL: pn_data_put_bool(tree, n & 1); return;
    case PN_UBYTE: pn_data_put_ubyte(tree, (uint8_t)n); return;
    case PN_BYTE: pn_data_put_byte(tree, (int8_t)n); return;
    case PN_USHORT: pn_data_put_ushort(tree, (uint16_t)n); return;
    case PN_SHORT: pn_data_put_short(tree, (int16_t)n); return;
    case PN_UINT: pn_data_put_uint(tree, (uint32_t)n); return;
    case PN_INT: pn_data_put_int(tree, (int32_t)n); return;
    case PN_CHAR: pn_data_put_char(tree, (pn_char_t)n); return;
    case PN_ULONG: pn_data_put_ulong(tree, n); return;
    case PN_LONG: pn_data_put_long(tree, (int64_t)n); return;
    case PN_TIMESTAMP: pn_data_put_timestamp(tree, (int64_t)n); return;
    case PN_FLOAT: pn_data_put_float(tree, single); return;
    case PN_DOUBLE: pn_data_put_double(tree, (double)(int64_t)n / 7); return;
    case PN_DECIMAL32: pn_data_put_decimal32(tree, (uint32_t)n); return;
    case PN_DECIMAL64: pn_data_put_decimal64(tree, n); return;
    case PN_DECIMAL128: put_wide(tree, chance, 0); return;
    case PN_UUID: put_wide(tree, chance, 1); return;
    case PN_BINARY: pn_data_put_binary(tree, some_bytes(chance, room)); return;
    case PN_STRING: pn_data_put_string(tree, some_bytes(chance, room)); return;
    case PN_SYMBOL: pn_data_put_symbol(tree, some_bytes(chance, room)); return;
    default: pn_data_put_null(tree); return;
    }
}

static void put_of_type(pn_data_t *tree, Chance *chance, pn_type_t type, int levels);

/* A ulong or a symbol, as descriptors are; at times any value. */
static void put_descriptor(pn_data_t *tree, Chance *chance, int levels)
{
    if (below(chance, 16) == 0)
        put_value(tree, chance, levels);
    else
        put_atom(tree, chance, below(chance, 2) == 0 ? PN_ULONG : PN_SYMBOL);
}

/* A type that needs no more than so many levels. Atoms are as frequent as the others together. */
static pn_type_t some_type(Chance *chance, int levels, int with_described)
{
    if (levels < 4 || below(chance, 2) == 0)
        return (pn_type_t)(PN_NULL + below(chance, PN_SYMBOL));
    return (pn_type_t)(with_described ? PN_DESCRIBED + below(chance, 4) : PN_ARRAY + below(chance, 3));
}

static void put_array(pn_data_t *tree, Chance *chance, int levels)
{
    int described = below(chance, 3) == 0, inner = described ? levels - 2 : levels - 1;
    pn_type_t type = some_type(chance, inner, 0);
    pn_data_put_array(tree, described, type);
    pn_data_enter(tree);
    if (described)
        put_descriptor(tree, chance, inner);
    for (uint32_t i = below(chance, 4); i > 0; i--)
        put_of_type(tree, chance, type, inner);
    pn_data_exit(tree);
}

static void put_of_type(pn_data_t *tree, Chance *chance, pn_type_t type, int levels)
{
    uint32_t count = below(chance, 4);
    switch (type) {
    case PN_DESCRIBED: pn_data_put_described(tree), count = 1; break;
    case PN_LIST: pn_data_put_list(tree); break;
    case PN_MAP: pn_data_put_map(tree), count &= ~1u; break;
    case PN_ARRAY: put_array(tree, chance, levels); return;
    default: put_atom(tree, chance, type); return;
    }
    pn_data_enter(tree);
    if (type == PN_DESCRIBED)
        put_descriptor(tree, chance, levels - 1);
    for (; count > 0; count--) { /* what is described is seldom described again */
        pn_type_t next = some_type(chance, levels - 1, type != PN_DESCRIBED || below(chance, 8) == 0);
        put_of_type(tree, chance, next, levels - 1);
    }
    pn_data_exit(tree);
}

void put_value(pn_data_t *tree, Chance *chance, int levels)
{
    put_of_type(tree, chance, some_type(chance, levels, 1), levels);
}

/* An array with one level for itself, two with an element, three with a descriptor, whether it has an element or none. */
static void put_last_array(pn_data_t *tree, Chance *chance, int levels)
{
    uint32_t elements = levels == 3 ? below(chance, 2) : (uint32_t)levels - 1;
    pn_data_put_array(tree, levels == 3, PN_ULONG);
    pn_data_enter(tree);
    for (uint32_t i = elements + (levels == 3); i > 0; i--)
        put_atom(tree, chance, PN_ULONG);
    pn_data_exit(tree);
}

void put_chain(pn_data_t *tree, Chance *chance, int levels)
{
    pn_type_t type = (pn_type_t)(PN_DESCRIBED + below(chance, 4));
    if (type == PN_ARRAY && levels < 3 + (int)below(chance, 2)) {
        put_last_array(tree, chance, levels);
        return;
    }
    if (levels == 1) {
        put_atom(tree, chance, some_type(chance, levels, 0));
        return;
    }
    switch (type) {
    case PN_DESCRIBED: pn_data_put_described(tree); break;
    case PN_MAP: pn_data_put_map(tree); break;
    case PN_ARRAY: pn_data_put_array(tree, 0, PN_LIST); break;
    default: pn_data_put_list(tree); break;
    }
    pn_data_enter(tree);
    if (type == PN_DESCRIBED || type == PN_MAP) /* a descriptor, a key */
        put_atom(tree, chance, PN_ULONG);
    if (type == PN_ARRAY) {
        pn_data_put_list(tree);
        pn_data_enter(tree);
        put_chain(tree, chance, levels - 2);
        pn_data_exit(tree);
    } else {
        put_chain(tree, chance, levels - 1);
    }
    pn_data_exit(tree);
}

/* ---- Performatives: a letter for each field, by document 01. s string, u uint, h ushort, e error, capitals where it is not null; a dot is any value. */

enum { LEVELS = 16 };

static const char *const rows[] = {"Ssuhu.....", "hUUUu...", "..............", "...........", "...........", "......", "..e", "e", "e"};

unsigned most_fields(unsigned code)
{
    return (unsigned)strlen(rows[code - OPEN]);
}

static int is_mandatory(char letter)
{
    return letter >= 'A' && letter <= 'Z';
}

void put_composite(pn_data_t *tree, unsigned code)
{
    pn_data_put_described(tree);
    pn_data_enter(tree);
    pn_data_put_ulong(tree, code);
    pn_data_put_list(tree);
    pn_data_enter(tree);
}

static void put_error(pn_data_t *tree, Chance *chance)
{
    put_composite(tree, ERROR);
    put_atom(tree, chance, PN_SYMBOL);
    for (uint32_t i = below(chance, 3); i > 0; i--)
        put_of_type(tree, chance, below(chance, 2) == 0 ? PN_NULL : PN_MAP, LEVELS - 2);
    pn_data_exit(tree);
    pn_data_exit(tree);
}

static void put_field(pn_data_t *tree, Chance *chance, char letter)
{
    switch (letter | 0x20) {
    case 's': put_atom(tree, chance, PN_STRING); return;
    case 'u': put_atom(tree, chance, PN_UINT); return;
    case 'h': pn_data_put_ushort(tree, (uint16_t)(below(chance, 8) == 0 ? some_number(chance) : below(chance, CHANNEL_MAX + 2))); return;
    case 'e': put_error(tree, chance); return;
    default: put_value(tree, chance, LEVELS); return;
    }
}

void put_performative(pn_data_t *tree, Chance *chance, unsigned code, unsigned present, int with_nulls)
{
    unsigned last = 0;
    for (unsigned i = 0; i < most_fields(code); i++) {
        present |= is_mandatory(rows[code - OPEN][i]) ? 1u << i : 0;
        if (present >> i & 1)
            last = i + 1;
    }
    put_composite(tree, code);
    for (unsigned i = 0; i < (with_nulls ? most_fields(code) : last); i++) {
        if (present >> i & 1)
            put_field(tree, chance, rows[code - OPEN][i]);
        else
            pn_data_put_null(tree);
    }
    pn_data_exit(tree);
    pn_data_exit(tree);
}

pn_type_t to_field(pn_data_t *tree, unsigned i)
{
    pn_data_rewind(tree);
    int there = pn_data_next(tree) && pn_data_enter(tree) && pn_data_next(tree) && pn_data_next(tree) && pn_data_enter(tree);
    for (unsigned k = 0; k <= i; k++)
        there = there && pn_data_next(tree);
    return there ? pn_data_type(tree) : PN_NULL;
}

/* ---- Trees written by hand */

/* How many bytes a value takes at most, with its constructor. */
static size_t widest(pn_data_t *tree)
{
    size_t sum = 1;
    pn_type_t type = pn_data_type(tree);
    if (type == PN_BINARY || type == PN_STRING || type == PN_SYMBOL)
        return 5 + pn_data_get_bytes(tree).size;
    if (type < PN_DESCRIBED)
        return 17;
    if (type != PN_DESCRIBED)
        sum += 9;
    pn_data_enter(tree);
    while (pn_data_next(tree))
        sum += widest(tree);
    pn_data_exit(tree);
    return sum;
}

/* Of a number its bits, as wide as they are. */
static uint64_t bits(pn_data_t *tree)
{
    pn_atom_t atom = pn_data_get_atom(tree);
    uint32_t single;
    uint64_t number;
    switch (atom.type) {
    case PN_BOOL: return atom.u.as_bool;
    case PN_UBYTE: return atom.u.as_ubyte;
    case PN_BYTE: return (uint64_t)atom.u.as_byte;
    case PN_USHORT: return atom.u.as_ushort;
    case PN_SHORT: return (uint64_t)atom.u.as_short;
    case PN_UINT: return atom.u.as_uint;
    case PN_INT: return (uint64_t)atom.u.as_int;
    case PN_CHAR: return atom.u.as_char;
    case PN_ULONG: return atom.u.as_ulong;
    case PN_LONG: return (uint64_t)atom.u.as_long;
    case PN_TIMESTAMP: return (uint64_t)atom.u.as_timestamp;
    case PN_FLOAT: memcpy(&single, &atom.u.as_float, 4); return single;
    case PN_DOUBLE: memcpy(&number, &atom.u.as_double, 8); return number;
    case PN_DECIMAL32: return atom.u.as_decimal32;
    case PN_DECIMAL64: return atom.u.as_decimal64;
    default: return 0;
    }
}

/* Whether the value can be written with a code of its type. */
static int fits(pn_data_t *tree, const Code *code)
{
    uint64_t number = bits(tree);
    switch (code->code) {
    case 0x41: return number == 1;
    case 0x42: case 0x43: case 0x44: return number == 0;
    case 0x52: case 0x53: return number < 256;
    case 0x54: case 0x55: return number + 128 < 256;
    case 0xA0: case 0xA1: case 0xA3: return pn_data_get_bytes(tree).size < 256;
    case 0x45: return pn_data_get_list(tree) == 0;
    case 0xC0: case 0xC1: case 0xE0: return widest(tree) < 256;
    default: return 1;
    }
}

static int all_fit(pn_data_t *array, const Code *code)
{
    int fit = 1, described = pn_data_is_array_described(array);
    pn_data_enter(array);
    for (int i = 0; pn_data_next(array); i++)
        fit = fit && ((i == 0 && described) || fits(array, code));
    pn_data_exit(array);
    return fit;
}

/* A code for a value, or for the elements of an array, of this type. */
static const Code *some_code(pn_data_t *tree, pn_type_t type, int is_array, Chance *chance)
{
    const Code *chosen = NULL;
    for (size_t i = 0; i < CODES; i++) {
        if (codes[i].type != type)
            continue;
        if (chosen == NULL || (chance != NULL && below(chance, 2) == 0 && (is_array ? all_fit(tree, &codes[i]) : fits(tree, &codes[i]))))
            chosen = &codes[i];
    }
    return chosen;
}

static void write_content(Body *body, pn_data_t *tree, const Code *code, Chance *chance);

/* The elements of an array, after their constructor. */
static void write_elements(Body *body, pn_data_t *tree, Chance *chance)
{
    const Code *code = some_code(tree, pn_data_get_array_type(tree), 1, chance);
    int described = pn_data_is_array_described(tree);
    if (code == NULL) /* only in a tree that Proton has wrong: DESCRIBED_TWICE */
        return;
    pn_data_enter(tree);
    if (described && pn_data_next(tree)) {
        add_byte(body, 0);
        write_value(body, tree, chance);
    }
    add_byte(body, code->code);
    while (pn_data_next(tree))
        write_content(body, tree, code, chance);
    pn_data_exit(tree);
}

static void write_compound(Body *body, pn_data_t *tree, const Code *code, Chance *chance)
{
    size_t start = body->len, end;
    size_t count = code->form == LIST ? pn_data_get_list(tree) : code->form == MAP ? pn_data_get_map(tree) : pn_data_get_array(tree);
    add_number(body, 0, code->width);
    add_number(body, count, code->width);
    if (code->form == ARRAY) {
        write_elements(body, tree, chance);
    } else {
        pn_data_enter(tree);
        while (pn_data_next(tree))
            write_value(body, tree, chance);
        pn_data_exit(tree);
    }
    end = body->len;
    body->len = start;
    add_number(body, end - start - code->width, code->width);
    body->len = end;
}

static void write_content(Body *body, pn_data_t *tree, const Code *code, Chance *chance)
{
    pn_bytes_t text = pn_data_get_bytes(tree);
    pn_uuid_t uuid = pn_data_get_uuid(tree);
    pn_decimal128_t decimal = pn_data_get_decimal128(tree);
    if (code->form == VARIABLE) {
        add_number(body, text.size, code->width);
        add_bytes(body, (const uint8_t *)text.start, text.size);
    } else if (code->form == FIXED || code->form == BOOLEAN) {
        if (code->width == 16)
            add_bytes(body, (const uint8_t *)(code->type == PN_UUID ? uuid.bytes : decimal.bytes), 16);
        else
            add_number(body, bits(tree), code->width);
    } else {
        write_compound(body, tree, code, chance);
    }
}

void write_value(Body *body, pn_data_t *tree, Chance *chance)
{
    pn_type_t type = pn_data_type(tree);
    if (type == PN_DESCRIBED) {
        add_byte(body, 0);
        pn_data_enter(tree);
        while (pn_data_next(tree))
            write_value(body, tree, chance);
        pn_data_exit(tree);
        return;
    }
    const Code *code = some_code(tree, type, 0, chance);
    add_byte(body, code->code);
    write_content(body, tree, code, chance);
}

/* The fields of a performative, or of an error, without trailing nulls. */
static void write_fields(Body *body, pn_data_t *list, unsigned code)
{
    const char *row = code == ERROR ? "..." : rows[code - OPEN];
    int there = 1;
    size_t nulls = 0;
    pn_data_enter(list);
    for (unsigned i = 0; row[i] != 0; i++) {
        there = there && pn_data_next(list);
        pn_type_t type = there ? pn_data_type(list) : PN_NULL;
        int has_default = code == BEGIN && i == 4 && type == PN_NULL;
        if (type == PN_NULL && !has_default) {
            nulls++;
            continue;
        }
        for (; nulls > 0; nulls--)
            add_byte(body, 0x40);
        if (has_default) {
            add_number(body, 0x70FFFFFFFF, 5);
        } else if (row[i] == 'e' && type == PN_DESCRIBED) {
            pn_data_enter(list);
            pn_data_next(list), write_value(body, list, NULL);
            pn_data_next(list), write_fields(body, list, ERROR);
            pn_data_exit(list);
        } else {
            write_value(body, list, NULL);
        }
    }
    pn_data_exit(list);
}

void write_meaning(Body *body, pn_data_t *tree)
{
    pn_data_rewind(tree);
    pn_data_next(tree), pn_data_enter(tree);
    pn_data_next(tree), write_value(body, tree, NULL);
    uint64_t code = pn_data_get_ulong(tree);
    if (code >= OPEN && code <= CLOSE && pn_data_next(tree))
        write_fields(body, tree, (unsigned)code);
}

/* ---- Bytes made of bytes */

void wrap(Body *body, const Body *value, Chance *chance)
{
    static const struct {
        uint8_t code, count;
        const char *before;
    } places[] = {
        {16, 10, "\xA1\x00@@@@@@@@"}, {17, 8, "@CCC@@@"}, {18, 14, "@@@@@@@@@@@@@"}, {19, 11, "@@@@@@@@@@"}, {20, 8, "@@@@@@@"}, {21, 5, "@@@@"},
    };
    uint32_t i = below(chance, sizeof places / sizeof places[0]);
    size_t before = places[i].code == OPEN ? 10 : strlen(places[i].before), size = before + value->len;
    size_t width = size < 255 && below(chance, 2) == 0 ? 1 : 4;
    add_byte(body, 0);
    add_byte(body, 0x53);
    add_byte(body, places[i].code);
    add_byte(body, width == 1 ? 0xC0 : 0xD0);
    add_number(body, width + size, width);
    add_number(body, places[i].count, width);
    add_bytes(body, (const uint8_t *)places[i].before, before);
    add_bytes(body, value->at, value->len);
    body->full |= value->full;
}

/* ---- The statement */

enum { MOST_MARKS = 64, MOST_NODES = 65535 };

typedef struct {
    const uint8_t *at;
    size_t len;
    size_t pos;
    unsigned findings;
    uint64_t nodes; /* that Proton's tree has */
    size_t marks[MOST_MARKS]; /* constructors, sizes and counts */
    size_t marked;
} Walk;

static Walk walk_on(const uint8_t *at, size_t len)
{
    Walk walk = {.at = at, .len = len};
    return walk;
}

static void find(Walk *walk, Finding finding)
{
    walk->findings |= BIT(finding);
}

static int broken(const Walk *walk)
{
    return (walk->findings & BIT(BROKEN)) != 0;
}

/* So many bytes are there, or it is broken. */
static int has(Walk *walk, uint64_t count)
{
    if (count > walk->len - walk->pos)
        find(walk, BROKEN);
    return !broken(walk);
}

static uint64_t take_number(Walk *walk, size_t width)
{
    if (!has(walk, width))
        return 0;
    if (walk->marked < MOST_MARKS)
        walk->marks[walk->marked++] = walk->pos;
    walk->pos += width;
    return number_at(walk->at + walk->pos - width, width);
}

static void run(Walk *walk, uint64_t count, int level, int in_array);

static void compound(Walk *walk, const Code *code, int level)
{
    uint64_t size = take_number(walk, code->width);
    if (size < code->width + (code->form == ARRAY))
        find(walk, BROKEN);
    if (!has(walk, size))
        return;
    size_t end = walk->pos + (size_t)size;
    uint64_t count = take_number(walk, code->width);
    if (code->form == MAP && count % 2 == 1)
        find(walk, ODD_MAP);
    if (code->form == ARRAY)
        run(walk, count, level + 1, 1);
    for (uint64_t i = 0; code->form != ARRAY && i < count && !broken(walk); i++)
        run(walk, 1, level + 1, 0);
    if (walk->pos > end)
        find(walk, SIZE_TOO_SMALL);
    if (walk->pos < end)
        find(walk, SIZE_TOO_LARGE);
}

/* What stands after a code, so many times. */
static void bodies(Walk *walk, const Code *code, uint64_t count, int level)
{
    walk->nodes += count;
    if (code->form == FIXED) {
        if (has(walk, count * code->width))
            walk->pos += (size_t)count * code->width;
        return;
    }
    for (uint64_t i = 0; i < count && !broken(walk); i++) {
        if (code->form == BOOLEAN && take_number(walk, 1) > 1)
            find(walk, BOOLEAN_OCTET);
        if (code->form == VARIABLE) {
            uint64_t size = take_number(walk, code->width);
            walk->pos += has(walk, size) ? (size_t)size : 0;
        }
        if (code->form >= LIST)
            compound(walk, code, level);
    }
}

/* A constructor and so many bodies of it: a value is a run of one, and the elements of an array are a run. A level is too deep where a value stands there. */
static void run(Walk *walk, uint64_t count, int level, int in_array)
{
    uint8_t first = (uint8_t)take_number(walk, 1);
    const Code *code = code_of(first);
    if (level > LEVELS && count > 0)
        find(walk, TOO_DEEP);
    if (code == NULL && first != 0)
        find(walk, BROKEN);
    if (broken(walk))
        return;
    if (code != NULL) {
        bodies(walk, code, count, level);
    } else if (has(walk, 1)) {
        uint8_t next = walk->at[walk->pos];
        if (next == 0 || next >= 0xC0)
            find(walk, COMPOUND_DESCRIPTOR);
        walk->nodes += in_array ? 0 : 1;
        run(walk, 1, level + 1, 0);
        if (!broken(walk) && has(walk, 1) && walk->at[walk->pos] == 0)
            find(walk, DESCRIBED_TWICE);
        if (!broken(walk))
            run(walk, count, level + 1, in_array);
    }
    if (walk->nodes > MOST_NODES)
        find(walk, TOO_MANY_NODES);
}

Stated state_value(const uint8_t *at, size_t len)
{
    Walk walk = walk_on(at, len);
    run(&walk, 1, 1, 0);
    if (walk.pos != len)
        find(&walk, UNMET);
    return (Stated){.findings = walk.findings, .end = walk.pos};
}

/* At a descriptor that is a ulong, and a list: its code, and how many fields the list says it has. The way is then at the first of them. */
static int composite(Walk *walk, uint64_t *code, uint64_t *count)
{
    if (walk->at[walk->pos] != 0)
        return 0;
    uint8_t descriptor = walk->at[walk->pos + 1], width = descriptor == 0x80 ? 8 : descriptor == 0x53;
    if (width == 0 && descriptor != 0x44)
        return 0;
    *code = number_at(walk->at + walk->pos + 2, width);
    walk->pos += 2 + width;
    const Code *list = code_of((uint8_t)take_number(walk, 1));
    if (list == NULL || list->type != PN_LIST)
        return 0;
    take_number(walk, list->width);
    *count = take_number(walk, list->width);
    return 1;
}

/* Whether the error that the way is at has its shape. */
static int is_error(Walk walk)
{
    uint64_t code, count;
    return composite(&walk, &code, &count) && code == ERROR && count >= 1 && count <= 3 && (walk.at[walk.pos] == 0xA3 || walk.at[walk.pos] == 0xB3);
}

static void field(Walk *walk, char letter)
{
    uint8_t first = walk->at[walk->pos];
    const Code *code = code_of(first);
    pn_type_t type = code == NULL ? PN_DESCRIBED : code->type;
    int fit = letter == '.' || (type == PN_NULL && !is_mandatory(letter));
    switch (letter | 0x20) {
    case 's': fit |= type == PN_STRING; break;
    case 'u': fit |= type == PN_UINT; break;
    case 'h': fit |= type == PN_USHORT; break;
    case 'e': fit |= type == PN_DESCRIBED && is_error(*walk); break;
    }
    if (!fit)
        find(walk, letter == 'e' ? ERROR_SHAPE : FIELD_TYPE);
    run(walk, 1, 1, 0);
}

/* Whether the descriptor is a symbol, and it is the name of a performative: amqp:open:list and so on. */
static int is_symbolic(const Walk *walk)
{
    static const char *const names[] = {"open", "begin", "attach", "flow", "transfer", "disposition", "detach", "end", "close"};
    if (walk->at[0] != 0 || (walk->at[1] != 0xA3 && walk->at[1] != 0xB3))
        return 0;
    size_t from = walk->at[1] == 0xA3 ? 3 : 6, len = (size_t)number_at(walk->at + 2, from - 2);
    for (size_t i = 0; i < sizeof names / sizeof names[0]; i++)
        if (len == 10 + strlen(names[i]) && memcmp(walk->at + from, "amqp:", 5) == 0 && memcmp(walk->at + from + 5, names[i], len - 10) == 0 &&
            memcmp(walk->at + from + len - 5, ":list", 5) == 0)
            return 1;
    return 0;
}

/* The fields of a body that is not broken, by their row. */
static void fields(Walk *walk, unsigned *said)
{
    uint64_t code, count;
    if (is_symbolic(walk))
        find(walk, SYMBOLIC_DESCRIPTOR);
    else if (!composite(walk, &code, &count) || code < OPEN || code > CLOSE)
        find(walk, NO_PERFORMATIVE);
    if (walk->findings != 0)
        return;
    *said = (unsigned)code;
    if (count > most_fields(*said))
        find(walk, TOO_MANY_FIELDS);
    for (unsigned i = 0; i < most_fields(*said); i++) {
        char letter = rows[code - OPEN][i];
        if (i < count)
            field(walk, letter);
        else if (is_mandatory(letter))
            find(walk, FIELD_TYPE);
    }
}

Stated state_body(const uint8_t *at, size_t len)
{
    Walk walk = walk_on(at, len), again = walk_on(at, len);
    unsigned code = 0;
    run(&walk, 1, -1, 0);
    if (!broken(&walk))
        fields(&again, &code);
    return (Stated){.findings = walk.findings | again.findings, .code = code, .end = walk.pos};
}

/* ---- Damage */

void damage(Body *body, Chance *chance)
{
    Walk walk = walk_on(body->at, body->len);
    run(&walk, 1, 0, 0);
    size_t place = below(chance, (uint32_t)body->len), few = 1 + below(chance, 3);
    if (walk.marked > 0 && below(chance, 4) > 0)
        place = walk.marks[below(chance, (uint32_t)walk.marked)];
    uint8_t *byte = &body->at[place], constructor = codes[below(chance, CODES)].code;
    switch (below(chance, 8)) {
    case 0: body->len = place == 0 ? 1 : place; return;
    case 1:
        if (place + few < body->len) {
            memmove(byte, byte + few, body->len - place - few);
            body->len -= few;
        }
        return;
    case 2:
        add_byte(body, 0);
        memmove(byte + 1, byte, body->len - place - 1);
        *byte = constructor;
        return;
    case 3: *byte += 1; return;
    case 4: *byte -= 1; return;
    case 5: *byte = (uint8_t)below(chance, 256); return;
    case 6: *byte = (uint8_t)below(chance, 4); return;
    default: *byte = constructor; return;
    }
}
