/*
 * What the comparison with Qpid Proton's codec stands on (proton_bodies.c): values and performatives made by chance, written and damaged, and a statement, in
 * our own words, of which bytes Part 1 and document 01 take for a value or a body, and which of them Proton takes.
 */
#ifndef PROTON_H
#define PROTON_H

#include <proton/codec.h>
#include <stddef.h>
#include <stdint.h>

/* ---- Chance: the same seed gives the same run. */

typedef struct {
    uint64_t state;
} Chance;

/* A number under n. */
uint32_t below(Chance *chance, uint32_t n);

/* ---- The channel-max that the engines of this comparison have. Ushorts of the performatives lie mostly about it. */

enum { CHANNEL_MAX = 299 };

/* ---- Bytes of a value or a body. `full` is 1 where more was to be written than there is room for. */

enum { LONGEST = 16000 };

typedef struct {
    uint8_t at[LONGEST];
    size_t len;
    int full;
} Body;

void add_byte(Body *body, uint8_t byte);
void add_bytes(Body *body, const uint8_t *at, size_t len);
void add_number(Body *body, uint64_t number, size_t width);

/* ---- Trees. Proton's data is the tree: it is built by pn_data_put, or decoded. */

/* Puts a value of at most so many levels. */
void put_value(pn_data_t *tree, Chance *chance, int levels);

/* Puts a value that has exactly so many levels at its deepest place. */
void put_chain(pn_data_t *tree, Chance *chance, int levels);

/* Descriptors: those of the performatives, and an error's. */
enum { OPEN = 16, BEGIN = 17, ATTACH = 18, TRANSFER = 20, DETACH = 22, CLOSE = 24, ERROR = 29 };

/* Puts a composite type: 00, the code, and a list that is entered then. */
void put_composite(pn_data_t *tree, unsigned code);

/* Puts a performative. Bit i of `present` says that field i is not null; fields past the last present one are left out, or null where `with_nulls` is 1. */
void put_performative(pn_data_t *tree, Chance *chance, unsigned code, unsigned present, int with_nulls);

/* How many fields a performative has. */
unsigned most_fields(unsigned code);

/* Goes to field i of the performative in a tree. Returns its type; PN_NULL where it is missing. */
pn_type_t to_field(pn_data_t *tree, unsigned i);

/* Writes the value in a tree, by any constructor that it can have. Without chance each type has one constructor, so that equal trees give equal bytes. */
void write_value(Body *body, pn_data_t *tree, Chance *chance);

/*
 * Writes what the performative in a tree says, so that bodies give equal bytes if document 01 lets one be written for the other: trailing nulls of it and of an
 * error are dropped, and Begin's handle-max is there.
 */
void write_meaning(Body *body, pn_data_t *tree);

/* Lays a value into a field without a checked type, as the last of a performative's list. */
void wrap(Body *body, const Body *value, Chance *chance);

/* Alters a byte, cuts, adds or removes bytes: mostly constructors, sizes and counts. */
void damage(Body *body, Chance *chance);

/* ---- The statement. What is found on the way through some bytes, where the elements of a list say where it ends, as Proton has it, and not its size. */

typedef enum {
    BROKEN,              /* bytes missing, an unknown code, a size without room for its count: no one reads on */
    UNMET,               /* a value that does not end where it should */
    BOOLEAN_OCTET,       /* the port refuses from here on */
    SIZE_TOO_SMALL,
    SIZE_TOO_LARGE,
    ODD_MAP,
    TOO_DEEP,
    SYMBOLIC_DESCRIPTOR,
    NO_PERFORMATIVE,
    TOO_MANY_FIELDS,
    FIELD_TYPE,
    ERROR_SHAPE,
    COMPOUND_DESCRIPTOR, /* Proton refuses from here on */
    TOO_MANY_NODES,
    DESCRIBED_TWICE,     /* both read it; Proton's tree is not that of the bytes */
    FINDINGS
} Finding;

#define BIT(finding) (1u << (finding))
#define PORT_REFUSES (BIT(COMPOUND_DESCRIPTOR) - 1)
#define PROTON_REFUSES (BIT(BROKEN) | BIT(UNMET) | BIT(COMPOUND_DESCRIPTOR) | BIT(TOO_MANY_NODES))

typedef struct {
    unsigned findings; /* a bit for each */
    unsigned code;     /* of a body: its performative */
    size_t end;        /* where the value or the performative ends */
} Stated;

/* Of the bytes of a value that stands in a field, and is all of them; and of a body. */
Stated state_value(const uint8_t *at, size_t len);
Stated state_body(const uint8_t *at, size_t len);

#endif
