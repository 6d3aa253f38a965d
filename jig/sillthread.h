/* SPDX-License-Identifier: Apache-2.0 */

/* Sillthread for C: a reader and a writer of Erlang terms that keep nothing and take no memory of their own. The file NOTICE travels with the library.
 *
 * The library is target/staticlib/libjig.a, made by `jig/library`, for x86-64; `./firmware` makes it for Cortex-M3, Cortex-M4 and 32-bit RISC-V, with the
 * older kit 5b. It calls nothing but memcpy and memset, on Arm by the names __aeabi_memcpy, __aeabi_memcpy8, __aeabi_memclr and __aeabi_memclr8. Each
 * function is proved to answer what its call beneath answers (crates/jig_c over crates/jig), for every input; none can fail to return, and none looks at
 * or writes to anything but what it is lent.
 *
 * What the caller owes, and no proof can see:
 * - The same interface. Compare sill_interface() with SILL_INTERFACE before any other call: this page and the library may be of different days.
 * - Pointers. None is null, with a length of 0 neither. Each leads to as many elements as its length or its array says, aligned as C aligns them:
 *   uint64_t at 8 bytes, uint32_t at 4.
 * - Lengths and places are 64 bits wide on every machine. Any place is taken; a length is that of memory that is really lent.
 * - What is lent to be written overlaps nothing else that is lent to the same call. What is only read may overlap.
 * - Nothing that is lent changes while the call runs, by a thread, an interrupt or a DMA: sill_read, sill_message, the lookups and sill_write go over what
 *   they are lent more than once, and judge it once.
 * - Stack. At limit 64 the deepest call needs 18,648 bytes on x86-64; `./memory` says what the library at hand needs, each call at limits 1, 8 and 64. On
 *   Cortex-M3 it needed 28,316, with 8 for our own __aeabi_memcpy, as the older kit 5b compiled it, whose figures docs/MEMORY.md has; more is to be expected.
 * A call keeps nothing between two calls and has no data of its own: calls may interrupt each other and run side by side, each over what it is lent. No
 * argument is a float: which registers floats are passed in is the same to us, but linkers want it alike, and there is a library for each (cortex-m4f).
 *
 * Answers are told in lent numbers. The first is the number of the table below: 0 is Done, any other a refusal. All of `told` is written by every call,
 * refused or not. Places are offsets from the input's first byte. */
#ifndef SILLTHREAD_H
#define SILLTHREAD_H

#include <limits.h>
#include <stddef.h>
#include <stdint.h>

#if CHAR_BIT != 8
#error "a byte has 8 bits"
#endif
/* a compiler that doesn't tell is believed to compile for such a machine */
#if defined __BYTE_ORDER__ && __BYTE_ORDER__ != __ORDER_LITTLE_ENDIAN__
#error "the library is for machines that store the least byte first"
#endif

#ifdef __cplusplus
extern "C" {
#endif

/* The interface that this page describes, and the one that the library has. The number rises when a call, a run's length, the order of words or what
 * a number means changes. */
#define SILL_INTERFACE 1
uint64_t sill_interface(void);

/* The numbers the jig shows, and what `extra` holds where it isn't 0. */
enum sill_number {
    SILL_DONE = 0,
    SILL_EOF = 1,      /* bytes missing */
    SILL_TAG = 2,      /* wrong first byte, tag or child */
    SILL_TEXT = 3,     /* not UTF-8 */
    SILL_LITERAL = 4,  /* the text of tag 99 is no number */
    SILL_BITS = 5,     /* a bit string's bits byte */
    SILL_SIZE = 6,     /* over a cap */
    SILL_TRAILING = 7, /* bytes left behind the term; extra: their count */
    SILL_DEEP = 8,     /* nested over the limit */
    SILL_ROOM = 9,     /* too few cells lent, or bytes to write to; extra: how many cells or bytes are needed */
    SILL_LONG = 10,    /* the input has over SILL_LONGEST bytes */
    SILL_NAME = 11,    /* a name of over 255 bytes */
    SILL_VERSION = 12, /* a fragment's first byte; extra: that byte */
    SILL_KIND = 13,    /* not a header, fragment or map; extra: the tag */
    SILL_LIMIT = 14,   /* a nesting limit of 0 or over SILL_NESTING */
    SILL_STORE = 15,   /* a name store of other than SILL_STORE_BYTES */
    SILL_ABSENT = 16,  /* no such key or name */
    SILL_ITEMS = 17,   /* a row of items that can't be written */
    SILL_SEGMENT = 18, /* a message's header has a segment number that isn't 0 */
    SILL_NUMBERS = 19
};

/* A number by its name, for who reads it. */
static inline const char *sill_number_name(uint64_t number) {
    static const char *const names[SILL_NUMBERS] = {"Done", "Eof",  "Tag",  "Text",    "Literal", "Bits",  "Size",  "Trailing", "Deep",   "Room",
                                                    "Long", "Name", "Version", "Kind", "Limit",   "Store", "Absent", "Items",   "Segment"};
    return number < SILL_NUMBERS ? names[number] : "no number of this interface";
}

/* What a segment of a path is of. Its number is the index, for a map's value the place of the key, else 0. */
enum sill_segment {
    SILL_IN_TUPLE = 0,
    SILL_IN_LIST = 1,
    SILL_IN_TAIL = 2,
    SILL_IN_KEY = 3,
    SILL_IN_VALUE = 4,
    SILL_IN_FREE = 5,
    SILL_SEGMENT_KINDS = 6
};

/* Such a kind by its name, as it stands in a printed path. */
static inline const char *sill_segment_name(uint64_t kind) {
    static const char *const names[SILL_SEGMENT_KINDS] = {"tuple", "list", "tail", "key", "value", "free"};
    return kind < SILL_SEGMENT_KINDS ? names[kind] : "no segment of this interface";
}

/* The words of a cell: its term's tag, start and end (one past), its parent's cell, and the cells of its subtree, itself among them. The
 * root is cell 0, and its parent 0. The first child of a cell is the cell behind it, the next is as many cells on as that one's subtree. */
enum sill_cell {
    SILL_CELL_TAG = 0,
    SILL_CELL_START = 1,
    SILL_CELL_END = 2,
    SILL_CELL_PARENT = 3,
    SILL_CELL_SIZE = 4,
    SILL_CELL = 5 /* words to a cell */
};

/* The words that a call tells: for each kind of answer the place of each word, and how many they are.
 *
 * Of a read, of a record, a term or a message, and of a lookup: */
enum sill_read_told {
    SILL_READ_NUMBER = 0,
    SILL_READ_END = 1,      /* where the term ends; 0 when refused */
    SILL_READ_OFFSET = 2,   /* of a refusal; of a lookup that is Done, the value's place */
    SILL_READ_EXTRA = 3,
    SILL_READ_TERMS = 4,    /* terms begun */
    SILL_READ_DEEPEST = 5,  /* deepest nesting begun */
    SILL_READ_SEGMENTS = 6, /* in the path */
    SILL_READ_TOLD = 7
};

/* Of a head: from SILL_HEAD_FIELD on five fields; those that the tag hasn't, and all five of a refused head, are 0. A refused head has its tag too,
 * but 0 where no byte stands and where the input is too long. */
enum sill_head_told {
    SILL_HEAD_NUMBER = 0,
    SILL_HEAD_TAG = 1,
    SILL_HEAD_OFFSET = 2, /* of a refusal, else 0 */
    SILL_HEAD_EXTRA = 3,
    SILL_HEAD_FIELD = 4,
    SILL_HEAD_TOLD = 9
};

/* Of a part: there is no number. */
enum sill_part_told {
    SILL_PART_PLACE = 0,
    SILL_PART_LENGTH = 1,
    SILL_PART_TOLD = 2
};

/* Of a name in a store: both 0 when refused. */
enum sill_name_told {
    SILL_NAME_NUMBER = 0,
    SILL_NAME_PLACE = 1,
    SILL_NAME_LENGTH = 2,
    SILL_NAME_TOLD = 3
};

/* Of an atom header: */
enum sill_header_told {
    SILL_HEADER_NUMBER = 0,
    SILL_HEADER_REST = 1, /* where the rest begins; 0 when refused */
    SILL_HEADER_EXTRA = 2,
    SILL_HEADER_TOLD = 3
};

/* Of a fragment: all 0 but number and extra when refused. Only a first fragment has a count. */
enum sill_fragment_told {
    SILL_FRAGMENT_NUMBER = 0,
    SILL_FRAGMENT_REST = 1, /* where the rest begins */
    SILL_FRAGMENT_EXTRA = 2,
    SILL_FRAGMENT_SEQUENCE = 3,
    SILL_FRAGMENT_FRAGMENT = 4,
    SILL_FRAGMENT_COUNT = 5, /* of names */
    SILL_FIRST_TOLD = 6,     /* words of a first fragment, and of a later one */
    SILL_NEXT_TOLD = 5
};

/* Of a write: */
enum sill_write_told {
    SILL_WRITE_NUMBER = 0,
    SILL_WRITE_LENGTH = 1, /* bytes written; 0 when refused */
    SILL_WRITE_EXTRA = 2,
    SILL_WRITE_TOLD = 3
};

/* What an item of a row is, and what its fields x and y are; a field that isn't named is ignored. Behind a tuple, a list and a map stand its
 * children, each with its own behind it. An item that was never filled has kind 0, which is none. */
enum sill_kind {
    SILL_INTEGER = 1, /* x: the integer, as two's complement */
    SILL_DOUBLE = 2,  /* x: the double's bits */
    SILL_ATOM = 3,    /* x, y: place and length of the name in the texts */
    SILL_BINARY = 4,  /* x, y: place and length of the bytes in the texts */
    SILL_TUPLE = 5,   /* x: how many children */
    SILL_LIST = 6,    /* x: how many elements; the tail that ends a list is no item */
    SILL_MAP = 7,     /* x: how many pairs of a key and its value */
    SILL_NIL = 8
};

struct sill_item {
    uint64_t kind, x, y;
};

/* Sizes and limits. */
enum sill_size {
    SILL_NESTING = 64,              /* the largest nesting limit */
    SILL_LONGEST = 16777216,        /* bytes of an input, and of what is written */
    SILL_ITEM = 3,                  /* words to an item */
    SILL_PATH = 2 * SILL_NESTING,   /* words of a path: two for each segment */
    SILL_FILLED = 4,                /* words that say which slots of a store are filled */
    SILL_STORE_BYTES = 65536,       /* 256 slots of 256 bytes */
    SILL_POSITIONS = 256            /* bytes that keep a header's references: how many, and the slot of each of up to 255 */
};

/* The names that these words had when this page first landed. They stay, so that a program written for that page compiles and means the same; jig/example.c
 * and jig/long.c are such programs. SILL_DEEPEST is the largest nesting limit, and not the word SILL_READ_DEEPEST. */
enum sill_told {
    SILL_NUMBER = SILL_READ_NUMBER,
    SILL_END = SILL_READ_END,
    SILL_OFFSET = SILL_READ_OFFSET,
    SILL_EXTRA = SILL_READ_EXTRA,
    SILL_BEGUN = SILL_READ_TERMS,
    SILL_DEEPENED = SILL_READ_DEEPEST,
    SILL_SEGMENTS = SILL_READ_SEGMENTS,
    SILL_TOLD = SILL_READ_TOLD
};
enum sill_first_names {
    SILL_FIELD = SILL_HEAD_FIELD,
    SILL_GET_TOLD = SILL_NAME_TOLD,
    SILL_DEEPEST = SILL_NESTING
};

/* What the library takes for granted of C's types, or this page doesn't compile. */
struct sill_aligned {
    char byte;
    uint64_t word;
};
typedef char sill_word_is_aligned_at_8_bytes[sizeof(struct sill_aligned) == 16 ? 1 : -1];
typedef char sill_item_is_three_words[sizeof(struct sill_item) == 8 * SILL_ITEM ? 1 : -1];
typedef char sill_pointer_has_4_or_8_bytes[sizeof(void *) == 4 || sizeof(void *) == 8 ? 1 : -1];

/* Reads a record: byte 131 and one term to the input's end, nested at most `limit` deep; writes its tape, a cell for each term, into the
 * `words` words of `tape`, which have room for words / SILL_CELL cells. Refused, in this order: Limit, Long, then left to right Eof, Tag, Text,
 * Literal, Bits, Size, Deep, then Trailing, then Room. Only a Done read writes to the tape, and words behind its last cell stay. A refusal's
 * offset is the start of the last term reached; of Trailing it is where the term ends, of Limit, Long and Room 0. `path`: for each segment its
 * kind and its number, the outermost first; words behind the last segment stay. */
void sill_read(const uint8_t *b, uint64_t len, uint64_t limit, uint32_t *tape, uint64_t words, uint64_t told[SILL_READ_TOLD],
               uint64_t path[SILL_PATH]);

/* Reads the term at a place, any place, with no tape; bytes behind it don't matter. Refused as sill_read is, but for Trailing and Room. */
void sill_term(const uint8_t *b, uint64_t len, uint64_t at, uint64_t limit, uint64_t told[SILL_READ_TOLD], uint64_t path[SILL_PATH]);

/* Reads the map at a place and looks an atom up in it by its name, the n bytes of `name`. Done tells the place of the value of the last
 * equal key as its offset. Refused as sill_term is, then Kind where the term is no map, then Absent, both at the map's place. */
void sill_find_name(const uint8_t *b, uint64_t len, uint64_t at, uint64_t limit, const uint8_t *name, uint64_t n, uint64_t told[SILL_READ_TOLD],
                    uint64_t path[SILL_PATH]);

/* The same of an integer. Only keys of tags 97 and 98 are compared. */
void sill_find_number(const uint8_t *b, uint64_t len, uint64_t at, uint64_t limit, int64_t number, uint64_t told[SILL_READ_TOLD],
                      uint64_t path[SILL_PATH]);

/* What stands at a place, any place, without its children. Fields by the tag, the rest of the five 0:
 *   97 98        the integer, as two's complement
 *   70           the double's bits
 *   99           place and length of the number text, trailing zero bytes left out
 *   100 118 119  place and length of the atom's name
 *   104 105      arity
 *   106 113      none
 *   107 109      place and length of the bytes
 *   108          how many elements
 *   116          how many pairs
 *   77           place and length of the bytes, bits byte
 *   110 111      place and number of the digit bytes, the sign byte as it stands, 1 if negative, else 0
 *   88           place and length of the node's name, id, serial, creation
 *   120          place and length of the node's name, id, creation
 *   90           count of ids, place and length of the node's name, creation, place of the ids
 *   112          size, arity, place of the 16 bytes, index, count of free terms
 * Refused: Long, then as reading refuses the row; its fields are 0 then. */
void sill_head(const uint8_t *b, uint64_t len, uint64_t at, uint64_t told[SILL_HEAD_TOLD]);

/* Place and length of the bytes of the atom's name (tags 100, 118, 119) or of the binary (109) at a place; 0 and 0 for any other head, a
 * refused one too. There is no number: sill_head tells it. */
void sill_part(const uint8_t *b, uint64_t len, uint64_t at, uint64_t told[SILL_PART_TOLD]);

/* A cache of names is four words, which say which of 256 slots are filled, and a store of SILL_STORE_BYTES. This empties it: it sets the
 * words to 0, and the store may hold anything. */
void sill_empty(uint64_t filled[SILL_FILLED]);

/* How many names are in it. */
uint64_t sill_count(const uint64_t filled[SILL_FILLED]);

/* The name in a slot. Told: number, its place in the store, its length, both 0 when refused. Refused: Store, Absent. */
void sill_get(const uint64_t filled[SILL_FILLED], const uint8_t *store, uint64_t store_len, uint8_t slot, uint64_t told[SILL_NAME_TOLD]);

/* Reads an atom header: 131, 68, a count, flags and references. A name's length has two bytes where the half byte after the last reference has
 * the bit worth 1, else one: that is the bit worth 1 of the last flag byte for an even count, the bit worth 16 for an odd one. Segment numbers are
 * ignored. Told: number, where the rest begins (0 when refused), extra. Each new name goes into its slot, and the slot's bit into `filled`, when
 * it is complete; a fault behind it keeps it. Refused: Store, Long (neither stores anything), then Eof, Tag, Kind, and for a name Eof, Text, Name. */
void sill_header(const uint8_t *b, uint64_t len, uint64_t filled[SILL_FILLED], uint8_t *store, uint64_t store_len, uint64_t told[SILL_HEADER_TOLD]);

/* Reads a message: an atom header and one term behind it to the input's end, nested at most `limit` deep; writes the term's tape as sill_read does.
 * In this term, and for no other call, tag 82 and one byte is an atom too, wherever an atom may stand. The byte is no slot: it is a position among
 * the header's references, old ones included, from 0 on, and means the name that the reference's slot holds when the whole header is read. The cell
 * of such an atom has tag 82 and two bytes, and sill_atom tells its name.
 *
 * A drawer's message must have segment number 0 in every reference, old ones too: its names are those of 256 slots. Each new name is stored as by
 * sill_header, and stays stored whatever is refused behind it: another name, the term, bytes left, too few cells. `run` keeps the references of the
 * last header for sill_position and sill_atom: byte 0 is how many they are, byte 1 + k the slot of reference k. Set all of it to 0 before a drawer's
 * first message, and lend `filled`, `store` and `run` of one drawer together. A header that is read to its end is noted in `run`, whatever becomes of
 * its term; bytes behind the last slot stay. A refused header leaves `run` as it was.
 *
 * Told and `path` as by sill_read; offsets and cells are places in the whole input, so that the root starts where the header ends. Refused, in this
 * order: Limit, Store, Long; of the header Eof, Tag, Kind, Eof up to its last flag, Segment, and for its references Eof, Text, Name, all with offset
 * and counts 0 and no path; then as sill_read refuses the term, with Eof where nothing stands behind the header and Tag at the start of an atom whose
 * position the header doesn't have or whose slot is empty; then Trailing, then Room. Limit, Store, Long and Segment store nothing. Only a Done read
 * writes to the tape, and words behind its last cell stay. */
void sill_message(const uint8_t *b, uint64_t len, uint64_t limit, uint64_t filled[SILL_FILLED], uint8_t *store, uint64_t store_len,
                  uint8_t run[SILL_POSITIONS], uint32_t *tape, uint64_t words, uint64_t told[SILL_READ_TOLD], uint64_t path[SILL_PATH]);

/* The name at a position of the last header that sill_message has read to its end; told as by sill_get. It is what the slot holds now: ask before
 * the next message, which may bring another name for it. Refused: Store, then Absent where the header has no such position or the slot is empty. */
void sill_position(const uint64_t filled[SILL_FILLED], const uint8_t *store, uint64_t store_len, const uint8_t run[SILL_POSITIONS], uint8_t position,
                   uint64_t told[SILL_NAME_TOLD]);

/* The same for the atom of tag 82 at a place of that message, any place: the start of a cell of tag 82. Refused: Store, Long, then Eof, Tag where
 * another tag stands there, Eof where no byte stands behind it, then Absent. */
void sill_atom(const uint8_t *b, uint64_t len, uint64_t at, const uint64_t filled[SILL_FILLED], const uint8_t *store, uint64_t store_len,
               const uint8_t run[SILL_POSITIONS], uint64_t told[SILL_NAME_TOLD]);

/* Reads the header of a message's first fragment: 131, 69. Told: number, where the rest begins, extra, sequence, fragment, count of names;
 * all 0 but number and extra when refused. Refused: Long, Eof, Version, Kind. */
void sill_first(const uint8_t *b, uint64_t len, uint64_t told[SILL_FIRST_TOLD]);

/* The same of a later fragment: 131, 70. There is no count. */
void sill_next(const uint8_t *b, uint64_t len, uint64_t told[SILL_NEXT_TOLD]);

/* How many leading bytes form whole good UTF-8 characters: all `len` where the text is good. Any length is taken. */
uint64_t sill_utf8(const uint8_t *b, uint64_t len);

/* Writes a row of items as one term behind byte 131 into the `room` bytes of `out`. The row of n items is `(const uint64_t *)items` with
 * SILL_ITEM * n words; names and binaries are parts of `texts`. An integer takes the first tag that holds it of 97, 98 and 110, with the fewest
 * digits; an atom 119 up to 255 bytes, else 118; a tuple 104 up to 255 children, else 105; a list, empty too, 108 and a tail Nil, which counts
 * for the nesting. Told: number, how many bytes were written (0 when refused), extra. Refused, whatever the room: Items, where the row isn't one
 * term, has a kind that is none or words left over, a place lies outside the texts, a name isn't UTF-8 or has over 65,535 bytes, a tuple or a
 * list has over 10,000,000 children, a map over 1,000,000 pairs, the term over SILL_LONGEST bytes with byte 131 or a nesting over SILL_NESTING.
 * Then Room. Only a Done write writes to `out`, and bytes behind the term stay. */
void sill_write(const uint64_t *row, uint64_t words, const uint8_t *texts, uint64_t texts_len, uint8_t *out, uint64_t room,
                uint64_t told[SILL_WRITE_TOLD]);

#ifdef __cplusplus
}
#endif

#endif
