/* The longest of everything, and one more.
 *
 * Number 10 for every call that takes an input: each is made with an input of 16,777,216 bytes, the longest, and of one byte more, which is
 * refused as Long and leaves everything else as it was. The inputs are made of good bytes, so that nothing but the length is at fault.
 *
 * Number 15 for the calls that take a store: each is made with stores of other lengths, which are refused as Store before anything else but a
 * limit is looked at and leave the words and every byte as they were, and with one of 65,536 bytes, which does its work.
 *
 * What a message leaves, refused or not: names, the run that keeps its header, and the tape.
 *
 * Numbers 17 and 9 for the writer: its caps, the integers where the tag changes, names, nesting, places and room, each from both sides. A
 * refused write must leave every byte that it is lent, a Done one those behind the term, and that is read back whole.
 *
 * Prints a line for each call and exits with 1 where an answer isn't as expected. */
#include <stdio.h>
#include <string.h>

#include "sillthread.h"

enum { WORDS = 8 * SILL_CELL, PAINT = 0xa5 };

static uint8_t bytes[SILL_LONGEST + 1];
static uint8_t store[2 * SILL_STORE_BYTES], was_store[2 * SILL_STORE_BYTES];
static uint8_t run[SILL_POSITIONS], was_run[SILL_POSITIONS];
static uint32_t tape[WORDS], was_tape[WORDS];
static uint64_t told[SILL_HEAD_TOLD], path[SILL_PATH], was_path[SILL_PATH], filled[SILL_FILLED], was_filled[SILL_FILLED];
static int failed;

/* A binary that ends with the input of n bytes, from `at` on. */
static void binary(size_t at, size_t n) {
    size_t length = n - at - 5;
    bytes[at] = 109;
    for (int i = 0; i < 4; i++) bytes[at + 1 + i] = (uint8_t)(length >> (24 - 8 * i));
}

static void paint(void) {
    memset(told, PAINT, sizeof told);
    memset(path, PAINT, sizeof path);
    memset(tape, PAINT, sizeof tape);
    memset(store, PAINT, sizeof store);
    memset(run, PAINT, sizeof run);
    sill_empty(filled);
    memcpy(was_path, path, sizeof path);
    memcpy(was_tape, tape, sizeof tape);
    memcpy(was_store, store, sizeof store);
    memcpy(was_run, run, sizeof run);
    memcpy(was_filled, filled, sizeof filled);
}

/* Of the last call: the words told, behind which none was written, and whether all else that was lent is as it was. */
static void expect(const char *call, size_t n, const uint64_t *want, int words, int kept) {
    uint64_t painted;
    int bad = 0;
    memset(&painted, PAINT, sizeof painted);
    for (int i = 0; i < words; i++) bad |= told[i] != want[i];
    for (int i = words; i < SILL_HEAD_TOLD; i++) bad |= told[i] != painted;
    if (kept)
        bad |= memcmp(path, was_path, sizeof path) || memcmp(tape, was_tape, sizeof tape) || memcmp(store, was_store, sizeof store) ||
               memcmp(run, was_run, sizeof run) || memcmp(filled, was_filled, sizeof filled);
    printf("%-24s %zu bytes: tells %llu first%s\n", call, n, (unsigned long long)told[0], bad ? " AND NOT AS EXPECTED" : "");
    failed |= bad;
}

/* Paints, and lends a cache that has "a" in slot 5 and nothing else, and the run of a header that refers to it once. Behind that the run leads there
 * too, so that it is found where it must not be. */
static void lend(void) {
    static const uint8_t header[] = {131, 68, 1, 8, 5, 1, 'a'};
    paint();
    sill_header(header, sizeof header, filled, store, SILL_STORE_BYTES, told);
    memset(run, 5, sizeof run);
    run[0] = 1;
    memset(told, PAINT, sizeof told);
    memcpy(was_store, store, sizeof store);
    memcpy(was_run, run, sizeof run);
    memcpy(was_filled, filled, sizeof filled);
}

/* A message of 15 bytes: its header brings "b" into slot 6 and refers to slot 5, and its term is the tuple of both by their positions, "a" first. */
#define HEADER 131, 68, 2, 8, 0, 6, 1, 'b', 5
#define MESSAGE HEADER, 104, 2, 82, 1, 82, 0

/* The calls that take a store, each with so many bytes of it: a filled slot and an empty one, headers that are good, cut and too long, positions of
 * the header that was lent, and messages. */
static void stored(size_t n) {
    const int fits = n == SILL_STORE_BYTES;
#define STORED(...) (fits ? (const uint64_t[SILL_HEAD_TOLD]){__VA_ARGS__} : (const uint64_t[SILL_HEAD_TOLD]){SILL_STORE})
    memcpy(bytes, (const uint8_t[]){131, 68, 1, 8, 6, 1, 'b'}, 7);
    lend();
    sill_get(filled, store, n, 5, told);
    expect("sill_get, filled", n, STORED(SILL_DONE, 5 * 256 + 1, 1), SILL_GET_TOLD, 1);
    lend();
    sill_get(filled, store, n, 6, told);
    expect("sill_get, empty", n, STORED(SILL_ABSENT), SILL_GET_TOLD, 1);
    lend();
    sill_header(bytes, 7, filled, store, n, told);
    expect("sill_header", n, STORED(SILL_DONE, 7), SILL_HEADER_TOLD, !fits);
    if (fits) {
        sill_get(filled, store, n, 6, told);
        failed |= told[0] != SILL_DONE || told[2] != 1 || store[told[1]] != 'b' || sill_count(filled) != 2;
        failed |= memcmp(store + n, was_store + n, sizeof store - n) != 0;
    }
    lend();
    sill_header(bytes, 1, filled, store, n, told);
    expect("sill_header, cut", n, STORED(SILL_EOF), SILL_HEADER_TOLD, 1);
    lend();
    sill_header(bytes, SILL_LONGEST + 1, filled, store, n, told);
    expect("sill_header, long", n, STORED(SILL_LONG), SILL_HEADER_TOLD, 1);

    lend();
    sill_position(filled, store, n, run, 0, told);
    expect("sill_position", n, STORED(SILL_DONE, 5 * 256 + 1, 1), SILL_GET_TOLD, 1);
    lend();
    sill_position(filled, store, n, run, 1, told);
    expect("sill_position, past", n, STORED(SILL_ABSENT), SILL_GET_TOLD, 1);
    lend();
    run[1] = was_run[1] = 6;
    sill_position(filled, store, n, run, 0, told);
    expect("sill_position, empty", n, STORED(SILL_ABSENT), SILL_GET_TOLD, 1);

    memcpy(bytes, (const uint8_t[]){MESSAGE}, 15);
    lend();
    sill_atom(bytes, 15, 13, filled, store, n, run, told);
    expect("sill_atom", n, STORED(SILL_DONE, 5 * 256 + 1, 1), SILL_GET_TOLD, 1);
    lend();
    sill_atom(bytes, 15, 11, filled, store, n, run, told);
    expect("sill_atom, past", n, STORED(SILL_ABSENT), SILL_GET_TOLD, 1);
    lend();
    sill_atom(bytes, 15, 9, filled, store, n, run, told);
    expect("sill_atom, a tuple", n, STORED(SILL_TAG), SILL_GET_TOLD, 1);
    lend();
    sill_atom(bytes, 14, 13, filled, store, n, run, told);
    expect("sill_atom, cut", n, STORED(SILL_EOF), SILL_GET_TOLD, 1);
    lend();
    sill_atom(bytes, 15, SIZE_MAX, filled, store, n, run, told);
    expect("sill_atom, behind", n, STORED(SILL_EOF), SILL_GET_TOLD, 1);
    lend();
    sill_atom(bytes, SILL_LONGEST + 1, 13, filled, store, n, run, told);
    expect("sill_atom, long", n, STORED(SILL_LONG), SILL_GET_TOLD, 1);

    lend();
    sill_message(bytes, 15, SILL_DEEPEST, filled, store, n, run, tape, WORDS, told, path);
    expect("sill_message", n, STORED(SILL_DONE, 15, 0, 0, 3, 2, 0), SILL_TOLD, !fits);
    if (fits) {
        for (uint8_t k = 0; k < 2; k++) {
            sill_position(filled, store, n, run, k, told);
            failed |= told[0] != SILL_DONE || told[2] != 1 || store[told[1]] != (k ? 'a' : 'b');
            sill_atom(bytes, 15, tape[(2 - k) * SILL_CELL + SILL_CELL_START], filled, store, n, run, told);
            failed |= told[0] != SILL_DONE || told[2] != 1 || store[told[1]] != (k ? 'a' : 'b');
        }
        failed |= memcmp(store + n, was_store + n, sizeof store - n) != 0;
    }
    lend();
    sill_message(bytes, 1, SILL_DEEPEST, filled, store, n, run, tape, WORDS, told, path);
    expect("sill_message, cut", n, STORED(SILL_EOF), SILL_TOLD, 1);
    lend();
    sill_message(bytes, SILL_LONGEST + 1, SILL_DEEPEST, filled, store, n, run, tape, WORDS, told, path);
    expect("sill_message, long", n, STORED(SILL_LONG), SILL_TOLD, 1);
    lend();
    sill_message(bytes, SILL_LONGEST + 1, 0, filled, store, n, run, tape, WORDS, told, path);
    expect("sill_message, 0 deep", n, (const uint64_t[SILL_TOLD]){SILL_LIMIT}, SILL_TOLD, 1);
}

/* What a message leaves: nothing, its name, its header in the run too, its tape too. */
enum left { NOTHING, NAMED, NOTED, TAPED };

/* Reads the message in `bytes`, over what is lent: it must tell this, leave that, and have the path of a tuple's element where there is one. */
static void message(const char *what, size_t len, size_t limit, size_t words, enum left left, const uint64_t *want, uint64_t element) {
    char call[32];
    snprintf(call, sizeof call, "message, %s", what);
    sill_message(bytes, len, limit, filled, store, SILL_STORE_BYTES, run, tape, words, told, path);
    if (NAMED <= left) memcpy(was_store + 6 * 256, "\1b", 2), was_filled[0] |= 1 << 6;
    if (NOTED <= left) memcpy(was_run, (const uint8_t[]){2, 6, 5}, 3);
    if (TAPED <= left) memcpy(was_tape, (const uint32_t[]){104, 9, 15, 0, 3, 82, 11, 13, 0, 1, 82, 13, 15, 0, 1}, 3 * SILL_CELL * sizeof *tape);
    if (want[SILL_SEGMENTS]) was_path[0] = SILL_IN_TUPLE, was_path[1] = element;
    expect(call, len, want, SILL_TOLD, 1);
}

/* Messages that begin with these bytes and go on with 0, refused in each of the ways that a header has, and behind it. */
static const struct {
    const char *what;
    size_t len, limit, words;
    enum left left;
    uint64_t want[SILL_TOLD];
    uint8_t front[20];
} messages[] = {
    {"limit 65", 15, 65, WORDS, NOTHING, {SILL_LIMIT}, {MESSAGE}},
    {"no byte", 0, 64, WORDS, NOTHING, {SILL_EOF}, {0}},
    {"byte 130", 15, 64, WORDS, NOTHING, {SILL_TAG}, {130}},
    {"a record", 15, 64, WORDS, NOTHING, {SILL_KIND, 0, 0, 104}, {131, 104}},
    {"no count", 2, 64, WORDS, NOTHING, {SILL_EOF}, {MESSAGE}},
    {"a flag missing", 4, 64, WORDS, NOTHING, {SILL_EOF}, {MESSAGE}},
    {"it and a segment", 4, 64, WORDS, NOTHING, {SILL_EOF}, {131, 68, 2, 9}},
    {"segment, new", 15, 64, WORDS, NOTHING, {SILL_SEGMENT}, {131, 68, 2, 9, 0, 6, 1, 'b', 5}},
    {"segment, old", 15, 64, WORDS, NOTHING, {SILL_SEGMENT}, {131, 68, 2, 8 + 64, 0, 6, 1, 'b', 5}},
    {"segment, cut", 5, 64, WORDS, NOTHING, {SILL_SEGMENT}, {131, 68, 2, 8 + 16, 0}},
    {"a name missing", 7, 64, WORDS, NOTHING, {SILL_EOF}, {MESSAGE}},
    {"a slot missing", 8, 64, WORDS, NAMED, {SILL_EOF}, {MESSAGE}},
    {"not UTF-8", 12, 64, WORDS, NAMED, {SILL_TEXT}, {131, 68, 2, 136, 0, 6, 1, 'b', 5, 1, 128, 106}},
    {"a name of 256", 12 + 256, 64, WORDS, NAMED, {SILL_NAME}, {131, 68, 2, 136, 1, 6, 0, 1, 'b', 5, 1, 0}},
    {"no term", 9, 64, WORDS, NOTED, {SILL_EOF, 0, 9}, {MESSAGE}},
    {"a byte missing", 14, 64, WORDS, NOTED, {SILL_EOF, 0, 13, 0, 3, 2, 1}, {MESSAGE}},
    {"past the list", 15, 64, WORDS, NOTED, {SILL_TAG, 0, 13, 0, 3, 2, 1}, {HEADER, 104, 2, 82, 1, 82, 2}},
    {"a byte left", 16, 64, WORDS, NOTED, {SILL_TRAILING, 0, 15, 1, 3, 2}, {MESSAGE}},
    {"a word too few", 15, 64, 3 * SILL_CELL - 1, NOTED, {SILL_ROOM, 0, 0, 3, 3, 2}, {MESSAGE}},
    {"room", 15, 64, 3 * SILL_CELL, TAPED, {SILL_DONE, 15, 0, 0, 3, 2}, {MESSAGE}},
    {"other flag bits", 15, 64, WORDS, TAPED, {SILL_DONE, 15, 0, 0, 3, 2}, {131, 68, 2, 8, 0xfe, 6, 1, 'b', 5, 104, 2, 82, 1, 82, 0}},
    {"longest", SILL_LONGEST, 64, WORDS, NOTED, {SILL_TRAILING, 0, 15, SILL_LONGEST - 15, 3, 2}, {MESSAGE}},
    {"too long", SILL_LONGEST + 1, 64, WORDS, NOTHING, {SILL_LONG}, {MESSAGE}},
};

static void left_behind(void) {
    for (size_t i = 0; i < sizeof messages / sizeof *messages; i++) {
        memcpy(bytes, messages[i].front, sizeof messages[i].front);
        lend();
        message(messages[i].what, messages[i].len, messages[i].limit, messages[i].words, messages[i].left, messages[i].want, 1);
    }
    /* over no name */
    paint();
    message("an empty slot", 15, 64, WORDS, NOTED, (const uint64_t[SILL_TOLD]){SILL_TAG, 0, 11, 0, 2, 2, 1}, 0);
}

/* Writing. The texts are in `bytes`, all of it, but where they are said to be fewer. */
enum { ELEMENTS = 10000000, PAIRS = 1000000, NAME = 65535, BEHIND = 64, ALL = SILL_LONGEST + 1 };

static uint8_t out[ALL + 2 * BEHIND];
static struct sill_item items[ELEMENTS + 2];
static size_t row, texts = ALL;

static void item(uint64_t kind, uint64_t x, uint64_t y) { items[row++] = (struct sill_item){kind, x, y}; }

/* The row as it stands, into so many bytes: what it must tell, and that the bytes that it doesn't write are as they were. */
static void write(const char *what, size_t room, uint64_t number, uint64_t len, uint64_t extra) {
    const uint64_t want[SILL_WRITE_TOLD] = {number, len, extra};
    int bad = 0;
    memset(out, PAINT, room + BEHIND);
    memset(told, PAINT, sizeof told);
    sill_write((const uint64_t *)items, SILL_ITEM * row, bytes, texts, out, room, told);
    bad |= memcmp(told, want, sizeof want) != 0 || (told[SILL_WRITE_TOLD] & 255) != PAINT;
    for (size_t i = len; i < room + BEHIND; i++) bad |= out[i] != PAINT;
    printf("%-24s %s: tells %llu first%s\n", "sill_write", what, (unsigned long long)told[0], bad ? " AND NOT AS EXPECTED" : "");
    failed |= bad;
}

/* The row must be refused as Items, into all there is and into nothing. It is empty then. */
static void refused(const char *what) {
    write(what, ALL, SILL_ITEMS, 0, 0);
    write(what, 0, SILL_ITEMS, 0, 0);
    row = 0;
}

/* The row must be written: not into a byte too few, which tells how many it needs, but into as many, and into more. What is written begins with
 * these bytes, and is read back as so many terms to its end. The row is empty then. */
static void done(const char *what, size_t len, const uint8_t *front, size_t n, uint64_t terms) {
    write(what, len - 1, SILL_ROOM, 0, len);
    write(what, len, SILL_DONE, len, 0);
    write(what, len + BEHIND, SILL_DONE, len, 0);
    row = 0;
    sill_term(out, len, 1, SILL_DEEPEST, told, path);
    if (memcmp(out, front, n) != 0 || told[SILL_NUMBER] != SILL_DONE || told[SILL_END] != len || told[SILL_BEGUN] != terms) {
        printf("%-24s %s: NOT AS EXPECTED\n", "bytes", what);
        failed = 1;
    }
}

#define DONE(what, len, terms, ...) done(what, len, (const uint8_t[]){131, __VA_ARGS__}, sizeof(const uint8_t[]){131, __VA_ARGS__}, terms)

/* So many Nils, and what has them for its children before them. */
static void nils(enum sill_kind kind, uint64_t x, size_t n) {
    item(kind, x, 0);
    while (n--) item(SILL_NIL, 0, 0);
}

/* So many tuples of one, each in the one before. */
static void tuples(int n) {
    while (n--) item(SILL_TUPLE, 1, 0);
}

static void caps(void) {
    nils(SILL_LIST, ELEMENTS, ELEMENTS), DONE("10,000,000 elements", 6 + ELEMENTS + 1, ELEMENTS + 2, 108, 0, 152, 150, 128, 106, 106);
    nils(SILL_LIST, ELEMENTS + 1, ELEMENTS + 1), refused("10,000,001 elements");
    nils(SILL_TUPLE, ELEMENTS, ELEMENTS), DONE("10,000,000 children", 6 + ELEMENTS, ELEMENTS + 1, 105, 0, 152, 150, 128, 106, 106);
    nils(SILL_TUPLE, ELEMENTS + 1, ELEMENTS + 1), refused("10,000,001 children");
    nils(SILL_MAP, PAIRS, 2 * PAIRS), DONE("1,000,000 pairs", 6 + 2 * PAIRS, 2 * PAIRS + 1, 116, 0, 15, 66, 64, 106, 106);
    nils(SILL_MAP, PAIRS + 1, 2 * PAIRS + 2), refused("1,000,001 pairs");
    item(SILL_BINARY, 0, SILL_LONGEST - 6), DONE("16,777,216 bytes", SILL_LONGEST, 1, 109, 0, 255, 255, 250, 'a');
    item(SILL_BINARY, 0, SILL_LONGEST - 5), refused("16,777,217 bytes");
    /* the last byte is a tail's */
    item(SILL_LIST, 1, 0), item(SILL_BINARY, 0, SILL_LONGEST - 12), DONE("16,777,216 with a tail", SILL_LONGEST, 3, 108, 0, 0, 0, 1, 109);
    item(SILL_LIST, 1, 0), item(SILL_BINARY, 0, SILL_LONGEST - 11), refused("16,777,217 with a tail");
    nils(SILL_TUPLE, 255, 255), DONE("255 children", 3 + 255, 256, 104, 255, 106);
    nils(SILL_TUPLE, 256, 256), DONE("256 children", 6 + 256, 257, 105, 0, 0, 1, 0, 106);
}

static void integers(void) {
    item(SILL_INTEGER, 0, 0), DONE("0", 3, 1, 97, 0);
    item(SILL_INTEGER, 255, 0), DONE("255", 3, 1, 97, 255);
    item(SILL_INTEGER, 256, 0), DONE("256", 6, 1, 98, 0, 0, 1, 0);
    item(SILL_INTEGER, (uint64_t)-1, 0), DONE("-1", 6, 1, 98, 255, 255, 255, 255);
    item(SILL_INTEGER, INT32_MAX, 0), DONE("2^31 - 1", 6, 1, 98, 127, 255, 255, 255);
    item(SILL_INTEGER, INT32_MAX + 1ull, 0), DONE("2^31", 8, 1, 110, 4, 0, 0, 0, 0, 128);
    item(SILL_INTEGER, (uint64_t)INT32_MIN, 0), DONE("-2^31", 6, 1, 98, 128, 0, 0, 0);
    item(SILL_INTEGER, (uint64_t)(INT32_MIN - 1ll), 0), DONE("-2^31 - 1", 8, 1, 110, 4, 1, 1, 0, 0, 128);
    item(SILL_INTEGER, UINT32_MAX, 0), DONE("2^32 - 1", 8, 1, 110, 4, 0, 255, 255, 255, 255);
    item(SILL_INTEGER, UINT32_MAX + 1ull, 0), DONE("2^32", 9, 1, 110, 5, 0, 0, 0, 0, 0, 1);
    item(SILL_INTEGER, INT64_MAX, 0), DONE("2^63 - 1", 12, 1, 110, 8, 0, 255, 255, 255, 255, 255, 255, 255, 127);
    item(SILL_INTEGER, (uint64_t)INT64_MIN, 0), DONE("-2^63", 12, 1, 110, 8, 1, 0, 0, 0, 0, 0, 0, 0, 128);
}

/* Names of the letter a, and places at the texts' ends. */
static void places(void) {
    item(SILL_ATOM, 0, 0), DONE("a name of 0", 3, 1, 119, 0);
    item(SILL_ATOM, 0, 255), DONE("a name of 255", 3 + 255, 1, 119, 255, 'a');
    item(SILL_ATOM, 0, 256), DONE("a name of 256", 4 + 256, 1, 118, 1, 0, 'a');
    item(SILL_ATOM, 0, NAME), DONE("a name of 65,535", 4 + NAME, 1, 118, 255, 255, 'a');
    item(SILL_ATOM, 0, NAME + 1), refused("a name of 65,536");
    memcpy(bytes, "\xce\xbc", 2);
    item(SILL_ATOM, 0, 2), DONE("a name not ASCII", 5, 1, 119, 2, 0xce, 0xbc);
    item(SILL_ATOM, 0, 1), refused("a name not UTF-8");
    memset(bytes, 'a', 2);
    for (enum sill_kind kind = SILL_ATOM; kind <= SILL_BINARY; kind++) {
        const size_t front = kind == SILL_ATOM ? 3 : 6;
        texts = 20;
        item(kind, 4, 16), done("the last 16", front + 16, bytes, 0, 1);
        item(kind, 4, 17), refused("17 from there");
        item(kind, 20, 0), done("0 at the end", front, bytes, 0, 1);
        item(kind, 21, 0), refused("0 behind it");
        item(kind, 20, 1), refused("1 at the end");
        item(kind, UINT64_MAX, 2), refused("a place that wraps");
        item(kind, 2, UINT64_MAX), refused("a length that wraps");
        texts = 0;
        item(kind, 0, 0), done("0 of none", front, bytes, 0, 1);
        item(kind, 0, 1), refused("1 of none");
        texts = ALL;
    }
}

/* Nesting, the tail of a list being one deeper than the list; rows that aren't one term; kinds that are none; an item cut short. */
static void shapes(void) {
    tuples(63), item(SILL_NIL, 0, 0), DONE("64 levels", 1 + 2 * 63 + 1, 64, 104, 1, 104, 1);
    tuples(64), item(SILL_NIL, 0, 0), refused("65 levels");
    tuples(63), item(SILL_TUPLE, 0, 0), DONE("an empty tuple at 64", 1 + 2 * 63 + 2, 64, 104, 1);
    tuples(64), item(SILL_TUPLE, 0, 0), refused("an empty tuple at 65");
    tuples(63), item(SILL_MAP, 0, 0), DONE("an empty map at 64", 1 + 2 * 63 + 5, 64, 104, 1);
    tuples(62), item(SILL_LIST, 0, 0), DONE("an empty list at 63", 1 + 2 * 62 + 6, 64, 104, 1);
    tuples(63), item(SILL_LIST, 0, 0), refused("an empty list at 64");
    item(SILL_LIST, 0, 0), DONE("an empty list", 7, 2, 108, 0, 0, 0, 0, 106);
    refused("no item");
    tuples(1), refused("a child too few");
    tuples(1), item(SILL_NIL, 0, 0), item(SILL_NIL, 0, 0), refused("a term too many");
    item(SILL_MAP, 1, 0), item(SILL_NIL, 0, 0), refused("half a pair");
    item(0, 0, 0), refused("kind 0");
    item(SILL_NIL + 1, 0, 0), refused("kind 9");
    item(UINT64_MAX, 0, 0), refused("kind 2^64 - 1");
    item(SILL_LIST, UINT64_MAX, 0), refused("2^64 - 1 elements");
    item(SILL_MAP, UINT64_MAX / 4 + 1, 0), refused("2^62 pairs");
    item(SILL_NIL, 7, 7), DONE("fields that nobody asks for", 2, 1, 106);
    tuples(1), item(SILL_NIL, 0, 0);
    for (size_t words = SILL_ITEM + 1; words < 2 * SILL_ITEM; words++) {
        memset(out, PAINT, BEHIND);
        sill_write((const uint64_t *)items, words, bytes, texts, out, BEHIND, told);
        printf("%-24s %zu words: tells %llu first\n", "sill_write", words, (unsigned long long)told[0]);
        failed |= told[0] != SILL_ITEMS || out[0] != PAINT;
    }
}

int main(void) {
    static const size_t stores[] = {0, 1, SILL_STORE_BYTES - 1, SILL_STORE_BYTES, SILL_STORE_BYTES + 1, 2 * SILL_STORE_BYTES};
    for (size_t i = 0; i < sizeof stores / sizeof *stores; i++) stored(stores[i]);
    left_behind();
    for (size_t n = SILL_LONGEST; n <= SILL_LONGEST + 1; n++) {
        const int fits = n == SILL_LONGEST;
        const uint64_t number = fits ? SILL_DONE : SILL_LONG;
#define TOLD(...) (fits ? (const uint64_t[SILL_HEAD_TOLD]){__VA_ARGS__} : (const uint64_t[SILL_HEAD_TOLD]){number})

        /* a record that is one binary; then a map of one entry, whose value is the binary, under a name and under a number */
        bytes[0] = 131;
        binary(1, n);
        paint();
        sill_read(bytes, n, SILL_DEEPEST, tape, WORDS, told, path);
        expect("sill_read", n, TOLD(0, n, 0, 0, 1, 1, 0), SILL_TOLD, !fits);
        if (fits) {
            const uint32_t cell[SILL_CELL] = {109, 1, SILL_LONGEST, 0, 1};
            failed |= memcmp(tape, cell, sizeof cell) || memcmp(tape + SILL_CELL, was_tape + SILL_CELL, sizeof tape - sizeof cell);
        }
        paint();
        sill_term(bytes, n, 1, SILL_DEEPEST, told, path);
        expect("sill_term", n, TOLD(0, n, 0, 0, 1, 1, 0), SILL_TOLD, 1);
        paint();
        sill_head(bytes, n, 1, told);
        expect("sill_head", n, TOLD(0, 109, 0, 0, 6, n - 6), SILL_HEAD_TOLD, 1);
        paint();
        sill_part(bytes, n, 1, told);
        {
            const uint64_t part[2] = {fits ? 6 : 0, fits ? n - 6 : 0};
            expect("sill_part", n, part, SILL_PART_TOLD, 1);
        }
        memcpy(bytes, (const uint8_t[]){131, 116, 0, 0, 0, 1, 119, 1, 'a'}, 9);
        binary(9, n);
        paint();
        sill_find_name(bytes, n, 1, SILL_DEEPEST, (const uint8_t *)"a", 1, told, path);
        expect("sill_find_name", n, TOLD(0, n, 9, 0, 3, 2, 0), SILL_TOLD, 1);
        memcpy(bytes, (const uint8_t[]){131, 116, 0, 0, 0, 1, 97, 7}, 8);
        binary(8, n);
        paint();
        sill_find_number(bytes, n, 1, SILL_DEEPEST, 7, told, path);
        expect("sill_find_number", n, TOLD(0, n, 8, 0, 3, 2, 0), SILL_TOLD, 1);

        /* a header with one new name, "a" in slot 5: what follows it is the rest */
        memcpy(bytes, (const uint8_t[]){131, 68, 1, 8, 5, 1, 'a'}, 7);
        paint();
        sill_header(bytes, n, filled, store, SILL_STORE_BYTES, told);
        expect("sill_header", n, TOLD(0, 7, 0), SILL_HEADER_TOLD, !fits);
        failed |= sill_count(filled) != (fits ? 1 : 0);

        /* behind such a header a tuple of that name and a binary; then its last two bytes are the name again */
        memcpy(bytes + 7, (const uint8_t[]){104, 2, 82, 0}, 4);
        binary(11, n);
        paint();
        sill_message(bytes, n, SILL_DEEPEST, filled, store, SILL_STORE_BYTES, run, tape, WORDS, told, path);
        expect("sill_message", n, TOLD(0, n, 0, 0, 3, 2, 0), SILL_TOLD, !fits);
        failed |= sill_count(filled) != (fits ? 1 : 0);
        if (fits) {
            const uint32_t cells[] = {104, 7, SILL_LONGEST, 0, 3, 82, 9, 11, 0, 1, 109, 11, SILL_LONGEST, 0, 1};
            failed |= memcmp(tape, cells, sizeof cells) || memcmp(tape + 3 * SILL_CELL, was_tape + 3 * SILL_CELL, sizeof tape - sizeof cells);
            failed |= run[0] != 1 || run[1] != 5 || memcmp(run + 2, was_run + 2, sizeof run - 2);
        }
        memcpy(bytes + n - 2, (const uint8_t[]){82, 0}, 2);
        lend();
        sill_atom(bytes, n, 9, filled, store, SILL_STORE_BYTES, run, told);
        expect("sill_atom, first", n, TOLD(0, 5 * 256 + 1, 1), SILL_GET_TOLD, 1);
        lend();
        sill_atom(bytes, n, n - 2, filled, store, SILL_STORE_BYTES, run, told);
        expect("sill_atom, last", n, TOLD(0, 5 * 256 + 1, 1), SILL_GET_TOLD, 1);

        /* fragments, of which the same is true */
        memcpy(bytes, (const uint8_t[]){131, 69, 0, 0, 0, 0, 0, 0, 0, 2, 0, 0, 0, 0, 0, 0, 0, 3, 4}, 19);
        paint();
        sill_first(bytes, n, told);
        expect("sill_first", n, TOLD(0, 19, 0, 2, 3, 4), SILL_FIRST_TOLD, 1);
        bytes[1] = 70;
        paint();
        sill_next(bytes, n, told);
        expect("sill_next", n, TOLD(0, 18, 0, 2, 3), SILL_NEXT_TOLD, 1);

        /* text has no such limit */
        memset(bytes, 'a', n);
        if (sill_utf8(bytes, n) != n) failed = 1;
        printf("%-24s %zu bytes: %zu are good\n", "sill_utf8", n, sill_utf8(bytes, n));
    }
    /* all of them are letters now */
    caps();
    integers();
    places();
    shapes();
    return failed;
}
