/* How much stack each call writes to: it runs on a painted stack of its own, over inputs that lead it deep, and what is no longer painted is
 * counted. What an empty call with the same arguments takes there is its caller's, and is taken off. Prints `call limit bytes` for each call and
 * the nesting limits 1, 8 and 64.
 *
 * Nothing is asked of the machine but jig/port.h and jig/onstack.h, nothing of C but memcpy and memset: it runs on a board too. */
#include <string.h>

#include "decimal.h"
#include "onstack.h"
#include "port.h"
#include "sillthread.h"

enum { STACK = 1 << 16, CELLS = 512, LONGEST_ROW = 54, LEAVES = 6, GOOD_LINKS = 8 };

#define COUNT(array) (sizeof(array) / sizeof *(array))

static const uint64_t limits[] = {1, 8, SILL_NESTING};

/* What the calls are lent. */
static uint8_t bytes[1 << 12], store[SILL_STORE_BYTES], run[SILL_POSITIONS], out[1 << 12];
static uint32_t tape[CELLS * SILL_CELL];
static uint64_t told[SILL_HEAD_TOLD], path[SILL_PATH], filled[SILL_FILLED];
static struct sill_item items[2 * SILL_NESTING + 4];
static uint64_t len, at, limit, row;
static uint8_t slot;

/* Each call over that. It is called by a pointer, which leads to an empty function with the same parameters until the call is filled in: so its caller
 * does the same for both. */
#pragma GCC diagnostic ignored "-Wunused-parameter"
#define CALL(type, name, parameters, arguments, answer)          \
    static type name##_empty parameters { answer }               \
    static type (*volatile name##_at) parameters = name##_empty; \
    static void name##_call(void) { (void)name##_at arguments; } \
    static void name##_fill(void) { name##_at = sill_##name; }

CALL(uint64_t, interface, (void), (), return 0;)
CALL(void, read, (const uint8_t *b, uint64_t n, uint64_t l, uint32_t *t, uint64_t w, uint64_t *to, uint64_t *p),
     (bytes, len, limit, tape, COUNT(tape), told, path), )
CALL(void, term, (const uint8_t *b, uint64_t n, uint64_t a, uint64_t l, uint64_t *to, uint64_t *p), (bytes, len, at, limit, told, path), )
CALL(void, find_name, (const uint8_t *b, uint64_t n, uint64_t a, uint64_t l, const uint8_t *k, uint64_t m, uint64_t *to, uint64_t *p),
     (bytes, len, at, limit, (const uint8_t *)"a", 1, told, path), )
CALL(void, find_number, (const uint8_t *b, uint64_t n, uint64_t a, uint64_t l, int64_t k, uint64_t *to, uint64_t *p),
     (bytes, len, at, limit, 7, told, path), )
CALL(void, head, (const uint8_t *b, uint64_t n, uint64_t a, uint64_t *to), (bytes, len, at, told), )
CALL(void, part, (const uint8_t *b, uint64_t n, uint64_t a, uint64_t *to), (bytes, len, at, told), )
CALL(void, empty, (uint64_t *f), (filled), )
CALL(uint64_t, count, (const uint64_t *f), (filled), return 0;)
CALL(void, get, (const uint64_t *f, const uint8_t *s, uint64_t m, uint8_t i, uint64_t *to), (filled, store, sizeof store, slot, told), )
CALL(void, header, (const uint8_t *b, uint64_t n, uint64_t *f, uint8_t *s, uint64_t m, uint64_t *to), (bytes, len, filled, store, sizeof store, told), )
CALL(void, message,
     (const uint8_t *b, uint64_t n, uint64_t l, uint64_t *f, uint8_t *s, uint64_t m, uint8_t *r, uint32_t *t, uint64_t w, uint64_t *to, uint64_t *p),
     (bytes, len, limit, filled, store, sizeof store, run, tape, COUNT(tape), told, path), )
CALL(void, position, (const uint64_t *f, const uint8_t *s, uint64_t m, const uint8_t *r, uint8_t i, uint64_t *to),
     (filled, store, sizeof store, run, slot, told), )
CALL(void, atom, (const uint8_t *b, uint64_t n, uint64_t a, const uint64_t *f, const uint8_t *s, uint64_t m, const uint8_t *r, uint64_t *to),
     (bytes, len, at, filled, store, sizeof store, run, told), )
CALL(void, first, (const uint8_t *b, uint64_t n, uint64_t *to), (bytes, len, told), )
CALL(void, next, (const uint8_t *b, uint64_t n, uint64_t *to), (bytes, len, told), )
CALL(uint64_t, utf8, (const uint8_t *b, uint64_t n), (bytes, len), return 0;)
CALL(void, write, (const uint64_t *r, uint64_t w, const uint8_t *t, uint64_t m, uint8_t *o, uint64_t room, uint64_t *to),
     ((const uint64_t *)items, SILL_ITEM * row, bytes, len, out, sizeof out, told), )

/* The painted stack, and the call that runs there. */
static uint64_t stack[STACK / 8];
static void (*call)(void);

static void go(void) { painted_call(call, stack, sizeof stack); }

/* How much of the stack is written to by a call over all of its inputs. Two paints, since a byte may be written with the paint's own value. */
static size_t written(void (*over)(void)) {
    size_t most = 0;
    for (int paint = 0x5a; paint <= 0xa5; paint += 0xa5 - 0x5a) {
        const uint8_t *low = (const uint8_t *)stack, *const top = low + sizeof stack;
        memset(stack, paint, sizeof stack);
        over();
        while (low < top && *low == paint) low++;
        if (most < (size_t)(top - low)) most = (size_t)(top - low);
    }
    return most;
}

/* A row of each tag. The first are the leaves of chains too: among them a long name, so that text is checked in the deepest term, and a name by its
 * position, which only a message has. */
struct row {
    size_t len;
    uint8_t bytes[LONGEST_ROW];
};

#define ATOM 119, 1, 'a'
#define NAME 'n', 'a', 'm', 'e', 0xc3, 0xa9, 0xe2, 0x82, 0xac
#define TEXT '1', '.', '5', 'e', '+', '1', '0', 0, 0, 0, 0, 0, 0, 0, 0, 0, 0, 0, 0, 0, 0, 0, 0, 0, 0, 0, 0, 0, 0, 0, 0
#define PID 88, ATOM, 0, 0, 0, 1, 0, 0, 0, 2, 0, 0, 0, 3
#define FUNCTION 112, 0, 0, 0, 0, 0, 1, 2, 3, 4, 5, 6, 7, 8, 9, 10, 11, 12, 13, 14, 15, 16, 0, 0, 0, 0, 0, 0, 0, 1

static const struct row rows[] = {
    {1, {106}},
    {2, {82, 0}},
    {12, {118, 0, 9, NAME}},
    {32, {99, TEXT}},
    {7, {77, 0, 0, 0, 1, 8, 0}},
    {16, {PID}},
    /* and no leaves */
    {2, {97, 7}},
    {5, {98, 255, 255, 255, 0}},
    {9, {70, 63, 248, 0, 0, 0, 0, 0, 0}},
    {12, {100, 0, 9, NAME}},
    {11, {119, 9, NAME}},
    {5, {107, 0, 2, 1, 2}},
    {7, {109, 0, 0, 0, 2, 1, 2}},
    {11, {110, 8, 1, 1, 2, 3, 4, 5, 6, 7, 8}},
    {8, {111, 0, 0, 0, 2, 0, 1, 2}},
    {14, {90, 0, 1, ATOM, 0, 0, 0, 3, 0, 0, 0, 1}},
    {16, {120, ATOM, 0, 0, 0, 0, 0, 0, 0, 1, 0, 0, 0, 3}},
    {54, {FUNCTION, ATOM, 97, 0, 97, 0, PID, 106}},
    {9, {113, ATOM, ATOM, 97, 2}},
    {4, {104, 1, 97, 7}},
    {7, {105, 0, 0, 0, 1, 97, 7}},
    {8, {108, 0, 0, 0, 1, 97, 7, 106}},
    {9, {116, 0, 0, 0, 1, 97, 7, 97, 8}},
};

/* A link of a chain of nested terms: what stands before the child and, in a good chain, behind it. */
static const struct {
    struct row before, behind;
} links[] = {
    {{2, {104, 1}}, {0, {0}}},
    {{5, {105, 0, 0, 0, 1}}, {0, {0}}},
    {{5, {108, 0, 0, 0, 1}}, {1, {106}}},
    {{5, {108, 0, 0, 0, 0}}, {0, {0}}},
    {{5, {116, 0, 0, 0, 1}}, {2, {97, 7}}},
    {{7, {116, 0, 0, 0, 1, 97, 7}}, {0, {0}}},
    {{8, {116, 0, 0, 0, 1, ATOM}}, {0, {0}}},
    {{53, {FUNCTION, ATOM, 97, 0, 97, 0, PID}}, {0, {0}}},
    /* these can't be good: the child is no atom or integer. It is read whole before that is judged */
    {{1, {88}}, {0, {0}}},
    {{3, {90, 0, 1}}, {0, {0}}},
    {{1, {120}}, {0, {0}}},
    {{1, {113}}, {0, {0}}},
    {{4, {113, ATOM}}, {0, {0}}},
    {{7, {113, ATOM, ATOM}}, {0, {0}}},
    {{30, {FUNCTION}}, {0, {0}}},
    {{33, {FUNCTION, ATOM}}, {0, {0}}},
    {{35, {FUNCTION, ATOM, 97, 0}}, {0, {0}}},
    {{37, {FUNCTION, ATOM, 97, 0, 97, 0}}, {0, {0}}},
};

/* What stands before a term: a record's first byte, a message's header with "a" in slot 5. */
static const struct row record = {1, {131}}, heading = {7, {131, 68, 1, 8, 5, 1, 'a'}};

static void add(const struct row *r) {
    memcpy(bytes + len, r->bytes, r->len);
    len += r->len;
}

/* n links around a leaf. */
static void chain(const struct row *front, size_t link, uint64_t n, const struct row *leaf) {
    len = 0;
    add(front);
    at = len;
    for (uint64_t i = 0; i < n; i++) add(&links[link].before);
    add(leaf);
    for (uint64_t i = 0; i < n; i++) add(&links[link].behind);
}

/* The levels that are tried at a limit: 0, 1, and from three below it to one over it. */
static uint64_t next_level(uint64_t level, uint64_t most) { return level == 1 && 5 < most ? most - 3 : level + 1; }

/* An input as it is, cut before each of its bytes from `from` on, and with each of them damaged. */
static void whole_and_damaged(uint64_t from) {
    const uint64_t whole = len;
    go();
    for (len = from; len < whole; len++) go();
    for (uint64_t i = from; i < whole; i++) {
        const uint8_t byte = bytes[i];
        bytes[i] = 0;
        go();
        bytes[i] = 255;
        go();
        bytes[i] = byte;
    }
}

static void over_terms(const struct row *front) {
    for (size_t link = 0; link < COUNT(links); link++)
        for (size_t leaf = 0; leaf < LEAVES; leaf++)
            for (uint64_t n = 0; n <= limit + 1; n = next_level(n, limit)) {
                chain(front, link, n, &rows[leaf]);
                go();
            }
    for (size_t k = 0; k < COUNT(rows); k++) {
        chain(front, 0, 0, &rows[k]);
        whole_and_damaged(at);
    }
}

static void over_records(void) { over_terms(&record); }

/* A message with as many names as there can be, each new and in a slot of its own, that is an atom by its position, the last one. */
static void many_names(void) {
    static const uint8_t name[] = {NAME};
    bytes[0] = 131;
    bytes[1] = 68;
    bytes[2] = 255;
    memset(bytes + 3, 0x88, 128);
    bytes[130] = 0x08;
    len = 131;
    for (int i = 0; i < 255; i++) {
        bytes[len++] = (uint8_t)i;
        bytes[len++] = sizeof name;
        memcpy(bytes + len, name, sizeof name);
        len += sizeof name;
    }
    at = len;
    add(&(const struct row){2, {82, 254}});
}

/* That one, and a short one that is damaged too. */
static void over_headers(void) {
    many_names();
    go();
    chain(&heading, 0, 0, &rows[0]);
    whole_and_damaged(0);
}

static void over_messages(void) {
    over_headers();
    over_terms(&heading);
}

/* Reads the message of many names, so that the store has them. */
static uint64_t read_names(void) {
    many_names();
    sill_message(bytes, len, 1, filled, store, sizeof store, run, tape, COUNT(tape), told, path);
    return told[SILL_READ_NUMBER];
}

/* A name that is there, and one that isn't: by slot, by position, and by the places of an atom and of none. */
static void over_names(void) {
    read_names();
    slot = 254;
    go();
    slot = 255;
    for (at = len - 2; at <= len; at++) go();
}

static void over_nothing(void) { go(); }

static void over_fragments(void) {
    static const struct row fragment = {19, {131, 69, 0, 0, 0, 0, 0, 0, 0, 2, 0, 0, 0, 0, 0, 0, 0, 3, 4}};
    for (uint8_t tag = 69; tag <= 70; tag++) {
        len = 0;
        add(&fragment);
        bytes[1] = tag;
        whole_and_damaged(0);
    }
}

static void name_alone(void) {
    len = 0;
    add(&(const struct row){9, {NAME}});
}

static void over_texts(void) {
    name_alone();
    whole_and_damaged(0);
}

/* Rows of items that nest, around a name, short of its last byte too, a number of the most digits, and others. A map's key is Nil. */
static void over_items(void) {
    name_alone();
    const struct sill_item leaves[] = {{SILL_ATOM, 0, len}, {SILL_ATOM, 0, len - 1}, {SILL_BINARY, 0, len}, {SILL_INTEGER, INT64_MAX, 0},
                                       {SILL_DOUBLE, 0, 0}, {SILL_LIST, 0, 0},       {SILL_NIL, 0, 0},      {0, 0, 0}};
    for (uint64_t kind = SILL_TUPLE; kind <= SILL_MAP; kind++)
        for (size_t leaf = 0; leaf < COUNT(leaves); leaf++)
            for (uint64_t n = 0; n <= SILL_NESTING + 1; n = next_level(n, SILL_NESTING)) {
                row = 0;
                for (uint64_t i = 0; i < n; i++) {
                    items[row++] = (struct sill_item){kind, 1, 0};
                    if (kind == SILL_MAP) items[row++] = (struct sill_item){SILL_NIL, 0, 0};
                }
                items[row++] = leaves[leaf];
                go();
            }
}

/* The inputs that are meant to be good are: each row, chains of each link that can be, the message of many names. */
static int good(void) {
    if (read_names() != SILL_DONE || sill_count(filled) != 255) return 0;
    limit = SILL_NESTING;
    for (size_t k = 0; k < COUNT(rows) + GOOD_LINKS; k++) {
        if (k < COUNT(rows)) chain(&heading, 0, 0, &rows[k]);
        else chain(&heading, k - COUNT(rows), limit - 3, &rows[1]);
        sill_message(bytes, len, limit, filled, store, sizeof store, run, tape, COUNT(tape), told, path);
        if (told[SILL_READ_NUMBER] != SILL_DONE) return 0;
    }
    return 1;
}

static int print(const char *name, uint64_t n, size_t size) {
    char line[64];
    size_t end = 0;
    for (; name[end]; end++) line[end] = name[end];
    line[end++] = ' ';
    end += decimal(n, line + end);
    line[end++] = ' ';
    end += decimal(size, line + end);
    line[end++] = '\n';
    return port_write(PORT_OUT, line, end);
}

static int fail(const char *text) {
    size_t n = 0;
    while (text[n]) n++;
    port_write(PORT_ERR, text, n);
    return 1;
}

#define MEASURED(name, over) {"sill_" #name, name##_call, name##_fill, over}

int main(void) {
    static const struct {
        const char *name;
        void (*call)(void), (*fill)(void), (*over)(void);
    } calls[] = {
        MEASURED(interface, over_nothing),
        MEASURED(read, over_records),
        MEASURED(term, over_records),
        MEASURED(find_name, over_records),
        MEASURED(find_number, over_records),
        MEASURED(head, over_records),
        MEASURED(part, over_records),
        MEASURED(empty, over_nothing),
        MEASURED(count, over_names),
        MEASURED(get, over_names),
        MEASURED(header, over_headers),
        MEASURED(message, over_messages),
        MEASURED(position, over_names),
        MEASURED(atom, over_names),
        MEASURED(first, over_fragments),
        MEASURED(next, over_fragments),
        MEASURED(utf8, over_texts),
        MEASURED(write, over_items),
    };
    if (!good()) return fail("stack: an input isn't as it is meant\n");
    for (size_t c = 0; c < COUNT(calls); c++) {
        call = calls[c].call;
        const size_t empty = written(over_nothing);
        calls[c].fill();
        for (size_t l = 0; l < COUNT(limits); l++) {
            limit = limits[l];
            const size_t all = written(calls[c].over);
            if (all == STACK) return fail("stack: the painted stack is too small\n");
            if (print(calls[c].name, limit, all < empty ? 0 : all - empty) != 0) return 1;
        }
    }
    return 0;
}
