// The benchmark's program, which ./speed builds and runs: our reader, the Rust's, C's ei and the plain one (bench/plain.c) in one process, and
// our writer with ei's.
//
//   speed check < REQUESTS          sees that ours and the plain reader answer alike on these, on every input, and on all of them damaged; and
//                                   that ours and ei's writers write the same, which is read back as the row that it was written from
//   speed rows | lengths | floors | writing
//                                   the names of the rows of a table, and for each the call that is timed
//   speed times TABLE ROW           its bytes, its terms and nanoseconds: ours, ei's, the Rust's, the plain one's; 0 where there is none
//   speed once TABLE ROW K          the K-th of them once, for a tool that counts instructions
//
// A time is the best of many rounds in which all take turns, each after some calls that aren't timed.
#include <stdio.h>
#include <stdlib.h>
#include <time.h>

#include "../jig/sillthread.h"
#include "plain.h"
#include "records.h"
#include "rows.h"

enum { LIMIT = SILL_NESTING, MOST = SILL_LONGEST, WORDS = SILL_CELL << 22 };

static uint8_t bytes[MOST], store[SILL_STORE_BYTES], run[SILL_POSITIONS], written[MOST];
static size_t len, terms;
static uint32_t tape[WORDS];
static uint64_t told[SILL_HEAD_TOLD], path[SILL_PATH], filled[SILL_FILLED];
static struct items items;

// What is timed, each once. Answers whether all went well.
static int our_read(void) {
    sill_read(bytes, len, LIMIT, tape, WORDS, told, path);
    return told[0] == SILL_DONE;
}

// With no word lent the answer is Room, after the whole record was read: reading alone.
static int our_reading(void) {
    sill_read(bytes, len, LIMIT, tape, 0, told, path);
    return told[0] == SILL_ROOM;
}

static int their_read(void) {
    plain_read(bytes, len, LIMIT, tape, WORDS, told, path);
    return told[0] == SILL_DONE;
}

static int our_heads(void) {
    uint64_t refused = 0;
    for (size_t i = 0; i < terms; i++) sill_head(bytes, len, tape[SILL_CELL * i + SILL_CELL_START], told), refused |= told[0];
    return refused == 0;
}

static int their_heads(void) {
    uint64_t refused = 0;
    for (size_t i = 0; i < terms; i++) plain_head(bytes, len, tape[SILL_CELL * i + SILL_CELL_START], told), refused |= told[0];
    return refused == 0;
}

static const uint8_t last_name[] = "note";

static int our_name(void) {
    sill_find_name(bytes, len, 1, LIMIT, last_name, 4, told, path);
    return told[0] == SILL_DONE;
}

static int their_name(void) {
    plain_find_name(bytes, len, 1, LIMIT, last_name, 4, told, path);
    return told[0] == SILL_DONE;
}

static int our_number(void) {
    sill_find_number(bytes, len, 1, LIMIT, 999, told, path);
    return told[0] == SILL_DONE;
}

static int their_number(void) {
    plain_find_number(bytes, len, 1, LIMIT, 999, told, path);
    return told[0] == SILL_DONE;
}

static int our_header(void) {
    sill_header(bytes, len, filled, store, SILL_STORE_BYTES, told);
    return told[0] == SILL_DONE;
}

static int their_header(void) {
    plain_header(bytes, len, filled, store, SILL_STORE_BYTES, told);
    return told[0] == SILL_DONE;
}

static int our_message(void) {
    sill_message(bytes, len, LIMIT, filled, store, SILL_STORE_BYTES, run, tape, WORDS, told, path);
    return told[0] == SILL_DONE;
}

static int their_message(void) {
    plain_message(bytes, len, LIMIT, filled, store, SILL_STORE_BYTES, run, tape, WORDS, told, path);
    return told[0] == SILL_DONE;
}

static int our_text(void) { return sill_utf8(bytes, len) == len; }

static int their_text(void) { return plain_utf8(bytes, len) == len; }

static int our_write(void) {
    sill_write((const uint64_t *)items.item, SILL_ITEM * items.n, items.text, items.texts, written, MOST, told);
    return told[0] == SILL_DONE && told[1] == len;
}

// What no reader with a tape does without, in C: going over a list of small integers once, with a cell for each; and following the lengths
// of a list of binaries twice, since the tape is written only where the whole is good.
static int cells_written(void) {
    uint32_t *w = tape, pos = 6;
    for (; bytes[pos] == 97; w += 5, pos += 2) w[0] = 97, w[1] = pos, w[2] = pos + 2, w[3] = 0, w[4] = 1;
    return bytes[pos] == 106;
}

static int lengths_followed(void) {
    int good = 1;
    for (int pass = 0; pass < 2; pass++) {
        const uint8_t *s = bytes + 6;
        while (s[0] == 109) s += 5 + ((uint32_t)s[1] << 24 | (uint32_t)s[2] << 16 | (uint32_t)s[3] << 8 | s[4]);
        good &= s[0] == 106;
    }
    return good;
}

#ifdef EI
static int ei_read(void) {
    const char *b = (const char *)bytes;
    int index = 0, version;
    return ei_decode_version(b, &index, &version) == 0 && ei_skip_term(b, &index) == 0 && (size_t)index == len;
}

static int ei_write(void) { return ei_written(&items, written) == len; }
#else
#define ei_read NULL
#define ei_write NULL
#endif

#ifdef RUST
_Bool rust_read(const uint8_t *b, size_t len);
size_t rust_utf8(const uint8_t *b, size_t len);

static int rusts_read(void) { return rust_read(bytes, len); }

static int rusts_text(void) { return rust_utf8(bytes, len) == len; }
#else
#define rusts_read NULL
#define rusts_text NULL
#endif

enum { CONTESTANTS = 4 };

typedef int (*contestant)(void);

static const struct row {
    const char *name, *call;
    size_t (*make)(uint8_t *, size_t);
    size_t of;
    contestant by[CONTESTANTS];
} rows[] = {
    {"1_KiB_record", "sill_read", record, 1 << 10, {our_read, ei_read, rusts_read, their_read}},
    {"16_KiB_record", "sill_read", record, 1 << 14, {our_read, ei_read, rusts_read, their_read}},
    {"64_KiB_record", "sill_read", record, 1 << 16, {our_read, ei_read, rusts_read, their_read}},
    {"1_MiB_of_small_integers", "sill_read", integers, 1 << 20, {our_read, ei_read, rusts_read, their_read}},
    {"1_MiB_of_binaries", "sill_read", binaries, 1 << 20, {our_read, ei_read, rusts_read, their_read}},
    {"64_KiB_of_long_atoms", "sill_read", long_atoms, 1 << 16, {our_read, ei_read, rusts_read, their_read}},
    {"64_levels", "sill_read", nested, 63, {our_read, ei_read, rusts_read, their_read}},
    {"three_terms", "sill_read", three_terms, 0, {our_read, ei_read, rusts_read, their_read}},
    {"64_KiB_of_names_not_ASCII", "sill_read", foreign_atoms, 1 << 16, {our_read, ei_read, rusts_read, their_read}},
    {"thirty_nested_tuples", "sill_read", nested, 30, {our_read, ei_read, rusts_read, their_read}},
    {"heads_over_a_16_KiB_tape", "sill_head", record, 1 << 14, {our_heads, NULL, NULL, their_heads}},
    {"a_name_in_a_1_KiB_map", "sill_find_name", record, 1 << 10, {our_name, NULL, NULL, their_name}},
    {"a_number_among_1,000_keys", "sill_find_number", numbered, 1000, {our_number, NULL, NULL, their_number}},
    {"header_with_32_new_names", "sill_header", header, 32, {our_header, NULL, NULL, their_header}},
    {"1_KiB_record_as_a_message", "sill_message", message, 0, {our_message, NULL, NULL, their_message}},
    {"64_KiB_of_positions", "sill_message", positions, 1 << 16, {our_message, NULL, NULL, their_message}},
    {"UTF-8,_64_KiB_of_ASCII", "sill_utf8", letters, 1 << 16, {our_text, NULL, rusts_text, their_text}},
    {"UTF-8,_64_KiB_not_ASCII", "sill_utf8", foreign_text, 1 << 16, {our_text, NULL, rusts_text, their_text}},
};

// Of these the second is ours too: reading alone.
static const struct row lengths[] = {
    {"1024", "sill_read", record, 1 << 10, {our_read, our_reading, NULL, NULL}},
    {"65536", "sill_read", record, 1 << 16, {our_read, our_reading, NULL, NULL}},
    {"1048576", "sill_read", record, 1 << 20, {our_read, our_reading, NULL, NULL}},
    {"16777216", "sill_read", record, 1 << 24, {our_read, our_reading, NULL, NULL}},
};

// Of these the first is what can't be done without, and nothing is counted.
static const struct row floors[] = {
    {"integers:_cells_written", "-", integers, 1 << 20, {cells_written, ei_read, NULL, NULL}},
    {"binaries:_lengths_twice", "-", binaries, 1 << 20, {lengths_followed, ei_read, NULL, NULL}},
};

// What is read to make these is written again; their terms are the row's items.
static const struct row writing[] = {
    {"1_KiB_record", "sill_write", record, 1 << 10, {our_write, ei_write, NULL, NULL}},
    {"64_KiB_record", "sill_write", record, 1 << 16, {our_write, ei_write, NULL, NULL}},
    {"1_MiB_of_small_integers", "sill_write", integers, 1 << 20, {our_write, ei_write, NULL, NULL}},
    {"1_MiB_of_binaries", "sill_write", binaries, 1 << 20, {our_write, ei_write, NULL, NULL}},
    {"64_KiB_of_names_not_ASCII", "sill_write", foreign_atoms, 1 << 16, {our_write, ei_write, NULL, NULL}},
    {"64_levels", "sill_write", nested, 63, {our_write, ei_write, NULL, NULL}},
    {"three_terms", "sill_write", three_terms, 0, {our_write, ei_write, NULL, NULL}},
};

#define EACH(table) table, sizeof table / sizeof *table

static const struct {
    const char *name;
    const struct row *rows;
    size_t n;
} tables[] = {{"rows", EACH(rows)}, {"lengths", EACH(lengths)}, {"floors", EACH(floors)}, {"writing", EACH(writing)}};

enum { TABLES = sizeof tables / sizeof *tables };

static void fail(const char *why, const char *where) {
    fprintf(stderr, "speed: %s: %s\n", where, why);
    exit(1);
}

// The row's input. Where it is a record or a message, whose names were told before, its terms are counted, and their cells lie on the tape. Where
// it is to be written, its bytes are those that will be: a record spends five on integers that do with two.
static void make(const struct row *row) {
    len = told_once(bytes);
    their_header();
    len = row->make(bytes, row->of);
    terms = their_read() || their_message() ? told[SILL_READ_TERMS] : 0;
    if (row->by[0] != our_write) return;
    items_of(&items, bytes, len, tape, terms);
    terms = items.n;
    len = bytes_of(&items);
}

static double now(void) {
    struct timespec t;
    clock_gettime(CLOCK_PROCESS_CPUTIME_ID, &t);
    return (double)t.tv_sec * 1e9 + (double)t.tv_nsec;
}

// The nanoseconds of one call, over so many.
static double timed(const struct row *row, int k, long calls) {
    int well = 1;
    double start = now();
    for (long i = 0; i < calls; i++) well &= row->by[k]();
    double one = (now() - start) / (double)calls;
    if (!well) fail("its input is refused", row->name);
    return one;
}

// A turn is some 0.3 ms, or one call, after calls that bring input and tape back into the caches. Rounds go on for a second, and there are
// at least ten.
static void times(const struct row *row) {
    double least[CONTESTANTS] = {0};
    long calls[CONTESTANTS];
    for (int k = 0; k < CONTESTANTS; k++)
        if (row->by[k]) calls[k] = 1 + (long)(3e5 / timed(row, k, 1 + 50000 / (long)len));
    double start = now();
    for (int round = 0; round < 10 || now() - start < 1e9; round++)
        for (int k = 0; k < CONTESTANTS; k++) {
            if (!row->by[k]) continue;
            timed(row, k, 4);
            double one = timed(row, k, calls[k]);
            if (round == 0 || one < least[k]) least[k] = one;
        }
    printf("%s %zu %zu", row->name, len, terms);
    for (int k = 0; k < CONTESTANTS; k++) printf(" %.2f", least[k]);
    printf("\n");
}

// Checking: ours writes into the first of each pair, the plain reader into the second.
static struct out chance = {NULL, 0, 7};
static uint8_t good[MOST], stores[2][SILL_STORE_BYTES], drawer_stores[2][SILL_STORE_BYTES], drawer_runs[2][SILL_POSITIONS];
static uint32_t tapes[2][WORDS];
static uint64_t answers[2][SILL_HEAD_TOLD], paths[2][SILL_PATH], caches[2][SILL_FILLED], drawer_caches[2][SILL_FILLED];

static void same(const void *pair, size_t size, const char *what, const char *where) {
    if (memcmp(pair, (const char *)pair + size, size) != 0) fail(what, where);
}

static uint32_t below(size_t n) { return draw(&chance, n < 65536 ? (uint32_t)n : 65536) * (n < 65536 ? 1 : (uint32_t)(n / 65536)); }

// Some bytes changed, mostly to tags and to the largest and the least; or the input cut; or nothing.
static void damage(void) {
    static const uint8_t some[] = {97, 98, 99, 70, 100, 118, 119, 104, 105, 106, 107, 108, 109, 77, 110, 111, 116, 88, 90, 120, 113, 112, 82,
                                   0, 1, 2, 3, 4, 8, 9, 127, 128, 191, 194, 224, 237, 240, 244, 255};
    if (below(4) == 0) len = below(len + 1);
    for (uint32_t n = below(4); n && len; n--) bytes[below(len)] = below(3) ? some[below(sizeof some)] : (uint8_t)below(256);
}

// What a read tells and writes.
static void same_read(const char *answer, const char *path, const char *tape, const char *where) {
    same(answers, sizeof answers[0], answer, where);
    same(paths, sizeof paths[0], path, where);
    size_t written = answers[0][0] == SILL_DONE ? SILL_CELL * answers[0][SILL_READ_TERMS] : 0;
    if (memcmp(tapes[0], tapes[1], (written + 64) * sizeof **tapes) != 0) fail(tape, where);
}

// A message, over the names of those before it, at times with those that a drawer tells once, at times with none.
static void messages_alike(const char *where, size_t limit, size_t words) {
    uint8_t once[1 << 9];
    size_t n = told_once(once);
    uint32_t lot = below(4);
    if (lot == 0) memset(drawer_caches, 0, sizeof drawer_caches);
    if (lot == 1) {
        sill_header(once, n, drawer_caches[0], drawer_stores[0], SILL_STORE_BYTES, answers[0]);
        plain_header(once, n, drawer_caches[1], drawer_stores[1], SILL_STORE_BYTES, answers[1]);
    }
    sill_message(bytes, len, limit, drawer_caches[0], drawer_stores[0], SILL_STORE_BYTES, drawer_runs[0], tapes[0], words, answers[0], paths[0]);
    plain_message(bytes, len, limit, drawer_caches[1], drawer_stores[1], SILL_STORE_BYTES, drawer_runs[1], tapes[1], words, answers[1], paths[1]);
    same_read("message differs in its answer", "message differs in its path", "message differs in its tape", where);
    same(drawer_caches, sizeof drawer_caches[0], "message differs in its slots", where);
    same(drawer_stores, sizeof drawer_stores[0], "message differs in its names", where);
    same(drawer_runs, sizeof drawer_runs[0], "message differs in its positions", where);
}

// Every call that has a plain twin, on the bytes as they are.
static void alike(const char *where, size_t limit, size_t words) {
    memset(answers, 0, sizeof answers);
    memset(paths, 0, sizeof paths);
    sill_read(bytes, len, limit, tapes[0], words, answers[0], paths[0]);
    plain_read(bytes, len, limit, tapes[1], words, answers[1], paths[1]);
    same_read("read differs in its answer", "read differs in its path", "read differs in its tape", where);
    for (int i = 0; i < 8; i++) {
        size_t at = i == 0 ? 1 : below(len + 2);
        sill_head(bytes, len, at, answers[0]);
        plain_head(bytes, len, at, answers[1]);
        same(answers, sizeof answers[0], "head differs", where);
        sill_find_name(bytes, len, at, limit, last_name, 4, answers[0], paths[0]);
        plain_find_name(bytes, len, at, limit, last_name, 4, answers[1], paths[1]);
        same(answers, sizeof answers[0], "find_name differs in its answer", where);
        same(paths, sizeof paths[0], "find_name differs in its path", where);
        int64_t number = below(2) ? 5 : 999;
        sill_find_number(bytes, len, at, limit, number, answers[0], paths[0]);
        plain_find_number(bytes, len, at, limit, number, answers[1], paths[1]);
        same(answers, sizeof answers[0], "find_number differs in its answer", where);
        same(paths, sizeof paths[0], "find_number differs in its path", where);
    }
    sill_header(bytes, len, caches[0], stores[0], SILL_STORE_BYTES, answers[0]);
    plain_header(bytes, len, caches[1], stores[1], SILL_STORE_BYTES, answers[1]);
    same(answers, sizeof answers[0], "header differs in its answer", where);
    same(caches, sizeof caches[0], "header differs in its slots", where);
    same(stores, sizeof stores[0], "header differs in its names", where);
    messages_alike(where, limit, words);
    if (sill_utf8(bytes, len) != plain_utf8(bytes, len)) fail("UTF-8 differs", where);
}

// An input, and damaged so many times, with limits and room of every kind.
static void check(const char *name, size_t whole, int damages) {
    for (int i = 0; i <= damages; i++) {
        memcpy(bytes, good, whole);
        len = whole;
        if (i == 0) {
            alike(name, LIMIT, WORDS);
            continue;
        }
        damage();
        alike(name, below(2) ? LIMIT : below(66), below(4) ? WORDS : below(2000));
    }
}

static void check_writing(void) {
    static struct items back;
    for (const struct row *row = writing; row < writing + sizeof writing / sizeof *writing; row++) {
        make(row);
        if (!our_write()) fail("its row is refused, or has another length", row->name);
        memcpy(bytes, written, len);
        memset(written, 0, len);
        if (row->by[1] && (!row->by[1]() || memcmp(written, bytes, len) != 0)) fail("ei writes other bytes", row->name);
        if (!their_read()) fail("what is written is refused", row->name);
        items_of(&back, bytes, len, tape, told[SILL_READ_TERMS]);
        if (back.n != items.n || memcmp(back.item, items.item, items.n * sizeof *items.item) != 0 || back.texts != items.texts ||
            memcmp(back.text, items.text, items.texts) != 0)
            fail("what is written is another row", row->name);
    }
}

static int digit(int c) { return '0' <= c && c <= '9' ? c - '0' : 'a' <= c && c <= 'f' ? c - 'a' + 10 : -1; }

// The last word of each line of standard input, where it is bytes in hex: requests as in lists/.
static void check_lines(void) {
    static char line[1 << 16];
    while (fgets(line, sizeof line, stdin)) {
        char *word = strrchr(line, ' ');
        size_t n = 0;
        for (const char *c = word ? word + 1 : ""; 0 <= digit(c[0]) && 0 <= digit(c[1]); c += 2)
            good[n++] = (uint8_t)(digit(c[0]) * 16 + digit(c[1]));
        check(line, n, 8);
    }
}

static void check_rows(void) {
    check("every_tag", every_tag(good, 0), 10000);
    check("every_tag_in_a_message", every_tag(good, 1), 10000);
    for (size_t i = 0; i < sizeof rows / sizeof *rows; i++) {
        size_t n = rows[i].make(good, rows[i].of);
        check(rows[i].name, n, n < 1 << 11 ? 4000 : n < 1 << 17 ? 100 : 4);
    }
}

int main(int argc, char **argv) {
    const char *what = argc < 2 ? "" : argv[1];
    if (strcmp(what, "check") == 0) check_lines(), check_rows(), check_writing();
    for (size_t t = 0; t < TABLES; t++)
        for (const struct row *row = tables[t].rows; row < tables[t].rows + tables[t].n; row++) {
            if (strcmp(what, tables[t].name) == 0) printf("%s %s\n", row->name, row->call);
            if (argc < 4 || strcmp(argv[2], tables[t].name) != 0 || strcmp(argv[3], row->name) != 0) continue;
            make(row);
            if (strcmp(what, "times") == 0) times(row);
            if (strcmp(what, "once") == 0 && 4 < argc) return !row->by[atoi(argv[4])]();
        }
    return 0;
}
