/* The example: reads a record of the bench, walks its tape, prints its rows as a table, and answers with an acknowledgement.
 *
 *   example FILE
 *
 * A record is a map that has a channel, a cell and a list of rows, each a tuple of seconds, millivolts, milliamps and degrees. All rows are
 * taken into a table of fixed size, and the acknowledgement is written, before anything is printed, so that what is printed is the whole record
 * and its answer. Anything else is refused aloud: the reason goes to standard error, nothing to standard output, and the program exits with 1. */
#include <stdarg.h>
#include <stdio.h>
#include <stdlib.h>
#include <string.h>

#include "sillthread.h"

enum { RECORD = 65536, CELLS = 3276, ROWS = 9, COLUMNS = 4, ANSWER = 48 };

/* The one name of the answer that isn't in the record. */
static const char ack[] = "ack";

/* All the memory that is used: the record with that name behind it, its tape, the table, and the answer. */
static uint8_t bytes[RECORD + sizeof ack];
static uint32_t tape[CELLS * SILL_CELL];
static uint8_t answer[ANSWER];

static struct row {
    int64_t seconds, millivolts, milliamps;
    double degrees;
} table[ROWS];

static const char *file;
static size_t len;

static void refuse(const char *format, ...) {
    va_list rest;
    va_start(rest, format);
    fprintf(stderr, "%s: refused: ", file);
    vfprintf(stderr, format, rest);
    fputc('\n', stderr);
    va_end(rest);
    exit(1);
}

static const char *named(uint64_t number) {
    static const char *const names[] = {"Done", "Eof",  "Tag",  "Text",    "Literal", "Bits",  "Size",  "Trailing", "Deep",
                                        "Room", "Long", "Name", "Version", "Kind",    "Limit", "Store", "Absent",   "Items"};
    return number < sizeof names / sizeof *names ? names[number] : "?";
}

/* A call's refusal: its number, its offset, its extra and its path. */
static void refuse_told(const uint64_t *told, const uint64_t *path) {
    static const char *const kinds[] = {"tuple", "list", "tail", "key", "value", "free"};
    char text[64 * 30] = "";
    for (uint64_t i = 0; i < told[SILL_SEGMENTS]; i++) {
        size_t n = strlen(text);
        snprintf(text + n, sizeof text - n, "%s%s:%llu", i ? "/" : "", kinds[path[2 * i]], (unsigned long long)path[2 * i + 1]);
    }
    refuse("%s (%llu) at byte %llu, extra %llu, path=%s", named(told[SILL_NUMBER]), (unsigned long long)told[SILL_NUMBER],
           (unsigned long long)told[SILL_OFFSET], (unsigned long long)told[SILL_EXTRA], text);
}

/* The place of a name's value in the record's map, which stands behind byte 131. */
static size_t value_of(const char *name) {
    uint64_t told[SILL_TOLD], path[SILL_PATH];
    sill_find_name(bytes, len, 1, SILL_DEEPEST, (const uint8_t *)name, strlen(name), told, path);
    if (told[SILL_NUMBER] == SILL_ABSENT) refuse("the map has no %s", name);
    if (told[SILL_NUMBER] != SILL_DONE) refuse_told(told, path);
    return told[SILL_OFFSET];
}

static int64_t integer(size_t at, const char *what) {
    uint64_t head[SILL_HEAD_TOLD];
    sill_head(bytes, len, at, head);
    if (head[SILL_HEAD_TAG] != 97 && head[SILL_HEAD_TAG] != 98) refuse("%s at byte %zu is no integer", what, at);
    return (int64_t)head[SILL_FIELD];
}

static double real(size_t at, const char *what) {
    uint64_t head[SILL_HEAD_TOLD];
    double x;
    sill_head(bytes, len, at, head);
    if (head[SILL_HEAD_TAG] != 70) refuse("%s at byte %zu is no float", what, at);
    memcpy(&x, &head[SILL_FIELD], sizeof x);
    return x;
}

static void cell_name(size_t at, uint64_t *part) {
    uint64_t head[SILL_HEAD_TOLD];
    sill_head(bytes, len, at, head);
    if (head[SILL_HEAD_TAG] != 109) refuse("cell at byte %zu is no binary", at);
    sill_part(bytes, len, at, part);
}

/* The tape: a word of a cell, and the cell of the term that starts at a place. */
static uint32_t word(size_t cell, enum sill_cell which) { return tape[cell * SILL_CELL + which]; }

static size_t cell_at(size_t start, size_t cells) {
    size_t cell = 0;
    while (cell < cells && word(cell, SILL_CELL_START) != start) cell++;
    return cell;
}

/* The four columns of a row, whose cells stand behind its own. */
static struct row row_of(size_t cell) {
    struct row row;
    uint64_t head[SILL_HEAD_TOLD];
    size_t at[COLUMNS], child = cell + 1;
    sill_head(bytes, len, word(cell, SILL_CELL_START), head);
    if (head[SILL_HEAD_TAG] != 104 || head[SILL_FIELD] != COLUMNS)
        refuse("the row at byte %u is no tuple of %d", word(cell, SILL_CELL_START), COLUMNS);
    for (int i = 0; i < COLUMNS; i++, child += word(child, SILL_CELL_SIZE)) at[i] = word(child, SILL_CELL_START);
    row.seconds = integer(at[0], "seconds");
    row.millivolts = integer(at[1], "millivolts");
    row.milliamps = integer(at[2], "milliamps");
    row.degrees = real(at[3], "degrees");
    return row;
}

/* The rows, each as many cells behind the one before as that one's subtree has. */
static size_t rows_of(size_t list, size_t cells) {
    uint64_t head[SILL_HEAD_TOLD];
    size_t cell = cell_at(list, cells), row;
    sill_head(bytes, len, list, head);
    if (head[SILL_HEAD_TAG] == 106) return 0;
    if (head[SILL_HEAD_TAG] != 108) refuse("rows at byte %zu are no list", list);
    if (ROWS < head[SILL_FIELD])
        refuse("%llu rows, and the table has room for %d", (unsigned long long)head[SILL_FIELD], ROWS);
    row = cell + 1;
    for (uint64_t i = 0; i < head[SILL_FIELD]; i++, row += word(row, SILL_CELL_SIZE)) table[i] = row_of(row);
    if (word(row, SILL_CELL_TAG) != 106) refuse("the list of rows at byte %zu is not proper", list);
    return head[SILL_FIELD];
}

/* The answer {ack, Channel, Rows, Cell}: how many bytes it has. Its items stand in the order in which they are written, the tuple before its four
 * children. Their texts are parts of one run of bytes: the record's own, where the cell's name is, and the answer's name behind them. */
static size_t acknowledge(int64_t channel, size_t rows, const uint64_t *cell) {
    const struct sill_item items[] = {
        {SILL_TUPLE, 4, 0},
        {SILL_ATOM, len, strlen(ack)},
        {SILL_INTEGER, (uint64_t)channel, 0},
        {SILL_INTEGER, rows, 0},
        {SILL_BINARY, cell[0], cell[1]},
    };
    uint64_t told[SILL_WRITE_TOLD];
    memcpy(bytes + len, ack, strlen(ack));
    sill_write((const uint64_t *)items, SILL_ITEM * (sizeof items / sizeof *items), bytes, len + strlen(ack), answer, ANSWER, told);
    if (told[0] != SILL_DONE)
        refuse("no answer can be written: %s (%llu), extra %llu", named(told[0]), (unsigned long long)told[0], (unsigned long long)told[2]);
    return told[1];
}

int main(int argc, char **argv) {
    uint64_t told[SILL_TOLD], path[SILL_PATH], name[SILL_PART_TOLD];
    FILE *in;
    size_t rows, answered;
    int64_t channel;
    if (argc != 2 || (in = fopen(argv[1], "rb")) == NULL) {
        fprintf(stderr, "usage: example FILE, a record that can be read\n");
        return 1;
    }
    file = argv[1];
    len = fread(bytes, 1, RECORD, in);
    if (fgetc(in) != EOF) refuse("over %d bytes", RECORD);
    fclose(in);

    sill_read(bytes, len, SILL_DEEPEST, tape, CELLS * SILL_CELL, told, path);
    if (told[SILL_NUMBER] != SILL_DONE) refuse_told(told, path);

    channel = integer(value_of("channel"), "channel");
    cell_name(value_of("cell"), name);
    rows = rows_of(value_of("rows"), told[SILL_BEGUN]);
    answered = acknowledge(channel, rows, name);

    printf("channel %lld, cell %.*s, %zu rows\n", (long long)channel, (int)name[1], (const char *)bytes + name[0], rows);
    printf("%8s %8s %8s %8s\n", "s", "mV", "mA", "C");
    for (size_t i = 0; i < rows; i++)
        printf("%8lld %8lld %8lld %8.2f\n", (long long)table[i].seconds, (long long)table[i].millivolts,
               (long long)table[i].milliamps, table[i].degrees);
    printf("answer");
    for (size_t i = 0; i < answered; i++) printf(" %02x", answer[i]);
    printf("\n");
    return 0;
}
