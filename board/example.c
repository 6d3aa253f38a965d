/* The boards' example: reads a record of the bench from standard input, walks its tape, prints its rows as a table, and answers with an acknowledgement.
 *
 * A record is a map that has a channel, a cell and a list of rows, each a tuple of seconds, millivolts, milliamps and degrees. What else the map has is
 * named. Everything is judged, the page written and the acknowledgement with it, before anything is printed: what is printed is the whole record and
 * its answer. Anything else is refused aloud: the reason goes to standard error, nothing to standard output, and the status is 1. Only where standard
 * output itself fails can a part have been printed, and that is told as well.
 *
 * It asks jig/port.h for its bytes and has all its memory below, so that it runs on a jig as it does on a desk. */
#include <string.h>

#include "decimal.h"
#include "port.h"
#include "sillthread.h"

enum { RECORD = 65536, CELLS = 3276, ROWS = 9, COLUMNS = 4, ANSWER = 48, PAGE = 4096, COLUMN = 11 };

/* The one name of the answer that isn't in the record. */
static const char ack[] = "ack";

/* All the memory that is used: the record with that name behind it, its tape, the table, the answer, and the page that is printed. */
static uint8_t bytes[RECORD + sizeof ack];
static uint32_t tape[CELLS * SILL_CELL];
static uint8_t answer[ANSWER];
static char page[PAGE];

static struct row {
    int64_t numbers[COLUMNS - 1];
    uint64_t degrees;
} table[ROWS];

static uint64_t len, cells;
static size_t written;

/* Text, onto the page. What no longer fits sets `written` past its end, and nothing is printed then. */
static void put_bytes(const void *text, uint64_t n) {
    if (PAGE < written || PAGE - written < n) {
        written = PAGE + 1;
        return;
    }
    memcpy(page + written, text, (size_t)n);
    written += (size_t)n;
}

static void put(const char *text) { put_bytes(text, strlen(text)); }

/* A number, to the right of a column of so many letters; with its last two digits behind a point where it is one of hundredths. */
static void put_decimal(int minus, uint64_t n, int hundredths, int column) {
    char text[2 + DECIMAL] = "00";
    size_t zeros = 2, digits = decimal(n, text + zeros);
    /* at least one digit stands before a point */
    for (; hundredths && digits < 3; zeros--) digits++;
    for (int i = minus + (int)digits + hundredths; i < column; i++) put(" ");
    if (minus) put("-");
    put_bytes(text + zeros, hundredths ? digits - 2 : digits);
    if (hundredths) put("."), put_bytes(text + zeros + digits - 2, 2);
}

static void put_number(uint64_t n) { put_decimal(0, n, 0, 0); }

static void put_integer(int64_t n, int column) { put_decimal(n < 0, n < 0 ? 0 - (uint64_t)n : (uint64_t)n, 0, column); }

static void put_hex(uint8_t byte) {
    const char digits[] = "0123456789abcdef";
    put_bytes(&digits[byte >> 4], 1), put_bytes(&digits[byte & 15], 1);
}

/* A refusal: what stands on the page by now is what is said. */
__attribute__((noreturn)) static void refuse(void) {
    put("\n");
    port_write(PORT_ERR, page, written <= PAGE ? written : PAGE);
    port_end(1);
}

/* Begins one, with nothing else on the page. */
static void refusal(const char *why) { written = 0, put("refused: "), put(why); }

__attribute__((noreturn)) static void refuse_for(const char *why) {
    refusal(why);
    refuse();
}

__attribute__((noreturn)) static void refuse_at(const char *what, uint64_t at, const char *why) {
    refusal(what), put(" at byte "), put_number(at), put(why);
    refuse();
}

/* A call's refusal, by its number and its extra. */
static void put_refusal(uint64_t number, uint64_t extra) {
    put(sill_number_name(number)), put(" ("), put_number(number), put("), extra "), put_number(extra);
}

__attribute__((noreturn)) static void refuse_read(const uint64_t *told, const uint64_t *path) {
    refusal(""), put_refusal(told[SILL_READ_NUMBER], told[SILL_READ_EXTRA]);
    put(", at byte "), put_number(told[SILL_READ_OFFSET]), put(", path=");
    for (uint64_t i = 0; i < told[SILL_READ_SEGMENTS]; i++)
        put(i ? "/" : ""), put(sill_segment_name(path[2 * i])), put(":"), put_number(path[2 * i + 1]);
    refuse();
}

/* The tape: a word of a cell, and the cell behind its subtree. */
static uint32_t word(uint64_t cell, enum sill_cell which) { return tape[cell * SILL_CELL + which]; }
static uint64_t start_of(uint64_t cell) { return word(cell, SILL_CELL_START); }
static uint64_t behind(uint64_t cell) { return cell + word(cell, SILL_CELL_SIZE); }

/* The head at a place. The record was accepted, so that its heads are too; were one refused, it would be said and not taken for a number. */
static uint64_t head_at(uint64_t at, uint64_t head[SILL_HEAD_TOLD]) {
    sill_head(bytes, len, at, head);
    if (head[SILL_HEAD_NUMBER] != SILL_DONE) {
        refusal("the head at byte "), put_number(at), put(": "), put_refusal(head[SILL_HEAD_NUMBER], head[SILL_HEAD_EXTRA]);
        refuse();
    }
    return head[SILL_HEAD_TAG];
}

static int is_atom(uint64_t tag) { return tag == 100 || tag == 118 || tag == 119; }
static int is_integer(uint64_t tag) { return tag == 97 || tag == 98; }

/* A name, by its place and length, which must be text that can be shown: UTF-8 without a control character, of one byte or two. */
static void put_name(const char *what, uint64_t at, const uint64_t part[SILL_PART_TOLD]) {
    const uint8_t *text = bytes + part[SILL_PART_PLACE];
    const uint64_t n = part[SILL_PART_LENGTH];
    if (sill_utf8(text, n) != n) refuse_at(what, at, " has a name that is not UTF-8");
    for (uint64_t i = 0; i < n; i++) {
        if (text[i] == 0) refuse_at(what, at, " has a name with a byte 0 in it");
        if (text[i] < 32 || text[i] == 127 || (text[i] == 0xc2 && text[i + 1] < 0xa0)) refuse_at(what, at, " has a name with a control character in it");
    }
    put_bytes(text, n);
}

/* Keys are the same where they are atoms of one name, integers of tags 97 and 98 with one value, or have the same bytes. */
static int same_key(uint64_t a, uint64_t b) {
    uint64_t x[SILL_HEAD_TOLD], y[SILL_HEAD_TOLD];
    uint64_t from = start_of(a), to = start_of(b), n = word(a, SILL_CELL_END) - from, m = word(b, SILL_CELL_END) - to;
    const uint64_t s = head_at(from, x), t = head_at(to, y);
    if (is_integer(s) && is_integer(t)) return x[SILL_HEAD_FIELD] == y[SILL_HEAD_FIELD];
    if (is_atom(s) && is_atom(t)) from = x[SILL_HEAD_FIELD], n = x[SILL_HEAD_FIELD + 1], to = y[SILL_HEAD_FIELD], m = y[SILL_HEAD_FIELD + 1];
    return n == m && memcmp(bytes + from, bytes + to, (size_t)n) == 0;
}

/* Each key of the map stands once in it. Its cells come by twos, a key's and its value's, from the one behind the map's own on. */
static void keys_once(void) {
    for (uint64_t a = 1; a < cells; a = behind(behind(a)))
        for (uint64_t b = behind(behind(a)); b < cells; b = behind(behind(b)))
            if (same_key(a, b)) {
                refusal("the key at byte "), put_number(start_of(a)), put(" stands once more at byte "), put_number(start_of(b));
                refuse();
            }
}

/* The cell of the value of a name in the map: the lookup tells its place, and the values' cells are searched for that. */
static uint64_t value_of(const char *name) {
    uint64_t told[SILL_READ_TOLD], path[SILL_PATH], value = 1;
    sill_find_name(bytes, len, 1, SILL_NESTING, (const uint8_t *)name, strlen(name), told, path);
    if (told[SILL_READ_NUMBER] == SILL_ABSENT) {
        refusal("the map has no "), put(name);
        refuse();
    }
    if (told[SILL_READ_NUMBER] != SILL_DONE) refuse_read(told, path);
    for (uint64_t key = 1; key < cells; key = behind(value)) {
        value = behind(key);
        if (start_of(value) == told[SILL_READ_OFFSET]) return value;
    }
    refuse_at("the value", told[SILL_READ_OFFSET], " has no cell");
}

static int64_t integer(uint64_t cell, const char *what) {
    uint64_t head[SILL_HEAD_TOLD];
    if (!is_integer(head_at(start_of(cell), head))) refuse_at(what, start_of(cell), " is no integer of tag 97 or 98");
    return (int64_t)head[SILL_HEAD_FIELD];
}

/* Degrees, as the bits of a double. */
static uint64_t degrees(uint64_t cell) {
    uint64_t head[SILL_HEAD_TOLD];
    if (head_at(start_of(cell), head) != 70) refuse_at("degrees", start_of(cell), " is no float of tag 70");
    if (1023 + 13 <= (head[SILL_HEAD_FIELD] >> 52 & 2047)) refuse_at("degrees", start_of(cell), " is no number below 8192");
    return head[SILL_HEAD_FIELD];
}

/* Hundredths of a degree, rounded to the nearest and of two equally near to the even one: 100 m 2^-shift, where the double is m 2^-shift. */
static void put_degrees(uint64_t bits) {
    const uint64_t fraction = bits << 12 >> 12, exponent = bits >> 52 & 2047;
    const uint64_t m = exponent ? fraction | 1ull << 52 : fraction, shift = 1075 - (exponent ? exponent : 1);
    uint64_t n = 0;
    if (shift < 64) {
        const uint64_t rest = 100 * m << (64 - shift), half = 1ull << 63;
        n = 100 * m >> shift;
        if (half < rest || (half == rest && n % 2)) n++;
    }
    put_decimal((int)(bits >> 63), n, 1, COLUMN);
}

/* The four columns of a row, whose cells stand behind its own. */
static struct row row_of(uint64_t cell) {
    static const char *const columns[] = {"seconds", "millivolts", "milliamps"};
    struct row row;
    uint64_t head[SILL_HEAD_TOLD], child = cell + 1;
    if (head_at(start_of(cell), head) != 104 || head[SILL_HEAD_FIELD] != COLUMNS)
        refuse_at("the row", start_of(cell), " is no tuple of tag 104 with four elements");
    for (int i = 0; i < COLUMNS - 1; i++, child = behind(child)) row.numbers[i] = integer(child, columns[i]);
    row.degrees = degrees(child);
    return row;
}

/* The rows, each as many cells behind the one before as that one's subtree has: all of them, or none where the table hasn't room for all. */
static uint64_t rows_of(uint64_t list) {
    uint64_t head[SILL_HEAD_TOLD], row = list + 1;
    const uint64_t tag = head_at(start_of(list), head);
    if (tag == 106) return 0;
    if (tag != 108) refuse_at("rows", start_of(list), " is no list of tag 106 or 108");
    if (ROWS < head[SILL_HEAD_FIELD]) {
        refusal(""), put_number(head[SILL_HEAD_FIELD]), put(" rows, and the table has room for "), put_number(ROWS);
        refuse();
    }
    for (uint64_t i = 0; i < head[SILL_HEAD_FIELD]; i++, row = behind(row)) table[i] = row_of(row);
    if (word(row, SILL_CELL_TAG) != 106) refuse_at("the list of rows", start_of(list), " is not proper");
    return head[SILL_HEAD_FIELD];
}

/* The answer {ack, Channel, Rows, Cell}: how many bytes it has. Its items stand in the order in which they are written, the tuple before its four
 * children. Their texts are parts of one run of bytes: the record's own, where the cell's name is, and the answer's name behind them. */
static uint64_t acknowledge(int64_t channel, uint64_t rows, const uint64_t *cell) {
    const struct sill_item items[] = {
        {SILL_TUPLE, 4, 0},
        {SILL_ATOM, len, strlen(ack)},
        {SILL_INTEGER, (uint64_t)channel, 0},
        {SILL_INTEGER, rows, 0},
        {SILL_BINARY, cell[SILL_PART_PLACE], cell[SILL_PART_LENGTH]},
    };
    uint64_t told[SILL_WRITE_TOLD];
    memcpy(bytes + len, ack, strlen(ack));
    sill_write((const uint64_t *)items, SILL_ITEM * (sizeof items / sizeof *items), bytes, len + strlen(ack), answer, ANSWER, told);
    if (told[SILL_WRITE_NUMBER] != SILL_DONE) {
        refusal("no answer can be written: "), put_refusal(told[SILL_WRITE_NUMBER], told[SILL_WRITE_EXTRA]);
        refuse();
    }
    return told[SILL_WRITE_LENGTH];
}

/* The whole record, from standard input. */
static void take_record(void) {
    long came;
    while ((came = port_read(bytes + len, (size_t)(RECORD + 1 - len))) > 0) {
        len += (uint64_t)came;
        if (RECORD < len) {
            refusal("over "), put_number(RECORD), put(" bytes");
            refuse();
        }
    }
    if (came < 0) refuse_for("the record can't be read");
}

/* Its tape. */
static void read_record(void) {
    uint64_t told[SILL_READ_TOLD], path[SILL_PATH];
    sill_read(bytes, len, SILL_NESTING, tape, CELLS * SILL_CELL, told, path);
    if (told[SILL_READ_NUMBER] != SILL_DONE) refuse_read(told, path);
    if (word(0, SILL_CELL_TAG) != 116) refuse_at("the term", 1, " is no map");
    cells = told[SILL_READ_TERMS];
}

static void put_table(uint64_t rows) {
    put("          s          mV          mA           C\n");
    for (uint64_t i = 0; i < rows; i++) {
        for (int k = 0; k < COLUMNS - 1; k++) put_integer(table[i].numbers[k], COLUMN), put(" ");
        put_degrees(table[i].degrees), put("\n");
    }
}

/* The keys that the table has no place for: an atom in quotes, an integer, and any other by what and where it is. */
static void put_others(uint64_t channel, uint64_t cell, uint64_t rows) {
    uint64_t head[SILL_HEAD_TOLD], value, others = 0;
    for (uint64_t key = 1; key < cells; key = behind(value)) {
        value = behind(key);
        if (value == channel || value == cell || value == rows) continue;
        const uint64_t tag = head_at(start_of(key), head);
        put(others++ ? ", " : "not in the table: ");
        if (is_integer(tag)) put_integer((int64_t)head[SILL_HEAD_FIELD], 0);
        else if (is_atom(tag)) put("'"), put_name("the key", start_of(key), head + SILL_HEAD_FIELD), put("'");
        else put("a key of tag "), put_number(tag), put(" at byte "), put_number(start_of(key));
    }
    if (others) put("\n");
}

int main(void) {
    uint64_t head[SILL_HEAD_TOLD], name[SILL_PART_TOLD], channel_cell, name_cell, rows_cell, rows, answered;
    int64_t channel;
    if (sill_interface() != SILL_INTERFACE) refuse_for("the library has another interface than this program");
    take_record();
    read_record();
    keys_once();
    channel_cell = value_of("channel"), name_cell = value_of("cell"), rows_cell = value_of("rows");
    channel = integer(channel_cell, "channel");
    if (head_at(start_of(name_cell), head) != 109) refuse_at("cell", start_of(name_cell), " is no binary");
    sill_part(bytes, len, start_of(name_cell), name);
    rows = rows_of(rows_cell);
    answered = acknowledge(channel, rows, name);

    put("channel "), put_integer(channel, 0), put(", cell "), put_name("cell", start_of(name_cell), name);
    put(", "), put_number(rows), put(rows == 1 ? " row\n" : " rows\n");
    put_table(rows);
    put_others(channel_cell, name_cell, rows_cell);
    put("answer");
    for (uint64_t i = 0; i < answered; i++) put(" "), put_hex(answer[i]);
    put("\n");
    if (PAGE < written) refuse_for("more to print than the page has room for");
    if (port_write(PORT_OUT, page, written) != 0) refuse_for("the table could not be written");
    return 0;
}
