// What the benchmark writes: rows of items, each made of a record (bench/records.h), so that what is written is that record's terms again; and
// C's ei driven by the same row.
#include <stdint.h>
#include <string.h>

#include "../jig/sillthread.h"

enum { ITEMS = 1 << 20, TEXTS = 1 << 20 };

// A row, and its names and binaries end to end.
struct items {
    struct sill_item item[ITEMS];
    uint8_t text[TEXTS];
    size_t n, texts;
};

static struct sill_item with_text(struct items *row, enum sill_kind kind, const uint8_t *from, size_t n) {
    struct sill_item item = {kind, row->texts, n};
    memcpy(row->text + row->texts, from, n);
    row->texts += n;
    return item;
}

// What stands at a place of the record, by its tag: one of those that records.h writes.
static struct sill_item item_at(struct items *row, const uint8_t *b, size_t len, size_t at) {
    uint64_t told[SILL_HEAD_TOLD], *field = told + SILL_HEAD_FIELD;
    sill_head(b, len, at, told);
    switch (told[SILL_HEAD_TAG]) {
    case 97:
    case 98: return (struct sill_item){SILL_INTEGER, field[0], 0};
    case 70: return (struct sill_item){SILL_DOUBLE, field[0], 0};
    case 119: return with_text(row, SILL_ATOM, b + field[0], field[1]);
    case 109: return with_text(row, SILL_BINARY, b + field[0], field[1]);
    case 104: return (struct sill_item){SILL_TUPLE, field[0], 0};
    case 108: return (struct sill_item){SILL_LIST, field[0], 0};
    case 116: return (struct sill_item){SILL_MAP, field[0], 0};
    default: return (struct sill_item){SILL_NIL, 0, 0};
    }
}

// The items of a record with so many cells: its terms, but for the tails of lists, which end where their list does.
static void items_of(struct items *row, const uint8_t *b, size_t len, const uint32_t *tape, size_t cells) {
    row->n = row->texts = 0;
    for (size_t i = 0; i < cells; i++) {
        const uint32_t *cell = tape + SILL_CELL * i, *parent = tape + SILL_CELL * cell[SILL_CELL_PARENT];
        if (i && parent[SILL_CELL_TAG] == 108 && parent[SILL_CELL_END] == cell[SILL_CELL_END]) continue;
        row->item[row->n++] = item_at(row, b, len, cell[SILL_CELL_START]);
    }
}

// How many bytes these items take, none of which is 110, 118 or 105.
static size_t bytes_of(const struct items *row) {
    size_t n = 1;
    for (const struct sill_item *item = row->item; item < row->item + row->n; item++) switch (item->kind) {
        case SILL_INTEGER: n += item->x < 256 ? 2 : 5; break;
        case SILL_DOUBLE: n += 9; break;
        case SILL_ATOM: n += 2 + item->y; break;
        case SILL_BINARY: n += 5 + item->y; break;
        case SILL_TUPLE: n += 2; break;
        case SILL_LIST: n += 6; break;
        case SILL_MAP: n += 5; break;
        default: n += 1;
        }
    return n;
}

#ifdef EI
#include <ei.h>

// Writes the row by ei, and judges nothing but what ei does itself: the UTF-8 of names. `left` counts what the innermost open item still has to
// come, its children by twos and one for a tail; `open` has the same of those around it. Answers the bytes written, which are ours but where a
// list is empty (106) or an integer has 28 to 31 bits (110).
static size_t ei_written(const struct items *row, uint8_t *out) {
    const char *texts = (const char *)row->text;
    char *b = (char *)out;
    uint64_t open[SILL_NESTING], left = 2;
    int n = 0, depth = 0;
    double x;
    ei_encode_version(b, &n);
    for (const struct sill_item *item = row->item; item < row->item + row->n; item++) {
        left -= 2;
        switch (item->kind) {
        case SILL_INTEGER: ei_encode_longlong(b, &n, (long long)item->x); break;
        case SILL_DOUBLE: memcpy(&x, &item->x, sizeof x), ei_encode_double(b, &n, x); break;
        case SILL_ATOM: ei_encode_atom_len_as(b, &n, texts + item->x, (int)item->y, ERLANG_UTF8, ERLANG_UTF8); break;
        case SILL_BINARY: ei_encode_binary(b, &n, texts + item->x, (long)item->y); break;
        case SILL_TUPLE: ei_encode_tuple_header(b, &n, (long)item->x), open[depth++] = left, left = 2 * item->x; break;
        case SILL_LIST: ei_encode_list_header(b, &n, (long)item->x), open[depth++] = left, left = 2 * item->x + 1; break;
        case SILL_MAP: ei_encode_map_header(b, &n, (long)item->x), open[depth++] = left, left = 4 * item->x; break;
        default: ei_encode_empty_list(b, &n);
        }
        while (left < 2 && depth) {
            if (left) ei_encode_empty_list(b, &n);
            left = open[--depth];
        }
    }
    return (size_t)n;
}
#endif
