/* What reading costs on a board, in instructions a byte: with the tape, and without it. QEMU counts them, where it is run with -icount shift=0. The
 * records are those of ./speed. */
#include <string.h>

#include "board.h"
#include "decimal.h"
#include "port.h"
#include "sillthread.h"

#pragma GCC diagnostic ignored "-Wunused-function"
#include "../bench/records.h"

enum { BYTES = 65536, CELLS = 13300, ENOUGH = 1000000, COLUMN = 9 };

static uint8_t bytes[BYTES];
static uint32_t tape[CELLS * SILL_CELL];
static uint64_t told[SILL_READ_TOLD], path[SILL_PATH], len;

static void with_tape(void) { sill_read(bytes, len, SILL_NESTING, tape, CELLS * SILL_CELL, told, path); }
static void alone(void) { sill_term(bytes, len, 1, SILL_NESTING, told, path); }

/* Instructions of one call: of as many as take a while, with those of the loop, which are few. */
static uint64_t instructions(void (*call)(void)) {
    uint64_t calls = 0, n;
    board_count();
    do call(), calls++, n = board_counted();
    while (n < ENOUGH);
    return n / calls;
}

static void put(const char *text) {
    if (port_write(PORT_OUT, text, strlen(text)) != 0) port_end(3);
}

/* To the right of a column. */
static void put_number(uint64_t n) {
    char text[DECIMAL + 1];
    const size_t digits = decimal(n, text);
    for (size_t i = digits; i < COLUMN; i++) put(" ");
    text[digits] = 0;
    put(text);
}

/* One instruction count, and what that is for each byte, in hundredths. */
static void put_cost(uint64_t n) {
    const uint64_t ratio = 100 * n / len;
    const char digits[] = {'.', (char)('0' + ratio / 10 % 10), (char)('0' + ratio % 10), 0};
    put_number(n), put("   "), put_number(ratio / 100), put(digits);
}

static void row(const char *what, size_t made) {
    len = made;
    with_tape();
    if (told[SILL_READ_NUMBER] != SILL_DONE) put(what), put(" is refused\n"), port_end(1);
    put(what), put_number(len), put_number(told[SILL_READ_TERMS]);
    put_cost(instructions(with_tape)), put_cost(instructions(alone)), put("\n");
}

int main(void) {
    put("instructions                             with its tape, a byte           alone, a byte\n");
    put("                       bytes    terms\n");
    row("1 KiB record       ", record(bytes, 1024));
    row("16 KiB record      ", record(bytes, 16384));
    row("64 KiB record      ", record(bytes, BYTES));
    row("small integers     ", integers(bytes, 16384));
    row("binaries           ", binaries(bytes, BYTES));
    row("long atoms         ", long_atoms(bytes, BYTES));
    row("names not ASCII    ", foreign_atoms(bytes, BYTES));
    row("64 levels          ", nested(bytes, 63));
    row("three terms        ", three_terms(bytes, 0));
    return 0;
}
