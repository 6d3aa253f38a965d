// What the benchmark reads. First records as a battery bench writes them: a pack's map with its state, limits, cells and the steps it went
// through, of small integers, atoms, floats, binaries, tuples, lists and maps, six deep. Then inputs of one kind of term each. The numbers
// come from a fixed seed, so that every run reads the same bytes.
#include <stdint.h>
#include <string.h>

struct out {
    uint8_t *b;
    size_t n;
    uint32_t seed;
};

static uint32_t draw(struct out *o, uint32_t below) {
    o->seed = o->seed * 1664525 + 1013904223;
    return (o->seed >> 16) % below;
}

static void byte(struct out *o, unsigned x) { o->b[o->n++] = (uint8_t)x; }

static void word(struct out *o, uint32_t x) {
    for (int i = 24; 0 <= i; i -= 8) byte(o, x >> i & 255);
}

static void small(struct out *o, unsigned x) { byte(o, 97), byte(o, x); }

static void integer(struct out *o, uint32_t x) { byte(o, 98), word(o, x); }

static void real(struct out *o, double x) {
    uint64_t bits;
    memcpy(&bits, &x, 8);
    byte(o, 70), word(o, (uint32_t)(bits >> 32)), word(o, (uint32_t)bits);
}

// A length of one byte, and so many bytes.
static void atom_name(struct out *o, const char *name) {
    byte(o, (unsigned)strlen(name));
    while (*name) byte(o, (uint8_t)*name++);
}

// The atoms of a pack, its states first.
static const char *const atoms[] = {"idle",   "charging", "discharging", "balancing", "full",  "low",   "warm", "ok",      "serial", "at",
                                    "state",  "limits",   "volts",       "amps",      "cells", "steps", "step", "samples", "note"};

enum { STATES = 8, ATOMS = sizeof atoms / sizeof *atoms };

static const char *state(struct out *o) { return atoms[draw(o, STATES)]; }

// By its name, or behind a header by its position among those of a pack.
static void atom(struct out *o, const char *name) {
    unsigned k = 0;
    if (o->b[1] != 68) {
        byte(o, 119), atom_name(o, name);
        return;
    }
    while (strcmp(atoms[k], name) != 0) k++;
    byte(o, 82), byte(o, k);
}

static void binary(struct out *o, uint32_t n) {
    byte(o, 109), word(o, n);
    while (n--) byte(o, draw(o, 256));
}

static void tuple(struct out *o, unsigned n) { byte(o, 104), byte(o, n); }

static void list(struct out *o, uint32_t n) { byte(o, 108), word(o, n); }

static void map(struct out *o, uint32_t n) { byte(o, 116), word(o, n); }

static void nil(struct out *o) { byte(o, 106); }

static void limit(struct out *o, const char *name) {
    atom(o, name), tuple(o, 2), real(o, 2.5 + draw(o, 100) / 64.0), real(o, 4.0 + draw(o, 100) / 64.0);
}

// {Number, Volts, Temperature, State}
static void cell(struct out *o, unsigned i) {
    tuple(o, 4), small(o, i), real(o, 3.0 + draw(o, 1000) / 1024.0), small(o, draw(o, 80)), atom(o, state(o));
}

// {step, State, Seconds, #{amps => .., samples => [..], at => {Row, Column}}}
static void step(struct out *o) {
    tuple(o, 4), atom(o, "step"), atom(o, state(o)), integer(o, draw(o, 60000));
    map(o, 3);
    atom(o, "amps"), integer(o, draw(o, 60000));
    atom(o, "samples");
    uint32_t n = 1 + draw(o, 6);
    list(o, n);
    while (n--) small(o, draw(o, 256));
    nil(o);
    atom(o, "at"), tuple(o, 2), small(o, draw(o, 16)), small(o, draw(o, 16));
}

// One pack: some 1,000 bytes.
static void pack(struct out *o) {
    map(o, 7);
    atom(o, "serial"), binary(o, 12);
    atom(o, "at"), integer(o, draw(o, 60000));
    atom(o, "state"), atom(o, state(o));
    atom(o, "limits"), map(o, 2), limit(o, "volts"), limit(o, "amps");
    atom(o, "cells"), list(o, 14);
    for (unsigned i = 0; i < 14; i++) cell(o, i);
    nil(o);
    atom(o, "steps"), list(o, 6);
    for (int i = 0; i < 6; i++) step(o);
    nil(o);
    atom(o, "note"), binary(o, 64 + draw(o, 64));
}

// The longest that a pack can be.
#define PACK 1200

// The number of elements of the list that a record is.
static void count(uint8_t *b, uint32_t n) {
    struct out o = {b, 2, 0};
    word(&o, n);
}

// A record of one pack, or in more than twice its room a list of as many as are sure to fit in `most` bytes. Answers its length.
static size_t record(uint8_t *b, size_t most) {
    struct out o = {b, 0, 1};
    byte(&o, 131);
    if (most <= 2 * PACK) {
        pack(&o);
        return o.n;
    }
    list(&o, 0);
    uint32_t n = 0;
    while (o.n + PACK < most) pack(&o), n++;
    nil(&o);
    count(b, n);
    return o.n;
}

// A list of as many of `one` as are sure to fit, none of them longer than `longest`.
static size_t list_of(uint8_t *b, size_t most, size_t longest, void (*one)(struct out *)) {
    struct out o = {b, 0, 1};
    byte(&o, 131), list(&o, 0);
    uint32_t n = 0;
    while (o.n + longest < most) one(&o), n++;
    nil(&o);
    count(b, n);
    return o.n;
}

static void an_integer(struct out *o) { small(o, draw(o, 256)); }

static void a_binary(struct out *o) { binary(o, 3000 + draw(o, 500)); }

static void a_long_atom(struct out *o) {
    byte(o, 119), byte(o, 255);
    for (int i = 0; i < 255; i++) byte(o, 'a' + draw(o, 26));
}

static const char *const foreign[] = {"größe", "spänning", "напруга", "зарядка", "電圧", "温度センサー", "tension_élevée", "τάση"};

static void a_foreign_atom(struct out *o) { atom(o, foreign[draw(o, 8)]); }

static size_t integers(uint8_t *b, size_t most) { return list_of(b, most, 3, an_integer); }

static size_t binaries(uint8_t *b, size_t most) { return list_of(b, most, 3506, a_binary); }

static size_t long_atoms(uint8_t *b, size_t most) { return list_of(b, most, 258, a_long_atom); }

static size_t foreign_atoms(uint8_t *b, size_t most) { return list_of(b, most, 24, a_foreign_atom); }

// A map with integers as its keys, from 0 on.
static size_t numbered(uint8_t *b, size_t entries) {
    struct out o = {b, 0, 1};
    byte(&o, 131), map(&o, (uint32_t)entries);
    for (uint32_t i = 0; i < entries; i++) i < 256 ? small(&o, i) : integer(&o, i), small(&o, draw(&o, 256));
    return o.n;
}

// An atom header that brings `names` new names, and refers to each once more.
static size_t header(uint8_t *b, size_t names) {
    struct out o = {b, 0, 1};
    byte(&o, 131), byte(&o, 68), byte(&o, (unsigned)(2 * names));
    for (size_t i = 0; i <= names; i++) byte(&o, i < names / 2 ? 0x88 : 0);
    for (size_t i = 0; i < names; i++) byte(&o, (unsigned)(7 * i % 256)), atom_name(&o, state(&o));
    for (size_t i = 0; i < names; i++) byte(&o, (unsigned)(7 * i % 256));
    return o.n;
}

// A header that refers to the atoms of a pack, each in a slot of its own: new ones, as a drawer tells them once, or old ones.
static void opening(struct out *o, int new) {
    byte(o, 131), byte(o, 68), byte(o, ATOMS);
    for (unsigned i = 0; i <= ATOMS / 2; i++) byte(o, new ? 0x88 : 0);
    for (unsigned i = 0; i < ATOMS; i++) {
        byte(o, 7 * i);
        if (new) atom_name(o, atoms[i]);
    }
}

static size_t told_once(uint8_t *b) {
    struct out o = {b, 0, 1};
    opening(&o, 1);
    return o.n;
}

// Messages: a pack, and a list of positions.
static size_t message(uint8_t *b, size_t unused) {
    (void)unused;
    struct out o = {b, 0, 1};
    opening(&o, 0), pack(&o);
    return o.n;
}

static size_t positions(uint8_t *b, size_t most) {
    struct out o = {b, 0, 1};
    opening(&o, 0);
    uint32_t n = (uint32_t)(most - o.n - 6) / 2;
    list(&o, n);
    while (n--) byte(&o, 82), byte(&o, draw(&o, ATOMS));
    nil(&o);
    return o.n;
}

// Texts, of letters and of the foreign names.
static size_t letters(uint8_t *b, size_t most) {
    struct out o = {b, 0, 1};
    while (o.n < most) byte(&o, 'a' + draw(&o, 26));
    return o.n;
}

static size_t foreign_text(uint8_t *b, size_t most) {
    struct out o = {b, 0, 1};
    while (o.n + 24 < most) {
        for (const char *name = foreign[draw(&o, 8)]; *name; name++) byte(&o, (uint8_t)*name);
        byte(&o, ' ');
    }
    return o.n;
}

// Tuples in tuples, and nil in the last.
static size_t nested(uint8_t *b, size_t tuples) {
    struct out o = {b, 0, 1};
    byte(&o, 131);
    while (tuples--) tuple(&o, 1);
    nil(&o);
    return o.n;
}

// {5, a}
static size_t three_terms(uint8_t *b, size_t unused) {
    (void)unused;
    struct out o = {b, 0, 1};
    byte(&o, 131), tuple(&o, 2), small(&o, 5), atom(&o, "a");
    return o.n;
}

// A term of every tag, as a record or as a message: read to see that two readers answer alike, and not timed.
static size_t every_tag(uint8_t *b, int as_message) {
    struct out o = {b, 0, 1};
    if (as_message) opening(&o, 0);
    else byte(&o, 131);
    byte(&o, 105), word(&o, 16);
    small(&o, 255), integer(&o, 0xFFFFFFFF), real(&o, -0.5);
    byte(&o, 99);
    const char *text = "-1.50000000000000000000e+01";
    for (size_t i = 0; i < 31; i++) byte(&o, i < strlen(text) ? (uint8_t)text[i] : 0);
    byte(&o, 100), byte(&o, 0), atom_name(&o, "ok");
    byte(&o, 118), byte(&o, 0), atom_name(&o, "grün");
    byte(&o, 107), byte(&o, 0), atom_name(&o, "abc");
    binary(&o, 5);
    byte(&o, 77), word(&o, 2), byte(&o, 3), byte(&o, 255), byte(&o, 224);
    byte(&o, 110), byte(&o, 9), byte(&o, 1), word(&o, 1), word(&o, 2), byte(&o, 3);
    byte(&o, 111), word(&o, 4), byte(&o, 0), word(&o, 5);
    list(&o, 1), small(&o, 1), small(&o, 2);
    byte(&o, 90), byte(&o, 0), byte(&o, 2), atom(&o, "cells"), word(&o, 3), word(&o, 1), word(&o, 2);
    byte(&o, 120), atom(&o, "cells"), word(&o, 0), word(&o, 7), word(&o, 3);
    byte(&o, 113), atom(&o, "steps"), atom(&o, "step"), small(&o, 2);
    byte(&o, 112), word(&o, 0), byte(&o, 1);
    for (int i = 0; i < 16; i++) byte(&o, 0);
    word(&o, 1), word(&o, 2), atom(&o, "steps"), small(&o, 1), integer(&o, 2);
    byte(&o, 88), atom(&o, "cells"), word(&o, 1), word(&o, 0), word(&o, 3);
    map(&o, 1), atom(&o, "at"), nil(&o), tuple(&o, 1), small(&o, 9);
    return o.n;
}
