// The program of ./texts: our check of UTF-8 and the Rust's in one process, on texts drawn by a seed.
//
//   texts SEED COUNT                asks both about COUNT texts, and stops where their answers differ; else it says what the texts were
//
// The texts are of five kinds, a like share of each, so that every branch of a check is met often.
#include <stdio.h>
#include <stdlib.h>
#include <string.h>

#include "../jig/sillthread.h"

size_t rust_utf8(const uint8_t *b, size_t len);

// Pieces are added to a good text while it has under a drawn number of bytes, up to GOOD; the last may be LETTERS long, and one byte more
// may be put in. BEHIND a text lie as many bytes as our check looks at in one step.
enum { OFFSETS = 8, GOOD = 80, LETTERS = 70, MOST = GOOD + LETTERS + 1, BEHIND = 32 };

static _Alignas(OFFSETS) uint8_t buffer[OFFSETS + MOST + BEHIND];
static uint8_t *text;
static size_t len;
static uint64_t state;

// splitmix64: fast, and near seeds have unlike sequences.
static uint64_t draw(void) {
    uint64_t x = state += 0x9E3779B97F4A7C15;
    x = (x ^ x >> 30) * 0xBF58476D1CE4E5B9;
    x = (x ^ x >> 27) * 0x94D049BB133111EB;
    return x ^ x >> 31;
}

static uint32_t below(uint32_t n) { return (uint32_t)((draw() >> 32) * n >> 32); }

static void byte(uint32_t x) { text[len++] = (uint8_t)x; }

// Where a row of Unicode's Table 3-7 begins or ends, for a lead or for a byte behind it, what lies next to such a byte, and a letter.
static uint32_t bound(void) {
    static const uint8_t bounds[] = {0x00, 0x41, 0x7F, 0x80, 0x8F, 0x90, 0x9F, 0xA0, 0xBF, 0xC0, 0xC1, 0xC2, 0xDF,
                                     0xE0, 0xE1, 0xEC, 0xED, 0xEE, 0xEF, 0xF0, 0xF1, 0xF3, 0xF4, 0xF5, 0xFF};
    return bounds[below(sizeof bounds)];
}

static void any_bytes(void) {
    for (uint32_t n = below(65); n; n--) byte(below(256));
}

static void bounds_alone(void) {
    for (uint32_t n = below(25); n; n--) byte(bound());
}

static void character(uint32_t c) {
    static const uint8_t leads[] = {0x00, 0xC0, 0xE0, 0xF0};
    int more = c < 0x80 ? 0 : c < 0x800 ? 1 : c < 0x10000 ? 2 : 3;
    byte(leads[more] | c >> 6 * more);
    while (more--) byte(0x80 | (c >> 6 * more & 0x3F));
}

// Scalars are counted with no gap, so that none drawn is a surrogate: the first of one byte, of two, three and four, and how many in all.
static const uint32_t first[] = {0, 0x80, 0x800, 0xF800, 0x10F800};

static uint32_t scalar(uint32_t k) { return k < 0xD800 ? k : k + 0x800; }

// Each size is as likely: of all scalars nearly all have four bytes.
static uint32_t any_scalar(void) {
    const uint32_t *of = first + below(4);
    return scalar(of[0] + below(of[1] - of[0]));
}

// Where the size or the row of the table changes.
static uint32_t edge(void) {
    static const uint32_t edges[] = {0x0,    0x7F,   0x80,   0x7FF,   0x800,   0xFFF,   0x1000,  0xCFFF,   0xD000,
                                     0xD7FF, 0xE000, 0xFFFF, 0x10000, 0x3FFFF, 0x40000, 0xFFFFF, 0x100000, 0x10FFFF};
    return edges[below(sizeof edges / sizeof *edges)];
}

static void characters(void) {
    for (uint32_t n = 1 + below(8); n; n--) character(below(2) ? edge() : any_scalar());
}

// Runs of ASCII of every length that a check passes by eights, or by blocks of 32, and ends inside an eight.
static void letters(void) {
    for (uint32_t n = below(LETTERS + 1); n; n--) byte(below(128));
}

static void good(void) {
    size_t enough = below(GOOD + 1);
    for (uint32_t turn = below(2); len < enough; turn++) turn % 2 ? letters() : characters();
}

static uint32_t wrong(void) { return below(2) ? bound() : below(256); }

static void drop_one(void) {
    size_t at = below((uint32_t)len--);
    memmove(text + at, text + at + 1, len - at);
}

static void put_one(void) {
    size_t at = below((uint32_t)len + 1);
    memmove(text + at + 1, text + at, len++ - at);
    text[at] = (uint8_t)wrong();
}

// Half of the cuts take three bytes at most, so that a text good so far often breaks off inside its last character.
static void cut(void) {
    uint32_t n = (uint32_t)len;
    len -= 1 + below(below(2) && 3 < n ? 3 : n);
}

// An empty text can only have a byte put in.
static void damaged(void) {
    good();
    switch (len ? below(4) : 0) {
    case 0: put_one(); break;
    case 1: drop_one(); break;
    case 2: cut(); break;
    default:
        for (uint32_t n = 1 + below(3); n; n--) text[below((uint32_t)len)] = (uint8_t)wrong();
    }
}

// As a name is: 128 characters in a row are its script, all of two bytes or all of three, and one in eight of its characters is ASCII.
static void one_script(void) {
    const uint32_t *of = first + 1 + below(2);
    uint32_t script = of[0] + 128 * below((of[1] - of[0]) / 128);
    for (uint32_t n = 1 + below(40); n; n--) character(below(8) ? scalar(script + below(128)) : below(128));
}

static void (*const kinds[])(void) = {any_bytes, bounds_alone, good, damaged, one_script};

enum { KINDS = sizeof kinds / sizeof *kinds };

// What lies behind the text would complete a cut character, or prolong a run of ASCII, or is anything: a look past the end is told.
static void behind(void) {
    uint32_t lot = below(3);
    for (size_t i = 0; i < BEHIND; i += 8) {
        uint64_t eight = draw();
        if (lot == 0) eight = (eight & 0x3F3F3F3F3F3F3F3F) | 0x8080808080808080;
        if (lot == 1) eight &= 0x7F7F7F7F7F7F7F7F;
        memcpy(text + len + i, &eight, 8);
    }
}

static void print_bytes(const char *what, const uint8_t *b, size_t n) {
    printf("%s", what);
    for (size_t i = 0; i < n; i++) printf(" %02x", b[i]);
    printf("\n");
}

static void make(uint64_t i) {
    // eight offsets and five kinds: each kind comes to each offset
    text = buffer + i % OFFSETS;
    len = 0;
    kinds[i % KINDS]();
    behind();
}

static int is_number(const char *word) { return *word && word[strspn(word, "0123456789")] == 0; }

int main(int argc, char **argv) {
    if (argc != 3 || !is_number(argv[1]) || !is_number(argv[2])) {
        fprintf(stderr, "usage: texts SEED COUNT\n");
        return 1;
    }
    state = strtoull(argv[1], NULL, 10);
    uint64_t count = strtoull(argv[2], NULL, 10), refused = 0, near = 0;
    for (uint64_t i = 0; i < count; i++) {
        make(i);
        size_t ours = sill_utf8(text, len), theirs = rust_utf8(text, len);
        if (ours != theirs) {
            printf("seed %s, text %ju: ours is %zu, the Rust's %zu\n", argv[1], (uintmax_t)i + 1, ours, theirs);
            print_bytes("the text:", text, len);
            print_bytes("behind it:", text + len, BEHIND);
            return 1;
        }
        refused += theirs < len;
        near += theirs < len && len - theirs < 4;
    }
    printf("seed %s: %ju texts, all answers alike; %ju wholly good, %ju refused: %ju with under four bytes left, %ju with four or more\n",
           argv[1], (uintmax_t)count, (uintmax_t)(count - refused), (uintmax_t)refused, (uintmax_t)near, (uintmax_t)(refused - near));
    return 0;
}
