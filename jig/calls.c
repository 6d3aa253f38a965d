/* Answers request lines (docs/REQUESTS.md) through the C interface: a line of standard input asks, a line of standard output answers.
 *
 * `./run calls` answers the same lines by the proved functions themselves: two runs and a diff hold a library, as it was compiled for some machine,
 * against them. A board without a system will do. Nothing is asked of the machine but jig/port.h, nothing of C but memcpy and memset; all memory
 * stands below, and no line is stored whole: what it spells is taken letter by letter.
 *
 * Two answers are this program's own, and change nothing. `memory`: the request takes more memory than there is. `nocall`: the interface has no such
 * call, which is so for a `literal` of more bytes than the text of a tag 99 has. */
#include <string.h>

#include "decimal.h"
#include "port.h"
#include "sillthread.h"

/* How many cells of a tape there is memory for; -DCELLS=... says otherwise. */
#ifndef CELLS
#define CELLS 13300
#endif

/* What a request may have, on every machine. */
enum {
    LETTERS = 131142,     /* in its line */
    NAME = 8,             /* letters in its first word */
    WORDS = 4,            /* behind its first word */
    BYTES = 65536,        /* that its last word spells */
    MOST_WORDS = 327680,  /* for a tape */
    MOST_NUMBERS = 65536, /* in a row */
    MOST_ROOM = 262144,   /* bytes, to write a row to */
    LITERAL = 31          /* bytes in the text of a tag 99 */
};

/* What there is on this one. */
enum {
    AREA_WORDS = CELLS * SILL_CELL,
    AREA_BYTES = AREA_WORDS * 4,
    AREA_NUMBERS = AREA_BYTES / 8,
    BUFFER = 4096,
    TOLD = SILL_HEAD_TOLD /* no call tells more than a head */
};

/* One area for what no request needs both of: a tape, or a row's numbers and behind them the bytes that are lent to the writer. */
static union {
    uint32_t tape[AREA_WORDS];
    uint64_t row[AREA_NUMBERS];
    uint8_t bytes[AREA_BYTES];
} area;

/* What the line asks: its numbers, by the places of their words (a key as two's complement, of a row how many it has), and its bytes. */
static uint64_t number[WORDS];
static uint8_t bytes[BYTES];
static uint64_t len;

/* What lives from line to line: the names, and the positions of the last message's header. */
static uint64_t filled[SILL_FILLED];
static uint8_t store[SILL_STORE_BYTES];
static uint8_t run[SILL_POSITIONS];

/* What the last call told. */
static uint64_t told[TOLD];
static uint64_t path[SILL_PATH];

/* How the program ends. From the first failure on it neither reads nor writes. */
static enum { WELL = 0, UNREAD = 2, UNWRITTEN = 3 } status = WELL;

/* ---- Text on its way out ---- */

static char out[BUFFER];
static size_t out_at;

static void flush(void) {
    static const char why[] = "the output could not be written\n";
    if (status == WELL && port_write(PORT_OUT, out, out_at) != 0) {
        status = UNWRITTEN;
        port_write(PORT_ERR, why, sizeof why - 1);
    }
    out_at = 0;
}

static void put(char c) {
    if (out_at == BUFFER) flush();
    out[out_at++] = c;
}

static void say(const char *text) {
    for (; *text != 0; text++) put(*text);
}

static void say_number(uint64_t n) {
    char text[DECIMAL];
    const size_t digits = decimal(n, text);
    for (size_t i = 0; i < digits; i++) put(text[i]);
}

/* The integer whose two's complement a number is. */
static void say_integer(uint64_t n) {
    if (INT64_MAX < n) {
        put('-');
        n = 0 - n;
    }
    say_number(n);
}

static void say_byte(uint8_t byte) {
    static const char digits[] = "0123456789abcdef";
    put(digits[byte >> 4]);
    put(digits[byte & 15]);
}

static void say_bits(uint64_t n) {
    for (int shift = 56; shift >= 0; shift -= 8) say_byte((uint8_t)(n >> shift));
}

/* n bytes from a place on, of as many as there are. A call that told a place outside them shows by what is missing. */
static void say_bytes(const uint8_t *b, uint64_t there, uint64_t place, uint64_t n) {
    if (there < place || there - place < n) return;
    for (uint64_t i = 0; i < n; i++) say_byte(b[place + i]);
}

/* The same as a word. */
static void say_part(const uint8_t *b, uint64_t there, uint64_t place, uint64_t n) {
    if (n == 0) put('-');
    say_bytes(b, there, place, n);
}

/* n ids from a place on, each of four bytes. */
static void say_ids(uint64_t place, uint64_t n) {
    for (; 0 < n && place <= len && 4 <= len - place; n--, place += 4) {
        const uint8_t *const id = bytes + place;
        put(':');
        say_number((uint64_t)id[0] << 24 | (uint64_t)id[1] << 16 | (uint64_t)id[2] << 8 | id[3]);
    }
}

/* The forms below have the words' places as digits: these are what the header calls them. */
typedef char places_are_the_headers[
    SILL_READ_NUMBER == 0 && SILL_READ_END == 1 && SILL_READ_OFFSET == 2 && SILL_READ_EXTRA == 3 && SILL_READ_TERMS == 4 && SILL_READ_DEEPEST == 5 &&
    SILL_HEAD_NUMBER == 0 && SILL_HEAD_TAG == 1 && SILL_HEAD_OFFSET == 2 && SILL_HEAD_EXTRA == 3 && SILL_HEAD_FIELD == 4 &&
    SILL_HEADER_NUMBER == 0 && SILL_HEADER_REST == 1 && SILL_HEADER_EXTRA == 2 &&
    SILL_FRAGMENT_NUMBER == 0 && SILL_FRAGMENT_REST == 1 && SILL_FRAGMENT_EXTRA == 2 && SILL_FRAGMENT_SEQUENCE == 3 && SILL_FRAGMENT_FRAGMENT == 4 &&
    SILL_FRAGMENT_COUNT == 5 && SILL_NAME_NUMBER == 0 && SILL_NAME_PLACE == 1 && SILL_NAME_LENGTH == 2 &&
    SILL_WRITE_NUMBER == 0 && SILL_WRITE_LENGTH == 1 && SILL_WRITE_EXTRA == 2 && SILL_CELL_TAG == 0 && SILL_CELL_START == 1 && SILL_CELL_END == 2 &&
    SILL_CELL_PARENT == 3 && SILL_CELL_SIZE == 4 ? 1 : -1];

/* A text with what was told. A sign and a digit stand for the word that `told` has at that place:
 *   #  as a number                       ~  as the integer whose two's complement it is
 *   %  as 64 bits, in hex                $  as a sign, + where it is 0, else -
 *   @  for the bytes that stand at that place of the request, as many as the next word says
 *   &  for the 16 bytes there            *  for the ids there, as many as a head's first field says */
static void say_form(const char *text) {
    for (; *text != 0; text++) {
        const int k = text[1] - '0';
        switch (*text) {
        case '#': say_number(told[k]); break;
        case '~': say_integer(told[k]); break;
        case '%': say_bits(told[k]); break;
        case '$': put(told[k] == 0 ? '+' : '-'); break;
        case '@': say_bytes(bytes, len, told[k], told[k + 1]); break;
        case '&': say_bytes(bytes, len, told[k], 16); break;
        case '*': say_ids(told[k], told[SILL_HEAD_FIELD]); break;
        default: put(*text); continue;
        }
        text++;
    }
}

/* What a call has told and the answer doesn't show: of its n words, those whose bit isn't in `shown` are 0, and none behind them is written. Were it
 * otherwise, that would be seen. */
static void say_stray(unsigned n, unsigned shown) {
    for (unsigned k = 0; k < TOLD; k++) {
        const uint64_t expected = k < n ? 0 : UINT64_MAX;
        if ((n <= k || (shown >> k & 1) == 0) && told[k] != expected) say(" stray");
    }
}

/* The words that a form shows. */
static unsigned shown_by(const char *form) {
    unsigned shown = 0;
    for (; *form != 0; form++)
        if ('0' <= *form && *form <= '9') shown |= 1u << (*form - '0');
    return shown;
}

/* ---- A line, letter by letter ---- */

enum { END = '\n' };

static uint8_t in[BUFFER];
static size_t in_at, in_end;

/* The letter that is looked at, END behind the line's last, and how many stand before it. */
static uint8_t letter;
static uint64_t letters;

/* Where the word that spells bytes begins; 0 where the line has none. */
static uint64_t spelt;

/* Whether the input has another byte. Where it can't be read, the answers to what came before are written first. */
static int more(void) {
    static const char why[] = "standard input could not be read\n";
    long came;
    if (status != WELL) return 0;
    if (in_at < in_end) return 1;
    came = port_read(in, BUFFER);
    in_at = 0;
    in_end = came < 0 ? 0 : (size_t)came;
    if (came < 0) {
        flush();
        if (status == WELL) {
            status = UNREAD;
            port_write(PORT_ERR, why, sizeof why - 1);
        }
    }
    return 0 < came;
}

/* A last line may have no end of line. */
static void look(void) { letter = more() ? in[in_at++] : END; }

static void advance(void) {
    look();
    letters++;
}

/* What a letter is worth as a digit, 16 where it is none. */
static unsigned digit(void) {
    if ('0' <= letter && letter <= '9') return letter - '0';
    if ('a' <= letter && letter <= 'f') return letter - 'a' + 10u;
    return 16;
}

/* Each of these takes what it is named after, up to the letter behind it, and answers whether it is there. */
static int take_number(uint64_t *n) {
    if (9 < digit()) return 0;
    for (*n = 0; digit() <= 9; advance()) {
        if (UINT64_MAX / 10 < *n || UINT64_MAX - digit() < *n * 10) return 0;
        *n = *n * 10 + digit();
    }
    return 1;
}

static int take_byte(uint64_t *n) { return take_number(n) && *n <= UINT8_MAX; }

static int take_key(uint64_t *n) {
    const int minus = letter == '-';
    if (minus) advance();
    if (!take_number(n) || (uint64_t)INT64_MAX + (uint64_t)minus < *n) return 0;
    if (minus) *n = 0 - *n;
    return 1;
}

/* Numbers that there is no memory for are counted. */
static int take_row(uint64_t *count) {
    uint64_t n;
    *count = 0;
    if (letter == '-') {
        advance();
        return 1;
    }
    for (;; advance()) {
        if (!take_number(&n)) return 0;
        if (*count < AREA_NUMBERS) area.row[*count] = n;
        ++*count;
        if (letter != ',') return 1;
    }
}

/* Of more than BYTES the rest is left standing, so that the line doesn't end here. */
static int take_bytes(void) {
    spelt = letters;
    len = 0;
    if (letter == '-') {
        advance();
        return 1;
    }
    while (len < BYTES && digit() < 16) {
        const unsigned high = digit();
        advance();
        if (15 < digit()) return 0;
        bytes[len++] = (uint8_t)(high << 4 | digit());
        advance();
    }
    return 0 < len;
}

/* The words behind the first, by their kinds: n a number, b one up to 255, k a key, r a row, x bytes. One space stands before each, and nothing
 * behind the last. */
static int take_words(const char *kinds) {
    int there = 1;
    for (int i = 0; there && kinds[i] != 0; i++) {
        if (letter != ' ') return 0;
        advance();
        switch (kinds[i]) {
        case 'n': there = take_number(&number[i]); break;
        case 'b': there = take_byte(&number[i]); break;
        case 'k': there = take_key(&number[i]); break;
        case 'r': there = take_row(&number[i]); break;
        default: there = take_bytes();
        }
    }
    return there && letter == END;
}

/* ---- Answers ---- */

static void say_path(void) {
    for (uint64_t i = 0; i < told[SILL_READ_SEGMENTS] && i < SILL_NESTING; i++) {
        if (0 < i) put('/');
        say(sill_segment_name(path[2 * i]));
        put(':');
        say_number(path[2 * i + 1]);
    }
}

/* Of a read to the input's end, whose end the answer doesn't show. */
static void say_whole(void) {
    if (told[SILL_READ_END] != (told[SILL_READ_NUMBER] == SILL_DONE ? len : 0)) say(" stray");
    say_stray(SILL_READ_TOLD, 127);
}

/* All that a read or a lookup without a tape tells. */
static void say_read(void) {
    say_form("answer=#0 end=#1 offset=#2 extra=#3 begun=#4 deepest=#5 path=");
    say_path();
    say_stray(SILL_READ_TOLD, 127);
}

static void answer_read(void) {
    sill_term(bytes, len, number[1], number[0], told, path);
    say_read();
}

/* The name stands before the input. */
static void answer_name(void) {
    const uint64_t n = number[2];
    if (len < n) {
        say("unknown");
        return;
    }
    sill_find_name(bytes + n, len - n, number[1], number[0], bytes, n, told, path);
    say_read();
}

static void answer_number(void) {
    sill_find_number(bytes, len, number[1], number[0], (int64_t)number[2], told, path);
    say_read();
}

/* What is said of a head by its tag: as an item of a record's value, and as its fields, which `told` has from place 4 on. */
static const struct head {
    uint8_t tags[3];
    const char *item, *fields;
} heads[] = {
    {{97, 98},        "i:~4",           "~4"},
    {{70},            "f:%4",           "#4"},
    {{99},            "t:@4",           "#4,#5"},
    {{100, 118, 119}, "a:@4",           "#4,#5"},
    {{107},           "s:@4",           "#4,#5"},
    {{109},           "b:@4",           "#4,#5"},
    {{77},            "bits:#6:@4",     "#4,#5,#6"},
    {{110, 111},      "n:$7:@4",        "#4,#5,#6"},
    {{106},           "nil",            ""},
    {{108},           "list:#4",        "#4"},
    {{104, 105},      "tuple:#4",       "#4"},
    {{116},           "map:#4",         "#4"},
    {{88},            "pid:#6:#7:#8",   "#4,#5,#6,#7,#8"},
    {{120},           "port:#6:#7",     "#4,#5,#6,#7"},
    {{90},            "ref:#7*8",       "#4,#5,#6,#7,#8"},
    {{113},           "fun",            ""},
    {{112},           "fn:#5:&6:#7:#8", "#4,#5,#6,#7,#8"},
};

/* A Done head has one of these tags; were it another, that would be seen. */
static const struct head *head_of(uint64_t tag) {
    static const struct head none = {{0}, "notag", "notag"};
    for (size_t i = 0; i < sizeof heads / sizeof *heads; i++) {
        const uint8_t *const tags = heads[i].tags;
        if (tag == tags[0] || tag == tags[1] || tag == tags[2]) return &heads[i];
    }
    return &none;
}

static void answer_head(void) {
    const struct head *head;
    unsigned shown;
    sill_head(bytes, len, number[0], told);
    if (told[SILL_HEAD_NUMBER] != SILL_DONE) {
        say_form("answer=#0 tag=#1 offset=#2 extra=#3");
        say_stray(SILL_HEAD_TOLD, 15);
        return;
    }
    head = head_of(told[SILL_HEAD_TAG]);
    shown = 2 | shown_by(head->fields);
    say_form("answer=0 tag=#1 fields=");
    say_form(head->fields);
    if (told[SILL_HEAD_TAG] == 110 || told[SILL_HEAD_TAG] == 111) {
        /* whether it is negative, which the sign byte tells */
        if (told[SILL_HEAD_FIELD + 3] != (told[SILL_HEAD_FIELD + 2] != 0)) say(" stray");
        shown |= 1u << (SILL_HEAD_FIELD + 3);
    }
    say_stray(SILL_HEAD_TOLD, shown);
    say(" part=");
    sill_part(bytes, len, number[0], told);
    say_part(bytes, len, told[SILL_PART_PLACE], told[SILL_PART_LENGTH]);
}

/* The head of a term that was read is never refused; were it, that would be seen. */
static void say_item(uint64_t at) {
    sill_head(bytes, len, at, told);
    say_form(told[SILL_HEAD_NUMBER] == SILL_DONE ? head_of(told[SILL_HEAD_TAG])->item : "refused:#0");
}

static void answer_term(void) {
    uint64_t terms;
    sill_read(bytes, len, SILL_NESTING, area.tape, AREA_WORDS, told, path);
    if (told[SILL_READ_NUMBER] == SILL_ROOM && CELLS < told[SILL_READ_EXTRA]) {
        say("memory");
        return;
    }
    if (told[SILL_READ_NUMBER] != SILL_DONE) {
        say_form("answer=#0 offset=#2 extra=#3 path=");
        say_path();
        say_whole();
        return;
    }
    say("answer=0 value=");
    say_whole();
    terms = told[SILL_READ_TERMS];
    for (uint64_t i = 0; i < terms && i < CELLS; i++) {
        if (0 < i) put(',');
        say_item(area.tape[i * SILL_CELL + SILL_CELL_START]);
    }
}

/* Whether as many words can be lent for a tape. Those that are hold what no cell has in it. */
static int lend_tape(uint64_t words) {
    if (MOST_WORDS < words) {
        say("unknown");
        return 0;
    }
    if (AREA_WORDS < words) {
        say("memory");
        return 0;
    }
    memset(area.tape, 255, (size_t)words * sizeof *area.tape);
    return 1;
}

/* All that a read with a tape tells: the cells of a Done one, and how many words are as they were. */
static void say_tape(uint64_t words) {
    const uint64_t used = told[SILL_READ_NUMBER] == SILL_DONE ? told[SILL_READ_TERMS] * SILL_CELL : 0;
    uint64_t kept = 0;
    say_form("answer=#0 offset=#2 extra=#3 begun=#4 deepest=#5 path=");
    say_path();
    say(" cells=");
    for (uint64_t i = 0; i < used && i < words; i++) {
        if (0 < i) put((uint32_t)i % SILL_CELL == 0 ? ';' : ',');
        say_number(area.tape[i]);
    }
    for (uint64_t i = 0; i < words; i++) kept += area.tape[i] == UINT32_MAX;
    say(" kept=");
    say_number(kept);
    say_whole();
}

static void answer_tape(void) {
    const uint64_t words = number[1];
    if (!lend_tape(words)) return;
    sill_read(bytes, len, number[0], area.tape, words, told, path);
    say_tape(words);
}

static void answer_message(void) {
    const uint64_t words = number[1];
    if (!lend_tape(words)) return;
    sill_message(bytes, len, number[0], filled, store, SILL_STORE_BYTES, run, area.tape, words, told, path);
    say_tape(words);
}

static void answer_header(void) {
    sill_header(bytes, len, filled, store, SILL_STORE_BYTES, told);
    say_form("answer=#0 rest=#1 extra=#2");
    say_stray(SILL_HEADER_TOLD, 7);
}

static void say_fragment(const char *done, unsigned n) {
    const char *const form = told[SILL_FRAGMENT_NUMBER] == SILL_DONE ? done : "answer=#0 rest=#1 extra=#2";
    say_form(form);
    say_stray(n, shown_by(form));
}

static void answer_first(void) {
    sill_first(bytes, len, told);
    say_fragment("answer=#0 rest=#1 sequence=#3 fragment=#4 count=#5", SILL_FIRST_TOLD);
}

static void answer_next(void) {
    sill_next(bytes, len, told);
    say_fragment("answer=#0 rest=#1 sequence=#3 fragment=#4", SILL_NEXT_TOLD);
}

static void answer_utf8(void) {
    say("good=");
    say_number(sill_utf8(bytes, len));
}

/* No call judges a text alone: it is asked as that of a tag 99, with zero bytes behind it, which don't count there either. */
static void answer_literal(void) {
    uint8_t term[1 + LITERAL] = {99};
    if (LITERAL < len) {
        say("nocall");
        return;
    }
    memcpy(term + 1, bytes, (size_t)len);
    sill_head(term, sizeof term, 0, told);
    say(told[SILL_HEAD_NUMBER] == SILL_DONE ? "literal=1" : "literal=0");
}

static void say_name(void) { say_part(store, SILL_STORE_BYTES, told[SILL_NAME_PLACE], told[SILL_NAME_LENGTH]); }

/* All that is told of a name that was asked for. */
static void say_got(void) {
    if (told[SILL_NAME_NUMBER] != SILL_DONE) {
        say_form("answer=#0");
        say_stray(SILL_NAME_TOLD, 1);
        return;
    }
    say_form("answer=0 place=#1 length=#2 name=");
    say_name();
    say_stray(SILL_NAME_TOLD, 7);
}

static void answer_get(void) {
    sill_get(filled, store, SILL_STORE_BYTES, (uint8_t)number[0], told);
    say_got();
}

static void answer_position(void) {
    sill_position(filled, store, SILL_STORE_BYTES, run, (uint8_t)number[0], told);
    say_got();
}

static void answer_atom(void) {
    sill_atom(bytes, len, number[0], filled, store, SILL_STORE_BYTES, run, told);
    say_got();
}

static void answer_count(void) {
    say("names=");
    say_number(sill_count(filled));
}

static void answer_names(void) {
    answer_count();
    for (unsigned slot = 0; slot <= UINT8_MAX; slot++) {
        sill_get(filled, store, SILL_STORE_BYTES, (uint8_t)slot, told);
        if (told[SILL_NAME_NUMBER] != SILL_DONE) continue;
        put(' ');
        say_number(slot);
        put('=');
        say_name();
    }
}

/* No names, and a header with no references. */
static void forget(void) {
    sill_empty(filled);
    memset(run, 0, sizeof run);
}

static void answer_clear(void) {
    forget();
    answer_count();
}

/* What the lent byte at a place holds before a row is written: not the same at two places that are close. */
static uint8_t blank(uint64_t place) { return (uint8_t)(255 - (uint32_t)place % 251); }

static void answer_write(void) {
    const uint64_t room = number[0], numbers = number[1];
    uint64_t kept = 0;
    uint8_t *lent;
    if (MOST_NUMBERS < numbers || MOST_ROOM < room) {
        say("unknown");
        return;
    }
    if (AREA_BYTES < 8 * numbers + room) {
        say("memory");
        return;
    }
    lent = area.bytes + 8 * numbers;
    for (uint64_t i = 0; i < room; i++) lent[i] = blank(i);
    sill_write(area.row, numbers, bytes, len, lent, room, told);
    say_form("answer=#0 written=#1 extra=#2 bytes=");
    say_bytes(lent, room, 0, told[SILL_WRITE_LENGTH]);
    for (uint64_t i = told[SILL_WRITE_LENGTH]; i < room; i++) kept += lent[i] == blank(i);
    say(" kept=");
    say_number(kept);
    say_stray(SILL_WRITE_TOLD, 7);
}

/* ---- Requests ---- */

static const struct request {
    const char *name, *kinds;
    void (*answer)(void);
} requests[] = {
    {"term",     "x",    answer_term},
    {"header",   "x",    answer_header},
    {"names",    "",     answer_names},
    {"clear",    "",     answer_clear},
    {"first",    "x",    answer_first},
    {"next",     "x",    answer_next},
    {"utf8",     "x",    answer_utf8},
    {"literal",  "x",    answer_literal},
    {"read",     "nnx",  answer_read},
    {"tape",     "nnx",  answer_tape},
    {"message",  "nnx",  answer_message},
    {"name",     "nnnx", answer_name},
    {"number",   "nnkx", answer_number},
    {"head",     "nx",   answer_head},
    {"write",    "nrx",  answer_write},
    {"get",      "b",    answer_get},
    {"position", "b",    answer_position},
    {"atom",     "nx",   answer_atom},
    {"count",    "",     answer_count},
};

/* Whether a word's n letters are a name. A letter of a line may be zero, too. */
static int spells(const char *name, const uint8_t *word, size_t n) {
    size_t i = 0;
    while (i < n && name[i] != 0 && (uint8_t)name[i] == word[i]) i++;
    return i == n && name[i] == 0;
}

/* The request that the first word names. Of a word that is longer than all names one letter more is kept. */
static const struct request *take_request(void) {
    uint8_t word[NAME + 1];
    size_t n = 0;
    for (; letter != ' ' && letter != END; advance()) {
        if (n < sizeof word) word[n++] = letter;
    }
    for (size_t i = 0; i < sizeof requests / sizeof *requests; i++) {
        if (spells(requests[i].name, word, n)) return &requests[i];
    }
    return NULL;
}

/* Answers a line. That it is too long is said before what else is wrong with it, and a line that couldn't be read to its end has no answer. What a
 * call was to tell and hasn't told shows as words of which all bits are 1. */
static void answer_line(void) {
    const struct request *request;
    int known;
    memset(told, 255, sizeof told);
    memset(path, 255, sizeof path);
    letters = spelt = 0;
    look();
    request = take_request();
    known = request != NULL && take_words(request->kinds);
    while (letter != END) advance();
    if (status != WELL) return;
    if (LETTERS < letters || (0 < spelt && BYTES < (letters - spelt) / 2)) {
        say("long");
    } else if (!known) {
        say("unknown");
    } else {
        request->answer();
    }
    put('\n');
}

int main(void) {
    static const char other[] = "the library has another interface than this program\n";
    if (sill_interface() != SILL_INTERFACE) {
        port_write(PORT_ERR, other, sizeof other - 1);
        return 4;
    }
    forget();
    while (more()) answer_line();
    flush();
    return status;
}
