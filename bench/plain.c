// The plain reader: written as C is written, by hand and with no proof, for the time that the same work takes. Readers call each other by
// recursion, what is common to a read lies in a struct, and leaves are read in the loop over children. As ours, it reads first and writes
// the tape in a second pass, since a refused read leaves the tape alone.
#include "plain.h"

#include <string.h>

#include "../jig/sillthread.h"

// a child that has to be there has no segment
enum { NONE = 6 };

enum { MAX_TUPLE = 10000000, MAX_LIST = 10000000, MAX_MAP = 1000000, MAX_BINARY = 100000000 };

struct reader {
    const uint8_t *b;
    size_t len, limit;
    size_t last, begun, deepest;
    uint64_t number;
    // the path, innermost first
    size_t segments;
    uint64_t path[SILL_NESTING][2];
    // of a message the slots of its header's references, as sill_message notes them, and which are filled
    const uint8_t *run;
    const uint64_t *filled;
};

static inline uint32_t be16(const uint8_t *p) { return (uint32_t)p[0] << 8 | p[1]; }

static inline uint32_t be32(const uint8_t *p) { return (uint32_t)p[0] << 24 | (uint32_t)p[1] << 16 | (uint32_t)p[2] << 8 | p[3]; }

static inline uint64_t be64(const uint8_t *p) { return (uint64_t)be32(p) << 32 | be32(p + 4); }

static inline size_t refuse(struct reader *r, uint64_t number) {
    r->number = number;
    return 0;
}

// How many bytes the character at s has, of n that are left; 0 where no whole good one stands there.
static size_t character(const uint8_t *s, size_t n) {
    uint8_t lead = s[0];
    if (lead < 0x80) return 1;
    if (lead < 0xC2 || 0xF4 < lead || n < 2) return 0;
    uint8_t least = lead == 0xE0 ? 0xA0 : lead == 0xF0 ? 0x90 : 0x80;
    uint8_t most = lead == 0xED ? 0x9F : lead == 0xF4 ? 0x8F : 0xBF;
    if (s[1] < least || most < s[1]) return 0;
    size_t size = lead < 0xE0 ? 2 : lead < 0xF0 ? 3 : 4;
    if (n < size) return 0;
    for (size_t i = 2; i < size; i++)
        if ((s[i] & 0xC0) != 0x80) return 0;
    return size;
}

// How many leading bytes are good UTF-8.
size_t plain_utf8(const uint8_t *s, size_t n) {
    size_t i = 0;
    while (i < n) {
        if (8 <= n - i) {
            uint64_t eight;
            memcpy(&eight, s + i, 8);
            if ((eight & 0x8080808080808080) == 0) {
                i += 8;
                continue;
            }
        }
        size_t size = character(s + i, n - i);
        if (size == 0) return i;
        i += size;
    }
    return i;
}

static size_t digits(const uint8_t *s, size_t n) {
    size_t i = 0;
    while (i < n && '0' <= s[i] && s[i] <= '9') i++;
    return i;
}

static int is_word(const uint8_t *s, size_t n, const char *word) {
    if (n != strlen(word)) return 0;
    for (size_t i = 0; i < n; i++)
        if (s[i] != word[i] && s[i] + 32 != word[i]) return 0;
    return 1;
}

// Whether the text of a tag 99 is a number.
static int is_literal(const uint8_t *s, size_t n) {
    if (n && (s[0] == '+' || s[0] == '-')) s++, n--;
    if (is_word(s, n, "inf") || is_word(s, n, "infinity") || is_word(s, n, "nan")) return 1;
    size_t whole = digits(s, n), fraction = 0;
    s += whole, n -= whole;
    if (n && s[0] == '.') {
        fraction = digits(s + 1, n - 1);
        s += 1 + fraction, n -= 1 + fraction;
    }
    if (whole + fraction == 0) return 0;
    if (n == 0) return 1;
    if (s[0] != 'e' && s[0] != 'E') return 0;
    s++, n--;
    if (n && (s[0] == '+' || s[0] == '-')) s++, n--;
    return n && digits(s, n) == n;
}

static inline size_t bytes(struct reader *r, size_t p, size_t n) { return r->len - p < n ? refuse(r, SILL_EOF) : p + n; }

static inline size_t name(struct reader *r, size_t p, size_t n) {
    if (r->len - p < n) return refuse(r, SILL_EOF);
    return plain_utf8(r->b + p, n) == n ? p + n : refuse(r, SILL_TEXT);
}

static size_t number_text(struct reader *r, size_t p) {
    size_t end = name(r, p, 31), n = 31;
    if (end == 0) return 0;
    while (n && r->b[p + n - 1] == 0) n--;
    return is_literal(r->b + p, n) ? end : refuse(r, SILL_LITERAL);
}

// An atom by its position in the header.
static size_t position(struct reader *r, size_t p) {
    if (r->run == NULL) return refuse(r, SILL_TAG);
    if (r->len <= p) return refuse(r, SILL_EOF);
    size_t k = r->b[p];
    if (r->run[0] <= k) return refuse(r, SILL_TAG);
    size_t slot = r->run[1 + k];
    return r->filled[slot / 64] >> slot % 64 & 1 ? p + 1 : refuse(r, SILL_TAG);
}

static size_t container(struct reader *r, unsigned tag, size_t p, size_t level);

// A term at nesting `level`: where it ends, or 0.
static inline size_t term(struct reader *r, size_t pos, size_t level) {
    r->last = pos;
    if (r->len <= pos) return refuse(r, SILL_EOF);
    if (r->limit < level) return refuse(r, SILL_DEEP);
    r->begun++;
    if (r->deepest < level) r->deepest = level;
    unsigned tag = r->b[pos];
    size_t p = pos + 1, left = r->len - p, n;
    const uint8_t *s = r->b + p;
    switch (tag) {
    case 97: return bytes(r, p, 1);
    case 98: return bytes(r, p, 4);
    case 70: return bytes(r, p, 8);
    case 106: return p;
    case 119: return left < 1 ? refuse(r, SILL_EOF) : name(r, p + 1, s[0]);
    case 100:
    case 118: return left < 2 ? refuse(r, SILL_EOF) : name(r, p + 2, be16(s));
    case 107: return left < 2 ? refuse(r, SILL_EOF) : bytes(r, p + 2, be16(s));
    case 109:
        if (left < 4) return refuse(r, SILL_EOF);
        n = be32(s);
        return MAX_BINARY < n ? refuse(r, SILL_SIZE) : bytes(r, p + 4, n);
    case 77:
        if (left < 4) return refuse(r, SILL_EOF);
        n = be32(s);
        if (MAX_BINARY < n) return refuse(r, SILL_SIZE);
        if (left < 5) return refuse(r, SILL_EOF);
        if (n ? s[4] < 1 || 8 < s[4] : s[4] != 8) return refuse(r, SILL_BITS);
        return bytes(r, p + 5, n);
    case 110: return left < 2 ? refuse(r, SILL_EOF) : bytes(r, p + 2, s[0]);
    case 111: return left < 5 ? refuse(r, SILL_EOF) : bytes(r, p + 5, be32(s));
    case 99: return number_text(r, p);
    case 82: return position(r, p);
    default: return container(r, tag, p, level);
    }
}

// n children of a term at nesting `level`. `kind` is that of their segments, of a list's elements or a map's keys. It isn't inlined, so
// that the one copy of `term` is inlined into its loop.
__attribute__((noinline)) static size_t children(struct reader *r, uint64_t kind, size_t n, size_t pos, size_t level) {
    size_t before = pos;
    for (size_t i = 0; i < n; i++) {
        size_t end = term(r, pos, level + 1);
        if (end == 0 && kind == NONE) return 0;
        if (end == 0) {
            uint64_t *segment = r->path[r->segments++];
            segment[0] = kind, segment[1] = i;
            if (kind == SILL_IN_LIST && i + 1 == n) segment[0] = SILL_IN_TAIL, segment[1] = 0;
            if (kind == SILL_IN_KEY && i % 2 == 0) segment[1] = 0;
            if (kind == SILL_IN_KEY && i % 2 == 1) segment[0] = SILL_IN_VALUE, segment[1] = before;
            return 0;
        }
        before = pos;
        pos = end;
    }
    return pos;
}

// A child that has to be there, of a kind: read whole, then judged.
static size_t required(struct reader *r, size_t pos, size_t level) { return children(r, NONE, 1, pos, level); }

static size_t atom(struct reader *r, size_t pos, size_t level) {
    size_t end = required(r, pos, level);
    if (end == 0) return 0;
    uint8_t tag = r->b[pos];
    return tag == 100 || tag == 118 || tag == 119 || tag == 82 ? end : refuse(r, SILL_TAG);
}

static size_t natural(struct reader *r, uint32_t most, size_t pos, size_t level) {
    size_t end = required(r, pos, level);
    if (end == 0) return 0;
    const uint8_t *s = r->b + pos;
    return s[0] == 97 || (s[0] == 98 && be32(s + 1) <= most) ? end : refuse(r, SILL_TAG);
}

static size_t function(struct reader *r, size_t free, size_t pos, size_t level) {
    size_t end = atom(r, pos, level);
    if (end) end = natural(r, 2147483647, end, level);
    if (end) end = natural(r, 2147483647, end, level);
    if (end == 0) return 0;
    size_t pid = end;
    end = required(r, pid, level);
    if (end == 0) return 0;
    return r->b[pid] == 88 ? children(r, SILL_IN_FREE, free, end, level) : refuse(r, SILL_TAG);
}

// A term with children, from the place behind its tag on.
static size_t container(struct reader *r, unsigned tag, size_t p, size_t level) {
    size_t left = r->len - p, n, end;
    const uint8_t *s = r->b + p;
    switch (tag) {
    case 104: return left < 1 ? refuse(r, SILL_EOF) : children(r, SILL_IN_TUPLE, s[0], p + 1, level);
    case 105:
        if (left < 4) return refuse(r, SILL_EOF);
        n = be32(s);
        return MAX_TUPLE < n ? refuse(r, SILL_SIZE) : children(r, SILL_IN_TUPLE, n, p + 4, level);
    case 108:
        if (left < 4) return refuse(r, SILL_EOF);
        n = be32(s);
        return MAX_LIST < n ? refuse(r, SILL_SIZE) : children(r, SILL_IN_LIST, n + 1, p + 4, level);
    case 116:
        if (left < 4) return refuse(r, SILL_EOF);
        n = be32(s);
        return MAX_MAP < n ? refuse(r, SILL_SIZE) : children(r, SILL_IN_KEY, 2 * n, p + 4, level);
    case 88:
    case 120: end = atom(r, p, level); return end ? bytes(r, end, 12) : 0;
    case 90:
        if (left < 2) return refuse(r, SILL_EOF);
        end = atom(r, p + 2, level);
        return end ? bytes(r, end, 4 + 4 * (size_t)be16(s)) : 0;
    case 113:
        end = atom(r, p, level);
        if (end) end = atom(r, end, level);
        return end ? natural(r, 255, end, level) : 0;
    case 112: return left < 29 ? refuse(r, SILL_EOF) : function(r, be32(s + 25), p + 29, level);
    default: return refuse(r, SILL_TAG);
    }
}

// Where the children of a good term lie, and how many bytes stand behind them. A term without children ends where they would begin.
struct shape {
    size_t from, kids, more;
};

__attribute__((always_inline)) static inline struct shape shape_at(const uint8_t *b, size_t pos) {
    const uint8_t *s = b + pos + 1;
    switch (b[pos]) {
    case 82:
    case 97: return (struct shape){pos + 2, 0, 0};
    case 98: return (struct shape){pos + 5, 0, 0};
    case 70: return (struct shape){pos + 9, 0, 0};
    case 106: return (struct shape){pos + 1, 0, 0};
    case 119: return (struct shape){pos + 2 + s[0], 0, 0};
    case 100:
    case 107:
    case 118: return (struct shape){pos + 3 + be16(s), 0, 0};
    case 109: return (struct shape){pos + 5 + be32(s), 0, 0};
    case 77:
    case 111: return (struct shape){pos + 6 + be32(s), 0, 0};
    case 110: return (struct shape){pos + 3 + s[0], 0, 0};
    case 99: return (struct shape){pos + 32, 0, 0};
    case 104: return (struct shape){pos + 2, s[0], 0};
    case 105: return (struct shape){pos + 5, be32(s), 0};
    case 108: return (struct shape){pos + 5, (size_t)be32(s) + 1, 0};
    case 116: return (struct shape){pos + 5, 2 * (size_t)be32(s), 0};
    case 90: return (struct shape){pos + 3, 1, 4 + 4 * (size_t)be16(s)};
    case 113: return (struct shape){pos + 1, 3, 0};
    case 112: return (struct shape){pos + 30, (size_t)be32(s + 25) + 4, 0};
    default: return (struct shape){pos + 1, 1, 12};
    }
}

// The cells of n good terms from *pos on, the first of them `cell`; answers the cell behind the last, and leaves *pos behind the terms.
static size_t fill(const uint8_t *b, size_t *pos, size_t n, size_t cell, size_t up, uint32_t *tape) {
    size_t at = *pos;
    for (; n; n--) {
        struct shape s = shape_at(b, at);
        uint32_t *w = tape + 5 * cell;
        size_t next = cell + 1;
        w[0] = b[at], w[1] = (uint32_t)at, w[3] = (uint32_t)up;
        at = s.from;
        if (s.kids) next = fill(b, &at, s.kids, next, cell, tape);
        at += s.more;
        w[2] = (uint32_t)at, w[4] = (uint32_t)(next - cell);
        cell = next;
    }
    *pos = at;
    return cell;
}

static struct reader over(const uint8_t *b, size_t len, size_t limit) {
    struct reader r;
    r.b = b, r.len = len, r.limit = limit;
    r.last = r.begun = r.deepest = r.segments = 0;
    r.run = NULL, r.filled = NULL;
    return r;
}

static void tell(uint64_t told[7], const struct reader *r, uint64_t number, size_t end, size_t offset, uint64_t extra) {
    told[0] = number, told[1] = end, told[2] = offset, told[3] = extra;
    told[4] = r->begun, told[5] = r->deepest, told[6] = r->segments;
}

// Reads the term at `at`, any place. Answers its end, or 0 where it is refused and that is told.
static size_t whole(struct reader *r, size_t at, uint64_t told[7], uint64_t path[128]) {
    size_t end = r->len < at ? (r->last = at, refuse(r, SILL_EOF)) : required(r, at, 0);
    if (end) return end;
    tell(told, r, r->number, 0, r->last, 0);
    for (size_t i = 0; i < r->segments; i++) memcpy(path + 2 * i, r->path[r->segments - 1 - i], sizeof r->path[0]);
    return 0;
}

// Reads one term from `start` to the input's end and writes its tape.
static void to_the_end(struct reader *r, size_t start, uint32_t *tape, size_t words, uint64_t told[7], uint64_t path[128]) {
    size_t end = whole(r, start, told, path);
    if (end == 0) return;
    if (end < r->len) return tell(told, r, SILL_TRAILING, 0, end, r->len - end);
    if (words / 5 < r->begun) return tell(told, r, SILL_ROOM, 0, 0, r->begun);
    fill(r->b, &start, 1, 0, 0, tape);
    tell(told, r, SILL_DONE, end, 0, 0);
}

void plain_read(const uint8_t *b, size_t len, size_t limit, uint32_t *tape, size_t words, uint64_t told[7], uint64_t path[128]) {
    struct reader r = over(b, len, limit);
    if (limit == 0 || SILL_NESTING < limit) return tell(told, &r, SILL_LIMIT, 0, 0, 0);
    if (SILL_LONGEST < len) return tell(told, &r, SILL_LONG, 0, 0, 0);
    if (len == 0) return tell(told, &r, SILL_EOF, 0, 0, 0);
    if (b[0] != 131) return tell(told, &r, SILL_TAG, 0, 0, 0);
    to_the_end(&r, 1, tape, words, told, path);
}

// The end of a good term.
static size_t skip(const uint8_t *b, size_t pos) {
    struct shape s = shape_at(b, pos);
    size_t at = s.from;
    for (size_t n = s.kids; n; n--) at = skip(b, at);
    return at + s.more;
}

// Whether a good key is the atom of that name, or where there is no name the integer.
static int equal(const uint8_t *key, const uint8_t *name, size_t n, int64_t number) {
    switch (key[0]) {
    case 119: return name && key[1] == n && memcmp(key + 2, name, n) == 0;
    case 100:
    case 118: return name && be16(key + 1) == n && memcmp(key + 3, name, n) == 0;
    case 97: return !name && key[1] == number;
    case 98: return !name && (int32_t)be32(key + 1) == number;
    default: return 0;
    }
}

static void find(const uint8_t *b, size_t len, size_t at, size_t limit, const uint8_t *name, size_t n, int64_t number, uint64_t told[7],
                 uint64_t path[128]) {
    struct reader r = over(b, len, limit);
    if (limit == 0 || SILL_NESTING < limit) return tell(told, &r, SILL_LIMIT, 0, 0, 0);
    if (SILL_LONGEST < len) return tell(told, &r, SILL_LONG, 0, 0, 0);
    size_t end = whole(&r, at, told, path), found = 0, pos = at + 5;
    if (end == 0) return;
    if (b[at] != 116) return tell(told, &r, SILL_KIND, 0, at, b[at]);
    for (size_t pairs = be32(b + at + 1); pairs; pairs--) {
        size_t value = skip(b, pos);
        if (equal(b + pos, name, n, number)) found = value;
        pos = skip(b, value);
    }
    if (found == 0) return tell(told, &r, SILL_ABSENT, 0, at, 0);
    tell(told, &r, SILL_DONE, end, found, 0);
}

void plain_find_name(const uint8_t *b, size_t len, size_t at, size_t limit, const uint8_t *name, size_t n, uint64_t told[7],
                     uint64_t path[128]) {
    find(b, len, at, limit, name, n, 0, told, path);
}

void plain_find_number(const uint8_t *b, size_t len, size_t at, size_t limit, int64_t number, uint64_t told[7], uint64_t path[128]) {
    find(b, len, at, limit, NULL, 0, number, told, path);
}

static void head_refused(uint64_t told[9], uint64_t number, unsigned tag, size_t offset) {
    memset(told, 0, 9 * sizeof *told);
    told[0] = number, told[1] = tag, told[2] = offset;
}

static void fields(uint64_t told[9], unsigned tag, uint64_t a, uint64_t b, uint64_t c, uint64_t d, uint64_t e) {
    told[0] = SILL_DONE, told[1] = tag, told[2] = told[3] = 0;
    told[4] = a, told[5] = b, told[6] = c, told[7] = d, told[8] = e;
}

// The head of a term that has a node's name before `more` bytes: of what stands behind the name, where that is whole.
static const uint8_t *node(struct reader *r, unsigned tag, size_t at, size_t more, uint64_t *place, uint64_t *n, uint64_t told[9]) {
    if (r->len <= at) return head_refused(told, SILL_EOF, tag, at), NULL;
    const uint8_t *s = r->b + at;
    if (s[0] != 100 && s[0] != 118 && s[0] != 119) return head_refused(told, SILL_TAG, tag, at), NULL;
    size_t end = required(r, at, 0);
    if (end == 0) return head_refused(told, r->number, tag, at), NULL;
    if (r->len - end < more) return head_refused(told, SILL_EOF, tag, at), NULL;
    *place = at + (s[0] == 119 ? 2 : 3);
    *n = end - *place;
    return r->b + end;
}

void plain_head(const uint8_t *b, size_t len, size_t at, uint64_t told[9]) {
    if (SILL_LONGEST < len) return head_refused(told, SILL_LONG, 0, 0);
    if (len <= at) return head_refused(told, SILL_EOF, 0, at);
    struct reader r = over(b, len, 1);
    unsigned tag = b[at];
    size_t p = at + 1, left = len - p, n;
    const uint8_t *s = b + p;
    uint64_t place, size;
    switch (tag) {
    case 104: return left < 1 ? head_refused(told, SILL_EOF, tag, at) : fields(told, tag, s[0], 0, 0, 0, 0);
    case 105:
    case 108:
    case 116:
        if (left < 4) return head_refused(told, SILL_EOF, tag, at);
        n = be32(s);
        if ((tag == 116 ? MAX_MAP : MAX_LIST) < n) return head_refused(told, SILL_SIZE, tag, at);
        return fields(told, tag, n, 0, 0, 0, 0);
    case 88:
        if ((s = node(&r, tag, p, 12, &place, &size, told))) fields(told, tag, place, size, be32(s), be32(s + 4), be32(s + 8));
        return;
    case 120:
        if ((s = node(&r, tag, p, 12, &place, &size, told))) fields(told, tag, place, size, be64(s), be32(s + 8), 0);
        return;
    case 90:
        if (left < 2) return head_refused(told, SILL_EOF, tag, at);
        n = be16(s);
        if ((s = node(&r, tag, p + 2, 4 + 4 * n, &place, &size, told)))
            fields(told, tag, n, place, size, be32(s), (uint64_t)(s + 4 - b));
        return;
    case 113: return fields(told, tag, 0, 0, 0, 0, 0);
    case 112:
        if (left < 29) return head_refused(told, SILL_EOF, tag, at);
        return fields(told, tag, be32(s), s[4], p + 5, be32(s + 21), be32(s + 25));
    }
    if (required(&r, at, 0) == 0) return head_refused(told, r.number, tag, at);
    switch (tag) {
    case 97: return fields(told, tag, s[0], 0, 0, 0, 0);
    case 98: return fields(told, tag, (uint64_t)(int64_t)(int32_t)be32(s), 0, 0, 0, 0);
    case 70: return fields(told, tag, be64(s), 0, 0, 0, 0);
    case 119: return fields(told, tag, p + 1, s[0], 0, 0, 0);
    case 100:
    case 107:
    case 118: return fields(told, tag, p + 2, be16(s), 0, 0, 0);
    case 109: return fields(told, tag, p + 4, be32(s), 0, 0, 0);
    case 77: return fields(told, tag, p + 5, be32(s), s[4], 0, 0);
    case 110: return fields(told, tag, p + 2, s[0], s[1], s[1] != 0, 0);
    case 111: return fields(told, tag, p + 5, be32(s), s[4], s[4] != 0, 0);
    case 99:
        for (n = 31; n && s[n - 1] == 0;) n--;
        return fields(told, tag, p, n, 0, 0, 0);
    default: return fields(told, tag, 0, 0, 0, 0, 0);
    }
}

static void tell_header(uint64_t told[3], uint64_t number, size_t rest, uint64_t extra) {
    told[0] = number, told[1] = rest, told[2] = extra;
}

// Half byte i of a header's flags.
static inline unsigned half(const uint8_t *flags, size_t i) { return flags[i / 2] >> (i % 2 ? 4 : 0) & 15; }

// A header. Where a run is lent it is a message's: then no segment number may be there, and the slots are put into the run.
static void header(const uint8_t *b, size_t len, uint64_t filled[4], uint8_t *store, uint8_t *run, uint64_t told[3]) {
    if (len < 1) return tell_header(told, SILL_EOF, 0, 0);
    if (b[0] != 131) return tell_header(told, SILL_TAG, 0, 0);
    if (len < 2) return tell_header(told, SILL_EOF, 0, 0);
    if (b[1] != 68) return tell_header(told, SILL_KIND, 0, b[1]);
    if (len < 3) return tell_header(told, SILL_EOF, 0, 0);
    size_t n = b[2], p = 3 + n / 2 + 1;
    if (run) run[0] = (uint8_t)n;
    if (n == 0) return tell_header(told, SILL_DONE, 3, 0);
    if (len < p) return tell_header(told, SILL_EOF, 0, 0);
    const uint8_t *flags = b + 3;
    for (size_t i = 0; run && i < n; i++)
        if (half(flags, i) & 7) return tell_header(told, SILL_SEGMENT, 0, 0);
    /* by the bit worth 1 of the half byte after the last reference */
    size_t width = half(flags, n) & 1 ? 2 : 1;
    for (size_t i = 0; i < n; i++) {
        if (len <= p) return tell_header(told, SILL_EOF, 0, 0);
        size_t slot = b[p++];
        if (run) run[1 + i] = (uint8_t)slot;
        if ((half(flags, i) & 8) == 0) continue;
        if (len - p < width) return tell_header(told, SILL_EOF, 0, 0);
        size_t size = width == 2 ? be16(b + p) : b[p];
        p += width;
        if (len - p < size) return tell_header(told, SILL_EOF, 0, 0);
        if (plain_utf8(b + p, size) != size) return tell_header(told, SILL_TEXT, 0, 0);
        if (255 < size) return tell_header(told, SILL_NAME, 0, 0);
        store[256 * slot] = (uint8_t)size;
        memcpy(store + 256 * slot + 1, b + p, size);
        filled[slot / 64] |= (uint64_t)1 << slot % 64;
        p += size;
    }
    tell_header(told, SILL_DONE, p, 0);
}

void plain_header(const uint8_t *b, size_t len, uint64_t filled[4], uint8_t *store, size_t store_len, uint64_t told[3]) {
    if (store_len != SILL_STORE_BYTES) return tell_header(told, SILL_STORE, 0, 0);
    if (SILL_LONGEST < len) return tell_header(told, SILL_LONG, 0, 0);
    header(b, len, filled, store, NULL, told);
}

// The run is left alone until the whole header is read.
void plain_message(const uint8_t *b, size_t len, size_t limit, uint64_t filled[4], uint8_t *store, size_t store_len, uint8_t run[256],
                   uint32_t *tape, size_t words, uint64_t told[7], uint64_t path[128]) {
    struct reader r = over(b, len, limit);
    uint8_t slots[SILL_POSITIONS];
    uint64_t before[SILL_HEADER_TOLD];
    if (limit == 0 || SILL_NESTING < limit) return tell(told, &r, SILL_LIMIT, 0, 0, 0);
    if (store_len != SILL_STORE_BYTES) return tell(told, &r, SILL_STORE, 0, 0, 0);
    if (SILL_LONGEST < len) return tell(told, &r, SILL_LONG, 0, 0, 0);
    header(b, len, filled, store, slots, before);
    if (before[0] != SILL_DONE) return tell(told, &r, before[0], 0, 0, before[2]);
    memcpy(run, slots, 1 + (size_t)slots[0]);
    r.run = run, r.filled = filled;
    to_the_end(&r, before[1], tape, words, told, path);
}
