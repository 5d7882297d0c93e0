/* Calls every export that takes something, on random and mutated inputs. Each buffer of a call lies against a page that cannot be touched, before
 * it or after it in turn, so that a read or a write past either end stops the program, which then names the seed, the turn
 * and the call. A refusal must leave every buffer as it was, an accepted call every place that it does not write; what it
 * writes must keep what the header says.
 * A case is a kind of input to one export, an answer that an export can give, or an operation in a run: it has to be met, and
 * all that is asked of it has to hold; an answer that the export cannot give is a failure. Where several refusals hold, the
 * one that comes first by the header is asked for. So the number of cases is the same however long the program runs: it runs for the seconds, and
 * for LEAST_TURNS turns if those take longer.
 * usage: fuzz SECONDS [SEED]     last line: 'N passed, 0 failed', N the number of cases; the line before it: the calls */
#define _DEFAULT_SOURCE
#include "lupetzarin.h"

#include <signal.h>
#include <stdio.h>
#include <stdlib.h>
#include <string.h>
#include <sys/mman.h>
#include <time.h>
#include <unistd.h>

enum { NODE = 17, RECORD = 8, MOST_NODES = 256, MOST_WORDS = NODE * (MOST_NODES + 2), MOST_CELLS = 1 << 15, MOST_BYTES = 13000 };
enum { PARAM = 1, PERMUTE = 2, RESHAPE = 4, EXPAND = 5, PAD = 6, SHRINK = 7, IDIV = 12, REDUCE = 19, LOAD = 20, FILL = 21, KNOWN = 22, STACK = 23, OPERATIONS = 24 };
enum { BOOL, U8, I16, I32 };
/* The ends of the words that a packed plan can hold. */
#define LEAST_WORD (-17179869184)
#define GREATEST_WORD 17179869183

static unsigned long turn, seed, completed;

/* ---- cases */

enum { LEAST_TURNS = 20000, ANSWERS = 27, MOST_TOLD = 20 };
enum { UNPACK, CHECK, UNPACK_CHECK, RUN, LOOKUP, PACK, EXPORTS };
static const char *const exports[EXPORTS] = {"lup_unpack", "lup_check", "lup_unpack_check", "lup_run", "lup_lookup", "lup_pack"};

/* What is given to which export. */
enum {
    PACKED, PACKED_NO_ROOM, SPOILT, OTHER_EDITION, FAULTY_PACKED, CODE_PACKED, CODE_SPOILT, CODE_EDITION, CODE_FAULTY,
    GROWN, UNPACKED, PLAN, PLAN_NO_ROOM, WORDS, FAULTY, NO_NODES,
    GOOD, OTHER_VALUES, OTHER_FLAGS, NO_VALUE_ROOM, NO_FLAG_ROOM, BAD_FLAG, BAD_NUMBER, RUN_WORDS, RUN_FAULTY,
    FOLLOWED, NOT_FOLLOWED, NO_NODE, NO_ELEMENT, LOOKUP_WORDS, LOOKUP_FAULTY,
    READ, READ_NO_ROOM, WIDE, WIDE_NO_ROOM, FAR, PACK_ORDER, PACK_WORDS, PACK_FAULTY, PACK_NO_NODES, KINDS
};
typedef struct {
    int export;
    const char *given;
    unsigned long calls, wrong;
} kind;
static kind kinds[KINDS] = {
    [PACKED] = {UNPACK, "a packed plan, room for it", 0, 0},
    [PACKED_NO_ROOM] = {UNPACK, "a packed plan, too little room", 0, 0},
    [SPOILT] = {UNPACK, "a packed plan with bytes changed or taken out", 0, 0},
    [OTHER_EDITION] = {UNPACK, "a packed plan as a file of another edition", 0, 0},
    [FAULTY_PACKED] = {UNPACK, "a packed plan that breaks rules or is too large", 0, 0},
    [CODE_PACKED] = {UNPACK_CHECK, "a packed plan", 0, 0},
    [CODE_SPOILT] = {UNPACK_CHECK, "a packed plan with bytes changed or taken out", 0, 0},
    [CODE_EDITION] = {UNPACK_CHECK, "a packed plan as a file of another edition", 0, 0},
    [CODE_FAULTY] = {UNPACK_CHECK, "a packed plan that breaks rules or is too large", 0, 0},
    [GROWN] = {CHECK, "an accepted plan with one node more", 0, 0},
    [UNPACKED] = {CHECK, "a plan that was unpacked", 0, 0},
    [PLAN] = {CHECK, "an accepted plan, room for its words", 0, 0},
    [PLAN_NO_ROOM] = {CHECK, "an accepted plan, too little room", 0, 0},
    [WORDS] = {CHECK, "a plan with words changed", 0, 0},
    [FAULTY] = {CHECK, "a plan that breaks rules or is too large", 0, 0},
    [NO_NODES] = {CHECK, "a length that is not 1 to 256 nodes", 0, 0},
    [GOOD] = {RUN, "an accepted plan with good input", 0, 0},
    [OTHER_VALUES] = {RUN, "a value too few or too many", 0, 0},
    [OTHER_FLAGS] = {RUN, "a flag too few or too many", 0, 0},
    [NO_VALUE_ROOM] = {RUN, "too little room for values", 0, 0},
    [NO_FLAG_ROOM] = {RUN, "too little room for flags", 0, 0},
    [BAD_FLAG] = {RUN, "a flag neither 0 nor 1", 0, 0},
    [BAD_NUMBER] = {RUN, "a number outside its limits", 0, 0},
    [RUN_WORDS] = {RUN, "a plan with words changed, any input", 0, 0},
    [RUN_FAULTY] = {RUN, "a plan that breaks rules or is too large, any input", 0, 0},
    [FOLLOWED] = {LOOKUP, "an element of a node that is followed", 0, 0},
    [NOT_FOLLOWED] = {LOOKUP, "an element of a node that is not followed", 0, 0},
    [NO_NODE] = {LOOKUP, "a node that is not there", 0, 0},
    [NO_ELEMENT] = {LOOKUP, "an element that is not there", 0, 0},
    [LOOKUP_WORDS] = {LOOKUP, "a plan with words changed, any node and element", 0, 0},
    [LOOKUP_FAULTY] = {LOOKUP, "a plan that breaks rules or is too large, any node and element", 0, 0},
    [READ] = {PACK, "a table that was unpacked, room for its bytes", 0, 0},
    [READ_NO_ROOM] = {PACK, "a table that was unpacked, too little room", 0, 0},
    [WIDE] = {PACK, "any words that can be packed, room for their bytes", 0, 0},
    [WIDE_NO_ROOM] = {PACK, "any words that can be packed, too little room", 0, 0},
    [FAR] = {PACK, "the same with words changed", 0, 0},
    [PACK_ORDER] = {PACK, "the same with two nodes that break rules", 0, 0},
    [PACK_WORDS] = {PACK, "a plan with words changed", 0, 0},
    [PACK_FAULTY] = {PACK, "a plan that breaks rules or is too large", 0, 0},
    [PACK_NO_NODES] = {PACK, "a length that is not 1 to 256 nodes", 0, 0},
};

/* The answers that each export can give by the header, as bits; each of them has to be met, and none beside them. Of bytes that
 * unpack, 1, 2 and 3 cannot be told: node count and operations are in order, and words that are not used are 0. */
#define BITS(from, to) ((2u << (to)) - (1u << (from)))
static const uint32_t possible[EXPORTS] = {
    [UNPACK] = BITS(0, 0) | BITS(14, 14) | BITS(20, 24) | BITS(26, 26),
    [CHECK] = BITS(0, 12) | BITS(14, 14),
    [UNPACK_CHECK] = BITS(0, 0) | BITS(4, 12) | BITS(20, 24) | BITS(26, 26),
    [RUN] = BITS(0, 16),
    [LOOKUP] = BITS(0, 12) | BITS(17, 17),
    [PACK] = BITS(0, 3) | BITS(14, 14) | BITS(25, 25),
};
static unsigned long answers[EXPORTS][ANSWERS], operations[OPERATIONS], gaps_found;

/* The call under way, and what it answered. */
static int under_way;
static uint64_t said[5];

static void given(int which) {
    under_way = which;
    kinds[which].calls++;
}

static void name_call(void) {
    printf("seed %lu, turn %lu: %s on %s: ", seed, turn, exports[kinds[under_way].export], kinds[under_way].given);
}

static void expect(int holds, const char *what) {
    static unsigned long told;
    if (holds) return;
    kinds[under_way].wrong++;
    if (++told > MOST_TOLD) return;
    name_call();
    printf("does not hold: %s; it answered", what);
    for (int k = 0; k < 5; k++) printf(" %llu", (unsigned long long)said[k]);
    printf("\n");
}

static void heard(uint64_t number, uint64_t place, uint64_t third, uint64_t fourth, uint64_t fifth) {
    const uint64_t five[5] = {number, place, third, fourth, fifth};
    int export = kinds[under_way].export;
    memcpy(said, five, sizeof said);
    expect(number < ANSWERS && possible[export] >> number & 1, "an answer that the header says of this call");
    if (number < ANSWERS) answers[export][number]++;
}

static lup_answer answered(lup_answer a) {
    heard(a.number, a.place, a.count, 0, 0);
    return a;
}

static lup_found found(lup_found f) {
    heard(f.number, f.place, f.found, f.node, f.element);
    return f;
}

/* Whether the last answer has this number and this place. */
static int is(lup_answer due) { return said[0] == due.number && said[1] == due.place; }

/* ---- numbers by chance (splitmix64) */

static uint64_t state;

static uint64_t any(void) {
    uint64_t z = state += 0x9e3779b97f4a7c15u;
    z = (z ^ z >> 30) * 0xbf58476d1ce4e5b9u;
    z = (z ^ z >> 27) * 0x94d049bb133111ebu;
    return z ^ z >> 31;
}

static size_t below(size_t n) { return any() % n; }

static int one_in(size_t n) { return below(n) == 0; }

static int64_t edge(void) {
    static const int64_t edges[] = {0, 1, -1, 2, 3, 4, 5, 15, 16, LOAD, FILL, STACK, OPERATIONS, 127, 128, 255, 256,
                                    32767, 32768, -32767, -32768, -32769, 1048576, 1048577, 4194304, 2147483647, 2147483648,
                                    -2147483648, -2147483649, (int64_t)1 << 32, LEAST_WORD, LEAST_WORD - 1, GREATEST_WORD, GREATEST_WORD + 1,
                                    INT64_MAX, INT64_MIN, INT64_MAX - 1, INT64_MIN + 1};
    return one_in(4) ? (int64_t)any() : edges[below(sizeof edges / sizeof *edges)];
}

/* ---- buffers between pages that cannot be touched */

typedef struct {
    uint8_t *page, *at, *copy;
    size_t room, bytes;
    unsigned bit;
} buffer;

/* Bit: which bit of the turn's number chooses the side, so that all sides of all buffers come together in 128 turns. */
static buffer make(size_t most, unsigned bit) {
    size_t page = (size_t)sysconf(_SC_PAGESIZE), room = (most + page - 1) / page * page;
    uint8_t *all = mmap(NULL, room + 2 * page, PROT_READ | PROT_WRITE, MAP_PRIVATE | MAP_ANONYMOUS, -1, 0);
    buffer b = {all + page, NULL, malloc(room + 1), room, 0, bit};
    if (all == MAP_FAILED || !b.copy || mprotect(all, page, PROT_NONE) || mprotect(all + page + room, page, PROT_NONE)) {
        perror("fuzz");
        exit(2);
    }
    return b;
}

/* Lays the bytes against one end of the pages; where there are none of either, any bytes. */
static void lay(buffer *b, const void *bytes, size_t n) {
    b->at = b->page + (turn >> b->bit & 1 ? 0 : b->room - n);
    b->bytes = n;
    if (bytes) {
        if (n) memcpy(b->at, bytes, n);
    } else {
        for (size_t k = 0; k < n; k++) b->at[k] = (uint8_t)(37 * k + turn);
    }
    memcpy(b->copy, b->at, n);
}

/* Whether the bytes from `from` on are as they were laid. */
static int stays(const buffer *b, size_t from) { return from >= b->bytes || !memcmp(b->at + from, b->copy + from, b->bytes - from); }

static buffer packed, table, derived, values, flags, out_values, out_flags;

/* ---- plans */

static int64_t plan[MOST_WORDS], records[RECORD * MOST_NODES];
static size_t nodes, params;

static size_t count_of(size_t node) {
    size_t n = 1;
    for (size_t k = 4; k < 8; k++)
        if (records[RECORD * node + k]) n *= (size_t)records[RECORD * node + k];
    return n;
}

static size_t total(void) {
    size_t n = 0;
    for (size_t k = 0; k < nodes; k++) n += count_of(k);
    return n;
}

/* Rows that suit the source more often than not. */
static void rows(int64_t *w, const int64_t *s) {
    size_t rank = 0;
    while (rank < 4 && s[4 + rank]) rank++;
    for (size_t k = 0; k < rank; k++) {
        int64_t n = s[4 + k];
        if (w[0] == PERMUTE) w[9 + k] = (int64_t)((k + turn) % rank);
        if (w[0] == PERMUTE + 1 || w[0] == REDUCE) w[9 + k] = (int64_t)below(2);
        if (w[0] == PERMUTE + 2) w[9 + k] = s[4 + (k + turn) % rank];
        if (w[0] == PERMUTE + 3) w[9 + k] = n == 1 ? 1 + (int64_t)below(4) : n;
        if (w[0] == PAD) w[13 + k] = (int64_t)below(3), w[9 + k] = n + w[13 + k] + (int64_t)below(2);
        if (w[0] == SHRINK) w[13 + k] = (int64_t)below((size_t)n), w[9 + k] = 1 + (int64_t)below((size_t)(n - w[13 + k]));
    }
}

static void param_words(int64_t *w) {
    int64_t limit = 1 + (int64_t)below(9);
    w[4] = (int64_t)below(4);
    w[5] = (int64_t)params;
    w[6] = one_in(12) ? 2 : 1;
    w[7] = w[4] < 2 ? one_in(2) : -limit;
    w[8] = w[4] == 0 ? 1 : limit;
    if (w[4] == I16 && one_in(4)) w[7] = -32767, w[8] = 32767;
    for (size_t k = 0, rank = below(5); k < rank; k++) w[9 + k] = one_in(20) ? 60 : 1 + (int64_t)below(4);
}

/* A node of the plan with the type and the extents of that one. */
static int64_t alike(int64_t node) {
    const int64_t *own = records + RECORD * (size_t)node;
    for (int tries = 0; tries < 8; tries++) {
        size_t other = below(nodes);
        const int64_t *r = records + RECORD * other;
        if (r[0] == own[0] && !memcmp(r + 4, own + 4, 4 * sizeof *r)) return (int64_t)other;
    }
    return node;
}

/* The sources of FILL, KNOWN and STACK, and the number of STACK. */
static void new_words(int64_t *w) {
    w[1] = (int64_t)below(nodes);
    if (w[0] == FILL) w[2] = one_in(2) ? alike(w[1]) : (int64_t)below(nodes);
    if (w[0] != STACK) return;
    w[2] = one_in(8) ? (int64_t)below(nodes) : alike(w[1]);
    w[5] = 2 + (int64_t)below(2);
    if (w[5] == 3) w[3] = one_in(8) ? (int64_t)below(nodes) : alike(w[1]);
}

/* A node that may be accepted after those of the plan. */
static void node_words(int64_t *w) {
    memset(w, 0, NODE * sizeof *w);
    w[0] = nodes && !one_in(6) ? (int64_t)below(OPERATIONS) : (int64_t)below(2);
    if (w[0] == PARAM || w[0] > LOAD) {
        if (w[0] == PARAM) param_words(w);
        else new_words(w);
        return;
    }
    if (w[0] == 0 || w[0] == 8) w[4] = (int64_t)below(4);
    if (w[0] == 0) w[5] = (int64_t)below(2 + (size_t)w[4]);
    if (w[0] == REDUCE) w[5] = (int64_t)below(2);
    if (w[0] == LOAD) w[6] = 1;
    if (w[0] == 0) return;
    for (size_t k = 1; k < 4; k++)
        if (k == 1 || (w[0] >= 9 && w[0] <= 18 && (k == 2 || w[0] == 18))) w[k] = (int64_t)below(nodes);
    rows(w, records + RECORD * (size_t)w[1]);
}

/* A plan that is accepted, of at most so many nodes. */
static void grow(size_t most) {
    nodes = params = 0;
    for (size_t k = 0; k < 4 * most && nodes < most; k++) {
        node_words(plan + NODE * nodes);
        given(GROWN);
        lup_answer a = answered(lup_check(plan, NODE * (nodes + 1), records, RECORD * MOST_NODES));
        expect(a.count == 0 && a.place == (a.number && a.number != 12 ? nodes : 0), "accepted, or refused at the new node");
        if (a.number) continue;
        if (total() + count_of(nodes) > MOST_CELLS) continue;
        params += plan[NODE * nodes] == PARAM;
        nodes++;
    }
    if (nodes) lup_check(plan, NODE * nodes, records, RECORD * MOST_NODES);
}

/* ---- packed plans */

static uint32_t used(int64_t op) {
    static const uint32_t masks[OPERATIONS] = {0x30, 0x1ff0, 0x1e02, 0x1e02, 0x1e02, 0x1e02, 0x1fe02, 0x1fe02, 0x12, 6, 6, 6, 6, 6, 6, 6, 6, 6, 14, 0x1e22, 0x42,
                                                6, 2, 0x2e};
    return masks[op];
}

static size_t number(uint8_t *to, uint64_t n) {
    size_t k = 0;
    for (; n > 127; n >>= 7) to[k++] = (uint8_t)(n | 128);
    to[k++] = (uint8_t)n;
    return k;
}

static int holds_new(const int64_t *words, size_t count) {
    for (size_t i = 0; i < count; i++)
        if (words[NODE * i] > LOAD) return 1;
    return 0;
}

/* What a second edition file starts with. */
static const uint8_t edition[2] = {0, 2};

/* The file of words that can be packed, of the second edition where it holds a new operation. */
static size_t pack(uint8_t *to, const int64_t *words, size_t count) {
    size_t n = holds_new(words, count) ? sizeof edition : 0;
    memcpy(to, edition, n);
    n += number(to + n, count);
    for (size_t i = 0; i < count; i++) {
        const int64_t *w = words + NODE * i;
        n += number(to + n, (uint64_t)w[0]);
        for (int k = 1; k < NODE; k++)
            if (used(w[0]) >> k & 1) n += number(to + n, w[k] < 0 ? (uint64_t)(-2 * w[k] - 1) : (uint64_t)(2 * w[k]));
    }
    return n;
}

/* Some of the bytes changed, to the ends of a group of seven bits half of the time, cut off or moved. */
static size_t spoil(uint8_t *bytes, size_t n) {
    static const uint8_t ends[4] = {0x00, 0x7f, 0x80, 0xff};
    for (size_t k = below(4); k > 0 && n > 0; k--) {
        size_t at = below(n);
        if (one_in(3)) n = at;
        else if (one_in(2)) bytes[at] = one_in(2) ? ends[below(4)] : (uint8_t)any();
        else memmove(bytes + at, bytes + at + 1, --n - at);
    }
    return n;
}

/* The number at a place of packed bytes, and the place after it; or the refusal. */
static uint64_t next_number(const uint8_t *bytes, size_t n, size_t *at, lup_answer *due) {
    uint64_t value = 0;
    for (size_t k = 0, first = *at; k < 5; k++) {
        *due = (lup_answer){20, first, 0};
        if (*at == n) return 0;
        uint8_t byte = bytes[(*at)++];
        value |= (uint64_t)(byte & 127) << 7 * k;
        *due = (lup_answer){k && byte == 0 ? 21 : 0, k && byte == 0 ? first : 0, 0};
        if (byte < 128) return value;
        *due = (lup_answer){21, first, 0};
    }
    return 0;
}

/* What an unpacking has to answer, with so many words of room. */
static lup_answer unpacking_due(const uint8_t *bytes, size_t n, size_t room) {
    size_t at = 0;
    int second = n > 0 && bytes[0] == edition[0], fresh = 0;
    lup_answer due;
    if (second && (n < sizeof edition || bytes[1] != edition[1])) return (lup_answer){23, 0, 0};
    at = second ? sizeof edition : 0;
    uint64_t count = next_number(bytes, n, &at, &due);
    if (due.number) return due;
    if (count - 1 >= MOST_NODES) return (lup_answer){23, 0, 0};
    if (room < NODE * count) return (lup_answer){14, 0, 0};
    for (uint64_t k = 0; k < count; k++) {
        size_t first = at;
        uint64_t op = next_number(bytes, n, &at, &due);
        if (due.number == 0 && op > (second ? STACK : LOAD)) return (lup_answer){24, first, 0};
        fresh |= op > LOAD;
        for (int w = 1; due.number == 0 && w < NODE; w++)
            if (used((int64_t)op) >> w & 1) next_number(bytes, n, &at, &due);
        if (due.number) return due;
    }
    if (at < n) return (lup_answer){22, at, 0};
    return second && !fresh ? (lup_answer){26, 0, 0} : (lup_answer){0, 0, count};
}

static int no_nodes(size_t n) { return n % NODE || n == 0 || n > NODE * MOST_NODES; }

/* What a packing has to answer, with so many bytes of room; where it is accepted, the bytes go into `to`. */
static lup_answer packing_due(const int64_t *words, size_t n, size_t room, uint8_t *to) {
    if (no_nodes(n)) return (lup_answer){1, 0, 0};
    for (size_t i = 0; i < n / NODE; i++) {
        const int64_t *w = words + NODE * i;
        int set = 0, far = 0;
        if (w[0] < 0 || w[0] >= OPERATIONS) return (lup_answer){2, i, 0};
        for (int k = 1; k < NODE; k++) {
            if (used(w[0]) >> k & 1) far |= w[k] < LEAST_WORD || w[k] > GREATEST_WORD;
            else set |= w[k] != 0;
        }
        if (set || far) return (lup_answer){set ? 3 : 25, i, 0};
    }
    size_t size = pack(to, words, n / NODE);
    return room < size ? (lup_answer){14, 0, 0} : (lup_answer){0, 0, size};
}

/* A word that can be packed, in one byte or more by chance. */
static int64_t wide_word(void) {
    int64_t n = (int64_t)(any() >> (29 + below(35)));
    return n & 1 ? -(n >> 1) - 1 : n >> 1;
}

/* Nodes of any operations with any words that can be packed; no other rule is kept. */
static void widen(int64_t *words, size_t count) {
    memset(words, 0, 8 * NODE * count);
    for (size_t i = 0; i < count; i++) {
        int64_t *w = words + NODE * i;
        w[0] = (int64_t)below(OPERATIONS);
        for (int k = 1; k < NODE; k++)
            if (used(w[0]) >> k & 1) w[k] = one_in(9) ? LEAST_WORD : one_in(9) ? GREATEST_WORD : wide_word();
    }
}

/* ---- plans that break rules */

/* An accepted plan with more nodes, of which the last breaks rules; or it has too many elements; or both. */
static int64_t faulty[MOST_WORDS];
static size_t faulty_nodes;

static int64_t *add_node(const int64_t words[NODE]) { return memcpy(faulty + NODE * faulty_nodes++, words, NODE * sizeof *words); }

/* Four nodes of 1048576 elements and two of one: together over 4194304. */
static void add_large(void) {
    int64_t first = (int64_t)faulty_nodes;
    add_node((int64_t[NODE]){0, [4] = BOOL, 1});
    add_node((int64_t[NODE]){RESHAPE, first, [9] = 1, 1});
    for (int k = 0; k < 4; k++) add_node((int64_t[NODE]){EXPAND, first + 1, [9] = 1024, 1024});
}

/* Rules are bits by their numbers. */
static int breaks(uint32_t rules, unsigned rule) { return rules >> rule & 1; }

static const uint32_t param_rules = BITS(2, 3) | BITS(5, 5) | BITS(7, 8) | BITS(11, 11);

/* A PARAM that breaks these rules; 7 by its slot, its device, low above high, an extent, or a word after its shape; 11 by either limit. */
static void add_param(uint32_t rules) {
    static const struct { int word; int64_t value; } sevens[] = {{5, 16}, {5, -1}, {6, 0}, {6, 256}, {7, 99999}, {9, -1}, {9, 1048577}, {12, 1}};
    size_t seven = below(sizeof sevens / sizeof *sevens);
    int low = one_in(2);
    int64_t *w = add_node((int64_t[NODE]){PARAM, [4] = I16, (int64_t)params, 1, -9, 9, 2});
    if (breaks(rules, 2)) w[0] = one_in(2) ? OPERATIONS : -1;
    if (breaks(rules, 3)) w[one_in(2) ? 1 + below(3) : 13 + below(4)] = 1;
    if (breaks(rules, 5)) w[4] = one_in(2) ? 4 : -1;
    if (breaks(rules, 8)) w[9] = w[10] = 1048576;
    if (breaks(rules, 11)) w[low ? 7 : 8] = low ? -32768 : 32768;
    if (breaks(rules, 7)) w[sevens[seven].word] = sevens[seven].value;
}

static const uint32_t quotient_rules = BITS(2, 4) | BITS(6, 6) | BITS(8, 11);

/* An IDIV of two PARAMs that breaks these rules; the PARAMs break none. */
static void add_quotient(uint32_t rules) {
    int64_t first = (int64_t)faulty_nodes, slot = (int64_t)params;
    add_node((int64_t[NODE]){PARAM, [4] = I32, slot, 1, breaks(rules, 11) ? -2147483648 : -9, 0, 2});
    add_node((int64_t[NODE]){PARAM, [4] = breaks(rules, 6) ? I16 : I32, slot + 1, breaks(rules, 9) ? 2 : 1, -1, breaks(rules, 10) ? 1 : -1,
                             breaks(rules, 8) ? 3 : 2});
    int64_t *w = add_node((int64_t[NODE]){IDIV, first, first + 1});
    if (breaks(rules, 2)) w[0] = one_in(2) ? OPERATIONS : -1;
    if (breaks(rules, 3)) w[3 + below(14)] = 1;
    if (breaks(rules, 4)) w[1 + below(2)] = one_in(2) ? -1 : first + 2;
}

static const uint32_t stack_rules = BITS(2, 4) | BITS(6, 9);

/* A STACK of two PARAMs that breaks these rules; 7 by its number or by a word 3 that is not zero, 8 by their shapes or by their rank. The PARAMs
 * break none. */
static void add_stack(uint32_t rules) {
    static const int64_t numbers[] = {0, 1, 4, -1, LEAST_WORD, GREATEST_WORD};
    int64_t first = (int64_t)faulty_nodes, slot = (int64_t)params, number = 2 + (int64_t)below(2);
    int deep = breaks(rules, 8) && one_in(2), by_number = one_in(2);
    for (int64_t k = 0; k < 2; k++) {
        int64_t *source = add_node((int64_t[NODE]){PARAM, [4] = k && breaks(rules, 6) ? I16 : I32, slot + k, k && breaks(rules, 9) ? 2 : 1, -9, 9, 2});
        if (deep) source[10] = source[11] = source[12] = 1;
        if (k && breaks(rules, 8) && !deep) source[9] = 3;
    }
    int64_t *w = add_node((int64_t[NODE]){STACK, first, first + 1, number == 3 ? first : 0, [5] = number});
    if (breaks(rules, 7) && by_number) w[5] = numbers[below(sizeof numbers / sizeof *numbers)];
    if (breaks(rules, 7) && !by_number) w[3] = one_in(2) ? first + 1 : LEAST_WORD, w[5] = 2;
    if (breaks(rules, 2)) w[0] = one_in(2) ? OPERATIONS : -1;
    if (breaks(rules, 3)) w[one_in(6) ? 4 : 6 + below(11)] = 1;
    if (breaks(rules, 4)) w[1 + below(2)] = one_in(2) ? -1 : first + 2;
}

/* A node that breaks these rules of a packing. */
static const uint32_t pack_rules = BITS(2, 3) | BITS(25, 25);
static void break_node(int64_t *w, uint32_t rules) {
    size_t unused = 1 + below(16), own = 1 + below(16);
    while (used(w[0]) >> unused & 1) unused = 1 + below(16);
    while (!(used(w[0]) >> own & 1)) own = 1 + below(16);
    if (breaks(rules, 3)) w[unused] = one_in(2) ? 1 : INT64_MIN;
    if (breaks(rules, 25)) w[own] = one_in(2) ? LEAST_WORD - 1 : GREATEST_WORD + 1;
    if (breaks(rules, 2)) w[0] = one_in(2) ? OPERATIONS : -1;
}

/* ---- the calls */

/* Words with any room for their bytes; what is packed is unpacked again. */
static void pack_turn(const int64_t *words, size_t n, int which) {
    static uint8_t wanted[MOST_BYTES];
    size_t size = packing_due(words, n, MOST_BYTES, wanted).count, room = one_in(3) ? below(size + 9) : size + below(9);
    lup_answer due = packing_due(words, n, room, wanted);
    lay(&table, words, 8 * n);
    lay(&packed, NULL, room);
    if (no_nodes(n)) given(PACK_NO_NODES);
    else given(which == READ && room < size ? READ_NO_ROOM : which == WIDE && room < size ? WIDE_NO_ROOM : which);
    lup_answer a = answered(lup_pack((int64_t *)table.at, n, packed.at, room));
    expect(stays(&table, 0), "its table as it was");
    expect(is(due) && a.count == due.count, "the answer that is due");
    expect(a.count <= room && stays(&packed, a.count), "the bytes past what it writes, all where it is refused");
    if (a.number || a.count != size) return;
    expect(!memcmp(packed.at, wanted, size), "the bytes of the table");
    lay(&table, NULL, 8 * n);
    lup_answer back = lup_unpack(packed.at, size, (int64_t *)table.at, n);
    expect(back.number == 0 && back.count == n / NODE && !memcmp(table.at, words, 8 * n), "the table that it packed, read back");
}

/* Any words that can be packed, then changed, then with nodes that break rules: the first of 1, of 2, 3 and 25 at the earlier node, of 14. */
static void wide_turn(void) {
    static int64_t words[MOST_WORDS];
    static const unsigned order[] = {2, 3, 25};
    size_t count = one_in(30) ? 1 + below(MOST_NODES) : one_in(90) ? MOST_NODES + 1 : 1 + below(12);
    size_t n = NODE * count, first = below(count), second = first + below(count - first);
    uint32_t rules = pack_rules & (uint32_t)any();
    widen(words, count);
    pack_turn(words, n, WIDE);
    for (size_t k = 1 + below(3); k > 0; k--) words[below(n)] = edge();
    pack_turn(words, one_in(8) ? below(n + NODE) : n, FAR);
    widen(words, count);
    rules = rules ? rules : BITS(25, 25);
    if (second > first) break_node(words + NODE * second, pack_rules & (uint32_t)any());
    break_node(words + NODE * first, rules);
    lup_answer due = {0, first, 0};
    for (int k = 2; k >= 0; k--)
        if (breaks(rules, order[k])) due.number = order[k];
    n += one_in(8);
    pack_turn(words, n, PACK_ORDER);
    expect(is(no_nodes(n) ? (lup_answer){1, 0, 0} : due), "the first refusal of the earlier node, 1 before it");
}

/* Bytes with any room for their table; what is unpacked is packed again. */
static void unpack_turn(const uint8_t *bytes, size_t n, int which) {
    static int64_t read[MOST_WORDS];
    size_t room = one_in(3) ? below(NODE * (nodes + 2)) : (size_t)NODE * MOST_NODES;
    lay(&packed, bytes, n);
    lay(&table, NULL, 8 * room);
    given(which == PACKED && room < NODE * nodes ? PACKED_NO_ROOM : which);
    lup_answer a = answered(lup_unpack(packed.at, n, (int64_t *)table.at, room)), due = unpacking_due(bytes, n, room);
    expect(stays(&packed, 0), "its bytes as they were");
    expect(is(due) && a.count == due.count, "the answer that is due");
    expect(stays(&table, 8 * NODE * a.count), "the table past what it writes");
    int same = a.number == 0 && a.count == nodes && !memcmp(table.at, plan, 8 * NODE * nodes);
    if (under_way == PACKED) expect(same, "the plan that was packed");
    if (under_way == PACKED_NO_ROOM) expect(a.number == 14, "refused 14");
    same = a.number == 0 && a.count == faulty_nodes && !memcmp(table.at, faulty, 8 * NODE * faulty_nodes);
    if (under_way == FAULTY_PACKED && a.number != 14) expect(same, "the plan that was packed");
    if (a.number || a.count != due.count) return;
    memcpy(read, table.at, 8 * NODE * a.count);
    pack_turn(read, NODE * a.count, READ);
    expect(said[0] == 14 || (said[2] == n && !memcmp(packed.at, bytes, n)), "the bytes that were read");
}

/* The same bytes by unpacking and checking, and by both in one call; the number that this call answers. */
static uint64_t code_turn(const uint8_t *bytes, size_t n, int which) {
    lup_answer due = unpacking_due(bytes, n, (size_t)NODE * MOST_NODES);
    uint64_t wanted = due.number ? 65536 * due.number + due.place : due.count;
    lay(&packed, bytes, n);
    if (due.number == 0) {
        lay(&table, NULL, 8 * NODE * due.count);
        lay(&derived, NULL, 8 * RECORD * MOST_NODES);
        lup_unpack(packed.at, n, (int64_t *)table.at, NODE * due.count);
        given(UNPACKED);
        lup_answer c = answered(lup_check((int64_t *)table.at, NODE * due.count, (int64_t *)derived.at, RECORD * MOST_NODES));
        expect(c.count == 0 && stays(&derived, c.number ? 0 : 8 * RECORD * due.count), "its answer, and the words past what it writes");
        if (c.number) wanted = 65536 * c.number + c.place;
    }
    given(which);
    uint64_t code = lup_unpack_check(packed.at, n);
    heard(code > MOST_NODES ? code >> 16 : 0, code > MOST_NODES ? code & 65535 : 0, code, 0, 0);
    expect(stays(&packed, 0), "its bytes as they were");
    expect(code == wanted, "what unpacking and checking give");
    return code;
}

/* A check of words with any room; its answer where there is room enough. */
static lup_answer check_turn(const int64_t *words, size_t n, int which) {
    size_t room = one_in(3) ? below(RECORD * (n / NODE + 2)) : (size_t)RECORD * MOST_NODES;
    lay(&table, words, 8 * n);
    lay(&derived, NULL, 8 * RECORD * MOST_NODES);
    given(no_nodes(n) ? NO_NODES : which == PLAN && room < RECORD * nodes ? PLAN_NO_ROOM : which);
    lup_answer full = answered(lup_check((int64_t *)table.at, n, (int64_t *)derived.at, RECORD * MOST_NODES));
    lay(&derived, NULL, 8 * room);
    lup_answer a = answered(lup_check((int64_t *)table.at, n, (int64_t *)derived.at, room));
    expect(stays(&table, 0), "its table as it was");
    expect(stays(&derived, a.number ? 0 : 8 * RECORD * (n / NODE)), "the words past what it writes");
    expect(a.count == 0 && (a.number || a.place == 0), "its answer");
    expect(is(full.number || room >= RECORD * (n / NODE) ? full : (lup_answer){14, 0, 0}), "14 where nothing else is wrong");
    if (under_way == NO_NODES) expect(a.number == 1 && a.place == 0, "refused 1 at 0");
    int same = a.number == 0 && n == NODE * nodes && !memcmp(derived.at, records, 8 * RECORD * nodes);
    if (under_way == PLAN) expect(same, "accepted, with the same words as before");
    if (under_way == PLAN_NO_ROOM) expect(a.number == 14, "refused 14");
    return full;
}

/* Input for the PARAMs: mostly good. */
static size_t fill_input(int64_t *v, uint8_t *f, int bad) {
    size_t n = 0;
    for (size_t i = 0; i < nodes; i++) {
        const int64_t *w = plan + NODE * i;
        for (size_t k = 0, all = w[0] == PARAM ? count_of(i) : 0; k < all; k++, n++) {
            f[n] = !one_in(6);
            v[n] = f[n] ? w[7] + (int64_t)below((size_t)(w[8] - w[7]) + 1) : edge();
        }
    }
    for (size_t k = bad && n ? 1 + below(2) : 0; k > 0; k--) {
        if (one_in(2)) f[below(n)] = (uint8_t)any();
        else v[below(n)] = edge();
    }
    return n;
}

/* The first fault of the input, with its position; 0 where it has none. */
static lup_answer fault(const int64_t *v, const uint8_t *f) {
    size_t n = 0;
    for (size_t i = 0; i < nodes; i++) {
        const int64_t *w = plan + NODE * i;
        for (size_t k = 0, all = w[0] == PARAM ? count_of(i) : 0; k < all; k++, n++) {
            if (f[n] > 1) return (lup_answer){15, n, 0};
            if (f[n] && (v[n] < w[7] || v[n] > w[8])) return (lup_answer){16, n, 0};
        }
    }
    return (lup_answer){0, 0, 0};
}

/* What a completed run has written. */
static void cells_hold(uint64_t gaps) {
    const int64_t *v = (int64_t *)out_values.at;
    size_t at = 0, last = 0;
    int flags_right = 1, bounds_right = 1;
    for (size_t i = 0; i < nodes; i++) {
        last = 0;
        for (size_t k = 0, all = count_of(i); k < all; k++, at++) {
            uint8_t f = out_flags.at[at];
            flags_right &= f == 1 || (f == 0 && v[at] == 0);
            bounds_right &= !f || (records[RECORD * i + 2] <= v[at] && v[at] <= records[RECORD * i + 3]);
            last += f == 0;
        }
    }
    expect(flags_right, "flags 0 or 1, and 0 under a gap");
    expect(bounds_right, "known numbers in their bounds");
    expect(last == gaps, "the gaps of the output");
    expect(stays(&out_values, 8 * at) && stays(&out_flags, at), "places past what it writes");
}

/* Where a node's cells start. */
static size_t start_of(size_t node) {
    size_t n = 0;
    for (size_t k = 0; k < node; k++) n += count_of(k);
    return n;
}

static int same_cell(size_t a, size_t b) { return out_flags.at[a] == out_flags.at[b] && ((int64_t *)out_values.at)[a] == ((int64_t *)out_values.at)[b]; }

/* What a completed run has written for KNOWN, for STACK, and for FILL of two sources of one shape. */
static void new_cells_hold(size_t node) {
    const int64_t *w = plan + NODE * node;
    size_t at = start_of(node), all = count_of(node), count = count_of((size_t)w[1]);
    int known_right = 1, parts_right = 1, filled_right = 1;
    int one_shape = w[0] == FILL && !memcmp(records + RECORD * w[1] + 4, records + RECORD * w[2] + 4, 4 * sizeof *records);
    for (size_t k = 0; k < all; k++) {
        size_t from = start_of((size_t)w[w[0] == STACK ? 1 + k / count : 1]) + k % count;
        if (w[0] == KNOWN) known_right &= out_flags.at[at + k] == 1 && ((int64_t *)out_values.at)[at + k] == out_flags.at[from];
        if (w[0] == STACK) parts_right &= same_cell(at + k, from);
        if (one_shape) filled_right &= same_cell(at + k, out_flags.at[from] ? from : start_of((size_t)w[2]) + k);
    }
    expect(known_right, "KNOWN: 1 where its source is known, else 0");
    expect(parts_right, "STACK: its sources one after another");
    expect(filled_right, "FILL: the first source where it is known, else the second");
}

/* A lookup of an element against the cells of a completed run. */
static void lookup_turn(size_t n) {
    size_t node = below(nodes + 1), element = below(nodes > node ? count_of(node) + 1 : 9);
    int64_t op = node < nodes ? plan[NODE * node] : 0;
    int followed = (op >= PERMUTE && op <= SHRINK) || op == LOAD;
    lay(&table, plan, 8 * n);
    given(node >= nodes ? NO_NODE : element >= count_of(node) ? NO_ELEMENT : followed ? FOLLOWED : NOT_FOLLOWED);
    lup_found f = found(lup_lookup((int64_t *)table.at, n, node, element));
    expect(stays(&table, 0), "its table as it was");
    if (under_way == NO_NODE || under_way == NO_ELEMENT) {
        expect(f.number == 17 && !f.place && !f.found && !f.node && !f.element, "refused 17");
        return;
    }
    int place = f.found == 1 && f.node <= node && f.element < count_of(f.node);
    expect(f.number == 0 && f.place == 0 && (f.found == 2 || place), "a place that is there, or a gap");
    if (under_way == NOT_FOLLOWED) expect(f.found == 1 && f.node == node && f.element == element, "itself");
    if (f.found == 1 && f.node > node) return;
    size_t here = start_of(node) + element;
    gaps_found += f.found == 2;
    if (f.found == 2) expect(out_flags.at[here] == 0, "a gap where it finds one");
    else expect(same_cell(here, start_of(f.node) + f.element), "the same cell");
}

static lup_answer run(size_t n, size_t nvalues, size_t nflags, size_t room, size_t flag_room) {
    return answered(lup_run((int64_t *)table.at, n, (int64_t *)values.at, nvalues, flags.at, nflags,
                            (int64_t *)out_values.at, room, out_flags.at, flag_room));
}

static void run_turn(void) {
    static int64_t v[MOST_CELLS + 1];
    static uint8_t f[MOST_CELLS + 1];
    size_t all = total(), n = fill_input(v, f, one_in(4)), nflags = n, room = all + below(3), flag_room = all + below(3);
    if (one_in(12)) room = below(all + 1);
    if (one_in(12)) flag_room = below(all + 1);
    size_t nvalues = one_in(12) ? n + 1 - 2 * (n && one_in(2)) : n;
    if (one_in(12)) nflags = n + 1 - 2 * (n && one_in(2));
    lay(&table, plan, 8 * NODE * nodes);
    lay(&values, v, 8 * nvalues);
    lay(&flags, f, nflags);
    lay(&out_values, NULL, 8 * room);
    lay(&out_flags, NULL, flag_room);
    lup_answer want = fault(v, f);
    int which = want.number == 15 ? BAD_FLAG : want.number == 16 ? BAD_NUMBER : GOOD;
    if (room < all || flag_room < all) which = room < all ? NO_VALUE_ROOM : NO_FLAG_ROOM, want = (lup_answer){14, 0, 0};
    if (nvalues != n || nflags != n) which = nvalues != n ? OTHER_VALUES : OTHER_FLAGS, want = (lup_answer){13, 0, 0};
    given(which);
    lup_answer a = run(NODE * nodes, nvalues, nflags, room, flag_room);
    expect(is(want), "the number and the place that are due");
    expect(stays(&table, 0) && stays(&values, 0) && stays(&flags, 0), "its plan and its input as they were");
    if (a.number) {
        expect(a.count == 0 && stays(&out_values, 0) && stays(&out_flags, 0), "refused: no count, both buffers as they were");
        return;
    }
    completed++;
    for (size_t k = 0; k < nodes; k++) operations[plan[NODE * k]]++;
    cells_hold(a.count);
    for (size_t k = 0; k < nodes; k++)
        if (plan[NODE * k] > LOAD) new_cells_hold(k);
    for (int k = 0; k < 4; k++) lookup_turn(NODE * nodes);
}

/* A run and a lookup of any words, with any input, room and place. What the check refuses they refuse in the same way. */
static void wild_turn(const int64_t *words, size_t n, lup_answer check, int run_kind, int lookup_kind) {
    size_t room = below(64);
    lay(&table, words, 8 * n);
    lay(&values, NULL, 8 * below(9));
    lay(&flags, NULL, below(9));
    lay(&out_values, NULL, 8 * room);
    lay(&out_flags, NULL, room);
    given(run_kind);
    lup_answer a = run(n, values.bytes / 8, flags.bytes, room, room);
    expect(check.number ? is(check) : a.number == 0 || a.number > 12, "the refusal of the check, if it has one");
    if (a.number) expect(a.count == 0 && stays(&out_values, 0) && stays(&out_flags, 0), "refused: no count, both buffers as they were");
    expect(stays(&table, 0) && stays(&values, 0) && stays(&flags, 0), "what it reads as it was");
    given(lookup_kind);
    lup_found f = found(lup_lookup((int64_t *)table.at, n, (uint64_t)edge(), (uint64_t)edge()));
    expect(check.number ? is(check) : f.number == 0 || f.number > 12, "the refusal of the check, if it has one");
    expect(f.number == 0 || (!f.found && !f.node && !f.element), "refused: no place");
    expect(stays(&table, 0), "its table as it was");
}

/* The plan with nodes that break rules, or that are too large, by every call: the least of the rules at the last node, 12 where
 * none is broken, and nothing that comes after. */
static void faulty_turn(void) {
    static uint8_t bytes[MOST_BYTES];
    const struct { uint32_t rules; void (*add)(uint32_t rules); } ways[] = {
        {param_rules, add_param}, {quotient_rules, add_quotient}, {stack_rules, add_stack}};
    if (nodes > MOST_NODES - 10 || params > 14) return;
    size_t way = below(sizeof ways / sizeof *ways);
    uint32_t rules = ways[way].rules & (uint32_t)(any() & any());
    memcpy(faulty, plan, 8 * NODE * nodes);
    faulty_nodes = nodes;
    if (!rules || one_in(2)) add_large();
    ways[way].add(rules);
    lup_answer due = {12, 0, 0};
    for (unsigned rule = 11; rule > 1; rule--)
        if (breaks(rules, rule)) due = (lup_answer){rule, faulty_nodes - 1, 0};
    check_turn(faulty, NODE * faulty_nodes, FAULTY);
    expect(is(due), "the least rule that is broken, at the last node, else 12");
    wild_turn(faulty, NODE * faulty_nodes, due, RUN_FAULTY, LOOKUP_FAULTY);
    pack_turn(faulty, NODE * faulty_nodes, PACK_FAULTY);
    expect(breaks(rules, 2) || breaks(rules, 3) ? is(due) : said[0] == 0 || said[0] == 14, "2 and 3 alone of the rules of a check");
    if (breaks(rules, 2) || breaks(rules, 3)) return;
    size_t n = pack(bytes, faulty, faulty_nodes);
    unpack_turn(bytes, n, FAULTY_PACKED);
    expect(code_turn(bytes, n, CODE_FAULTY) == 65536 * due.number + due.place, "the least rule that is broken, at the last node, else 12");
}

/* The plan's file with the start of the other edition, or with the number of no edition: 24 for a first edition file with a new operation, 26 for a
 * second edition file without one, 23. */
static void edition_turn(const uint8_t *bytes, size_t n) {
    static uint8_t other[MOST_BYTES];
    size_t start = bytes[0] == edition[0] ? sizeof edition : 0, head = one_in(2) ? sizeof edition : 0;
    uint8_t second = (uint8_t)any();
    if (head == start) head = sizeof edition, second = second == edition[1] ? 3 : second;
    else second = edition[1];
    memcpy(other, (uint8_t[]){edition[0], second}, head);
    memcpy(other + head, bytes + start, n - start);
    unpack_turn(other, head + n - start, OTHER_EDITION);
    uint64_t due = second != edition[1] ? 23 : head ? 26 : 24;
    expect(code_turn(other, head + n - start, CODE_EDITION) >> 16 == due, "the refusal of its edition");
}

static void one_turn(void) {
    static uint8_t bytes[MOST_BYTES];
    static int64_t words[MOST_WORDS];
    grow(one_in(30) ? MOST_NODES : 1 + below(12));
    if (nodes == 0) return;
    size_t n = pack(bytes, plan, nodes);
    unpack_turn(bytes, n, PACKED);
    expect(code_turn(bytes, n, CODE_PACKED) == nodes, "the number of nodes");
    edition_turn(bytes, n);
    n = spoil(bytes, n);
    unpack_turn(bytes, n, SPOILT);
    code_turn(bytes, n, CODE_SPOILT);
    n = NODE * nodes;
    check_turn(plan, n, PLAN);
    run_turn();
    memcpy(words, plan, 8 * n);
    for (size_t k = 1 + below(3); k > 0; k--) words[below(n)] = edge();
    if (one_in(8)) n = below(n + NODE);
    wild_turn(words, n, check_turn(words, n, WORDS), RUN_WORDS, LOOKUP_WORDS);
    pack_turn(words, n, PACK_WORDS);
    wide_turn();
    faulty_turn();
}

static void stopped(int signal) {
    name_call();
    printf("signal %d, it touched what it may not\n", signal);
    fflush(stdout);
    _exit(1);
}

static unsigned long passed, failed;

/* One case: whether it was met and nothing of it was wrong. */
static void counted(const char *export, const char *what, unsigned long met, unsigned long wrong) {
    *(met && !wrong ? &passed : &failed) += 1;
    if (!met) printf("seed %lu: never met in %lu turns: %s %s\n", seed, turn, export, what);
    if (wrong) printf("seed %lu: wrong in %lu places: %s %s\n", seed, wrong, export, what);
}

/* All cases, the calls, the last line; the exit status. */
static int finish(void) {
    unsigned long calls = 0;
    char what[80];
    for (int k = 0; k < KINDS; k++) {
        calls += kinds[k].calls;
        snprintf(what, sizeof what, "on %s", kinds[k].given);
        counted(exports[kinds[k].export], what, kinds[k].calls, kinds[k].wrong);
    }
    for (int k = 0; k < EXPORTS * ANSWERS; k++) {
        snprintf(what, sizeof what, "answers %d", k % ANSWERS);
        if (possible[k / ANSWERS] >> k % ANSWERS & 1) counted(exports[k / ANSWERS], what, answers[k / ANSWERS][k % ANSWERS], 0);
    }
    for (int k = 0; k < OPERATIONS; k++) {
        snprintf(what, sizeof what, "completes with a node of operation %d", k);
        counted(exports[RUN], what, operations[k], 0);
    }
    counted(exports[LOOKUP], "finds a gap", gaps_found, 0);
    printf("calls: %lu in %lu turns from seed %lu, %lu runs completed; refusals met", calls, turn, seed, completed);
    for (int k = 1; k < ANSWERS; k++) {
        unsigned long met = 0;
        for (int e = 0; e < EXPORTS; e++) met += answers[e][k];
        if (met) printf(" %d", k);
    }
    printf("\n%lu passed, %lu failed\n", passed, failed);
    return failed != 0;
}

int main(int argc, char **argv) {
    double seconds = argc > 1 ? atof(argv[1]) : 0;
    time_t end = time(NULL) + (time_t)seconds;
    seed = argc > 2 ? strtoul(argv[2], NULL, 10) : 1;
    if (argc < 2 || argc > 3 || seconds <= 0) {
        fprintf(stderr, "usage: fuzz SECONDS [SEED]\n");
        return 2;
    }
    signal(SIGSEGV, stopped);
    signal(SIGBUS, stopped);
    signal(SIGILL, stopped);
    signal(SIGFPE, stopped);
    packed = make(MOST_BYTES, 0), table = make(8 * MOST_WORDS, 1), derived = make(8 * RECORD * (MOST_NODES + 2), 2);
    values = make(8 * (MOST_CELLS + 1), 3), flags = make(MOST_CELLS + 1, 4), out_values = make(8 * (MOST_CELLS + 8), 5), out_flags = make(MOST_CELLS + 8, 6);
    for (turn = 0; turn < LEAST_TURNS || time(NULL) < end; turn++) {
        state = seed * 1000003u + turn;
        one_turn();
    }
    return finish();
}
