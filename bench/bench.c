/* Time per call of the library and of plain C, in one run and on the same bytes; their answers and buffers are compared. With OTHER
 * defined, also of another build of the library, whose names have other_ in front. PADDING is a number of bytes in front of the code that is
 * timed: where a loop lies in its cache lines can move a row by a tenth and more. */
#define _POSIX_C_SOURCE 200809L
#include "lupetzarin.h"
#include "plain.h"

#include <math.h>
#include <stdio.h>
#include <string.h>
#include <time.h>

#define PLANS 400
#define NODES 256
#define WORDS 17
#define MOST_BYTES 11778
#define ROUNDS 200

#ifndef PADDING
#define PADDING 0
#endif
#if PADDING
#define TEXT(number) #number
#define SKIP(bytes) __asm__(".text\n\t.skip " TEXT(bytes) ", 0x90")
SKIP(PADDING);
#endif

typedef struct {
    uint8_t bytes[MOST_BYTES];
    size_t length;
} packed_plan;

static packed_plan plans[PLANS];
static int64_t lup_table[NODES * WORDS], plain_table[NODES * WORDS];
static int64_t tables[PLANS][NODES * WORDS], lup_derived[NODES * 8], plain_derived[NODES * 8];
static uint8_t lup_bytes[MOST_BYTES], plain_bytes[MOST_BYTES];
static volatile uint64_t sink;

/* A build of the library. */
typedef struct {
    lup_answer (*unpack)(const uint8_t *bytes, size_t length, int64_t *table, size_t room);
    lup_answer (*pack)(const int64_t *table, size_t words, uint8_t *bytes, size_t room);
    lup_answer (*check)(const int64_t *table, size_t words, int64_t *derived, size_t room);
} library;

#ifdef OTHER
lup_answer other_lup_unpack(const uint8_t *bytes, size_t length, int64_t *table, size_t room);
lup_answer other_lup_pack(const int64_t *table, size_t words, uint8_t *bytes, size_t room);
lup_answer other_lup_check(const int64_t *table, size_t words, int64_t *derived, size_t room);
#endif

static const library builds[] = {
    {lup_unpack, lup_pack, lup_check},
#ifdef OTHER
    {other_lup_unpack, other_lup_pack, other_lup_check},
#endif
};
enum { BUILDS = sizeof builds / sizeof *builds };

/* The words beside the operation that each operation uses, by its number. */
static const unsigned used_words[21] = {2, 9, 5, 5, 5, 5, 9, 9, 2, 2, 2, 2, 2, 2, 2, 2, 2, 2, 3, 6, 2};

static uint64_t random_bits(void) {
    static uint64_t state = 7;
    uint64_t z = state += 0x9E3779B97F4A7C15u;
    z = (z ^ (z >> 30)) * 0xBF58476D1CE4E5B9u;
    z = (z ^ (z >> 27)) * 0x94D049BB133111EBu;
    return z ^ (z >> 31);
}

static void put_number(packed_plan *p, uint64_t n) {
    for (; n >= 128; n >>= 7) p->bytes[p->length++] = (uint8_t)(n | 128);
    p->bytes[p->length++] = (uint8_t)n;
}

/* Any operations, whose words are below a limit each. */
static void any_plan(packed_plan *p, uint64_t (*limit)(void)) {
    for (unsigned i = 0; i < NODES; i++) {
        uint64_t op = random_bits() % 21;
        put_number(p, op);
        for (unsigned k = 0; k < used_words[op]; k++) {
            uint64_t below = limit();
            put_number(p, random_bits() % below);
        }
    }
}

/* Of eight words five take one byte, two take up to two and one takes up to five. */
static uint64_t any_limit(void) {
    uint64_t kind = random_bits() % 8;
    return kind < 5 ? 128u : kind < 7 ? 16384u : (uint64_t)1 << 35;
}
static uint64_t one_byte(void) { return 128; }

static void mixed_plan(packed_plan *p) { any_plan(p, any_limit); }
static void short_plan(packed_plan *p) { any_plan(p, one_byte); }

/* One operation, whose words take as many bits each. */
static void uniform_plan(packed_plan *p, unsigned op, unsigned bits) {
    uint64_t least = (uint64_t)1 << (bits - 1);
    for (unsigned i = 0; i < NODES; i++) {
        put_number(p, op);
        for (unsigned k = 0; k < used_words[op]; k++) put_number(p, least + random_bits() % least);
    }
}

static void add_plan(packed_plan *p) { uniform_plan(p, 9, 7); }
static void short_pad_plan(packed_plan *p) { uniform_plan(p, 6, 7); }
static void long_pad_plan(packed_plan *p) { uniform_plan(p, 6, 35); }

/* Packs all plans; their average length. */
static size_t pack_plans(void (*body)(packed_plan *)) {
    size_t total = 0;
    for (unsigned i = 0; i < PLANS; i++) {
        plans[i].length = 0;
        put_number(&plans[i], NODES);
        body(&plans[i]);
        total += plans[i].length;
    }
    return total / PLANS;
}

static double now(void) {
    struct timespec t;
    clock_gettime(CLOCK_MONOTONIC, &t);
    return (double)t.tv_sec * 1e6 + (double)t.tv_nsec * 1e-3;
}

static double unpack_round(const library *build) {
    double start = now();
    for (unsigned i = 0; i < PLANS; i++) sink += build->unpack(plans[i].bytes, plans[i].length, lup_table, NODES * WORDS).count;
    return now() - start;
}

static double plain_unpack_round(void) {
    double start = now();
    for (unsigned i = 0; i < PLANS; i++) sink += plain_unpack(plans[i].bytes, plans[i].length, plain_table, NODES * WORDS).count;
    return now() - start;
}

/* Whether both accept every plan and write the same table. */
static int unpack_agrees(const library *build) {
    for (unsigned i = 0; i < PLANS; i++) {
        memset(lup_table, 1, sizeof lup_table);
        memset(plain_table, 2, sizeof plain_table);
        lup_answer a = build->unpack(plans[i].bytes, plans[i].length, lup_table, NODES * WORDS);
        plain_answer b = plain_unpack(plans[i].bytes, plans[i].length, plain_table, NODES * WORDS);
        if (a.number != 0 || a.place != 0 || a.count != NODES) return 0;
        if (a.number != b.number || a.place != b.place || a.count != b.count) return 0;
        if (memcmp(lup_table, plain_table, sizeof lup_table) != 0) return 0;
    }
    return 1;
}

static int all_agree(int (*agrees)(const library *)) {
    for (unsigned k = 0; k < BUILDS; k++)
        if (!agrees(&builds[k])) return 0;
    return 1;
}

static double least(double a, double b) { return a < b ? a : b; }

/* One row of the table; 0 where a build of the library and plain C differ. */
static int row(const char *what, size_t length, int (*agrees)(const library *), double (*lup)(const library *), double (*plain)(void)) {
    double best[BUILDS], best_plain = HUGE_VAL;
    if (!all_agree(agrees)) {
        printf("bench: %s: library and plain C differ\n", what);
        return 0;
    }
    for (unsigned k = 0; k < BUILDS; k++) best[k] = HUGE_VAL;
    for (unsigned r = 0; r < ROUNDS; r++) {
        for (unsigned k = 0; k < BUILDS; k++) best[k] = least(best[k], lup(&builds[k]));
        best_plain = least(best_plain, plain());
    }
    printf("| %s | %zu | %.2f | %.2f | %.2f |", what, length, best[0] / PLANS, best_plain / PLANS, best[0] / best_plain);
    for (unsigned k = 1; k < BUILDS; k++) printf(" %.2f | %.2f | %.2f |", best[k] / PLANS, best[k] / best_plain, best[0] / best[k]);
    printf("\n");
    return 1;
}

static int unpack_row(const char *what, void (*body)(packed_plan *)) {
    size_t length = pack_plans(body);
    return row(what, length, unpack_agrees, unpack_round, plain_unpack_round);
}

/* ---- packing ---- */

static double pack_round(const library *build) {
    double start = now();
    for (unsigned i = 0; i < PLANS; i++) sink += build->pack(tables[i], NODES * WORDS, lup_bytes, MOST_BYTES).count;
    return now() - start;
}

static double plain_pack_round(void) {
    double start = now();
    for (unsigned i = 0; i < PLANS; i++) sink += plain_pack(tables[i], NODES * WORDS, plain_bytes, MOST_BYTES).count;
    return now() - start;
}

/* Whether both accept every table, write the bytes that it was unpacked from, and leave the bytes past them. */
static int packs(const library *build) {
    for (unsigned i = 0; i < PLANS; i++) {
        memset(lup_bytes, 1, sizeof lup_bytes);
        memset(plain_bytes, 1, sizeof plain_bytes);
        lup_answer a = build->pack(tables[i], NODES * WORDS, lup_bytes, MOST_BYTES);
        plain_answer b = plain_pack(tables[i], NODES * WORDS, plain_bytes, MOST_BYTES);
        if (a.number != 0 || a.place != 0 || a.count != plans[i].length) return 0;
        if (a.number != b.number || a.place != b.place || a.count != b.count) return 0;
        if (memcmp(lup_bytes, plans[i].bytes, plans[i].length) != 0 || memcmp(lup_bytes, plain_bytes, sizeof lup_bytes) != 0) return 0;
    }
    return 1;
}

/* Whether both refuse the first table alike where a word of any node is another. */
static int refuses(const library *build) {
    static const int64_t words[] = {-1, 1, 21, 24, -17179869185, 17179869184, INT64_MIN, INT64_MAX};
    for (unsigned k = 0; k < NODES * WORDS; k++) {
        int64_t kept = tables[0][k];
        tables[0][k] = words[k % (sizeof words / sizeof *words)];
        lup_answer a = build->pack(tables[0], NODES * WORDS, lup_bytes, MOST_BYTES);
        plain_answer b = plain_pack(tables[0], NODES * WORDS, plain_bytes, MOST_BYTES);
        tables[0][k] = kept;
        if (a.number != b.number || a.place != b.place || a.count != b.count) return 0;
    }
    return 1;
}

static int pack_agrees(const library *build) { return packs(build) && refuses(build); }

static int pack_row(const char *what, void (*body)(packed_plan *)) {
    size_t length = pack_plans(body);
    for (unsigned i = 0; i < PLANS; i++) plain_unpack(plans[i].bytes, plans[i].length, tables[i], NODES * WORDS);
    return row(what, length, pack_agrees, pack_round, plain_pack_round);
}

/* ---- the check ---- */

/* Words 1 to 16 of a valid node of each operation but PARAM, after the five PARAMs of `params`. */
static const int64_t nodes[20][WORDS] = {
    {0, 0, 0, 0, 2, 300}, {2, 0, 0, 0, 0, 0, 0, 0, 0, 1, 0}, {3, 0, 0, 0, 0, 0, 0, 0, 0, 1, 0}, {4, 0, 0, 0, 0, 0, 0, 0, 0, 8, 2, 2},
    {5, 2, 0, 0, 0, 0, 0, 0, 0, 4, 8}, {6, 0, 0, 0, 0, 0, 0, 0, 0, 6, 9, 0, 0, 1, 1}, {7, 0, 0, 0, 0, 0, 0, 0, 0, 2, 3, 0, 0, 1, 4},
    {8, 0, 0, 0, 3}, {9, 0, 2}, {10, 0, 3}, {11, 0, 0}, {12, 0, 3}, {13, 0, 3}, {14, 0, 2}, {15, 0, 0}, {16, 1, 4}, {17, 1, 4}, {18, 1, 0, 2},
    {19, 0, 0, 0, 0, 0, 0, 0, 0, 1, 0}, {20, 0, 0, 0, 0, 0, 9},
};
static const int64_t params[5][WORDS] = {
    {1, 0, 0, 0, 3, 0, 1, -100, 100, 4, 8}, {1, 0, 0, 0, 0, 1, 1, 0, 1, 4, 8}, {1, 0, 0, 0, 3, 2, 1, -9, 9, 1, 8},
    {1, 0, 0, 0, 3, 3, 1, 1, 9, 8}, {1, 0, 0, 0, 0, 4, 1, 0, 1, 4, 1},
};

/* Valid plans: the PARAMs, then nodes of any operations. */
static void any_tables(void) {
    for (unsigned i = 0; i < PLANS; i++)
        for (unsigned n = 0; n < NODES; n++) memcpy(tables[i] + n * WORDS, n < 5 ? params[n] : nodes[random_bits() % 20], sizeof params[0]);
}

/* Valid plans: the PARAMs, then ADDs that are broadcast. */
static void add_tables(void) {
    for (unsigned i = 0; i < PLANS; i++)
        for (unsigned n = 0; n < NODES; n++) memcpy(tables[i] + n * WORDS, n < 5 ? params[n] : nodes[8], sizeof params[0]);
}

static double check_round(const library *build) {
    double start = now();
    for (unsigned i = 0; i < PLANS; i++) sink += build->check(tables[i], NODES * WORDS, lup_derived, NODES * 8).number;
    return now() - start;
}

static double plain_check_round(void) {
    double start = now();
    for (unsigned i = 0; i < PLANS; i++) sink += plain_check(tables[i], NODES * WORDS, plain_derived, NODES * 8).number;
    return now() - start;
}

/* Whether both accept every plan and derive the same words. */
static int check_agrees(const library *build) {
    for (unsigned i = 0; i < PLANS; i++) {
        memset(lup_derived, 1, sizeof lup_derived);
        memset(plain_derived, 2, sizeof plain_derived);
        lup_answer a = build->check(tables[i], NODES * WORDS, lup_derived, NODES * 8);
        plain_answer b = plain_check(tables[i], NODES * WORDS, plain_derived, NODES * 8);
        if (a.number != 0 || a.place != 0 || a.number != b.number || a.place != b.place) return 0;
        if (memcmp(lup_derived, plain_derived, sizeof lup_derived) != 0) return 0;
    }
    return 1;
}

static int check_row(const char *what, void (*body)(void)) {
    body();
    return row(what, sizeof tables[0], check_agrees, check_round, plain_check_round);
}

int main(void) {
    printf("%d plans of %d nodes, best of %d rounds, microseconds a plan; %d bytes of padding\n\n", PLANS, NODES, ROUNDS, PADDING);
    printf("| call | bytes a plan | library | plain C | ratio |%s\n", BUILDS > 1 ? " other build | its ratio | library to it |" : "");
    printf("|---|---|---|---|---|%s\n", BUILDS > 1 ? "---|---|---|" : "");
    int agree = unpack_row("unpack, any operations and words", mixed_plan);
    agree &= unpack_row("unpack, any operations, words of one byte", short_plan);
    agree &= unpack_row("unpack, ADD, words of one byte", add_plan);
    agree &= unpack_row("unpack, PAD, words of one byte", short_pad_plan);
    agree &= unpack_row("unpack, PAD, words of five bytes", long_pad_plan);
    agree &= pack_row("pack, any operations and words", mixed_plan);
    agree &= pack_row("pack, ADD, words of one byte", add_plan);
    agree &= pack_row("pack, PAD, words of one byte", short_pad_plan);
    agree &= pack_row("pack, PAD, words of five bytes", long_pad_plan);
    agree &= check_row("check, any operations", any_tables);
    agree &= check_row("check, ADD, broadcast", add_tables);
    return !agree;
}
