/* Links the archive through the header and calls each export on the worked examples. Last line: 'N passed, 0 failed'. */
#include "lupetzarin.h"

#include <stdio.h>
#include <string.h>

#define ROOM 18
#define PATTERN 1000

static unsigned passed, failed;

static void expect(int holds, const char *what) {
    if (holds) {
        passed++;
    } else {
        failed++;
        printf("does not hold: %s\n", what);
    }
}

static int answers(lup_answer a, uint64_t number, uint64_t place, uint64_t count) {
    return a.number == number && a.place == place && a.count == count;
}

static void fill(int64_t *table) {
    for (size_t k = 0; k < ROOM; k++) table[k] = PATTERN + (int64_t)k;
}

/* Whether the words from `from` on are as fill left them. */
static int stays(const int64_t *table, size_t from) {
    for (size_t k = from; k < ROOM; k++)
        if (table[k] != PATTERN + (int64_t)k) return 0;
    return 1;
}

/* Whether the table holds one node, CONST of that i16 number, with the word after it as it was. */
static int holds_const(const int64_t *table, int64_t number) {
    for (size_t k = 0; k < 17; k++)
        if (table[k] != (k == 4 ? 2 : k == 5 ? number : 0)) return 0;
    return stays(table, 17);
}

static void unpack_examples(void) {
    static const uint8_t five[] = {0x01, 0x00, 0x04, 0x0A}, three_hundred[] = {0x01, 0x00, 0x04, 0xD8, 0x04};
    int64_t table[ROOM];

    fill(table);
    expect(answers(lup_unpack(five, sizeof five, table, ROOM), 0, 0, 1), "01 00 04 0A: one node");
    expect(holds_const(table, 5), "01 00 04 0A: CONST 5 of type 2");

    fill(table);
    expect(answers(lup_unpack(three_hundred, sizeof three_hundred, table, ROOM), 0, 0, 1), "D8 04: one node");
    expect(holds_const(table, 300), "D8 04: 300");

    fill(table);
    expect(answers(lup_unpack(NULL, 0, table, ROOM), 20, 0, 0), "empty bytes: refused 20 at 0");
    expect(stays(table, 0), "empty bytes: the table as it was");
    expect(answers(lup_unpack(NULL, 0, NULL, 0), 20, 0, 0), "empty bytes, no table: refused 20 at 0");

    expect(answers(lup_unpack(five, sizeof five, table, 16), 14, 0, 0), "16 words for a node: refused 14");
    expect(stays(table, 0), "16 words for a node: the table as it was");
    expect(answers(lup_unpack(five, sizeof five, NULL, 0), 14, 0, 0), "no table: refused 14");
}

/* CONSTs of type 2 whose number ends the bytes, about the end of one byte, of two and of five: the number, or the refusal at its first byte. */
static void number_examples(void) {
    static const struct {
        uint8_t bytes[8];
        size_t n;
        uint64_t refused;
        int64_t number;
        const char *what;
    } ends[] = {
        {{1, 0, 4, 0x7F}, 4, 0, -64, "7F: -64"},
        {{1, 0, 4, 0x80, 0x01}, 5, 0, 64, "80 01: 64"},
        {{1, 0, 4, 0x80, 0x00}, 5, 21, 0, "80 00: refused 21 at 3"},
        {{1, 0, 4, 0x80}, 4, 20, 0, "80 and no more: refused 20 at 3"},
        {{1, 0, 4, 0xFF, 0x7F}, 5, 0, -8192, "FF 7F: -8192"},
        {{1, 0, 4, 0xFF, 0xFF, 0xFF, 0xFF, 0x0F}, 8, 0, -2147483648LL, "FF FF FF FF 0F: -2147483648"},
        {{1, 0, 4, 0xFF, 0xFF, 0xFF, 0xFF, 0x7F}, 8, 0, -17179869184LL, "FF FF FF FF 7F: -17179869184"},
    };
    int64_t table[ROOM];
    for (size_t k = 0; k < sizeof ends / sizeof *ends; k++) {
        fill(table);
        lup_answer a = lup_unpack(ends[k].bytes, ends[k].n, table, ROOM);
        if (ends[k].refused) expect(answers(a, ends[k].refused, 3, 0) && stays(table, 0), ends[k].what);
        else expect(answers(a, 0, 0, 1) && holds_const(table, ends[k].number), ends[k].what);
    }
}

static void fill_bytes(uint8_t *bytes) {
    for (size_t k = 0; k < ROOM; k++) bytes[k] = (uint8_t)(100 + k);
}

/* Whether the bytes from `from` on are as fill_bytes left them. */
static int bytes_stay(const uint8_t *bytes, size_t from) {
    for (size_t k = from; k < ROOM; k++)
        if (bytes[k] != 100 + k) return 0;
    return 1;
}

/* CONSTs of i16 numbers, packed and read back. */
static void pack_examples(void) {
    static const uint8_t five[] = {0x01, 0x00, 0x04, 0x0A}, three_hundred[] = {0x01, 0x00, 0x04, 0xD8, 0x04};
    int64_t table[17] = {[4] = 2, 5}, again[ROOM];
    uint8_t bytes[ROOM];

    fill_bytes(bytes);
    expect(answers(lup_pack(table, 17, bytes, ROOM), 0, 0, 4), "CONST 5: four bytes");
    expect(!memcmp(bytes, five, sizeof five) && bytes_stay(bytes, 4), "CONST 5: 01 00 04 0A, and the bytes after them as they were");
    table[5] = 300;
    expect(answers(lup_pack(table, 17, bytes, 5), 0, 0, 5), "CONST 300, exact room: five bytes");
    expect(!memcmp(bytes, three_hundred, sizeof three_hundred) && bytes_stay(bytes, 5), "CONST 300: D8 04");
    fill(again);
    expect(answers(lup_unpack(bytes, 5, again, ROOM), 0, 0, 1) && holds_const(again, 300), "CONST 300: read back");

    fill_bytes(bytes);
    expect(answers(lup_pack(table, 17, bytes, 4), LUP_REFUSED_ROOM, 0, 0), "four bytes for five: refused 14");
    expect(answers(lup_pack(table, 17, NULL, 0), 14, 0, 0), "no bytes: refused 14");
    expect(answers(lup_pack(NULL, 0, bytes, ROOM), 1, 0, 0), "no table: refused 1");
    table[5] = 17179869184;
    expect(answers(lup_pack(table, 17, bytes, 0), LUP_REFUSED_WORD_RANGE, 0, 0), "one above the range: refused 25 before 14");
    table[16] = INT64_MIN;
    expect(answers(lup_pack(table, 17, bytes, ROOM), 3, 0, 0), "an unused word: refused 3 before 25");
    table[0] = 24;
    expect(answers(lup_pack(table, 17, bytes, ROOM), 2, 0, 0), "operation 24: refused 2 before 3");
    expect(bytes_stay(bytes, 0), "refused: the bytes as they were");
}

/* One CONST of type 2 holding 5 */
static void check_examples(void) {
    static const uint8_t five[] = {0x01, 0x00, 0x04, 0x0A};
    int64_t table[17] = {0}, derived[ROOM];

    table[4] = 2;
    table[5] = 5;
    fill(derived);
    expect(answers(lup_check(table, 17, derived, ROOM), 0, 0, 0), "a CONST: accepted");
    expect(derived[0] == 2 && derived[1] == 0 && derived[2] == 5 && derived[3] == 5, "a CONST: its type, no device, its number twice");
    expect(derived[4] == 0 && derived[7] == 0 && stays(derived, 8), "a CONST: no extents, and the words after it as they were");

    fill(derived);
    expect(answers(lup_check(table, 17, derived, 7), 14, 0, 0), "7 words for a record: refused 14");
    expect(answers(lup_check(table, 16, derived, ROOM), 1, 0, 0), "16 words of table: refused 1");
    expect(answers(lup_check(NULL, 0, NULL, 0), 1, 0, 0), "no table: refused 1");
    table[5] = 40000;
    expect(!answers(lup_check(table, 17, derived, ROOM), 0, 0, 0), "40000 in 16 bits: refused");
    expect(stays(derived, 0), "refused: the words as they were");

    expect(lup_unpack_check(five, sizeof five) == 1, "01 00 04 0A: one node");
    expect(lup_unpack_check(NULL, 0) == 20 * 65536, "empty bytes: 20 at 0");
    expect(lup_unpack_check(five, 3) == 20 * 65536 + 3, "cut off: 20 at 3");
}

/* The ends of i16: a PARAM added to itself, and -32768 known and under a gap. */
static void i16_examples(void) {
    static const int64_t param[] = {1, 0, 0, 0, 2, 0, 1, -16384, 16383, 3}, no_reading[] = {7, -32767, -32768}, wanted[] = {7, -32767, 0};
    static const uint8_t known[] = {1, 1, 1}, gap[] = {1, 1, 0};
    int64_t table[2 * 17] = {[17] = 9}, derived[ROOM], values[ROOM];
    uint8_t flags[ROOM];

    memcpy(table, param, sizeof param);
    fill(derived);
    expect(answers(lup_check(table, 2 * 17, derived, ROOM), 11, 1, 0), "[-16384,16383] added to itself: refused 11");
    expect(stays(derived, 0), "refused: the words as they were");
    table[7] = -16383;
    expect(answers(lup_check(table, 2 * 17, derived, ROOM), 0, 0, 0), "[-16383,16383] added to itself: accepted");
    expect(derived[10] == -32766 && derived[11] == 32766, "[-16383,16383] added to itself: [-32766,32766]");
    table[7] = -32768;
    expect(answers(lup_check(table, 17, derived, ROOM), 11, 0, 0), "a low limit of -32768: refused 11");

    table[7] = -32767;
    fill(values);
    fill_bytes(flags);
    expect(answers(lup_run(table, 17, no_reading, 3, known, 3, values, ROOM, flags, ROOM), 16, 2, 0), "-32768 known: refused 16 at 2");
    expect(stays(values, 0) && bytes_stay(flags, 0), "-32768 known: both buffers as they were");
    expect(answers(lup_run(table, 17, no_reading, 3, gap, 3, values, ROOM, flags, ROOM), 0, 0, 1), "-32768 under a gap: accepted, one gap");
    expect(!memcmp(values, wanted, sizeof wanted) && stays(values, 3), "-32768 under a gap: 7 -32767 gap");
    expect(!memcmp(flags, gap, sizeof gap) && bytes_stay(flags, 3), "-32768 under a gap: its flags");
}

/* PARAM of two i16 numbers in -9..9, padded to four at 1, and the sum of all four. */
static void small_plan(int64_t *table) {
    static const int64_t param[] = {1, 0, 0, 0, 2, 0, 1, -9, 9, 2}, pad[] = {6, 0, 0, 0, 0, 0, 0, 0, 0, 4, 0, 0, 0, 1};
    static const int64_t sum[] = {19, 1, 0, 0, 0, 0, 0, 0, 0, 1};

    memset(table, 0, 3 * 17 * sizeof *table);
    memcpy(table, param, sizeof param);
    memcpy(table + 17, pad, sizeof pad);
    memcpy(table + 2 * 17, sum, sizeof sum);
}

static void run_examples(void) {
    static const int64_t inputs[] = {7, INT64_MIN}, over[] = {9, 10}, wanted[] = {7, 0, 0, 7, 0, 0, 0};
    static const uint8_t known[] = {1, 0}, wanted_flags[] = {1, 0, 0, 1, 0, 0, 0}, bad[] = {1, 2}, both[] = {1, 1};
    int64_t table[3 * 17], values[ROOM];
    uint8_t flags[ROOM];

    small_plan(table);
    fill(values);
    fill_bytes(flags);
    expect(answers(lup_run(table, 3 * 17, inputs, 2, known, 2, values, ROOM, flags, ROOM), 0, 0, 1), "a run: one gap in the output");
    expect(!memcmp(values, wanted, sizeof wanted) && stays(values, 7), "a run: 7 gap, gap 7 gap gap, gap; the values after them as they were");
    expect(!memcmp(flags, wanted_flags, sizeof wanted_flags) && bytes_stay(flags, 7), "a run: the flags, and those after them as they were");
    expect(answers(lup_run(table, 2 * 17, inputs, 2, known, 2, values, 6, flags, 6), 0, 0, 3), "without the sum, exact rooms: three gaps");

    fill(values);
    fill_bytes(flags);
    expect(answers(lup_run(table, 17, inputs, 1, known, 2, values, ROOM, flags, ROOM), 13, 0, 0), "one value for two: refused 13");
    expect(answers(lup_run(table, 17, inputs, 2, known, 1, values, ROOM, flags, ROOM), 13, 0, 0), "one flag for two: refused 13");
    expect(answers(lup_run(table, 17, inputs, 2, known, 2, values, 1, flags, ROOM), 14, 0, 0), "room for one value of two: refused 14");
    expect(answers(lup_run(table, 17, inputs, 2, known, 2, values, ROOM, flags, 1), 14, 0, 0), "room for one flag of two: refused 14");
    expect(answers(lup_run(table, 17, inputs, 2, bad, 2, values, ROOM, flags, ROOM), 15, 1, 0), "flag 2: refused 15 at 1");
    expect(answers(lup_run(table, 17, over, 2, both, 2, values, ROOM, flags, ROOM), 16, 1, 0), "10 over 9: refused 16 at 1");
    expect(answers(lup_run(NULL, 0, NULL, 0, NULL, 0, NULL, 0, NULL, 0), 1, 0, 0), "no table: refused 1");
    expect(stays(values, 0) && bytes_stay(flags, 0), "refused: both buffers as they were");
}

static int finds(lup_found f, uint64_t number, uint64_t found, uint64_t node, uint64_t element) {
    return f.number == number && f.place == 0 && f.found == found && f.node == node && f.element == element;
}

static void lookup_examples(void) {
    int64_t table[3 * 17];

    small_plan(table);
    expect(finds(lup_lookup(table, 3 * 17, 1, 2), 0, 1, 0, 1), "element 2 of the PAD: element 1 of the PARAM");
    expect(finds(lup_lookup(table, 3 * 17, 1, 0), 0, 2, 0, 0), "element 0 of the PAD: a gap");
    expect(finds(lup_lookup(table, 3 * 17, 2, 0), 0, 1, 2, 0), "the sum: itself");
    expect(finds(lup_lookup(table, 3 * 17, 1, 4), 17, 0, 0, 0), "element 4 of four: refused 17");
    expect(finds(lup_lookup(table, 3 * 17, 3, 0), 17, 0, 0, 0), "node 3 of three: refused 17");
    expect(finds(lup_lookup(table, 3 * 17, UINT64_MAX, UINT64_MAX), 17, 0, 0, 0), "the greatest numbers: refused 17");
    expect(finds(lup_lookup(NULL, 0, 0, 0), 1, 0, 0, 0), "no table: refused 1");
}

enum { THREE_NODES = 5, THREE_CELLS = 11, STACK_NODE = 4 };

/* PARAM of two i16 numbers in -9..9, CONST 5, FILL of the one by the other, KNOWN of the PARAM, STACK of the PARAM and the FILL. */
static void three_plan(int64_t *table) {
    static const int64_t param[] = {1, 0, 0, 0, 2, 0, 1, -9, 9, 2}, number[] = {0, 0, 0, 0, 2, 5};
    static const int64_t fill_words[] = {21, 0, 1}, known[] = {22, 0}, stack[] = {23, 0, 2, 0, 0, 2};

    memset(table, 0, THREE_NODES * 17 * sizeof *table);
    memcpy(table, param, sizeof param);
    memcpy(table + 17, number, sizeof number);
    memcpy(table + 2 * 17, fill_words, sizeof fill_words);
    memcpy(table + 3 * 17, known, sizeof known);
    memcpy(table + STACK_NODE * 17, stack, sizeof stack);
}

/* FILL, KNOWN and STACK by every call. */
static void three_examples(void) {
    static const int64_t inputs[] = {7, INT64_MIN}, wanted[] = {7, 0, 5, 7, 5, 1, 0, 7, 0, 7, 5};
    static const uint8_t known[] = {1, 0}, wanted_flags[] = {1, 0, 1, 1, 1, 1, 1, 1, 0, 1, 1};
    static const int64_t wanted_records[] = {2, 1, -9, 9, 2, 0, 0, 0, 0, 1, 0, 1, 2, 0, 0, 0, 2, 1, -9, 9, 2, 2, 0, 0};
    static const size_t words = THREE_NODES * 17, room = THREE_NODES * 8;
    int64_t table[THREE_NODES * 17], records[THREE_NODES * 8], values[ROOM];
    uint8_t flags[ROOM];

    three_plan(table);
    expect(answers(lup_check(table, words, records, room), 0, 0, 0), "FILL, KNOWN and STACK: accepted");
    expect(!memcmp(records + 2 * 8, wanted_records, sizeof wanted_records), "FILL, KNOWN and STACK: their types, devices, bounds and extents");
    fill(values);
    fill_bytes(flags);
    expect(answers(lup_run(table, words, inputs, 2, known, 2, values, ROOM, flags, ROOM), 0, 0, 1), "the three: one gap in the output");
    expect(!memcmp(values, wanted, sizeof wanted) && stays(values, THREE_CELLS), "the three: 7 5, 1 0, 7 gap 7 5; the values after them as they were");
    expect(!memcmp(flags, wanted_flags, sizeof wanted_flags) && bytes_stay(flags, THREE_CELLS), "the flags of FILL, KNOWN and STACK");
    expect(finds(lup_lookup(table, words, STACK_NODE, 3), 0, 1, STACK_NODE, 3), "element 3 of the STACK: itself");
    expect(finds(lup_lookup(table, words, 2, 1), 0, 1, 2, 1), "element 1 of the FILL: itself");
    expect(finds(lup_lookup(table, words, 3, 1), 0, 1, 3, 1), "element 1 of the KNOWN: itself");

    table[STACK_NODE * 17 + 3] = 1;
    expect(answers(lup_check(table, words, records, room), 7, STACK_NODE, 0), "a word 3 not zero with number 2: refused 7");
    table[STACK_NODE * 17 + 5] = 3;
    expect(answers(lup_check(table, words, records, room), 8, STACK_NODE, 0), "a number as the third of two rows: refused 8");
    table[STACK_NODE * 17 + 3] = STACK_NODE;
    expect(answers(lup_check(table, words, records, room), 4, STACK_NODE, 0), "a STACK as its own third source: refused 4");
    table[STACK_NODE * 17 + 5] = 4;
    expect(answers(lup_check(table, words, records, room), 7, STACK_NODE, 0), "a STACK of four: refused 7, its word 3 not read");
    table[STACK_NODE * 17] = 24;
    expect(answers(lup_check(table, words, records, room), 2, STACK_NODE, 0), "operation 24: refused 2");
}

/* The file of that plan, and files of neither edition. */
static void edition_examples(void) {
    static const uint8_t file[] = {0x00, 0x02, 0x05, 0x01, 0x04, 0x00, 0x02, 0x11, 0x12, 0x04, 0x00, 0x00, 0x00,
                                   0x00, 0x04, 0x0A, 0x15, 0x00, 0x02, 0x16, 0x00, 0x17, 0x00, 0x04, 0x00, 0x04};
    static const uint8_t no_new[] = {0x00, 0x02, 0x01, 0x00, 0x04, 0x0A}, third[] = {0x00, 0x03, 0x01, 0x16, 0x00};
    int64_t table[THREE_NODES * 17], again[THREE_NODES * 17];
    uint8_t bytes[sizeof file];

    three_plan(table);
    expect(answers(lup_pack(table, THREE_NODES * 17, bytes, sizeof bytes), 0, 0, sizeof file), "the second edition: 26 bytes");
    expect(!memcmp(bytes, file, sizeof file), "the second edition: 00 02, the count, the nodes");
    expect(answers(lup_pack(table, THREE_NODES * 17, bytes, sizeof bytes - 1), 14, 0, 0), "a byte less: refused 14");
    expect(answers(lup_unpack(file, sizeof file, again, THREE_NODES * 17), 0, 0, THREE_NODES), "the second edition: five nodes");
    expect(!memcmp(again, table, sizeof table), "the second edition: read back");
    expect(lup_unpack_check(file, sizeof file) == THREE_NODES, "the second edition: five nodes in one call");
    expect(answers(lup_unpack(file + 2, sizeof file - 2, again, THREE_NODES * 17), 24, 14, 0), "without 00 02: refused 24 at the FILL");
    expect(answers(lup_unpack(no_new, sizeof no_new, again, 17), 26, 0, 0), "00 02 and no new operation: refused 26");
    expect(lup_unpack_check(no_new, sizeof no_new) == 26 * 65536, "00 02 and no new operation: 26 at 0");
    expect(answers(lup_unpack(third, sizeof third, again, 17), 23, 0, 0), "00 03: refused 23");
    expect(answers(lup_unpack(third, 1, again, 17), 23, 0, 0), "00 alone: refused 23");
    expect(answers(lup_unpack(no_new, 2, again, 17), 20, 2, 0), "00 02 alone: refused 20 at 2");
    expect(!memcmp(again, table, sizeof table), "refused: the table as it was");
}

int main(void) {
    expect(lup_version() == LUP_VERSION, "the version of the header");
    unpack_examples();
    number_examples();
    pack_examples();
    check_examples();
    i16_examples();
    run_examples();
    lookup_examples();
    three_examples();
    edition_examples();
    printf("%u passed, %u failed\n", passed, failed);
    return failed != 0;
}
