#include "plan.h"

#include "message.h"
#include "source.h"
#include "text.h"

#include <errno.h>
#include <inttypes.h>
#include <stdio.h>
#include <string.h>

/* More than LUP_MOST_PACKED_BYTES, so bytes past these change no answer. */
#define MOST_BYTES 12288
#define NAMED(items) (sizeof(items) / sizeof((items)[0]))

static const char *const OPERATIONS[] = {"CONST", "PARAM", "PERMUTE", "FLIP", "RESHAPE", "EXPAND", "PAD", "SHRINK", "CAST", "ADD", "MUL",
                                         "MAX", "IDIV", "MOD", "CMPLT", "CMPNE", "AND", "OR", "WHERE", "REDUCE", "LOAD", "FILL",
                                         "KNOWN", "STACK"};
static const char *const DTYPES[] = {"bool", "u8", "i16", "i32"};
static const char *const RULES[] = {
    [1] = "length no multiple of 17, or not 1..256 nodes",
    [2] = "operation not 0..23",
    [3] = "unused word not zero",
    [4] = "source negative or not earlier",
    [5] = "type not 0..3",
    [6] = "type rule broken (operands differ, bool misplaced, or WHERE condition not bool)",
    [7] = "row or number wrong",
    [8] = "shapes disagree, or over 1048576 elements",
    [9] = "two devices",
    [10] = "divisor bounds contain 0",
    [11] = "bounds leave the type",
    [12] = "all nodes together over 4194304 elements",
    [13] = "input length is not the PARAM total",
    [14] = "a buffer written to is too short",
    [15] = "flag neither 0 nor 1",
    [16] = "known number outside limits",
    [17] = "lookup node or element not there",
    [20] = "bytes end before or inside a number",
    [21] = "number not in its shortest form of at most 5 bytes",
    [22] = "bytes left over",
    [23] = "node count not 1..256, or a first byte 0 without a 2 after it",
    [24] = "operation not 0..20, in a second edition file not 0..23",
    [25] = "a used word not in -17179869184..17179869183",
    [26] = "second edition file with no operation 21..23",
};
/* What rule 7 asks of an operation's row and number. */
static const char *const ROWS[] = {
    [LUP_OP_PARAM] = ": slot not its turn or over 15, low above high, device not 1..255, or no shape",
    [LUP_OP_PERMUTE] = ": not each axis of the source once",
    [LUP_OP_FLIP] = ": not a flag 0 or 1 for each axis of the source",
    [LUP_OP_RESHAPE] = ": no shape",
    [LUP_OP_EXPAND] = ": no shape",
    [LUP_OP_PAD] = ": no shape, or an offset not 0..1048576 or past the rank",
    [LUP_OP_SHRINK] = ": no shape, or an offset not 0..1048576 or past the rank",
    [LUP_OP_REDUCE] = ": number neither 0 nor 1, or not a flag 0 or 1 for each axis of the source",
    [LUP_OP_LOAD] = ": device not 1..255",
    [LUP_OP_STACK] = ": number neither 2 nor 3, or word 3 not 0 with number 2",
};
/* What rule 8 asks of an operation's sources, where its words do not say all of it. */
static const char *const SHAPES[] = {
    [LUP_OP_STACK] = ": sources not of one shape, of a rank over 3, or of over 1048576 elements together",
};

static const char *named(const char *const *names, size_t count, uint64_t number) {
    return number < count && names[number] != NULL ? names[number] : NULL;
}

const char *operation_name(int64_t operation) {
    const char *name = named(OPERATIONS, NAMED(OPERATIONS), (uint64_t)operation);
    return name != NULL ? name : "unknown operation";
}

const char *dtype_name(int64_t dtype) {
    const char *name = named(DTYPES, NAMED(DTYPES), (uint64_t)dtype);
    return name != NULL ? name : "unknown type";
}

const char *rule_words(uint64_t number) {
    const char *words = named(RULES, NAMED(RULES), number);
    return words != NULL ? words : "a rule that this program does not know";
}

/* Whether the place of a refusal is a node. */
static int is_at_node(uint64_t number) {
    return (number >= LUP_REFUSED_OPERATION && number <= LUP_REFUSED_BOUNDS) || number == LUP_REFUSED_WORD_RANGE;
}

int refuse_table(const char *name, const int64_t *table, uint64_t number, uint64_t place, const char *more) {
    if (is_at_node(number) && place < LUP_MOST_NODES) {
        complain("%s: refused %" PRIu64 " at node %" PRIu64 " (%s): %s%s", name, number, place,
                 operation_name(table[(size_t)place * LUP_NODE_WORDS + LUP_WORD_OPERATION]), rule_words(number), more);
    } else if (number >= LUP_REFUSED_PACKED_END) {
        complain("%s: refused %" PRIu64 " at byte %" PRIu64 ": %s", name, number, place, rule_words(number));
    } else {
        complain("%s: refused %" PRIu64 ": %s%s", name, number, rule_words(number), more);
    }
    return REFUSED;
}

int refuse(const plan *p, uint64_t number, uint64_t place) {
    uint64_t operation = place < LUP_MOST_NODES ? (uint64_t)word_of(p, (size_t)place, LUP_WORD_OPERATION) : 0;
    const char *more = NULL;
    if (number == LUP_REFUSED_ROW_OR_NUMBER) more = named(ROWS, NAMED(ROWS), operation);
    if (number == LUP_REFUSED_SHAPE) more = named(SHAPES, NAMED(SHAPES), operation);
    return refuse_table(p->name, p->table, number, place, more != NULL ? more : "");
}

/* The bytes of a plan file, with a 0 after them. */
typedef struct {
    uint8_t bytes[MOST_BYTES + 1];
    size_t count;
} packed_plan;

/* The file's bytes, and a plan of that name with nothing in it yet. */
static int read_packed(const char *name, packed_plan *f, plan *p) {
    memset(f, 0, sizeof *f);
    memset(p, 0, sizeof *p);
    p->name = name;
    FILE *file = open_source(name);
    if (file == NULL) return complain("%s: the plan cannot be opened: %s", name, strerror(errno));
    f->count = fread(f->bytes, 1, MOST_BYTES, file);
    int failed = ferror(file), why = errno;
    close_source(file);
    return failed ? complain("%s: the plan cannot be read: %s", name, strerror(why)) : DONE;
}

/* What the library refuses may be a text that was not assembled. */
static int refuse_packed(plan *p, const packed_plan *f, uint64_t number, uint64_t place) {
    p->refused = (lup_answer){.number = number, .place = place};
    int status = refuse(p, number, place);
    if (looks_like_plan_text(f->bytes, f->count))
        complain("%s: this looks like the text of a plan; assemble it first: lupasm %s -o PLAN (not installed: python3 host/lupasm.py)", p->name,
                 p->name);
    return status;
}

static lup_answer unpack_into(plan *p, const packed_plan *f) { return lup_unpack(f->bytes, f->count, p->table, LUP_MOST_NODES * LUP_NODE_WORDS); }

int unpack_plan(const char *name, plan *p) {
    packed_plan f;
    if (read_packed(name, &f, p) != DONE) return MISUSED;
    lup_answer unpacked = unpack_into(p, &f);
    p->nodes = (size_t)unpacked.count;
    return unpacked.number == LUP_ACCEPTED ? DONE : refuse_packed(p, &f, unpacked.number, unpacked.place);
}

int load_plan(const char *name, plan *p) {
    packed_plan f;
    if (read_packed(name, &f, p) != DONE) return MISUSED;
    uint64_t code = lup_unpack_check(f.bytes, f.count);
    lup_answer unpacked = unpack_into(p, &f);
    if (code > LUP_MOST_NODES) return refuse_packed(p, &f, code / LUP_REFUSAL_CODE, code % LUP_REFUSAL_CODE);
    p->nodes = (size_t)code;
    lup_answer checked = lup_check(p->table, p->nodes * LUP_NODE_WORDS, p->derived, LUP_MOST_NODES * LUP_DERIVED_WORDS);
    int agree = unpacked.number == LUP_ACCEPTED && unpacked.count == code && checked.number == LUP_ACCEPTED;
    return agree ? DONE : complain("%s: the library's calls disagree on this plan", name);
}

node_facts facts_of(const plan *p, size_t node) {
    const int64_t *d = p->derived + node * LUP_DERIVED_WORDS;
    node_facts f = {.operation = word_of(p, node, LUP_WORD_OPERATION), .dtype = d[LUP_DERIVED_TYPE], .device = d[LUP_DERIVED_DEVICE],
                    .low = d[LUP_DERIVED_LOW], .high = d[LUP_DERIVED_HIGH]};
    const int64_t *extents = d + LUP_DERIVED_EXTENTS;
    while (f.shape.rank < LUP_MOST_RANK && extents[f.shape.rank] != 0) {
        f.shape.extents[f.shape.rank] = (uint64_t)extents[f.shape.rank];
        f.shape.rank++;
    }
    f.count = element_count(&f.shape);
    return f;
}

int64_t word_of(const plan *p, size_t node, size_t word) { return p->table[node * LUP_NODE_WORDS + word]; }

size_t source_count(const plan *p, size_t node) {
    int64_t operation = word_of(p, node, LUP_WORD_OPERATION);
    if (operation == LUP_OP_CONST || operation == LUP_OP_PARAM) return 0;
    if (operation == LUP_OP_WHERE) return 3;
    if (operation == LUP_OP_STACK) return word_of(p, node, LUP_WORD_NUMBER) == 3 ? 3 : 2;
    return (operation > LUP_OP_CAST && operation < LUP_OP_WHERE) || operation == LUP_OP_FILL ? 2 : 1;
}

size_t total_count(const plan *p) {
    size_t total = 0;
    for (size_t node = 0; node < p->nodes; node++) total += facts_of(p, node).count;
    return total;
}
