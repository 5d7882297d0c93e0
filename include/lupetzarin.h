/* Lupetzarin: plans over whole numbers with gaps, packed, unpacked, checked, run and traced back by proved code.
 *
 * Every call answers for any bytes and any buffers; nothing is undefined as long as the caller keeps these:
 *   - a pointer and its length describe memory that the call may read (const) or write; where the length is 0 the pointer may be NULL;
 *   - int64_t buffers are aligned to 8 bytes;
 *   - a buffer that a call writes overlaps no other buffer of that call.
 * A refusal gives its number and its place and leaves every buffer as it was. The library keeps no state and allocates nothing;
 * calls may be made from several threads at once. Of the C library it uses memcpy and memset alone. Stack that a call uses: see each call.
 */
#ifndef LUPETZARIN_H
#define LUPETZARIN_H

#include <stddef.h>
#include <stdint.h>

#ifdef __cplusplus
extern "C" {
#endif

/* The version of this header; CHANGELOG.md says what a version promises. LUP_VERSION is one number, to compare; LUP_VERSION_TEXT has points between. */
#define LUP_VERSION_MAJOR 5
#define LUP_VERSION_MINOR 1
#define LUP_VERSION_PATCH 0
#define LUP_VERSION (LUP_VERSION_MAJOR * 1000000 + LUP_VERSION_MINOR * 1000 + LUP_VERSION_PATCH)
#define LUP_VERSION_JOINED(major, minor, patch) #major "." #minor "." #patch
#define LUP_VERSION_OF(major, minor, patch) LUP_VERSION_JOINED(major, minor, patch)
#define LUP_VERSION_TEXT LUP_VERSION_OF(LUP_VERSION_MAJOR, LUP_VERSION_MINOR, LUP_VERSION_PATCH)

/* Widths, in words of 64 bits, and limits. */
enum lup_limit {
    LUP_NODE_WORDS = 17,              /* of a node in a table */
    LUP_DERIVED_WORDS = 8,            /* of what lup_check derives of a node */
    LUP_MOST_NODES = 256,             /* in a plan, which has at least 1 */
    LUP_MOST_RANK = 4,                /* axes of a node; a rank may be 0 */
    LUP_MOST_PARAMS = 16,             /* in a plan, which may have none */
    LUP_MOST_DEVICE = 255,            /* the greatest device that a node can name; the least is 1 */
    LUP_MOST_NODE_ELEMENTS = 1048576, /* of one node, and on one axis */
    LUP_MOST_ELEMENTS = 4194304,      /* of all nodes together */
    LUP_MOST_PACKED_BYTES = 11778,    /* of a packed plan */
    LUP_REFUSAL_CODE = 65536          /* lup_unpack_check answers a refusal as this times its number, plus its place */
};

/* The least and the greatest word that can be packed; no constants of an enum, since they take over 32 bits. */
#define LUP_LEAST_PACKED_WORD (-INT64_C(17179869184))
#define LUP_MOST_PACKED_WORD INT64_C(17179869183)

/* Word 0 of a node. A plan with one of 21 to 23 is packed as a file of the second edition, any other as one of the first. */
enum lup_operation {
    LUP_OP_CONST = 0,    /* one number */
    LUP_OP_PARAM = 1,    /* input */
    LUP_OP_PERMUTE = 2,  /* axes in another order */
    LUP_OP_FLIP = 3,     /* axes reversed */
    LUP_OP_RESHAPE = 4,  /* the same elements in another shape */
    LUP_OP_EXPAND = 5,   /* axes of extent 1 repeated */
    LUP_OP_PAD = 6,      /* gaps around */
    LUP_OP_SHRINK = 7,   /* a part */
    LUP_OP_CAST = 8,     /* another type */
    LUP_OP_ADD = 9,      /* x + y */
    LUP_OP_MUL = 10,     /* x * y */
    LUP_OP_MAX = 11,     /* the greater of two */
    LUP_OP_IDIV = 12,    /* the quotient, rounded down */
    LUP_OP_MOD = 13,     /* what is left then: it has the sign of y */
    LUP_OP_CMPLT = 14,   /* x < y */
    LUP_OP_CMPNE = 15,   /* x != y */
    LUP_OP_AND = 16,     /* both */
    LUP_OP_OR = 17,      /* one of them, or both */
    LUP_OP_WHERE = 18,   /* one of two, by a condition */
    LUP_OP_REDUCE = 19,  /* axes gathered into one number */
    LUP_OP_LOAD = 20,    /* another device */
    LUP_OP_FILL = 21,    /* x where it is known, else y */
    LUP_OP_KNOWN = 22,   /* 1 where x is known, 0 where it is a gap */
    LUP_OP_STACK = 23    /* two or three sources of one shape, on a new leading axis */
};

/* Type of a node: which numbers it may have. */
enum lup_type {
    LUP_TYPE_BOOL = 0, /* 0, 1 */
    LUP_TYPE_U8 = 1,   /* 0..255 */
    LUP_TYPE_I16 = 2,  /* -32767..32767; -32768 is no number of this type */
    LUP_TYPE_I32 = 3   /* -2147483648..2147483647 */
};

/* Words of a node. One that its operation does not use is 0. */
enum lup_word {
    LUP_WORD_OPERATION = 0,
    LUP_WORD_SOURCE = 1, /* the first of three: numbers of earlier nodes; the third of a STACK of two is 0 and no source */
    LUP_WORD_TYPE = 4,   /* CONST, PARAM, CAST */
    LUP_WORD_NUMBER = 5, /* CONST: its number; PARAM: its slot; REDUCE: its kind; STACK: how many sources, 2 or 3 */
    LUP_WORD_DEVICE = 6, /* PARAM, LOAD */
    LUP_WORD_LOW = 7,    /* PARAM: the least number of its input */
    LUP_WORD_HIGH = 8,   /* PARAM: the greatest */
    LUP_WORD_ROW_A = 9,  /* the first of four: a shape, a permutation or flags */
    LUP_WORD_ROW_B = 13  /* the first of four, PAD and SHRINK: offsets */
};

/* Kind of a REDUCE. */
enum lup_reduce { LUP_REDUCE_SUM = 0, LUP_REDUCE_GREATEST = 1 };

/* Words of what lup_check derives of a node. */
enum lup_derived {
    LUP_DERIVED_TYPE = 0,
    LUP_DERIVED_DEVICE = 1, /* 0: none */
    LUP_DERIVED_LOW = 2,    /* no known number of the node is less */
    LUP_DERIVED_HIGH = 3,   /* or greater */
    LUP_DERIVED_EXTENTS = 4 /* the first of four, zeros past the rank */
};

/* Numbers of refusals, and in brackets what their place is, where they have one. 18 and 19 are not given. */
enum lup_refusal {
    LUP_ACCEPTED = 0,
    LUP_REFUSED_LENGTH = 1,            /* length no multiple of 17, or not 1..256 nodes */
    LUP_REFUSED_OPERATION = 2,         /* operation not 0..23 (node) */
    LUP_REFUSED_UNUSED_WORD = 3,       /* unused word not zero (node) */
    LUP_REFUSED_SOURCE = 4,            /* source negative or not earlier (node) */
    LUP_REFUSED_TYPE = 5,              /* type not 0..3 (node) */
    LUP_REFUSED_OPERAND_TYPES = 6,     /* type rule broken (operands differ, bool misplaced, or WHERE condition not bool) (node) */
    LUP_REFUSED_ROW_OR_NUMBER = 7,     /* row or number wrong (node) */
    LUP_REFUSED_SHAPE = 8,             /* shapes disagree, or over 1048576 elements (node) */
    LUP_REFUSED_DEVICES = 9,           /* two devices (node) */
    LUP_REFUSED_DIVISOR = 10,          /* divisor bounds contain 0 (node) */
    LUP_REFUSED_BOUNDS = 11,           /* bounds leave the type (node) */
    LUP_REFUSED_ELEMENTS = 12,         /* all nodes together over 4194304 elements */
    LUP_REFUSED_INPUT_LENGTH = 13,     /* input length is not the PARAM total */
    LUP_REFUSED_ROOM = 14,             /* a buffer written to is too short */
    LUP_REFUSED_FLAG = 15,             /* flag neither 0 nor 1 (position) */
    LUP_REFUSED_VALUE = 16,            /* known number outside limits (position) */
    LUP_REFUSED_LOOKUP = 17,           /* lookup node or element not there */
    LUP_REFUSED_PACKED_END = 20,       /* bytes end before or inside a number (byte) */
    LUP_REFUSED_PACKED_NUMBER = 21,    /* number not in its shortest form of at most 5 bytes (byte) */
    LUP_REFUSED_PACKED_REST = 22,      /* bytes left over (byte) */
    LUP_REFUSED_PACKED_COUNT = 23,     /* node count not 1..256, or a first byte 0 without a 2 after it */
    LUP_REFUSED_PACKED_OPERATION = 24, /* operation not 0..20, in a second edition file not 0..23 (byte) */
    LUP_REFUSED_WORD_RANGE = 25,       /* a used word not in -17179869184..17179869183 (node) */
    LUP_REFUSED_PACKED_EDITION = 26    /* second edition file with no operation 21..23 */
};

/* What a lookup found. */
enum lup_finding { LUP_FOUND_NOTHING = 0, LUP_FOUND_PLACE = 1, LUP_FOUND_GAP = 2 };

/* number: 0 accepted, else the refusal; place: the byte, the node or the input position of the refusal, 0 where none is named; count: what the call
 * counts, 0 on a refusal. */
typedef struct {
    uint64_t number, place, count;
} lup_answer;

/* number, place: as above; found: 0 nothing (refused), 1 a place, 2 a gap; node, element: the place, 0 where there is none. */
typedef struct {
    uint64_t number, place, found, node, element;
} lup_found;

/* The version of the library that is linked, as LUP_VERSION; compare it with that macro of the header that was compiled. Stack: 1 KiB is enough. */
uint64_t lup_version(void);

/* Unpacks a packed plan into table, 17 words a node; words past them stay as they were. count: the nodes, 1..256. A file of the second edition begins
 * with the bytes 00 02, which the node count follows, and has operations 0..23, one of 21..23 at least; one of the first edition begins with the node
 * count and has operations 0..20. Refusals, in order: 23, a first byte 0 without a 2 after it (place: 0); 20, 21 (place: the first byte of the count,
 * 0 or 2) and 23 (place: 0) of the node count; 14, table has fewer than 17 words a node; 20, 21 and 24 in byte order; 22; 26 (place: 0).
 * Stack: 35,048 bytes measured on plans of 256 nodes (painted stack, x86-64), some 3,200 more on a first call with lazy binding; 48 KiB is enough. */
lup_answer lup_unpack(const uint8_t *bytes, size_t nbytes, int64_t *table, size_t nwords);

/* Packs a table into bytes, the shortest form of each number; bytes past them stay as they were. count: the bytes, 4..11778. They are of the second
 * edition where an operation is one of 21..23, else of the first. lup_unpack of them gives the table back, and lup_pack of what lup_unpack gave gives
 * the same bytes: a plan has one file. Tables that lup_check refuses are packed too: rules 4 to 12 are not asked.
 * Refusals, in order: 1, the length; 2, 3 and 25, the first node that breaks one of these rules (place: that node) and the first that it breaks; 14,
 * bytes is shorter than what is to be written, so room for LUP_MOST_PACKED_BYTES is always enough.
 * Stack: 11,992 bytes measured in the same way, some 3,200 more on a first call with lazy binding; 24 KiB is enough. */
lup_answer lup_pack(const int64_t *table, size_t nwords, uint8_t *bytes, size_t nbytes);

/* Checks a plan and writes what is derived of its nodes, eight words each: type, device, low, high, four extents with zeros past the rank; words
 * past them stay as they were. count: 0. Refusals, in order: 1, the length; 2 to 11, the first node that breaks a rule (place: that node) and
 * its first rule; 12, too many elements together; 14, derived has fewer than 8 words a node.
 * Stack: 36,544 bytes measured on plans of 256 nodes with every operation (painted stack, x86-64); 48 KiB is enough. */
lup_answer lup_check(const int64_t *table, size_t nwords, int64_t *derived, size_t nderived);

/* Unpacks and checks in one call. The answer is the node count, 1..256, or, refused, 65536 times the number plus the place: a refusal of
 * lup_unpack with room for every plan, or of lup_check, 4 to 12: unpacked words break none of 1 to 3.
 * Stack: 64,240 bytes measured in the same way; 80 KiB is enough. */
uint64_t lup_unpack_check(const uint8_t *bytes, size_t nbytes);

/* Runs a plan. values and flags are the input: the elements of all PARAM nodes end to end in node order, flags 1 for a known number and 0 for
 * a gap, whose value has no effect. Writes every element of every node, end to end in node order, a gap as value 0 and flag 0; places past
 * them stay as they were. count: the gaps of the last node, the output. Refusals, in order: those of lup_check but its 14; 13, a length of the
 * input is not the number of all PARAM elements; 14, a result buffer is shorter than all elements of all nodes; 15 or 16 at the first bad
 * position of the input (place: that position): a flag neither 0 nor 1; a known number outside its PARAM's low and high. Those lie in the PARAM's
 * type, so -32768, which some instruments write for "no reading", is 16 at every i16 PARAM where its flag is 1; with flag 0 it is not looked at.
 * Stack: 58,432 bytes measured on a plan with every kind of node (painted stack, x86-64); 80 KiB is enough. */
lup_answer lup_run(const int64_t *table, size_t nwords, const int64_t *values, size_t nvalues, const uint8_t *flags, size_t nflags,
                   int64_t *out_values, size_t nout_values, uint8_t *out_flags, size_t nout_flags);

/* Follows an element of a node back through PERMUTE, FLIP, RESHAPE, EXPAND, PAD, SHRINK and LOAD to the first other node: the place that it comes
 * from, which holds the same number or gap in every run, or a gap where a PAD put it. A node that is not followed answers itself, so FILL, KNOWN and
 * STACK do. Nodes and elements are counted from 0. Refusals, in order: those of lup_check but its 14; 17, there is no such node or element.
 * Stack: 141,432 bytes measured on 255 nodes followed one after another (painted stack, x86-64), some 430 a node; 192 KiB is enough. */
lup_found lup_lookup(const int64_t *table, size_t nwords, uint64_t node, uint64_t element);

#ifdef __cplusplus
}
#endif

#endif
