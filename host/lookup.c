/* lup lookup. */
#include "commands.h"
#include "message.h"

#include <inttypes.h>
#include <stdio.h>

/* The operations that a lookup follows. */
static int is_followed(int64_t operation) { return (operation >= LUP_OP_PERMUTE && operation <= LUP_OP_SHRINK) || operation == LUP_OP_LOAD; }

/* The PADs that an element of the node can come through. */
static void write_pads(const plan *p, size_t node) {
    size_t pads[LUP_MOST_NODES], count = 0;
    while (is_followed(word_of(p, node, LUP_WORD_OPERATION))) {
        if (word_of(p, node, LUP_WORD_OPERATION) == LUP_OP_PAD) pads[count++] = node;
        node = (size_t)word_of(p, node, LUP_WORD_SOURCE);
    }
    fputs(count == 1 ? " (node" : " (one of the nodes", stdout);
    for (size_t k = 0; k < count; k++) printf("%s %zu", k > 0 ? "," : "", pads[k]);
    puts(")");
}

static void write_found(const plan *p, size_t node, uint64_t element) {
    node_facts f = facts_of(p, node);
    char text[SHAPE_TEXT], place[PLACE_TEXT];
    write_shape(&f.shape, text);
    write_place(&f.shape, element, place);
    printf("node %zu element %" PRIu64 ": %s", node, element, operation_name(f.operation));
    if (f.operation == LUP_OP_PARAM) printf(" %" PRId64, word_of(p, node, LUP_WORD_NUMBER));
    if (f.operation == LUP_OP_CONST) printf(" of the number %" PRId64, word_of(p, node, LUP_WORD_NUMBER));
    if (f.operation != LUP_OP_CONST) printf(" of shape %s", text);
    printf("%s%s\n", place[0] != '\0' ? ", " : "", place);
}

/* 17 in words: which of the two is not there. */
static int refuse_place(const plan *p, uint64_t node, uint64_t element) {
    if (node >= p->nodes) {
        complain("%s: refused 17: %s: no node %" PRIu64 ", the last is %zu", p->name, rule_words(LUP_REFUSED_LOOKUP), node, p->nodes - 1);
    } else {
        node_facts f = facts_of(p, (size_t)node);
        complain("%s: refused 17: %s: no element %" PRIu64 " in node %" PRIu64 " (%s), its last is %zu", p->name, rule_words(LUP_REFUSED_LOOKUP), element, node,
                 operation_name(f.operation), f.count - 1);
    }
    return REFUSED;
}

/* The last element of a node; where there is no such node, the last that one can have. */
static uint64_t last_element(const plan *p, uint64_t node) { return (node < p->nodes ? facts_of(p, (size_t)node).count : LUP_MOST_NODE_ELEMENTS) - 1; }

int lookup_command(arguments a) {
    plan p;
    uint64_t node, element;
    int status = take_options(&a, NULL, 0);
    if (status == DONE) status = expect_words(&a, 3, 3, "PLAN, NODE and ELEMENT");
    if (status == DONE) status = load_plan(a.words[0], &p);
    if (status != DONE) return status;
    if (read_number(&a, "NODE", a.words[1], p.nodes - 1, &node) != DONE) return MISUSED;
    if (read_number(&a, "ELEMENT", a.words[2], last_element(&p, node), &element) != DONE) return MISUSED;
    lup_found found = lup_lookup(p.table, p.nodes * LUP_NODE_WORDS, node, element);
    if (found.number == LUP_REFUSED_LOOKUP) return refuse_place(&p, node, element);
    if (found.number != LUP_ACCEPTED) return refuse(&p, found.number, found.place);
    if (found.found == LUP_FOUND_PLACE && found.node < p.nodes) {
        write_found(&p, (size_t)found.node, found.element);
    } else {
        fputs("a gap: PAD put it there", stdout);
        write_pads(&p, (size_t)node);
    }
    return finish_output();
}
