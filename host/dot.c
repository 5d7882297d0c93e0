/* A plan as a Graphviz graph: a line for each node, and one for each of its sources. */
#include "commands.h"

#include <inttypes.h>
#include <stdio.h>

/* The operation, with the slot of a PARAM and the kind of a REDUCE. */
static void write_operation(const plan *p, size_t node, int64_t operation) {
    int64_t number = word_of(p, node, LUP_WORD_NUMBER);
    fputs(operation_name(operation), stdout);
    if (operation == LUP_OP_PARAM) printf(" %" PRId64, number);
    if (operation == LUP_OP_REDUCE) fputs(number == LUP_REDUCE_SUM ? " sum" : " greatest", stdout);
}

static void write_node(const plan *p, size_t node) {
    node_facts f = facts_of(p, node);
    char text[SHAPE_TEXT];
    write_shape(&f.shape, text);
    printf("    n%zu [label=\"%zu: ", node, node);
    write_operation(p, node, f.operation);
    printf("\\n%s %s\\n%" PRId64 "..%" PRId64 "\\n", dtype_name(f.dtype), text, f.low, f.high);
    if (f.device == 0) {
        fputs("no device", stdout);
    } else {
        printf("device %" PRId64, f.device);
    }
    printf("\"%s];\n", node + 1 == p->nodes ? ", peripheries=2" : "");
}

/* Sources are numbered where there are several, since their order counts. */
static void write_sources(const plan *p, size_t node) {
    size_t sources = source_count(p, node);
    for (size_t k = 0; k < sources; k++) {
        printf("    n%" PRId64 " -> n%zu", word_of(p, node, LUP_WORD_SOURCE + k), node);
        if (sources > 1) printf(" [label=\"%zu\"]", k + 1);
        puts(";");
    }
}

void write_dot(const plan *p) {
    puts("digraph plan {");
    puts("    node [shape=box, fontname=\"monospace\"];");
    for (size_t node = 0; node < p->nodes; node++) write_node(p, node);
    for (size_t node = 0; node < p->nodes; node++) write_sources(p, node);
    puts("}");
}
