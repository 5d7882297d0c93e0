/* lup list and lup check. */
#include "commands.h"
#include "message.h"

#include <inttypes.h>
#include <stdio.h>

/* The listing of 01, a line a node. */
static void write_listing(const plan *p) {
    puts("node op dtype device low high shape");
    for (size_t node = 0; node < p->nodes; node++) {
        node_facts f = facts_of(p, node);
        char text[SHAPE_TEXT];
        write_shape(&f.shape, text);
        printf("%zu %" PRId64 " %" PRId64 " %" PRId64 " %" PRId64 " %" PRId64 " %s\n", node, f.operation, f.dtype, f.device, f.low, f.high, text);
    }
    printf("accepted %zu\n", p->nodes);
}

int list_command(arguments a) {
    option dot = {.name = "--dot"};
    plan p;
    int status = take_options(&a, &dot, 1);
    if (status == DONE) status = expect_words(&a, 1, 1, "one PLAN");
    if (status != DONE) return status;
    status = load_plan(a.words[0], &p);
    if (status == REFUSED && dot.value == NULL) printf("refused %" PRIu64 " at %" PRIu64 "\n", p.refused.number, p.refused.place);
    if (status == DONE && dot.value == NULL) write_listing(&p);
    if (status == DONE && dot.value != NULL) write_dot(&p);
    return finish_output() != DONE ? MISUSED : status;
}

int check_command(arguments a) {
    plan p;
    int status = take_options(&a, NULL, 0);
    if (status == DONE) status = expect_words(&a, 1, 1, "one PLAN");
    if (status == DONE) status = load_plan(a.words[0], &p);
    if (status != DONE) return status;
    size_t elements = total_count(&p);
    printf("accepted: %zu node%s, %zu element%s\n", p.nodes, p.nodes == 1 ? "" : "s", elements, elements == 1 ? "" : "s");
    return finish_output();
}
