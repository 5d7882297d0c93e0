/* Plans for the bench of the run: tables of 17 words a node, and their input. Shapes are of two axes; a CONST counts as 1 x 1. */
#ifndef PLANS_H
#define PLANS_H

#include <stddef.h>
#include <stdint.h>

#define WORDS 17
#define MOST_NODES 80

typedef struct {
    size_t rows, columns;
} shape;

/* A table; of each node its shape and where its cells begin; the cells of all PARAMs and of all nodes. */
typedef struct {
    int64_t table[MOST_NODES * WORDS];
    shape shapes[MOST_NODES];
    size_t starts[MOST_NODES];
    size_t nodes, slots, inputs, cells;
} plan;

enum { BOOL, U8, I16, I32 };
enum { ADD = 9, IDIV = 12, MOD = 13, CMPLT = 14, CMPNE = 15, FILL = 21 };
enum { SUM, LARGEST };

/* Each adds one node and gives its number. */
size_t put_param(plan *p, int64_t dtype, int64_t low, int64_t high, shape s);
size_t put_const(plan *p, int64_t dtype, int64_t number);
size_t put_turned(plan *p, size_t source);
size_t put_flipped(plan *p, size_t source, int64_t rows, int64_t columns);
size_t put_expanded(plan *p, size_t source, shape s);
size_t put_padded(plan *p, size_t source, shape s, shape offsets);
size_t put_shrunk(plan *p, size_t source, shape s, shape offsets);
size_t put_loaded(plan *p, size_t source);
size_t put_binary(plan *p, int64_t op, size_t a, size_t b);
size_t put_where(plan *p, size_t condition, size_t a, size_t b);
size_t put_reduced(plan *p, size_t source, int64_t how, int64_t rows, int64_t columns);
size_t put_known(plan *p, size_t source);
/* STACK of two; its new axis and the rows of its sources count as one axis. */
size_t put_stacked(plan *p, size_t a, size_t b);

size_t cells_of(const plan *p, size_t node);

/* The PARAMs of a plan and, in place of the rest, one CONST. */
void params_alone(const plan *p, plan *alone);

/* Numbers within limits; one cell in `gaps` is a gap, over any 64 bits. */
void fill_input(const plan *p, unsigned gaps, int64_t *values, uint8_t *flags);

#endif
