#include "plans.h"
#include <string.h>

#define DEVICE 1

static int64_t *next_words(plan *p) { return p->table + p->nodes * WORDS; }

/* The node whose words are written becomes part of the plan. */
static size_t put(plan *p, int64_t op, shape s) {
    next_words(p)[0] = op;
    p->shapes[p->nodes] = s;
    p->starts[p->nodes] = p->cells;
    p->cells += s.rows * s.columns;
    return p->nodes++;
}

static void put_shape(int64_t *row, shape s) {
    row[0] = (int64_t)s.rows;
    row[1] = (int64_t)s.columns;
}

size_t cells_of(const plan *p, size_t node) { return p->shapes[node].rows * p->shapes[node].columns; }

size_t put_param(plan *p, int64_t dtype, int64_t low, int64_t high, shape s) {
    int64_t *w = next_words(p);
    w[4] = dtype, w[5] = (int64_t)p->slots++, w[6] = DEVICE, w[7] = low, w[8] = high;
    put_shape(w + 9, s);
    p->inputs += s.rows * s.columns;
    return put(p, 1, s);
}

size_t put_const(plan *p, int64_t dtype, int64_t number) {
    int64_t *w = next_words(p);
    w[4] = dtype, w[5] = number;
    return put(p, 0, (shape){1, 1});
}

size_t put_turned(plan *p, size_t source) {
    int64_t *w = next_words(p);
    w[1] = (int64_t)source, w[9] = 1;
    return put(p, 2, (shape){p->shapes[source].columns, p->shapes[source].rows});
}

size_t put_flipped(plan *p, size_t source, int64_t rows, int64_t columns) {
    int64_t *w = next_words(p);
    w[1] = (int64_t)source, w[9] = rows, w[10] = columns;
    return put(p, 3, p->shapes[source]);
}

size_t put_expanded(plan *p, size_t source, shape s) {
    int64_t *w = next_words(p);
    w[1] = (int64_t)source;
    put_shape(w + 9, s);
    return put(p, 5, s);
}

/* PAD and SHRINK. */
static size_t put_placed(plan *p, int64_t op, size_t source, shape s, shape offsets) {
    int64_t *w = next_words(p);
    w[1] = (int64_t)source;
    put_shape(w + 9, s);
    put_shape(w + 13, offsets);
    return put(p, op, s);
}

size_t put_padded(plan *p, size_t source, shape s, shape offsets) { return put_placed(p, 6, source, s, offsets); }

size_t put_shrunk(plan *p, size_t source, shape s, shape offsets) { return put_placed(p, 7, source, s, offsets); }

size_t put_loaded(plan *p, size_t source) {
    int64_t *w = next_words(p);
    w[1] = (int64_t)source, w[6] = DEVICE;
    return put(p, 20, p->shapes[source]);
}

/* The shape of two nodes broadcast together. */
static shape together(const plan *p, size_t a, size_t b) {
    shape s = p->shapes[a], t = p->shapes[b];
    return (shape){s.rows > t.rows ? s.rows : t.rows, s.columns > t.columns ? s.columns : t.columns};
}

size_t put_binary(plan *p, int64_t op, size_t a, size_t b) {
    int64_t *w = next_words(p);
    w[1] = (int64_t)a, w[2] = (int64_t)b;
    return put(p, op, together(p, a, b));
}

size_t put_where(plan *p, size_t condition, size_t a, size_t b) {
    int64_t *w = next_words(p);
    w[1] = (int64_t)condition, w[2] = (int64_t)a, w[3] = (int64_t)b;
    return put(p, 18, together(p, a, b));
}

size_t put_reduced(plan *p, size_t source, int64_t how, int64_t rows, int64_t columns) {
    int64_t *w = next_words(p);
    shape s = p->shapes[source];
    w[1] = (int64_t)source, w[5] = how, w[9] = rows, w[10] = columns;
    return put(p, 19, (shape){rows ? 1 : s.rows, columns ? 1 : s.columns});
}

size_t put_known(plan *p, size_t source) {
    int64_t *w = next_words(p);
    w[1] = (int64_t)source;
    return put(p, 22, p->shapes[source]);
}

size_t put_stacked(plan *p, size_t a, size_t b) {
    int64_t *w = next_words(p);
    w[1] = (int64_t)a, w[2] = (int64_t)b, w[5] = 2;
    return put(p, 23, (shape){2 * p->shapes[a].rows, p->shapes[a].columns});
}

void params_alone(const plan *p, plan *alone) {
    memset(alone, 0, sizeof *alone);
    for (size_t i = 0; i < p->slots; i++) {
        const int64_t *w = p->table + i * WORDS;
        put_param(alone, w[4], w[7], w[8], p->shapes[i]);
    }
    put_const(alone, I32, 0);
}

static uint64_t random_bits(void) {
    static uint64_t state = 7;
    uint64_t z = state += 0x9E3779B97F4A7C15u;
    z = (z ^ (z >> 30)) * 0xBF58476D1CE4E5B9u;
    z = (z ^ (z >> 27)) * 0x94D049BB133111EBu;
    return z ^ (z >> 31);
}

void fill_input(const plan *p, unsigned gaps, int64_t *values, uint8_t *flags) {
    for (size_t i = 0; i < p->slots; i++) {
        const int64_t *w = p->table + i * WORDS;
        uint64_t numbers = (uint64_t)(w[8] - w[7]) + 1;
        for (size_t k = p->starts[i]; k < p->starts[i] + cells_of(p, i); k++) {
            flags[k] = random_bits() % gaps != 0;
            values[k] = flags[k] ? w[7] + (int64_t)(random_bits() % numbers) : (int64_t)random_bits();
        }
    }
}
