#include "join.h"

/* Strip k lies over columns STEP * k to STEP * k + WIDTH - 1; two neighbours share the WIDTH - STEP columns of their seam. */
#define STRIPS 12
#define ROWS 250
#define WIDTH 37
#define STEP 33
#define COLUMNS (STEP * (STRIPS - 1) + WIDTH)
#define CELLS ((size_t)ROWS * COLUMNS)

/* The field of strip numbers holds 2k where strip k lies alone and 2k + 1 on the seam of strips k and k + 1. */
#define NUMBERS STRIPS
#define LAST_NUMBER (2 * STRIPS - 2)

/* Even strips do not touch each other, nor do odd ones, so each half is overlaid by itself. In turn: the threshold from which strip k
 * counts in its half, the pads, then the two halves. */
static size_t overlay(plan *p, size_t first, const size_t *thresholds, const size_t *pads) {
    size_t joined = pads[first];
    for (size_t k = first + 2; k < STRIPS; k += 2)
        joined = put_where(p, put_binary(p, CMPLT, NUMBERS, thresholds[k]), joined, pads[k]);
    return joined;
}

void join_build(plan *p) {
    shape bay = {ROWS, COLUMNS};
    size_t thresholds[STRIPS], pads[STRIPS];
    for (size_t k = 0; k < STRIPS; k++) put_param(p, I32, -30000, 30000, (shape){ROWS, WIDTH});
    put_param(p, U8, 0, LAST_NUMBER, bay);
    size_t one = put_const(p, U8, 1), two = put_const(p, U8, 2), four = put_const(p, U8, 4), half = put_const(p, I32, 2);
    for (size_t k = 2; k < STRIPS; k++) thresholds[k] = put_const(p, U8, (int64_t)(2 * k - 1));
    for (size_t k = 0; k < STRIPS; k++) pads[k] = put_padded(p, k, bay, (shape){0, STEP * k});
    size_t even = overlay(p, 0, thresholds, pads), odd = overlay(p, 1, thresholds, pads);
    size_t seams = put_binary(p, IDIV, put_binary(p, ADD, even, odd), half);
    size_t kind = put_binary(p, MOD, NUMBERS, four);
    size_t joined = put_where(p, put_binary(p, CMPLT, kind, one), even, seams);
    joined = put_where(p, put_binary(p, CMPNE, kind, two), joined, odd);
    put_reduced(p, joined, SUM, 0, 1);
}

/* The number of the strip or seam at a column. */
static int64_t number_at(size_t column) {
    size_t k = column / STEP < STRIPS - 1 ? column / STEP : STRIPS - 1;
    int seam = k > 0 && column < STEP * (k - 1) + WIDTH;
    return (int64_t)(2 * k) - seam;
}

void join_input(const plan *p, unsigned gaps, int64_t *values, uint8_t *flags) {
    fill_input(p, gaps, values, flags);
    for (size_t i = 0; i < CELLS; i++) {
        values[p->starts[NUMBERS] + i] = number_at(i % COLUMNS);
        flags[p->starts[NUMBERS] + i] = 1;
    }
}

static cells part(const plan *p, cells all, size_t node) {
    return (cells){all.values + p->starts[node], all.flags + p->starts[node]};
}

/* The two nodes after `node` of each strip of a half: less, then where. The number of the last one. */
static size_t plain_overlay(const plan *p, cells all, size_t first, size_t pads, size_t node) {
    cells joined = part(p, all, pads + first);
    for (size_t k = first + 2; k < STRIPS; k += 2, node += 2) {
        cells less = part(p, all, node), next = part(p, all, node + 1);
        plain_less_cell(less, part(p, all, NUMBERS), part(p, all, NUMBERS + 3 + k), CELLS);
        plain_where(next, less, joined, part(p, all, pads + k), CELLS);
        joined = next;
    }
    return node;
}

/* Constants, pads and both halves; the number of the next node. */
static size_t plain_halves(const plan *p, cells all) {
    size_t node = NUMBERS + 1, pads = NUMBERS + 3 + STRIPS;
    for (; node < pads; node++) plain_const(part(p, all, node), p->table[node * WORDS + 5]);
    for (size_t k = 0; k < STRIPS; k++) plain_pad(part(p, all, pads + k), ROWS, COLUMNS, part(p, all, k), 0, STEP * k, ROWS, WIDTH);
    return plain_overlay(p, all, 1, pads, plain_overlay(p, all, 0, pads, pads + STRIPS));
}

/* From the sum of the halves on; n is its node. */
static void plain_seams(const plan *p, cells all, size_t n, int shifted) {
    cells even = part(p, all, n - STRIPS + 1), odd = part(p, all, n - 1), seams = part(p, all, n + 1), kind = part(p, all, n + 2);
    cells one = part(p, all, NUMBERS + 1), two = part(p, all, NUMBERS + 2), numbers = part(p, all, NUMBERS);
    plain_add(part(p, all, n), even, odd, CELLS);
    if (shifted) {
        plain_halve(seams, part(p, all, n), CELLS);
        plain_mod4(kind, numbers, CELLS);
    } else {
        plain_idiv_cell(seams, part(p, all, n), part(p, all, NUMBERS + 4), CELLS);
        plain_mod_cell(kind, numbers, part(p, all, NUMBERS + 3), CELLS);
    }
    plain_less_cell(part(p, all, n + 3), kind, one, CELLS);
    plain_where(part(p, all, n + 4), part(p, all, n + 3), even, seams, CELLS);
    plain_differs_cell(part(p, all, n + 5), kind, two, CELLS);
    plain_where(part(p, all, n + 6), part(p, all, n + 5), part(p, all, n + 4), odd, CELLS);
    plain_sum_rows(part(p, all, n + 7), part(p, all, n + 6), ROWS, COLUMNS);
}

void join_plain_divided(const plan *p, cells all) { plain_seams(p, all, plain_halves(p, all), 0); }

void join_plain_shifted(const plan *p, cells all) { plain_seams(p, all, plain_halves(p, all), 1); }
