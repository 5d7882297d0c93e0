/* Time of runs by the library and by plain C, in one run, in turn and over the same buffers; answers and buffers are compared first.
 * Called as `run write FILE` it only writes the joining plan and its input, for numpy_join.py. */
#define _DEFAULT_SOURCE
#include "join.h"
#include "lupetzarin.h"
#include "plain_run.h"
#include "plans.h"

#include <math.h>
#include <stdio.h>
#include <stdlib.h>
#include <string.h>
#include <sys/mman.h>
#include <time.h>

#define MOST_CELLS 4194304
#define ROOM (MOST_CELLS + 64)
#define SIDE 1024
#define INNER 1000
#define OFFSET 12
#define ROUNDS 60
#define SEVERAL 8
#define RARE 4096

/* The input, the result buffers that both sides write, and a copy of the library's result. */
static int64_t *given, *kept_values;
static uint8_t *known, *kept_flags;
static cells all;

/* Large pages where the system has them, as numpy asks for them too. */
static void *pages(size_t bytes) {
    size_t whole = (bytes + (1 << 21) - 1) >> 21 << 21;
    void *p = aligned_alloc(1 << 21, whole);
    if (!p) exit(2);
    madvise(p, whole, MADV_HUGEPAGE);
    memset(p, 1, bytes);
    return p;
}

static void make_buffers(void) {
    given = pages(ROOM * sizeof *given), known = pages(ROOM);
    all.values = pages(ROOM * sizeof *given), all.flags = pages(ROOM);
    kept_values = pages(ROOM * sizeof *given), kept_flags = pages(ROOM);
}

static cells part(const plan *p, size_t node) { return (cells){all.values + p->starts[node], all.flags + p->starts[node]}; }

/* ---- single operations: the plan, and its last node in plain C ---- */

static const shape square = {SIDE, SIDE}, half = {SIDE / 2, SIDE}, inner = {INNER, INNER}, row_shape = {1, SIDE}, column_shape = {SIDE, 1}, cell_shape = {1, 1};
static const shape offset = {OFFSET, OFFSET};

static size_t put_numbers(plan *p, shape s) { return put_param(p, I32, -1000000, 1000000, s); }

static void copy_build(plan *p) { put_loaded(p, put_numbers(p, square)); }
static void copy_plain(const plan *p) { plain_copy(part(p, 1), part(p, 0), cells_of(p, 1)); }

static void add_build(plan *p) {
    size_t a = put_numbers(p, square), b = put_numbers(p, square);
    put_binary(p, ADD, a, b);
}
static void add_plain(const plan *p) { plain_add(part(p, 2), part(p, 0), part(p, 1), cells_of(p, 2)); }

static void where_build(plan *p) {
    size_t c = put_param(p, BOOL, 0, 1, square), a = put_numbers(p, square), b = put_numbers(p, square);
    put_where(p, c, a, b);
}
static void where_plain(const plan *p) { plain_where(part(p, 3), part(p, 0), part(p, 1), part(p, 2), cells_of(p, 3)); }

static void turn_build(plan *p) { put_turned(p, put_numbers(p, square)); }
static void turn_plain(const plan *p) { plain_transpose(part(p, 1), part(p, 0), SIDE, SIDE); }
static void tiles_plain(const plan *p) { plain_transpose_tiles(part(p, 1), part(p, 0), SIDE, SIDE); }

static void flip_rows_build(plan *p) { put_flipped(p, put_numbers(p, square), 1, 0); }
static void flip_rows_plain(const plan *p) { plain_flip_rows(part(p, 1), part(p, 0), SIDE, SIDE); }
static void flip_columns_build(plan *p) { put_flipped(p, put_numbers(p, square), 0, 1); }
static void flip_columns_plain(const plan *p) { plain_flip_columns(part(p, 1), part(p, 0), SIDE, SIDE); }

static void pad_build(plan *p) { put_padded(p, put_numbers(p, inner), square, offset); }
static void pad_plain(const plan *p) { plain_pad(part(p, 1), SIDE, SIDE, part(p, 0), OFFSET, OFFSET, INNER, INNER); }

static void shrink_build(plan *p) { put_shrunk(p, put_numbers(p, square), inner, offset); }
static void shrink_plain(const plan *p) {
    size_t first = OFFSET * SIDE + OFFSET;
    plain_shrink(part(p, 1), (cells){all.values + first, all.flags + first}, INNER, INNER, SIDE);
}

static void expand_row_build(plan *p) { put_expanded(p, put_numbers(p, row_shape), square); }
static void expand_row_plain(const plan *p) { plain_expand_row(part(p, 1), part(p, 0), SIDE, SIDE); }
static void expand_column_build(plan *p) { put_expanded(p, put_numbers(p, column_shape), square); }
static void expand_column_plain(const plan *p) { plain_expand_column(part(p, 1), part(p, 0), SIDE, SIDE); }
static void expand_cell_build(plan *p) { put_expanded(p, put_numbers(p, cell_shape), square); }
static void expand_cell_plain(const plan *p) { plain_expand_column(part(p, 1), part(p, 0), 1, SIDE * SIDE); }

/* ADD or FILL of a square and of what is broadcast over it. */
static void spread(plan *p, int64_t op, shape s) {
    size_t a = put_numbers(p, square), b = put_numbers(p, s);
    put_binary(p, op, a, b);
}

static void add_row_build(plan *p) { spread(p, ADD, row_shape); }
static void add_row_plain(const plan *p) { plain_add_row(part(p, 2), part(p, 0), part(p, 1), SIDE, SIDE); }
static void add_column_build(plan *p) { spread(p, ADD, column_shape); }
static void add_column_plain(const plan *p) { plain_add_column(part(p, 2), part(p, 0), part(p, 1), SIDE, SIDE); }
static void add_cell_build(plan *p) { spread(p, ADD, cell_shape); }
static void add_cell_plain(const plan *p) { plain_add_column(part(p, 2), part(p, 0), part(p, 1), 1, SIDE * SIDE); }

static void fill_build(plan *p) { spread(p, FILL, square); }
static void fill_plain(const plan *p) { plain_or_else(part(p, 2), part(p, 0), part(p, 1), cells_of(p, 2)); }
static void fill_row_build(plan *p) { spread(p, FILL, row_shape); }
static void fill_row_plain(const plan *p) { plain_or_else_row(part(p, 2), part(p, 0), part(p, 1), SIDE, SIDE); }
static void fill_column_build(plan *p) { spread(p, FILL, column_shape); }
static void fill_column_plain(const plan *p) { plain_or_else_column(part(p, 2), part(p, 0), part(p, 1), SIDE, SIDE); }
static void fill_cell_build(plan *p) { spread(p, FILL, cell_shape); }
static void fill_cell_plain(const plan *p) { plain_or_else_column(part(p, 2), part(p, 0), part(p, 1), 1, SIDE * SIDE); }

static void known_build(plan *p) { put_known(p, put_numbers(p, square)); }
static void known_plain(const plan *p) { plain_known(part(p, 1), part(p, 0), cells_of(p, 1)); }

static void stack_build(plan *p) {
    size_t a = put_numbers(p, half), b = put_numbers(p, half);
    put_stacked(p, a, b);
}
static void stack_plain(const plan *p) {
    size_t n = cells_of(p, 0);
    cells to = part(p, 2);
    plain_copy(to, part(p, 0), n);
    plain_copy((cells){to.values + n, to.flags + n}, part(p, 1), n);
}

static void sum_rows_build(plan *p) { put_reduced(p, put_numbers(p, square), SUM, 0, 1); }
static void sum_rows_plain(const plan *p) { plain_sum_rows(part(p, 1), part(p, 0), SIDE, SIDE); }
static void sum_columns_build(plan *p) { put_reduced(p, put_numbers(p, square), SUM, 1, 0); }
static void sum_columns_plain(const plan *p) { plain_sum_columns(part(p, 1), part(p, 0), SIDE, SIDE); }
static void max_rows_build(plan *p) { put_reduced(p, put_numbers(p, square), LARGEST, 0, 1); }
static void max_rows_plain(const plan *p) { plain_max_rows(part(p, 1), part(p, 0), SIDE, SIDE); }
static void max_columns_build(plan *p) { put_reduced(p, put_numbers(p, square), LARGEST, 1, 0); }
static void max_columns_plain(const plan *p) { plain_max_columns(part(p, 1), part(p, 0), SIDE, SIDE); }

static void join_divided(const plan *p) { join_plain_divided(p, all); }
static void join_shifted(const plan *p) { join_plain_shifted(p, all); }
static void const_plain(const plan *p) { plain_const(part(p, p->nodes - 1), 0); }

/* No operation: the scan of the input, its PARAM and a CONST. */
static void input_build(plan *p) {
    put_numbers(p, square);
    put_const(p, I32, 0);
}

/* ---- one run by each side ---- */

static lup_answer lup(const plan *p) {
    return lup_run(p->table, p->nodes * WORDS, given, p->inputs, known, p->inputs, all.values, ROOM, all.flags, ROOM);
}

/* The scan of the whole input, then the PARAMs, then the rest; the gaps of the output. */
static uint64_t plain(const plan *p, void (*rest)(const plan *)) {
    for (size_t i = 0; i < p->slots; i++) {
        const int64_t *w = p->table + i * WORDS;
        size_t from = p->starts[i], n = cells_of(p, i);
        if (plain_scan(given + from, known + from, n, w[7], w[8]) != n) exit(2);
    }
    for (size_t i = 0; i < p->slots; i++) plain_param(part(p, i), given + p->starts[i], known + p->starts[i], cells_of(p, i));
    rest(p);
    return plain_gaps(part(p, p->nodes - 1).flags, cells_of(p, p->nodes - 1));
}

static void clear_results(void) {
    memset(all.values, 0x55, ROOM * sizeof *given);
    memset(all.flags, 0x55, ROOM);
}

/* Whether both write the same whole buffers and give the same answer. */
static int agree(const char *what, const plan *p, void (*rest)(const plan *)) {
    clear_results();
    lup_answer a = lup(p);
    memcpy(kept_values, all.values, ROOM * sizeof *given);
    memcpy(kept_flags, all.flags, ROOM);
    clear_results();
    uint64_t gaps = plain(p, rest);
    int same = a.number == 0 && a.place == 0 && a.count == gaps;
    same = same && memcmp(kept_values, all.values, ROOM * sizeof *given) == 0 && memcmp(kept_flags, all.flags, ROOM) == 0;
    if (!same) printf("bench: %s: library and plain C differ\n", what);
    return same;
}

/* ---- times ---- */

static volatile uint64_t sink;

/* Microseconds. */
static double now(void) {
    struct timespec t;
    clock_gettime(CLOCK_MONOTONIC, &t);
    return (double)t.tv_sec * 1e6 + (double)t.tv_nsec * 1e-3;
}

/* Both sides: one run before the clock starts, so that the buffers are as this side's last run left them. */
static double lup_time(const plan *p, unsigned times) {
    sink += lup(p).count;
    double start = now();
    for (unsigned i = 0; i < times; i++) sink += lup(p).count;
    return (now() - start) / times;
}

static double plain_time(const plan *p, void (*rest)(const plan *), unsigned times) {
    sink += plain(p, rest);
    double start = now();
    for (unsigned i = 0; i < times; i++) sink += plain(p, rest);
    return (now() - start) / times;
}

static void lower(double *best, double time) {
    if (time < *best) *best = time;
}

typedef struct {
    double lup, plain, lup_alone, plain_alone;
} timing;

/* The best of all rounds; the operation alone is what a run takes more than a run of its PARAMs and a CONST. */
static timing measure(const plan *p, void (*rest)(const plan *)) {
    plan params;
    params_alone(p, &params);
    timing t = {1e12, 1e12, 1e12, 1e12};
    for (unsigned r = 0; r < ROUNDS; r++) {
        lower(&t.lup, lup_time(p, 1));
        lower(&t.plain, plain_time(p, rest, 1));
        lower(&t.lup_alone, lup_time(&params, 1));
        lower(&t.plain_alone, plain_time(&params, const_plain, 1));
    }
    t.lup_alone = t.lup - t.lup_alone, t.plain_alone = t.plain - t.plain_alone;
    return t;
}

/* ---- the table of ratios ---- */

typedef struct {
    const char *what;
    double goal;
    unsigned gaps;
    void (*build)(plan *), (*rest)(const plan *);
} bench_row;

static const bench_row rows[] = {
    {"copy (LOAD)", 1.5, SEVERAL, copy_build, copy_plain},
    {"ADD of one shape", 1.5, SEVERAL, add_build, add_plain},
    {"WHERE of one shape", 1.5, SEVERAL, where_build, where_plain},
    {"FILL of one shape", 1.5, SEVERAL, fill_build, fill_plain},
    {"FILL by a row", 1.5, SEVERAL, fill_row_build, fill_row_plain},
    {"FILL by a column", 1.5, SEVERAL, fill_column_build, fill_column_plain},
    {"FILL by one cell", 1.5, SEVERAL, fill_cell_build, fill_cell_plain},
    {"KNOWN", 1.5, SEVERAL, known_build, known_plain},
    {"STACK of two of 512 x 1024", 1.5, SEVERAL, stack_build, stack_plain},
    {"transpose", 2.0, SEVERAL, turn_build, turn_plain},
    {"flip of rows", 2.0, SEVERAL, flip_rows_build, flip_rows_plain},
    {"flip of columns", 2.0, SEVERAL, flip_columns_build, flip_columns_plain},
    {"pad 1000 x 1000 into 1024 x 1024", 2.0, SEVERAL, pad_build, pad_plain},
    {"shrink to 1000 x 1000", 2.0, SEVERAL, shrink_build, shrink_plain},
    {"EXPAND of a row", 2.0, SEVERAL, expand_row_build, expand_row_plain},
    {"EXPAND of a column", 2.0, SEVERAL, expand_column_build, expand_column_plain},
    {"EXPAND of one cell", 2.0, RARE, expand_cell_build, expand_cell_plain},
    {"ADD of a row", 2.0, SEVERAL, add_row_build, add_row_plain},
    {"ADD of a column", 2.0, SEVERAL, add_column_build, add_column_plain},
    {"ADD of one cell", 2.0, RARE, add_cell_build, add_cell_plain},
    {"REDUCE sum, last axis", 2.0, RARE, sum_rows_build, sum_rows_plain},
    {"REDUCE sum, first axis", 2.0, RARE, sum_columns_build, sum_columns_plain},
    {"REDUCE max, last axis", 2.0, RARE, max_rows_build, max_rows_plain},
    {"REDUCE max, first axis", 2.0, RARE, max_columns_build, max_columns_plain},
    {"joining plan, C divides", 2.0, RARE, join_build, join_divided},
    {"joining plan, C shifts", 2.0, RARE, join_build, join_shifted},
    {"transpose, C in tiles", 0, SEVERAL, turn_build, tiles_plain},
    {"input alone, one gap in 8", 0, SEVERAL, input_build, const_plain},
    {"input alone, one gap in 4096", 0, RARE, input_build, const_plain},
};

static void print_goal(double goal, double ratio) {
    if (goal > 0) printf(" %.1f%s |", goal, ratio > goal ? ", missed" : "");
    else printf(" none |");
}

static int run_row(const bench_row *row) {
    plan p = {0};
    row->build(&p);
    if (row->build == join_build) join_input(&p, row->gaps, given, known);
    else fill_input(&p, row->gaps, given, known);
    if (!agree(row->what, &p, row->rest)) return 0;
    timing t = measure(&p, row->rest);
    printf("| %s | %.2f | %.2f | %.2f |", row->what, t.lup / 1e3, t.plain / 1e3, t.lup / t.plain);
    print_goal(row->goal, t.lup / t.plain);
    if (row->build == input_build) printf(" | | |\n");
    else printf(" %.2f | %.2f | %.2f |\n", t.lup_alone / 1e3, t.plain_alone / 1e3, t.lup_alone / t.plain_alone);
    fflush(stdout);
    return 1;
}

static int ratio_table(void) {
    int same = 1;
    printf("runs of a million cells an operation (joining plan: 100000), best of %d rounds, milliseconds\n\n", ROUNDS);
    printf("| run | library | plain C | ratio | goal | alone: library | plain C | ratio |\n|---|---|---|---|---|---|---|---|\n");
    for (size_t i = 0; i < sizeof rows / sizeof *rows; i++) same &= run_row(rows + i);
    return same;
}

/* ---- growth ---- */

#define LEAST 12
#define MOST 22
#define SIZES (MOST - LEAST + 1)

static shape quarter;

/* Four nodes of one shape, cell by cell. */
static void cells_build(plan *p) {
    size_t a = put_numbers(p, quarter), b = put_numbers(p, quarter);
    put_where(p, put_binary(p, CMPLT, a, b), a, b);
}
static void cells_plain(const plan *p) {
    plain_less(part(p, 2), part(p, 0), part(p, 1), cells_of(p, 0));
    plain_where(part(p, 3), part(p, 2), part(p, 0), part(p, 1), cells_of(p, 0));
}

/* Four nodes of one shape, with movements. */
static void moves_build(plan *p) {
    size_t a = put_numbers(p, quarter), b = put_flipped(p, a, 0, 1), c = put_flipped(p, b, 1, 0);
    put_binary(p, ADD, a, c);
}
static void moves_plain(const plan *p) {
    plain_flip_columns(part(p, 1), part(p, 0), quarter.rows, quarter.columns);
    plain_flip_rows(part(p, 2), part(p, 1), quarter.rows, quarter.columns);
    plain_add(part(p, 3), part(p, 0), part(p, 2), cells_of(p, 0));
}

/* The plans of a growth, and the input of the largest: all PARAMs have the same limits, so that each plan's input is the first part of it. */
static plan grown[SIZES];

static void size_of(unsigned i) { quarter = (shape){(size_t)1 << ((LEAST + i - 2) / 2), (size_t)1 << ((LEAST + i - 1) / 2)}; }

static int grow(const bench_row *row) {
    for (unsigned i = 0; i < SIZES; i++) {
        size_of(i);
        grown[i] = (plan){0};
        row->build(grown + i);
    }
    fill_input(grown + SIZES - 1, row->gaps, given, known);
    for (unsigned i = 0; i < SIZES; i++) {
        size_of(i);
        if (!agree(row->what, grown + i, row->rest)) return 0;
    }
    return 1;
}

/* Nanoseconds a cell by both sides, the best of all rounds. Each round has every size in turn, so that a slow minute of the machine is one of all sizes. */
static void growth_costs(const bench_row *row, double *lup_costs, double *plain_costs) {
    for (unsigned i = 0; i < SIZES; i++) lup_costs[i] = plain_costs[i] = 1e12;
    for (unsigned r = 0; r < ROUNDS; r++)
        for (unsigned i = 0; i < SIZES; i++) {
            size_t count = (size_t)1 << (LEAST + i);
            unsigned repeats = (unsigned)(MOST_CELLS / 4 / count) + 1;
            size_of(i);
            lower(lup_costs + i, lup_time(grown + i, repeats) * 1e3 / (double)count);
            lower(plain_costs + i, plain_time(grown + i, row->rest, repeats) * 1e3 / (double)count);
        }
}

/* The cost a cell of the straight line through 0 whose largest factor to a cost is the least. */
static double line_through(const double *costs) {
    double least = costs[0], most = costs[0];
    for (unsigned i = 1; i < SIZES; i++) {
        least = fmin(least, costs[i]);
        most = fmax(most, costs[i]);
    }
    return sqrt(least * most);
}

static double mean_of(const double *costs) {
    double sum = 0;
    for (unsigned i = 0; i < SIZES; i++) sum += log(costs[i]);
    return exp(sum / SIZES);
}

static double largest_factor(const double *costs, double line) {
    double largest = 1;
    for (unsigned i = 0; i < SIZES; i++) largest = fmax(largest, fmax(costs[i] / line, line / costs[i]));
    return largest;
}

static int growth_table(const bench_row *row) {
    double lup_costs[SIZES], plain_costs[SIZES];
    if (!grow(row)) return 0;
    growth_costs(row, lup_costs, plain_costs);
    double lup_line = line_through(lup_costs), plain_line = line_through(plain_costs);
    printf("\n%s, best of %d rounds, nanoseconds a cell; lines at %.2f and %.2f\n\n", row->what, ROUNDS, lup_line, plain_line);
    printf("| cells of all nodes | library | of its line | plain C | of its line | ratio |\n|---|---|---|---|---|---|\n");
    for (unsigned i = 0; i < SIZES; i++)
        printf("| 2^%u | %.2f | %.2f | %.2f | %.2f | %.2f |\n", LEAST + i, lup_costs[i], lup_costs[i] / lup_line, plain_costs[i],
               plain_costs[i] / plain_line, lup_costs[i] / plain_costs[i]);
    double largest = largest_factor(lup_costs, lup_line);
    printf("\nlargest factor %.2f, plain C %.2f; goal %.1f%s (to the geometric mean %.2f, plain C %.2f)\n", largest,
           largest_factor(plain_costs, plain_line), row->goal, largest > row->goal ? ", missed" : "",
           largest_factor(lup_costs, mean_of(lup_costs)), largest_factor(plain_costs, mean_of(plain_costs)));
    fflush(stdout);
    return 1;
}

static const bench_row growths[] = {
    {"growth: two PARAMs, CMPLT, WHERE", 1.5, SEVERAL, cells_build, cells_plain},
    {"growth: PARAM, FLIP, FLIP, ADD", 1.5, SEVERAL, moves_build, moves_plain},
};

/* ---- the joining plan for numpy ---- */

/* Counts of nodes and of input cells, the table, values and flags. */
static int write_join(const char *name) {
    plan p = {0};
    join_build(&p);
    join_input(&p, RARE, given, known);
    FILE *f = fopen(name, "wb");
    uint64_t counts[2] = {p.nodes, p.inputs};
    if (!f) return 2;
    int done = fwrite(counts, sizeof counts, 1, f) == 1 && fwrite(p.table, WORDS * sizeof *p.table, p.nodes, f) == p.nodes;
    done = done && fwrite(given, sizeof *given, p.inputs, f) == p.inputs && fwrite(known, 1, p.inputs, f) == p.inputs;
    return fclose(f) == 0 && done ? 0 : 2;
}

int main(int count, char **words) {
    make_buffers();
    if (count == 3 && strcmp(words[1], "write") == 0) return write_join(words[2]);
    int same = ratio_table();
    for (size_t i = 0; i < sizeof growths / sizeof *growths; i++) same &= growth_table(growths + i);
    return !same;
}
