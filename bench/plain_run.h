/* The work of a run in plain C, for comparison: for the same buffers, with masks in place of branches, and without proofs.
 * In the result buffers a gap has value 0 and flag 0, so flags serve as masks and numbers of gaps add nothing to a sum. */
#ifndef PLAIN_RUN_H
#define PLAIN_RUN_H

#include <stddef.h>
#include <stdint.h>

/* Cells of one node in the two result buffers. */
typedef struct {
    int64_t *values;
    uint8_t *flags;
} cells;

/* The first bad position of n, or n: a flag neither 0 nor 1, or a known number outside low..high. */
size_t plain_scan(const int64_t *values, const uint8_t *flags, size_t n, int64_t low, int64_t high);
void plain_param(cells to, const int64_t *values, const uint8_t *flags, size_t n);
void plain_const(cells to, int64_t number);
uint64_t plain_gaps(const uint8_t *flags, size_t n);

/* Movements; a result of rows x columns. A source whose rows are further apart than its columns has a pitch. */
void plain_copy(cells to, cells a, size_t n);
void plain_transpose(cells to, cells a, size_t rows, size_t columns);
void plain_transpose_tiles(cells to, cells a, size_t rows, size_t columns);
void plain_flip_rows(cells to, cells a, size_t rows, size_t columns);
void plain_flip_columns(cells to, cells a, size_t rows, size_t columns);
void plain_shrink(cells to, cells a, size_t rows, size_t columns, size_t pitch);
void plain_pad(cells to, size_t rows, size_t columns, cells a, size_t top, size_t left, size_t height, size_t width);
void plain_expand_row(cells to, cells a, size_t rows, size_t columns);
void plain_expand_column(cells to, cells a, size_t rows, size_t columns);

/* Cell by cell; the second source has the same shape, or is a row, a column or one cell. */
void plain_add(cells to, cells a, cells b, size_t n);
void plain_add_row(cells to, cells a, cells b, size_t rows, size_t columns);
void plain_add_column(cells to, cells a, cells b, size_t rows, size_t columns);
void plain_less(cells to, cells a, cells b, size_t n);
void plain_less_cell(cells to, cells a, cells b, size_t n);
void plain_differs_cell(cells to, cells a, cells b, size_t n);
void plain_idiv_cell(cells to, cells a, cells b, size_t n);
void plain_mod_cell(cells to, cells a, cells b, size_t n);
void plain_halve(cells to, cells a, size_t n);
void plain_mod4(cells to, cells a, size_t n);
void plain_where(cells to, cells condition, cells a, cells b, size_t n);

/* FILL: a where it is known, else b; the second source as for ADD. KNOWN: 1 or 0, never a gap. */
void plain_or_else(cells to, cells a, cells b, size_t n);
void plain_or_else_row(cells to, cells a, cells b, size_t rows, size_t columns);
void plain_or_else_column(cells to, cells a, cells b, size_t rows, size_t columns);
void plain_known(cells to, cells a, size_t n);

/* REDUCE over the last axis (a number a row) and over the first (a number a column). */
void plain_sum_rows(cells to, cells a, size_t rows, size_t columns);
void plain_sum_columns(cells to, cells a, size_t rows, size_t columns);
void plain_max_rows(cells to, cells a, size_t rows, size_t columns);
void plain_max_columns(cells to, cells a, size_t rows, size_t columns);

#endif
