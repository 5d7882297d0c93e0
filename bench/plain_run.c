#include "plain_run.h"
#include <string.h>

typedef int64_t *restrict to_values;
typedef uint8_t *restrict to_flags;
typedef const int64_t *restrict from_values;
typedef const uint8_t *restrict from_flags;

/* All ones for a known cell, 0 for a gap. */
static inline int64_t mask(uint8_t flag) { return -(int64_t)flag; }

/* ---- input, constants, counting ---- */

/* 1 where a number lies outside low..high: the sign of one of two differences. With limits of 32 bits it holds for every 64-bit number. */
static inline uint64_t outside(int64_t value, uint64_t low, uint64_t high) {
    return (((uint64_t)value - low) | (high - (uint64_t)value)) >> 63;
}

size_t plain_scan(from_values values, from_flags flags, size_t n, int64_t low, int64_t high) {
    uint64_t bad = 0;
    uint8_t all = 0;
    for (size_t i = 0; i < n; i++) bad |= outside(values[i], (uint64_t)low, (uint64_t)high) & flags[i];
    for (size_t i = 0; i < n; i++) all |= flags[i];
    if (!bad && all < 2) return n;
    size_t i = 0;
    while (i < n && flags[i] < 2 && !(flags[i] & outside(values[i], (uint64_t)low, (uint64_t)high))) i++;
    return i;
}

void plain_param(cells to, const int64_t *values, const uint8_t *flags, size_t n) {
    to_values v = to.values;
    from_values x = values;
    from_flags f = flags;
    for (size_t i = 0; i < n; i++) v[i] = x[i] & mask(f[i]);
    memcpy(to.flags, flags, n);
}

void plain_const(cells to, int64_t number) {
    to.values[0] = number;
    to.flags[0] = 1;
}

uint64_t plain_gaps(const uint8_t *flags, size_t n) {
    uint64_t known = 0;
    for (size_t i = 0; i < n; i++) known += flags[i];
    return n - known;
}

/* ---- movements ---- */

void plain_copy(cells to, cells a, size_t n) {
    memcpy(to.values, a.values, n * sizeof *a.values);
    memcpy(to.flags, a.flags, n);
}

static cells cells_at(cells a, size_t place) { return (cells){a.values + place, a.flags + place}; }

/* The result has rows x columns; the source columns x rows. */
void plain_transpose(cells to, cells a, size_t rows, size_t columns) {
    to_values v = to.values;
    to_flags f = to.flags;
    from_values x = a.values;
    from_flags g = a.flags;
    for (size_t r = 0; r < rows; r++)
        for (size_t c = 0; c < columns; c++) v[r * columns + c] = x[c * rows + r];
    for (size_t r = 0; r < rows; r++)
        for (size_t c = 0; c < columns; c++) f[r * columns + c] = g[c * rows + r];
}

#define TILE 16

/* The same in tiles that stay in the nearest cache; rows and columns are multiples of TILE. */
void plain_transpose_tiles(cells to, cells a, size_t rows, size_t columns) {
    to_values v = to.values;
    to_flags f = to.flags;
    from_values x = a.values;
    from_flags g = a.flags;
    for (size_t r = 0; r < rows; r += TILE)
        for (size_t c = 0; c < columns; c += TILE)
            for (size_t i = r; i < r + TILE; i++)
                for (size_t k = c; k < c + TILE; k++) v[i * columns + k] = x[k * rows + i];
    for (size_t r = 0; r < rows; r += TILE)
        for (size_t c = 0; c < columns; c += TILE)
            for (size_t i = r; i < r + TILE; i++)
                for (size_t k = c; k < c + TILE; k++) f[i * columns + k] = g[k * rows + i];
}

void plain_flip_rows(cells to, cells a, size_t rows, size_t columns) {
    for (size_t r = 0; r < rows; r++) plain_copy(cells_at(to, r * columns), cells_at(a, (rows - 1 - r) * columns), columns);
}

void plain_flip_columns(cells to, cells a, size_t rows, size_t columns) {
    to_values v = to.values;
    to_flags f = to.flags;
    from_values x = a.values;
    from_flags g = a.flags;
    for (size_t r = 0; r < rows * columns; r += columns)
        for (size_t c = 0; c < columns; c++) v[r + c] = x[r + columns - 1 - c];
    for (size_t r = 0; r < rows * columns; r += columns)
        for (size_t c = 0; c < columns; c++) f[r + c] = g[r + columns - 1 - c];
}

void plain_shrink(cells to, cells a, size_t rows, size_t columns, size_t pitch) {
    for (size_t r = 0; r < rows; r++) plain_copy(cells_at(to, r * columns), cells_at(a, r * pitch), columns);
}

static void plain_fill(cells to, size_t n, int64_t value, uint8_t flag) {
    for (size_t i = 0; i < n; i++) to.values[i] = value;
    memset(to.flags, flag, n);
}

void plain_pad(cells to, size_t rows, size_t columns, cells a, size_t top, size_t left, size_t height, size_t width) {
    size_t below = (top + height) * columns, right = left + width;
    plain_fill(to, top * columns, 0, 0);
    for (size_t r = 0; r < height; r++) {
        cells row = cells_at(to, (top + r) * columns);
        plain_fill(row, left, 0, 0);
        plain_copy(cells_at(row, left), cells_at(a, r * width), width);
        plain_fill(cells_at(row, right), columns - right, 0, 0);
    }
    plain_fill(cells_at(to, below), rows * columns - below, 0, 0);
}

void plain_expand_row(cells to, cells a, size_t rows, size_t columns) {
    for (size_t r = 0; r < rows; r++) plain_copy(cells_at(to, r * columns), a, columns);
}

void plain_expand_column(cells to, cells a, size_t rows, size_t columns) {
    for (size_t r = 0; r < rows; r++) plain_fill(cells_at(to, r * columns), columns, a.values[r], a.flags[r]);
}

/* ---- cell by cell ---- */

/* Flags of a result that is known where both sources are. */
static void both_flags(to_flags f, from_flags g, from_flags h, size_t n) {
    for (size_t i = 0; i < n; i++) f[i] = g[i] & h[i];
}

/* The same, where the second source is one cell. */
static void cell_flags(to_flags f, from_flags g, uint8_t h, size_t n) {
    for (size_t i = 0; i < n; i++) f[i] = g[i] & h;
}

static void add_values(to_values v, from_values x, from_values y, from_flags f, size_t n) {
    for (size_t i = 0; i < n; i++) v[i] = (x[i] + y[i]) & mask(f[i]);
}

void plain_add(cells to, cells a, cells b, size_t n) {
    both_flags(to.flags, a.flags, b.flags, n);
    add_values(to.values, a.values, b.values, to.flags, n);
}

void plain_add_row(cells to, cells a, cells b, size_t rows, size_t columns) {
    for (size_t r = 0; r < rows; r++) plain_add(cells_at(to, r * columns), cells_at(a, r * columns), b, columns);
}

static void add_cell(to_values v, from_values x, int64_t y, from_flags f, size_t n) {
    for (size_t i = 0; i < n; i++) v[i] = (x[i] + y) & mask(f[i]);
}

/* One cell a row; one row is one cell for all. */
void plain_add_column(cells to, cells a, cells b, size_t rows, size_t columns) {
    for (size_t r = 0; r < rows; r++) {
        cells row = cells_at(to, r * columns);
        cell_flags(row.flags, a.flags + r * columns, b.flags[r], columns);
        add_cell(row.values, a.values + r * columns, b.values[r], row.flags, columns);
    }
}

/* 1 where x < y: the sign of the difference, which no number of 32 bits overflows. */
static inline int64_t less(int64_t x, int64_t y) { return (int64_t)((uint64_t)(x - y) >> 63); }

static void less_values(to_values v, from_values x, from_values y, from_flags f, size_t n) {
    for (size_t i = 0; i < n; i++) v[i] = less(x[i], y[i]) & f[i];
}

void plain_less(cells to, cells a, cells b, size_t n) {
    both_flags(to.flags, a.flags, b.flags, n);
    less_values(to.values, a.values, b.values, to.flags, n);
}

static void less_cell(to_values v, from_values x, int64_t y, from_flags f, size_t n) {
    for (size_t i = 0; i < n; i++) v[i] = less(x[i], y) & f[i];
}

void plain_less_cell(cells to, cells a, cells b, size_t n) {
    cell_flags(to.flags, a.flags, b.flags[0], n);
    less_cell(to.values, a.values, b.values[0], to.flags, n);
}

static void differs_cell(to_values v, from_values x, int64_t y, from_flags f, size_t n) {
    for (size_t i = 0; i < n; i++) v[i] = (less(x[i], y) | less(y, x[i])) & f[i];
}

void plain_differs_cell(cells to, cells a, cells b, size_t n) {
    cell_flags(to.flags, a.flags, b.flags[0], n);
    differs_cell(to.values, a.values, b.values[0], to.flags, n);
}

/* 1 where the remainder in C has to be corrected for the floor. */
static inline int64_t below_floor(int64_t rest, int64_t divisor) { return (rest != 0) & ((rest ^ divisor) < 0); }

static void idiv_cell(to_values v, from_values x, int64_t y, from_flags f, size_t n) {
    for (size_t i = 0; i < n; i++) v[i] = (x[i] / y - below_floor(x[i] % y, y)) & mask(f[i]);
}

/* A divisor that is a gap is 0: then 1 stands for it, and all is masked. */
void plain_idiv_cell(cells to, cells a, cells b, size_t n) {
    cell_flags(to.flags, a.flags, b.flags[0], n);
    idiv_cell(to.values, a.values, b.values[0] + !b.flags[0], to.flags, n);
}

static void mod_cell(to_values v, from_values x, int64_t y, from_flags f, size_t n) {
    for (size_t i = 0; i < n; i++) v[i] = (x[i] % y + (y & -below_floor(x[i] % y, y))) & mask(f[i]);
}

void plain_mod_cell(cells to, cells a, cells b, size_t n) {
    cell_flags(to.flags, a.flags, b.flags[0], n);
    mod_cell(to.values, a.values, b.values[0] + !b.flags[0], to.flags, n);
}

static void halve_values(to_values v, from_values x, size_t n) {
    for (size_t i = 0; i < n; i++) v[i] = x[i] >> 1;
}

/* IDIV by a known 2, and MOD by a known 4: the 0 of a gap stays 0. */
void plain_halve(cells to, cells a, size_t n) {
    memcpy(to.flags, a.flags, n);
    halve_values(to.values, a.values, n);
}

static void mod4_values(to_values v, from_values x, size_t n) {
    for (size_t i = 0; i < n; i++) v[i] = x[i] & 3;
}

void plain_mod4(cells to, cells a, size_t n) {
    memcpy(to.flags, a.flags, n);
    mod4_values(to.values, a.values, n);
}

static void where_values(to_values v, from_values c, from_flags f, from_values x, from_values y, size_t n) {
    for (size_t i = 0; i < n; i++) v[i] = ((x[i] & -c[i]) | (y[i] & (c[i] - 1))) & mask(f[i]);
}

static void where_flags(to_flags f, from_values c, from_flags g, from_flags x, from_flags y, size_t n) {
    for (size_t i = 0; i < n; i++) f[i] = g[i] & ((x[i] & (uint8_t)c[i]) | (y[i] & (uint8_t)(c[i] ^ 1)));
}

/* A chosen side that is a gap has value 0 already. */
void plain_where(cells to, cells condition, cells a, cells b, size_t n) {
    where_flags(to.flags, condition.values, condition.flags, a.flags, b.flags, n);
    where_values(to.values, condition.values, condition.flags, a.values, b.values, n);
}

/* ---- FILL and KNOWN ---- */

/* A gap of the first source has value 0 already. */
static void or_else_values(to_values v, from_values x, from_flags f, from_values y, size_t n) {
    for (size_t i = 0; i < n; i++) v[i] = x[i] | (y[i] & ~mask(f[i]));
}

static void either_flags(to_flags f, from_flags g, from_flags h, size_t n) {
    for (size_t i = 0; i < n; i++) f[i] = g[i] | h[i];
}

void plain_or_else(cells to, cells a, cells b, size_t n) {
    or_else_values(to.values, a.values, a.flags, b.values, n);
    either_flags(to.flags, a.flags, b.flags, n);
}

void plain_or_else_row(cells to, cells a, cells b, size_t rows, size_t columns) {
    for (size_t r = 0; r < rows; r++) plain_or_else(cells_at(to, r * columns), cells_at(a, r * columns), b, columns);
}

static void or_else_cell(to_values v, from_values x, from_flags f, int64_t y, size_t n) {
    for (size_t i = 0; i < n; i++) v[i] = x[i] | (y & ~mask(f[i]));
}

static void either_cell(to_flags f, from_flags g, uint8_t h, size_t n) {
    for (size_t i = 0; i < n; i++) f[i] = g[i] | h;
}

/* One cell a row; one row is one cell for all. */
void plain_or_else_column(cells to, cells a, cells b, size_t rows, size_t columns) {
    for (size_t r = 0; r < rows; r++) {
        cells row = cells_at(to, r * columns), over = cells_at(a, r * columns);
        or_else_cell(row.values, over.values, over.flags, b.values[r], columns);
        either_cell(row.flags, over.flags, b.flags[r], columns);
    }
}

static void flag_values(to_values v, from_flags f, size_t n) {
    for (size_t i = 0; i < n; i++) v[i] = f[i];
}

void plain_known(cells to, cells a, size_t n) {
    flag_values(to.values, a.flags, n);
    memset(to.flags, 1, n);
}

/* ---- REDUCE ---- */

static int64_t sum_of(from_values x, size_t n) {
    int64_t sum = 0;
    for (size_t i = 0; i < n; i++) sum += x[i];
    return sum;
}

static int64_t max_of(from_values x, size_t n) {
    int64_t max = x[0];
    for (size_t i = 0; i < n; i++) max = x[i] > max ? x[i] : max;
    return max;
}

static uint8_t all_of(from_flags f, size_t n) {
    uint8_t all = 1;
    for (size_t i = 0; i < n; i++) all &= f[i];
    return all;
}

static void row_flags(cells to, cells a, size_t rows, size_t columns) {
    for (size_t r = 0; r < rows; r++) to.flags[r] = all_of(a.flags + r * columns, columns);
}

void plain_sum_rows(cells to, cells a, size_t rows, size_t columns) {
    row_flags(to, a, rows, columns);
    for (size_t r = 0; r < rows; r++) to.values[r] = sum_of(a.values + r * columns, columns) & mask(to.flags[r]);
}

void plain_max_rows(cells to, cells a, size_t rows, size_t columns) {
    row_flags(to, a, rows, columns);
    for (size_t r = 0; r < rows; r++) to.values[r] = max_of(a.values + r * columns, columns) & mask(to.flags[r]);
}

static void take_flags(to_flags f, from_flags g, size_t n) {
    for (size_t i = 0; i < n; i++) f[i] &= g[i];
}

static void take_sums(to_values v, from_values x, size_t n) {
    for (size_t i = 0; i < n; i++) v[i] += x[i];
}

static void take_maxima(to_values v, from_values x, size_t n) {
    for (size_t i = 0; i < n; i++) v[i] = x[i] > v[i] ? x[i] : v[i];
}

static void mask_values(to_values v, from_flags f, size_t n) {
    for (size_t i = 0; i < n; i++) v[i] &= mask(f[i]);
}

static void column_flags(cells to, cells a, size_t rows, size_t columns) {
    memcpy(to.flags, a.flags, columns);
    for (size_t r = 1; r < rows; r++) take_flags(to.flags, a.flags + r * columns, columns);
}

void plain_sum_columns(cells to, cells a, size_t rows, size_t columns) {
    column_flags(to, a, rows, columns);
    memcpy(to.values, a.values, columns * sizeof *a.values);
    for (size_t r = 1; r < rows; r++) take_sums(to.values, a.values + r * columns, columns);
    mask_values(to.values, to.flags, columns);
}

void plain_max_columns(cells to, cells a, size_t rows, size_t columns) {
    column_flags(to, a, rows, columns);
    memcpy(to.values, a.values, columns * sizeof *a.values);
    for (size_t r = 1; r < rows; r++) take_maxima(to.values, a.values + r * columns, columns);
    mask_values(to.values, to.flags, columns);
}
