/* Field files: 'LUPFIELD', rank, extents, values, flags; then 'LUPRANGE', low and high, or nothing. */
#ifndef FIELD_H
#define FIELD_H

#include "shape.h"

#include <stdio.h>

#define FAULT_TEXT 320

/* count elements; a flag is 1 for a known number and 0 for a gap, whose value means nothing. ranged: the field has bounds, low..high; what lies outside
   them is a number like any other. */
typedef struct {
    shape shape;
    size_t count;
    int64_t *values;
    uint8_t *flags;
    int ranged;
    int64_t low, high;
} field;

/* How many elements are known, and the least and the greatest of them; 0 and 0 where none is. */
typedef struct {
    size_t known, gaps;
    int64_t least, greatest;
} field_range;

/* Why a file is not read. damaged: it was read, and is no field or not the wanted one; else reading it failed, or there is no memory. */
typedef struct {
    int damaged;
    char text[FAULT_TEXT];
} fault;

/* Room for so many values and flags, at least for one; 0 where there is no memory. */
int allocate_cells(size_t count, int64_t **values, uint8_t **flags);

/* Sets the fault and its text; gives MISUSED. */
int find_fault(fault *why, int damaged, const char *format, ...) __attribute__((format(printf, 3, 4)));

/* Reads a field from an open file. DONE; MISUSED with the fault, which is told nowhere yet, and nothing to free. */
int read_field(FILE *file, field *f, fault *why);

/* Writes a field, its gaps as value 0, and its bounds where it has some; whether that worked is left in the file's state. */
void write_field(FILE *file, const field *f);

void free_field(field *f);

field_range range_of(const field *f);

#endif
