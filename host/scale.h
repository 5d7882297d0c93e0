/* The scale of a picture: which numbers its shades stand for. */
#ifndef SCALE_H
#define SCALE_H

#include "arguments.h"
#include "field.h"

#define OUTSIDE_TEXT 160

/* The numbers of the first shade and the last; of the field's cells so many are known, are gaps, are known below low and known above high. */
typedef struct {
    int64_t low, high;
    size_t known, gaps, below, above;
} scale;

/* The scale of a field: the ends that are given as words, NULL where they are not; else the field's bounds; else its least and greatest known number.
   DONE, or MISUSED with a message: a word is no number, or low is above high. */
int choose_scale(const arguments *a, const field *f, const char *low, const char *high, scale *s);

/* The place of a value among so many equal steps from low to high, at most 256: 0..steps - 1. The first below low, the last above high; the middle
   where low and high are the same number. */
size_t step_of(const scale *s, int64_t value, size_t steps);

/* How many cells lie outside the scale, as a line of the legend; nothing where none does. */
void write_outside(const scale *s, char text[OUTSIDE_TEXT]);

#endif
