/* Shapes of fields and nodes, and their text. */
#ifndef SHAPE_H
#define SHAPE_H

#include "lupetzarin.h"

#define SHAPE_TEXT 96
#define PLACE_TEXT 160

typedef struct {
    size_t rank;
    uint64_t extents[LUP_MOST_RANK];
} shape;

/* How a field is drawn: pictures one after another, each of rows and columns. */
typedef struct {
    size_t pictures, rows, columns;
} layout;

/* The elements of a shape; 0 where an extent is not 1..1048576 or there are more elements than that. */
size_t element_count(const shape *s);

int same_shape(const shape *a, const shape *b);

layout layout_of(const shape *s);

/* '40x12', or '-' for rank 0. */
void write_shape(const shape *s, char text[SHAPE_TEXT]);

/* 'picture 3', or 'picture 0,3' for rank 4; nothing below rank 3. */
void write_picture(const shape *s, size_t picture, char text[SHAPE_TEXT]);

/* Where an element stands: 'picture 3 row 1 column 5', as far as there are such axes; nothing for rank 0. */
void write_place(const shape *s, uint64_t element, char text[PLACE_TEXT]);

#endif
