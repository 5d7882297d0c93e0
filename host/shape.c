#include "shape.h"

#include <inttypes.h>
#include <stdio.h>
#include <string.h>

size_t element_count(const shape *s) {
    uint64_t count = 1;
    if (s->rank > LUP_MOST_RANK) return 0;
    for (size_t axis = 0; axis < s->rank; axis++) {
        uint64_t extent = s->extents[axis];
        if (extent < 1 || extent > LUP_MOST_NODE_ELEMENTS / count) return 0;
        count *= extent;
    }
    return (size_t)count;
}

int same_shape(const shape *a, const shape *b) {
    return a->rank == b->rank && memcmp(a->extents, b->extents, a->rank * sizeof a->extents[0]) == 0;
}

layout layout_of(const shape *s) {
    size_t count = element_count(s);
    size_t columns = s->rank > 0 ? (size_t)s->extents[s->rank - 1] : 1;
    size_t rows = s->rank > 1 ? (size_t)s->extents[s->rank - 2] : 1;
    return (layout){.pictures = count / columns / rows, .rows = rows, .columns = columns};
}

void write_shape(const shape *s, char text[SHAPE_TEXT]) {
    size_t used = 0;
    strcpy(text, "-");
    for (size_t axis = 0; axis < s->rank; axis++)
        used += (size_t)snprintf(text + used, SHAPE_TEXT - used, "%s%" PRIu64, axis > 0 ? "x" : "", s->extents[axis]);
}

void write_picture(const shape *s, size_t picture, char text[SHAPE_TEXT]) {
    text[0] = '\0';
    if (s->rank == 3) snprintf(text, SHAPE_TEXT, "picture %zu", picture);
    if (s->rank == 4) snprintf(text, SHAPE_TEXT, "picture %zu,%zu", picture / (size_t)s->extents[1], picture % (size_t)s->extents[1]);
}

void write_place(const shape *s, uint64_t element, char text[PLACE_TEXT]) {
    layout l = layout_of(s);
    size_t place = (size_t)element, column = place % l.columns, row = place / l.columns % l.rows;
    char picture[SHAPE_TEXT];
    write_picture(s, place / l.columns / l.rows, picture);
    text[0] = '\0';
    if (s->rank == 1) snprintf(text, PLACE_TEXT, "column %zu", column);
    if (s->rank > 1) snprintf(text, PLACE_TEXT, "%s%srow %zu column %zu", picture, s->rank > 2 ? " " : "", row, column);
}
