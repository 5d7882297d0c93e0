/* A field as an SVG picture. */
#ifndef SVG_H
#define SVG_H

#include "scale.h"

/* A field, its scale, and the words beside it: name is that of its file; title and unit are NULL where none is given. */
typedef struct {
    const field *field;
    const scale *scale;
    const char *name, *title, *unit;
} drawing;

/* Writes the picture; whether it could be written is left in the file's state. DONE, or MISUSED with a message where it could not be made. */
int write_svg(FILE *file, const drawing *d);

#endif
