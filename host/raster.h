/* The colours of a field's cells, and the field as an image of them. */
#ifndef RASTER_H
#define RASTER_H

#include "image.h"
#include "scale.h"

/* Colours 0 to COLOURED - 1 are shades, light for the low end of the scale and dark for the high one. The two others of a palette are no shade. */
enum { COLOURED = IMAGE_COLOURS - 2, GAP_COLOUR = COLOURED, PAGE_COLOUR };

/* Pictures of a field one under another, so many from the first on, with so many pixels a cell each way; a cell's height of page between two. */
typedef struct {
    const field *field;
    const scale *scale;
    size_t first, pictures, cell;
} raster;

/* The colour of an element. */
uint8_t colour_of(const field *f, const scale *s, size_t element);

/* Red, green and blue of a colour. */
void mix_colour(size_t colour, uint8_t rgb[3]);

/* All pictures of a field, a cell 1 to 16 pixels wide, so that small fields can be seen and large ones have no more pixels than need be. */
raster raster_of(const field *f, const scale *s);

/* The image of a raster, which has to stay while the image is used. */
image image_of(const raster *r);

#endif
