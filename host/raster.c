#include "raster.h"

#include <string.h>

#define WIDEST_CELL 16
#define ENOUGH_PIXELS 1048576

static const uint8_t LIGHT[3] = {222, 235, 247}, DARK[3] = {8, 48, 107}, GAP[3] = {176, 48, 48}, PAGE[3] = {255, 255, 255};

uint8_t colour_of(const field *f, const scale *s, size_t element) {
    return f->flags[element] == 1 ? (uint8_t)step_of(s, f->values[element], COLOURED) : GAP_COLOUR;
}

void mix_colour(size_t colour, uint8_t rgb[3]) {
    int step = (int)colour;
    if (colour >= COLOURED) {
        memcpy(rgb, colour == GAP_COLOUR ? GAP : PAGE, 3);
        return;
    }
    for (size_t k = 0; k < 3; k++) rgb[k] = (uint8_t)(LIGHT[k] + (DARK[k] - LIGHT[k]) * step / (COLOURED - 1));
}

raster raster_of(const field *f, const scale *s) {
    size_t cell = WIDEST_CELL;
    while (cell > 1 && f->count * cell * cell > ENOUGH_PIXELS) cell--;
    return (raster){.field = f, .scale = s, .pictures = layout_of(&f->shape).pictures, .cell = cell};
}

/* The colour of a pixel: a cell's, or the page's between two pictures. */
static uint8_t pixel_of(const void *source, size_t x, size_t y) {
    const raster *r = source;
    layout l = layout_of(&r->field->shape);
    size_t line = y / r->cell, picture = line / (l.rows + 1), row = line % (l.rows + 1);
    if (row == l.rows) return PAGE_COLOUR;
    return colour_of(r->field, r->scale, ((r->first + picture) * l.rows + row) * l.columns + x / r->cell);
}

image image_of(const raster *r) {
    layout l = layout_of(&r->field->shape);
    image i = {.width = l.columns * r->cell, .height = (r->pictures * (l.rows + 1) - 1) * r->cell, .pixel = pixel_of, .source = r};
    for (size_t k = 0; k < IMAGE_COLOURS; k++) mix_colour(k, i.palette[k]);
    return i;
}
