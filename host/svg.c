#include "svg.h"

#include "base64.h"
#include "message.h"
#include "raster.h"
#include "text.h"

#include <inttypes.h>
#include <string.h>

/* A cell has such sides, and smaller ones where a picture would have more pixels along one. */
#define SIDE 12
#define MOST_PIXELS 1200
#define MARGIN 16
#define LINE 20
/* At least so wide for a character of text of the size 12. */
#define CHARACTER 8
#define TITLE_CHARACTER 10
/* Few cells of an axis are all numbered where they have their full side; else numbers stand this far apart at least, and an axis has so many at most. */
#define FEW_CELLS 10
#define TICK_DISTANCE 48
#define MOST_TICKS 40
/* A field of over so many cells is drawn as rectangles of several cells, and where these are over so many, as images. */
#define MANY_CELLS 20000
#define MANY_RECTANGLES 4000
#define LEGEND_BAR 320
#define LEGEND_WIDTH 560
#define LEGEND_HEIGHT 96

#define COLOUR_TEXT 8

/* A colour as SVG has it; gives the text. */
static const char *name_colour(size_t colour, char text[COLOUR_TEXT]) {
    uint8_t rgb[3];
    mix_colour(colour, rgb);
    snprintf(text, COLOUR_TEXT, "#%02x%02x%02x", (unsigned)rgb[0], (unsigned)rgb[1], (unsigned)rgb[2]);
    return text;
}

/* Whether XML may not have the character: a control character, U+FFFE or U+FFFF. */
static int is_forbidden(const unsigned char *c) { return c[0] < 0x20 || c[0] == 0x7f || (c[0] == 0xef && c[1] == 0xbf && c[2] >= 0xbe); }

/* Text for XML. What is no UTF-8, or may not stand in XML, becomes the character for such bytes, U+FFFD. */
static void write_escaped(FILE *file, const char *text) {
    const unsigned char *c = (const unsigned char *)text;
    while (*c != '\0') {
        size_t length = character_length(c);
        if (length == 0 || is_forbidden(c)) fputs("&#xfffd;", file);
        else if (*c == '&' || *c == '<' || *c == '>') fprintf(file, "&#%d;", *c);
        else fwrite(c, 1, length, file);
        c += length > 0 ? length : 1;
    }
}

/* The pattern of gaps, and the colours from low to high. */
static void write_definitions(FILE *file, const scale *s) {
    char colour[COLOUR_TEXT];
    fputs("<defs>\n<pattern id=\"gap\" width=\"6\" height=\"6\" patternUnits=\"userSpaceOnUse\">", file);
    fprintf(file, "<path d=\"M-1 1L1 -1M0 6L6 0M5 7L7 5\" stroke=\"%s\" stroke-width=\"1.5\"/></pattern>\n", name_colour(GAP_COLOUR, colour));
    fputs("<linearGradient id=\"colours\">", file);
    for (int end = 0; end < 2; end++)
        fprintf(file, "<stop offset=\"%d\" stop-color=\"%s\"/>", end, name_colour(step_of(s, end == 0 ? s->low : s->high, COLOURED), colour));
    fputs("</linearGradient>\n</defs>\n", file);
}

static size_t greater_of(size_t a, size_t b) { return a > b ? a : b; }

typedef struct {
    size_t width, height;
} cell_size;

/* Squares, of one pixel at least; a single row is as high, and a single column as wide, as the cells of a small field. */
static cell_size cell_of(const field *f) {
    layout l = layout_of(&f->shape);
    size_t longest = greater_of(l.rows, l.columns), side = longest * SIDE <= MOST_PIXELS ? SIDE : greater_of(MOST_PIXELS / longest, 1);
    return (cell_size){.width = l.columns > 1 ? side : SIDE, .height = l.rows > 1 ? side : SIDE};
}

static size_t digit_count(size_t number) {
    size_t digits = 1;
    while (number > 9) {
        number /= 10;
        digits++;
    }
    return digits;
}

/* Where the cells begin: right of the row numbers. */
static size_t left_of(const field *f) {
    size_t rows = layout_of(&f->shape).rows;
    return f->shape.rank > 1 ? MARGIN + CHARACTER * digit_count(rows - 1) + CHARACTER : MARGIN;
}

static size_t title_height(const field *f) { return f->shape.rank > 2 ? LINE : 0; }

/* A picture with its title, its rows and its column numbers. */
static size_t picture_height(const field *f) {
    return title_height(f) + layout_of(&f->shape).rows * cell_of(f).height + (f->shape.rank > 0 ? LINE : 0) + MARGIN;
}

/* How far apart the numbered cells of an axis are: 1, or 1, 2 or 5 times a power of ten. */
static size_t tick_step(size_t extent, size_t cell) {
    size_t step = 1;
    if (extent <= FEW_CELLS && cell == SIDE) return 1;
    for (size_t turn = 0; step * cell < TICK_DISTANCE || step * MOST_TICKS < extent; turn++) step = turn % 3 == 1 ? step / 2 * 5 : step * 2;
    return step;
}

/* Row numbers left of the cells, which begin at y. */
static void write_rows(FILE *file, const field *f, size_t y) {
    size_t rows = layout_of(&f->shape).rows, high = cell_of(f).height, step = tick_step(rows, high), left = left_of(f);
    if (f->shape.rank < 2) return;
    fputs("<g class=\"rows\" text-anchor=\"end\" stroke-width=\"1\">\n", file);
    for (size_t row = 0; row < rows; row += step) {
        size_t middle = y + row * high + high / 2;
        fprintf(file, "<path d=\"M%zu %zuh-4\" stroke=\"#000000\"/><text x=\"%zu\" y=\"%zu\">%zu</text>\n", left, middle, left - 6, middle + 4, row);
    }
    fputs("</g>\n", file);
}

/* Column numbers under the cells, which end at y. */
static void write_columns(FILE *file, const field *f, size_t y) {
    size_t columns = layout_of(&f->shape).columns, wide = cell_of(f).width, step = tick_step(columns, wide), left = left_of(f);
    if (f->shape.rank < 1) return;
    fputs("<g class=\"columns\" text-anchor=\"middle\" stroke-width=\"1\">\n", file);
    for (size_t column = 0; column < columns; column += step) {
        size_t middle = left + column * wide + wide / 2;
        fprintf(file, "<path d=\"M%zu %zuv4\" stroke=\"#000000\"/><text x=\"%zu\" y=\"%zu\">%zu</text>\n", middle, y, middle, y + 16, column);
    }
    fputs("</g>\n", file);
}

/* How many cells from an element on are one rectangle: in a field of many cells all of one colour up to the row's end. */
static size_t run_at(const drawing *d, size_t element) {
    size_t columns = layout_of(&d->field->shape).columns, run = 1;
    uint8_t colour = colour_of(d->field, d->scale, element);
    if (d->field->count <= MANY_CELLS) return 1;
    while ((element + run) % columns != 0 && colour_of(d->field, d->scale, element + run) == colour) run++;
    return run;
}

/* Whether a field is drawn as images: it has many cells, and as rectangles still too many. */
static int needs_image(const drawing *d) {
    size_t rectangles = 0;
    if (d->field->count <= MANY_CELLS) return 0;
    for (size_t element = 0; element < d->field->count; element += run_at(d, element)) rectangles++;
    return rectangles > MANY_RECTANGLES;
}

/* The cells of one picture, a pixel each. */
static int write_image(FILE *file, const drawing *d, size_t picture, size_t x, size_t y) {
    layout l = layout_of(&d->field->shape);
    cell_size c = cell_of(d->field);
    raster r = {.field = d->field, .scale = d->scale, .first = picture, .pictures = 1, .cell = 1};
    image cells = image_of(&r);
    base64 coded = {.file = file};
    fprintf(file, "<image class=\"cells\" x=\"%zu\" y=\"%zu\" width=\"%zu\" height=\"%zu\" ", x, y, l.columns * c.width, l.rows * c.height);
    fputs("preserveAspectRatio=\"none\" style=\"image-rendering:pixelated\" href=\"data:image/png;base64,", file);
    int status = write_png(base64_sink(&coded), &cells);
    end_base64(&coded);
    fputs("\"/>\n", file);
    return status;
}

static void write_cells(FILE *file, uint8_t colour, size_t x, size_t y, cell_size drawn) {
    char text[COLOUR_TEXT];
    const char *class = colour == GAP_COLOUR ? "gap" : "known", *fill = colour == GAP_COLOUR ? "url(#gap)" : name_colour(colour, text);
    fprintf(file, "<rect class=\"%s\" x=\"%zu\" y=\"%zu\" width=\"%zu\" height=\"%zu\" fill=\"%s\"/>\n", class, x, y, drawn.width, drawn.height, fill);
}

/* The cells of one picture as rectangles. */
static void write_rectangles(FILE *file, const drawing *d, size_t picture, size_t x, size_t y) {
    layout l = layout_of(&d->field->shape);
    cell_size c = cell_of(d->field);
    size_t first = picture * l.rows * l.columns, run;
    for (size_t k = 0; k < l.rows * l.columns; k += run) {
        run = run_at(d, first + k);
        cell_size drawn = {.width = run * c.width, .height = c.height};
        write_cells(file, colour_of(d->field, d->scale, first + k), x + k % l.columns * c.width, y + k / l.columns * c.height, drawn);
    }
}

/* One picture, rows down and columns across, from y on. */
static int write_one(FILE *file, const drawing *d, int as_image, size_t picture, size_t y) {
    const field *f = d->field;
    int status = DONE;
    size_t left = left_of(f), top = y + title_height(f);
    char text[SHAPE_TEXT];
    write_picture(&f->shape, picture, text);
    if (text[0] != '\0') fprintf(file, "<text x=\"%d\" y=\"%zu\">%s</text>\n", MARGIN, y + LINE - 6, text);
    if (as_image) status = write_image(file, d, picture, left, top);
    else write_rectangles(file, d, picture, left, top);
    write_rows(file, f, top);
    write_columns(file, f, top + layout_of(&f->shape).rows * cell_of(f).height);
    return status;
}

/* A rectangle of the legend at the left margin. */
static void write_sample(FILE *file, const char *class, size_t y, int width, const char *fill) {
    fprintf(file, "<rect class=\"%s\" x=\"%d\" y=\"%zu\" width=\"%d\" height=\"%d\" fill=\"%s\"/>\n", class, MARGIN, y, width, SIDE, fill);
}

/* The colours with the numbers at their ends, and the unit right of them. */
static void write_colours(FILE *file, const drawing *d, size_t y) {
    int right = MARGIN + LEGEND_BAR;
    write_sample(file, "legend-known", y, LEGEND_BAR, "url(#colours)");
    fprintf(file, "<text id=\"low\" x=\"%d\" y=\"%zu\">%" PRId64 "</text>\n", MARGIN, y + 28, d->scale->low);
    fprintf(file, "<text id=\"high\" x=\"%d\" y=\"%zu\" text-anchor=\"end\">%" PRId64 "</text>\n", right, y + 28, d->scale->high);
    if (d->unit == NULL) return;
    fprintf(file, "<text id=\"unit\" x=\"%d\" y=\"%zu\">", right + SIDE, y + 11);
    write_escaped(file, d->unit);
    fputs("</text>\n", file);
}

/* The colours, what gaps are drawn as with their count, and the count of numbers outside the scale. */
static void write_legend(FILE *file, const drawing *d, int as_image, size_t y) {
    const scale *s = d->scale;
    char outside[OUTSIDE_TEXT], gap[COLOUR_TEXT];
    write_outside(s, outside);
    fprintf(file, "<g id=\"legend\">\n");
    if (s->known > 0) {
        write_colours(file, d, y);
    } else {
        fprintf(file, "<text x=\"%d\" y=\"%zu\">no known number</text>\n", MARGIN, y + SIDE);
    }
    /* There is no pattern in an image: gaps have the colour of the palette there. */
    write_sample(file, "legend-gap", y + 40, 2 * SIDE, as_image ? name_colour(GAP_COLOUR, gap) : "url(#gap)");
    fprintf(file, "<text id=\"gaps\" x=\"%d\" y=\"%zu\">gap: %zu of %zu cells</text>\n", MARGIN + 3 * SIDE, y + 51, s->gaps, d->field->count);
    if (outside[0] != '\0') fprintf(file, "<text id=\"outside\" x=\"%d\" y=\"%zu\">%s</text>\n", MARGIN, y + 71, outside);
    fputs("</g>\n", file);
}

static void write_title(FILE *file, const drawing *d) {
    char text[SHAPE_TEXT];
    write_shape(&d->field->shape, text);
    fprintf(file, "<text id=\"title\" x=\"%d\" y=\"%d\" font-size=\"14\">", MARGIN, MARGIN + 8);
    write_escaped(file, d->title != NULL ? d->title : d->name);
    if (d->title == NULL) fprintf(file, ", shape %s", text);
    fputs("</text>\n", file);
}

/* Wide enough for the cells, the legend, the title and the unit. */
static size_t width_of(const drawing *d) {
    size_t cells = left_of(d->field) + layout_of(&d->field->shape).columns * cell_of(d->field).width + MARGIN;
    size_t title = TITLE_CHARACTER * (d->title != NULL ? strlen(d->title) : strlen(d->name) + SHAPE_TEXT / 2);
    size_t unit = LEGEND_BAR + SIDE + CHARACTER * (d->unit != NULL ? strlen(d->unit) : 0);
    return greater_of(cells, 2 * MARGIN + greater_of(LEGEND_WIDTH, greater_of(title, unit)));
}

int write_svg(FILE *file, const drawing *d) {
    size_t pictures = layout_of(&d->field->shape).pictures, top = MARGIN + LINE;
    size_t bottom = top + pictures * picture_height(d->field), width = width_of(d), height = bottom + LEGEND_HEIGHT;
    int as_image = needs_image(d), status = DONE;
    fprintf(file, "<svg xmlns=\"http://www.w3.org/2000/svg\" width=\"%zu\" height=\"%zu\" viewBox=\"0 0 %zu %zu\" ", width, height, width, height);
    fputs("font-family=\"sans-serif\" font-size=\"12\" fill=\"#000000\">\n", file);
    fprintf(file, "<rect class=\"background\" x=\"0\" y=\"0\" width=\"%zu\" height=\"%zu\" fill=\"#ffffff\"/>\n", width, height);
    write_definitions(file, d->scale);
    write_title(file, d);
    for (size_t k = 0; k < pictures && status == DONE; k++) status = write_one(file, d, as_image, k, top + k * picture_height(d->field));
    write_legend(file, d, as_image, bottom);
    fputs("</svg>\n", file);
    return status;
}
