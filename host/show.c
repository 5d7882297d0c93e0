/* lup show. */
#include "commands.h"
#include "message.h"
#include "output.h"
#include "raster.h"
#include "source.h"
#include "svg.h"

#include <errno.h>
#include <inttypes.h>
#include <string.h>

/* From the low end of the scale to the high one. None is a digit, a blank or the hatching of gaps. */
static const char SHADES[] = ".:-=+*#%@";
#define SHADE_COUNT (sizeof SHADES - 1)

/* The two characters of an element. */
static void draw_cell(const field *f, const scale *s, size_t element) {
    char drawn = f->flags[element] == 1 ? SHADES[step_of(s, f->values[element], SHADE_COUNT)] : '/';
    putchar(drawn);
    putchar(drawn);
}

static void draw_picture(const field *f, const scale *s, size_t picture) {
    layout l = layout_of(&f->shape);
    char title[SHAPE_TEXT];
    write_picture(&f->shape, picture, title);
    if (title[0] != '\0') puts(title);
    for (size_t row = 0; row < l.rows; row++) {
        for (size_t column = 0; column < l.columns; column++) draw_cell(f, s, (picture * l.rows + row) * l.columns + column);
        putchar('\n');
    }
    putchar('\n');
}

static void draw_legend(const drawing *d) {
    const scale *s = d->scale;
    char outside[OUTSIDE_TEXT];
    write_outside(s, outside);
    if (s->known == 0) {
        puts("no known number");
    } else if (s->low == s->high) {
        printf("%c%c %s%" PRId64, SHADES[SHADE_COUNT / 2], SHADES[SHADE_COUNT / 2], outside[0] == '\0' ? "every known number: " : "", s->low);
    } else {
        printf("%" PRId64, s->low);
        for (size_t k = 0; k < SHADE_COUNT; k++) printf(" %c%c", SHADES[k], SHADES[k]);
        printf(" %" PRId64, s->high);
    }
    if (s->known > 0) printf("%s%s\n", d->unit != NULL ? " " : "", d->unit != NULL ? d->unit : "");
    if (outside[0] != '\0') puts(outside);
    printf("// gap: %zu of %zu cells\n", s->gaps, d->field->count);
}

static void draw_field(const drawing *d) {
    const field *f = d->field;
    char text[SHAPE_TEXT];
    write_shape(&f->shape, text);
    if (d->title != NULL) printf("%s\n\n", d->title);
    else printf("%s, shape %s\n\n", d->name, text);
    for (size_t k = 0; k < layout_of(&f->shape).pictures; k++) draw_picture(f, d->scale, k);
    draw_legend(d);
}

static int load_field(const char *name, field *f) {
    FILE *file = open_source(name);
    if (file == NULL) return complain("%s: it cannot be opened: %s", name, strerror(errno));
    fault why;
    int status = read_field(file, f, &why);
    close_source(file);
    return status == DONE ? DONE : complain("%s: %s", name, why.text);
}

static int write_pixels(FILE *file, const drawing *d) {
    raster r = raster_of(d->field, d->scale);
    image cells = image_of(&r);
    return write_png(file_sink(file), &cells);
}

/* The picture goes to the named file, or to standard output, by that writer. */
static int keep_picture(const drawing *d, const char *written, int (*write)(FILE *file, const drawing *d)) {
    output o;
    if (open_output(written, &o) != DONE) return MISUSED;
    if (write(o.file, d) != DONE) {
        end_output(&o);
        return MISUSED;
    }
    if (keep_output(&o) != DONE) return MISUSED;
    fprintf(told_on(written, NULL), "written: %s, %zu of %zu cells are gaps\n", written, d->scale->gaps, d->field->count);
    return DONE;
}

/* What an image of cells alone cannot say. */
static void tell_scale(const drawing *d) {
    char outside[OUTSIDE_TEXT];
    write_outside(d->scale, outside);
    if (d->title != NULL) printf("title: %s\n", d->title);
    printf("scale: %" PRId64 " to %" PRId64 "%s%s\n", d->scale->low, d->scale->high, d->unit != NULL ? " " : "", d->unit != NULL ? d->unit : "");
    if (outside[0] != '\0') puts(outside);
}

enum { SVG, PNG, LOW, HIGH, TITLE, UNIT, OPTION_COUNT };

/* The picture of a field that has been read. */
static int show_field(const arguments *a, const field *f, const option *options) {
    scale s;
    if (choose_scale(a, f, options[LOW].value, options[HIGH].value, &s) != DONE) return MISUSED;
    drawing d = {.field = f, .scale = &s, .name = a->words[0], .title = options[TITLE].value, .unit = options[UNIT].value};
    int status = DONE;
    if (options[SVG].value != NULL) status = keep_picture(&d, options[SVG].value, write_svg);
    if (options[PNG].value != NULL) status = keep_picture(&d, options[PNG].value, write_pixels);
    if (status != DONE) return status;
    if (options[PNG].value != NULL) tell_scale(&d);
    if (options[SVG].value == NULL && options[PNG].value == NULL) draw_field(&d);
    return finish_output();
}

int show_command(arguments a) {
    option options[OPTION_COUNT] = {[SVG] = {.name = "--svg", .takes_value = 1},
                                    [PNG] = {.name = "--png", .takes_value = 1},
                                    [LOW] = {.name = "--low", .takes_value = 1},
                                    [HIGH] = {.name = "--high", .takes_value = 1},
                                    [TITLE] = {.name = "--title", .takes_value = 1},
                                    [UNIT] = {.name = "--unit", .takes_value = 1}};
    field f;
    int status = take_options(&a, options, OPTION_COUNT);
    if (status == DONE) status = expect_words(&a, 1, 1, "one FIELD");
    if (status != DONE) return status;
    if (options[SVG].value != NULL && options[PNG].value != NULL) return complain("show: --svg and --png are both given; see lup show --help");
    const char *written = options[SVG].value != NULL ? options[SVG].value : options[PNG].value;
    if (written != NULL && expect_apart(written, a.words[0]) != DONE) return MISUSED;
    if (load_field(a.words[0], &f) != DONE) return MISUSED;
    status = show_field(&a, &f, options);
    free_field(&f);
    return status;
}
