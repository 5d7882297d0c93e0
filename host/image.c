#include "image.h"

#include "message.h"

#include <png.h>
#include <stdlib.h>

#define BITS_A_PIXEL 8

static void take_plain(void *to, const uint8_t *bytes, size_t count) { fwrite(bytes, 1, count, to); }

byte_sink file_sink(FILE *file) { return (byte_sink){.take = take_plain, .to = file}; }

/* What libpng calls: for bytes, for the end of them, for a failure, after which it must not be returned to, and for a warning. */
static void take_bytes(png_structp png, png_bytep bytes, png_size_t count) {
    const byte_sink *sink = png_get_io_ptr(png);
    sink->take(sink->to, bytes, count);
}

static void flush_nothing(png_structp png) { (void)png; }

static void fail(png_structp png, png_const_charp why) {
    complain("the picture cannot be made: %s", why);
    png_longjmp(png, 1);
}

static void pass_over(png_structp png, png_const_charp why) { (void)png, (void)why; }

/* The head: libpng's own limits on an image's sides are below what a field can have. */
static void write_head(png_structp png, png_infop info, const image *i) {
    png_color palette[IMAGE_COLOURS];
    for (size_t k = 0; k < IMAGE_COLOURS; k++)
        palette[k] = (png_color){.red = i->palette[k][0], .green = i->palette[k][1], .blue = i->palette[k][2]};
    png_set_user_limits(png, PNG_UINT_31_MAX, PNG_UINT_31_MAX);
    png_set_IHDR(png, info, (png_uint_32)i->width, (png_uint_32)i->height, BITS_A_PIXEL, PNG_COLOR_TYPE_PALETTE, PNG_INTERLACE_NONE,
                 PNG_COMPRESSION_TYPE_DEFAULT, PNG_FILTER_TYPE_DEFAULT);
    png_set_PLTE(png, info, palette, IMAGE_COLOURS);
    png_write_info(png, info);
}

/* 0 where libpng failed: it comes back to setjmp then. */
static int write_whole(png_structp png, png_infop info, const image *i, uint8_t *row) {
    if (setjmp(png_jmpbuf(png))) return 0;
    write_head(png, info, i);
    for (size_t y = 0; y < i->height; y++) {
        for (size_t x = 0; x < i->width; x++) row[x] = i->pixel(i->source, x, y);
        png_write_row(png, row);
    }
    png_write_end(png, info);
    return 1;
}

int write_png(byte_sink sink, const image *i) {
    png_structp png = png_create_write_struct(PNG_LIBPNG_VER_STRING, NULL, fail, pass_over);
    png_infop info = png != NULL ? png_create_info_struct(png) : NULL;
    uint8_t *row = malloc(i->width);
    int status = info != NULL && row != NULL ? DONE : complain("the picture cannot be made: there is no memory for it");
    if (status == DONE) {
        png_set_write_fn(png, &sink, take_bytes, flush_nothing);
        status = write_whole(png, info, i, row) ? DONE : MISUSED;
    }
    png_destroy_write_struct(&png, &info);
    free(row);
    return status;
}
