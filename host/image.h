/* Images of 256 colours at most, as PNG files by libpng. */
#ifndef IMAGE_H
#define IMAGE_H

#include <stddef.h>
#include <stdint.h>
#include <stdio.h>

#define IMAGE_COLOURS 256

/* An image of width x height pixels, each the number of a colour; pixel gives them. */
typedef struct {
    size_t width, height;
    uint8_t palette[IMAGE_COLOURS][3];
    uint8_t (*pixel)(const void *source, size_t x, size_t y);
    const void *source;
} image;

/* Takes the next bytes of a PNG file. */
typedef struct {
    void (*take)(void *to, const uint8_t *bytes, size_t count);
    void *to;
} byte_sink;

/* A file as a sink; whether that worked is left in the file's state. */
byte_sink file_sink(FILE *file);

/* Hands over the bytes of the PNG file. DONE, or MISUSED with a message. */
int write_png(byte_sink sink, const image *image);

#endif
