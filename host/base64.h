/* Bytes as text in base64. */
#ifndef BASE64_H
#define BASE64_H

#include "image.h"

/* Bytes that are not written yet: held of them, 0 to 2. */
typedef struct {
    FILE *file;
    uint32_t bits;
    size_t held;
} base64;

/* The text goes to the file; whether that worked is left in the file's state. */
byte_sink base64_sink(base64 *b);

/* Writes what is still held, with the padding. */
void end_base64(base64 *b);

#endif
