#include "field.h"

#include "message.h"

#include <errno.h>
#include <inttypes.h>
#include <stdarg.h>
#include <stdlib.h>
#include <string.h>

#define MAGIC "LUPFIELD"
#define RANGE_MAGIC "LUPRANGE"
#define MAGIC_BYTES 8
#define WORD_BYTES 8
#define RANGE_BYTES (MAGIC_BYTES + 2 * WORD_BYTES)

static uint64_t word_at(const uint8_t *bytes) {
    uint64_t word = 0;
    for (size_t k = WORD_BYTES; k > 0; k--) word = word << 8 | bytes[k - 1];
    return word;
}

static void put_word(FILE *file, uint64_t word) {
    uint8_t bytes[WORD_BYTES];
    for (size_t k = 0; k < WORD_BYTES; k++) bytes[k] = (uint8_t)(word >> 8 * k);
    fwrite(bytes, 1, WORD_BYTES, file);
}

int find_fault(fault *why, int damaged, const char *format, ...) {
    va_list items;
    why->damaged = damaged;
    va_start(items, format);
    vsnprintf(why->text, sizeof why->text, format, items);
    va_end(items);
    return MISUSED;
}

/* Reads exactly so many bytes of the named part. */
static int read_part(FILE *file, const char *part, uint8_t *bytes, size_t count, fault *why) {
    size_t got = fread(bytes, 1, count, file);
    if (got == count) return DONE;
    if (ferror(file)) return find_fault(why, 0, "it cannot be read: %s", strerror(errno));
    return find_fault(why, 1, "not a field: it ends inside its %s, %zu bytes short", part, count - got);
}

static int read_shape(FILE *file, shape *s, fault *why) {
    uint8_t bytes[WORD_BYTES * LUP_MOST_RANK];
    char text[SHAPE_TEXT];
    if (read_part(file, "first 8 bytes", bytes, MAGIC_BYTES, why) != DONE) return MISUSED;
    if (memcmp(bytes, MAGIC, MAGIC_BYTES) != 0) return find_fault(why, 1, "not a field: it does not begin with " MAGIC);
    if (read_part(file, "rank", bytes, WORD_BYTES, why) != DONE) return MISUSED;
    uint64_t rank = word_at(bytes);
    if (rank > LUP_MOST_RANK) return find_fault(why, 1, "not a field: its rank is %" PRIu64 ", not 0..4", rank);
    s->rank = (size_t)rank;
    if (read_part(file, "extents", bytes, s->rank * WORD_BYTES, why) != DONE) return MISUSED;
    for (size_t axis = 0; axis < s->rank; axis++) {
        uint64_t extent = s->extents[axis] = word_at(bytes + axis * WORD_BYTES);
        if (extent < 1 || extent > LUP_MOST_NODE_ELEMENTS) return find_fault(why, 1, "not a field: its extent %zu is %" PRIu64 ", not 1..1048576", axis, extent);
    }
    if (element_count(s) > 0) return DONE;
    write_shape(s, text);
    return find_fault(why, 1, "not a field: its shape %s has over 1048576 elements", text);
}

int allocate_cells(size_t count, int64_t **values, uint8_t **flags) {
    size_t room = count > 0 ? count : 1;
    *values = room <= SIZE_MAX / sizeof **values ? malloc(room * sizeof **values) : NULL;
    *flags = malloc(room);
    if (*values != NULL && *flags != NULL) return 1;
    free(*values);
    free(*flags);
    *values = NULL, *flags = NULL;
    return 0;
}

/* The bounds, or nothing; after either the file ends. */
static int read_range(FILE *file, field *f, fault *why) {
    uint8_t bytes[RANGE_BYTES + 1];
    size_t got = fread(bytes, 1, sizeof bytes, file);
    if (ferror(file)) return find_fault(why, 0, "it cannot be read: %s", strerror(errno));
    if (got == 0) return DONE;
    if (got > RANGE_BYTES || memcmp(bytes, RANGE_MAGIC, got < MAGIC_BYTES ? got : MAGIC_BYTES) != 0)
        return find_fault(why, 1, "not a field: there are bytes after its last flag");
    if (got < RANGE_BYTES) return find_fault(why, 1, "not a field: it ends inside its bounds, %zu bytes short", RANGE_BYTES - got);
    f->ranged = 1;
    f->low = (int64_t)word_at(bytes + MAGIC_BYTES);
    f->high = (int64_t)word_at(bytes + MAGIC_BYTES + WORD_BYTES);
    if (f->low <= f->high) return DONE;
    return find_fault(why, 1, "not a field: its bounds are %" PRId64 "..%" PRId64 ", low above high", f->low, f->high);
}

/* The values and flags. The values' bytes are read into their own place and put in order there. */
static int read_cells(FILE *file, field *f, fault *why) {
    if (read_part(file, "values", (uint8_t *)f->values, f->count * sizeof *f->values, why) != DONE) return MISUSED;
    for (size_t k = 0; k < f->count; k++) f->values[k] = (int64_t)word_at((const uint8_t *)&f->values[k]);
    if (read_part(file, "flags", f->flags, f->count, why) != DONE) return MISUSED;
    for (size_t k = 0; k < f->count; k++)
        if (f->flags[k] > 1) return find_fault(why, 1, "not a field: the flag of element %zu is %u, neither 0 nor 1", k, (unsigned)f->flags[k]);
    return DONE;
}

int read_field(FILE *file, field *f, fault *why) {
    *f = (field){.count = 0};
    if (read_shape(file, &f->shape, why) != DONE) return MISUSED;
    f->count = element_count(&f->shape);
    if (!allocate_cells(f->count, &f->values, &f->flags)) return find_fault(why, 0, "there is no memory for %zu elements", f->count);
    if (read_cells(file, f, why) == DONE && read_range(file, f, why) == DONE) return DONE;
    free_field(f);
    return MISUSED;
}

void write_field(FILE *file, const field *f) {
    fwrite(MAGIC, 1, MAGIC_BYTES, file);
    put_word(file, f->shape.rank);
    for (size_t axis = 0; axis < f->shape.rank; axis++) put_word(file, f->shape.extents[axis]);
    for (size_t k = 0; k < f->count; k++) put_word(file, f->flags[k] == 1 ? (uint64_t)f->values[k] : 0);
    fwrite(f->flags, 1, f->count, file);
    if (!f->ranged) return;
    fwrite(RANGE_MAGIC, 1, MAGIC_BYTES, file);
    put_word(file, (uint64_t)f->low);
    put_word(file, (uint64_t)f->high);
}

void free_field(field *f) {
    free(f->values);
    free(f->flags);
    *f = (field){.count = 0};
}

field_range range_of(const field *f) {
    field_range r = {.known = 0};
    for (size_t k = 0; k < f->count; k++) {
        int64_t value = f->values[k];
        if (f->flags[k] == 0) continue;
        if (r.known == 0 || value < r.least) r.least = value;
        if (r.known == 0 || value > r.greatest) r.greatest = value;
        r.known++;
    }
    r.gaps = f->count - r.known;
    return r;
}
