/* The report of lup run: JSON. */
#include "job.h"
#include "text.h"

#include <inttypes.h>

static const char *const STATES[] = {[READ] = "read", [MISSING] = "missing", [DAMAGED] = "damaged"};

/* A JSON text. A byte that is no part of a UTF-8 character becomes the character for such bytes, U+FFFD. */
static void put_text(FILE *file, const char *text) {
    const unsigned char *c = (const unsigned char *)text;
    fputc('"', file);
    while (*c != '\0') {
        size_t length = character_length(c);
        if (length == 0) fputs("\\ufffd", file);
        else if (*c == '"' || *c == '\\') fprintf(file, "\\%c", *c);
        else if (*c < 0x20 || *c == 0x7f) fprintf(file, "\\u%04x", (unsigned)*c);
        else fwrite(c, 1, length, file);
        c += length > 0 ? length : 1;
    }
    fputc('"', file);
}

/* What is said of every field: shape, elements, gaps. */
static void put_field(FILE *file, const field *f) {
    fputs("\"shape\": [", file);
    for (size_t axis = 0; axis < f->shape.rank; axis++) fprintf(file, "%s%" PRIu64, axis > 0 ? ", " : "", f->shape.extents[axis]);
    fprintf(file, "], \"elements\": %zu, \"gaps\": %zu", f->count, range_of(f).gaps);
}

static void put_input(FILE *file, const job *j, const input *in) {
    field f = {.shape = in->facts.shape, .count = in->facts.count, .values = j->values + in->start, .flags = j->flags + in->start};
    fputs("    {\"file\": ", file);
    put_text(file, in->file);
    fprintf(file, ", \"param\": %" PRId64 ", \"node\": %zu, \"state\": \"%s\", ", slot_of(j, in), in->node, STATES[in->state]);
    put_field(file, &f);
    fputc('}', file);
}

void write_report(FILE *file, const job *j, const field *result) {
    fputs("{\n  \"plan\": ", file);
    put_text(file, j->plan.name);
    fputs(",\n  \"inputs\": [", file);
    for (size_t k = 0; k < j->ninputs; k++) {
        fputs(k > 0 ? ",\n" : "\n", file);
        put_input(file, j, &j->inputs[k]);
    }
    fputs("\n  ],\n  \"output\": {\"file\": ", file);
    put_text(file, j->written);
    fprintf(file, ", \"node\": %zu, \"operation\": \"%s\", ", j->node, operation_name(word_of(&j->plan, j->node, 0)));
    put_field(file, result);
    fputs("}\n}\n", file);
}
