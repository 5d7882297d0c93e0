#include "base64.h"

/* Four characters for the three bytes held; '=' for those that are not there. */
static void write_held(base64 *b) {
    static const char DIGITS[] = "ABCDEFGHIJKLMNOPQRSTUVWXYZabcdefghijklmnopqrstuvwxyz0123456789+/";
    for (size_t k = 0; k < 4; k++) fputc(k <= b->held ? DIGITS[b->bits >> (18 - 6 * k) & 63] : '=', b->file);
    b->bits = 0;
    b->held = 0;
}

static void take_base64(void *to, const uint8_t *bytes, size_t count) {
    base64 *b = to;
    for (size_t k = 0; k < count; k++) {
        b->bits |= (uint32_t)bytes[k] << (16 - 8 * b->held);
        b->held++;
        if (b->held == 3) write_held(b);
    }
}

byte_sink base64_sink(base64 *b) { return (byte_sink){.take = take_base64, .to = b}; }

void end_base64(base64 *b) {
    if (b->held > 0) write_held(b);
}
