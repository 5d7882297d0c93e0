#include "text.h"

#include <string.h>

size_t character_length(const unsigned char *c) {
    if (c[0] < 0x80) return 1;
    size_t length = c[0] < 0xc2 ? 0 : c[0] < 0xe0 ? 2 : c[0] < 0xf0 ? 3 : c[0] < 0xf5 ? 4 : 0;
    for (size_t k = 1; k < length; k++)
        if ((c[k] & 0xc0) != 0x80) return 0;
    /* Not in the shortest form, a half of a pair of UTF-16, above 10FFFF. */
    int wrong = (c[0] == 0xe0 && c[1] < 0xa0) || (c[0] == 0xf0 && c[1] < 0x90) || (c[0] == 0xed && c[1] > 0x9f) || (c[0] == 0xf4 && c[1] > 0x8f);
    return wrong ? 0 : length;
}

int is_printed(unsigned char c) { return (c >= '\t' && c <= '\r') || (c >= ' ' && c != 0x7f); }

int read_digits(const char *word, size_t length, uint64_t most, uint64_t *number) {
    int fits = length > 0;
    *number = 0;
    for (size_t k = 0; k < length && fits; k++) {
        uint64_t digit = (uint64_t)(word[k] - '0');
        fits = word[k] >= '0' && word[k] <= '9' && *number <= (most - digit) / 10;
        *number = fits ? 10 * *number + digit : 0;
    }
    return fits;
}

int read_whole(const char *word, size_t length, int64_t *number) {
    size_t negative = length > 0 && word[0] == '-';
    uint64_t sum;
    int fits = read_digits(word + negative, length - negative, (uint64_t)INT64_MAX + negative, &sum);
    /* -2^63 has no positive counterpart: it is one less than the negative of 2^63 - 1. */
    *number = !negative ? (int64_t)sum : sum > 0 ? -(int64_t)(sum - 1) - 1 : 0;
    return fits;
}

int looks_like_plan_text(const unsigned char *bytes, size_t count) {
    size_t at = 0;
    while (at < count) {
        size_t length = is_printed(bytes[at]) ? character_length(bytes + at) : 0;
        /* A text that is read only in part may end inside a character. */
        if (length == 0 && (bytes[at] < 0x80 || count - at > 3)) return 0;
        at += length > 0 ? length : 1;
    }
    return memchr(bytes, '=', count) != NULL || memchr(bytes, '#', count) != NULL;
}
