/* Bytes as text. */
#ifndef TEXT_H
#define TEXT_H

#include <stddef.h>
#include <stdint.h>

/* The bytes of the UTF-8 character that begins here, 1 to 4; 0 where none does. The text ends with a 0. */
size_t character_length(const unsigned char *c);

/* White space, or what is no control character. */
int is_printed(unsigned char c);

/* Whether so many characters are decimal digits of a number of at most 'most', which is 9 or more. */
int read_digits(const char *word, size_t length, uint64_t most, uint64_t *number);

/* Whether so many characters are a whole number from -9223372036854775808 to 9223372036854775807 in decimal digits, with '-' where it is below 0. */
int read_whole(const char *word, size_t length, int64_t *number);

/* Whether so many bytes, with a 0 after them, look like the text of a plan: UTF-8 that can be printed, blanks and new lines, and a '=' or '#'. */
int looks_like_plan_text(const unsigned char *bytes, size_t count);

#endif
