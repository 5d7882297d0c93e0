/* The words of a command line. */
#ifndef ARGUMENTS_H
#define ARGUMENTS_H

#include <stddef.h>
#include <stdint.h>

/* How many options a command can have, -h and --help not counted. */
#define MOST_OPTIONS 8

/* name: '-o' or '--node'. value: NULL where the option was not given; its own name where it takes none. */
typedef struct {
    const char *name;
    int takes_value;
    const char *value;
} option;

/* A command's name and its words, the options among them until they are taken out; a word stands before the first of them. */
typedef struct {
    const char *command;
    char **words;
    size_t count;
} arguments;

/* Takes the options out of the words; after '--' there are none. DONE; HELP_ASKED where -h or --help is met; MISUSED with a message. */
int take_options(arguments *a, option *options, size_t noptions);

/* DONE where so many words are left, 'wanted' saying which; else MISUSED with a message. */
int expect_words(const arguments *a, size_t least, size_t most, const char *wanted);

/* Reads a whole number of 64 bits in decimal digits. DONE, or MISUSED with a message that begins with 'what' and says 0..last; a number over last
   that has 64 bits is read. */
int read_number(const arguments *a, const char *what, const char *word, uint64_t last, uint64_t *number);

#endif
