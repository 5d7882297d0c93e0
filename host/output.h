/* Files that are written whole or not at all. */
#ifndef OUTPUT_H
#define OUTPUT_H

#include <signal.h>
#include <stdio.h>

#define TEMPORARY_TEXT 64

/* file: where to write. It has a temporary name in the folder of the file's own until it is kept; last: the part of the own name after the folder. */
typedef struct {
    const char *name, *last;
    char temporary[TEMPORARY_TEXT];
    int folder;
    FILE *file;
    sigset_t signals;
} output;

/* DONE, or MISUSED with a message: nothing is there then. Signals that end the program wait until the file is kept or dropped.
   The mode of a file that is there is kept. '-' is standard output, which is neither named nor removed. */
int open_output(const char *name, output *o);

/* Brings the file to the disk and gives it its name. DONE, or MISUSED with a message: the temporary file is gone, and what had the name stays
   unless the message says that only the folder could not be brought to the disk. */
int keep_output(output *o);

/* keep_output in four steps, for two files that are written together. Brings the file to the disk; DONE, or MISUSED with a message. */
int settle_output(output *o);

/* Gives a settled file its name; DONE, or MISUSED with a message. */
int name_output(output *o);

/* Brings the folder with the file's name to the disk; DONE, or MISUSED with a message. */
int settle_name(const output *o);

/* Ends the writing whether or not it went well: a file that has not got its name is removed. The file that was opened last ends first. */
void end_output(output *o);

/* Whether two names to be written are of one file, there or not yet; '-' is the file that standard output goes to. */
int written_as_one(const char *a, const char *b);

/* Where it is told what was written: on standard error where one of the names, NULL for none, is '-'. */
FILE *told_on(const char *a, const char *b);

/* Whether the directory that a name stands in is there and can be looked into. */
int has_directory(const char *name);

/* DONE where the two names are of different files, there or not yet, '-' being that of standard output and input; else MISUSED with a message. */
int expect_apart(const char *written, const char *read);

#endif
