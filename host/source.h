/* Files that are read; '-' is standard input. */
#ifndef SOURCE_H
#define SOURCE_H

#include <stdio.h>

/* Whether a name stands for standard input or output. */
int is_standard(const char *name);

/* NULL with errno where it cannot be opened. */
FILE *open_source(const char *name);

void close_source(FILE *file);

/* Takes the places of standard streams that are closed, so that no file that is opened later gets one; using them still fails. 0 where that cannot be. */
int hold_places(void);

/* DONE where at most one of the names is '-'; else MISUSED with a message of the command. */
int expect_one_standard(const char *command, char *const *names, size_t count);

#endif
