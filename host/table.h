/* Tables as text: a line a node, its 17 words as whole numbers with blanks between; '#' begins a comment. */
#ifndef TABLE_H
#define TABLE_H

#include "plan.h"

#include <stdio.h>

/* One more than a plan has: the library is handed all that is read, and refuses it. */
#define MOST_READ_NODES (LUP_MOST_NODES + 1)

/* A table as it was read; lines: where each node stands, counted from 1. */
typedef struct {
    const char *name;
    int64_t words[MOST_READ_NODES * LUP_NODE_WORDS];
    size_t nodes, lines[MOST_READ_NODES];
} table;

/* Reads the text of a table, up to its end or MOST_READ_NODES nodes. DONE, or MISUSED with a message that names file and line. */
int load_table(const char *name, table *t);

/* Writes the words of a plan's nodes as such a text; whether that worked is left in the file's state. */
void write_table(FILE *file, const plan *p);

#endif
