/* The commands of lup: each takes its words and gives the exit status. */
#ifndef COMMANDS_H
#define COMMANDS_H

#include "arguments.h"
#include "plan.h"

int list_command(arguments a);
int check_command(arguments a);
int run_command(arguments a);
int lookup_command(arguments a);
int show_command(arguments a);
int pack_command(arguments a);
int unpack_command(arguments a);

/* Writes a plan as a Graphviz graph to standard output. */
void write_dot(const plan *p);

#endif
