/* A run: the plan, its inputs, and what is said of them. */
#ifndef JOB_H
#define JOB_H

#include "field.h"
#include "plan.h"

/* What became of an input file: it was read; or it is not there, or no field of the wanted shape, and was read as gaps. */
typedef enum { READ, MISSING, DAMAGED } input_state;

/* One PARAM: its node, the file given for it, where its elements begin in the input; why: of a damaged file. */
typedef struct {
    size_t node, start;
    node_facts facts;
    const char *file;
    input_state state;
    fault why;
} input;

/* The plan, its inputs end to end, the elements of all nodes; the files to write, no report where it is NULL; how many inputs may be read as gaps. */
typedef struct {
    plan plan;
    input inputs[LUP_MOST_PARAMS];
    size_t ninputs, ninput_cells, ncells, node;
    int64_t *values, *out_values;
    uint8_t *flags, *out_flags;
    const char *written, *report;
    uint64_t most_absent;
    int damaged_as_gaps;
} job;

/* The slot of an input's PARAM. */
int64_t slot_of(const job *j, const input *in);

/* The PARAMs of the plan, each with its file, and the elements of all nodes counted. DONE, or MISUSED with a message. */
int find_inputs(job *j, char **files, size_t nfiles);

/* Reads every input. DONE, or MISUSED with a message: an input can be neither read nor taken as gaps. */
int read_inputs(job *j);

/* How many inputs were read as gaps, missing and damaged ones together. */
size_t absent_inputs(const job *j);

/* Names the inputs that were read as gaps on standard error. DONE; REFUSED with a message where they are too many; MISUSED where they cannot be told. */
int tell_absent(const job *j);

/* Writes the report of a run as JSON; whether that worked is left in the file's state. */
void write_report(FILE *file, const job *j, const field *result);

#endif
