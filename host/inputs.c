/* The inputs of lup run: read, or taken as gaps where they are missing or damaged. */
#include "job.h"
#include "message.h"
#include "output.h"
#include "source.h"

#include <errno.h>
#include <inttypes.h>
#include <string.h>
#include <sys/stat.h>

int64_t slot_of(const job *j, const input *in) { return word_of(&j->plan, in->node, LUP_WORD_NUMBER); }

static int find_wrong_shape(const job *j, input *in, const shape *found) {
    char wanted[SHAPE_TEXT], text[SHAPE_TEXT];
    write_shape(found, text);
    write_shape(&in->facts.shape, wanted);
    return find_fault(&in->why, 1, "its shape is %s, and PARAM %" PRId64 " (node %zu) wants %s", text, slot_of(j, in), in->node, wanted);
}

/* A file that is there has the PARAM's shape. */
static int copy_input(job *j, input *in, FILE *file) {
    field f;
    if (read_field(file, &f, &in->why) != DONE) return MISUSED;
    int status = same_shape(&f.shape, &in->facts.shape) ? DONE : find_wrong_shape(j, in, &f.shape);
    if (status == DONE) {
        memcpy(j->values + in->start, f.values, f.count * sizeof *f.values);
        memcpy(j->flags + in->start, f.flags, f.count);
    }
    free_field(&f);
    return status;
}

static int take_gaps(job *j, input *in, input_state state) {
    memset(j->values + in->start, 0, in->facts.count * sizeof *j->values);
    memset(j->flags + in->start, 0, in->facts.count);
    in->state = state;
    return DONE;
}

/* A file that could not be opened is missing only where its folder is there and has nothing of that name, not even a link that leads nowhere. */
static int take_missing(job *j, input *in, int why) {
    struct stat there;
    if (why != ENOENT) return complain("%s: it cannot be opened: %s", in->file, strerror(why));
    if (lstat(in->file, &there) == 0) return complain("%s: it cannot be opened: it is a link that leads nowhere", in->file);
    if (!has_directory(in->file)) return complain("%s: it cannot be opened: its folder is not there", in->file);
    return take_gaps(j, in, MISSING);
}

static int read_input(job *j, input *in) {
    FILE *file = open_source(in->file);
    if (file == NULL) return take_missing(j, in, errno);
    int status = copy_input(j, in, file);
    close_source(file);
    if (status == DONE) return DONE;
    if (in->why.damaged && j->damaged_as_gaps) return take_gaps(j, in, DAMAGED);
    return complain("%s: %s", in->file, in->why.text);
}

int find_inputs(job *j, char **files, size_t nfiles) {
    for (size_t node = 0; node < j->plan.nodes; node++) {
        node_facts f = facts_of(&j->plan, node);
        j->ncells += f.count;
        if (f.operation != LUP_OP_PARAM || j->ninputs == LUP_MOST_PARAMS) continue;
        const char *file = j->ninputs < nfiles ? files[j->ninputs] : "";
        j->inputs[j->ninputs++] = (input){.node = node, .start = j->ninput_cells, .facts = f, .file = file};
        j->ninput_cells += f.count;
    }
    if (j->ninputs == nfiles) return DONE;
    return complain("run: %s has %zu PARAM%s, and %zu input file%s given", j->plan.name, j->ninputs, j->ninputs == 1 ? "" : "s", nfiles,
                    nfiles == 1 ? " is" : "s are");
}

int read_inputs(job *j) {
    for (size_t k = 0; k < j->ninputs; k++)
        if (read_input(j, &j->inputs[k]) != DONE) return MISUSED;
    return DONE;
}

size_t absent_inputs(const job *j) {
    size_t absent = 0;
    for (size_t k = 0; k < j->ninputs; k++) absent += j->inputs[k].state != READ;
    return absent;
}

static void name_absent(const job *j, const input *in) {
    char text[SHAPE_TEXT];
    write_shape(&in->facts.shape, text);
    if (in->state == MISSING) fprintf(stderr, "missing: %s (PARAM %" PRId64 ", %s): read as gaps\n", in->file, slot_of(j, in), text);
    if (in->state == DAMAGED) fprintf(stderr, "damaged: %s (PARAM %" PRId64 ", %s): %s: read as gaps\n", in->file, slot_of(j, in), text, in->why.text);
}

int tell_absent(const job *j) {
    size_t absent = absent_inputs(j);
    for (size_t k = 0; k < j->ninputs; k++) name_absent(j, &j->inputs[k]);
    if (ferror(stderr)) return MISUSED;
    if (absent <= j->most_absent) return DONE;
    complain("run: %zu of %zu input%s %s missing%s, and at most %" PRIu64 " may be; nothing was written (--missing %zu allows so many)", absent, j->ninputs,
             j->ninputs == 1 ? "" : "s", absent == 1 ? "is" : "are", j->damaged_as_gaps ? " or damaged" : "", j->most_absent, absent);
    return REFUSED;
}
