/* lup run. */
#include "commands.h"
#include "job.h"
#include "message.h"
#include "output.h"
#include "source.h"

#include <inttypes.h>
#include <stdlib.h>

/* The PARAM that holds a position of the input. */
static const input *input_at(const job *j, uint64_t position) {
    const input *in = &j->inputs[0];
    for (size_t k = 1; k < j->ninputs; k++)
        if (j->inputs[k].start <= position) in = &j->inputs[k];
    return in;
}

/* 15 and 16 are about one position of the input: its file, its PARAM and the element there. */
static int refuse_position(const job *j, uint64_t number, uint64_t position) {
    const input *in = input_at(j, position);
    size_t element = (size_t)position - in->start;
    char place[PLACE_TEXT], limits[PLACE_TEXT] = "";
    write_place(&in->facts.shape, element, place);
    if (number == LUP_REFUSED_VALUE) snprintf(limits, sizeof limits, ": %" PRId64 ", not %" PRId64 "..%" PRId64, j->values[position], in->facts.low, in->facts.high);
    complain("%s: refused %" PRIu64 " at element %zu%s%s%s of PARAM %" PRId64 " (node %zu of %s, input position %" PRIu64 "): %s%s", in->file, number,
             element, place[0] != '\0' ? " (" : "", place, place[0] != '\0' ? ")" : "", slot_of(j, in), in->node, j->plan.name, position,
             rule_words(number), limits);
    return REFUSED;
}

/* The library's run; after it the elements of every node are there. */
static int compute(job *j) {
    lup_answer a = lup_run(j->plan.table, j->plan.nodes * LUP_NODE_WORDS, j->values, j->ninput_cells, j->flags, j->ninput_cells, j->out_values, j->ncells,
                           j->out_flags, j->ncells);
    if (a.number == LUP_ACCEPTED) return DONE;
    if ((a.number == LUP_REFUSED_FLAG || a.number == LUP_REFUSED_VALUE) && a.place < j->ninput_cells) return refuse_position(j, a.number, a.place);
    return refuse(&j->plan, a.number, a.place);
}

/* A node's part of the results, with the bounds that the check derived for it. */
static field result_of(const job *j) {
    size_t start = 0;
    for (size_t node = 0; node < j->node; node++) start += facts_of(&j->plan, node).count;
    node_facts f = facts_of(&j->plan, j->node);
    return (field){.shape = f.shape,
                   .count = f.count,
                   .values = j->out_values + start,
                   .flags = j->out_flags + start,
                   .ranged = 1,
                   .low = f.low,
                   .high = f.high};
}

/* The two files, report NULL where there is none, are on the disk before either has its name. */
static int keep_files(output *written, output *report) {
    if (settle_output(written) != DONE || (report != NULL && settle_output(report) != DONE)) return MISUSED;
    if (name_output(written) != DONE || (report != NULL && name_output(report) != DONE)) return MISUSED;
    int settled = settle_name(written);
    return report != NULL && settle_name(report) != DONE ? MISUSED : settled;
}

/* The field, and the report in its open file. */
static int write_files(const job *j, const field *f, output *report) {
    output o;
    if (open_output(j->written, &o) != DONE) return MISUSED;
    write_field(o.file, f);
    if (report != NULL) write_report(report->file, j, f);
    int status = keep_files(&o, report);
    end_output(&o);
    return status;
}

static int write_result(const job *j) {
    field f = result_of(j);
    output report;
    char text[SHAPE_TEXT];
    if (j->report != NULL && open_output(j->report, &report) != DONE) return MISUSED;
    int status = write_files(j, &f, j->report != NULL ? &report : NULL);
    if (j->report != NULL) end_output(&report);
    if (status != DONE) return status;
    write_shape(&f.shape, text);
    FILE *told = told_on(j->written, j->report);
    fprintf(told, "written: %s, node %zu (%s) of shape %s, %zu of %zu cells are gaps\n", j->written, j->node,
            operation_name(word_of(&j->plan, j->node, 0)), text, range_of(&f).gaps, f.count);
    if (j->report != NULL) fprintf(told, "written: %s, the report\n", j->report);
    return finish_output();
}

/* What a run reads and writes, before anything is opened. */
static int expect_names(const arguments *a, const job *j) {
    if (expect_one_standard(a->command, a->words, a->count) != DONE) return MISUSED;
    if (j->report != NULL && written_as_one(j->report, j->written)) return complain("%s: the field and the report are one file; nothing was done", j->report);
    for (size_t k = 0; k < a->count; k++) {
        if (a->words[k][0] == '\0') return complain("run: a file name is empty, word %zu after run", k + 1);
        if (expect_apart(j->written, a->words[k]) != DONE) return MISUSED;
        if (j->report != NULL && expect_apart(j->report, a->words[k]) != DONE) return MISUSED;
    }
    return DONE;
}

/* The node whose field is asked for: the last one, or that of --node. */
static int choose_node(const arguments *a, job *j, const char *word) {
    uint64_t last = j->plan.nodes - 1, node = last;
    if (word != NULL && read_number(a, "--node", word, last, &node) != DONE) return MISUSED;
    if (node > last) return complain("run: --node %" PRIu64 ": the nodes of %s are 0..%" PRIu64, node, j->plan.name, last);
    j->node = (size_t)node;
    return DONE;
}

static int make_room(job *j) {
    if (allocate_cells(j->ninput_cells, &j->values, &j->flags) && allocate_cells(j->ncells, &j->out_values, &j->out_flags)) return DONE;
    return complain("%s: there is no memory for its %zu elements", j->plan.name, j->ncells);
}

/* The inputs that are read as gaps are told before anything is written: where they cannot be, nothing is. */
static int run_job(const arguments *a, job *j, const char *node) {
    int status = load_plan(a->words[0], &j->plan);
    if (status != DONE) return status;
    if (choose_node(a, j, node) != DONE || find_inputs(j, a->words + 1, a->count - 1) != DONE) return MISUSED;
    if (make_room(j) != DONE || read_inputs(j) != DONE) return MISUSED;
    status = tell_absent(j);
    if (status == DONE) status = compute(j);
    if (status == DONE) status = write_result(j);
    return status == DONE && absent_inputs(j) > 0 ? INCOMPLETE : status;
}

enum { WRITTEN, NODE, ABSENT, DAMAGED_AS_GAPS, REPORT, OPTION_COUNT };

int run_command(arguments a) {
    option options[OPTION_COUNT] = {[WRITTEN] = {.name = "-o", .takes_value = 1},
                                    [NODE] = {.name = "--node", .takes_value = 1},
                                    [ABSENT] = {.name = "--missing", .takes_value = 1},
                                    [DAMAGED_AS_GAPS] = {.name = "--damaged-as-gaps"},
                                    [REPORT] = {.name = "--report", .takes_value = 1}};
    job j = {.most_absent = 1};
    int status = take_options(&a, options, OPTION_COUNT);
    if (status == DONE) status = expect_words(&a, 1, 1 + LUP_MOST_PARAMS, "one PLAN and at most 16 INPUTs");
    if (status != DONE) return status;
    if (options[WRITTEN].value == NULL) return complain("run: -o FIELD is not given; see lup run --help");
    if (options[ABSENT].value != NULL && read_number(&a, "--missing", options[ABSENT].value, UINT64_MAX, &j.most_absent) != DONE) return MISUSED;
    j.written = options[WRITTEN].value;
    j.report = options[REPORT].value;
    j.damaged_as_gaps = options[DAMAGED_AS_GAPS].value != NULL;
    if (expect_names(&a, &j) != DONE) return MISUSED;
    status = run_job(&a, &j, options[NODE].value);
    free(j.values);
    free(j.flags);
    free(j.out_values);
    free(j.out_flags);
    return status;
}
