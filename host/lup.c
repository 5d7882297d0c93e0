/* lup: plans and fields from the command line, by the proved library. */
#include "commands.h"
#include "lupetzarin.h"
#include "message.h"
#include "source.h"

#include <stdio.h>
#include <string.h>

typedef struct {
    const char *name, *help;
    int (*call)(arguments a);
} command;

static const char WORDS[] = "Options may stand anywhere among the words (-oFILE or -o FILE, --node=1 or --node 1; long names in full); after '--' there\n"
                            "are none. '-' is standard input in place of one file that is read, and standard output in place of one that is written:\n"
                            "what was written is told on standard error then. './-' is a file of that name.\n";
static const char STATUSES[] = "Exit status: 0 done; 1 refused: by the library, with number, place and rule on standard error, or by run for too many missing\n"
                               "inputs; 2 misuse, a text that is no table (pack), or a file that cannot be read or written;\n"
                               "3 done, with inputs missing or damaged (run).\n";

static const command COMMANDS[] = {
    {"list",
     "lup list PLAN [--dot]\n\n"
     "Lists the nodes of a plan file: node, operation, type, device, low, high and shape; its last line is 'accepted' and the node count.\n"
     "A refused plan gives the one line 'refused N at P'.\n"
     "--dot   a graph for Graphviz instead (lup list bay.plan --dot | dot -Tsvg > bay.svg); nothing where the plan is refused\n",
     list_command},
    {"check",
     "lup check PLAN\n\n"
     "Says whether a plan is accepted, with the number of its nodes and of the elements of all nodes; else what it is refused for, and where.\n",
     check_command},
    {"run",
     "lup run PLAN INPUT... -o FIELD [--node N] [--missing N] [--damaged-as-gaps] [--report FILE]\n\n"
     "Runs a plan and writes the field of its last node. There is one input file for each PARAM, in the order of the PARAMs.\n"
     "An input file that does not exist is missing: it is read as gaps and named on standard error, and the status is 3. Where more are missing than\n"
     "may be, the status is 1 and nothing is written. Only a file whose folder is there can be missing: a folder that is not there, a link that leads\n"
     "nowhere, a file that cannot be read, and one that is no field of the PARAM's shape are errors with status 2.\n"
     "FIELD is written whole or not at all; it may be none of the files that are read.\n"
     "-o FIELD            the file to write\n"
     "--node N            the field of node N, counted from 0, instead of the last node's\n"
     "--missing N         at most N inputs may be missing; 1 where it is not given\n"
     "--damaged-as-gaps   an input that is there and is no field of the PARAM's shape is read as gaps and named, and counts as a missing one\n"
     "--report FILE       a report in JSON: plan, inputs (file, param, node, state read, missing or damaged, shape, elements, gaps) and output; written\n"
     "                    with FIELD or not at all; it may be neither FIELD nor a file that is read\n",
     run_command},
    {"lookup",
     "lup lookup PLAN NODE ELEMENT\n\n"
     "Says where an element of a node comes from: it is followed back through PERMUTE, FLIP, RESHAPE, EXPAND, PAD, SHRINK and LOAD to the first\n"
     "other node, or to the PAD that put a gap there. Nodes, elements, rows and columns are counted from 0.\n",
     lookup_command},
    {"show",
     "lup show FIELD [--svg FILE | --png FILE] [--low N] [--high N] [--title TEXT] [--unit TEXT]\n\n"
     "Draws a field, rows down and columns across, two characters a cell: shades from the low end of the scale to the high one, // for a\n"
     "gap. The scale is the bounds that lup run wrote with the field; without them, the least known number to the greatest.\n"
     "Fields of rank 3 and 4 are drawn as one picture after another. Wide fields: lup show bay.field | less -S\n"
     "--svg FILE     an SVG picture in FILE instead\n"
     "--png FILE     a PNG picture of the cells alone in FILE instead, gaps in red; its scale is told on standard output\n"
     "--low N        the scale begins at N: smaller numbers are drawn like N, and counted under the picture\n"
     "--high N       the scale ends at N: greater numbers are drawn like N, and counted under the picture\n"
     "--title TEXT   over the picture, instead of the file's name and the shape\n"
     "--unit TEXT    what the numbers are, beside the scale\n",
     show_command},
    {"pack",
     "lup pack TABLE -o PLAN\n\n"
     "Packs a table into a plan file. TABLE is a text: a line a node, its 17 words as whole numbers with blanks between; '#' begins a comment,\n"
     "and empty lines are passed over. A line with more or fewer words, or with a word that is no whole number of 64 bits, is named, with status 2.\n"
     "What the library refuses is told with status 1: 1 for no node or over 256 (257 are read and no more), then, the nodes in turn, 2 for an\n"
     "operation not 0..23, 3 for an unused word that is not 0 and 25 for a used word not in -17179869184..17179869183. Nothing else is asked of the\n"
     "plan: lup check does that.\n"
     "A plan with one of the operations 21 (FILL), 22 (KNOWN) and 23 (STACK) is written as a file of the second edition, which programs older than\n"
     "5.1 refuse (23); any other plan is written as a file of the first. Every command reads both.\n"
     "-o PLAN   the file to write\n",
     pack_command},
    {"unpack",
     "lup unpack PLAN [-o TABLE]\n\n"
     "Writes the table of a plan file as a text that lup pack takes: a line a node, its 17 words. A plan that lup check refuses is unpacked too.\n"
     "-o TABLE   the file to write; without it the text goes to standard output\n",
     unpack_command},
};
#define COMMAND_COUNT (sizeof COMMANDS / sizeof COMMANDS[0])

static void write_usage(FILE *file) {
    fputs("usage:\n", file);
    for (size_t k = 0; k < COMMAND_COUNT; k++) fprintf(file, "    %.*s\n", (int)strcspn(COMMANDS[k].help, "\n"), COMMANDS[k].help);
    fputs("    lup --help, lup COMMAND --help (or -h), lup --version\n", file);
}

static int write_help(const command *c) {
    if (c == NULL) write_usage(stdout);
    printf("%s\n%s%s", c != NULL ? c->help : "", WORDS, STATUSES);
    return finish_output();
}

static int write_version(void) {
    puts("lup " LUP_VERSION_TEXT);
    return finish_output();
}

int main(int argc, char **argv) {
    if (!hold_places()) return MISUSED;
    if (argc < 2) {
        complain("no command is given");
        write_usage(stderr);
        return MISUSED;
    }
    if (strcmp(argv[1], "-h") == 0 || strcmp(argv[1], "--help") == 0) return write_help(NULL);
    if (strcmp(argv[1], "--version") == 0) return write_version();
    for (size_t k = 0; k < COMMAND_COUNT; k++) {
        arguments a = {.command = argv[1], .words = argv + 2, .count = (size_t)argc - 2};
        if (strcmp(argv[1], COMMANDS[k].name) != 0) continue;
        int status = COMMANDS[k].call(a);
        return status == HELP_ASKED ? write_help(&COMMANDS[k]) : status;
    }
    complain("there is no command '%s'", argv[1]);
    write_usage(stderr);
    return MISUSED;
}
