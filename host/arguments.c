#include "arguments.h"

#include "message.h"
#include "text.h"

#include <getopt.h>
#include <inttypes.h>
#include <string.h>

/* What getopt_long gives for a word that is no option, where its text begins with '-'. */
#define PLAIN_WORD 1
#define FIRST_LONG 256

/* A command's options as getopt_long takes them. */
typedef struct {
    char shorts[4 + 2 * MOST_OPTIONS];
    struct option longs[MOST_OPTIONS + 2];
} forms;

/* '-' gives the words in their order, whatever the environment says of POSIX; ':' tells a value that is not there from an option that is not. */
static forms forms_of(const option *options, size_t noptions) {
    forms f = {.shorts = "-:h", .longs = {{.name = "help", .val = 'h'}}};
    size_t nshorts = strlen(f.shorts), nlongs = 1;
    for (size_t k = 0; k < noptions && k < MOST_OPTIONS; k++) {
        const option *o = &options[k];
        if (o->name[1] == '-') {
            f.longs[nlongs++] = (struct option){.name = o->name + 2, .has_arg = o->takes_value, .val = FIRST_LONG + (int)k};
        } else {
            f.shorts[nshorts++] = o->name[1];
            if (o->takes_value) f.shorts[nshorts++] = ':';
        }
    }
    return f;
}

/* How much of a word is the option's name: '--node' of '--node=1', '-o' of '-oFILE'. */
static size_t name_length(const char *word) {
    if (word[1] == '-') return strcspn(word, "=");
    return (unsigned char)word[1] < 0x80 ? 2 : strlen(word);
}

static int is_name(const char *name, const char *word, size_t length) { return strlen(name) == length && memcmp(name, word, length) == 0; }

/* By the whole name: getopt_long would take the beginning of one for it. */
static option *find_option(option *options, size_t noptions, const char *word, size_t length) {
    for (size_t k = 0; k < noptions; k++)
        if (is_name(options[k].name, word, length)) return &options[k];
    return NULL;
}

static int refuse_option(const arguments *a, const char *word, size_t length) {
    int number = word[1] >= '0' && word[1] <= '9';
    return complain("%s: there is no option %.*s%s; see lup %s --help", a->command, (int)(number ? strlen(word) : length), word,
                    number ? ", and no number here is below 0" : "", a->command);
}

/* One option, by its word and what getopt_long gave for it. */
static int take_option(const arguments *a, const char *word, int code, option *options, size_t noptions) {
    size_t length = name_length(word);
    int help = is_name("-h", word, length) || is_name("--help", word, length);
    option *o = find_option(options, noptions, word, length);
    if (o == NULL && !help) return refuse_option(a, word, length);
    if (code == '?') return complain("%s: %.*s takes no value; see lup %s --help", a->command, (int)length, word, a->command);
    if (help) return HELP_ASKED;
    if (o->value != NULL) return complain("%s: %s is given twice", a->command, o->name);
    if (code == ':') return complain("%s: nothing follows %s; see lup %s --help", a->command, o->name, a->command);
    o->value = o->takes_value ? optarg : o->name;
    return DONE;
}

/* The words that are kept move to the front; getopt_long does not look back at them. */
int take_options(arguments *a, option *options, size_t noptions) {
    forms f = forms_of(options, noptions);
    char **all = a->words - 1;
    int count = (int)a->count + 1, code = 0;
    size_t kept = 0;
    optind = 1, opterr = 0;
    while (code != -1) {
        const char *word = optind < count ? all[optind] : "";
        code = getopt_long(count, all, f.shorts, f.longs, NULL);
        int status = code == -1 || code == PLAIN_WORD ? DONE : take_option(a, word, code, options, noptions);
        if (status != DONE) return status;
        if (code == PLAIN_WORD) a->words[kept++] = optarg;
    }
    size_t rest = (size_t)(count - optind);
    memmove(a->words + kept, all + optind, rest * sizeof *all);
    a->count = kept + rest;
    return DONE;
}

int expect_words(const arguments *a, size_t least, size_t most, const char *wanted) {
    if (a->count >= least && a->count <= most) return DONE;
    return complain("%s: wanted %s, and %zu given; see lup %s --help", a->command, wanted, a->count, a->command);
}

int read_number(const arguments *a, const char *what, const char *word, uint64_t last, uint64_t *number) {
    if (read_digits(word, strlen(word), UINT64_MAX, number)) return DONE;
    return complain("%s: %s '%s' is no whole number 0..%" PRIu64, a->command, what, word, last);
}
