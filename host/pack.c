/* lup pack and lup unpack. */
#include "commands.h"
#include "message.h"
#include "output.h"
#include "table.h"

#include <inttypes.h>

#define WORD_TEXT 96

/* The word of a node that breaks a rule: the first that is refused so where all others but the operation are 0. */
static size_t refused_word(const int64_t *words, uint64_t number) {
    size_t k = 0;
    for (; k + 1 < LUP_NODE_WORDS; k++) {
        int64_t alone[LUP_NODE_WORDS] = {words[LUP_WORD_OPERATION]};
        alone[k] = words[k];
        if (lup_pack(alone, LUP_NODE_WORDS, NULL, 0).number == number) break;
    }
    return k;
}

/* A refusal of the packing: how many nodes there are where the length is wrong, else the word and its line. */
static int refuse_packing(const table *t, uint64_t number, uint64_t place) {
    char more[WORD_TEXT];
    if (number == LUP_REFUSED_LENGTH || place >= t->nodes) {
        snprintf(more, sizeof more, ": %zu nodes are read", t->nodes);
    } else {
        const int64_t *words = t->words + (size_t)place * LUP_NODE_WORDS;
        size_t word = refused_word(words, number);
        snprintf(more, sizeof more, ": word %zu is %" PRId64 " (line %zu)", word, words[word], t->lines[place]);
    }
    return refuse_table(t->name, t->words, number, place, more);
}

static int write_packed(const char *name, const table *t, const uint8_t *bytes, size_t count) {
    output o;
    if (open_output(name, &o) != DONE) return MISUSED;
    fwrite(bytes, 1, count, o.file);
    if (keep_output(&o) != DONE) return MISUSED;
    fprintf(told_on(name, NULL), "written: %s, %zu node%s in %zu bytes\n", name, t->nodes, t->nodes == 1 ? "" : "s", count);
    return finish_output();
}

int pack_command(arguments a) {
    option written = {.name = "-o", .takes_value = 1};
    table t;
    uint8_t bytes[LUP_MOST_PACKED_BYTES];
    int status = take_options(&a, &written, 1);
    if (status == DONE) status = expect_words(&a, 1, 1, "one TABLE");
    if (status != DONE) return status;
    if (written.value == NULL) return complain("pack: -o PLAN is not given; see lup pack --help");
    if (expect_apart(written.value, a.words[0]) != DONE || load_table(a.words[0], &t) != DONE) return MISUSED;
    lup_answer packed = lup_pack(t.words, t.nodes * LUP_NODE_WORDS, bytes, sizeof bytes);
    if (packed.number != LUP_ACCEPTED) return refuse_packing(&t, packed.number, packed.place);
    return write_packed(written.value, &t, bytes, (size_t)packed.count);
}

int unpack_command(arguments a) {
    option written = {.name = "-o", .takes_value = 1};
    plan p;
    output o;
    int status = take_options(&a, &written, 1);
    if (status == DONE) status = expect_words(&a, 1, 1, "one PLAN");
    if (status != DONE) return status;
    const char *name = written.value != NULL ? written.value : "-";
    if (expect_apart(name, a.words[0]) != DONE) return MISUSED;
    status = unpack_plan(a.words[0], &p);
    if (status != DONE) return status;
    if (open_output(name, &o) != DONE) return MISUSED;
    write_table(o.file, &p);
    if (keep_output(&o) != DONE) return MISUSED;
    if (written.value != NULL) fprintf(told_on(name, NULL), "written: %s, %zu node%s\n", name, p.nodes, p.nodes == 1 ? "" : "s");
    return finish_output();
}
