/* Plan files: read, checked by the library, and the wording of its refusals. */
#ifndef PLAN_H
#define PLAN_H

#include "lupetzarin.h"
#include "shape.h"

/* A plan as the library unpacked it and, where it was checked, derived it; refused: number and place, 0 and 0 where it was accepted. */
typedef struct {
    const char *name;
    int64_t table[LUP_MOST_NODES * LUP_NODE_WORDS], derived[LUP_MOST_NODES * LUP_DERIVED_WORDS];
    size_t nodes;
    lup_answer refused;
} plan;

/* What is known of one node. */
typedef struct {
    int64_t operation, dtype, device, low, high;
    shape shape;
    size_t count;
} node_facts;

/* Reads and checks a plan file. DONE; REFUSED or MISUSED with a message. */
int load_plan(const char *name, plan *p);

/* Reads and unpacks a plan file; nothing is derived of it, and it need not be one that is accepted. DONE; REFUSED or MISUSED with a message. */
int unpack_plan(const char *name, plan *p);

/* Words the refusal of a call on the plan; gives REFUSED. */
int refuse(const plan *p, uint64_t number, uint64_t place);

/* The same of a call on a table, which has the node where one is refused; name: the file that it was read from; more: what follows the words of the rule. */
int refuse_table(const char *name, const int64_t *table, uint64_t number, uint64_t place, const char *more);

/* Words of the rule that a refusal's number stands for. */
const char *rule_words(uint64_t number);

const char *operation_name(int64_t operation);
const char *dtype_name(int64_t dtype);

node_facts facts_of(const plan *p, size_t node);

/* A word of a node's 17. */
int64_t word_of(const plan *p, size_t node, size_t word);

/* The sources of a node of a plan that was checked: how many words from word 1 on are. */
size_t source_count(const plan *p, size_t node);

/* The elements of all nodes. */
size_t total_count(const plan *p);

#endif
