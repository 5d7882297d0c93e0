/* The same work in plain C, for comparison: written for speed and without proofs. */
#ifndef PLAIN_H
#define PLAIN_H

#include <stddef.h>
#include <stdint.h>

typedef struct {
    uint64_t number, place, count;
} plain_answer;

plain_answer plain_unpack(const uint8_t *bytes, size_t nbytes, int64_t *table, size_t nwords);
plain_answer plain_pack(const int64_t *table, size_t nwords, uint8_t *bytes, size_t nbytes);
plain_answer plain_check(const int64_t *table, size_t nwords, int64_t *derived, size_t nderived);

#endif
