/* The joining plan: twelve strips of one bay are padded into it and overlaid, their seams are added and halved, and the bay is reduced to rows. */
#ifndef JOIN_H
#define JOIN_H

#include "plain_run.h"
#include "plans.h"

void join_build(plan *p);

/* Input: strips as given by fill_input, then the known field of strip numbers. */
void join_input(const plan *p, unsigned gaps, int64_t *values, uint8_t *flags);

/* All nodes but the PARAMs in plain C; halved and taken modulo 4 by division, or by shift and mask as the plan's numbers allow. */
void join_plain_divided(const plan *p, cells all);
void join_plain_shifted(const plan *p, cells all);

#endif
