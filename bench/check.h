// Is an answer right? Shown by a certificate, not by trust in either program.
#ifndef CHECK_H
#define CHECK_H
#include "instance.h"

// The total of rows: weight times length, over the edges.
long total_of(Network network, const uint16_t *rows);

// 1 where every edge is at least as long as its gap.
int keeps_gaps(Network network, const uint16_t *rows);

// Null where rows are feasible, least and lowest; else what is wrong. `flow` and `total` are the peer's.
const char *find_fault(Network network, const uint16_t *rows, const long *flow, long total);
#endif
