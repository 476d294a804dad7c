// Edges that a chart draws as one line. All edges of an instance are of one firmness, so those with the same ends are.
#ifndef MERGED_H
#define MERGED_H
#include "instance.h"

// The lines of an instance as its edges: edges with the same ends are one, at the place of the first, with the largest gap and the sum of
// the weights, which a table need not take.
void merge_edges(const Instance *inst, Instance *merged);

// Takes out all but the first of edges with the same ends, so that a table is left in which there is nothing to merge.
void drop_repeats(Instance *inst);
#endif
