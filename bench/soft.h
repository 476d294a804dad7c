// Instances whose edges are all soft, each with the same edges as they are kept or turned.
#ifndef SOFT_H
#define SOFT_H
#include "instance.h"

typedef struct {
  Instance written, settled;
  size_t turned;
} SoftInstance;

// The edges of a shape, each written the way that makes about half of them turned.
void make_half_turned(SoftInstance *soft, size_t shape, size_t nodes, size_t edges, uint64_t seed);

// The edges of a shape in their own order, each written one way or the other at random.
void make_random_ways(SoftInstance *soft, size_t shape, size_t nodes, size_t edges, uint64_t seed);
#endif
