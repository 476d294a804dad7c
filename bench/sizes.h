// What is measured of each shape: sizes and seeds. The only list of them: bench/instructions asks once.c for the sizes, and bench/plot
// finds them in what bench/run prints.
#ifndef SIZES_H
#define SIZES_H
#include "yuvatondro.h"

enum { EDGES_A_NODE = 3, SEEDS = 2 };  // at most so many edges a node; one instance a seed

static const size_t node_counts[] = { 8, 16, 32, 64, YUVATONDRO_MAX_STEPS };
enum { SIZES = sizeof node_counts / sizeof *node_counts };
_Static_assert(EDGES_A_NODE * YUVATONDRO_MAX_STEPS <= YUVATONDRO_MAX_EDGES, "the largest size is no table");

// From this size on results are shown in full: the largest that tables had up to version 1.3, by which earlier results can be compared,
// and the largest that they have.
enum { FIRST_SHOWN = SIZES - 2 };

// The place of a node count in the list, or SIZES where it is not there.
static inline int find_size(size_t nodes) {
  int k = 0;
  while (k < SIZES && node_counts[k] != nodes) k++;
  return k;
}
#endif
