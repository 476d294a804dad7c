// A drawing as both programs give it: rows of the nodes, and where each edge stands in the rows that it meets. An edge is a line of the
// table, but for what is asked of rows alone, which may as well be asked of the table's own edges.
#ifndef DRAWING_H
#define DRAWING_H
#include "instance.h"

enum { MAX_ROWS = YUVATONDRO_MAX_ROW + 1 };

typedef struct {
  int row[YUVATONDRO_MAX_STEPS];
  int place[YUVATONDRO_MAX_EDGES][MAX_ROWS];  // of an edge: its position in the k-th row from its tail on, both ends included
} Drawing;

// 1 where every edge is at least as long as its gap.
int is_feasible(const Instance *inst, const Drawing *d);

// Weight times length, over the edges.
long count_total(const Instance *inst, const Drawing *d);

// Nodes, and a dummy for each row that an edge passes.
long count_points(const Instance *inst, const Drawing *d);

// Pairs of edges, in each pair of neighbouring rows, that change sides. Those that share a place do not cross.
long count_crossings(const Instance *inst, const Drawing *d);
#endif
