// The peer that one writes oneself: the network simplex of layered drawing as the papers give it.
#ifndef TEXTBOOK_H
#define TEXTBOOK_H
#include "instance.h"

typedef struct {
  uint16_t rows[YUVATONDRO_MAX_STEPS];  // feasible and of least total, each part of the chart from row 0 on; not always the lowest
  long flow[YUVATONDRO_MAX_EDGES];      // the cut values of the last tree, 0 off the tree: a flow that shows the rows to be least
  unsigned exchanges, idle;             // exchanges of a tree edge, and those of them that left the rows as they were
} TextbookAnswer;

// The instance has no loop.
void solve_by_textbook(const Instance *inst, TextbookAnswer *answer);
#endif
