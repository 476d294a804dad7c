#include "merged.h"

// The edge with the ends of another, or null.
static Edge *find_ends(Instance *g, const Edge *e) {
  for (size_t i = 0; i < g->edges; i++)
    if (g->edge[i].from == e->from && g->edge[i].to == e->to) return &g->edge[i];
  return NULL;
}
void merge_edges(const Instance *g, Instance *merged) {
  *merged = *g;
  merged->edges = 0;
  for (size_t i = 0; i < g->edges; i++) {
    const Edge *e = &g->edge[i];
    Edge *line = find_ends(merged, e);
    if (!line) {
      merged->edge[merged->edges++] = *e;
      continue;
    }
    if (line->gap < e->gap) line->gap = e->gap;
    line->weight += e->weight;
  }
}
void drop_repeats(Instance *g) {
  size_t edges = g->edges;
  g->edges = 0;
  for (size_t i = 0; i < edges; i++)
    if (!find_ends(g, &g->edge[i])) g->edge[g->edges++] = g->edge[i];
}
