#include "drawing.h"

static int length_of(const Drawing *d, const Edge *e) { return d->row[e->to] - d->row[e->from]; }

int is_feasible(const Instance *g, const Drawing *d) {
  for (size_t i = 0; i < g->edges; i++)
    if (length_of(d, &g->edge[i]) < (int)g->edge[i].gap) return 0;
  return 1;
}
long count_total(const Instance *g, const Drawing *d) {
  long total = 0;
  for (size_t i = 0; i < g->edges; i++) total += (long)g->edge[i].weight * length_of(d, &g->edge[i]);
  return total;
}
long count_points(const Instance *g, const Drawing *d) {
  long points = g->nodes;
  for (size_t i = 0; i < g->edges; i++) points += length_of(d, &g->edge[i]) - 1;
  return points;
}
// Of two edges.
static long cross(const Instance *g, const Drawing *d, size_t i, size_t j) {
  const Edge *a = &g->edge[i], *b = &g->edge[j];
  int a_top = d->row[a->from], b_top = d->row[b->from];
  int first = a_top > b_top ? a_top : b_top, last = d->row[a->to] < d->row[b->to] ? d->row[a->to] : d->row[b->to];
  long crossings = 0;
  for (int r = first; r < last; r++) {
    int above = d->place[i][r - a_top] - d->place[j][r - b_top], below = d->place[i][r + 1 - a_top] - d->place[j][r + 1 - b_top];
    crossings += (above < 0 && below > 0) || (above > 0 && below < 0);
  }
  return crossings;
}
long count_crossings(const Instance *g, const Drawing *d) {
  long crossings = 0;
  for (size_t i = 0; i < g->edges; i++)
    for (size_t j = i + 1; j < g->edges; j++) crossings += cross(g, d, i, j);
  return crossings;
}
