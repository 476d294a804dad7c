// Rows are least if some flow with the balance of the weights has flow only on tight edges (duality). All least rows are then
// tight on the edges with flow, so the lowest are the fixpoint of relaxation from 0 over the edges and, backward, those with flow.
#include "check.h"
#include <string.h>

static long length_of(const Edge *e, const uint16_t *rows) { return (long)rows[e->to] - rows[e->from]; }

long total_of(Network g, const uint16_t *rows) {
  long total = 0;
  for (size_t i = 0; i < g.edges; i++) total += g.edge[i].weight * length_of(&g.edge[i], rows);
  return total;
}
int keeps_gaps(Network g, const uint16_t *rows) {
  for (size_t i = 0; i < g.edges; i++) if (length_of(&g.edge[i], rows) < (long)g.edge[i].gap) return 0;
  return 1;
}
static int is_balanced(Network g, const long *flow) {
  long excess[g.nodes];
  memset(excess, 0, sizeof excess);
  for (size_t i = 0; i < g.edges; i++) {
    long d = flow[i] - (long)g.edge[i].weight;
    if (flow[i] < 0) return 0;
    excess[g.edge[i].to] += d;
    excess[g.edge[i].from] -= d;
  }
  for (size_t v = 0; v < g.nodes; v++) if (excess[v] != 0) return 0;
  return 1;
}
static int is_tight(Network g, const uint16_t *rows, const long *flow) {
  for (size_t i = 0; i < g.edges; i++) if (flow[i] > 0 && length_of(&g.edge[i], rows) != (long)g.edge[i].gap) return 0;
  return 1;
}
static int lift(long *low, size_t v, long row) {
  if (low[v] >= row) return 0;
  low[v] = row;
  return 1;
}
static int lift_all(Network g, const long *flow, long *low) {
  int lifted = 0;
  for (size_t i = 0; i < g.edges; i++) {
    const Edge *e = &g.edge[i];
    lifted |= lift(low, e->to, low[e->from] + e->gap);
    if (flow[i] > 0) lifted |= lift(low, e->from, low[e->to] - e->gap);
  }
  return lifted;
}
// Asked only of feasible rows that are tight where there is flow: they bound the relaxation, so it ends.
static int is_lowest(Network g, const uint16_t *rows, const long *flow) {
  long low[g.nodes];
  memset(low, 0, sizeof low);
  while (lift_all(g, flow, low)) {}
  for (size_t v = 0; v < g.nodes; v++) if (rows[v] != low[v]) return 0;
  return 1;
}
const char *find_fault(Network g, const uint16_t *rows, const long *flow, long total) {
  if (!keeps_gaps(g, rows)) return "not feasible";
  if (total_of(g, rows) != total) return "total is not the peer's";
  if (!is_balanced(g, flow)) return "the peer's flow is not balanced";
  if (!is_tight(g, rows, flow)) return "not least: flow on an edge that is not tight";
  if (!is_lowest(g, rows, flow)) return "not lowest";
  return 0;
}
