// A soft edge is turned where a way of kept edges leads from its head to its tail, so one can be made to turn only where a way joins its
// ends already. A depth-first tree gives such ways: every other edge joins a node to one that the tree reaches from it. So the tree's
// edges are written first and lead away from its root, and of the others as many as are wanted are written towards it.
#include "soft.h"

typedef struct {
  size_t visited, place[YUVATONDRO_MAX_STEPS];  // the place of a node in the order of visits, from 1; 0 before its visit
  int in_tree[YUVATONDRO_MAX_EDGES];
} Search;

static unsigned other_end(const Edge *e, size_t v) { return e->from == v ? e->to : e->from; }
static void turn(Edge *e) {
  unsigned from = e->from;
  e->from = e->to;
  e->to = from;
}

static void visit(const Instance *g, size_t v, Search *s) {
  s->place[v] = ++s->visited;
  for (size_t i = 0; i < g->edges; i++) {
    const Edge *e = &g->edge[i];
    if ((e->from != v && e->to != v) || s->place[other_end(e, v)] != 0) continue;
    s->in_tree[i] = 1;
    visit(g, other_end(e, v), s);
  }
}
// The edges of the tree, or all others, each away from the root; the edges are added to `out`.
static void take_edges(const Instance *g, const Search *s, int in_tree, Instance *out) {
  for (size_t i = 0; i < g->edges; i++) {
    Edge e = g->edge[i];
    if (s->in_tree[i] != in_tree) continue;
    if (s->place[e.from] > s->place[e.to]) turn(&e);
    out->edge[out->edges++] = e;
  }
}

// Whether a way over kept edges leads from one node to another; only the first `edges` are looked at. Plain, so that it is easy to trust.
static int leads(const Instance *g, const int *kept, size_t edges, size_t from, size_t to) {
  int reached[YUVATONDRO_MAX_STEPS] = { 0 }, grows = 1;
  reached[from] = 1;
  while (grows) {
    grows = 0;
    for (size_t i = 0; i < edges; i++) {
      const Edge *e = &g->edge[i];
      if (!kept[i] || !reached[e->from] || reached[e->to]) continue;
      reached[e->to] = grows = 1;
    }
  }
  return reached[to];
}
static void settle(SoftInstance *soft) {
  int kept[YUVATONDRO_MAX_EDGES];
  const Instance *g = &soft->written;
  soft->settled = *g;
  soft->turned = 0;
  for (size_t i = 0; i < g->edges; i++) {
    kept[i] = !leads(g, kept, i, g->edge[i].to, g->edge[i].from);
    if (kept[i]) continue;
    turn(&soft->settled.edge[i]);
    soft->turned++;
  }
}

void make_half_turned(SoftInstance *soft, size_t shape, size_t nodes, size_t edges, uint64_t seed) {
  static Instance g;
  Search s = { 0 };
  make_shape(&g, shape, nodes, edges, seed);
  for (size_t v = 0; v < g.nodes; v++) if (s.place[v] == 0) visit(&g, v, &s);
  soft->written = g;
  soft->written.edges = 0;
  take_edges(&g, &s, 1, &soft->written);
  size_t first = soft->written.edges, wanted = g.edges / 2;
  take_edges(&g, &s, 0, &soft->written);
  for (size_t i = first; i < g.edges; i++) {  // `wanted` of those that are left, spread over them at random
    if (random_below(g.edges - i) >= wanted) continue;
    turn(&soft->written.edge[i]);
    wanted--;
  }
  settle(soft);
}
void make_random_ways(SoftInstance *soft, size_t shape, size_t nodes, size_t edges, uint64_t seed) {
  make_shape(&soft->written, shape, nodes, edges, seed);
  for (size_t i = 0; i < soft->written.edges; i++) if (random_below(2)) turn(&soft->written.edge[i]);
  settle(soft);
}
