// Instances of many shapes. Edges run from a lower place to a higher one in a hidden order of the nodes, so none forms a loop;
// at the end nodes are renumbered and edges are shuffled, so that no order of theirs helps.
#include "instance.h"
#include <stdio.h>

static uint64_t state;

static uint64_t next_random(void) {  // splitmix64
  uint64_t z = state += 0x9E3779B97F4A7C15u;
  z = (z ^ z >> 30) * 0xBF58476D1CE4E5B9u;
  z = (z ^ z >> 27) * 0x94D049BB133111EBu;
  return z ^ z >> 31;
}
static size_t below(size_t k) { return next_random() % k; }
size_t random_below(size_t k) { return below(k); }
static size_t between(size_t lo, size_t hi) { return lo + below(hi - lo + 1); }

// An edge between two places, where they differ and there is room for it.
static void add(Instance *g, size_t room, size_t a, size_t b) {
  if (a == b || g->edges == room) return;
  g->edge[g->edges++] = (Edge){ a < b ? a : b, a < b ? b : a, between(1, 4), below(256) };
}
static void fill(Instance *g, size_t m) {
  while (g->edges < m) add(g, m, below(g->nodes), below(g->nodes));
}
static void across(Instance *g, size_t m) {  // from the first half to the second
  size_t half = g->nodes / 2;
  while (g->edges < m) add(g, m, below(half), half + below(g->nodes - half));
}

static void sparse(Instance *g, size_t m) { fill(g, m * 2 / 3); }
static void dense(Instance *g, size_t m) { g->nodes /= 2; fill(g, m); }
static void chain(Instance *g, size_t m) {
  for (size_t v = 0; v + 1 < g->nodes; v++) add(g, m, v, v + 1);
  fill(g, m);
}
static void grid(Instance *g, size_t m) {
  size_t w = 1;
  while ((w + 1) * (w + 1) <= g->nodes) w++;
  for (size_t v = 0; v < g->nodes; v++) {
    int inner = v % w + 1 < w;
    if (inner && v + 1 < g->nodes) add(g, m, v, v + 1);
    if (v + w < g->nodes) add(g, m, v, v + w);
    if (inner && v + w + 1 < g->nodes) add(g, m, v, v + w + 1);
  }
}
static void layers(Instance *g, size_t m) {
  size_t w = g->nodes < 16 ? g->nodes / 2 : 8;
  while (g->edges < m) {
    size_t v = below(g->nodes - w);
    add(g, m, v, (v / w + 1) * w + below(w));
  }
}
static void bipartite(Instance *g, size_t m) { across(g, m); }
static void stars(Instance *g, size_t m) {
  while (g->edges < m) add(g, m, below(g->nodes / 8) * 8 + 4, below(g->nodes));
}
static void tree(Instance *g, size_t m) {  // and long edges from its first quarter to its last
  size_t quarter = g->nodes / 4;
  for (size_t v = 1; v < g->nodes; v++) add(g, m, below(v), v);
  while (g->edges < m) add(g, m, below(quarter), g->nodes - 1 - below(quarter));
}
static void parallel(Instance *g, size_t m) {
  while (g->edges < m) {
    size_t a = below(g->nodes), b = below(g->nodes);
    for (size_t k = between(2, 6); k > 0; k--) add(g, m, a, b);
  }
}
static void parts(Instance *g, size_t m) {
  size_t size = g->nodes / 4;
  while (g->edges < m) {
    size_t start = below(4) * size;
    add(g, m, start + below(size), start + below(size));
  }
}
static void heavytail(Instance *g, size_t m) {
  fill(g, m);
  for (size_t i = 0; i < g->edges; i++) g->edge[i].weight = below(16) ? below(3) : between(200, 255);
}
static void zeros(Instance *g, size_t m) {
  fill(g, m);
  for (size_t i = 0; i < g->edges; i++) if (below(4)) g->edge[i].weight = 0;
}
static void gaps4(Instance *g, size_t m) {
  fill(g, m);
  for (size_t i = 0; i < g->edges; i++) g->edge[i].gap = 4;
}
static void fan(Instance *g, size_t m) {
  size_t half = g->nodes / 2;
  for (size_t v = 1; v < g->nodes; v++) add(g, m, v <= half ? 0 : v - half, v);
  across(g, m);
}
static void ladder(Instance *g, size_t m) {
  size_t half = g->nodes / 2;
  for (size_t v = 0; v + 1 < half; v++) {
    add(g, m, v, v + 1);
    add(g, m, half + v, half + v + 1);
  }
  across(g, m);
}
static void local(Instance *g, size_t m) {
  while (g->edges < m) {
    size_t v = below(g->nodes - 4);
    add(g, m, v, v + between(1, 4));
  }
}

static const struct { const char *name; void (*make)(Instance *, size_t); } shapes[] = {
  { "sparse", sparse }, { "dense", dense }, { "chain", chain }, { "grid", grid }, { "layers", layers }, { "bipartite", bipartite },
  { "stars", stars }, { "tree", tree }, { "parallel", parallel }, { "parts", parts }, { "heavytail", heavytail },
  { "zeros", zeros }, { "gaps4", gaps4 }, { "fan", fan }, { "ladder", ladder }, { "local", local },
};
size_t shape_count(void) { return sizeof shapes / sizeof *shapes; }

static void renumber(Instance *g) {
  size_t number[YUVATONDRO_MAX_STEPS];
  for (size_t v = 0; v < g->nodes; v++) number[v] = v;
  for (size_t v = g->nodes; v-- > 1;) {
    size_t k = below(v + 1), x = number[v];
    number[v] = number[k];
    number[k] = x;
  }
  for (size_t i = 0; i < g->edges; i++) {
    g->edge[i].from = number[g->edge[i].from];
    g->edge[i].to = number[g->edge[i].to];
  }
}
static void shuffle(Instance *g) {
  for (size_t i = g->edges; i-- > 1;) {
    size_t k = below(i + 1);
    Edge x = g->edge[i];
    g->edge[i] = g->edge[k];
    g->edge[k] = x;
  }
}
void make_shape(Instance *g, size_t shape, size_t nodes, size_t edges, uint64_t seed) {
  state = seed * 1000003 + shape * 7919 + nodes;
  g->nodes = nodes;
  g->edges = 0;
  shapes[shape].make(g, edges);
  renumber(g);
  shuffle(g);
  snprintf(g->name, MAX_NAME, "%s %d", shapes[shape].name, (int)seed);
}
void repeat_edges(Instance *g, size_t times) {
  size_t once = g->edges;
  for (size_t k = 1; k < times; k++)
    for (size_t i = 0; i < once; i++)
      g->edge[g->edges++] = (Edge){ g->edge[i].from, g->edge[i].to, between(1, 4), below(256) };
  shuffle(g);
}
static int is_there(const Instance *g, size_t from, size_t to) {
  size_t i = 0;
  while (i < g->edges && (g->edge[i].from != from || g->edge[i].to != to)) i++;
  return i < g->edges;
}
// An edge to a node from any node so many layers above, where it is a new one.
static void add_over(Instance *g, size_t width, size_t over, size_t to) {
  size_t from = (to / width - over) * width + below(width);
  if (!is_there(g, from, to)) g->edge[g->edges++] = (Edge){ from, to, 1, below(256) };
}
void make_layers(Instance *g, size_t layers, size_t edges, size_t long_edges, uint64_t seed) {
  size_t width = YUVATONDRO_MAX_STEPS / layers;
  state = seed * 1000003 + layers * 7919 + edges;
  g->nodes = layers * width;
  g->edges = 0;
  for (size_t v = width; v < g->nodes; v++) add_over(g, width, 1, v);
  while (g->edges < edges - long_edges) add_over(g, width, 1, between(width, g->nodes - 1));
  while (g->edges < edges) add_over(g, width, 2, between(2 * width, g->nodes - 1));
  renumber(g);
  shuffle(g);
  snprintf(g->name, MAX_NAME, "%zu layers %d", layers, (int)seed);
}
void make_two_rows(Instance *g, size_t upper, size_t lower, size_t edges, uint64_t seed) {
  state = seed * 1000003 + upper * 7919 + edges;
  g->nodes = upper + lower;
  g->edges = 0;
  for (size_t v = upper; v < g->nodes; v++) g->edge[g->edges++] = (Edge){ below(upper), v, 1, below(256) };
  while (g->edges < edges) {
    size_t from = below(upper), to = upper + below(lower);
    if (!is_there(g, from, to)) g->edge[g->edges++] = (Edge){ from, to, 1, below(256) };
  }
  renumber(g);
  shuffle(g);
  snprintf(g->name, MAX_NAME, "%zu over %zu, %d", upper, lower, (int)seed);
}
void make_tall(Instance *g, uint64_t seed) {
  enum { SIDE = 32, ROW = SIDE - 1, LINKS = 8, FIRST = LINKS + 1, LAST = FIRST + SIDE - 1 };  // rows of the chain: 0, 4, to 28, and 30
  _Static_assert(SIDE * SIDE == YUVATONDRO_MAX_POINTS, "not as many points as a chart may have");
  state = seed * 1000003;
  g->nodes = LAST + SIDE;
  g->edges = 0;
  for (size_t v = 0; v < LINKS; v++) g->edge[g->edges++] = (Edge){ v, v + 1, v + 1 < LINKS ? 4 : ROW - 1 - 4 * (LINKS - 1), 1 };
  for (size_t v = LAST; v < g->nodes; v++) g->edge[g->edges++] = (Edge){ LINKS, v, 1, 1 };
  for (size_t v = FIRST; v < LAST; v++) g->edge[g->edges++] = (Edge){ v, LAST + below(SIDE), 1, 0 };
  renumber(g);
  shuffle(g);
  snprintf(g->name, MAX_NAME, "tall, %d", (int)seed);
}
void make_wide(Instance *g, size_t upper, size_t lower, uint64_t seed) {
  size_t pairs = upper * lower;  // of which each is as likely as any other to have an edge
  state = seed * 1000003 + pairs * 7919 + upper;
  g->nodes = upper + lower;
  g->edges = 0;
  for (size_t pair = 0; pair < pairs; pair++) {
    if (below(pairs - pair) >= YUVATONDRO_MAX_EDGES - g->edges) continue;
    g->edge[g->edges++] = (Edge){ .from = pair / lower, .to = upper + pair % lower, .gap = 2, .weight = below(256) };
  }
  renumber(g);
  shuffle(g);
  snprintf(g->name, MAX_NAME, "%zu over %zu, %d", upper, lower, (int)seed);
}
