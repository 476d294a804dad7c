// Every setting: minlen = gap, weight = weight. ORDER_ONLY and NO_CURVES: empty labels, so that no text is measured.
// ORDER_ONLY: phase=2, dot ends after ranks and order, which is all that our chart has, and notes them at its nodes. NO_CURVES:
// splines=none, so dot also finds coordinates, but routes no edge. AS_IT_COMES: nothing else is set.
#define _DEFAULT_SOURCE
#include "graphviz.h"
#include <graphviz/gvc.h>
#include <stdio.h>
#include <stdlib.h>

static GVC_t *context(void) {  // one for the whole run: plugins are loaded once
  static GVC_t *gvc;
  if (!gvc) {
    gvc = gvContext();
    agseterr(AGERR);  // no warnings
  }
  return gvc;
}
const char *dot_version(void) { return gvcVersion(context()); }

typedef struct { Agraph_t *graph; Agnode_t *node[YUVATONDRO_MAX_STEPS]; Agedge_t *edge[YUVATONDRO_MAX_EDGES]; } Built;

static void set_number(Agedge_t *e, Agsym_t *name, unsigned k) {
  char text[16];
  snprintf(text, sizeof text, "%u", k);
  agxset(e, name, text);
}
static void set_up(Agraph_t *graph, int setting) {
  if (setting == AS_IT_COMES) return;
  agattr(graph, AGNODE, "label", "");
  if (setting == ORDER_ONLY) agattr(graph, AGRAPH, "phase", "2");
  if (setting == NO_CURVES) agattr(graph, AGRAPH, "splines", "none");
}
static void build(const Instance *g, int setting, Built *b) {
  b->graph = agopen("", Agdirected, NULL);
  set_up(b->graph, setting);
  Agsym_t *minlen = agattr(b->graph, AGEDGE, "minlen", "1"), *weight = agattr(b->graph, AGEDGE, "weight", "1");
  for (size_t v = 0; v < g->nodes; v++) {
    char name[24];
    snprintf(name, sizeof name, "%zu", v);
    b->node[v] = agnode(b->graph, name, 1);
  }
  for (size_t i = 0; i < g->edges; i++) {
    const Edge *e = &g->edge[i];
    b->edge[i] = agedge(b->graph, b->node[e->from], b->node[e->to], NULL, 1);
    set_number(b->edge[i], minlen, e->gap);
    set_number(b->edge[i], weight, e->weight);
  }
}
// dot leads an edge through dummies of its own.
static int read_edge(Agedge_t *edge, int length, int *place) {
  Agedge_t *piece = ED_to_virt(edge);
  place[0] = ND_order(agtail(edge));
  for (int k = 1; k <= length; k++) {
    if (!piece) return 0;
    Agnode_t *v = aghead(piece);
    place[k] = ND_order(v);
    piece = k < length ? ND_out(v).list[0] : NULL;
  }
  return place[length] == ND_order(aghead(edge));
}
static int read_drawing(const Instance *g, const Built *b, Drawing *d) {
  for (size_t v = 0; v < g->nodes; v++) d->row[v] = ND_rank(b->node[v]);
  for (size_t i = 0; i < g->edges; i++) {
    int length = d->row[g->edge[i].to] - d->row[g->edge[i].from];
    if (length < 1 || length >= MAX_ROWS || !read_edge(b->edge[i], length, d->place[i])) return 0;
  }
  return 1;
}

int draw_by_dot(const Instance *g, int setting, DotTimes *times, Drawing *d) {
  Built b;
  srand(1);  // dot is to draw the same each time, whatever ran before
  srand48(1);
  double start = now_us();
  build(g, setting, &b);
  double built = now_us();
  int good = gvLayout(context(), b.graph, "dot") == 0;
  double done = now_us();
  if (good && d) good = read_drawing(g, &b, d);
  double read = now_us();
  gvFreeLayout(context(), b.graph);
  agclose(b.graph);
  times->layout_us = done - built;
  times->apart_us = built - start + (now_us() - read);
  return good;
}
