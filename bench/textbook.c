// The network simplex on the rows themselves, after Gansner, Koutsofios, North and Vo (1993), written plainly: rows by longest path,
// a tree of tight edges, then exchanges. A tree edge with a negative cut value leaves; of the edges that join the two sides the other
// way the one with least slack enters. After each exchange the tree is walked anew and all cut values are found anew. The search for
// the edge that leaves goes round the edges. An exchange at slack 0 changes nothing but the tree, and such exchanges may go round
// for ever: after as many of them in a row as there are nodes, the lowest numbers are taken (Bland's rule), until rows move again.
// Nodes of each part of a chart have a tree of their own; together they are the forest.
#include "textbook.h"
#include <limits.h>
#include <string.h>

enum { NONE = -1 };

typedef struct {
  const Instance *g;
  int nodes, edges;
  int start[YUVATONDRO_MAX_STEPS + 1], touching[2 * YUVATONDRO_MAX_EDGES];  // the edges at each node
  int row[YUVATONDRO_MAX_STEPS];
  char in_tree[YUVATONDRO_MAX_EDGES], reached[YUVATONDRO_MAX_STEPS];
  int root[YUVATONDRO_MAX_STEPS], roots;                                    // a node of each part
  int order[YUVATONDRO_MAX_STEPS], place[YUVATONDRO_MAX_STEPS];             // the nodes as the walk of the forest meets them: parents first
  int last[YUVATONDRO_MAX_STEPS];                                           // the place behind the last node below a node
  int up[YUVATONDRO_MAX_STEPS];                                             // the edge to the parent
  long net[YUVATONDRO_MAX_STEPS], cut[YUVATONDRO_MAX_EDGES];                // weight out of a node less into it; cut values of tree edges
  int next, idle_run;
} Forest;

static int other_end(const Edge *e, int v) { return (int)e->from == v ? (int)e->to : (int)e->from; }
static int slack_of(const Forest *f, int i) {
  const Edge *e = &f->g->edge[i];
  return f->row[e->to] - f->row[e->from] - (int)e->gap;
}

// ---- edges by node, rows by longest path ----

static void list_edges(Forest *f) {
  int fill[YUVATONDRO_MAX_STEPS];
  memset(f->start, 0, sizeof f->start);
  memset(f->net, 0, sizeof f->net);
  for (int i = 0; i < f->edges; i++) {
    const Edge *e = &f->g->edge[i];
    f->start[e->from + 1]++;
    f->start[e->to + 1]++;
    f->net[e->from] += e->weight;
    f->net[e->to] -= e->weight;
  }
  for (int v = 0; v < f->nodes; v++) f->start[v + 1] += f->start[v];
  for (int v = 0; v < f->nodes; v++) fill[v] = f->start[v];
  for (int i = 0; i < f->edges; i++) {
    f->touching[fill[f->g->edge[i].from]++] = i;
    f->touching[fill[f->g->edge[i].to]++] = i;
  }
}
// A node whose edges from above are all done has its row.
static void settle(Forest *f, int v, int *waiting, int *queue, int *count) {
  for (int k = f->start[v]; k < f->start[v + 1]; k++) {
    const Edge *e = &f->g->edge[f->touching[k]];
    if ((int)e->from != v) continue;
    int low = f->row[v] + (int)e->gap;
    if (f->row[e->to] < low) f->row[e->to] = low;
    if (--waiting[e->to] == 0) queue[(*count)++] = e->to;
  }
}
static void place_by_longest_path(Forest *f) {
  int waiting[YUVATONDRO_MAX_STEPS] = { 0 }, queue[YUVATONDRO_MAX_STEPS], count = 0;
  for (int i = 0; i < f->edges; i++) waiting[f->g->edge[i].to]++;
  for (int v = 0; v < f->nodes; v++) {
    f->row[v] = 0;
    if (waiting[v] == 0) queue[count++] = v;
  }
  for (int k = 0; k < count; k++) settle(f, queue[k], waiting, queue, &count);
}

// ---- the first tree ----

// Takes in what tight edges join to the nodes of the queue from `from` on. The queue holds the tree.
static int reach_tight(Forest *f, int *queue, int from, int count) {
  for (int k = from; k < count; k++) {
    int v = queue[k];
    for (int j = f->start[v]; j < f->start[v + 1]; j++) {
      int i = f->touching[j], w = other_end(&f->g->edge[i], v);
      if (f->reached[w] || slack_of(f, i) != 0) continue;
      f->reached[w] = f->in_tree[i] = 1;
      queue[count++] = w;
    }
  }
  return count;
}
// Of the edges with one end in the tree that with least slack.
static int find_nearest(const Forest *f, const int *queue, int count) {
  int best = NONE;
  for (int k = 0; k < count; k++)
    for (int j = f->start[queue[k]]; j < f->start[queue[k] + 1]; j++) {
      int i = f->touching[j];
      if (f->reached[other_end(&f->g->edge[i], queue[k])]) continue;
      if (best == NONE || slack_of(f, i) < slack_of(f, best)) best = i;
    }
  return best;
}
static void grow_tree(Forest *f, int root) {
  int queue[YUVATONDRO_MAX_STEPS] = { root }, count = 1, done = 0, i;
  f->root[f->roots++] = root;
  f->reached[root] = 1;
  for (;;) {
    count = reach_tight(f, queue, done, count);
    if ((i = find_nearest(f, queue, count)) == NONE) return;
    int d = f->reached[f->g->edge[i].from] ? slack_of(f, i) : -slack_of(f, i);
    for (int k = 0; k < count; k++) f->row[queue[k]] += d;
    done = 0;  // other edges may have become tight as well
  }
}
static void grow_forest(Forest *f) {
  memset(f->reached, 0, sizeof f->reached);
  memset(f->in_tree, 0, sizeof f->in_tree);
  f->roots = 0;
  for (int v = 0; v < f->nodes; v++) if (!f->reached[v]) grow_tree(f, v);
}

// ---- the walk and the cut values ----

static int walk_from(Forest *f, int v, int edge, int count) {
  f->place[v] = count;
  f->order[count++] = v;
  f->up[v] = edge;
  for (int j = f->start[v]; j < f->start[v + 1]; j++) {
    int i = f->touching[j];
    if (f->in_tree[i] && i != edge) count = walk_from(f, other_end(&f->g->edge[i], v), i, count);
  }
  return f->last[v] = count;
}
static void walk(Forest *f) {
  int count = 0;
  for (int k = 0; k < f->roots; k++) count = walk_from(f, f->root[k], NONE, count);
}
// The weight that leaves the nodes below a tree edge less what enters them; edges among those nodes cancel out.
static void find_cuts(Forest *f) {
  long below[YUVATONDRO_MAX_STEPS];
  memcpy(below, f->net, sizeof below);
  for (int k = f->nodes; k-- > 0;) {
    int v = f->order[k], i = f->up[v];
    if (i == NONE) continue;
    f->cut[i] = (int)f->g->edge[i].from == v ? below[v] : -below[v];
    below[other_end(&f->g->edge[i], v)] += below[v];
  }
}

// ---- exchanges ----

static int find_leaving(const Forest *f) {
  int first = f->idle_run > f->nodes ? 0 : f->next;
  for (int k = 0; k < f->edges; k++) {
    int i = (first + k) % f->edges;
    if (f->in_tree[i] && f->cut[i] < 0) return i;
  }
  return NONE;
}
static int lower_end(const Forest *f, int i) {
  const Edge *e = &f->g->edge[i];
  return f->up[e->from] == i ? (int)e->from : (int)e->to;
}
static int is_below(const Forest *f, int v, int top) { return f->place[v] >= f->place[top] && f->place[v] < f->last[top]; }

// Of the edges against the one that leaves, from its head's side to its tail's, the first with least slack.
static int find_entering(const Forest *f, int leaving) {
  int top = lower_end(f, leaving), from_below = (int)f->g->edge[leaving].to == top, best = NONE, least = INT_MAX;
  for (int i = 0; i < f->edges; i++) {
    const Edge *e = &f->g->edge[i];
    if (is_below(f, e->from, top) != from_below || is_below(f, e->to, top) == from_below) continue;
    int slack = slack_of(f, i);
    if (slack >= least) continue;
    best = i;
    least = slack;
  }
  return best;
}
static int exchange(Forest *f, int leaving, int entering) {
  int top = lower_end(f, leaving), d = slack_of(f, entering), down = (int)f->g->edge[leaving].to == top ? d : -d;
  for (int k = f->place[top]; k < f->last[top]; k++) f->row[f->order[k]] += down;
  f->in_tree[leaving] = 0;
  f->in_tree[entering] = 1;
  f->next = leaving + 1;
  f->idle_run = d == 0 ? f->idle_run + 1 : 0;
  walk(f);
  find_cuts(f);
  return d == 0;
}

// ---- the answer ----

static void hand_out_part(const Forest *f, int root, TextbookAnswer *answer) {
  int least = INT_MAX;
  for (int k = f->place[root]; k < f->last[root]; k++) if (f->row[f->order[k]] < least) least = f->row[f->order[k]];
  for (int k = f->place[root]; k < f->last[root]; k++) answer->rows[f->order[k]] = f->row[f->order[k]] - least;
}
void solve_by_textbook(const Instance *g, TextbookAnswer *answer) {
  Forest f = { .g = g, .nodes = g->nodes, .edges = g->edges };
  int i;
  list_edges(&f);
  place_by_longest_path(&f);
  grow_forest(&f);
  walk(&f);
  find_cuts(&f);
  answer->exchanges = answer->idle = 0;
  while ((i = find_leaving(&f)) != NONE) {
    answer->idle += exchange(&f, i, find_entering(&f, i));
    answer->exchanges++;
  }
  for (int k = 0; k < f.roots; k++) hand_out_part(&f, f.root[k], answer);
  for (i = 0; i < f.edges; i++) answer->flow[i] = f.in_tree[i] ? f.cut[i] : 0;
}
