// The library's method in C, to count its pushes and raises: the library itself does not tell them. It reads the tables that the
// benchmark writes and judges nothing.
// Links: link k > 0 is edge k - 1, link 0 is none; next[a] <= a, so every list ends.
#include "model.h"
#include "yuvatondro.h"

typedef uint64_t u;
enum { NODES = YUVATONDRO_MAX_STEPS, EDGES = YUVATONDRO_MAX_EDGES };
static const u FAR = UINT64_MAX, HIGH = (u)1 << 44;

typedef struct { u edge, room; } Exit;                   // an edge that leaves the marked set, and its room
typedef struct { u at, link; } Cursor;                   // a place in the queue, and a link of that node's list (0: its start)
typedef struct { Cursor outs, ins; Exit exit; } Search;

typedef struct {
  u n, m;
  u from[EDGES], to[EDGES], gap[EDGES], weight[EDGES];
  u y[NODES], flow[EDGES], sup[NODES], dem[NODES];
  u rank[NODES], par[NODES], cap[NODES], queue[NODES];   // rank 0 is unmarked; the queue holds the marked nodes
  u lowest[NODES];                                       // the rows of the first relaxation
  u out_head[NODES], in_head[NODES], out_next[EDGES], in_next[EDGES];
} Net;

static u pushes, raises;

static void clear(u *a, u n) { for (u i = 0; i < n; i++) a[i] = 0; }
static u smaller(u a, u b) { return a < b ? a : b; }

// ---- relaxation ----

// The new y of an edge's tail and head; pure functions of values already read, so they compile to conditional moves.
static inline u new_tail(u lo, u g, u hi, u f) {
  if (f == 0) return lo;
  if (hi <= lo + g) return lo;
  return hi - g;
}
static inline u new_head(u lo, u g, u hi) {
  if (hi < lo + g) return lo + g;
  return hi;
}
// One pass over the edges; 1 where some y was lifted.
static u sweep(Net *p) {
  u lifted = 0;
  for (u a = 0; a < p->m; a++) {
    u f = p->from[a], t = p->to[a], lo = p->y[f], hi = p->y[t];
    u tail = new_tail(lo, p->gap[a], hi, p->flow[a]), head = new_head(lo, p->gap[a], hi);
    p->y[f] = tail;
    p->y[t] = head;
    if (tail != lo) lifted = 1;
    if (head != hi) lifted = 1;
  }
  return lifted;
}
static void lift(Net *p) { while (sweep(p)) {} }
static void relax(Net *p) {
  clear(p->y, p->n);
  lift(p);
}
static void copy(const u *a, u *b, u n) { for (u i = 0; i < n; i++) b[i] = a[i]; }

// ---- edge lists by node ----

static void link_edges(const u *end, u *head, u *next, u n, u m) {
  clear(head, n);
  for (u a = 0; a < m; a++) {
    next[a] = head[end[a]];
    head[end[a]] = a + 1;
  }
}

// ---- the search ----

static inline u room_of(u rf, u rt, u lo, u g, u hi, u f) {
  if (rf > 0) return rt > 0 ? FAR : hi - lo - g;
  if (rt == 0) return FAR;
  if (f == 0) return FAR;
  return 0;
}
static inline u room_at(const Net *p, u a) {
  u f = p->from[a], t = p->to[a];
  return room_of(p->rank[f], p->rank[t], p->y[f], p->gap[a], p->y[t], p->flow[a]);
}
// 0 where the edge leads from the marked node v, its tail or its head, out of the marked set, with no room.
static inline u head_miss(const Net *p, u v, u a) {
  u t = p->to[a], room = p->y[t] - p->y[v] - p->gap[a];
  return p->rank[t] > room ? p->rank[t] : room;
}
static inline u tail_miss(const Net *p, u a) {
  u r = p->rank[p->from[a]], unused = p->flow[a] == 0;
  return r > unused ? r : unused;
}
// The first such edge of a list, from a link on.
static inline u find_open(const Net *p, const u *next, u v, u link, int heads) {
  u k = link;
  while (k > 0) {
    if ((heads ? head_miss(p, v, k - 1) : tail_miss(p, k - 1)) == 0) return k;
    k = next[k - 1];
  }
  return 0;
}
// The same over the lists of the marked nodes, in the order in which they were marked.
static inline Cursor propose(const Net *p, const u *head, const u *next, u marked, Cursor c, int heads) {
  u i = c.at, k = c.link;
  while (i < marked) {
    u v = p->queue[i];
    k = find_open(p, next, v, k > 0 ? k : head[v], heads);
    if (k > 0) return (Cursor){ i, k };
    i++;
  }
  return (Cursor){ i, 0 };
}
// The least room over all edges that leave the marked set.
static Exit least_room(const Net *p) {
  Exit best = { 0, FAR };
  for (u a = 0; a < p->m; a++) {
    u r = room_at(p, a);
    if (r == 0) return (Exit){ a, 0 };
    if (r < best.room) best = (Exit){ a, r };
  }
  return best;
}
// Out-edges first, then used in-edges, then a look at all edges.
static inline Search next_exit(const Net *p, u marked, Search s) {
  s.outs = propose(p, p->out_head, p->out_next, marked, s.outs, 1);
  s.exit = (Exit){ s.outs.link - 1, 0 };
  if (s.outs.link > 0) return s;
  s.ins = propose(p, p->in_head, p->in_next, marked, s.ins, 0);
  s.exit = (Exit){ s.ins.link - 1, 0 };
  if (s.ins.link > 0) return s;
  s.exit = least_room(p);
  return s;
}
static void raise(Net *p, u d) {
  if (d == 0) return;
  raises++;
  for (u v = 0; v < p->n; v++) if (p->rank[v] > 0) p->y[v] += d;
}
// The unmarked end of edge a marked.
static u mark(Net *p, u a, u marked) {
  u f = p->from[a], t = p->to[a], v = t, c = p->cap[f];
  if (p->rank[t] > 0) {
    v = f;
    c = smaller(p->cap[t], p->flow[a]);
  }
  p->rank[v] = marked + 1;
  p->par[v] = a;
  p->cap[v] = c;
  p->queue[marked] = v;
  return v;
}
static u grow(Net *p, u s) {
  u marked = 1, t = s;
  Search x = { { 0, 0 }, { 0, 0 }, { 0, 0 } };
  while (p->dem[t] == 0) {
    x = next_exit(p, marked, x);
    raise(p, x.exit.room);
    t = mark(p, x.exit.edge, marked);
    marked++;
  }
  return t;
}

// ---- the flow ----

static void plant(Net *p, u s) {
  clear(p->rank, p->n);
  p->rank[s] = 1;
  p->cap[s] = p->sup[s];
  p->queue[0] = s;
}
static void push(Net *p, u t, u d) {
  u v = t;
  pushes++;
  while (p->rank[v] > 1) {
    u a = p->par[v], forward = p->to[a] == v;
    p->flow[a] = forward ? p->flow[a] + d : p->flow[a] - d;
    v = forward ? p->from[a] : p->to[a];
  }
}
static u is_high(const Net *p) {
  for (u v = 0; v < p->n; v++) if (p->y[v] > HIGH) return 1;
  return 0;
}
static void drain(Net *p, u s) {
  while (p->sup[s] > 0) {
    plant(p, s);
    u t = grow(p, s), d = smaller(p->cap[t], p->dem[t]);
    push(p, t, d);
    p->sup[s] -= d;
    p->dem[t] -= d;
    if (is_high(p)) relax(p);
  }
}
static void load_all(Net *p) {
  for (u e = 0; e < p->m; e++) {
    u f = p->from[e], t = p->to[e], w = p->weight[e], tight = p->y[t] == p->y[f] + p->gap[e];
    p->flow[e] = tight ? w : 0;
    p->sup[f] += tight ? 0 : w;
    p->dem[t] += tight ? 0 : w;
  }
}
// ---- the start ----

// The nodes by row, the highest first, in p->cap.
static void order_nodes(Net *p) {
  u top = 0, at = 0;
  for (u v = 0; v < p->n; v++) if (p->y[v] > top) top = p->y[v];
  u width = top / p->n + 1;
  for (u v = 0; v < p->n; v++) p->cap[v] = p->y[v] / width;
  link_edges(p->cap, p->rank, p->par, p->n, p->n);
  for (u r = p->n; r-- > 0;)
    for (u k = p->rank[r]; k > 0; k = p->par[k - 1]) p->cap[at++] = k - 1;
}
// A node that the edges out of it pull more than those into it goes as far as the former let it.
static void sink_nodes(Net *p) {
  clear(p->rank, p->n);
  for (u a = 0; a < p->m; a++) {
    p->rank[p->from[a]] += p->weight[a];
    p->rank[p->to[a]] -= p->weight[a];
  }
  for (u i = 0; i < p->n; i++) {
    u v = p->cap[i], row = FAR;
    if (p->rank[v] == 0 || p->rank[v] >> 63) continue;
    for (u k = p->out_head[v]; k > 0; k = p->out_next[k - 1]) row = smaller(row, p->y[p->to[k - 1]] - p->gap[k - 1]);
    p->y[v] = row;
  }
}
static u reach(Net *p, u v, u a, u count) {
  if (p->rank[v] > 0) return count;
  p->rank[v] = 1;
  p->par[v] = a;
  p->queue[count] = v;
  return count + 1;
}
static u is_tight(const Net *p, u a) { return p->y[p->to[a]] == p->y[p->from[a]] + p->gap[a]; }
// A forest of tight edges in breadth, with a root in every node that is not reached before; its nodes are in the queue.
static u grow_forest(Net *p) {
  u count = 0, i = 0;
  clear(p->rank, p->n);
  for (u r = 0; r < p->n; r++) {
    count = reach(p, p->cap[r], p->m, count);
    for (; i < count; i++) {
      u v = p->queue[i];
      for (u k = p->out_head[v]; k > 0; k = p->out_next[k - 1]) if (is_tight(p, k - 1)) count = reach(p, p->to[k - 1], k - 1, count);
      for (u k = p->in_head[v]; k > 0; k = p->in_next[k - 1]) if (is_tight(p, k - 1)) count = reach(p, p->from[k - 1], k - 1, count);
    }
  }
  return count;
}
// As much of x[v] as d moved to x[w].
static void shift(u *x, u v, u w, u d) {
  x[v] -= d;
  x[w] += d;
}
// What node v has both to send and to get cancels, and what is left goes over its parent edge.
static void move_up(Net *p, u v) {
  u both = smaller(p->sup[v], p->dem[v]), a = p->par[v];
  p->sup[v] -= both;
  p->dem[v] -= both;
  if (a == p->m) return;
  u down = p->from[a] == v, w = down ? p->to[a] : p->from[a];
  u *on = down ? p->sup : p->dem, *back = down ? p->dem : p->sup;  // with the edge as a whole, against it as far as there is flow
  p->flow[a] += on[v];
  shift(on, v, w, on[v]);
  u d = smaller(back[v], p->flow[a]);
  p->flow[a] -= d;
  shift(back, v, w, d);
}
// The highest node that has something to send.
static u find_supply(const Net *p) {
  u best = p->n;
  for (u v = 0; v < p->n; v++)
    if (p->sup[v] > 0 && (best == p->n || p->y[best] < p->y[v])) best = v;
  return best;
}

static void solve(Net *p) {
  link_edges(p->from, p->out_head, p->out_next, p->n, p->m);
  link_edges(p->to, p->in_head, p->in_next, p->n, p->m);
  clear(p->sup, p->n);
  clear(p->dem, p->n);
  clear(p->flow, p->m);
  relax(p);
  copy(p->y, p->lowest, p->n);
  order_nodes(p);
  sink_nodes(p);
  load_all(p);
  for (u count = grow_forest(p); count > 0; count--) move_up(p, p->queue[count - 1]);
  for (u s = find_supply(p); s < p->n; s = find_supply(p)) drain(p, s);
  copy(p->lowest, p->y, p->n);
  lift(p);
}

// ---- the call ----

static const uint8_t *read_number(const uint8_t *in, u *k) {
  u shift = 0;
  for (*k = 0; *in >= 128; shift += 7) *k |= (u)(*in++ & 127) << shift;
  *k |= (u)*in++ << shift;
  return in;
}
static void read_net(Net *p, const uint8_t *in) {
  in = read_number(in + 1, &p->n) + 3 * p->n;  // edition; each step is three bytes in these tables
  in = read_number(in, &p->m);
  for (u a = 0; a < p->m; a++) {
    in = read_number(in, &p->from[a]);
    in = read_number(in, &p->to[a]);
    in = read_number(in, &p->gap[a]);
    in = read_number(in, &p->weight[a]);
  }
}
Work solve_by_model(const uint8_t *table, uint16_t *rows) {
  static Net p;
  read_net(&p, table);
  pushes = raises = 0;
  solve(&p);
  for (u v = 0; v < p.n; v++) rows[v] = (uint16_t)p.y[v];
  return (Work){ pushes, raises };
}
