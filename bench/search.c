// Looks for an instance on which our method does much work, by hill climbing:  search SHAPE SEED TRIES
// SHAPE is a place in the list of shapes.c, from 0. From that shape at the largest size, TRIES times one to three edges are changed at
// random, in their ends, gap or weight, and the change stays unless the model then has fewer pushes and raises together. Prints the
// instance, and on standard error its work before and after; the same arguments give the same instance.
#include "model.h"
#include "rows_call.h"
#include "sizes.h"
#include <stdio.h>
#include <stdlib.h>
#include <string.h>

enum { EDGES = EDGES_A_NODE * YUVATONDRO_MAX_STEPS, MOST_CHANGES = 3, MAX_GAP = 4, WEIGHTS = 256, LIGHT_WEIGHTS = 3 };

typedef struct {
  Instance inst;
  uint16_t rows[YUVATONDRO_MAX_STEPS];
  Work work;
} State;

static uint64_t work_of(const State *s) { return s->work.pushes + s->work.raises; }
static void solve(State *s) {
  static uint8_t table[YUVATONDRO_MAX_STORED];
  write_table(&s->inst, table);
  s->work = solve_by_model(table, s->rows);
}

// By row and then by number. All edges go this way, so one more that does closes no loop.
static int is_before(const uint16_t *rows, unsigned v, unsigned w) { return rows[v] != rows[w] ? rows[v] < rows[w] : v < w; }
static void change_ends(const State *s, Edge *e) {
  unsigned v = random_below(s->inst.nodes), w = random_below(s->inst.nodes - 1);
  if (w >= v) w++;
  e->from = is_before(s->rows, v, w) ? v : w;
  e->to = e->from == v ? w : v;
}
// Half of the new weights are light: with few heavy edges among light ones there is more to send.
static void change_edge(State *s) {
  Edge *e = &s->inst.edge[random_below(s->inst.edges)];
  switch (random_below(3)) {
  case 0: change_ends(s, e); break;
  case 1: e->gap = 1 + random_below(MAX_GAP); break;
  default: e->weight = random_below(random_below(2) ? LIGHT_WEIGHTS : WEIGHTS);
  }
}
static void climb(State *s, unsigned long tries) {
  static State next;
  for (; tries > 0; tries--) {
    next = *s;
    for (size_t k = 1 + random_below(MOST_CHANGES); k > 0; k--) change_edge(&next);
    solve(&next);
    if (work_of(&next) >= work_of(s)) *s = next;
  }
}

static void print_work(const char *when, const State *s) {
  fprintf(stderr, "%s %s: %d pushes, %d raises\n", s->inst.name, when, (int)s->work.pushes, (int)s->work.raises);
}
static void print_instance(const Instance *g) {
  printf("%zu %zu\n", g->nodes, g->edges);
  for (size_t i = 0; i < g->edges; i++) printf("%u %u %u %u\n", g->edge[i].from, g->edge[i].to, g->edge[i].gap, g->edge[i].weight);
}
// The model stands for the library as long as both have the same rows.
static int is_ours(const State *s) {
  static uint8_t table[YUVATONDRO_MAX_STORED];
  uint16_t rows[YUVATONDRO_MAX_STEPS];
  return call_rows(table, write_table(&s->inst, table), rows, s->inst.nodes) == 0 &&
         memcmp(rows, s->rows, s->inst.nodes * sizeof *rows) == 0;
}

int main(int argc, char **argv) {
  static State s;
  size_t shape = argc == 4 ? strtoul(argv[1], NULL, 10) : shape_count();
  if (shape >= shape_count()) return 2;
  make_shape(&s.inst, shape, YUVATONDRO_MAX_STEPS, EDGES, strtoul(argv[2], NULL, 10));
  if (s.inst.nodes != YUVATONDRO_MAX_STEPS || s.inst.edges != EDGES) {
    fprintf(stderr, "search: %s is smaller than the largest size\n", s.inst.name);
    return 2;
  }
  solve(&s);
  print_work("before", &s);
  climb(&s, strtoul(argv[3], NULL, 10));
  print_work("after", &s);
  print_instance(&s.inst);
  return is_ours(&s) ? 0 : 1;
}
