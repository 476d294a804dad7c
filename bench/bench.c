// Times the rows call against the textbook method in C and LEMON's network simplex, and checks every answer.
//   bench FILE..   the shapes of shapes.c and the stored instances FILE..
//
// Timed: of ours the whole rows call, from the table's bytes to the rows. Of the textbook method all from the edges to the rows. Of
// LEMON run() alone; making its graph is shown apart.
// Two ways. In turn: every program once on every instance, round after round, the median kept: what a host sees that calls once
// for a table. Back to back: one program many times on one instance, the least kept: branch predictor and caches know the run.
#include "check.h"
#include "rows_case.h"
#include "sizes.h"
#include <math.h>
#include <stdio.h>
#include <stdlib.h>
#include <string.h>

enum { VISITS = 4, REPEATS = 5 };

static void stop(const Case *c, const char *fault) {
  printf("%s: %s\n", c->inst.name, fault);
  exit(1);
}
static double run_ours(Case *c) {
  double start = now_us();
  unsigned refusal = call_rows(c->table, c->length, c->rows, c->inst.nodes);
  double end = now_us();
  if (refusal != 0) stop(c, "refused");
  return end - start;
}
static double run_textbook(Case *c) {
  double start = now_us();
  solve_by_textbook(&c->inst, &c->textbook);
  return now_us() - start;
}
static double run_lemon(Case *c) {
  if (!peer_is_here()) return 0;
  if (!solve_by_peer(network_of(&c->inst), &c->peer)) stop(c, "LEMON found no optimum");
  return c->peer.run_us;
}
static double (*const run[PROGRAMS])(Case *) = { run_ours, run_textbook, run_lemon };

static void check_case(const Case *c) {
  Network network = network_of(&c->inst);
  const char *fault = find_fault(network, c->rows, c->textbook.flow, total_of(network, c->textbook.rows));
  if (!fault && peer_is_here()) fault = find_fault(network, c->rows, c->peer.flow, c->peer.total);
  if (!fault && !keeps_gaps(network, c->textbook.rows)) fault = "the textbook method's rows are not feasible";
  if (fault) stop(c, fault);
}
// Pushes and raises, from the model, whose rows must be ours.
static void count_work(Case *c) {
  uint16_t rows[YUVATONDRO_MAX_STEPS];
  c->work = solve_by_model(c->table, rows);
  if (memcmp(rows, c->rows, c->inst.nodes * sizeof *rows) != 0) stop(c, "the model has other rows");
}
// Each program once; which goes first changes from round to round. Rows are wiped, so that each call must write them.
static void run_case(Case *c, int round) {
  memset(c->rows, 255, sizeof c->rows);
  memset(c->textbook.rows, 255, sizeof c->textbook.rows);
  for (int k = 0; k < PROGRAMS; k++) {
    int program = (round + k) % PROGRAMS;
    c->turn[program][round] = run[program](c);
  }
  c->build[round] = c->peer.build_us;
  check_case(c);
}
static void run_again(Case *c) {
  for (int program = 0; program < PROGRAMS; program++)
    for (int k = 0; k < REPEATS; k++) c->again[program] = fmin(c->again[program], run[program](c));
}
static void run_group(Group *g) {
  for (int round = 0; round < ROUNDS; round++)
    for (size_t i = 0; i < g->count; i++) run_case(&g->cases[i], round);
  for (size_t i = 0; i < g->count; i++) count_work(&g->cases[i]);
  for (size_t i = 0; i < g->count; i++)
    for (int program = 0; program < PROGRAMS; program++) g->cases[i].again[program] = INFINITY;
  for (int visit = 0; visit < VISITS; visit++)  // several, since another process may disturb one
    for (size_t i = 0; i < g->count; i++) run_again(&g->cases[i]);
}

static void prepare(Case *c) { c->length = write_table(&c->inst, c->table); }
static void set_size(Group *g, size_t nodes) {
  g->nodes = nodes;
  g->edges = nodes * EDGES_A_NODE;
}
static void make_shapes(Group *g) {
  for (size_t shape = 0; shape < shape_count(); shape++)
    for (int seed = 1; seed <= SEEDS; seed++) {
      Case *c = &g->cases[g->count++];
      make_shape(&c->inst, shape, g->nodes, g->edges, seed);
      prepare(c);
    }
}
// Each to the group of its size.
static void read_stored(Group *groups, int files, char **paths) {
  static Instance inst;
  for (int k = 0; k < files; k++) {
    int size = read_instance(&inst, paths[k]) ? find_size(inst.nodes) : SIZES;
    if (size == SIZES) {
      printf("%s: no instance of a size that is measured\n", paths[k]);
      exit(1);
    }
    Case *c = &groups[size].cases[groups[size].count++];
    c->inst = inst;
    prepare(c);
  }
}

int main(int argc, char **argv) {
  static Group shapes[SIZES], searched[SIZES];
  if (argc - 1 > MAX_CASES || shape_count() * SEEDS > MAX_CASES) return 2;
  for (int k = 0; k < SIZES; k++) {
    set_size(&shapes[k], node_counts[k]);
    set_size(&searched[k], node_counts[k]);
    make_shapes(&shapes[k]);
  }
  read_stored(searched, argc - 1, argv + 1);
  for (int k = 0; k < SIZES; k++) run_group(&shapes[k]);
  for (int k = 0; k < SIZES; k++) run_group(&searched[k]);
  for (int k = FIRST_SHOWN; k < SIZES; k++) {
    print_group("Shapes", &shapes[k]);
    print_group("Found by searching for instances bad for this method", &searched[k]);
    print_worst(&shapes[k], &searched[k]);
  }
  print_growth(shapes, searched, SIZES);
  printf("\nEvery answer of every round was checked: feasible, of the peers' total, least and lowest by certificate.\n");
  return 0;
}
