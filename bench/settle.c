// What it costs to settle soft edges, and to read the firmness of edges that are all must. Checks that both ways give the same answer.
//   settle
//
// Timed, in turn: the rows call on a table of soft edges, and on the edition 1 table of the same edges as kept or turned. The second is
// the cost of finding rows, and what the first takes beyond it the cost of settling. Then rows and charts of tables without soft edges,
// in edition 1 and in edition 2. All of it at each of the largest sizes.
#include "pairs.h"
#include "sizes.h"
#include "soft.h"
#include <stdio.h>

typedef void (*MakeSoft)(SoftInstance *, size_t, size_t, size_t, uint64_t);

static void rows_of(const uint8_t *table, size_t length, ChartAnswer *answer) {
  answer->refusal = call_rows(table, length, answer->rows, YUVATONDRO_MAX_STEPS);
}

static void add_soft(Pairs *p, const SoftInstance *soft) {
  Pair *pair = next_pair(p, soft->written.name);
  pair->length[0] = write_table(&soft->settled, pair->table[0]);
  pair->length[1] = write_edition_2(&soft->written, SOFT, pair->table[1]);
}
static void add_must(Pairs *p, const Instance *inst) {
  Pair *pair = next_pair(p, inst->name);
  pair->length[0] = write_table(inst, pair->table[0]);
  pair->length[1] = write_edition_2(inst, MUST, pair->table[1]);
}
static void make_soft_pairs(Pairs *p, MakeSoft make, size_t nodes, size_t *turned) {
  static SoftInstance soft;
  p->count = 0;
  for (size_t shape = 0; shape < shape_count(); shape++)
    for (int seed = 1; seed <= SEEDS; seed++) {
      make(&soft, shape, nodes, nodes * EDGES_A_NODE, seed);
      turned[p->count] = (200 * soft.turned / soft.written.edges + 1) / 2;  // per cent, rounded
      add_soft(p, &soft);
    }
}
// For charts with as many edges as are accepted.
static void make_must_pairs(Pairs *rows, Pairs *charts, size_t nodes) {
  static Instance inst;
  rows->count = charts->count = 0;
  for (size_t shape = 0; shape < shape_count(); shape++)
    for (int seed = 1; seed <= SEEDS; seed++) {
      make_shape(&inst, shape, nodes, nodes * EDGES_A_NODE, seed);
      add_must(rows, &inst);
      cut_to_accepted(&inst);
      add_must(charts, &inst);
    }
}

static void print_settling(const Pairs *p, const size_t *turned) {
  size_t sum = 0;
  print_pairs(p, "turned (%)", turned);
  for (size_t i = 0; i < p->count; i++) sum += turned[i];
  PairMeans m = means_of_pairs(p);
  print_means(p);
  printf("  turned: %zu%% of the edges in the mean\n", sum / p->count);
  printf("  settling costs %.2f us, %.2f of finding rows in the geometric mean and %.2f at worst (%s); goal in the mean: at most 1\n",
         m.time[1] - m.time[0], m.ratio - 1, m.worst - 1, m.worst_name);
}

static void measure_size(size_t nodes) {
  static Pairs half = { .title = "Rows, about half the edges turned", .way = { "settled", "soft" }, .call = { rows_of, rows_of } };
  static Pairs random = { .title = "Rows, edges written at random", .way = { "settled", "soft" }, .call = { rows_of, rows_of } };
  static Pairs rows = { .title = "Rows, all edges must", .way = { "edition 1", "edition 2" }, .call = { rows_of, rows_of } };
  static Pairs charts = { .title = "Charts, all edges must", .way = { "edition 1", "edition 2" }, .call = { call_chart, call_chart } };
  static size_t half_turned[MAX_PAIRS], random_turned[MAX_PAIRS];
  make_soft_pairs(&half, make_half_turned, nodes, half_turned);
  make_soft_pairs(&random, make_random_ways, nodes, random_turned);
  make_must_pairs(&rows, &charts, nodes);
  run_pairs(&half);
  run_pairs(&random);
  run_pairs(&rows);
  run_pairs(&charts);
  printf("\nTables of %zu/%zu\n", nodes, nodes * EDGES_A_NODE);
  print_settling(&half, half_turned);
  print_settling(&random, random_turned);
  printf("\n");
  print_means(&rows);
  print_means(&charts);
}

int main(void) {
  if (shape_count() * SEEDS > MAX_PAIRS) return 2;
  for (int k = FIRST_SHOWN; k < SIZES; k++) measure_size(node_counts[k]);
  printf("\nBoth ways gave the same answer in every round.\n");
  return 0;
}
