// Finds rows by every program once on each instance and prints how many there were: bench/instructions counts what each executes.
//   once sizes          prints the sizes that are measured instead, as 8/24
//   once NODES          the shapes of that size
//   once FILE..         the stored instances
//   once charts NODES   the charts of the shapes of that size, cut to as many edges as are accepted
//   once xs NODES       the x of the same, cut to as many edges as leave few enough points
//   once stroke NODES   the strokes of the same, asked for behind the last, so that all lines are gone through
//   once order NODES    the best order of the widest row of the charts that is not too wide, with 50,000 tries
//   once present NODES  the same with no tries
//   once soft NODES     our rows of the shapes of that size, with soft edges of which about half are turned
//   once settled NODES  our rows of the same edges as kept or turned
//   once short NODES    the shapes of that size, read, and written in their shortest form, which they have already
//   once long NODES     the same with full steps and soft edges, read, and converted with each number in three bytes
#include "chart_call.h"
#include "merged.h"
#include "peer.h"
#include "row_search.h"
#include "rows_call.h"
#include "sizes.h"
#include "soft.h"
#include "strokes_call.h"
#include "textbook.h"
#include "write_call.h"
#include "xs_call.h"
#include <stdio.h>
#include <stdlib.h>
#include <string.h>

static void run_once(Instance *inst) {
  static uint8_t table[YUVATONDRO_MAX_STORED];
  static uint16_t rows[YUVATONDRO_MAX_STEPS];
  static TextbookAnswer textbook;
  static PeerAnswer peer;
  size_t length = write_table(inst, table);
  if (call_rows(table, length, rows, inst->nodes) != 0) exit(1);
  solve_by_textbook(inst, &textbook);
  if (peer_is_here() && !solve_by_peer(network_of(inst), &peer)) exit(1);
}
// The one call of a chart that is counted; it has a name of its own so that the trials are not.
__attribute__((noinline)) void draw_once(const uint8_t *table, size_t length, ChartAnswer *answer) {
  call_chart(table, length, answer);
  if (answer->refusal != 0) exit(1);
}
static void chart_once(Instance *inst) {
  static uint8_t table[YUVATONDRO_MAX_STORED];
  static ChartAnswer answer;
  cut_to_accepted(inst);
  draw_once(table, write_table(inst, table), &answer);
}
// The same for x.
__attribute__((noinline)) void place_once(const uint8_t *table, size_t length, uint16_t *xs) {
  if (call_xs(table, length, xs) != 0) exit(1);
}
static void xs_once(Instance *inst) {
  static uint8_t table[YUVATONDRO_MAX_STORED];
  uint16_t xs[YUVATONDRO_MAX_XS];
  cut_to_xs(inst);
  place_once(table, write_table(inst, table), xs);
}
// And for strokes.
__attribute__((noinline)) void seek_once(const uint8_t *table, size_t length) {
  Stroke stroke;
  if (call_stroke(table, length, SIZE_MAX, &stroke) != 0 || stroke.what != YUVATONDRO_NO_STROKE) exit(1);
}
static void stroke_once(Instance *inst) {
  static uint8_t table[YUVATONDRO_MAX_STORED];
  cut_to_xs(inst);
  seek_once(table, write_table(inst, table));
}
// And for the best order of a row.
__attribute__((noinline)) void search_once(const uint8_t *table, size_t length, size_t row, size_t tries) {
  OrderAnswer answer;
  call_row_order(table, length, row, tries, &answer);
  if (answer.refusal != 0) exit(1);
}
static void try_once(Instance *inst, size_t tries) {
  static uint8_t table[YUVATONDRO_MAX_STORED];
  static Instance merged;
  static ChartAnswer chart;
  cut_to_accepted(inst);
  merge_edges(inst, &merged);
  size_t length = write_table(inst, table);
  call_chart(table, length, &chart);
  search_once(table, length, find_widest_row(&merged, &chart), tries);
}
static void order_once(Instance *inst) { try_once(inst, YUVATONDRO_MAX_TRIES); }
static void present_once(Instance *inst) { try_once(inst, 0); }
// The rows of a table of soft edges, or of the same edges as kept or turned.
static void soft_once(const SoftInstance *soft, int settled) {
  static uint8_t table[YUVATONDRO_MAX_STORED];
  static uint16_t rows[YUVATONDRO_MAX_STEPS];
  size_t length = settled ? write_table(&soft->settled, table) : write_edition_2(&soft->written, SOFT, table);
  if (call_rows(table, length, rows, soft->written.nodes) != 0) exit(1);
}
static uint8_t form_table[YUVATONDRO_MAX_STORED], form_out[YUVATONDRO_MAX_STORED];
static size_t read_once(const Instance *inst, Form form) {
  size_t length = write_form(inst, form, form_table);
  if (call_counts(form_table, length) != 0) exit(1);
  return length;
}
static void short_once(Instance *inst) {
  if (call_write(form_table, read_once(inst, (Form){ 1, MUST, 0, 1 }), form_out) == 0) exit(1);
}
static void long_once(Instance *inst) {
  read_once(inst, (Form){ 2, SOFT, 1, 1 });
  if (call_convert(form_table, write_form(inst, (Form){ 2, SOFT, 1, 3 }, form_table), form_out) == 0) exit(1);
}

static int run_softly(size_t nodes, int settled) {
  static SoftInstance soft;
  for (size_t shape = 0; shape < shape_count(); shape++)
    for (int seed = 1; seed <= SEEDS; seed++) {
      make_half_turned(&soft, shape, nodes, nodes * EDGES_A_NODE, seed);
      soft_once(&soft, settled);
    }
  return shape_count() * SEEDS;
}
static int run_soft(size_t nodes) { return run_softly(nodes, 0); }
static int run_settled(size_t nodes) { return run_softly(nodes, 1); }

static int run_shapes(size_t nodes, void (*once)(Instance *)) {
  static Instance inst;
  for (size_t shape = 0; shape < shape_count(); shape++)
    for (int seed = 1; seed <= SEEDS; seed++) {
      make_shape(&inst, shape, nodes, nodes * EDGES_A_NODE, seed);
      once(&inst);
    }
  return shape_count() * SEEDS;
}
static int run_charts(size_t nodes) { return run_shapes(nodes, chart_once); }
static int run_xs(size_t nodes) { return run_shapes(nodes, xs_once); }
static int run_stroke(size_t nodes) { return run_shapes(nodes, stroke_once); }
static int run_order(size_t nodes) { return run_shapes(nodes, order_once); }
static int run_present(size_t nodes) { return run_shapes(nodes, present_once); }
static int run_short(size_t nodes) { return run_shapes(nodes, short_once); }
static int run_long(size_t nodes) { return run_shapes(nodes, long_once); }

static int run_files(int files, char **paths) {
  static Instance inst;
  for (int k = 0; k < files; k++) {
    if (!read_instance(&inst, paths[k])) exit(1);
    run_once(&inst);
  }
  return files;
}

typedef int (*Run)(size_t nodes);
static const struct { const char *name; Run run; } named[] = {
  { "charts", run_charts }, { "xs", run_xs }, { "stroke", run_stroke }, { "order", run_order }, { "present", run_present },
  { "soft", run_soft }, { "settled", run_settled }, { "short", run_short }, { "long", run_long },
};
static Run find_named(const char *name) {
  for (size_t k = 0; k < sizeof named / sizeof *named; k++) if (strcmp(name, named[k].name) == 0) return named[k].run;
  return NULL;
}

static int print_sizes(void) {
  for (int k = 0; k < SIZES; k++) printf("%zu/%zu\n", node_counts[k], node_counts[k] * EDGES_A_NODE);
  return 0;
}

int main(int argc, char **argv) {
  if (argc == 2 && strcmp(argv[1], "sizes") == 0) return print_sizes();
  Run run = argc == 3 ? find_named(argv[1]) : NULL;
  size_t nodes = argc == 2 || run ? strtoul(argv[argc - 1], NULL, 10) : 0;
  if (nodes > YUVATONDRO_MAX_STEPS) return 2;
  printf("%d\n", run ? run(nodes) : nodes > 0 ? run_shapes(nodes, run_once) : run_files(argc - 1, argv + 1));
  return 0;
}
