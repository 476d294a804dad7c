// How deep each call goes into its stack:  stack FILE..
// A call runs on a stack of its own that was painted before; the lowest byte that lost its paint tells the depth. What the way to
// the call costs is found with a call that does nothing, and taken off. Inputs: the shapes of all sizes and the stored instances,
// each as it is, with its edges cut until the chart is accepted and until its points get an x, with a loop, with soft edges, and with its
// bytes cut short in many places.
// The loader looks up memset and memcpy at their first use, on the stack of the call that needs them. That is told apart, and done before.
#define _XOPEN_SOURCE 700
#include "rows_call.h"
#include "sizes.h"
#include "xs_call.h"
#include "yuvatondro.h"
#include <stdio.h>
#include <string.h>
#include <ucontext.h>

enum { STACK = 1 << 20, PAINT = 0xA5, CUTS = 16 };

typedef struct { const Instance *inst; const uint8_t *table; size_t length; } Input;
typedef struct { const char *name; uint64_t (*run)(const Input *); size_t depth; unsigned done, refused; } Call;

static uint8_t shortest[YUVATONDRO_MAX_SHORTEST];
static uint16_t rows[YUVATONDRO_MAX_STEPS], order[YUVATONDRO_MAX_POINTS], xs[YUVATONDRO_MAX_XS];
static size_t records[4 * YUVATONDRO_MAX_EDGES];

static uint64_t run_nothing(const Input *in) { return in->length == 0; }
static uint64_t run_counts(const Input *in) { return yuvatondro_counts(in->table, in->length); }
static uint64_t run_name(const Input *in) { return yuvatondro_name(in->table, in->length, 0); }
static uint64_t run_write(const Input *in) { return yuvatondro_write(in->table, in->length, shortest, YUVATONDRO_MAX_SHORTEST); }
static uint64_t run_convert(const Input *in) { return yuvatondro_convert(in->table, in->length, shortest, YUVATONDRO_MAX_SHORTEST); }
static uint64_t run_rows(const Input *in) { return yuvatondro_rows(in->table, in->length, rows, YUVATONDRO_MAX_STEPS); }
static uint64_t run_records(const Input *in) {
  return yuvatondro_records(in->inst->nodes, records, 4 * in->inst->edges, rows, YUVATONDRO_MAX_STEPS);
}
static uint64_t draw(const uint8_t *table, size_t length) {
  return yuvatondro_chart(table, length, rows, YUVATONDRO_MAX_STEPS, order, YUVATONDRO_MAX_POINTS);
}
static uint64_t run_chart(const Input *in) { return draw(in->table, in->length); }
static uint64_t run_xs(const Input *in) { return yuvatondro_xs(in->table, in->length, xs, YUVATONDRO_MAX_XS); }
// The first line stroke, for which a point behind the first step is looked up.
static uint64_t run_stroke(const Input *in) { return yuvatondro_stroke_at(in->table, in->length, 1).answer; }

// Row 1, which most of the charts have and which is not too wide in most. More tries go no deeper.
static uint64_t run_order(const Input *in) { return yuvatondro_row_order(in->table, in->length, 1, 23, order, YUVATONDRO_MAX_POINTS); }

static Call calls[] = { { "counts", run_counts, 0, 0, 0 }, { "name", run_name, 0, 0, 0 }, { "write", run_write, 0, 0, 0 },
                        { "convert", run_convert, 0, 0, 0 }, { "rows", run_rows, 0, 0, 0 }, { "records", run_records, 0, 0, 0 },
                        { "chart", run_chart, 0, 0, 0 }, { "xs", run_xs, 0, 0, 0 }, { "stroke", run_stroke, 0, 0, 0 },
                        { "order", run_order, 0, 0, 0 } };
enum { CALLS = sizeof calls / sizeof *calls };

static uint8_t stack[STACK];
static ucontext_t here, there;
static uint64_t (*chosen)(const Input *);
static const Input *input;
static uint64_t answer;

static void enter(void) { answer = chosen(input); }
static size_t depth_of(uint64_t (*run)(const Input *), const Input *in) {
  size_t k = 0;
  memset(stack, PAINT, STACK);
  chosen = run;
  input = in;
  getcontext(&there);
  there.uc_stack.ss_sp = stack;
  there.uc_stack.ss_size = STACK;
  there.uc_link = &here;
  makecontext(&there, enter, 0);
  swapcontext(&here, &there);
  while (k < STACK && stack[k] == PAINT) k++;
  return STACK - k;
}
static void measure(Call *call, const Input *in, size_t way) {
  size_t depth = depth_of(call->run, in) - way;
  if (depth > call->depth) call->depth = depth;
  if (yuvatondro_refusal(answer) == 0) call->done++;
  else call->refused++;
}
static void measure_all(const Instance *inst, const uint8_t *table, size_t length) {
  const Input in = { inst, table, length };
  size_t way = depth_of(run_nothing, &in);
  for (size_t i = 0; i < inst->edges; i++) {
    const Edge *e = &inst->edge[i];
    const size_t record[4] = { e->from, e->to, e->gap, e->weight };
    memcpy(&records[4 * i], record, sizeof record);
  }
  for (int k = 0; k < CALLS; k++) measure(&calls[k], &in, way);
}
static void measure_table(const Instance *inst) {
  static uint8_t table[YUVATONDRO_MAX_STORED];
  measure_all(inst, table, write_table(inst, table));
}
static void measure_cut_short(const Instance *inst) {
  static uint8_t table[YUVATONDRO_MAX_STORED];
  size_t length = write_table(inst, table);
  for (size_t k = 0; k < CUTS; k++) measure_all(inst, table, length * k / CUTS);
}
static void measure_accepted(Instance inst) {
  static uint8_t table[YUVATONDRO_MAX_STORED];
  size_t length = write_table(&inst, table);
  while (yuvatondro_refusal(draw(table, length)) == YUVATONDRO_MANY_POINTS) {
    inst.edges--;
    length = write_table(&inst, table);
  }
  measure_all(&inst, table, length);
}
static void measure_placed(Instance inst) {
  cut_to_xs(&inst);
  measure_table(&inst);
}
static void measure_loop(Instance inst) {
  Edge *last = &inst.edge[inst.edges - 1];
  *last = (Edge){ inst.edge[0].to, inst.edge[0].from, 1, 1 };
  measure_table(&inst);
}
// Soft edges, every second one the other way, so that some are turned.
static void measure_soft(Instance inst) {
  static uint8_t table[YUVATONDRO_MAX_STORED];
  for (size_t i = 0; i < inst.edges; i += 2) {
    Edge *e = &inst.edge[i];
    *e = (Edge){ e->to, e->from, e->gap, e->weight };
  }
  measure_all(&inst, table, write_edition_2(&inst, SOFT, table));
}
static void measure_instance(const Instance *inst) {
  measure_table(inst);
  measure_cut_short(inst);
  measure_accepted(*inst);
  measure_placed(*inst);
  measure_loop(*inst);
  measure_soft(*inst);
}
static void measure_size(size_t nodes) {
  static Instance inst;
  for (size_t shape = 0; shape < shape_count(); shape++)
    for (int seed = 1; seed <= SEEDS; seed++) {
      make_shape(&inst, shape, nodes, nodes * EDGES_A_NODE, seed);
      measure_instance(&inst);
    }
}
// Each call twice on one table: how much deeper the first goes, at most.
static size_t bind_library(void) {
  static Instance inst;
  static uint8_t table[YUVATONDRO_MAX_STORED];
  size_t most = 0;
  make_shape(&inst, 0, node_counts[0], node_counts[0] * EDGES_A_NODE, 1);
  const Input in = { &inst, table, write_table(&inst, table) };
  for (int k = 0; k < CALLS; k++) {
    size_t first = depth_of(calls[k].run, &in), again = depth_of(calls[k].run, &in);
    if (first > again + most) most = first - again;
  }
  return most;
}

int main(int argc, char **argv) {
  static Instance inst;
  size_t binding = bind_library();
  for (int k = 0; k < SIZES; k++) measure_size(node_counts[k]);
  for (int k = 1; k < argc; k++) {
    if (!read_instance(&inst, argv[k])) return 1;
    measure_instance(&inst);
  }
  printf("Deepest stack of each call (bytes)\n");
  for (int k = 0; k < CALLS; k++)
    printf("  %-8s %7zu, over %u inputs done and %u refused\n", calls[k].name, calls[k].depth, calls[k].done, calls[k].refused);
  printf("The first call of a program, in which the loader looks up memset and memcpy, went %zu deeper\n", binding);
  return 0;
}
