// Times this build of the library against an earlier one, on tables of edition 1, which both read.
//   before FILE..        the shapes of shapes.c, charts with the widest rows, and the stored instances FILE..
//   before once WHAT     rows, charts, repeated, xs or stroke: such calls on the largest shapes once and untimed; prints how many tables there
//                        were, and their size
//
// bench/before links both libraries, each with the adapters rows_call.c and chart_call.c, and gives the two names of their own. Where the
// earlier one has the calls that write tables, WRITES is defined and write_call.c is linked too; where it has the call for x, PLACES and
// xs_call.c; where it has the one for strokes, DRAWS and strokes_call.c.
//
// earlier.c finds out what the earlier build is. Tables that it refuses for their size are left out. Where its rows are bytes they become
// entries of 16 bits before two answers are compared, behind the clock. Both builds are lent the same buffer and told the same number of
// entries; of 16 bits each, it has room for as many bytes.
//
// Charts are measured without repeated edges, and with every edge as often as a size has edges a node. Where the earlier build draws each
// of these by itself, points, order and crossings are meant to differ, and only rows and total are compared. Charts are cut to what the
// earlier build accepts, which this one then does too.
#include "builds.h"
#include "earlier.h"
#include "merged.h"
#include "pairs.h"
#include "sizes.h"
#include <stdio.h>
#include <string.h>

static void rows_before(const uint8_t *table, size_t length, ChartAnswer *answer) {
  answer->refusal = before_call_rows(table, length, answer->rows, YUVATONDRO_MAX_STEPS);
}
static void rows_now(const uint8_t *table, size_t length, ChartAnswer *answer) {
  answer->refusal = now_call_rows(table, length, answer->rows, YUVATONDRO_MAX_STEPS);
}

// The edges of a table of small steps, as numbers; made before the clock.
enum { FIELDS = 4, STEP_BYTES = 3 };
static size_t numbers[YUVATONDRO_MAX_EDGES * FIELDS], number_count;

static size_t read_number(const uint8_t *table, size_t *at) {
  size_t value = 0;
  for (int shift = 0;; shift += 7) {
    uint8_t byte = table[(*at)++];
    value |= (size_t)(byte & 127) << shift;
    if (byte < 128) return value;
  }
}
static void read_edges(const uint8_t *table, size_t length) {
  size_t at = 2 + table[1] * STEP_BYTES;
  read_number(table, &at);
  for (number_count = 0; at < length; number_count++) numbers[number_count] = read_number(table, &at);
}
static void records_before(const uint8_t *table, size_t length, ChartAnswer *answer) {
  (void)length;
  answer->refusal = before_call_records(table[1], numbers, number_count, answer->rows);
}
static void records_now(const uint8_t *table, size_t length, ChartAnswer *answer) {
  (void)length;
  answer->refusal = now_call_records(table[1], numbers, number_count, answer->rows);
}

// The name of the last step.
static void keep_name(size_t start, ChartAnswer *answer) {
  answer->refusal = start == 0;
  answer->points = (long)start;
}
static void name_before(const uint8_t *table, size_t length, ChartAnswer *answer) {
  keep_name(before_call_name(table, length, table[1] - 1u), answer);
}
static void name_now(const uint8_t *table, size_t length, ChartAnswer *answer) {
  keep_name(now_call_name(table, length, table[1] - 1u), answer);
}

#ifdef WRITES
static uint8_t out[YUVATONDRO_MAX_STORED];

static void read_before(const uint8_t *table, size_t length, ChartAnswer *answer) { answer->refusal = before_call_counts(table, length); }
static void read_now(const uint8_t *table, size_t length, ChartAnswer *answer) { answer->refusal = now_call_counts(table, length); }

// What was written goes to the order's place, to be compared there; no shortest form of small steps is longer.
static void keep_written(size_t written, ChartAnswer *answer) {
  answer->refusal = written == 0 || written > sizeof answer->order;
  if (answer->refusal == 0) memcpy(answer->order, out, written);
}
static void write_before(const uint8_t *table, size_t length, ChartAnswer *answer) { keep_written(before_call_write(table, length, out), answer); }
static void write_now(const uint8_t *table, size_t length, ChartAnswer *answer) { keep_written(now_call_write(table, length, out), answer); }
static void convert_before(const uint8_t *table, size_t length, ChartAnswer *answer) {
  keep_written(before_call_convert(table, length, out), answer);
}
static void convert_now(const uint8_t *table, size_t length, ChartAnswer *answer) { keep_written(now_call_convert(table, length, out), answer); }
#endif

#ifdef PLACES
// x go to the order's place, which is longer, to be compared there.
static void xs_before(const uint8_t *table, size_t length, ChartAnswer *answer) {
  answer->refusal = before_call_xs(table, length, answer->order);
}
static void xs_now(const uint8_t *table, size_t length, ChartAnswer *answer) { answer->refusal = now_call_xs(table, length, answer->order); }
#endif

#ifdef DRAWS
// The first line stroke goes to the order's place, by its case and the bits of its corner.
static void keep_stroke(const Stroke *stroke, ChartAnswer *answer) {
  memcpy(answer->order, &stroke->what, sizeof stroke->what);
  memcpy(answer->order + 2, &stroke->x, sizeof stroke->x);
  memcpy(answer->order + 4, &stroke->y, sizeof stroke->y);
}
static void stroke_before(const uint8_t *table, size_t length, ChartAnswer *answer) {
  Stroke stroke;
  answer->refusal = before_call_stroke(table, length, 1, &stroke);
  keep_stroke(&stroke, answer);
}
static void stroke_now(const uint8_t *table, size_t length, ChartAnswer *answer) {
  Stroke stroke;
  answer->refusal = now_call_stroke(table, length, 1, &stroke);
  keep_stroke(&stroke, answer);
}
#endif

// ---- what is measured of the shapes, at each size ----

static void make_plain(Instance *inst, size_t shape, size_t nodes, uint64_t seed) {
  make_shape(inst, shape, nodes, nodes * EDGES_A_NODE, seed);
}
static void make_unrepeated(Instance *inst, size_t shape, size_t nodes, uint64_t seed) {
  make_plain(inst, shape, nodes, seed);
  drop_repeats(inst);
  before_cut_to_accepted(inst);
}
// About as many edges, but an edge a node, each written as often as there are edges a node else.
static void make_repeated(Instance *inst, size_t shape, size_t nodes, uint64_t seed) {
  make_shape(inst, shape, nodes, nodes, seed);
  drop_repeats(inst);
  repeat_edges(inst, EDGES_A_NODE);
  before_cut_to_accepted(inst);
}

#ifdef PLACES
static void make_placed(Instance *inst, size_t shape, size_t nodes, uint64_t seed) {
  make_plain(inst, shape, nodes, seed);
  before_cut_to_xs(inst);
}
#endif

typedef struct {
  const char *name, *title;  // the name is for `once`
  Call before, now;
  void (*make)(Instance *inst, size_t shape, size_t nodes, uint64_t seed);
  int width;  // the least number of bytes for a number
} Group;

static const Group groups[] = {
  { "rows", "Rows", rows_before, rows_now, make_plain, 1 },
  { "charts", "Charts, no edge repeated", before_call_chart, now_call_chart, make_unrepeated, 1 },
  { "repeated", "Charts, edges repeated", before_call_chart, now_call_chart, make_repeated, 1 },
  { "", "Records", records_before, records_now, make_plain, 1 },
  { "", "Names", name_before, name_now, make_plain, 1 },
#ifdef WRITES
  { "", "Reading", read_before, read_now, make_plain, 1 },
  { "", "Writing", write_before, write_now, make_plain, 1 },
  { "", "Converting", convert_before, convert_now, make_plain, 3 },
#endif
#ifdef PLACES
  { "xs", "The call for x", xs_before, xs_now, make_placed, 1 },
#endif
#ifdef DRAWS
  { "stroke", "The call for a stroke", stroke_before, stroke_now, make_placed, 1 },
#endif
};
enum { GROUPS = sizeof groups / sizeof *groups };

typedef struct { Pairs pairs; char title[MAX_NAME]; size_t edges, lines; } Measured;  // edges and lines of all tables
static Measured measured[GROUPS][SIZES];
static Pairs searched, wide;

// ---- answers, behind the clock ----

static int gives_bytes, merges;  // the earlier build: earlier.h

static void tidy_rows(ChartAnswer *answer) {
  if (gives_bytes) widen_rows(answer);
}
// Keeps of a chart what does not hang on whether repeated edges are one line: rows and total.
static void keep_rows(ChartAnswer *answer) {
  answer->points = answer->crossings = 0;
  memset(answer->order, 0, sizeof answer->order);
}
static void tidy_unmerged(ChartAnswer *answer) {
  tidy_rows(answer);
  keep_rows(answer);
}

// ---- tables ----

static void open_pairs(Pairs *p, const char *title, Call before, Call now) {
  p->title = title;
  p->way[0] = "before";
  p->way[1] = "now";
  p->call[0] = before;
  p->call[1] = now;
  p->tidy[0] = tidy_rows;
}
static void open_group(Measured *m, const Group *group, size_t nodes) {
  snprintf(m->title, MAX_NAME, "%s, %zu/%zu", group->title, nodes, nodes * EDGES_A_NODE);
  open_pairs(&m->pairs, m->title, group->before, group->now);
  if (group->now == records_now) m->pairs.ready = read_edges;
  if (group->make != make_repeated || merges) return;
  m->pairs.tidy[0] = tidy_unmerged;
  m->pairs.tidy[1] = keep_rows;
}
static void add_pair(Pairs *p, const Instance *inst, int width) {
  Pair *pair = next_pair(p, inst->name);
  for (int way = 0; way < 2; way++) pair->length[way] = now_write_form(inst, (Form){ 1, MUST, 0, width }, pair->table[way]);
}
static void make_group(Measured *m, const Group *group, size_t nodes) {
  static Instance inst, merged;
  open_group(m, group, nodes);
  for (size_t shape = 0; shape < shape_count(); shape++)
    for (int seed = 1; seed <= SEEDS; seed++) {
      group->make(&inst, shape, nodes, seed);
      add_pair(&m->pairs, &inst, group->width);
      merge_edges(&inst, &merged);
      m->edges += inst.edges;
      m->lines += merged.edges;
    }
}
// 0 where a file is no instance.
static int read_stored(int files, char **paths) {
  static Instance inst;
  open_pairs(&searched, "Rows, searched", rows_before, rows_now);
  for (int k = 0; k < files; k++) {
    if (!read_instance(&inst, paths[k])) return 0;
    if (earlier_takes(inst.nodes, inst.edges)) add_pair(&searched, &inst, 1);
  }
  return 1;
}
// Charts with the widest row, for an earlier build that takes so many edges.
static void make_wides(void) {
  static const struct { size_t upper, lower; } nodes[] = { { 4, 72 }, { 72, 4 }, { 8, 36 }, { 17, 17 }, { 24, 24 }, { 32, 32 }, { 48, 48 } };
  static Instance inst;
  open_pairs(&wide, "Charts, widest rows", before_call_chart, now_call_chart);
  for (size_t k = 0; k < sizeof nodes / sizeof *nodes; k++)
    for (int seed = 1; seed <= SEEDS; seed++) {
      make_wide(&inst, nodes[k].upper, nodes[k].lower, seed);
      if (earlier_takes(inst.nodes, inst.edges)) add_pair(&wide, &inst, 1);
    }
}

// ---- runs ----

static int count_sizes(void) {
  int k = 0;
  while (k < SIZES && earlier_takes(node_counts[k], node_counts[k] * EDGES_A_NODE)) k++;
  return k;
}
// Status 2 where there is no such group.
static int run_once(const char *what, size_t nodes) {
  for (int g = 0; g < GROUPS; g++) {
    if (strcmp(groups[g].name, what) != 0) continue;
    make_group(&measured[g][0], &groups[g], nodes);
    run_pairs_once(&measured[g][0].pairs);
    printf("%zu %zu/%zu\n", measured[g][0].pairs.count, nodes, nodes * EDGES_A_NODE);
    return 0;
  }
  return 2;
}
static void print_group(const Measured *m) {
  print_means(&m->pairs);
  if (m->pairs.call[1] != now_call_chart) return;
  printf("  edges in the mean %.1f, lines %.1f\n", (double)m->edges / m->pairs.count, (double)m->lines / m->pairs.count);
}
static void run_all(int count) {
  printf("The earlier build hands out rows as %s, draws repeated edges %s and takes tables of up to %zu steps of those measured here.\n",
         gives_bytes ? "bytes" : "numbers of 16 bits", merges ? "as one line" : "one by one", node_counts[count - 1]);
  for (int g = 0; g < GROUPS; g++)
    for (int k = 0; k < count; k++) {
      make_group(&measured[g][k], &groups[g], node_counts[k]);
      run_pairs(&measured[g][k].pairs);
    }
  if (searched.count > 0) run_pairs(&searched);
  if (wide.count > 0) run_pairs(&wide);
  for (int g = 0; g < GROUPS; g++)
    for (int k = 0; k < count; k++) print_group(&measured[g][k]);
  if (searched.count > 0) print_means(&searched);
  if (wide.count > 0) print_means(&wide);
  printf("Both builds gave the same answer in every round%s.\n", merges ? "" : ", where edges are repeated the same rows and total");
}

int main(int argc, char **argv) {
  int count = count_sizes();
  if (count == 0 || argc - 1 > MAX_PAIRS || shape_count() * SEEDS > MAX_PAIRS) return 2;
  gives_bytes = earlier_gives_bytes();
  merges = earlier_merges();
  if (argc == 3 && strcmp(argv[1], "once") == 0) return run_once(argv[2], node_counts[count - 1]);
  if (!read_stored(argc - 1, argv + 1)) return 2;
  make_wides();
  run_all(count);
  return 0;
}
