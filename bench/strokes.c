// Times the call for a stroke against the call for x, whose work it has to do too, and checks every answer.
//   strokes
//
// Timed: the call for x, the stroke at index 0, the last stroke, and all strokes of the chart one after another, with the call that says that
// there are no more; each from the table's bytes on.
// In turn: every one once on every table, round after round, the median kept. All strokes, which are hundreds of calls, in one round alone.
#include "chart_call.h"
#include "clock.h"
#include "merged.h"
#include "rows_call.h"
#include "strokes_call.h"
#include "x_tables.h"
#include "xs_call.h"
#include <math.h>
#include <stdio.h>
#include <stdlib.h>
#include <string.h>

enum { XS, FIRST, LAST, ALL, WORKS };
enum { ROUNDS = 9 };

typedef struct {
  char name[2 * MAX_NAME];  // with the size before it was cut
  uint8_t table[YUVATONDRO_MAX_STORED];
  size_t length, edges, lines, strokes;
  long points;
  uint16_t due_xs[YUVATONDRO_MAX_XS], xs[YUVATONDRO_MAX_XS];
  Stroke due[YUVATONDRO_MAX_STROKES], given[YUVATONDRO_MAX_STROKES];
  double turn[ALL][ROUNDS], all;
} Case;

typedef struct { const char *title; Case cases[MAX_X_TABLES]; size_t count, skipped; } Group;

static const char *const names[WORKS] = { "the call for x", "the first stroke", "the last stroke", "all strokes" };

typedef struct { double log_sum, worst; const char *worst_name; size_t count; } Ratios;

static void stop(const Case *c, const char *fault) {
  printf("%s: %s\n", c->name, fault);
  exit(1);
}

static int is_same(const Stroke *a, const Stroke *b) { return a->what == b->what && a->x == b->x && a->y == b->y; }

static double run_xs(Case *c) {
  memset(c->xs, 255, sizeof c->xs);  // so that each call must write its answer
  double start = now_us();
  unsigned refusal = call_xs(c->table, c->length, c->xs);
  double end = now_us();
  if (refusal != 0 || memcmp(c->xs, c->due_xs, c->points * sizeof *c->xs) != 0) stop(c, "other x");
  return end - start;
}
static double run_stroke(Case *c, size_t index) {
  Stroke stroke;
  double start = now_us();
  unsigned refusal = call_stroke(c->table, c->length, index, &stroke);
  double end = now_us();
  if (refusal != 0 || !is_same(&stroke, &c->due[index])) stop(c, "another stroke");
  return end - start;
}
static double run_first(Case *c) { return run_stroke(c, 0); }
static double run_last(Case *c) { return run_stroke(c, c->strokes - 1); }
static double run_all(Case *c) {
  double start = now_us();
  size_t strokes = call_strokes(c->table, c->length, c->given);
  double end = now_us();
  if (strokes != c->strokes) stop(c, "another number of strokes");
  for (size_t i = 0; i < strokes; i++) if (!is_same(&c->given[i], &c->due[i])) stop(c, "another stroke");
  return end - start;
}
static double (*const run[ALL])(Case *) = { run_xs, run_first, run_last };

// Each once; which goes first changes from round to round.
static void run_group(Group *g) {
  for (int round = 0; round < ROUNDS; round++)
    for (size_t i = 0; i < g->count; i++)
      for (int k = 0; k < ALL; k++) {
        int work = (round + k) % ALL;
        g->cases[i].turn[work][round] = run[work](&g->cases[i]);
      }
  for (size_t i = 0; i < g->count; i++) g->cases[i].all = run_all(&g->cases[i]);
}

// The strokes that are due, by the lines of the instance, the chart's rows and its x. All edges are must, so every line leads down.
static void find_due(Case *c, const Instance *merged, const ChartAnswer *chart) {
  size_t dummy = merged->nodes;
  c->strokes = 0;
  for (size_t i = 0; i < merged->edges; i++) {
    const Edge *e = &merged->edge[i];
    for (int row = chart->rows[e->from]; row <= chart->rows[e->to]; row++) {
      int is_move = row == chart->rows[e->from];
      size_t point = is_move ? e->from : row == chart->rows[e->to] ? e->to : dummy++;
      Stroke due = { is_move ? YUVATONDRO_MOVE : YUVATONDRO_LINE, 12.5f * c->due_xs[point], 7.25f * row };
      c->due[c->strokes++] = due;
    }
  }
}
// Takes an instance into the group, cut to the points that the calls take, unless it has too few then.
static void add_case(void *group, const Instance *inst) {
  static Instance cut, merged;
  static ChartAnswer chart;
  Group *g = group;
  Case *c = &g->cases[g->count];
  snprintf(c->name, sizeof c->name, "%s, %zu/%zu", inst->name, inst->nodes, inst->edges);
  cut = *inst;
  cut_to_xs(&cut);
  merge_edges(&cut, &merged);
  c->length = write_table(&cut, c->table);
  call_chart(c->table, c->length, &chart);
  if (chart.refusal != 0 || call_xs(c->table, c->length, c->due_xs) != 0) stop(c, "refused");
  c->edges = cut.edges;
  c->lines = merged.edges;
  c->points = chart.points;
  find_due(c, &merged, &chart);
  if (chart.points < FEWEST_POINTS) g->skipped++;
  else g->count++;
}

static double time_of(const Case *c, int work) { return work == ALL ? c->all : median_of(c->turn[work], ROUNDS); }
static void add_ratios(Ratios *ratios, const Group *g) {
  for (int work = FIRST; work < WORKS; work++)
    for (size_t i = 0; i < g->count; i++) {
      Ratios *r = &ratios[work];
      double ratio = time_of(&g->cases[i], work) / time_of(&g->cases[i], XS);
      r->log_sum += log(ratio);
      r->count++;
      if (ratio <= r->worst) continue;
      r->worst = ratio;
      r->worst_name = g->cases[i].name;
    }
}
static void print_ratios(const Ratios *ratios) {
  for (int work = FIRST; work < WORKS; work++)
    printf("  %-16s over the call for x: geometric mean %7.3f, worst %7.3f (%s)\n", names[work],
           exp(ratios[work].log_sum / ratios[work].count), ratios[work].worst, ratios[work].worst_name);
}
static void print_case(const Case *c) {
  printf("%-24s %5zu %5zu %6ld %7zu |", c->name, c->edges, c->lines, c->points, c->strokes);
  for (int work = 0; work < WORKS; work++) printf(" %8.1f", time_of(c, work));
  printf(" |");
  for (int work = FIRST; work < WORKS; work++) printf(" %8.3f", time_of(c, work) / time_of(c, XS));
  printf("\n");
}
static void print_group(const Group *g) {
  Ratios ratios[WORKS] = { 0 };
  printf("\n%s: %zu tables of %d to %d points, %zu with fewer left out\n", g->title, g->count, FEWEST_POINTS, YUVATONDRO_MAX_XS, g->skipped);
  printf("%-24s %5s %5s %6s %7s | in turn (us): x, first stroke, last; all | over x: first, last, all\n", "", "edges", "lines", "points",
         "strokes");
  for (size_t i = 0; i < g->count; i++) print_case(&g->cases[i]);
  add_ratios(ratios, g);
  print_ratios(ratios);
}

static void print_slowest(const Group *shapes, const Group *layered, int work) {
  const Group *groups[2] = { shapes, layered };
  const Case *slowest = &shapes->cases[0];
  for (int k = 0; k < 2; k++)
    for (size_t i = 0; i < groups[k]->count; i++)
      if (time_of(&groups[k]->cases[i], work) > time_of(slowest, work)) slowest = &groups[k]->cases[i];
  printf("The slowest table of %s: %.0f us (%s, %ld points, %zu strokes)\n", names[work], time_of(slowest, work), slowest->name,
         slowest->points, slowest->strokes);
}
static void print_all(const Group *shapes, const Group *layered) {
  Ratios ratios[WORKS] = { 0 };
  add_ratios(ratios, shapes);
  add_ratios(ratios, layered);
  printf("\nAll %zu tables\n", shapes->count + layered->count);
  print_ratios(ratios);
  for (int work = 0; work < WORKS; work++) print_slowest(shapes, layered, work);
}

int main(void) {
  static Group shapes = { .title = "Shapes, whole or cut" }, layered = { .title = "Layers" };
  if (!take_x_shapes(add_case, &shapes)) return 2;
  take_x_layers(add_case, &layered);
  run_group(&shapes);
  run_group(&layered);
  print_group(&shapes);
  print_group(&layered);
  print_all(&shapes, &layered);
  printf("\nEvery answer of every round was checked: x the same each time, strokes by the lines, the rows and the x of the chart.\n");
  return 0;
}
