// Times the call for the best order of a row of 32 points against the chart call, whose work it has to do too, and checks every answer.
//   orders
//
// Timed: the chart call, the call with no tries and the call with 50,000, each from the table's bytes on.
// In turn: every one once on every table, round after round, the median kept. Ends with status 1 where the slowest table takes longer than the
// limit with 50,000 tries.
#include "clock.h"
#include "merged.h"
#include "row_search.h"
#include "rows_call.h"
#include "sizes.h"
#include <math.h>
#include <stdio.h>
#include <stdlib.h>
#include <string.h>

enum { CHART, PRESENT, BEST, WORKS };
enum { ROUNDS = 9, MAX_CASES = 96, POINTS = YUVATONDRO_MAX_ROW_POINTS };
static const double limit_us = 10000;  // of the slowest table

typedef struct {
  char name[2 * MAX_NAME];  // with the size
  uint8_t table[YUVATONDRO_MAX_STORED];
  size_t length, lines, row;
  long segments;
  ChartAnswer chart;
  OrderAnswer due[WORKS];
  double turn[WORKS][ROUNDS];
} Case;

static Case cases[MAX_CASES];
static size_t count, skipped;

static const char *const names[WORKS] = { "the chart call", "no tries", "50,000 tries" };
static const size_t tries_of[WORKS] = { [PRESENT] = 0, [BEST] = YUVATONDRO_MAX_TRIES };

static void stop(const Case *c, const char *fault) {
  printf("%s: %s\n", c->name, fault);
  exit(1);
}

static double run_chart(const Case *c) {
  static ChartAnswer chart;
  double start = now_us();
  call_chart(c->table, c->length, &chart);
  double end = now_us();
  if (chart.refusal != 0 || chart.crossings != c->chart.crossings) stop(c, "another chart");
  return end - start;
}
static double run_order(const Case *c, int work) {
  OrderAnswer answer;
  memset(&answer, 255, sizeof answer);  // so that each call must write its answer
  double start = now_us();
  call_row_order(c->table, c->length, c->row, tries_of[work], &answer);
  double end = now_us();
  const OrderAnswer *due = &c->due[work];
  if (answer.refusal != 0 || answer.points != due->points) stop(c, "refused, or other points");
  if (memcmp(answer.order, due->order, due->points * sizeof *due->order) != 0) stop(c, "another order");
  if (answer.crossings != due->crossings || answer.floor != due->floor) stop(c, "other crossings, or another floor");
  return end - start;
}
static double run(const Case *c, int work) { return work == CHART ? run_chart(c) : run_order(c, work); }

// Each once; which goes first changes from round to round.
static void run_cases(void) {
  for (int round = 0; round < ROUNDS; round++)
    for (size_t i = 0; i < count; i++)
      for (int k = 0; k < WORKS; k++) {
        int work = (round + k) % WORKS;
        cases[i].turn[work][round] = run(&cases[i], work);
      }
}

// The row of 32 points with most segments above it; 0 where there is none.
static size_t find_fullest_row(const Instance *merged, const ChartAnswer *chart, ChartRow *fullest) {
  static ChartRow row;
  size_t found = 0;
  for (size_t number = 1; number <= YUVATONDRO_MAX_ROW; number++) {
    if (!find_chart_row(merged, chart, number, &row) || row.points != POINTS || (found && row.segments <= fullest->segments)) continue;
    *fullest = row;
    found = number;
  }
  return found;
}
// Takes an instance with its row and the answers that are due, unless it has no row of 32 points.
static void add_case(const Instance *inst) {
  static Instance merged;
  static ChartRow row;
  Case *c = &cases[count];
  snprintf(c->name, sizeof c->name, "%s, %zu/%zu", inst->name, inst->nodes, inst->edges);
  merge_edges(inst, &merged);
  c->lines = merged.edges;
  c->length = write_table(inst, c->table);
  call_chart(c->table, c->length, &c->chart);
  if (c->chart.refusal != 0) stop(c, "its chart is refused");
  c->row = find_fullest_row(&merged, &c->chart, &row);
  if (c->row == 0) {
    skipped++;
    return;
  }
  c->segments = row.segments;
  for (int work = PRESENT; work < WORKS; work++) search_row(&row, tries_of[work], &c->due[work]);
  count++;
}
// Made to have such rows, from few segments to as many as there can be.
static void add_made(void) {
  static const size_t upper[] = { 9, 16, 32, 64 }, edges[] = { 32, 64, 144, YUVATONDRO_MAX_EDGES };
  static const size_t layered[] = { 100, 150, 200, 250, YUVATONDRO_MAX_EDGES };
  enum { UPPER = sizeof upper / sizeof *upper, EDGES = sizeof edges / sizeof *edges, LAYERED = sizeof layered / sizeof *layered };
  _Static_assert((UPPER * EDGES + LAYERED + 1) * SEEDS <= MAX_CASES, "too many tables");
  static Instance inst;
  for (int seed = 1; seed <= SEEDS; seed++) {
    for (int k = 0; k < UPPER * EDGES; k++) {
      make_two_rows(&inst, upper[k / EDGES], POINTS, edges[k % EDGES], seed);
      add_case(&inst);
    }
    for (int k = 0; k < LAYERED; k++) {
      make_layers(&inst, YUVATONDRO_MAX_STEPS / POINTS, layered[k], 0, seed);
      add_case(&inst);
    }
    make_tall(&inst, seed);
    add_case(&inst);
  }
}

// The largest shapes, with as many edges as are accepted, so that their charts have up to as many points as there may be.
static void add_shapes(void) {
  static Instance inst;
  for (size_t shape = 0; shape < shape_count(); shape++)
    for (int seed = 1; seed <= SEEDS && count < MAX_CASES; seed++) {
      make_shape(&inst, shape, YUVATONDRO_MAX_STEPS, YUVATONDRO_MAX_EDGES, seed);
      cut_to_accepted(&inst);
      add_case(&inst);
    }
}

static double median(const Case *c, int work) { return median_of(c->turn[work], ROUNDS); }
static void print_cases(void) {
  printf("%zu tables with a row of %d points, %zu without one left out\n", count, POINTS, skipped);
  printf("%-24s %5s %6s %4s %8s | crossings: as it is, found, floor | in turn (us): chart, no tries, 50,000 | over the chart\n", "", "lines",
         "points", "row", "segments");
  for (size_t i = 0; i < count; i++) {
    const Case *c = &cases[i];
    printf("%-24s %5zu %6ld %4zu %8ld | %6ld %6ld %6ld |", c->name, c->lines, c->chart.points, c->row, c->segments, c->due[PRESENT].crossings,
           c->due[BEST].crossings, c->due[BEST].floor);
    for (int work = 0; work < WORKS; work++) printf(" %8.1f", median(c, work));
    printf(" | %6.3f %6.1f\n", median(c, PRESENT) / median(c, CHART), median(c, BEST) / median(c, CHART));
  }
}
static void print_ratio(int work) {
  double log_sum = 0, worst = 0;
  const char *worst_name = "";
  for (size_t i = 0; i < count; i++) {
    double ratio = median(&cases[i], work) / median(&cases[i], CHART);
    log_sum += log(ratio);
    if (ratio <= worst) continue;
    worst = ratio;
    worst_name = cases[i].name;
  }
  printf("  %-12s over the chart call: geometric mean %7.3f, worst %7.3f (%s)\n", names[work], exp(log_sum / count), worst, worst_name);
}
// Gives the time of the slowest table.
static double print_slowest(int work) {
  const Case *slowest = &cases[0];
  double sum = 0;
  for (size_t i = 0; i < count; i++) {
    sum += median(&cases[i], work);
    if (median(&cases[i], work) > median(slowest, work)) slowest = &cases[i];
  }
  printf("The slowest table of %s: %.0f us (%s, %ld segments), in the mean %.0f us\n", names[work], median(slowest, work), slowest->name,
         slowest->segments, sum / count);
  return median(slowest, work);
}

int main(void) {
  double slowest = 0;
  add_made();
  add_shapes();
  run_cases();
  print_cases();
  print_ratio(PRESENT);
  print_ratio(BEST);
  for (int work = 0; work < WORKS; work++) slowest = print_slowest(work);
  printf("limit of the slowest table of %s: %.0f us, %s at %.0f\n", names[BEST], limit_us, slowest <= limit_us ? "met" : "NOT MET", slowest);
  printf("\nEvery answer of every round was checked: the order, its crossings and the floor by a plain search of our own.\n");
  return slowest > limit_us;
}
