// Times the call for x against LEMON's network simplex and against the chart call, and checks every answer.
//   xs
//
// Timed: of ours the whole call, from the table's bytes to the x, and the whole chart call on the same table. Of LEMON run() alone, on the
// network that x_network.c builds of the chart's rows, order and lines.
// In turn: every program once on every table, round after round, the median kept.
#include "merged.h"
#include "peer.h"
#include "rows_call.h"
#include "x_network.h"
#include "x_tables.h"
#include "xs_call.h"
#include <math.h>
#include <stdio.h>
#include <stdlib.h>
#include <string.h>

enum { XS, CHART, LEMON, PROGRAMS };
enum { ROUNDS = 9 };

typedef struct {
  char name[2 * MAX_NAME];  // with the size before it was cut
  Instance inst, merged;
  uint8_t table[YUVATONDRO_MAX_STORED];
  size_t length;
  uint16_t xs[YUVATONDRO_MAX_XS];
  ChartAnswer chart;
  XNetwork network;
  PeerAnswer peer;
  double turn[PROGRAMS][ROUNDS];
} Case;

typedef struct { const char *title; Case cases[MAX_X_TABLES]; size_t count, skipped; } Group;

// What we want of the time of the call for x over another, in the geometric mean over all tables.
static const struct { int program; const char *name; double limit; } limits[] = { { LEMON, "LEMON", 4 }, { CHART, "the chart call", 3 } };
enum { LIMITS = sizeof limits / sizeof *limits };

typedef struct { double log_sum, worst; const char *worst_name; size_t count; } Ratios;

static void stop(const Case *c, const char *fault) {
  printf("%s: %s\n", c->name, fault);
  exit(1);
}

static double run_xs(Case *c) {
  memset(c->xs, 255, sizeof c->xs);  // so that each call must write its answer
  double start = now_us();
  unsigned refusal = call_xs(c->table, c->length, c->xs);
  double end = now_us();
  if (refusal != 0) stop(c, "refused");
  return end - start;
}
static double run_chart(Case *c) {
  double start = now_us();
  call_chart(c->table, c->length, &c->chart);
  double end = now_us();
  if (c->chart.refusal != 0) stop(c, "its chart is refused");
  return end - start;
}
static double run_lemon(Case *c) {
  if (!peer_is_here()) return 0;
  if (!solve_by_peer(network_of_x(&c->network), &c->peer)) stop(c, "LEMON found no optimum");
  return c->peer.run_us;
}
static double (*const run[PROGRAMS])(Case *) = { run_xs, run_chart, run_lemon };

// Each program once; which goes first changes from round to round.
static void run_case(Case *c, int round) {
  for (int k = 0; k < PROGRAMS; k++) {
    int program = (round + k) % PROGRAMS;
    c->turn[program][round] = run[program](c);
  }
  const char *fault = peer_is_here() ? find_x_fault(&c->network, c->xs, c->peer.flow, c->peer.total) : NULL;
  if (fault) stop(c, fault);
}
static void run_group(Group *g) {
  for (int round = 0; round < ROUNDS; round++)
    for (size_t i = 0; i < g->count; i++) run_case(&g->cases[i], round);
}

// Takes an instance into the group, cut to the points that the call takes, unless it has too few then.
static void add_case(void *group, const Instance *inst) {
  Group *g = group;
  Case *c = &g->cases[g->count];
  snprintf(c->name, sizeof c->name, "%s, %zu/%zu", inst->name, inst->nodes, inst->edges);
  c->inst = *inst;
  cut_to_xs(&c->inst);
  merge_edges(&c->inst, &c->merged);
  c->length = write_table(&c->inst, c->table);
  call_chart(c->table, c->length, &c->chart);
  if (c->chart.refusal != 0 || !build_x_network(&c->merged, &c->chart, &c->network)) stop(c, "no chart of the lines");
  if (c->chart.points < FEWEST_POINTS) g->skipped++;
  else g->count++;
}

static int is_here(int program) { return program != LEMON || peer_is_here(); }
static double median(const Case *c, int program) { return median_of(c->turn[program], ROUNDS); }
static void add_ratio(Ratios *r, const Case *c, int program) {
  double ratio = median(c, XS) / median(c, program);
  r->log_sum += log(ratio);
  r->count++;
  if (ratio <= r->worst) return;
  r->worst = ratio;
  r->worst_name = c->name;
}
static void add_ratios(Ratios *ratios, const Group *g) {
  for (int k = 0; k < LIMITS; k++)
    for (size_t i = 0; is_here(limits[k].program) && i < g->count; i++) add_ratio(&ratios[k], &g->cases[i], limits[k].program);
}
static void print_ratios(const Ratios *ratios) {
  for (int k = 0; k < LIMITS; k++)
    if (ratios[k].count > 0)
      printf("  x over %-14s geometric mean %5.2f, worst %5.2f (%s)\n", limits[k].name, exp(ratios[k].log_sum / ratios[k].count),
             ratios[k].worst, ratios[k].worst_name);
}
// A dash for what was not measured.
static void print_number(int program, double value, const char *format) {
  if (is_here(program)) printf(format, value);
  else printf("%9s", "-");
}
static void print_case(const Case *c) {
  printf("%-24s %5zu %5zu %6ld %8zu |", c->name, c->inst.edges, c->merged.edges, c->chart.points, c->network.segments);
  for (int p = 0; p < PROGRAMS; p++) print_number(p, median(c, p), " %8.1f");
  printf(" |");
  for (int k = 0; k < LIMITS; k++) print_number(limits[k].program, median(c, XS) / median(c, limits[k].program), " %8.2f");
  printf("\n");
}
static void print_group(const Group *g) {
  Ratios ratios[LIMITS] = { 0 };
  printf("\n%s: %zu tables of %d to %d points, %zu with fewer left out\n", g->title, g->count, FEWEST_POINTS, YUVATONDRO_MAX_XS, g->skipped);
  printf("%-24s %5s %5s %6s %8s | in turn (us): x, chart, LEMON | x over LEMON, over the chart\n", "", "edges", "lines", "points", "segments");
  for (size_t i = 0; i < g->count; i++) print_case(&g->cases[i]);
  add_ratios(ratios, g);
  print_ratios(ratios);
}

static const Case *find_slowest(const Case *slowest, const Group *g) {
  for (size_t i = 0; i < g->count; i++) if (!slowest || median(&g->cases[i], XS) > median(slowest, XS)) slowest = &g->cases[i];
  return slowest;
}
static void print_all(const Group *shapes, const Group *layered) {
  Ratios ratios[LIMITS] = { 0 };
  const Case *slowest = find_slowest(find_slowest(NULL, shapes), layered);
  add_ratios(ratios, shapes);
  add_ratios(ratios, layered);
  printf("\nAll %zu tables\n", shapes->count + layered->count);
  print_ratios(ratios);
  for (int k = 0; k < LIMITS; k++) {
    double mean = exp(ratios[k].log_sum / ratios[k].count);
    if (ratios[k].count > 0)
      printf("  limit of x over %s in the mean: %.0f, %s at %.2f\n", limits[k].name, limits[k].limit,
             mean <= limits[k].limit ? "met" : "NOT MET", mean);
  }
  printf("The slowest table of the call for x: %.0f us (%s, %ld points)\n", median(slowest, XS), slowest->name, slowest->chart.points);
}

int main(void) {
  static Group shapes = { .title = "Shapes, whole or cut" }, layered = { .title = "Layers" };
  if (!take_x_shapes(add_case, &shapes)) return 2;
  take_x_layers(add_case, &layered);
  run_group(&shapes);
  run_group(&layered);
  print_group(&shapes);
  print_group(&layered);
  print_all(&shapes, &layered);
  if (peer_is_here()) printf("\nEvery answer of every round was checked: apart, of LEMON's sum, least and lowest by certificate.\n");
  else printf("\nNo answer was checked, as LEMON is missing.\n");
  return 0;
}
