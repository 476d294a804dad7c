// Times the chart call against graphviz's dot and checks every answer.
//   charts FILE..   the shapes of shapes.c and the stored instances FILE..
//
// Timed: of ours the whole call, from the table's bytes to rows and order. Of dot gvLayout alone, as graphviz.c sets it up, on the table's
// lines: what ours draws, so that dot is not charged for edges that ours merges first.
// In turn: every program once on every table, round after round, the median kept.
// Again: a second call right after the first on the same table, of ours and of dot's ranks and order alone.
#include "chart_call.h"
#include "graphviz.h"
#include "merged.h"
#include "rows_call.h"
#include "sizes.h"
#include <math.h>
#include <stdio.h>
#include <stdlib.h>
#include <string.h>

enum { ROUNDS = 5, MAX_CASES = 64 };

typedef struct {
  Instance inst, merged;
  uint8_t table[YUVATONDRO_MAX_STORED];
  size_t length;
  ChartAnswer answer;
  long dot_crossings, dot_total;
  double ours[ROUNDS], dot[SETTINGS][ROUNDS], apart[ROUNDS];
  double ours_again[ROUNDS], dot_again[ROUNDS];
} Case;

typedef struct { Case cases[MAX_CASES]; size_t count; } Group;

// The tables of one size: the shapes that are accepted as they are, those cut until they are, and the stored instances that are accepted.
typedef struct { Group whole, near, stored; size_t nodes, stored_refused; } Size;

typedef struct { double log_sum, least; const char *least_name; size_t count; } Ratios;

static void stop(const Case *c, const char *fault) {
  printf("%s: %s\n", c->inst.name, fault);
  exit(1);
}
static void prepare(Case *c) {
  c->length = write_table(&c->inst, c->table);
  merge_edges(&c->inst, &c->merged);
}

// Our answer against its own order: rows feasible, order an order of the points, and points, total and crossings counted again. Rows and
// total are of the table's edges, points and crossings of its lines.
static void check_ours(const Case *c) {
  static Drawing d;
  const ChartAnswer *a = &c->answer;
  if (a->refusal != 0) stop(c, "refused");
  if (!read_chart(&c->merged, a, &d)) stop(c, "no order of its points");
  if (!is_feasible(&c->inst, &d)) stop(c, "rows not feasible");
  if (count_points(&c->merged, &d) != a->points) stop(c, "other points");
  if (count_total(&c->inst, &d) != a->total) stop(c, "other total");
  if (count_crossings(&c->merged, &d) != a->crossings) stop(c, "other crossings");
}
// dot also ranks for the least total, and the lines have the totals of the edges: its total cannot be less than ours. It may be more, since
// dot's search does not always reach the least; print_not_least tells how often.
static void check_dot(Case *c, const Drawing *d) {
  if (!is_feasible(&c->inst, d)) stop(c, "dot's ranks not feasible");
  c->dot_total = count_total(&c->inst, d);
  if (c->dot_total < c->answer.total) stop(c, "dot has a smaller total");
  c->dot_crossings = count_crossings(&c->merged, d);
}
static double run_ours(Case *c) {
  memset(&c->answer, 255, sizeof c->answer);  // so that each call must write its answer
  double start = now_us();
  call_chart(c->table, c->length, &c->answer);
  double end = now_us();
  check_ours(c);
  return end - start;
}
static void run_ours_twice(Case *c, int round) {
  c->ours[round] = run_ours(c);
  c->ours_again[round] = run_ours(c);
}
static DotTimes run_dot(Case *c, int setting) {
  static Drawing d;
  DotTimes times;
  int read = setting == ORDER_ONLY;
  if (!draw_by_dot(&c->merged, setting, &times, read ? &d : NULL)) stop(c, "dot failed");
  if (read) check_dot(c, &d);
  return times;
}
static void run_dots(Case *c, int round) {
  for (int s = 0; s < SETTINGS; s++) {
    DotTimes times = run_dot(c, s);
    c->dot[s][round] = times.layout_us;
    if (s == NO_CURVES) c->apart[round] = times.apart_us;
    if (s == ORDER_ONLY) c->dot_again[round] = run_dot(c, s).layout_us;
  }
}
// One table by each program; which goes first changes from round to round.
static void run_case(Case *c, int round) {
  if (round % 2 == 0) run_ours_twice(c, round);
  run_dots(c, round);
  if (round % 2) run_ours_twice(c, round);
}
static void run_group(Group *g) {
  for (int round = 0; round < ROUNDS; round++)
    for (size_t i = 0; i < g->count; i++) run_case(&g->cases[i], round);
}

static double median(const double *times) { return median_of(times, ROUNDS); }

static void add_ratio(Ratios *r, double ratio, const char *name) {
  r->log_sum += log(ratio);
  if (r->count++ == 0 || ratio < r->least) {
    r->least = ratio;
    r->least_name = name;
  }
}
static void print_case(const Case *c) {
  printf("%-16s %5zu %5zu %5zu %6ld %6ld %6ld %8.1f", c->inst.name, c->inst.nodes, c->inst.edges, c->merged.edges, c->answer.points,
         c->answer.crossings, c->dot_crossings, median(c->ours));
  for (int s = 0; s < SETTINGS; s++) printf(" %9.0f %7.2f", median(c->dot[s]), median(c->dot[s]) / median(c->ours));
  printf(" %8.0f\n", median(c->apart));
}
static void print_ratios(const Ratios *ratios) {
  static const char *const titles[SETTINGS] = { "ranks and order alone:", "no curves:", "as it comes:" };
  for (int s = 0; s < SETTINGS; s++)
    printf("  %-22s geometric mean %6.2f, smallest %6.2f (%s)\n", titles[s], exp(ratios[s].log_sum / ratios[s].count), ratios[s].least,
           ratios[s].least_name);
}
static void add_case(Ratios *ratios, const Case *c) {
  for (int s = 0; s < SETTINGS; s++) add_ratio(&ratios[s], median(c->dot[s]) / median(c->ours), c->inst.name);
}
static void print_group(const char *title, const Group *g, Ratios *all) {
  Ratios group[SETTINGS] = { 0 };
  if (g->count == 0) return;
  printf("\n%s\n%-16s %5s %5s %5s %6s | crossings: ours, dot | ours | dot, dot / ours: ranks and order, no curves, as it comes | apart (us)\n",
         title, "", "nodes", "edges", "lines", "points");
  for (size_t i = 0; i < g->count; i++) {
    print_case(&g->cases[i]);
    add_case(group, &g->cases[i]);
    add_case(all, &g->cases[i]);
  }
  print_ratios(group);
}

// 1 where the table has few enough points.
static int is_accepted(Case *c) {
  prepare(c);
  call_chart(c->table, c->length, &c->answer);
  if (c->answer.refusal != 0 && c->answer.refusal != REFUSED_MANY_POINTS) stop(c, "refused, but not for its points");
  return c->answer.refusal == 0;
}
// The first edges of a refused table, as many as are accepted: it then has about as many points as a chart may have.
static void cut(Case *c) {
  while (!is_accepted(c)) {
    if (c->inst.edges == 0) stop(c, "refused without edges");
    c->inst.edges--;
  }
}
static void make_size(Size *s, size_t nodes) {
  s->nodes = nodes;
  for (size_t shape = 0; shape < shape_count(); shape++)
    for (int seed = 1; seed <= SEEDS; seed++) {
      Case *c = &s->whole.cases[s->whole.count];
      make_shape(&c->inst, shape, nodes, nodes * EDGES_A_NODE, seed);
      if (is_accepted(c)) {
        s->whole.count++;
        continue;
      }
      s->near.cases[s->near.count] = *c;
      cut(&s->near.cases[s->near.count++]);
    }
}
static void run_size(Size *s) {
  run_group(&s->whole);
  run_group(&s->near);
  run_group(&s->stored);
}

// A stored instance goes to its size, if it is accepted.
static void add_stored(Size *s, const Instance *inst) {
  Case *c = &s->stored.cases[s->stored.count];
  c->inst = *inst;
  if (is_accepted(c)) s->stored.count++;
  else s->stored_refused++;
}
static void read_stored(Size *sizes, int files, char **paths) {
  static Instance inst;
  for (int k = 0; k < files; k++) {
    int size = read_instance(&inst, paths[k]) ? find_size(inst.nodes) : SIZES;
    if (size == SIZES) {
      printf("%s: no instance of a size that is measured\n", paths[k]);
      exit(1);
    }
    add_stored(&sizes[size], &inst);
  }
}

// Geometric means at a size: points, time of ours, and of dot's ranks and order alone, each in turn and again.
typedef struct { double points, ours, dot, ours_again, dot_again; } SizeMeans;

static void add_logs(SizeMeans *m, const Group *g) {
  for (size_t i = 0; i < g->count; i++) {
    const Case *c = &g->cases[i];
    m->points += log(c->answer.points);
    m->ours += log(median(c->ours));
    m->dot += log(median(c->dot[ORDER_ONLY]));
    m->ours_again += log(median(c->ours_again));
    m->dot_again += log(median(c->dot_again));
  }
}
static SizeMeans means_of(const Size *s) {
  SizeMeans m = { 0 };
  add_logs(&m, &s->whole);
  add_logs(&m, &s->near);
  size_t all = s->whole.count + s->near.count;
  return (SizeMeans){ exp(m.points / all), exp(m.ours / all), exp(m.dot / all), exp(m.ours_again / all), exp(m.dot_again / all) };
}
static void print_growth(const Size *sizes) {
  SizeMeans before = { 0 };
  printf("\nGrowth with size: geometric means over the shapes (us); dot finds ranks and order alone\n");
  for (int k = 0; k < SIZES; k++) {
    SizeMeans m = means_of(&sizes[k]);
    printf("size %zu/%zu points %.0f ours %.1f dot %.0f ratio %.1f, again %.1f %.0f %.1f", sizes[k].nodes, sizes[k].nodes * EDGES_A_NODE,
           m.points, m.ours, m.dot, m.dot / m.ours, m.ours_again, m.dot_again, m.dot_again / m.ours_again);
    if (k > 0)
      printf("; %.1f times the size: points x %.1f, ours x %.1f, dot x %.1f", (double)sizes[k].nodes / sizes[k - 1].nodes,
             m.points / before.points, m.ours / before.ours, m.dot / before.dot);
    printf("\n");
    before = m;
  }
}
static size_t count_not_least(const Group *g) {
  size_t more = 0;
  for (size_t i = 0; i < g->count; i++) more += g->cases[i].dot_total > g->cases[i].answer.total;
  return more;
}
static void print_not_least(const Size *sizes) {
  size_t more = 0, all = 0;
  for (int k = 0; k < SIZES; k++) {
    const Size *s = &sizes[k];
    more += count_not_least(&s->whole) + count_not_least(&s->near) + count_not_least(&s->stored);
    all += s->whole.count + s->near.count + s->stored.count;
  }
  printf("\ndot's ranks are feasible on all %zu tables of all sizes, and not of least total on %zu\n", all, more);
}
static const Case *find_slowest(const Case *slowest, const Group *g) {
  for (size_t i = 0; i < g->count; i++) if (!slowest || median(g->cases[i].ours) > median(slowest->ours)) slowest = &g->cases[i];
  return slowest;
}
static void print_slowest(const Size *s) {
  const Case *slowest = find_slowest(find_slowest(find_slowest(NULL, &s->whole), &s->near), &s->stored);
  printf("The slowest table of ours: %.0f us (%s, %ld points)\n", median(slowest->ours), slowest->inst.name, slowest->answer.points);
}
static void print_size(const Size *s) {
  Ratios all[SETTINGS] = { 0 };
  size_t edges = s->nodes * EDGES_A_NODE;
  printf("\n%zu/%zu: of the shapes %zu accepted, %zu refused for their points; of the stored instances %zu and %zu\n", s->nodes, edges,
         s->whole.count, s->near.count, s->stored.count, s->stored_refused);
  print_group("Shapes", &s->whole, all);
  print_group("The refused shapes, with as many of their first edges as are accepted", &s->near, all);
  print_group("Stored: found by searching for instances bad for our rows", &s->stored, all);
  printf("\nAll tables of %zu/%zu: dot over ours\n", s->nodes, edges);
  print_ratios(all);
  print_slowest(s);
}

int main(int argc, char **argv) {
  static Size sizes[SIZES];
  if (argc - 1 > MAX_CASES || shape_count() * SEEDS > MAX_CASES) return 2;
  for (int k = 0; k < SIZES; k++) make_size(&sizes[k], node_counts[k]);
  read_stored(sizes, argc - 1, argv + 1);
  printf("graphviz %s\n", dot_version());
  for (int k = 0; k < SIZES; k++) run_size(&sizes[k]);
  for (int k = FIRST_SHOWN; k < SIZES; k++) print_size(&sizes[k]);
  print_growth(sizes);
  print_not_least(sizes);
  printf("\nEvery answer of ours was counted again from its rows and order.\n");
  return 0;
}
