// What the rows benchmark prints.
#include "clock.h"
#include "rows_case.h"
#include <math.h>
#include <stdio.h>
#include <string.h>

static const char *const names[PROGRAMS] = { "ours", "textbook", "LEMON" };

typedef struct { double log_sum, worst; const char *worst_name; size_t count; } Means;

static int is_here(int program) { return program != LEMON || peer_is_here(); }
static double median(const double *times) { return median_of(times, ROUNDS); }
static void add(Means *m, double value, const char *name) {
  m->log_sum += log(value);
  m->count++;
  if (value <= m->worst) return;
  m->worst = value;
  m->worst_name = name;
}
static double mean_of(const Means *m) { return exp(m->log_sum / m->count); }

static double ratio_in_turn(const Case *c, int program) { return median(c->turn[OURS]) / median(c->turn[program]); }
static double ratio_again(const Case *c, int program) { return c->again[OURS] / c->again[program]; }

// A number, or a dash for a program that was left out.
static void print_number(int program, const char *format, double value) {
  if (is_here(program)) printf(format, value);
  else printf("%9s", "-");
}
static void print_case(const Case *c) {
  printf("%-16s %5zu %5zu |", c->inst.name, c->inst.nodes, c->inst.edges);
  for (int p = 0; p < PROGRAMS; p++) print_number(p, " %8.1f", median(c->turn[p]));
  printf(" |");
  for (int p = TEXTBOOK; p < PROGRAMS; p++) print_number(p, " %8.2f", ratio_in_turn(c, p));
  printf(" |");
  for (int p = TEXTBOOK; p < PROGRAMS; p++) print_number(p, " %8.2f", ratio_again(c, p));
  printf(" | %6d %6d | %6u %6u\n", (int)c->work.pushes, (int)c->work.raises, c->textbook.exchanges, c->textbook.idle);
}
static void print_ratios(const Group *group, int program) {
  Means turn = { 0 }, again = { 0 };
  if (!is_here(program)) return;
  for (size_t i = 0; i < group->count; i++) {
    const Case *c = &group->cases[i];
    add(&turn, ratio_in_turn(c, program), c->inst.name);
    add(&again, ratio_again(c, program), c->inst.name);
  }
  printf("  ours over %-8s in turn: geometric mean %5.2f, worst %5.2f (%s); back to back: %5.2f, worst %5.2f (%s)\n", names[program],
         mean_of(&turn), turn.worst, turn.worst_name, mean_of(&again), again.worst, again.worst_name);
}
static void print_building(const Group *group) {
  Means build = { 0 };
  if (!peer_is_here()) return;
  for (size_t i = 0; i < group->count; i++) add(&build, median(group->cases[i].build), "");
  printf("  not counted above: LEMON's building of its graph, geometric mean %.1f us\n", mean_of(&build));
}
static void print_not_lowest(const Group *group) {
  size_t count = 0;
  for (size_t i = 0; i < group->count; i++) {
    const Case *c = &group->cases[i];
    count += memcmp(c->rows, c->textbook.rows, c->inst.nodes * sizeof *c->rows) != 0;
  }
  printf("  the textbook method's rows are least, but not the lowest, on %zu of %zu\n", count, group->count);
}
void print_group(const char *title, const Group *group) {
  if (group->count == 0) return;
  printf("\n%s, %zu/%zu\n%-16s nodes edges | in turn (us): ours, textbook, LEMON | ours over textbook, LEMON | back to back | pushes, raises |"
         " exchanges, idle\n", title, group->nodes, group->edges, "");
  for (size_t i = 0; i < group->count; i++) print_case(&group->cases[i]);
  print_ratios(group, TEXTBOOK);
  print_ratios(group, LEMON);
  print_building(group);
  print_not_lowest(group);
}

// Geometric mean, least and most of a program's times in turn; bench/plot reads these lines.
static double print_times(const Group *group, int program) {
  Means times = { 0 };
  double least = INFINITY;
  for (size_t i = 0; i < group->count; i++) {
    double t = median(group->cases[i].turn[program]);
    add(&times, t, "");
    least = fmin(least, t);
  }
  printf(" %s %.2f %.2f %.2f", names[program], mean_of(&times), least, times.worst);
  return mean_of(&times);
}
// One line of them; the means go to `means`.
static void print_size(const char *what, const Group *group, double *means) {
  printf("%s %zu/%zu", what, group->nodes, group->edges);
  for (int p = 0; p < PROGRAMS; p++) if (is_here(p)) means[p] = print_times(group, p);
  printf("\n");
}
void print_growth(const Group *shapes, const Group *searched, size_t sizes) {
  double means[PROGRAMS] = { 0 }, before[PROGRAMS] = { 0 };
  printf("\nGrowth with size: in turn, over the shapes, geometric mean, least and most (us)\n");
  for (size_t k = 0; k < sizes; k++) {
    print_size("size", &shapes[k], means);
    if (k > 0) printf("  %.1f times the size:", (double)shapes[k].nodes / shapes[k - 1].nodes);
    for (int p = 0; k > 0 && p < PROGRAMS; p++) if (is_here(p)) printf(" %s x %.1f", names[p], means[p] / before[p]);
    if (k > 0) printf("\n");
    memcpy(before, means, sizeof before);
  }
  for (size_t k = 0; k < sizes; k++) if (searched[k].count > 0) print_size("searched", &searched[k], means);
}

static void add_slowest(Means *slowest, const Group *group, int program) {
  for (size_t i = 0; i < group->count; i++) add(slowest, median(group->cases[i].turn[program]), group->cases[i].inst.name);
}
void print_worst(const Group *shapes, const Group *searched) {
  printf("\nThe slowest instance of each, %zu/%zu, in turn (us):", shapes->nodes, shapes->edges);
  for (int p = 0; p < PROGRAMS; p++) {
    Means slowest = { 0 };
    if (!is_here(p)) continue;
    add_slowest(&slowest, shapes, p);
    add_slowest(&slowest, searched, p);
    printf("%s %s %.1f (%s)", p > 0 ? "," : "", names[p], slowest.worst, slowest.worst_name);
  }
  printf("\n");
}
