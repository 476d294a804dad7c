// What it costs to write the shortest form of a table, beside reading the table and beside finding its rows; and to convert the same table in
// long forms, beside reading it in short ones. Checks what is written.
//   writing
//
// Timed: the call for the counts, which reads the whole table and does nothing else, and the call that writes, or the one that converts; then
// the rows call and the call that writes. Timed in two ways, as rows are: in turn, each call once on every table, round after round; and back
// to back, many calls on one table. A call on a small table takes about as long as a look at the clock, so the time of that look is taken off.
#include "clock.h"
#include "pairs.h"
#include "sizes.h"
#include "write_call.h"
#include <math.h>
#include <stdio.h>
#include <stdlib.h>
#include <string.h>

enum { LOOKS = 1001, MAX_TITLE = 96, WAYS = 2 };

static const struct { const char *name; unsigned edition, firmness; } editions[] = {
  { "edition 1", 1, MUST }, { "edition 2, all must", 2, MUST }, { "edition 2, all soft", 2, SOFT },
};
static const struct { const char *name; unsigned full; } steps[] = { { "1-byte", 0 }, { "16-byte", 1 } };
enum { EDITIONS = sizeof editions / sizeof *editions, STEPS = sizeof steps / sizeof *steps };

// A call that writes the shortest form, how many bytes its tables have for a number at least, and what we want of its time.
typedef struct { const char *name, *goal; size_t (*call)(const uint8_t *table, size_t length, uint8_t *out); int width; } Work;
static const Work writing = { "writing", "; goal: at most 2", call_write, 1 }, converting = { "converting", "", call_convert, 3 };

// One way of timing, with the last group of tables that it ran and a summary of all. All groups have as many tables, so the mean of their
// means is that of the tables.
typedef struct {
  const char *name;
  int calls;
  const Work *work;
  Pairs pairs;
  double logs, worst;
  size_t tables, groups;
  char worst_name[MAX_NAME + MAX_TITLE];
} Timing;

static int calls;  // how many of them are timed together
static const Work *timed;
static char title[MAX_TITLE];

static void read_tables(const uint8_t *table, size_t length, ChartAnswer *answer) {
  for (int k = 0; k < calls; k++) answer->refusal = call_counts(table, length);
}
static void write_tables(const uint8_t *table, size_t length, ChartAnswer *answer) {
  static uint8_t out[YUVATONDRO_MAX_STORED];
  for (int k = 0; k < calls; k++) answer->refusal = timed->call(table, length, out) == 0;
}
static void find_rows(const uint8_t *table, size_t length, ChartAnswer *answer) {
  static uint16_t rows[YUVATONDRO_MAX_STEPS];
  for (int k = 0; k < calls; k++) answer->refusal = call_rows(table, length, rows, YUVATONDRO_MAX_STEPS);
}

// The benchmark knows the shortest form, as it writes each table itself.
static void check_written(const Pair *pair, const Instance *inst, Form form) {
  static uint8_t wanted[YUVATONDRO_MAX_STORED], out[YUVATONDRO_MAX_STORED];
  size_t length = write_form(inst, (Form){ form.firmness == SOFT ? 2 : 1, form.firmness, form.full_steps, 1 }, wanted);
  if (timed->call(pair->table[1], pair->length[1], out) == length && memcmp(out, wanted, length) == 0) return;
  printf("%s: %s: the shortest form is wrong, or refused\n", timed->name, pair->name);
  exit(1);
}
// The first of a pair is read, and has its numbers in their fewest bytes.
static void make_tables(Pairs *p, size_t nodes, Form form) {
  static Instance inst;
  const Form forms[WAYS] = { form, { form.edition, form.firmness, form.full_steps, timed->width } };
  p->count = 0;
  for (size_t shape = 0; shape < shape_count(); shape++)
    for (int seed = 1; seed <= SEEDS; seed++) {
      make_shape(&inst, shape, nodes, nodes * EDGES_A_NODE, seed);
      Pair *pair = next_pair(p, inst.name);
      for (int way = 0; way < WAYS; way++) pair->length[way] = write_form(&inst, forms[way], pair->table[way]);
      check_written(pair, &inst, form);
    }
}
static double look_us(void) {
  double looks[LOOKS];
  for (int k = 0; k < LOOKS; k++) {
    double start = now_us();
    looks[k] = now_us() - start;
  }
  return median_of(looks, LOOKS);
}
static void add_group(Timing *r, PairMeans m) {
  r->logs += log(m.ratio);
  r->tables += r->pairs.count;
  r->groups++;
  if (m.worst <= r->worst) return;
  r->worst = m.worst;
  snprintf(r->worst_name, sizeof r->worst_name, "%s, %s", m.worst_name, title);
}
// The times are of one call.
static void run_group(Timing *r, size_t nodes, Form form) {
  Pairs *p = &r->pairs;
  timed = r->work;
  make_tables(p, nodes, form);
  calls = r->calls;
  run_pairs(p);
  double look = look_us();
  for (size_t i = 0; i < p->count; i++)
    for (int way = 0; way < WAYS; way++)
      for (int round = 0; round < ROUNDS; round++) p->pair[i].turn[way][round] = (p->pair[i].turn[way][round] - look) / calls;
  add_group(r, means_of_pairs(p));
}

// The form by its two parts; the title says it in words.
static Form choose_form(size_t nodes, int e, int s) {
  snprintf(title, MAX_TITLE, "%zu/%zu, %s, %s names", nodes, nodes * EDGES_A_NODE, editions[e].name, steps[s].name);
  return (Form){ editions[e].edition, editions[e].firmness, steps[s].full, 1 };
}
static void print_head(const Timing *timings, int count) {
  printf("\n%-64s", "steps/edges, form; times in us, geometric means over the shapes");
  for (int k = 0; k < count; k++) printf(" | %s: %s, %s, ratio, worst", timings[k].name, timings[k].pairs.way[0], timings[k].work->name);
  printf("\n");
}
// One line: a group, timed in all ways.
static void print_group(Timing *timings, int count, size_t nodes, Form form) {
  printf("%-64s", title);
  for (int k = 0; k < count; k++) {
    run_group(&timings[k], nodes, form);
    PairMeans m = means_of_pairs(&timings[k].pairs);
    printf(" | %6.2f %6.2f %6.2f %6.2f %-11s", m.time[0], m.time[1], m.ratio, m.worst, m.worst_name);
  }
  printf("\n");
}
static void print_forms(Timing *timings, int count, size_t nodes) {
  for (int e = 0; e < EDITIONS; e++)
    for (int s = 0; s < STEPS; s++) print_group(timings, count, nodes, choose_form(nodes, e, s));
}
static void print_summary(const Timing *r) {
  printf("%s over reading, %s, %zu tables: geometric mean %.2f, worst %.2f (%s)%s\n", r->work->name, r->name, r->tables,
         exp(r->logs / r->groups), r->worst, r->worst_name, r->work->goal);
}

static void open_timing(Timing *r, const char *first, Call call) {
  r->pairs.title = title;
  r->pairs.way[0] = first;
  r->pairs.call[0] = call;
  r->pairs.way[1] = r->work->name;
  r->pairs.call[1] = write_tables;
}
static void print_work(Timing *timings, int count) {
  for (int k = 0; k < count; k++) open_timing(&timings[k], "reading", read_tables);
  print_head(timings, count);
  for (int k = 0; k < SIZES; k++) print_forms(timings, count, node_counts[k]);
  for (int k = 0; k < count; k++) print_summary(&timings[k]);
}

int main(void) {
  enum { TIMINGS = 2, MANY = 64 };
  static Timing written[TIMINGS] = { { "in turn", 1, .work = &writing }, { "back to back", MANY, .work = &writing } };
  static Timing converted[TIMINGS] = { { "in turn", 1, .work = &converting }, { "back to back", MANY, .work = &converting } };
  static Timing rows = { "in turn", 1, .work = &writing };
  if (shape_count() * SEEDS > MAX_PAIRS) return 2;
  print_work(written, TIMINGS);
  print_work(converted, TIMINGS);
  open_timing(&rows, "rows", find_rows);
  print_head(&rows, 1);
  for (int k = 0; k < SIZES; k++) print_group(&rows, 1, node_counts[k], choose_form(node_counts[k], 0, 0));
  printf("\nThe shortest form was right on every table.\n");
  return 0;
}
