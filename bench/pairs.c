#include "pairs.h"
#include "clock.h"
#include <math.h>
#include <stdio.h>
#include <stdlib.h>
#include <string.h>

Pair *next_pair(Pairs *p, const char *name) {
  Pair *pair = &p->pair[p->count++];
  snprintf(pair->name, MAX_NAME, "%s", name);
  return pair;
}

static void stop(const Pairs *p, const Pair *pair, const char *way, unsigned refusal) {
  if (refusal != 0) printf("%s: %s: %s: refused %u\n", p->title, pair->name, way, refusal);
  else printf("%s: %s: %s and %s differ\n", p->title, pair->name, p->way[0], p->way[1]);
  exit(1);
}
// The answer is wiped, so that each call must write its own.
static double run_way(const Pairs *p, const Pair *pair, int way, ChartAnswer *answer) {
  memset(answer, 255, sizeof *answer);
  if (p->ready) p->ready(pair->table[way], pair->length[way]);
  double start = now_us();
  p->call[way](pair->table[way], pair->length[way], answer);
  double end = now_us();
  if (answer->refusal != 0) stop(p, pair, p->way[way], answer->refusal);
  if (p->tidy[way]) p->tidy[way](answer);
  return end - start;
}
// Which way goes first changes from round to round.
static void run_pair(const Pairs *p, const Pair *pair, int round, double times[2]) {
  static ChartAnswer answer[2];
  for (int k = 0; k < 2; k++) {
    int way = (round + k) % 2;
    times[way] = run_way(p, pair, way, &answer[way]);
  }
  if (memcmp(&answer[0], &answer[1], sizeof answer[0]) != 0) stop(p, pair, "", 0);
}
void run_pairs(Pairs *p) {
  for (int round = 0; round < ROUNDS; round++)
    for (size_t i = 0; i < p->count; i++) {
      double times[2];
      run_pair(p, &p->pair[i], round, times);
      for (int way = 0; way < 2; way++) p->pair[i].turn[way][round] = times[way];
    }
}
void run_pairs_once(const Pairs *p) {
  double times[2];
  for (size_t i = 0; i < p->count; i++) run_pair(p, &p->pair[i], 0, times);
}

static double median(const Pair *pair, int way) { return median_of(pair->turn[way], ROUNDS); }
static double ratio_of(const Pair *pair) { return median(pair, 1) / median(pair, 0); }

PairMeans means_of_pairs(const Pairs *p) {
  double logs[2] = { 0 };
  PairMeans m = { { 0 }, 0, 0, "" };
  for (size_t i = 0; i < p->count; i++) {
    const Pair *pair = &p->pair[i];
    for (int way = 0; way < 2; way++) logs[way] += log(median(pair, way));
    if (ratio_of(pair) <= m.worst) continue;
    m.worst = ratio_of(pair);
    m.worst_name = pair->name;
  }
  for (int way = 0; way < 2; way++) m.time[way] = exp(logs[way] / p->count);
  m.ratio = m.time[1] / m.time[0];
  return m;
}
void print_means(const Pairs *p) {
  PairMeans m = means_of_pairs(p);
  printf("%s, %zu tables: %s %.2f us, %s %.2f us; ", p->title, p->count, p->way[0], m.time[0], p->way[1], m.time[1]);
  printf("%s over %s: geometric mean %.3f, worst %.2f (%s)\n", p->way[1], p->way[0], m.ratio, m.worst, m.worst_name);
}
void print_pairs(const Pairs *p, const char *column, const size_t *values) {
  printf("\n%s\n%-16s | %s | in turn (us): %s, %s | the second over the first\n", p->title, "", column, p->way[0], p->way[1]);
  for (size_t i = 0; i < p->count; i++) {
    const Pair *pair = &p->pair[i];
    printf("%-16s | %4zu | %8.1f %8.1f | %6.2f\n", pair->name, values[i], median(pair, 0), median(pair, 1), ratio_of(pair));
  }
}
