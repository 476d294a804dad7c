// Two ways to the same answer, timed in turn.
#ifndef PAIRS_H
#define PAIRS_H
#include "chart_call.h"
#include "rows_call.h"

enum { ROUNDS = 16, MAX_PAIRS = 64 };  // an even number, so that each way goes first as often as the other

typedef void (*Call)(const uint8_t *table, size_t length, ChartAnswer *answer);

// A table for each of the two ways; they may be the same.
typedef struct {
  char name[MAX_NAME];
  uint8_t table[2][YUVATONDRO_MAX_STORED];
  size_t length[2];
  double turn[2][ROUNDS];
} Pair;

typedef struct {
  const char *title, *way[2];
  Call call[2];
  void (*ready)(const uint8_t *table, size_t length);  // what is done before the clock with the table of a call; null for nothing
  void (*tidy[2])(ChartAnswer *answer);  // what is done to an answer behind the clock, before the two are compared; null for nothing
  Pair pair[MAX_PAIRS];
  size_t count;
} Pairs;

typedef struct { double time[2], ratio, worst; const char *worst_name; } PairMeans;  // geometric means; times in microseconds

// One more pair, whose tables are still to be written.
Pair *next_pair(Pairs *pairs, const char *name);

// Runs every pair once in each round; ends the program where a call is refused or the two answers differ.
void run_pairs(Pairs *pairs);

// Each pair once and untimed, for callgrind.
void run_pairs_once(const Pairs *pairs);

// Times of the second way over the first.
PairMeans means_of_pairs(const Pairs *pairs);
void print_means(const Pairs *pairs);
void print_pairs(const Pairs *pairs, const char *column, const size_t *values);
#endif
