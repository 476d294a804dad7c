// An instance with what each program answered and how long it took.
#ifndef ROWS_CASE_H
#define ROWS_CASE_H
#include "model.h"
#include "peer.h"
#include "rows_call.h"
#include "textbook.h"

enum { OURS, TEXTBOOK, LEMON, PROGRAMS };
enum { ROUNDS = 15, MAX_CASES = 64 };

typedef struct {
  Instance inst;
  uint8_t table[YUVATONDRO_MAX_STORED];
  uint16_t rows[YUVATONDRO_MAX_STEPS];
  size_t length;
  PeerAnswer peer;
  TextbookAnswer textbook;
  double turn[PROGRAMS][ROUNDS], again[PROGRAMS], build[ROUNDS];
  Work work;
} Case;

// Instances of one size: shapes, or those found by searching.
typedef struct { Case cases[MAX_CASES]; size_t count, nodes, edges; } Group;

// report.c
void print_group(const char *title, const Group *group);
void print_growth(const Group *shapes, const Group *searched, size_t sizes);
void print_worst(const Group *shapes, const Group *searched);
#endif
