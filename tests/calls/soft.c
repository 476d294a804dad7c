/* Soft edges, kept and turned, in every call that gives rows; and the longest table, whose soft edges decide the rows. */
#include "calls.h"

/* Level and flat, which upset each other, below lock: of the soft edges between them the second is turned, and its gap puts three rows
 * between. */
static void test_soft(void) {
  uint16_t rows[ROWS], order[POINTS];
  static const uint16_t soft_rows[3] = {1, 4, 0};
  /* lock; level; the first dummies of edges 1 and 2; their second ones; flat */
  static const uint16_t soft_order[7] = {2, 0, 3, 5, 4, 6, 1};
  Table t = read_hex(
      "02 03 01 32 05 6C 65 76 65 6C 01 32 04 66 6C 61 74 00 04 6C 6F 63 6B "
      "03 02 00 01 01 00 00 01 01 02 01 01 00 03 01 01");
  uint64_t answer = yuvatondro_counts(t.byte, t.len);
  expect(yuvatondro_refusal(answer) == 0 && yuvatondro_steps(answer) == 3 && yuvatondro_edges(answer) == 3, "soft: counts");
  answer = yuvatondro_name(t.byte, t.len, 1);
  expect(yuvatondro_refusal(answer) == 0 && yuvatondro_name_length(answer) == 4, "soft: length of a name");
  expect(memcmp(t.byte + yuvatondro_name_start(answer), "flat", 4) == 0, "soft: bytes of a name");
  expect(yuvatondro_name(t.byte, t.len, 3) == 14, "soft: the name of a step that is not there");
  expect(call_rows(&t, 4, rows) == 0 && same_entries(rows, soft_rows, 3) && rows[3] == FILL16, "soft: rows");
  expect(call_rows(&t, 2, rows) == 13, "soft: a buffer one short");
  answer = call_chart(&t, 3, 8, rows, order);
  expect(yuvatondro_refusal(answer) == 0 && yuvatondro_points(answer) == 7, "soft: points");
  expect(yuvatondro_total(answer) == 10 && yuvatondro_crossings(answer) == 0, "soft: total and crossings");
  expect(same_entries(rows, soft_rows, 3) && same_entries(order, soft_order, 7), "soft: rows and order of the chart");
  expect(order[7] == FILL16, "soft: an entry behind the last point");
  expect(call_chart(&t, 3, 6, rows, order) == 13, "soft: order one short");
  /* steps 1 and 2 on a loop of must edges, step 0 on one with a soft edge */
  t = read_hex("02 03 00 01 41 00 01 42 00 01 43 04 00 01 01 01 00 01 00 01 01 01 01 02 01 01 00 02 01 01 01 00");
  answer = call_rows(&t, 0, rows);
  expect(yuvatondro_refusal(answer) == 11 && yuvatondro_loop_step(answer) == 1, "soft: rows, a loop of must edges");
  answer = call_chart(&t, 3, 9, rows, order);
  expect(yuvatondro_refusal(answer) == 11 && yuvatondro_loop_step(answer) == 1, "soft: chart, a loop of must edges");
  t = read_hex("02 02 00 01 41 00 01 42 01 00 01 01 01 02");
  expect(yuvatondro_name(t.byte, t.len, 2) == 15, "soft: a bad firmness before a step that is not there");
}

/* The edges along a link have the largest gap, or lie beside one that has, so that all are as long; the others are twice as long. Each is a
 * line of its own. */
static void test_longest(void) {
  enum { STEPS = YUVATONDRO_MAX_STEPS, EDGES = YUVATONDRO_MAX_EDGES, TWICE = EDGES - 3 * (STEPS - 1) };
  enum { LENGTHS = (EDGES + TWICE) * MAX_GAP, ALL = STEPS + LENGTHS - EDGES };
  uint16_t rows[ROWS], order[POINTS];
  Table t = write_largest(0);
  expect(t.len == YUVATONDRO_MAX_SHORTEST, "longest: its length");
  uint64_t answer = yuvatondro_counts(t.byte, t.len);
  expect(yuvatondro_refusal(answer) == 0 && yuvatondro_steps(answer) == STEPS && yuvatondro_edges(answer) == EDGES, "longest: counts");
  answer = yuvatondro_name(t.byte, t.len, STEPS - 1);
  expect(yuvatondro_name_length(answer) == 16 && yuvatondro_name_start(answer) == 2 + (STEPS - 1) * 20 + 4, "longest: the last name");
  answer = call_chart(&t, STEPS, ALL, rows, order);
  expect(yuvatondro_refusal(answer) == 0 && yuvatondro_points(answer) == ALL, "longest: points");
  expect(yuvatondro_total(answer) == LENGTHS * MAX_WEIGHT && yuvatondro_crossings(answer) == 0, "longest: total and crossings");
  for (unsigned i = 0; i < STEPS; i++) expect(rows[i] == MAX_GAP * i, "longest: a row of the chart");
  expect(call_rows(&t, STEPS, rows) == 0 && rows[STEPS - 1] == YUVATONDRO_MAX_ROW, "longest: rows");
  t.byte[t.len++] = 0;
  expect(yuvatondro_counts(t.byte, t.len) == 10 && yuvatondro_name(t.byte, t.len, 0) == 10, "longest: a spare byte in counts and name");
  expect(call_rows(&t, 0, rows) == 10 && call_chart(&t, 0, 0, rows, order) == 10, "longest: a spare byte in rows and chart");
}

void test_soft_edges(void) {
  test_soft();
  test_longest();
}
