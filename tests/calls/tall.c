/* Rows up to the largest that there is, which takes more than a byte, in every call that hands out rows. */
#include "calls.h"

/* Up to version 1.3 tables had at most so many steps, and a row was a byte. */
enum { STEPS_IN_BYTES = 64 };

/* A call that was lent `room` entries put these rows in the first ones, and left the others as they were. */
static void expect_due(const char *call, uint64_t answer, const uint16_t *rows, size_t room, const uint16_t *due, size_t steps) {
  expect_of(call, yuvatondro_refusal(answer) == 0 && same_entries(rows, due, steps), "rows");
  for (size_t i = steps; i < room; i++) expect_of(call, rows[i] == FILL16, "an entry behind the last step changed");
}

/* The three calls on the same edges, with rows exact, longer, and one entry short. */
static void expect_rows(size_t steps, const Edges *edges, const uint16_t *due) {
  uint16_t rows[ROWS], order[POINTS];
  size_t numbers = 4 * edges->count;
  Table t = write_edges(steps, edges);
  expect_due("rows", call_rows(&t, steps, rows), rows, steps, due, steps);
  expect_due("rows", call_rows(&t, ROWS, rows), rows, ROWS, due, steps);
  expect(call_rows(&t, steps - 1, rows) == 13, "rows: a buffer one entry short");
  expect_due("records", call_records(steps, edges->number, numbers, steps, rows), rows, steps, due, steps);
  expect_due("records", call_records(steps, edges->number, numbers, ROWS, rows), rows, ROWS, due, steps);
  expect(call_records(steps, edges->number, numbers, steps - 1, rows) == 13, "records: a buffer one entry short");
  expect_due("chart", call_chart(&t, steps, POINTS, rows, order), rows, steps, due, steps);
  expect_due("chart", call_chart(&t, ROWS, POINTS, rows, order), rows, ROWS, due, steps);
  expect(call_chart(&t, steps - 1, POINTS, rows, order) == 13, "chart: rows one entry short");
}

/* Chains of every number of steps, with the largest gap: the row of the last step is the largest that there is with so many. */
static void test_chains(void) {
  uint16_t due[YUVATONDRO_MAX_STEPS];
  for (size_t steps = 1; steps <= YUVATONDRO_MAX_STEPS; steps++) {
    Edges chain = make_chain(steps, MAX_GAP, 1);
    due[steps - 1] = (uint16_t)(MAX_GAP * (steps - 1));
    expect_rows(steps, &chain, due);
  }
  expect(due[YUVATONDRO_MAX_STEPS - 1] == YUVATONDRO_MAX_ROW, "the largest row");
}

/* The other way round: the first entry is the largest row. */
static void test_rising(void) {
  Edges edges = {{0}, 0, {0}};
  uint16_t due[YUVATONDRO_MAX_STEPS] = {YUVATONDRO_MAX_ROW};
  for (size_t i = 1; i < YUVATONDRO_MAX_STEPS; i++) {
    add_edge(&edges, i, i - 1, MAX_GAP, MAX_WEIGHT);
    due[i] = (uint16_t)(due[i - 1] - MAX_GAP);
  }
  expect_rows(YUVATONDRO_MAX_STEPS, &edges, due);
}

/* Rows that a host kept as bytes are those that the calls hand out: no row of so few steps needs more. One step more does. */
static void test_kept_bytes(void) {
  uint8_t kept[STEPS_IN_BYTES];
  uint16_t rows[ROWS];
  Edges chain = make_chain(STEPS_IN_BYTES, MAX_GAP, 1);
  Table t = write_edges(STEPS_IN_BYTES, &chain);
  for (size_t i = 0; i < STEPS_IN_BYTES; i++) kept[i] = (uint8_t)(MAX_GAP * i);
  expect(call_rows(&t, STEPS_IN_BYTES, rows) == 0 && rows[STEPS_IN_BYTES - 1] == 252, "bytes: the largest row");
  for (size_t i = 0; i < STEPS_IN_BYTES; i++) expect(rows[i] == kept[i], "bytes: a row that was kept");
  chain = make_chain(STEPS_IN_BYTES + 1, MAX_GAP, 1);
  t = write_edges(STEPS_IN_BYTES + 1, &chain);
  expect(call_rows(&t, STEPS_IN_BYTES + 1, rows) == 0 && rows[STEPS_IN_BYTES] == UINT8_MAX + 1, "bytes: one step more");
}

/* The largest total that rows can have: it takes k edges of length 4 to reach row 4 * k, and no other edge is longer than that. Those
 * beside the chain are one line, with a dummy in each row between its ends, so that the chart has few points and tells the total. */
static void test_heaviest(void) {
  enum { CHAIN = YUVATONDRO_MAX_STEPS - 1, BESIDE = YUVATONDRO_MAX_EDGES - CHAIN };
  uint16_t rows[ROWS], order[POINTS];
  Edges edges = make_chain(YUVATONDRO_MAX_STEPS, MAX_GAP, MAX_WEIGHT);
  while (edges.count < YUVATONDRO_MAX_EDGES) add_edge(&edges, 0, YUVATONDRO_MAX_STEPS - 1, 1, MAX_WEIGHT);
  Table t = write_edges(YUVATONDRO_MAX_STEPS, &edges);
  expect(call_rows(&t, YUVATONDRO_MAX_STEPS, rows) == 0, "heaviest: rows");
  for (size_t i = 0; i < YUVATONDRO_MAX_STEPS; i++) expect(rows[i] == MAX_GAP * i, "heaviest: a row");
  expect(call_records(YUVATONDRO_MAX_STEPS, edges.number, 4 * edges.count, YUVATONDRO_MAX_STEPS, rows) == 0, "heaviest: records");
  for (size_t i = 0; i < YUVATONDRO_MAX_STEPS; i++) expect(rows[i] == MAX_GAP * i, "heaviest: a row of records");
  uint64_t answer = call_chart(&t, YUVATONDRO_MAX_STEPS, POINTS, rows, order);
  expect(yuvatondro_refusal(answer) == 0 && yuvatondro_points(answer) == 2 * YUVATONDRO_MAX_ROW, "heaviest: points");
  expect(yuvatondro_total(answer) == (1ul + BESIDE) * YUVATONDRO_MAX_ROW * MAX_WEIGHT, "heaviest: the total");
  expect(yuvatondro_crossings(answer) == 0, "heaviest: crossings");
}

void test_tall_charts(void) {
  test_chains();
  test_rising();
  test_kept_bytes();
  test_heaviest();
}
