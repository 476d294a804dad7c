/* The call for the best order of a row: charts whose orders are counted by hand, the limits of rows, points and tries on both sides, and
 * each refusal in its order. */
#include "calls.h"

enum { MOST_TRIES = YUVATONDRO_MAX_TRIES, MOST = YUVATONDRO_MAX_ROW_POINTS };

/* Steps in two rows of this width, each of the upper one over the same of the lower one and its neighbours: the chart keeps them by
 * number, and its rows 0 and 1 are these. */
static Edges make_band(size_t width) {
  Edges edges = {{0}, 0, {0}};
  for (size_t i = 0; i < width; i++)
    for (size_t k = i > 0 ? i - 1 : 0; k <= i + 1 && k < width; k++) add_edge(&edges, i, width + k, 1, 1);
  return edges;
}

/* A step of row 2 that leans to one side: it has so many lines from the step that is `lean` right of the middle of row 1, or left if that
 * is below 0, and one from as many times farther on the other side. So the mean of its ends is the middle, and the chart keeps all such
 * steps by number, though it would be better to have those on the right that lean to the right. */
static void add_leaning(Edges *edges, size_t width, size_t step, int lean, int near) {
  size_t middle = width + width / 2;
  if (lean != 0)
    for (int k = 0; k < near; k++) add_line(edges, middle + (size_t)lean, step, 1, (size_t)k);
  add_edge(edges, middle - (size_t)(near * lean), step, 1, 1);
}

/* The chart has its steps by number, by which what is said of it was counted. */
static Table write_by_number(const char *what, size_t steps, const Edges *edges) {
  uint16_t rows[ROWS], order[POINTS];
  Table t = write_edges(steps, edges);
  expect_of(what, yuvatondro_points(call_chart(&t, ROWS, POINTS, rows, order)) == steps, "the points of the chart");
  for (size_t i = 0; i < steps; i++) expect_of(what, order[i] == i, "the order of the chart");
  return t;
}

/* Three steps below a band of 7, of which 14 leans to the right, 15 has a line from the middle and 16 leans to the left: their segments
 * come from 0, 4, 4, 4; from 3; and from 2, 2, 2, 6. With 14 left of 15 they cross 3 times, else once; so do 15 and 16; 14 and 16 cross 9
 * times or 7. The six orders have 15, 13, 13, 11, 11 and 9, so that the last is the best, and of two alike the first is given. The fourth
 * is 15, 16, 14: by the positions that each step gets, and not those that it had, it would be 16, 14, 15. */
static void test_last_order(void) {
  static const struct { size_t tries; uint16_t order[3]; unsigned long crossings; } due[] = {
      {0, {14, 15, 16}, 15}, {1, {14, 16, 15}, 13}, {2, {14, 16, 15}, 13}, {3, {15, 16, 14}, 11}, {4, {15, 16, 14}, 11},
      {5, {16, 15, 14}, 9},  {6, {16, 15, 14}, 9},  {MOST_TRIES, {16, 15, 14}, 9}};
  Edges edges = make_band(7);
  for (int k = 0; k < 3; k++) add_leaning(&edges, 7, 14 + (size_t)k, 1 - k, 3);
  Table t = write_by_number("six orders", 17, &edges);
  for (size_t i = 0; i < sizeof due / sizeof *due; i++) {
    const Ordered ordered = {3, due[i].order, due[i].crossings, 1 + 1 + 7};
    expect_order("six orders", &t, 2, due[i].tries, &ordered);
  }
  expect(expect_best("six orders", &t, 17, &edges, 2, MOST_TRIES) == 3, "six orders: the points of the row");
}

/* The same with a line fewer below a band of 5: segments from 0, 3, 3; from 2; and from 1, 1, 4. Steps 10 and 11 cross 2 times or once, 11
 * and 12 too, but 10 and 12 cross 4 times or 5. So the floor of 6 wants 11 left of 10, 12 left of 11 and 10 left of 12, which no order
 * has: the six have 8, 7, 7, 8, 8 and 7. */
static void test_floor_not_met(void) {
  static const uint16_t first[3] = {10, 11, 12}, second[3] = {10, 12, 11};
  static const Ordered as_it_is = {3, first, 8, 6}, best = {3, second, 7, 6};
  Edges edges = make_band(5);
  for (int k = 0; k < 3; k++) add_leaning(&edges, 5, 10 + (size_t)k, 1 - k, 2);
  Table t = write_by_number("a floor not met", 13, &edges);
  expect_order("a floor not met", &t, 2, 0, &as_it_is);
  for (size_t tries = 1; tries < 7; tries++) expect_order("a floor not met", &t, 2, tries, &best);
  expect_order("a floor not met", &t, 2, MOST_TRIES, &best);
}

/* Nine steps that lean by -4 to 4, each of them best left of all that lean more to the right: so there is one order that meets the floor.
 * They are numbered so that it is the one behind 50,000 others, which is 1, 2, 8, 4, 6, 3, 5, 0, 7 of the last nine positions: with a try
 * fewer it is not found. Of the floor, two of one side have 4, of which there are 12 pairs, and the one in the middle has 1 with each of
 * the 8 others; one of each side has 7, but where the leans are 1 and 3 or 1 and 4 it has 4, since the far line of the one that leans by 1
 * is not beyond the near ones of the other. On their left stand so many steps without a segment above, held there by the only step of row
 * 3. */
enum { LEANING = 9, BAND = 25, FLOOR = 12 * 4 + 8 * 1 + 12 * 7 + 4 * 4 };
static Edges make_leaning(size_t alone) {
  static const int leans[LEANING] = {3, -4, -3, 1, -1, 2, 0, 4, -2};
  Edges edges = make_band(BAND);
  size_t last = 2 * BAND + alone + LEANING;
  for (size_t i = 0; i < LEANING; i++) add_leaning(&edges, BAND, last - LEANING + i, leans[i], 3);
  for (size_t step = 2 * BAND; step < last; step++) add_edge(&edges, step, last, 1, 1);
  return edges;
}

static void test_most_tries(size_t alone) {
  static const uint16_t positions[LEANING] = {1, 2, 8, 4, 6, 3, 5, 0, 7};
  uint16_t order[MOST];
  size_t steps = 2 * BAND + alone + LEANING + 1;
  Edges edges = make_leaning(alone);
  for (size_t i = 0; i < alone + LEANING; i++) order[i] = (uint16_t)(2 * BAND + (i < alone ? i : alone + positions[i - alone]));
  Table t = write_by_number("most tries", steps, &edges);
  const Ordered due = {alone + LEANING, order, FLOOR, FLOOR};
  expect_order("most tries", &t, 2, MOST_TRIES, &due);
  uint64_t answer = call_row_order(&t, 2, MOST_TRIES - 1, MOST, order);
  expect(yuvatondro_crossings(answer) > FLOOR && yuvatondro_floor(answer) == FLOOR, "row order: a try fewer than the best order needs");
  if (alone == 0) expect(expect_best("most tries", &t, steps, &edges, 2, MOST_TRIES) == LEANING, "row order: the points of the row");
}

/* From each of 9 steps a line to each of those below: as many lines as there may be over the most points. Each two above and each two
 * below cross once in every order, so that the row stays as it is and meets its floor. */
static void test_most_lines(void) {
  enum { UPPER = YUVATONDRO_MAX_EDGES / MOST, CROSSINGS = UPPER * (UPPER - 1) / 2 * (MOST * (MOST - 1) / 2) };
  static const size_t tries[] = {0, 1, MOST_TRIES};
  uint16_t order[MOST];
  Edges edges = {{0}, 0, {0}};
  for (size_t i = 0; i < UPPER * MOST; i++) add_edge(&edges, i / MOST, UPPER + i % MOST, 1, 1);
  for (size_t i = 0; i < MOST; i++) order[i] = (uint16_t)(UPPER + i);
  Table t = write_by_number("most lines", UPPER + MOST, &edges);
  const Ordered due = {MOST, order, CROSSINGS, CROSSINGS};
  for (size_t k = 0; k < 3; k++) expect_order("most lines", &t, 1, tries[k], &due);
}

/* The table is good, but this row is not: whatever the tries and the buffer. */
static void expect_bad_row(const Table *t, size_t row, const char *what) {
  static const size_t tries[] = {0, MOST_TRIES, MOST_TRIES + 1, SIZE_MAX}, rooms[] = {0, 1, MOST, POINTS};
  uint16_t order[POINTS];
  for (size_t k = 0; k < 4 * 4; k++) expect_of("row order", call_row_order(t, row, tries[k / 4], rooms[k % 4], order) == 17, what);
  for (size_t k = 0; k < 4; k++) expect_of("row order", yuvatondro_row_order(t->byte, t->len, row, tries[k], NULL, 0) == 17, what);
}

/* Row 0, and all that the chart does not have: some would be rows of it if a few of their bits were lost. */
static void expect_bad_rows(const Table *t, size_t rows) {
  const size_t far[] = {rows, rows + 1, YUVATONDRO_MAX_ROW + 1, 1u << 8 | 1, 1u << 16 | 1, (size_t)UINT32_MAX + 2, SIZE_MAX};
  expect_bad_row(t, 0, "row 0");
  for (size_t k = 0; k < sizeof far / sizeof *far; k++)
    if (far[k] >= rows) expect_bad_row(t, far[k], "a row that the chart does not have");
}

/* Too many tries for a row that is good, whatever the buffer: some would be few if a few of their bits were lost. */
static void expect_many_tries(const Table *t, size_t row) {
  static const size_t tries[] = {MOST_TRIES + 1, UINT16_MAX + 1, (size_t)UINT32_MAX + 2, SIZE_MAX / 2 + 1, SIZE_MAX};
  static const size_t rooms[] = {0, 1, MOST, POINTS};
  uint16_t order[POINTS];
  for (size_t i = 0; i < 5; i++) {
    for (size_t k = 0; k < 4; k++) expect(call_row_order(t, row, tries[i], rooms[k], order) == 18, "row order: too many tries");
    expect(yuvatondro_row_order(t->byte, t->len, row, tries[i], NULL, 0) == 18, "row order: too many tries and no buffer");
  }
}

/* The sample: rows of warm; lock and the dummy 5 of edge 2; the dummy 4 of edge 1 and level; sweep. No order of a row is better. */
static void test_sample(void) {
  static const uint16_t order[3][2] = {{1, 5}, {4, 3}, {2}};
  Table t = read_hex(SAMPLE);
  for (size_t row = 1; row < 4; row++) {
    const Ordered due = {row < 3 ? 2 : 1, order[row - 1], 0, 0};
    for (size_t tries = 0; tries < 3; tries++) expect_order("the sample", &t, row, tries, &due);
    expect_order("the sample", &t, row, MOST_TRIES, &due);
    expect_many_tries(&t, row);
  }
  expect_bad_rows(&t, 4);
}

/* So many steps below one, alone in row 0: as many as an order is looked for, and more. */
static void test_points(size_t points) {
  uint16_t order[POINTS];
  Edges edges = {{0}, 0, {0}};
  for (size_t i = 0; i < points; i++) add_edge(&edges, 0, 1 + i, 1, 1);
  for (size_t i = 0; i < points; i++) order[i] = (uint16_t)(1 + i);
  Table t = write_edges(1 + points, &edges);
  const Ordered due = {points, order, 0, 0};
  if (points > MOST) expect_bad_row(&t, 1, "a row of too many points");
  else expect_order("points", &t, 1, 23, &due);
  expect_bad_rows(&t, 2);
}

/* A chart has orders however many points it has; in one of the most points and rows every fourth row has a step. */
static void test_large_charts(void) {
  static const size_t rows[] = {1, 2, 3, 4, 5, YUVATONDRO_MAX_ROW / 2, YUVATONDRO_MAX_ROW};
  Edges edges = make_points(YUVATONDRO_MAX_POINTS);
  Table t = write_edges(YUVATONDRO_MAX_STEPS, &edges);
  for (size_t k = 0; k < sizeof rows / sizeof *rows; k++)
    expect(expect_best("a large chart", &t, YUVATONDRO_MAX_STEPS, &edges, rows[k], 23) > 0, "row order: a row of a large chart");
  expect_many_tries(&t, YUVATONDRO_MAX_ROW);
  expect_bad_rows(&t, YUVATONDRO_MAX_ROW + 1);
}

/* Before a row or a number of tries is judged, the table and its chart are. */
static void test_refused(void) {
  for (size_t i = 0; i < REFUSED; i++) {
    Table t = read_hex(refused[i].table);
    expect_refused_orders(&t, refused[i].refusal, "a refusal of the reader");
  }
  expect(yuvatondro_row_order(NULL, 0, 0, SIZE_MAX, NULL, 0) == 1, "row order: no table and no buffer");
  Table t = read_hex("01 03 00 01 41 00 01 42 00 01 43 03 00 01 01 01 01 02 01 01 02 01 01 01");
  expect_refused_orders(&t, 11 | 1 << 8, "a loop with its lowest step");
  Edges edges = make_points(YUVATONDRO_MAX_POINTS + 1);
  t = write_edges(YUVATONDRO_MAX_STEPS, &edges);
  expect_refused_orders(&t, 12, "more points than a chart may have");
  add_edge(&edges, YUVATONDRO_MAX_STEPS - 1, 2, 1, 1);
  t = write_edges(YUVATONDRO_MAX_STEPS, &edges);
  expect_refused_orders(&t, 11 | 2 << 8, "a loop in a chart of too many points");
  t = write_largest(0);
  t.byte[t.len++] = 0;
  expect_refused_orders(&t, 10, "the longest table and a spare byte");
}

/* Charts of no row and of row 0 alone have no row with another above it. */
static void test_no_rows(void) {
  static const char *const tables[] = {"01 00 00", "02 00 00", "01 01 00 01 41 00", "02 02 00 01 41 00 01 42 00"};
  const Edges none = {{0}, 0, {0}};
  for (size_t i = 0; i < sizeof tables / sizeof *tables; i++) {
    Table t = read_hex(tables[i]);
    expect_refused_orders(&t, 17, "no row above another");
  }
  Table t = write_edges(YUVATONDRO_MAX_STEPS, &none);
  expect_refused_orders(&t, 17, "steps alone");
}

void test_row_order_call(void) {
  test_last_order();
  test_floor_not_met();
  test_most_tries(0);
  test_most_tries(MOST - LEANING);
  test_most_lines();
  test_sample();
  test_points(1);
  test_points(MOST);
  test_points(MOST + 1);
  test_points(YUVATONDRO_MAX_STEPS - 1);
  test_large_charts();
  test_refused();
  test_no_rows();
}
