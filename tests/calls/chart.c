/* The call for the whole chart. */
#include "calls.h"

static void test_chart(void) {
  uint16_t rows[ROWS], order[POINTS];
  /* warm; lock and the dummy of edge 2; the dummy of edge 1 and level; sweep */
  static const uint16_t sample_order[6] = {0, 1, 5, 4, 3, 2};
  Table t = read_hex(SAMPLE);
  uint64_t answer = call_chart(&t, 4, 6, rows, order);
  expect(yuvatondro_refusal(answer) == 0 && yuvatondro_points(answer) == 6, "chart: the points of the sample");
  expect(yuvatondro_total(answer) == 14 && yuvatondro_crossings(answer) == 0, "chart: total and crossings of the sample");
  expect(same_entries(rows, sample_rows, 4) && same_entries(order, sample_order, 6), "chart: rows and order of the sample");
  answer = call_chart(&t, 5, 8, rows, order);
  expect(yuvatondro_refusal(answer) == 0 && rows[4] == FILL16, "chart: an entry behind the last row");
  expect(order[6] == FILL16 && order[7] == FILL16, "chart: entries behind the last point");
  expect(call_chart(&t, 3, 6, rows, order) == 13, "chart: rows one short");
  expect(call_chart(&t, 4, 5, rows, order) == 13, "chart: order one short");
  expect(call_chart(&t, 0, 0, rows, order) == 13, "chart: no buffers");
  t = read_hex("01 00 00");
  expect(call_chart(&t, 0, 0, rows, order) == 0, "chart: a table of no steps");
  expect(yuvatondro_chart(t.byte, t.len, NULL, 0, NULL, 0) == 0, "chart: a table of no steps and no buffers");
  t = read_hex("01 02 00 01 41 00 01 42 02 00 01 01 01 01 00 01 01");
  expect(call_chart(&t, 0, 0, rows, order) == 11, "chart: a loop before the short buffers");
  for (size_t i = 0; i < REFUSED; i++) {
    t = read_hex(refused[i].table);
    expect(call_chart(&t, 0, 0, rows, order) == refused[i].refusal, "chart: a refusal of the reader");
  }
}

/* Adds edges of weight 0 from the first step of a chain of the largest gap, which have so many dummies together. Each leads over more steps
 * than the one before and the first over two, so that each is a line of its own. One over k steps has 4 * k - 1 dummies, so m edges over s
 * steps in all have 4 * s - m. */
static void add_dummies(Edges *chain, size_t dummies) {
  size_t edges = (MAX_GAP - dummies % MAX_GAP) % MAX_GAP, length = chain->count, over = 1;
  while (edges * MAX_GAP * (length - edges) < dummies) edges += MAX_GAP;
  for (size_t left = (dummies + edges) / MAX_GAP; edges > 0; left -= over) {
    edges--;
    size_t others = edges * length - edges * (edges - 1) / 2; /* the most steps that those behind it lead over */
    over = left > others + over ? left - others : over + 1;
    add_edge(chain, 0, over, 1, 0);
  }
}

/* A chain of the most steps and the largest gap has one point in each row; edges beside it have the others. */
Edges make_points(size_t points) {
  Edges edges = make_chain(YUVATONDRO_MAX_STEPS, MAX_GAP, 1);
  add_dummies(&edges, points - (YUVATONDRO_MAX_ROW + 1));
  return edges;
}

/* Each point stands in the order once. */
static void expect_each_once(const uint16_t *order, size_t points) {
  uint8_t seen[POINTS] = {0};
  for (size_t i = 0; i < points; i++) {
    expect(order[i] < points && !seen[order[i]], "points: each is in the order once");
    seen[order[i]] = 1;
  }
}

static void test_points(size_t points) {
  uint16_t rows[ROWS], order[POINTS];
  Edges edges = make_points(points);
  Table t = write_edges(YUVATONDRO_MAX_STEPS, &edges);
  uint64_t answer = call_chart(&t, YUVATONDRO_MAX_STEPS, points, rows, order);
  expect(yuvatondro_refusal(answer) == 0 && yuvatondro_points(answer) == points, "points: as many as there may be");
  expect(yuvatondro_total(answer) == YUVATONDRO_MAX_ROW && yuvatondro_crossings(answer) == 0, "points: total and crossings");
  expect(rows[YUVATONDRO_MAX_STEPS - 1] == YUVATONDRO_MAX_ROW, "points: the last row");
  expect_each_once(order, points);
  expect(order[0] == 0 && order[points - 1] == YUVATONDRO_MAX_STEPS - 1, "points: the chain's ends are alone in their rows");
  expect(call_chart(&t, YUVATONDRO_MAX_STEPS, points - 1, rows, order) == 13, "points: order one short");
}

/* Rows and records have no limit of points. */
static void test_too_many_points(void) {
  uint16_t rows[ROWS], order[POINTS];
  Edges edges = make_points(YUVATONDRO_MAX_POINTS + 1);
  Table t = write_edges(YUVATONDRO_MAX_STEPS, &edges);
  expect(call_chart(&t, ROWS, POINTS, rows, order) == 12, "points: one too many");
  expect(call_chart(&t, 0, 0, rows, order) == 12, "points: one too many, before the short buffers");
  expect(call_rows(&t, YUVATONDRO_MAX_STEPS, rows) == 0, "points: one too many for a chart, but not for rows");
  expect(call_records(YUVATONDRO_MAX_STEPS, edges.number, 4 * edges.count, YUVATONDRO_MAX_STEPS, rows) == 0, "points: nor for records");
}

/* As many lines as there may be, with as many points: STEPS steps in a row each, and from each of them three lines to each of the FAR that
 * follow, the longest first; of the last, between neighbours, some are left out. A line is one longer than it has dummies, so that the
 * lengths of m lines add up to points - steps + m. */
static void test_most_lines(void) {
  enum { STEPS = 16, FAR = 9, LENGTHS = YUVATONDRO_MAX_POINTS - STEPS + YUVATONDRO_MAX_EDGES };
  uint16_t rows[ROWS], order[POINTS];
  Edges edges = {{0}, 0, {0}};
  for (size_t number = 0; number < SIDE_BY_SIDE; number++)
    for (size_t over = FAR; over > 0; over--)
      for (size_t i = 0; i + over < STEPS && edges.count < YUVATONDRO_MAX_EDGES; i++) add_line(&edges, i, i + over, 1, number);
  Table t = write_edges(STEPS, &edges);
  uint64_t answer = call_chart(&t, STEPS, YUVATONDRO_MAX_POINTS, rows, order);
  expect(yuvatondro_refusal(answer) == 0 && edges.count == YUVATONDRO_MAX_EDGES, "lines: as many as there may be");
  for (size_t i = 0; i < STEPS; i++) expect(rows[i] == i, "lines: a row");
  expect(yuvatondro_points(answer) == YUVATONDRO_MAX_POINTS && yuvatondro_total(answer) == LENGTHS, "lines: points and total");
  expect_each_once(order, YUVATONDRO_MAX_POINTS);
  expect(call_chart(&t, STEPS, YUVATONDRO_MAX_POINTS - 1, rows, order) == 13, "lines: order one short");
}

/* Every step of one row before every step of the next, by as many edges as there may be: each two of the one and each two of the other
 * give one crossing, whatever the order. */
static void test_crossings(void) {
  enum { UPPER = 16, LOWER = YUVATONDRO_MAX_EDGES / UPPER, PAIRS = UPPER * (UPPER - 1) / 2 * (LOWER * (LOWER - 1) / 2) };
  uint16_t rows[ROWS], order[POINTS];
  Edges edges = {{0}, 0, {0}};
  for (size_t i = 0; i < UPPER * LOWER; i++) add_edge(&edges, i / LOWER, UPPER + i % LOWER, 1, MAX_WEIGHT);
  Table t = write_edges(UPPER + LOWER, &edges);
  uint64_t answer = call_chart(&t, ROWS, POINTS, rows, order);
  expect(yuvatondro_refusal(answer) == 0 && yuvatondro_points(answer) == UPPER + LOWER, "crossings: points");
  expect(yuvatondro_total(answer) == UPPER * LOWER * MAX_WEIGHT, "crossings: total");
  expect(yuvatondro_crossings(answer) == PAIRS, "crossings: each pair above with each pair below");
}

void test_chart_call(void) {
  test_chart();
  test_points(YUVATONDRO_MAX_POINTS - 1);
  test_points(YUVATONDRO_MAX_POINTS);
  test_too_many_points();
  test_most_lines();
  test_crossings();
}
