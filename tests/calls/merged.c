/* Repeated edges, which are drawn as one line: those to which the table gives the same ends and the same firmness. */
#include "calls.h"

static const size_t *edge_at(const Edges *edges, size_t i) { return edges->number + 4 * i; }

typedef struct {
  size_t steps, points;
  unsigned long total;
  const uint16_t *rows, *order;
} Due;

/* The chart with exact buffers is this one, without a crossing, and with an order one entry short there is none. */
static void expect_chart(const char *what, const Edges *edges, const Due *due) {
  uint16_t rows[ROWS], order[POINTS];
  Table t = write_edges(due->steps, edges);
  uint64_t answer = call_chart(&t, due->steps, due->points, rows, order);
  expect_of(what, yuvatondro_refusal(answer) == 0 && yuvatondro_points(answer) == due->points, "points");
  expect_of(what, same_entries(rows, due->rows, due->steps) && same_entries(order, due->order, due->points), "rows and order");
  expect_of(what, yuvatondro_total(answer) == due->total && yuvatondro_crossings(answer) == 0, "total and crossings");
  expect_of(what, call_chart(&t, due->steps, due->points - 1, rows, order) == 13, "order one short");
}

/* From step 0 to step 3 must edges, soft ones that are kept and soft ones that are turned, none beside another of its line: three lines, of
 * three dummies each, since the gap of one must edge is 4. */
static void test_firmness(void) {
  static const uint16_t rows[4] = {0, 1, 3, 4};
  /* step 0; step 1 and the first dummies of edges 0, 2, 4, 10; those of edge 8 come to the left, below step 1; step 2; step 3 */
  static const uint16_t order[17] = {0, 1, 4, 7, 10, 15, 13, 5, 8, 11, 16, 14, 6, 9, 12, 2, 3};
  Edges edges = {{0}, 0, {0}};
  add_edge(&edges, 0, 3, 1, 3);
  add_edge(&edges, 0, 1, 1, 2);
  add_soft(&edges, 3, 0, 2, 1);
  add_edge(&edges, 0, 3, 4, 1);
  add_soft(&edges, 0, 3, 2, 5);
  add_edge(&edges, 2, 3, 1, 1);
  add_soft(&edges, 3, 0, 3, 9);
  add_edge(&edges, 0, 3, 3, 200);
  add_edge(&edges, 1, 3, 1, 2);
  add_soft(&edges, 0, 3, 1, 255);
  add_edge(&edges, 0, 2, 1, 0);
  add_edge(&edges, 2, 3, 1, 4);
  /* 474 of weight over 4 rows, 7 over 1, 2 over 3 */
  const Due due = {4, 17, 474 * 4 + 7 + 2 * 3, rows, order};
  expect_chart("firmness", &edges, &due);
}

/* A mean has one end for a line. Step 4 has three edges from step 0 and one from step 2, so that its mean is 1, as that of step 3, and both
 * keep their order. One by one the edges would have put step 4 first. */
static void test_means_of_lines(void) {
  static const uint16_t rows[5] = {0, 0, 0, 1, 1}, order[5] = {1, 0, 2, 3, 4};
  Edges edges = {{0}, 0, {0}};
  add_edge(&edges, 0, 4, 1, 1);
  add_edge(&edges, 0, 4, 1, 1);
  add_edge(&edges, 1, 3, 1, 1);
  add_edge(&edges, 2, 4, 1, 1);
  add_edge(&edges, 0, 4, 1, 1);
  const Due due = {5, 5, 5, rows, order};
  expect_chart("means of lines", &edges, &due);
}

/* Two steps above two others, each with edges to both: two lines cross once, however many edges they stand for. A soft line beside each
 * must line makes four crossings of it. */
static void test_crossings(void) {
  uint16_t rows[ROWS], order[POINTS];
  Edges edges = {{0}, 0, {0}};
  for (size_t i = 0; i < 40; i++) add_edge(&edges, i % 2, 2 + i / 2 % 2, 1, 1);
  Table t = write_edges(4, &edges);
  expect(yuvatondro_crossings(call_chart(&t, 4, 4, rows, order)) == 1, "repeated: crossings of must lines");
  for (size_t i = 0; i < 40; i++) add_soft(&edges, i % 2, 2 + i / 2 % 2, 1, 1);
  t = write_edges(4, &edges);
  uint64_t answer = call_chart(&t, 4, 4, rows, order);
  expect(yuvatondro_points(answer) == 4 && yuvatondro_total(answer) == 80, "repeated: points and total");
  expect(yuvatondro_crossings(answer) == 4, "repeated: crossings of must and soft lines");
}

/* Edges one by one would have far more points than there may be: three steps in rows 0, 4 and 8, and as many edges as there may be, those
 * from the first to the last on three lines with a dummy in each row between. */
static void test_accepted(void) {
  enum { POINT_COUNT = 3 + 3 + 3 + SIDE_BY_SIDE * 7 };
  uint16_t rows[ROWS], order[POINTS];
  static const uint16_t due[3] = {0, 4, 8};
  Edges edges = make_chain(3, MAX_GAP, 1);
  for (size_t i = 0; edges.count < YUVATONDRO_MAX_EDGES; i++) add_line(&edges, 0, 2, 1 + i % MAX_GAP, i % SIDE_BY_SIDE);
  Table t = write_edges(3, &edges);
  uint64_t answer = call_chart(&t, 3, POINT_COUNT, rows, order);
  expect(yuvatondro_refusal(answer) == 0 && same_entries(rows, due, 3), "accepted: rows");
  expect(yuvatondro_points(answer) == POINT_COUNT && yuvatondro_crossings(answer) == 0, "accepted: points and crossings");
  expect(yuvatondro_total(answer) == 2 * MAX_GAP * (YUVATONDRO_MAX_EDGES - 1), "accepted: total");
  expect(order[0] == 0 && order[POINT_COUNT - 1] == 2, "accepted: the first point and the last");
  expect(call_chart(&t, 3, POINT_COUNT - 1, rows, order) == 13, "accepted: order one short");
  expect(call_chart(&t, 2, POINT_COUNT, rows, order) == 13, "accepted: rows one short");
}

/* Numbers that look random, the same each time. */
static size_t draw(uint32_t *state, size_t below) {
  *state = *state * 1664525u + 1013904223u;
  return (*state >> 16) % below;
}

/* Few steps and many edges, so that most are repeated: must edges to a larger step, soft ones in either direction. No line weighs more than
 * an edge may. */
static Edges draw_edges(uint32_t *state, size_t steps) {
  Edges edges = {{0}, 0, {0}};
  for (size_t left = draw(state, MAX_WEIGHT / 6); left > 0; left--) {
    size_t from = draw(state, steps - 1), to = from + 1 + draw(state, steps - 1 - from), gap = 1 + draw(state, MAX_GAP);
    size_t weight = draw(state, 7), way = draw(state, 4);
    if (way < 2)
      add_edge(&edges, from, to, gap, weight);
    else
      add_soft(&edges, way == 2 ? from : to, way == 2 ? to : from, gap, weight);
  }
  return edges;
}

/* The same with each line written as one edge. */
static Edges merge(const Edges *edges) {
  Edges merged = {{0}, 0, {0}};
  for (size_t i = 0; i < edges->count; i++) {
    const size_t *e = edge_at(edges, i);
    size_t k = 0;
    while (k < merged.count && (memcmp(edge_at(&merged, k), e, 2 * sizeof *e) != 0 || merged.soft[k] != edges->soft[i])) k++;
    if (k == merged.count) {
      (edges->soft[i] ? add_soft : add_edge)(&merged, e[0], e[1], e[2], e[3]);
    } else {
      size_t *gap = merged.number + 4 * k + 2, *weight = gap + 1;
      if (*gap < e[2]) *gap = e[2];
      *weight += e[3];
    }
  }
  return merged;
}

/* Rows and total of the chart are those of the table's own edges as kept or turned: by the rows call, by the record form, and added up. */
static void expect_unjoined(size_t steps, const Edges *edges, const Table *t, uint64_t answer, const uint16_t *rows) {
  uint16_t found[ROWS];
  Edges laid = *edges;
  unsigned long total = 0;
  for (size_t i = 0; i < laid.count; i++) {
    size_t *e = laid.number + 4 * i, from = e[0];
    if (laid.soft[i] && rows[from] > rows[e[1]]) {
      e[0] = e[1];
      e[1] = from;
    }
    expect(rows[e[0]] + e[2] <= rows[e[1]], "unjoined: a gap is kept");
    total += e[3] * (rows[e[1]] - rows[e[0]]);
  }
  expect(yuvatondro_total(answer) == total, "unjoined: total");
  expect(call_rows(t, steps, found) == 0 && same_entries(found, rows, steps), "unjoined: the rows call");
  expect(call_records(steps, laid.number, 4 * laid.count, steps, found) == 0 && same_entries(found, rows, steps), "unjoined: records");
}

/* A table with repeated edges, and the one with an edge for each line, have the same x, or too many points for them. */
static void expect_same_xs(const Table *t, const Table *joined, size_t points) {
  uint16_t xs[2][POINTS];
  uint64_t due = points > YUVATONDRO_MAX_XS ? 16 : (uint64_t)points << 8;
  expect(call_xs(t, POINTS, xs[0]) == due && call_xs(joined, POINTS, xs[1]) == due, "repeated: the answers of xs");
  expect(same_entries(xs[0], xs[1], POINTS), "repeated: xs");
}

/* Every row of the table is in its best order by the lines, and there are as many as there should be. */
static void expect_orders(size_t steps, const Edges *merged, const Table *t, const uint16_t *rows) {
  size_t row = 1, last = 0;
  for (size_t i = 0; i < steps; i++) last = rows[i] > last ? rows[i] : last;
  while (expect_best("repeated: row order", t, steps, merged, row, 23) > 0) row++;
  expect(row == last + 1, "repeated: the rows that have an order");
}

/* They have the same chart. The x of some are enough, and the strokes and orders of fewer, since to find them takes most of the time. */
static void test_same_chart(void) {
  uint32_t state = 1;
  for (size_t round = 0; round < 2000; round++) {
    uint16_t rows[2][ROWS], order[2][POINTS];
    size_t steps = 2 + draw(&state, 5);
    Edges edges = draw_edges(&state, steps), merged = merge(&edges);
    Table t = write_edges(steps, &edges), joined = write_edges(steps, &merged);
    uint64_t answer = call_chart(&t, ROWS, POINTS, rows[0], order[0]);
    expect(yuvatondro_refusal(answer) == 0, "repeated: accepted");
    expect(call_chart(&joined, ROWS, POINTS, rows[1], order[1]) == answer, "repeated: points, total and crossings");
    expect(same_entries(rows[0], rows[1], ROWS) && same_entries(order[0], order[1], POINTS), "repeated: rows and order");
    expect_unjoined(steps, &edges, &t, answer, rows[0]);
    size_t points = yuvatondro_points(answer);
    expect(call_chart(&t, steps, points, rows[1], order[1]) == answer, "repeated: exact buffers");
    expect(call_chart(&t, steps, points - 1, rows[1], order[1]) == 13, "repeated: order one short");
    if (round % 8 == 0) expect_same_xs(&t, &joined, points);
    if (round % 128 == 0 && points <= YUVATONDRO_MAX_XS) expect_strokes("repeated: strokes", steps, &merged, &t);
    if (round % 64 == 1) expect_orders(steps, &merged, &t, rows[0]);
  }
}

void test_merged_edges(void) {
  test_firmness();
  test_means_of_lines();
  test_crossings();
  test_accepted();
  test_same_chart();
}
