/* The call for x: charts whose x are counted by hand, each refusal in its order, and the limit of points on both sides. */
#include "calls.h"

/* The answer of a call that was not refused. */
static uint64_t done(size_t points) { return (uint64_t)points << 8; }

/* These x in a buffer of every telling length: exact, longer, as long as is always enough, one entry short, and none. */
static void expect_xs(const char *what, const Table *t, const uint16_t *due, size_t points) {
  const size_t rooms[3] = {points, points + 5, YUVATONDRO_MAX_XS};
  uint16_t xs[POINTS];
  for (size_t k = 0; k < 3; k++) {
    uint64_t answer = call_xs(t, rooms[k], xs);
    expect_of(what, answer == done(points) && yuvatondro_points(answer) == points, "points");
    expect_of(what, same_entries(xs, due, points), "x");
    for (size_t i = points; i < rooms[k]; i++) expect_of(what, xs[i] == FILL16, "an entry behind the last point changed");
  }
  expect_of(what, call_xs(t, points - 1, xs) == 13 && call_xs(t, 0, xs) == 13, "a short buffer");
  expect_of(what, yuvatondro_xs(t->byte, t->len, NULL, 0) == 13, "no buffer");
}

/* The chart of these edges has the order by which its x were counted, and then these x. */
static void expect_chart(const char *what, size_t steps, const Edges *edges, size_t points, const uint16_t *order, const uint16_t *due) {
  uint16_t rows[ROWS], found[POINTS];
  Table t = write_edges(steps, edges);
  uint64_t answer = call_chart(&t, steps, points, rows, found);
  expect_of(what, yuvatondro_refusal(answer) == 0 && yuvatondro_points(answer) == points, "points of the chart");
  expect_of(what, same_entries(found, order, points), "the order of the chart");
  expect_xs(what, &t, due, points);
}

/* Steps 0 and 3 above and below two ways from the one to the other, over steps 1 and 2 on the left and over the dummies 4 and 5 on the right.
 * Both ways are straight, one beside the other, and steps 0 and 3 stand with the way whose segments to them cost more; where both cost the
 * same, with the left one. A segment between two steps costs its weight and one with a dummy twice its weight, so that the line on the right
 * costs 2 * 3. */
static void test_straight(size_t left_weight, uint16_t due) {
  static const uint16_t order[6] = {0, 1, 4, 2, 5, 3};
  const uint16_t xs[6] = {due, 0, 0, due, 1, 1};
  Edges edges = make_chain(4, 1, left_weight);
  add_edge(&edges, 0, 3, 1, 3);
  expect_chart("straight", 4, &edges, 6, order, xs);
}

/* The sample, in which the dummy 4 of edge 1 stands left of step 3, and step 1 left of the dummy 5 of edge 2. Step 0 costs 1 to step 1 and 2
 * to the dummy 5, so that it stands above the latter; step 2 costs 6 to the dummy 4, and to step 3 the weight of edge 3. */
static void test_sample(size_t weight, uint16_t due) {
  static const uint16_t order[6] = {0, 1, 5, 4, 3, 2};
  const uint16_t xs[6] = {1, 0, due, 1, 0, 1};
  Edges edges = {{0}, 0, {0}};
  add_edge(&edges, 0, 1, 1, 1);
  add_edge(&edges, 1, 2, 2, 3);
  add_edge(&edges, 0, 3, 1, 1);
  add_edge(&edges, 3, 2, 1, weight);
  expect_chart("the sample", 4, &edges, 6, order, xs);
}

/* An edge as so many of the same ends, which are one line of their weights added. */
static void add_copies(Edges *edges, size_t copies, size_t from, size_t to, size_t gap, size_t weight) {
  for (; copies > 0; copies--) add_edge(edges, from, to, gap, weight);
}

/* Rows of step 1; step 0 and the dummy 5; the dummies 4, 6, 7; steps 2 and 3. The line of the dummies 5 and 6, of weight 2, leads from step 1
 * to step 2 and crosses the one from step 0 over the dummy 7 to step 3, of this weight; the one over the dummy 4 has weight 3. So 4, 6, 7
 * stand at 0, 1, 2, step 2 below the dummy 4 and step 3 below the dummy 7, and step 1 is held by step 0 at weight 5. To move step 0 by one
 * from above the dummy 4 towards the dummy 7 moves the dummy 5 before it: that saves 2 * weight, and costs 2 * 3 for the dummy 4 and 8 * 2
 * for the bend between 5 and 6, 22 together. With weight 11 both are the same and all stand at the lowest; with 12 step 0 moves by two.
 * Each weight is written as so many edges of a weight each, or the line that bends as a soft edge that is turned. */
static void test_crossing(size_t copies, size_t each, size_t weight, int turned) {
  static const uint16_t order[8] = {1, 0, 5, 4, 6, 7, 2, 3};
  static const uint16_t upright[8] = {0, 0, 0, 2, 0, 1, 1, 2}, bent[8] = {2, 2, 0, 2, 0, 3, 1, 2};
  Edges edges = {{0}, 0, {0}};
  add_copies(&edges, 3 * copies, 0, 2, 2, each);
  if (turned)
    add_soft(&edges, 2, 1, 3, 2 * each);
  else
    add_copies(&edges, 2 * copies, 1, 2, 3, each);
  add_copies(&edges, 5 * copies, 1, 0, 1, each);
  add_copies(&edges, weight * copies, 0, 3, 2, each);
  expect_chart(turned ? "a turned line" : "a crossing", 4, &edges, 8, order, weight < 12 ? upright : bent);
}

/* A step and the steps of the next row, of each of which it has an edge of a weight: it stands where as much weight is on its left as on its
 * right, and of such places at the lowest. Then the same upside down. */
static void test_median(size_t first, size_t second, size_t third, uint16_t due) {
  static const uint16_t down[4] = {0, 1, 2, 3}, up[4] = {1, 2, 3, 0};
  const size_t weights[3] = {first, second, third};
  const uint16_t xs[4] = {due, 0, 1, 2};
  Edges to_next = {{0}, 0, {0}}, from_next = {{0}, 0, {0}};
  for (size_t i = 0; i < 3; i++) {
    add_edge(&to_next, 0, i + 1, 1, weights[i]);
    add_edge(&from_next, i + 1, 0, 1, weights[i]);
  }
  expect_chart("a median", 4, &to_next, 4, down, xs);
  expect_chart("a median below", 4, &from_next, 4, up, xs);
}

/* From step 0 to step 3 three lines of three dummies each, of must edges, of soft ones turned and of soft ones kept, which weigh 204, 10
 * and 260; on their left step 1 with a line to step 3, on their right a line of weight 0 to step 2. All stand upright, in columns 0 to 4.
 * Steps 0 and 3 stand in column 3, with the heaviest: 432 of what step 0 costs is on its left and 520 there, of step 3 434 and 520. */
static void test_firmness(void) {
  static const uint16_t order[17] = {0, 1, 4, 7, 10, 15, 13, 5, 8, 11, 16, 14, 6, 9, 12, 2, 3};
  static const uint16_t xs[17] = {3, 0, 4, 3, 1, 1, 1, 2, 2, 2, 3, 3, 3, 0, 0, 4, 4};
  Edges edges = {{0}, 0, {0}};
  add_edge(&edges, 0, 3, 4, 204);
  add_edge(&edges, 0, 1, 1, 4);
  add_soft(&edges, 3, 0, 2, 10);
  add_soft(&edges, 0, 3, 2, 5);
  add_soft(&edges, 0, 3, 1, 255);
  add_edge(&edges, 1, 3, 1, 3);
  add_edge(&edges, 0, 2, 1, 0);
  add_edge(&edges, 2, 3, 1, 1);
  expect_chart("firmness", 4, &edges, 17, order, xs);
}

/* Two steps in each row; the left one has an edge from the right one of the row above, below which it stands, so that each row begins one
 * further to the right. The edge to the right one has no weight. */
static void test_stairs(void) {
  enum { STEPS = YUVATONDRO_MAX_STEPS };
  uint16_t order[STEPS], xs[STEPS];
  Edges edges = {{0}, 0, {0}};
  for (size_t i = 0; i < STEPS; i++) {
    if (i >= 2) add_edge(&edges, i - 1 - i % 2, i, 1, i % 2 ? 0 : MAX_WEIGHT);
    order[i] = (uint16_t)i;
    xs[i] = (uint16_t)(i / 2 + i % 2);
  }
  expect_chart("stairs", STEPS, &edges, STEPS, order, xs);
}

/* A chain of the largest gap, upright at 0, and steps without an edge beside its first one: so many points as there may be, and more. */
static void test_limit(void) {
  enum { CHAIN = 32, IN_CHAIN = MAX_GAP * (CHAIN - 1) + 1, ALONE = YUVATONDRO_MAX_XS - IN_CHAIN };
  Edges chain = make_chain(CHAIN, MAX_GAP, 1);
  uint16_t due[YUVATONDRO_MAX_XS] = {0}, xs[POINTS];
  for (size_t i = 0; i < ALONE; i++) due[CHAIN + i] = (uint16_t)(i + 1);
  Table t = write_edges(CHAIN + ALONE, &chain);
  expect_xs("the most points", &t, due, YUVATONDRO_MAX_XS);
  for (size_t points = YUVATONDRO_MAX_XS + 1; points <= YUVATONDRO_MAX_XS + 9; points++) {
    t = write_edges(points - IN_CHAIN + CHAIN, &chain);
    expect(call_xs(&t, POINTS, xs) == 16, "xs: too many points");
    expect(call_xs(&t, YUVATONDRO_MAX_XS, xs) == 16 && call_xs(&t, 0, xs) == 16, "xs: too many points, before a short buffer");
    expect(yuvatondro_xs(t.byte, t.len, NULL, 0) == 16, "xs: too many points and no buffer");
  }
}

/* Points are counted by lines: two steps and as many edges as there may be have the three dummies of one line. */
static void test_lines(void) {
  static const uint16_t due[5] = {0};
  Edges edges = {{0}, 0, {0}};
  add_copies(&edges, YUVATONDRO_MAX_EDGES, 0, 1, MAX_GAP, MAX_WEIGHT);
  Table t = write_edges(2, &edges);
  expect_xs("one line", &t, due, 5);
}

/* Each table with an empty buffer, with no buffer and with a long one. */
static void expect_refused(const Table *t, uint64_t due, const char *what) {
  uint16_t xs[POINTS];
  expect_of("xs", call_xs(t, 0, xs) == due && call_xs(t, POINTS, xs) == due, what);
  expect_of("xs", yuvatondro_xs(t->byte, t->len, NULL, 0) == due, what);
}

static void test_refused(void) {
  for (size_t i = 0; i < REFUSED; i++) {
    Table t = read_hex(refused[i].table);
    expect_refused(&t, refused[i].refusal, "a refusal of the reader");
  }
  expect(yuvatondro_xs(NULL, 0, NULL, 0) == 1, "xs: no table and no buffer");
  Table t = read_hex("01 03 00 01 41 00 01 42 00 01 43 03 00 01 01 01 01 02 01 01 02 01 01 01");
  expect_refused(&t, 11 | 1 << 8, "a loop with its lowest step");
  Edges edges = make_points(YUVATONDRO_MAX_POINTS);
  t = write_edges(YUVATONDRO_MAX_STEPS, &edges);
  expect_refused(&t, 16, "as many points as a chart may have");
  edges = make_points(YUVATONDRO_MAX_POINTS + 1);
  t = write_edges(YUVATONDRO_MAX_STEPS, &edges);
  expect_refused(&t, 12, "more points than a chart may have");
  add_edge(&edges, YUVATONDRO_MAX_STEPS - 1, 2, 1, 1);
  t = write_edges(YUVATONDRO_MAX_STEPS, &edges);
  expect_refused(&t, 11 | 2 << 8, "a loop in a chart of too many points");
  t = write_largest(0);
  expect_refused(&t, 16, "the longest table");
  t.byte[t.len++] = 0;
  expect_refused(&t, 10, "the longest table and a spare byte");
}

static void test_empty(void) {
  uint16_t xs[POINTS];
  Table t = read_hex("01 00 00");
  expect(call_xs(&t, 0, xs) == 0 && yuvatondro_xs(t.byte, t.len, NULL, 0) == 0, "xs: a table of no steps and no buffer");
  expect(call_xs(&t, 2, xs) == 0 && xs[0] == FILL16 && xs[1] == FILL16, "xs: a table of no steps");
}

void test_xs_call(void) {
  test_straight(5, 1);
  test_straight(6, 0);
  test_straight(7, 0);
  test_sample(5, 0);
  test_sample(6, 0);
  test_sample(7, 1);
  test_crossing(1, 1, 11, 0);
  test_crossing(1, 1, 12, 0);
  test_crossing(1, 1, 11, 1);
  test_crossing(1, 1, 12, 1);
  test_crossing(13, MAX_WEIGHT, 11, 0);
  test_crossing(13, MAX_WEIGHT, 12, 0);
  test_median(1, 1, 1, 1);
  test_median(2, 1, 1, 0);
  test_median(1, 1, 2, 1);
  test_median(1, 1, 3, 2);
  test_median(0, 0, 0, 0);
  test_firmness();
  test_stairs();
  test_limit();
  test_lines();
  test_refused();
  test_empty();
}
