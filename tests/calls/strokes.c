/* The call for strokes: charts whose strokes are counted by hand, the farthest corners, and each refusal in its order. */
#include "calls.h"

enum { MOVE = YUVATONDRO_MOVE, LINE = YUVATONDRO_LINE };
typedef struct {
  unsigned what;
  float x, y;
} Due;

static yuvatondro_stroke stroke_of(const Due *due) {
  const yuvatondro_stroke stroke = {(uint64_t)due->what << 8, due->x, due->y};
  return stroke;
}

/* These strokes from index 0 on, and none behind them. */
static void expect_due(const char *what, size_t steps, const Edges *edges, const Due *due, size_t count) {
  Table t = write_edges(steps, edges);
  for (size_t i = 0; i < count; i++) {
    yuvatondro_stroke stroke = call_stroke(&t, i);
    expect_of(what, yuvatondro_refusal(stroke.answer) == YUVATONDRO_DONE, "refused");
    expect_of(what, yuvatondro_stroke_case(stroke.answer) == due[i].what, "a move or a line");
    expect_of(what, same_stroke(stroke, stroke_of(&due[i])), "a corner, or other bits of the answer");
  }
  expect_none(what, &t, count);
}
#define COUNT(list) (sizeof(list) / sizeof *(list))

/* One edge, without a dummy and with three, upright. The same as a soft edge is kept. */
static void test_one(void) {
  static const Due near[] = {{MOVE, 0, 0}, {LINE, 0, 7.25f}};
  static const Due far[] = {{MOVE, 0, 0}, {LINE, 0, 7.25f}, {LINE, 0, 14.5f}, {LINE, 0, 21.75f}, {LINE, 0, 29}};
  Edges edges = make_chain(2, 1, 1), soft = {{0}, 0, {0}};
  expect_due("an edge", 2, &edges, near, COUNT(near));
  edges = make_chain(2, MAX_GAP, 0);
  expect_due("a long edge", 2, &edges, far, COUNT(far));
  add_soft(&soft, 0, 1, MAX_GAP, MAX_WEIGHT);
  expect_due("a soft edge", 2, &soft, far, COUNT(far));
  edges = (Edges){{1, 0, MAX_GAP, 1}, 1, {0}};
  expect_due("a larger step first", 2, &edges, far, COUNT(far));
}

/* The sample, as xs.c counts it: its steps in rows 0, 1, 3, 2 at x 1, 0, 0, 1, the dummies of edges 1 and 2 in rows 2 and 1 at x 0 and 1. */
static void test_sample(void) {
  static const Due due[] = {{MOVE, 12.5f, 0}, {LINE, 0, 7.25f},                          /* warm, lock */
                            {MOVE, 0, 7.25f}, {LINE, 0, 14.5f}, {LINE, 0, 21.75f},       /* lock, sweep */
                            {MOVE, 12.5f, 0}, {LINE, 12.5f, 7.25f}, {LINE, 12.5f, 14.5f}, /* warm, level */
                            {MOVE, 12.5f, 14.5f}, {LINE, 0, 21.75f}};                    /* level, sweep */
  Edges edges = {{0}, 0, {0}};
  add_edge(&edges, 0, 1, 1, 1);
  add_edge(&edges, 1, 2, 2, 3);
  add_edge(&edges, 0, 3, 1, 1);
  add_edge(&edges, 3, 2, 1, 5);
  expect_due("the sample", 4, &edges, due, COUNT(due));
}

/* An edge as so many of the same ends, which are one line of their weights added. */
static void add_copies(Edges *edges, size_t copies, size_t from, size_t to, size_t gap, size_t weight) {
  for (; copies > 0; copies--) add_edge(edges, from, to, gap, weight);
}

/* The crossing that xs.c counts, where the weight of its last line is 12. Steps 1, 0, 2, 3 stand in rows 0, 1, 3, 3 at x 2, 2, 0, 2. The line
 * between steps 1 and 2 bends: its dummies stand in row 1 at x 3 and in row 2 at x 1, so that a wrong one of the two shows. It leads down as a
 * must edge, and up, from step 2, as a soft one that is turned. The dummies of the lines from step 0 stand in row 2 at x 0 and 2. With each
 * edge many times, as there is room for, the strokes are the same. */
static void test_crossing(size_t copies, int turned) {
  Due due[] = {{MOVE, 25, 7.25f}, {LINE, 0, 14.5f}, {LINE, 0, 21.75f},                   /* from step 0 to step 2 */
               {MOVE, 25, 0}, {LINE, 37.5f, 7.25f}, {LINE, 12.5f, 14.5f}, {LINE, 0, 21.75f}, /* from step 1 to step 2 */
               {MOVE, 25, 0}, {LINE, 25, 7.25f},                                         /* from step 1 to step 0 */
               {MOVE, 25, 7.25f}, {LINE, 25, 14.5f}, {LINE, 25, 21.75f}};                /* from step 0 to step 3 */
  static const Due up[] = {{MOVE, 0, 21.75f}, {LINE, 12.5f, 14.5f}, {LINE, 37.5f, 7.25f}, {LINE, 25, 0}};
  Edges edges = {{0}, 0, {0}};
  add_copies(&edges, 3 * copies, 0, 2, 2, 1);
  if (turned) {
    memcpy(due + 3, up, sizeof up);
    add_soft(&edges, 2, 1, 3, 2 * copies);
  } else {
    add_copies(&edges, 2 * copies, 1, 2, 3, 1);
  }
  add_copies(&edges, 5 * copies, 1, 0, 1, 1);
  add_copies(&edges, 12 * copies, 0, 3, 2, 1);
  expect_due(turned ? "a turned line" : "a crossing", 4, &edges, due, COUNT(due));
}

/* Three lines between steps 0 and 3, by firmness, which xs.c counts: all upright, the must one at x 1, the turned one at x 2 and the kept one
 * at x 3, in rows 1 to 3; on their left the one from step 1, on their right the one to step 2. Steps 0 to 3 stand in rows 0, 1, 3, 4 at x 3,
 * 0, 4, 3. Each line comes where its first edge stands, however late the others come; a repeated edge has no strokes of its own. */
static void test_firmness(void) {
  static const Due due[] = {
      {MOVE, 37.5f, 0}, {LINE, 12.5f, 7.25f}, {LINE, 12.5f, 14.5f}, {LINE, 12.5f, 21.75f}, {LINE, 37.5f, 29}, /* must, from 0 to 3 */
      {MOVE, 37.5f, 0}, {LINE, 0, 7.25f},                                                                     /* from 0 to 1 */
      {MOVE, 37.5f, 29}, {LINE, 25, 21.75f}, {LINE, 25, 14.5f}, {LINE, 25, 7.25f}, {LINE, 37.5f, 0},          /* turned, from 3 to 0 */
      {MOVE, 37.5f, 0}, {LINE, 37.5f, 7.25f}, {LINE, 37.5f, 14.5f}, {LINE, 37.5f, 21.75f}, {LINE, 37.5f, 29}, /* soft, from 0 to 3 */
      {MOVE, 0, 7.25f}, {LINE, 0, 14.5f}, {LINE, 0, 21.75f}, {LINE, 37.5f, 29},                               /* from 1 to 3 */
      {MOVE, 37.5f, 0}, {LINE, 50, 7.25f}, {LINE, 50, 14.5f}, {LINE, 50, 21.75f},                             /* from 0 to 2 */
      {MOVE, 50, 21.75f}, {LINE, 37.5f, 29}};                                                                 /* from 2 to 3 */
  Edges edges = {{0}, 0, {0}};
  add_edge(&edges, 0, 3, 1, 3);
  add_edge(&edges, 0, 1, 1, 4);
  add_soft(&edges, 3, 0, 2, 1);
  add_edge(&edges, 0, 3, 4, 1);
  add_soft(&edges, 0, 3, 2, 5);
  add_edge(&edges, 1, 3, 1, 3);
  add_soft(&edges, 3, 0, 1, 9);
  add_edge(&edges, 0, 2, 1, 0);
  add_edge(&edges, 0, 3, 2, 200);
  add_edge(&edges, 2, 3, 1, 1);
  add_soft(&edges, 0, 3, 1, 255);
  expect_due("firmness", 4, &edges, due, COUNT(due));
}

/* A corner in the units in which both numbers are whole: half and quarter millimetres. */
static Due corner(unsigned what, unsigned x, unsigned row) {
  const Due due = {what, (float)(25 * x) / 2, (float)(29 * row) / 4};
  return due;
}

/* A chain of as many points as may have an x, one in each row, so that the last stroke leads to the largest row that there is. */
static void test_most_rows(void) {
  enum { LINKS = YUVATONDRO_MAX_XS / MAX_GAP, LAST = YUVATONDRO_MAX_XS - 1 };
  Edges edges = make_chain(LINKS, MAX_GAP, 1);
  Due due[LAST + LINKS];
  size_t count = 0;
  add_edge(&edges, LINKS - 1, LINKS, LAST % MAX_GAP, 1);
  for (unsigned row = 0; row < LAST; row++) {
    if (row % MAX_GAP == 0) due[count++] = corner(MOVE, 0, row);
    due[count++] = corner(LINE, 0, row + 1);
  }
  expect_due("the most rows", LINKS + 1, &edges, due, count);
  Table t = write_edges(LINKS + 1, &edges);
  expect(float_bits(call_stroke(&t, count - 1).y) == 0x44663000, "strokes: 920.75 in the largest row");
}

/* The edges of FAN * SIDE_BY_SIDE lines of length 2 from a step to each of FAN behind it. The first holds its two ends and its dummy in one
 * column, the others have no weight. */
enum { FAN = 11, DUMMIES = FAN * SIDE_BY_SIDE, ALONE = YUVATONDRO_MAX_XS - DUMMIES - FAN - 1 };
static Edges make_fan(void) {
  Edges edges = {{0}, 0, {0}};
  for (size_t to = ALONE + 1; to <= ALONE + FAN; to++) {
    add_edge(&edges, ALONE, to, 2, edges.count == 0 ? MAX_WEIGHT : 0);
    add_soft(&edges, ALONE, to, 2, 0);
    add_soft(&edges, to, ALONE, 2, 0);
  }
  return edges;
}

/* Beside ALONE steps without an edge, and so at x ALONE, the step of a fan, with one dummy behind another on its right: as many points as may
 * have an x, and larger x than any row of steps has. No two lines cross in the order by number. Of each three lines the last is turned. */
static void test_most_columns(void) {
  Edges edges = make_fan();
  Due due[3 * DUMMIES];
  for (unsigned k = 0; k < DUMMIES; k++) {
    unsigned down = k % SIDE_BY_SIDE < SIDE_BY_SIDE - 1, head = ALONE + k / SIDE_BY_SIDE;
    due[3 * k] = down ? corner(MOVE, ALONE, 0) : corner(MOVE, head, 2);
    due[3 * k + 1] = corner(LINE, ALONE + k, 1);
    due[3 * k + 2] = down ? corner(LINE, head, 2) : corner(LINE, ALONE, 0);
  }
  expect_due("the most columns", ALONE + 1 + FAN, &edges, due, COUNT(due));
  Table t = write_edges(ALONE + 1 + FAN, &edges);
  expect(float_bits(call_stroke(&t, COUNT(due) - 2).x) == 0x44B3B000, "strokes: 1437.5 in the last column");
  t = write_edges(ALONE + 1 + FAN + 1, &edges);
  expect_refused_strokes(&t, 16, "one point too many");
}

/* As many lines as there may be, between steps that are all in one of two rows: two strokes each, and no dummy. Without weight their x are
 * soon found. */
static void test_most_lines(void) {
  enum { HIGH = 12, LOW = YUVATONDRO_MAX_EDGES / HIGH };
  Edges edges = {{0}, 0, {0}};
  for (size_t i = 0; i < HIGH * LOW; i++) add_edge(&edges, i / LOW, HIGH + i % LOW, 1, 0);
  Table t = write_edges(HIGH + LOW, &edges);
  expect_strokes("the most lines", HIGH + LOW, &edges, &t);
  expect_none("the most lines", &t, 2 * YUVATONDRO_MAX_EDGES);
}

static void test_refused(void) {
  for (size_t i = 0; i < REFUSED; i++) {
    Table t = read_hex(refused[i].table);
    expect_refused_strokes(&t, refused[i].refusal, "a refusal of the reader");
  }
  const yuvatondro_stroke cut = {YUVATONDRO_CUT, 0, 0};
  expect(same_stroke(yuvatondro_stroke_at(NULL, 0, 0), cut), "strokes: no table");
  expect(same_stroke(yuvatondro_stroke_at(NULL, 0, SIZE_MAX), cut), "strokes: no table and the largest index");
  Table t = read_hex("01 03 00 01 41 00 01 42 00 01 43 03 00 01 01 01 01 02 01 01 02 01 01 01");
  expect_refused_strokes(&t, 11 | 1 << 8, "a loop with its lowest step");
  t = write_largest(0);
  expect_refused_strokes(&t, 16, "the longest table");
  t.byte[t.len++] = 0;
  expect_refused_strokes(&t, 10, "the longest table and a spare byte");
}

/* A loop comes before the points, and the limit of a chart before that of x. */
static void test_order_of_refusals(void) {
  Edges edges = make_points(YUVATONDRO_MAX_POINTS);
  Table t = write_edges(YUVATONDRO_MAX_STEPS, &edges);
  expect_refused_strokes(&t, 16, "as many points as a chart may have");
  add_edge(&edges, YUVATONDRO_MAX_STEPS - 1, 3, 1, 1);
  t = write_edges(YUVATONDRO_MAX_STEPS, &edges);
  expect_refused_strokes(&t, 11 | 3 << 8, "a loop in a chart of too many points for x");
  edges = make_points(YUVATONDRO_MAX_POINTS + 1);
  t = write_edges(YUVATONDRO_MAX_STEPS, &edges);
  expect_refused_strokes(&t, 12, "more points than a chart may have");
  add_edge(&edges, YUVATONDRO_MAX_STEPS - 1, 2, 1, 1);
  t = write_edges(YUVATONDRO_MAX_STEPS, &edges);
  expect_refused_strokes(&t, 11 | 2 << 8, "a loop in a chart of too many points");
}

/* Tables without an edge, and so without a stroke. */
static void test_none(void) {
  static const char *const tables[] = {"01 00 00", "02 00 00", "01 01 00 01 41 00", "02 02 00 01 41 00 01 42 00"};
  const Edges none = {{0}, 0, {0}};
  for (size_t i = 0; i < COUNT(tables); i++) {
    Table t = read_hex(tables[i]);
    expect_none("no edges", &t, 0);
  }
  Table t = write_edges(YUVATONDRO_MAX_STEPS, &none);
  expect_none("steps alone", &t, 0);
}

void test_stroke_call(void) {
  test_one();
  test_sample();
  test_crossing(1, 0);
  test_crossing(1, 1);
  test_crossing(13, 0);
  test_crossing(13, 1);
  test_firmness();
  test_most_rows();
  test_most_columns();
  test_most_lines();
  test_refused();
  test_order_of_refusals();
  test_none();
}
