/* Means that take large products to compare: charts with a row nearly as wide as there can be, and steps that share all its points as
 * ends. */
#include "calls.h"

/* Two steps below, steps above, and a dummy on each line from these to the others. Between two steps there are at most three lines, so that
 * it takes many steps above. */
enum { LEFT, RIGHT, SOURCES, MOST_SOURCES = YUVATONDRO_MAX_STEPS - SOURCES };
enum { MOST_LINES = SIDE_BY_SIDE * (MOST_SOURCES + 1) };

/* Lines by the order of the table: the steps at their ends, those above by rising number. */
typedef struct {
  size_t from[MOST_LINES], to[MOST_LINES];
  size_t lines, sources;
} Fan;

/* Adds lines to one of the lower steps, from steps above that the lines before do not come from. */
static void add_run(Fan *fan, size_t to, size_t lines) {
  for (size_t i = 0; i < lines; i++) {
    if (i % SIDE_BY_SIDE == 0) fan->sources++;
    fan->from[fan->lines] = SOURCES + fan->sources - 1;
    fan->to[fan->lines++] = to;
  }
}

/* How many steps above so many lines of a run come from. */
static size_t sources_of(size_t lines) { return (lines + SIDE_BY_SIDE - 1) / SIDE_BY_SIDE; }

static Edges draw_fan(const Fan *fan) {
  Edges edges = {{0}, 0, {0}};
  for (size_t i = 0; i < fan->lines; i++) {
    size_t number = 0;
    for (size_t k = i; k > 0 && fan->from[k - 1] == fan->from[i]; k--) number += fan->to[k - 1] == fan->to[i];
    add_line(&edges, fan->from[i], fan->to[i], 2, number);
  }
  return edges;
}

/* Point by point: the steps above, then the dummies, of the lower step `first` and then those of the other, by line; and the two steps. */
static void write_due(const Fan *fan, size_t first, uint16_t *due) {
  size_t both[2] = {first, LEFT + RIGHT - first}, steps = SOURCES + fan->sources, last = 0;
  for (size_t side = 0; side < 2; side++)
    for (size_t i = 0; i < fan->lines; i++)
      if (fan->to[i] == both[side] && fan->from[i] != last) *due++ = (uint16_t)(last = fan->from[i]);
  for (size_t side = 0; side < 2; side++)
    for (size_t i = 0; i < fan->lines; i++)
      if (fan->to[i] == both[side]) *due++ = (uint16_t)(steps + i);
  *due++ = (uint16_t)both[0];
  *due = (uint16_t)both[1];
}

/* The dummies start by line, and so by the steps above. A pass down leaves them so, and puts the lower steps in order by means; a pass up
 * brings the dummies of each step side by side, and the steps above with them, so that nothing crosses any more. */
static void expect_first(const Fan *fan, size_t first, const char *what) {
  uint16_t rows[ROWS], order[POINTS], due[POINTS];
  size_t steps = SOURCES + fan->sources, points = steps + fan->lines;
  Edges edges = draw_fan(fan);
  Table t = write_edges(steps, &edges);
  uint64_t answer = call_chart(&t, steps, points, rows, order);
  write_due(fan, first, due);
  expect_of("means", yuvatondro_refusal(answer) == 0 && yuvatondro_points(answer) == points, what);
  expect_of("means", yuvatondro_crossings(answer) == 0 && same_entries(order, due, points), what);
}

/* The last lines lead to the left step, whose mean is then above the other's, however many they are; the first of them come from the same
 * step as the last of the others. The product of its sum and the other's count is largest with 120 of them: 4,445,100. */
static void test_largest(void) {
  for (size_t count = 1; sources_of(count) <= MOST_SOURCES; count++) {
    Fan fan = {{0}, {0}, 0, 0};
    add_run(&fan, RIGHT, SIDE_BY_SIDE * (MOST_SOURCES + 1 - sources_of(count)));
    fan.sources--;
    add_run(&fan, LEFT, count);
    expect_first(&fan, RIGHT, "the step with the last lines comes last");
  }
}

/* As many of the first lines as of the last lead to the left step: the means are equal, and the steps keep their order. With one of its
 * ends a place further to the right its mean is above the other's, by the least that two means of so many ends can differ; to the left it
 * is below. */
static void test_nearest(void) {
  for (size_t half = 1; 2 * sources_of(half) + 2 < MOST_SOURCES; half++) {
    size_t middle = SIDE_BY_SIDE * (MOST_SOURCES - 2 * sources_of(half) - 2);
    Fan equal = {{0}, {0}, 0, 0}, above = equal, below = equal;
    add_run(&equal, LEFT, half);
    add_run(&equal, RIGHT, middle);
    add_run(&equal, LEFT, half);
    expect_first(&equal, LEFT, "equal means");
    add_run(&above, LEFT, half - 1);
    add_run(&above, RIGHT, 1);
    add_run(&above, LEFT, 1);
    add_run(&above, RIGHT, middle - 1);
    add_run(&above, LEFT, half);
    expect_first(&above, RIGHT, "a mean just above the other");
    add_run(&below, LEFT, half);
    add_run(&below, RIGHT, middle - 1);
    add_run(&below, LEFT, 1);
    add_run(&below, RIGHT, 1);
    add_run(&below, LEFT, half - 1);
    expect_first(&below, LEFT, "a mean just below the other");
  }
}

/* One step below has as many ends as a step can have. */
static void test_all_ends(void) {
  enum { STEPS = YUVATONDRO_MAX_STEPS, ENDS = SIDE_BY_SIDE * (STEPS - 1) };
  uint16_t rows[ROWS], order[POINTS];
  Edges edges = {{0}, 0, {0}};
  for (size_t i = 0; i < ENDS; i++) add_line(&edges, 1 + i / SIDE_BY_SIDE, 0, 2, i % SIDE_BY_SIDE);
  Table t = write_edges(STEPS, &edges);
  uint64_t answer = call_chart(&t, STEPS, STEPS + ENDS, rows, order);
  expect(yuvatondro_refusal(answer) == 0 && yuvatondro_crossings(answer) == 0, "means: all ends at one step");
  for (size_t i = 0; i < ENDS; i++) expect(order[STEPS - 1 + i] == STEPS + i, "means: all ends at one step, a dummy");
  expect(order[STEPS - 1 + ENDS] == 0, "means: all ends at one step, which is last");
}

void test_means(void) {
  test_largest();
  test_nearest();
  test_all_ends();
}
