/* What an order of one row costs, counted by the definition: from the rows and the order of the chart, the lines of its table, and lists of
 * positions as they stand in a dictionary. */
#include <limits.h>

#include "calls.h"

/* A chart by the chart call, with the row and the position of every point. */
typedef struct {
  uint16_t rows[ROWS], order[POINTS], row_of[POINTS], place[POINTS];
  size_t points;
} Chart;

/* A row with another above it: its points from left to right, and of each segment that leads to one of them the positions of both ends. */
typedef struct {
  size_t number, points, segments;
  uint16_t point[POINTS], upper[YUVATONDRO_MAX_EDGES], lower[YUVATONDRO_MAX_EDGES];
} Row;

/* A line from its upper end to its lower one. */
typedef struct { size_t upper, lower, first_dummy; } Line;

static Line find_line(const Chart *chart, const size_t *ends, size_t first_dummy) {
  int turned = chart->rows[ends[0]] > chart->rows[ends[1]];
  const Line line = {ends[turned], ends[!turned], first_dummy};
  return line;
}

/* The point of a line in a row, which is that of one of its ends or between them. */
static size_t point_in(const Chart *chart, const Line *line, size_t row) {
  if (row == chart->rows[line->upper]) return line->upper;
  return row == chart->rows[line->lower] ? line->lower : line->first_dummy + row - chart->rows[line->upper] - 1;
}

static size_t count_dummies(const Chart *chart, const Line *line) { return chart->rows[line->lower] - chart->rows[line->upper] - 1u; }

/* Dummies are numbered by line and rising row, and the order goes through the rows one after another. */
static void place_points(Chart *chart, size_t steps, const Edges *lines) {
  size_t dummy = steps;
  for (size_t i = 0; i < steps; i++) chart->row_of[i] = chart->rows[i];
  for (size_t i = 0; i < lines->count; i++) {
    Line line = find_line(chart, lines->number + 4 * i, dummy);
    for (size_t k = 0; k < count_dummies(chart, &line); k++) chart->row_of[dummy++] = (uint16_t)(chart->rows[line.upper] + 1 + k);
  }
  expect(dummy == chart->points, "orders: the dummies of the lines");
  for (size_t i = 0; i < chart->points; i++) {
    uint16_t point = chart->order[i], left = i > 0 ? chart->order[i - 1] : point;
    chart->place[point] = i > 0 && chart->row_of[left] == chart->row_of[point] ? (uint16_t)(chart->place[left] + 1) : 0;
  }
}

static void add_segments(Row *row, const Chart *chart, size_t steps, const Edges *lines) {
  for (size_t i = 0, dummy = steps; i < lines->count; i++) {
    Line line = find_line(chart, lines->number + 4 * i, dummy);
    dummy += count_dummies(chart, &line);
    if (chart->rows[line.upper] >= row->number || chart->rows[line.lower] < row->number) continue;
    row->upper[row->segments] = chart->place[point_in(chart, &line, row->number - 1)];
    row->lower[row->segments++] = chart->place[point_in(chart, &line, row->number)];
  }
}

static Row find_row(size_t steps, const Edges *lines, const Table *t, size_t number) {
  Chart chart;
  Row row = {.number = number};
  uint64_t answer = call_chart(t, ROWS, POINTS, chart.rows, chart.order);
  expect(yuvatondro_refusal(answer) == 0, "orders: the chart is refused");
  chart.points = yuvatondro_points(answer);
  place_points(&chart, steps, lines);
  for (size_t i = 0; i < chart.points; i++)
    if (chart.row_of[chart.order[i]] == number) row.point[row.points++] = chart.order[i];
  add_segments(&row, &chart, steps, lines);
  return row;
}

/* The order of this number, from 0, among all of so many positions as a dictionary has them. Behind one first entry come all orders of the
 * others before the next one does, so that the digits of the number by factorials tell which of the positions left is next. */
static void find_order(size_t number, size_t points, uint16_t *order) {
  uint16_t left[YUVATONDRO_MAX_ROW_POINTS];
  size_t digit[YUVATONDRO_MAX_ROW_POINTS];
  for (size_t i = points; i-- > 0; number /= points - i) {
    left[i] = (uint16_t)i;
    digit[i] = number % (points - i);
  }
  for (size_t i = 0; i < points; i++) {
    uint16_t *next = left + digit[i];
    order[i] = *next;
    memmove(next, next + 1, (points - i - digit[i] - 1) * sizeof *next);
  }
}

/* How many orders there are, or so many as are looked at. */
static size_t count_orders(size_t points, size_t tries) {
  size_t orders = 1;
  for (size_t i = 2; i <= points && orders <= tries; i++) orders *= i;
  return orders <= tries ? orders : tries + 1;
}

/* Pairs of segments whose ends change sides, in this order of the row. */
static unsigned long count_crossings(const Row *row, const uint16_t *order) {
  uint16_t place[YUVATONDRO_MAX_ROW_POINTS];
  unsigned long crossings = 0;
  for (size_t i = 0; i < row->points; i++) place[order[i]] = (uint16_t)i;
  for (size_t i = 0; i < row->segments; i++)
    for (size_t j = 0; j < i; j++) {
      int above = row->upper[i] - row->upper[j], below = place[row->lower[i]] - place[row->lower[j]];
      crossings += (above < 0 && below > 0) || (above > 0 && below < 0);
    }
  return crossings;
}

/* The crossings of the segments of two points, the one left of the other. */
static unsigned long count_between(const Row *row, size_t left, size_t right) {
  unsigned long crossings = 0;
  for (size_t i = 0; i < row->segments; i++)
    for (size_t j = 0; j < row->segments; j++)
      crossings += row->lower[i] == left && row->lower[j] == right && row->upper[i] > row->upper[j];
  return crossings;
}

static unsigned long count_floor(const Row *row) {
  unsigned long floor = 0;
  for (size_t i = 0; i < row->points; i++)
    for (size_t j = i + 1; j < row->points; j++) {
      unsigned long as_is = count_between(row, i, j), swapped = count_between(row, j, i);
      floor += as_is < swapped ? as_is : swapped;
    }
  return floor;
}

void expect_order(const char *what, const Table *t, size_t row, size_t tries, const Ordered *due) {
  const size_t rooms[3] = {due->points, due->points + 1, YUVATONDRO_MAX_ROW_POINTS + 5};
  const uint64_t word = (uint64_t)due->points << 8 | (uint64_t)due->floor << 19 | (uint64_t)due->crossings << 44;
  uint16_t order[POINTS];
  for (size_t k = 0; k < 3; k++) {
    uint64_t answer = call_row_order(t, row, tries, rooms[k], order);
    expect_of(what, yuvatondro_refusal(answer) == YUVATONDRO_DONE && yuvatondro_points(answer) == due->points, "the points of a row");
    expect_of(what, yuvatondro_crossings(answer) == due->crossings, "the crossings of a row");
    expect_of(what, yuvatondro_floor(answer) == due->floor && answer == word, "the floor of a row, or other bits of the answer");
    expect_of(what, same_entries(order, due->order, due->points), "the order of a row");
    for (size_t i = due->points; i < rooms[k]; i++) expect_of(what, order[i] == FILL16, "an entry behind the row changed");
  }
  expect_of(what, call_row_order(t, row, tries, due->points - 1, order) == 13, "a buffer one entry short");
  expect_of(what, yuvatondro_row_order(t->byte, t->len, row, tries, NULL, 0) == 13, "no buffer");
}

/* The best of the first orders of a row, as far as they were looked at. */
typedef struct {
  uint16_t order[YUVATONDRO_MAX_ROW_POINTS];
  unsigned long crossings, floor;
} Best;

static void expect_so_far(const char *what, const Table *t, const Row *row, size_t tries, const Best *best) {
  uint16_t order[YUVATONDRO_MAX_ROW_POINTS];
  for (size_t i = 0; i < row->points; i++) order[i] = row->point[best->order[i]];
  const Ordered due = {row->points, order, best->crossings, best->floor};
  expect_order(what, t, row->number, tries, &due);
}

static void expect_best_of(const char *what, const Table *t, const Row *row, size_t tries) {
  const size_t orders = count_orders(row->points, tries);
  Best best = {.crossings = ULONG_MAX, .floor = count_floor(row)};
  for (size_t number = 0; number < orders; number++) {
    uint16_t order[YUVATONDRO_MAX_ROW_POINTS];
    find_order(number, row->points, order);
    unsigned long crossings = count_crossings(row, order);
    expect_of(what, crossings >= best.floor, "an order below the floor");
    if (crossings >= best.crossings) continue;
    if (number > 0) expect_so_far(what, t, row, number - 1, &best);
    memcpy(best.order, order, sizeof order);
    best.crossings = crossings;
    expect_so_far(what, t, row, number, &best);
  }
  expect_so_far(what, t, row, orders - 1, &best);
  expect_so_far(what, t, row, tries, &best);
}

size_t expect_best(const char *what, const Table *t, size_t steps, const Edges *lines, size_t number, size_t tries) {
  uint16_t order[POINTS];
  Row row = find_row(steps, lines, t, number);
  if (row.points > 0 && row.points <= YUVATONDRO_MAX_ROW_POINTS)
    expect_best_of(what, t, &row, tries);
  else
    expect_of(what, call_row_order(t, number, tries, POINTS, order) == 17, "a row of too many points, or none");
  return row.points;
}

void expect_refused_orders(const Table *t, uint64_t answer, const char *what) {
  static const size_t rows[] = {0, 1, SIZE_MAX}, tries[] = {0, YUVATONDRO_MAX_TRIES, YUVATONDRO_MAX_TRIES + 1};
  uint16_t order[POINTS];
  for (size_t i = 0; i < 3 * 3; i++) {
    expect_of("row order", call_row_order(t, rows[i % 3], tries[i / 3], 0, order) == answer, what);
    expect_of("row order", call_row_order(t, rows[i % 3], tries[i / 3], POINTS, order) == answer, what);
    expect_of("row order", yuvatondro_row_order(t->byte, t->len, rows[i % 3], tries[i / 3], NULL, 0) == answer, what);
  }
}
