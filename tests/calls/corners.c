/* What all answers of the call for strokes have in common, and the strokes that follow from the rows and x of a chart. */
#include "calls.h"

uint32_t float_bits(float number) {
  uint32_t bits;
  memcpy(&bits, &number, sizeof bits);
  return bits;
}

int same_stroke(yuvatondro_stroke a, yuvatondro_stroke b) {
  return a.answer == b.answer && float_bits(a.x) == float_bits(b.x) && float_bits(a.y) == float_bits(b.y);
}

/* Called again, with the table at an odd address or any other, it answers the same. */
yuvatondro_stroke call_stroke(const Table *t, size_t index) {
  uint8_t memory[sizeof t->byte + 8], *copy = memory + 1 + index % 7;
  yuvatondro_stroke stroke = yuvatondro_stroke_at(t->byte, t->len, index);
  memcpy(copy, t->byte, t->len);
  expect_of("strokes", same_stroke(yuvatondro_stroke_at(copy, t->len, index), stroke), "called again it answers otherwise");
  expect_of("strokes", memcmp(copy, t->byte, t->len) == 0, "the table changed");
  return stroke;
}

/* At indexes of which some would be those of strokes if a few of their bits were lost. */
static void expect_everywhere(const char *what, const Table *t, size_t start, uint64_t answer, const char *why) {
  const size_t far[] = {0, 1, 2, YUVATONDRO_MAX_STROKES, UINT16_MAX, SIZE_MAX / 2, SIZE_MAX - start - 1, SIZE_MAX - start};
  const yuvatondro_stroke due = {answer, 0, 0};
  for (size_t k = 0; k < sizeof far / sizeof *far; k++) expect_of(what, same_stroke(call_stroke(t, start + far[k]), due), why);
}

void expect_none(const char *what, const Table *t, size_t strokes) {
  expect_of(what, strokes <= YUVATONDRO_MAX_STROKES, "more strokes than there may be");
  expect_everywhere(what, t, strokes, YUVATONDRO_NO_STROKE, "a stroke behind the last");
}

void expect_refused_strokes(const Table *t, uint64_t answer, const char *what) { expect_everywhere("strokes", t, 0, answer, what); }

/* A chart by the other calls. Dummies are counted as its lines are gone through. */
typedef struct {
  uint16_t rows[ROWS], order[POINTS], xs[POINTS];
  size_t dummies, strokes;
} Chart;

/* The strokes of the next line, from one step to another: each but the first in the row next to the one before. */
static void expect_line(const char *what, const Table *t, Chart *chart, size_t from, size_t to) {
  size_t start = chart->rows[from], end = chart->rows[to], upper = start < end ? start : end, length = start + end - 2 * upper;
  for (size_t k = 0; k <= length; k++, chart->strokes++) {
    size_t row = start < end ? start + k : start - k;
    size_t point = k == 0 ? from : k == length ? to : chart->dummies + row - upper - 1;
    const yuvatondro_stroke due = {(uint64_t)(k == 0 ? YUVATONDRO_MOVE : YUVATONDRO_LINE) << 8, 12.5f * chart->xs[point], 7.25f * (float)row};
    expect_of(what, same_stroke(call_stroke(t, chart->strokes), due), "a stroke by the rows and x of the chart");
  }
  chart->dummies += length - 1;
}

void expect_strokes(const char *what, size_t steps, const Edges *lines, const Table *t) {
  Chart chart = {.dummies = steps, .strokes = 0};
  size_t points = yuvatondro_points(call_chart(t, ROWS, POINTS, chart.rows, chart.order));
  expect_of(what, call_xs(t, POINTS, chart.xs) == (uint64_t)points << 8, "its x");
  for (size_t i = 0; i < lines->count; i++) expect_line(what, t, &chart, lines->number[4 * i], lines->number[4 * i + 1]);
  expect_of(what, chart.dummies == points, "its dummies");
  expect_none(what, t, chart.strokes);
}
