/* Points and segments: steps, then the dummies of the lines, by line and by rising row; and the place of each point in its row. */
#include <string.h>

#include "chart.h"

/* Whether the lines joined here are those that the library has: they keep their gaps, have its total, and make as many points. */
static int lines_agree(const Chart *chart) {
  unsigned long points = chart->steps, total = 0;
  for (unsigned i = 0; i < chart->merged_edges; i++) {
    const MergedEdge *m = &chart->merged[i];
    unsigned length = length_of(chart, m->first);
    if (length < m->gap) return 0;
    points += length - 1;
    total += m->weight * length;
  }
  return points == chart->points && total == chart->total;
}

/* Whether the edges read here are those that the library has: it turns no must edge, and finds the same rows for the edges as they were
 * kept or turned. */
static int edges_agree(const Chart *chart) {
  size_t record[4 * YUVATONDRO_MAX_EDGES];
  uint16_t row[YUVATONDRO_MAX_STEPS];
  for (unsigned i = 0; i < chart->edges; i++) {
    const Edge *e = &chart->edge[i];
    const size_t numbers[4] = {upper_end(chart, i), lower_end(chart, i), e->gap, e->weight};
    if (is_turned(chart, i) && !e->soft) return 0;
    memcpy(record + 4 * i, numbers, sizeof numbers);
  }
  uint64_t answer = yuvatondro_records(chart->steps, record, 4 * chart->edges, row, YUVATONDRO_MAX_STEPS);
  return answer == YUVATONDRO_DONE && memcmp(row, chart->row, chart->steps * sizeof *row) == 0;
}

static void add_segment(Chart *chart, unsigned upper, unsigned lower, unsigned merged) {
  chart->segment[chart->segments++] = (Segment){upper, lower, merged};
}

/* The dummies of a line, numbered from `point` on, and its segments, both from the top down. Gives the number behind the last dummy. */
static unsigned lay_line(Chart *chart, unsigned merged, unsigned point) {
  unsigned first = chart->merged[merged].first, upper = upper_end(chart, first), last = lower_end(chart, first);
  for (unsigned row = chart->row[upper] + 1u; row < chart->row[last]; row++) {
    chart->point_row[point] = row;
    chart->point_merged[point] = merged;
    add_segment(chart, upper, point, merged);
    upper = point++;
  }
  add_segment(chart, upper, last, merged);
  return point;
}

/* Cuts the order into rows: it goes row by row, so a row starts where the row of the points changes. No row is empty. */
static void cut_rows(Chart *chart) {
  chart->rows = 0;
  for (unsigned i = 0; i < chart->points; i++) {
    unsigned point = chart->order[i];
    if (chart->point_row[point] == chart->rows) chart->row_start[chart->rows++] = i;
    chart->point_place[point] = i - chart->row_start[chart->rows - 1];
  }
  chart->row_start[chart->rows] = chart->points;
}

/* Lists the segments by their upper row: counts those of each row, which tells where the rows behind it start, and fills each list from
 * its end. */
static void list_segments(Chart *chart) {
  memset(chart->below_start, 0, sizeof chart->below_start);
  for (unsigned i = 0; i < chart->segments; i++) chart->below_start[chart->point_row[chart->segment[i].upper]]++;
  for (unsigned row = 0; row < chart->rows; row++) chart->below_start[row + 1] += chart->below_start[row];
  for (unsigned i = chart->segments; i-- > 0;) chart->below[--chart->below_start[chart->point_row[chart->segment[i].upper]]] = i;
}

int place_points(Chart *chart) {
  if (!edges_agree(chart) || !lines_agree(chart)) return 0;
  chart->segments = 0;
  for (unsigned i = 0; i < chart->steps; i++) chart->point_row[i] = chart->row[i];
  unsigned point = chart->steps;
  for (unsigned i = 0; i < chart->merged_edges; i++) point = lay_line(chart, i, point);
  cut_rows(chart);
  list_segments(chart);
  return 1;
}
