#include "row_search.h"
#include <string.h>

// The points of the rows above a row, and of that row.
static void count_points_at(const Instance *g, const ChartAnswer *a, int number, long *above, long *points) {
  *above = *points = 0;
  for (size_t v = 0; v < g->nodes; v++) {
    *above += a->rows[v] < number;
    *points += a->rows[v] == number;
  }
  for (size_t i = 0; i < g->edges; i++) {
    int first = a->rows[g->edge[i].from] + 1, end = a->rows[g->edge[i].to];
    if (first < number) *above += (end < number ? end : number) - first;
    *points += first <= number && number < end;
  }
}
size_t find_widest_row(const Instance *g, const ChartAnswer *a) {
  size_t widest = 0;
  long above, points, most = 0;
  for (size_t number = 1; number <= YUVATONDRO_MAX_ROW; number++) {
    count_points_at(g, a, number, &above, &points);
    if (points <= most || points > YUVATONDRO_MAX_ROW_POINTS) continue;
    widest = number;
    most = points;
  }
  return widest;
}
// Where each line with a segment between a row and the one above it stands in both.
static long find_segments(const Instance *g, const Drawing *d, int number, int (*ends)[2]) {
  long segments = 0;
  for (size_t i = 0; i < g->edges; i++) {
    int top = d->row[g->edge[i].from];
    if (top >= number || d->row[g->edge[i].to] < number) continue;
    ends[segments][0] = d->place[i][number - 1 - top];
    ends[segments++][1] = d->place[i][number - top];
  }
  return segments;
}
int find_chart_row(const Instance *g, const ChartAnswer *a, size_t number, ChartRow *row) {
  static Drawing d;
  int ends[YUVATONDRO_MAX_EDGES][2];
  long above;
  memset(row, 0, sizeof *row);
  count_points_at(g, a, number, &above, &row->points);
  if (number == 0 || row->points == 0 || row->points > YUVATONDRO_MAX_ROW_POINTS || !read_chart(g, a, &d)) return 0;
  memcpy(row->point, a->order + above, row->points * sizeof *row->point);
  row->segments = find_segments(g, &d, number, ends);
  for (long i = 0; i < row->segments; i++)
    for (long j = 0; j < row->segments; j++) row->between[ends[i][1]][ends[j][1]] += ends[i][0] > ends[j][0];
  return 1;
}

static long count_row(const ChartRow *row, const int *order) {
  long crossings = 0;
  for (long i = 0; i < row->points; i++)
    for (long j = i + 1; j < row->points; j++) crossings += row->between[order[i]][order[j]];
  return crossings;
}
static void swap(int *a, int *b) {
  int kept = *a;
  *a = *b;
  *b = kept;
}
// The next order as a dictionary has them; 0 where there is none.
static int advance(int *order, long points) {
  long i = points - 1, j = points - 1;
  while (i > 0 && order[i - 1] > order[i]) i--;
  if (i <= 0) return 0;
  while (order[j] < order[i - 1]) j--;
  swap(&order[i - 1], &order[j]);
  for (j = points - 1; i < j; i++, j--) swap(&order[i], &order[j]);
  return 1;
}
void search_row(const ChartRow *row, size_t tries, OrderAnswer *due) {
  int order[YUVATONDRO_MAX_ROW_POINTS];
  memset(due, 0, sizeof *due);
  for (long i = 0; i < row->points; i++) order[i] = i;
  due->points = row->points;
  due->crossings = count_row(row, order) + 1;  // so that the row as it is counts as fewer
  for (long i = 0; i < row->points; i++)
    for (long j = i + 1; j < row->points; j++) {
      long as_is = row->between[i][j], swapped = row->between[j][i];
      due->floor += as_is < swapped ? as_is : swapped;
    }
  do {
    long crossings = count_row(row, order);
    if (crossings >= due->crossings) continue;
    due->crossings = crossings;
    for (long i = 0; i < row->points; i++) due->order[i] = row->point[order[i]];
  } while (tries-- > 0 && advance(order, row->points));
}
