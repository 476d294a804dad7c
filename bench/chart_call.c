#include "chart_call.h"
#include "rows_call.h"
#include "yuvatondro.h"

void call_chart(const uint8_t *table, size_t length, ChartAnswer *a) {
  uint64_t answer = yuvatondro_chart(table, length, a->rows, YUVATONDRO_MAX_STEPS, a->order, YUVATONDRO_MAX_POINTS);
  a->refusal = yuvatondro_refusal(answer);
  a->points = yuvatondro_points(answer);
  a->total = yuvatondro_total(answer);
  a->crossings = yuvatondro_crossings(answer);
}

void cut_to_accepted(Instance *g) {
  static uint8_t table[YUVATONDRO_MAX_STORED];
  static ChartAnswer answer;
  for (;; g->edges--) {
    call_chart(table, write_table(g, table), &answer);
    if (answer.refusal != REFUSED_MANY_POINTS) return;
  }
}

// Points are the nodes, then the dummies by line and rising row.
static long find_rows(const Instance *g, const ChartAnswer *a, int *row) {
  long points = g->nodes;
  for (size_t v = 0; v < g->nodes; v++) row[v] = a->rows[v];
  for (size_t i = 0; i < g->edges; i++)
    for (int r = a->rows[g->edge[i].from] + 1; r < a->rows[g->edge[i].to]; r++) {
      if (points == YUVATONDRO_MAX_POINTS) return -1;
      row[points++] = r;
    }
  return points;
}
// Positions from the order, which goes through the rows one after another.
static int find_positions(const ChartAnswer *a, long points, const int *row, int *position) {
  int r = 0, next = 0;
  for (long p = 0; p < points; p++) position[p] = -1;
  for (long k = 0; k < points; k++) {
    unsigned p = a->order[k];
    if (p >= points || position[p] >= 0 || row[p] < r) return 0;
    if (row[p] > r) next = 0;
    r = row[p];
    position[p] = next++;
  }
  return 1;
}
int read_chart(const Instance *g, const ChartAnswer *a, Drawing *d) {
  int row[YUVATONDRO_MAX_POINTS], position[YUVATONDRO_MAX_POINTS];
  long points = find_rows(g, a, row);
  if (points < 0 || !find_positions(a, points, row, position)) return 0;
  long dummy = g->nodes;
  for (size_t v = 0; v < g->nodes; v++) d->row[v] = row[v];
  for (size_t i = 0; i < g->edges; i++) {
    const Edge *e = &g->edge[i];
    int length = row[e->to] - row[e->from];
    if (length < 1) return 0;
    d->place[i][0] = position[e->from];
    for (int k = 1; k < length; k++) d->place[i][k] = position[dummy++];
    d->place[i][length] = position[e->to];
  }
  return 1;
}
