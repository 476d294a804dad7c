/* The calls on a table, in the order in which it can be refused. The call on edges without a table is in points.c, the
 * one for stored tables in stored.c, and the one for the best order of a row in row_order.c. */
#include "chart.h"

/* The counts, the name of each step, the shortest form of the table; then its kinds, its edges, and their lines. */
static uint64_t ask_steps(Chart *chart) {
  uint64_t answer = yuvatondro_counts(chart->table, chart->table_len);
  if (yuvatondro_refusal(answer) != YUVATONDRO_DONE) return answer;
  chart->steps = yuvatondro_steps(answer);
  chart->edges = yuvatondro_edges(answer);
  for (unsigned i = 0; i < chart->steps; i++) {
    answer = yuvatondro_name(chart->table, chart->table_len, i);
    if (yuvatondro_refusal(answer) != YUVATONDRO_DONE) return answer;
    chart->step[i].name = chart->table + yuvatondro_name_start(answer);
    chart->step[i].name_len = yuvatondro_name_length(answer);
  }
  answer = yuvatondro_write(chart->table, chart->table_len, chart->shortest, YUVATONDRO_MAX_SHORTEST);
  if (yuvatondro_refusal(answer) != YUVATONDRO_DONE) return answer;
  chart->shortest_len = yuvatondro_written(answer);
  read_kinds(chart);
  read_edges(chart);
  merge_edges(chart);
  chart->known = STEPS;
  return YUVATONDRO_DONE;
}

/* The rows, also of a table whose chart has too many points. */
static uint64_t ask_rows(Chart *chart) {
  uint64_t answer = yuvatondro_rows(chart->table, chart->table_len, chart->row, YUVATONDRO_MAX_STEPS);
  if (yuvatondro_refusal(answer) == YUVATONDRO_DONE) chart->known = ROWS;
  return answer;
}

static uint64_t ask_order(Chart *chart) {
  uint64_t answer = yuvatondro_chart(chart->table, chart->table_len, chart->row, YUVATONDRO_MAX_STEPS, chart->order, YUVATONDRO_MAX_POINTS);
  if (yuvatondro_refusal(answer) != YUVATONDRO_DONE) return answer;
  chart->points = yuvatondro_points(answer);
  chart->total = yuvatondro_total(answer);
  chart->crossings = yuvatondro_crossings(answer);
  chart->known = ORDER;
  return YUVATONDRO_DONE;
}

/* The x of the points. A chart that has too many for them, and so has no strokes either, is none the worse for it: strokes.c makes some for
 * any. */
static uint64_t ask_xs(Chart *chart) {
  uint64_t answer = yuvatondro_xs(chart->table, chart->table_len, chart->x, YUVATONDRO_MAX_XS);
  chart->has_xs = yuvatondro_refusal(answer) == YUVATONDRO_DONE;
  return yuvatondro_refusal(answer) == YUVATONDRO_LARGE_CHART ? YUVATONDRO_DONE : answer;
}

/* The strokes, one after the other until there are no more. */
static uint64_t ask_strokes(Chart *chart) {
  while (chart->strokes < YUVATONDRO_MAX_STROKES) {
    yuvatondro_stroke stroke = yuvatondro_stroke_at(chart->table, chart->table_len, chart->strokes);
    if (yuvatondro_refusal(stroke.answer) != YUVATONDRO_DONE) return stroke.answer;
    unsigned shape = yuvatondro_stroke_case(stroke.answer);
    if (shape == YUVATONDRO_NO_STROKE) break;
    chart->stroke[chart->strokes++] = (Stroke){shape, {stroke.x, stroke.y}};
  }
  return YUVATONDRO_DONE;
}

uint64_t ask_chart(Chart *chart, const uint8_t *table, size_t table_len) {
  chart->table = table;
  chart->table_len = table_len;
  chart->known = NOTHING;
  chart->has_xs = 0;
  chart->strokes = 0;
  uint64_t answer = ask_steps(chart);
  if (yuvatondro_refusal(answer) == YUVATONDRO_DONE) answer = ask_rows(chart);
  if (yuvatondro_refusal(answer) == YUVATONDRO_DONE) answer = ask_order(chart);
  if (yuvatondro_refusal(answer) == YUVATONDRO_DONE) answer = ask_xs(chart);
  if (chart->has_xs) answer = ask_strokes(chart);
  return answer;
}
