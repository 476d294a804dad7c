/* Where a pen goes that draws the chart, and the corners of its points.
 *
 * The library has the strokes of every chart that has x. For a larger one, and for one with a row in another order than the library's, they
 * are made here in the same way and with the same measures: the places are those of layout.c, neighbours in a row at least a column apart.
 * So what draws need not know which it has. */
#include "chart.h"

/* In tenths of a millimetre, as whole numbers for layout.c. */
enum { COLUMN_TENTHS = 125 };

static void place_corners(Chart *chart) {
  long width[YUVATONDRO_MAX_POINTS] = {0}, x[YUVATONDRO_MAX_POINTS];
  if (!chart->has_xs) lay_out(chart, width, COLUMN_TENTHS, x);
  for (unsigned i = 0; i < chart->points; i++) {
    chart->corner[i].x = chart->has_xs ? COLUMN * (float)chart->x[i] : (float)x[i] / 10;
    chart->corner[i].y = ROW * (float)chart->point_row[i];
  }
}

static void add_stroke(Chart *chart, unsigned shape, unsigned point) {
  chart->stroke[chart->strokes++] = (Stroke){shape, chart->corner[point]};
}

/* The strokes of a line from its segments, which go from the top down: upward if it was turned. */
static void make_strokes(Chart *chart, unsigned first, unsigned end, int turned) {
  add_stroke(chart, YUVATONDRO_MOVE, turned ? chart->segment[end - 1].lower : chart->segment[first].upper);
  if (turned)
    for (unsigned i = end; i-- > first;) add_stroke(chart, YUVATONDRO_LINE, chart->segment[i].upper);
  else
    for (unsigned i = first; i < end; i++) add_stroke(chart, YUVATONDRO_LINE, chart->segment[i].lower);
}

/* The segments of a line stand together, by line. */
static void make_all_strokes(Chart *chart) {
  unsigned segment = 0;
  for (unsigned i = 0; i < chart->merged_edges; i++) {
    unsigned edge = chart->merged[i].first, length = length_of(chart, edge);
    make_strokes(chart, segment, segment + length, is_turned(chart, edge));
    segment += length;
  }
}

static int is_at(const Stroke *stroke, unsigned shape, Corner corner) {
  return stroke->shape == shape && stroke->corner.x == corner.x && stroke->corner.y == corner.y;
}

/* Finds the strokes of each line. Whether they start and end where the line does, and there are no others. */
static int find_lines(Chart *chart) {
  unsigned at = 0;
  for (unsigned i = 0; i < chart->merged_edges; i++) {
    const Edge *e = &chart->edge[chart->merged[i].first];
    unsigned last = at + length_of(chart, chart->merged[i].first);
    if (last >= chart->strokes) return 0;
    if (!is_at(&chart->stroke[at], YUVATONDRO_MOVE, chart->corner[e->from])) return 0;
    if (!is_at(&chart->stroke[last], YUVATONDRO_LINE, chart->corner[e->to])) return 0;
    chart->line_stroke[i] = at;
    at = last + 1;
  }
  return at == chart->strokes;
}

int place_strokes(Chart *chart) {
  place_corners(chart);
  if (!chart->has_xs) make_all_strokes(chart);
  return find_lines(chart);
}
