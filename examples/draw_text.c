/* The chart as text: a line a row, with its number. A step is its number and name in brackets; a bar with a number is a line that passes
 * by on its way down, and ^ with a number one that was turned, on its way up; the number is that of its first edge. Lines between
 * neighbouring rows are not drawn: the list of edges has them. Points with the same x have their middles below each other. */
#include "chart.h"

enum { UNITS = 16 };

int point_text(const Chart *chart, unsigned point, char text[POINT_TEXT]) {
  if (point >= chart->steps) {
    unsigned edge = chart->merged[chart->point_merged[point]].first;
    return snprintf(text, POINT_TEXT, "%c%u", is_turned(chart, edge) ? '^' : '|', edge);
  }
  return snprintf(text, POINT_TEXT, "[%u %.*s]", point, (int)chart->step[point].name_len, (const char *)chart->step[point].name);
}

static void draw_row(FILE *out, const Chart *chart, unsigned row, const long *width, const long *x) {
  char text[POINT_TEXT];
  long column = 0;
  fprintf(out, "%3u  ", row);
  for (unsigned i = chart->row_start[row]; i < chart->row_start[row + 1]; i++) {
    unsigned point = chart->order[i];
    long start = (x[point] - width[point] / 2) / UNITS;
    int length = point_text(chart, point, text);
    fprintf(out, "%*s%s", (int)(start - column), "", text);
    column = start + length;
  }
  fprintf(out, "\n");
}

void draw_text(FILE *out, const Chart *chart) {
  char text[POINT_TEXT];
  long width[YUVATONDRO_MAX_POINTS], x[YUVATONDRO_MAX_POINTS];
  for (unsigned i = 0; i < chart->points; i++) width[i] = UNITS * (long)point_text(chart, i, text);
  find_middles(chart, width, UNITS, x);
  fprintf(out, "\nrow  chart\n");
  for (unsigned row = 0; row < chart->rows; row++) draw_row(out, chart, row, width, x);
}
