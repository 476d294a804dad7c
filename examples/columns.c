/* How far from the left each point is written where the library has an x for each: every x is a column, and all points of a column stand
 * one straight below the other. Of two columns the one with the larger x is further to the right.
 *
 * An x knows no widths. A column stands as far to the left as the neighbours in the rows allow: those of a point and of its left neighbour
 * are at least half of both widths and the blank apart, and any column is at least the blank to the right of the one before it. */
#include "chart.h"

/* The least place of a point's column, if the columns of smaller x stand where they do. */
static long least_place(const Chart *chart, unsigned row, unsigned at, const long *width, long blank, const long *place) {
  unsigned point = chart->order[at];
  if (at == chart->row_start[row]) return width[point] / 2;
  unsigned left = chart->order[at - 1];
  return place[chart->x[left]] + width[left] / 2 + blank + width[point] / 2;
}

/* From the left, since a left neighbour has a smaller x. */
static void place_columns(const Chart *chart, const long *width, long blank, long *place) {
  for (unsigned x = 0; x < YUVATONDRO_MAX_XS; x++) {
    place[x] = x > 0 ? place[x - 1] + blank : 0;
    for (unsigned row = 0; row < chart->rows; row++)
      for (unsigned at = chart->row_start[row]; at < chart->row_start[row + 1]; at++) {
        if (chart->x[chart->order[at]] != x) continue;
        long least = least_place(chart, row, at, width, blank, place);
        if (place[x] < least) place[x] = least;
      }
  }
}

void find_middles(const Chart *chart, const long *width, long blank, long *middle) {
  long place[YUVATONDRO_MAX_XS];
  if (!chart->has_xs) {
    lay_out(chart, width, blank, middle);
    return;
  }
  place_columns(chart, width, blank, place);
  for (unsigned i = 0; i < chart->points; i++) middle[i] = place[chart->x[i]];
}
