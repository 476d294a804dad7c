/* All that is known of a chart, as lists. */
#include "chart.h"

static void list_numbers(FILE *out, const Chart *chart) {
  fprintf(out, "bytes     %zu\n", chart->table_len);
  fprintf(out, "shortest  %zu\n", chart->shortest_len);
  fprintf(out, "steps     %u\n", chart->steps);
  fprintf(out, "edges     %u\n", chart->edges);
  if (chart->known < ORDER) return;
  fprintf(out, "rows      %u\n", chart->rows);
  fprintf(out, "points    %u\n", chart->points);
  fprintf(out, "total     %lu\n", chart->total);
  fprintf(out, "crossings %lu\n", chart->crossings);
  if (chart->has_xs) fprintf(out, "strokes   %u\n", chart->strokes);
}

/* A number, or a dash where there is none. */
static void list_number(FILE *out, int is_known, unsigned number) {
  if (is_known)
    fprintf(out, "  %3u", number);
  else
    fprintf(out, "    -");
}

static void list_steps(FILE *out, const Chart *chart) {
  fprintf(out, "\nstep  row    x  name\n");
  for (unsigned i = 0; i < chart->steps; i++) {
    fprintf(out, "%4u", i);
    list_number(out, chart->known >= ROWS, chart->row[i]);
    list_number(out, chart->has_xs, chart->has_xs ? chart->x[i] : 0);
    fprintf(out, "  %.*s\n", (int)chart->step[i].name_len, (const char *)chart->step[i].name);
  }
}

/* What else there is to say of an edge: whether it is soft and was turned, and the edge that it is one line with, if that comes before. */
static void list_remarks(FILE *out, const Chart *chart, unsigned edge) {
  const char *mark = "  ";
  unsigned first = chart->merged[chart->edge_merged[edge]].first;
  if (chart->edge[edge].soft) {
    fprintf(out, "%ssoft", mark);
    mark = ", ";
  }
  if (chart->known >= ROWS && is_turned(chart, edge)) fprintf(out, "%sturned", mark);
  if (first != edge) fprintf(out, "%sone line with %u", mark, first);
  fprintf(out, "\n");
}

static void list_edges(FILE *out, const Chart *chart) {
  fprintf(out, "\nedge  from  to  gap  weight  length\n");
  for (unsigned i = 0; i < chart->edges; i++) {
    const Edge *e = &chart->edge[i];
    fprintf(out, "%4u  %4zu  %2zu  %3zu  %6zu  ", i, e->from, e->to, e->gap, e->weight);
    if (chart->known < ROWS)
      fprintf(out, "     -");
    else
      fprintf(out, "%6u", length_of(chart, i));
    list_remarks(out, chart, i);
  }
}

/* The points row by row, from left to right: each by its x, or by its number where no x are given. */
static void list_order(FILE *out, const Chart *chart, const uint16_t *x) {
  for (unsigned row = 0; row < chart->rows; row++) {
    fprintf(out, "%3u ", row);
    for (unsigned i = chart->row_start[row]; i < chart->row_start[row + 1]; i++) {
      unsigned point = chart->order[i];
      fprintf(out, " %u", x == NULL ? point : x[point]);
    }
    fprintf(out, "\n");
  }
}

static void list_points(FILE *out, const Chart *chart) {
  fprintf(out, "\nrow  points from left to right, the steps before %u, the dummies from there on\n", chart->steps);
  list_order(out, chart, NULL);
  if (!chart->has_xs) return;
  fprintf(out, "\nrow  the x of these points\n");
  list_order(out, chart, chart->x);
}

void list_chart(FILE *out, const Chart *chart) {
  if (chart->known < STEPS) return;
  list_numbers(out, chart);
  list_steps(out, chart);
  list_edges(out, chart);
  if (chart->known == ORDER) list_points(out, chart);
}
