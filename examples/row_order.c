/* The best order of one row that the library finds in so many tries, beside the one that the row has.
 *
 * The order is chosen by the crossings with the row above alone, which the library tells. Those with the row below can grow by it, so they
 * are counted here and listed too. */
#include <string.h>

#include "chart.h"

static uint64_t ask_order(const Chart *chart, size_t row, size_t tries, OrderedRow *found) {
  uint64_t answer = yuvatondro_row_order(chart->table, chart->table_len, row, tries, found->point, YUVATONDRO_MAX_ROW_POINTS);
  found->above = yuvatondro_crossings(answer);
  return answer;
}

/* Whether of two segments the first is left of the second at their upper ends, and right of it at their lower ends. */
static int crosses(const Chart *chart, const Segment *a, const Segment *b) {
  return chart->point_place[a->upper] < chart->point_place[b->upper] && chart->point_place[a->lower] > chart->point_place[b->lower];
}

/* What the other rows make of an order that the chart has: the crossings with the row below, and all of the chart. */
static void count_others(const Chart *chart, unsigned row, OrderedRow *found) {
  unsigned first = chart->below_start[row], end = chart->below_start[row + 1];
  found->below = 0;
  for (unsigned i = first; i < end; i++)
    for (unsigned j = first; j < end; j++)
      found->below += (unsigned)crosses(chart, &chart->segment[chart->below[i]], &chart->segment[chart->below[j]]);
  found->all = chart->crossings;
}

/* Puts the row in the order found. The library has x and strokes for the present one only. */
static int put_order(const char *program, Chart *chart, RowOrder *r) {
  size_t bytes = r->points * sizeof *r->found.point;
  if (memcmp(r->found.point, r->present.point, bytes) == 0) return 0;
  memcpy(chart->order + chart->row_start[r->row], r->found.point, bytes);
  chart->has_xs = 0;
  chart->strokes = 0;
  return place_chart(program, chart);
}

int order_row(const char *program, Chart *chart, size_t row, size_t tries, RowOrder *r, uint64_t *answer) {
  *answer = ask_order(chart, row, 0, &r->present);
  if (yuvatondro_refusal(*answer) == YUVATONDRO_DONE) *answer = ask_order(chart, row, tries, &r->found);
  if (yuvatondro_refusal(*answer) != YUVATONDRO_DONE) return 0;
  r->row = (unsigned)row;
  r->tries = (unsigned)tries;
  r->points = yuvatondro_points(*answer);
  r->floor = yuvatondro_floor(*answer);
  count_others(chart, r->row, &r->present);
  int status = put_order(program, chart, r);
  if (status != 0) return status;
  count_others(chart, r->row, &r->found);
  r->found.all = r->present.all - r->present.above - r->present.below + r->found.above + r->found.below;
  chart->crossings = r->found.all;
  return 0;
}

/* How many orders so many points have, or any number above the limit if that is passed. */
static unsigned long orders_of(unsigned points, unsigned long limit) {
  unsigned long orders = 1;
  for (unsigned i = 2; i <= points && orders <= limit; i++) orders *= i;
  return orders;
}

static void list_crossings(FILE *out, const Chart *chart, const RowOrder *r) {
  const OrderedRow *present = &r->present, *found = &r->found;
  fprintf(out, "\ncrossings     present  found\n");
  fprintf(out, "with row %-3u  %7lu  %5lu\n", r->row - 1, present->above, found->above);
  if (r->row + 1 < chart->rows) fprintf(out, "with row %-3u  %7lu  %5lu\n", r->row + 1, present->below, found->below);
  fprintf(out, "of the chart  %7lu  %5lu\n", present->all, found->all);
}

static void list_order(FILE *out, const Chart *chart, const char *which, unsigned points, const uint16_t *order) {
  char text[POINT_TEXT];
  fprintf(out, "%-7s ", which);
  for (unsigned i = 0; i < points; i++) {
    point_text(chart, order[i], text);
    fprintf(out, " %s", text);
  }
  fprintf(out, "\n");
}

/* What the order found is worth. */
static void tell_worth(FILE *out, const RowOrder *r, int all_looked_at) {
  int stays = memcmp(r->found.point, r->present.point, r->points * sizeof *r->found.point) == 0;
  fprintf(out, "\n%s", stays ? "The present order is " : "The order found is ");
  if (r->found.above == r->floor)
    fprintf(out, "best: it meets the floor, so no order of the row has fewer crossings with the row above.\n");
  else if (all_looked_at)
    fprintf(out, "best: all orders of the row were looked at, and none has fewer crossings with the row above.\n");
  else
    fprintf(out, "the %s looked at; another may have fewer crossings with the row above, by %lu at most.\n",
            r->tries == 0 ? "only one" : "best of those", r->found.above - r->floor);
}

void list_row_order(FILE *out, const Chart *chart, const RowOrder *r) {
  unsigned long most = r->tries + 1ul, orders = orders_of(r->points, most);
  fprintf(out, "row       %u\n", r->row);
  fprintf(out, "points    %u\n", r->points);
  fprintf(out, "tries     %u\n", r->tries);
  fprintf(out, "looked at %lu\n", orders < most ? orders : most);
  fprintf(out, "floor     %lu\n", r->floor);
  list_crossings(out, chart, r);
  fprintf(out, "\norder    points from left to right\n");
  list_order(out, chart, "present", r->points, r->present.point);
  list_order(out, chart, "found", r->points, r->found.point);
  tell_worth(out, r, orders <= most);
}
