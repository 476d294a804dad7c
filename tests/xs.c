/* What yuvatondro_xs makes of the tables on standard input, one a line in hexadecimal.
 *   xs show    prints for each `x` and the x by point number, or `refused` and the number, and of a loop its step behind it
 *   xs check   each table has ` -> ` behind it and what is known of its chart: `points` and how many there are in each row, or `refused` as
 *              above. Holds the call to that, and its x to the order of yuvatondro_chart. Prints what became of how many tables
 *   xs limit   reads nothing and prints the most points that the header has the call take
 * Each table is tried with all the buffers of lent.h. Ends with status 1 at the first surprise, and with 2 if none of these is named. */
static const char program[] = "xs";
#include "known.h"
#include "lent.h"

static uint16_t *const xs = guarded + GUARD;

static uint64_t call_xs(size_t room) {
  uint64_t answer = yuvatondro_xs(table, table_len, xs, room);
  expect(yuvatondro_refusal(answer) != YUVATONDRO_DONE || yuvatondro_points(answer) <= YUVATONDRO_MAX_XS, "more points than may have an x");
  return answer;
}

static void show_table(void) {
  uint64_t answer = try_rooms(call_xs);
  if (yuvatondro_refusal(answer) == YUVATONDRO_DONE) {
    printf("x");
    for (unsigned i = 0; i < yuvatondro_points(answer); i++) printf(" %u", (unsigned)xs[i]);
  } else {
    print_refusal(answer);
  }
  printf("\n");
}

/* In each row x rise from left to right, and some x is 0. */
static void check_spaced(const char *sizes, unsigned points) {
  uint16_t rows[YUVATONDRO_MAX_STEPS], order[YUVATONDRO_MAX_POINTS];
  unsigned at = 0, zeros = 0;
  uint64_t chart = yuvatondro_chart(table, table_len, rows, YUVATONDRO_MAX_STEPS, order, YUVATONDRO_MAX_POINTS);
  expect(yuvatondro_refusal(chart) == YUVATONDRO_DONE && yuvatondro_points(chart) == points, "the chart call has other points");
  for (char *end; at < points; sizes = end) {
    unsigned row_end = at + (unsigned)strtoul(sizes, &end, 10);
    for (; at < row_end; at++) {
      zeros += xs[order[at]] == 0;
      expect(at + 1 == row_end || xs[order[at]] < xs[order[at + 1]], "neighbours are not apart");
    }
  }
  expect(zeros > 0 || points == 0, "no x is 0");
  for (unsigned i = 0; i < points; i++) expect(xs[i] < points, "an x is as large as the number of points");
}

typedef struct { unsigned long spaced, large, refused; } Counts;

static void check_table(Counts *counts) {
  const char *known = find_known(), *sizes = find_sizes(known);
  uint64_t answer = try_rooms(call_xs);
  if (sizes == NULL) {
    expect(answer == read_refusal(known), "not refused as the chart is");
    counts->refused++;
    return;
  }
  unsigned points = add_sizes(sizes);
  if (points > YUVATONDRO_MAX_XS) {
    expect(answer == YUVATONDRO_LARGE_CHART, "a large chart is not refused by 16");
    counts->large++;
    return;
  }
  expect(answer == (uint64_t)points << 8, "other points than the chart has");
  check_spaced(sizes, points);
  counts->spaced++;
}

int main(int argc, char **argv) {
  const char *what = argc == 2 ? argv[1] : "";
  Counts counts = {0, 0, 0};
  if (strcmp(what, "limit") == 0) {
    printf("%d\n", YUVATONDRO_MAX_XS);
  } else if (strcmp(what, "show") == 0) {
    while (read_table()) show_table();
  } else if (strcmp(what, "check") == 0) {
    while (read_table()) check_table(&counts);
    printf("%lu with x apart in each row, %lu refused by 16, %lu as their charts are\n", counts.spaced, counts.large, counts.refused);
  } else {
    return 2;
  }
  return 0;
}
