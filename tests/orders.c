/* What yuvatondro_row_order makes of the tables on standard input, one a line in hexadecimal.
 *   orders show     each table has ` -> ` behind it and what is asked of it: a row and a number of tries, and more such pairs, `; ` between
 *                   them. Prints the pairs again, `: ` behind each, and `order` with the points of the row from left to right, `crossings` and
 *                   `floor` with these; or `refused` and the number, and of a loop its step behind it
 *   orders check    each table has ` -> ` behind it and what is known of its chart, as known.h has it. Holds the call to that and to
 *                   yuvatondro_chart, for every row. Prints what became of how many rows and tables
 *   orders limits   reads nothing and prints the most points of a row and the most tries that the header has
 * Each call is tried with all the buffers of lent.h, but for those with more tries in a check. Ends with status 1 at the first surprise, and
 * with 2 if none of these is named. */
static const char program[] = "orders";
#include "known.h"
#include "lent.h"

/* What is asked for. */
static size_t row, tries;
static uint16_t *const order = guarded + GUARD;

static uint64_t call_row_order(size_t room) {
  uint64_t answer = yuvatondro_row_order(table, table_len, row, tries, order, room);
  expect(yuvatondro_refusal(answer) != YUVATONDRO_DONE || yuvatondro_points(answer) <= YUVATONDRO_MAX_ROW_POINTS, "an order of too many points");
  return answer;
}

/* With all buffers, and with one of so many entries. */
static uint64_t ask(size_t for_row, size_t with_tries) {
  row = for_row;
  tries = with_tries;
  return try_rooms(call_row_order);
}
static uint64_t ask_for(size_t for_row, size_t with_tries, size_t room) {
  row = for_row;
  tries = with_tries;
  return lend(call_row_order, room);
}

static void show_answer(uint64_t answer) {
  if (yuvatondro_refusal(answer) != YUVATONDRO_DONE) {
    print_refusal(answer);
    return;
  }
  printf("order");
  for (unsigned i = 0; i < yuvatondro_points(answer); i++) printf(" %u", (unsigned)order[i]);
  printf(" crossings %lu floor %lu", yuvatondro_crossings(answer), yuvatondro_floor(answer));
}

static void show_table(void) {
  const char *asked = find_known();
  for (char *end; *asked != '\n'; asked = end + (*end == ';')) {
    size_t for_row = strtoull(asked, &end, 10), with_tries = strtoull(end, &end, 10);
    expect(end != asked && (*end == ';' || *end == '\n'), "the line does not say what is asked");
    uint64_t answer = ask(for_row, with_tries);
    printf("%zu %zu: ", row, tries);
    show_answer(answer);
    printf("%s", *end == ';' ? "; " : "\n");
  }
}

/* The points of a row, as the chart has them, in any order. */
static void check_points(const uint16_t *present, unsigned points) {
  uint8_t seen[YUVATONDRO_MAX_POINTS] = {0};
  for (unsigned i = 0; i < points; i++) seen[present[i]] = 1;
  for (unsigned i = 0; i < points; i++) {
    expect(order[i] < YUVATONDRO_MAX_POINTS && seen[order[i]], "a point that is not in the row, or twice");
    seen[order[i]] = 0;
  }
}

/* A row of the chart with more and more tries: its own order first, and then no worse one, never below the floor, which stays the same. Gives
 * the crossings of its own order. */
static unsigned long check_row(size_t number, const uint16_t *present, unsigned points) {
  static const size_t more[] = {0, 1, 23, 200};
  unsigned long first = 0, floor = 0, last = 0;
  for (size_t k = 0; k < sizeof more / sizeof *more; k++) {
    uint64_t answer = k == 0 ? ask(number, 0) : ask_for(number, more[k], points);
    expect(yuvatondro_refusal(answer) == YUVATONDRO_DONE && yuvatondro_points(answer) == points, "refused, or other points than the row has");
    check_points(present, points);
    expect(k > 0 || memcmp(order, present, points * sizeof *order) == 0, "another order without tries");
    if (k == 0) {
      first = last = yuvatondro_crossings(answer);
      floor = yuvatondro_floor(answer);
    }
    expect(yuvatondro_crossings(answer) <= last && yuvatondro_crossings(answer) >= floor, "more tries are worse, or below the floor");
    expect(yuvatondro_floor(answer) == floor, "another floor with more tries");
    last = yuvatondro_crossings(answer);
  }
  return first;
}

typedef struct { unsigned long ordered, wide, charts, refused; } Counts;

/* The rows of a chart have its crossings together, where all may have an order. */
static void check_chart(const char *sizes, Counts *counts) {
  uint16_t rows[YUVATONDRO_MAX_STEPS], present[YUVATONDRO_MAX_POINTS];
  uint64_t chart = yuvatondro_chart(table, table_len, rows, YUVATONDRO_MAX_STEPS, present, YUVATONDRO_MAX_POINTS);
  unsigned at = 0, points = add_sizes(sizes), wide = 0;
  unsigned long crossings = 0;
  size_t number = 0;
  expect(yuvatondro_refusal(chart) == YUVATONDRO_DONE && yuvatondro_points(chart) == points, "the chart call has other points");
  for (char *end; at < points; sizes = end, number++) {
    unsigned size = (unsigned)strtoul(sizes, &end, 10);
    int is_wide = size > YUVATONDRO_MAX_ROW_POINTS;
    if (number == 0 || is_wide)
      expect(ask(number, 0) == YUVATONDRO_BAD_ROW, "row 0, or a row of too many points, is not refused by 17");
    else
      crossings += check_row(number, present + at, size);
    wide += number > 0 && is_wide;
    counts->ordered += number > 0 && !is_wide;
    at += size;
  }
  expect(ask(number, YUVATONDRO_MAX_TRIES + 1) == YUVATONDRO_BAD_ROW, "a row behind the last is not refused by 17");
  expect(wide > 0 || crossings == yuvatondro_crossings(chart), "the rows have other crossings than the chart");
  counts->wide += wide;
}

static void check_table(Counts *counts) {
  const char *known = find_known(), *sizes = find_sizes(known);
  if (sizes != NULL) {
    check_chart(sizes, counts);
    counts->charts++;
    return;
  }
  uint64_t due = read_refusal(known);
  expect(ask(1, 0) == due && ask(0, YUVATONDRO_MAX_TRIES + 1) == due, "not refused as the chart is");
  counts->refused++;
}

int main(int argc, char **argv) {
  const char *what = argc == 2 ? argv[1] : "";
  Counts counts = {0, 0, 0, 0};
  if (strcmp(what, "limits") == 0) {
    printf("%d %d\n", YUVATONDRO_MAX_ROW_POINTS, YUVATONDRO_MAX_TRIES);
  } else if (strcmp(what, "show") == 0) {
    while (read_table()) show_table();
  } else if (strcmp(what, "check") == 0) {
    while (read_table()) check_table(&counts);
    printf("%lu rows of %lu charts ordered and %lu refused by 17, %lu tables as their charts are\n", counts.ordered, counts.charts, counts.wide,
           counts.refused);
  } else {
    return 2;
  }
  return 0;
}
