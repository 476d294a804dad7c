/* What yuvatondro_stroke_at makes of the tables on standard input, one a line in hexadecimal.
 *   strokes show     prints for each `strokes` and all its strokes from index 0 on, each as M or L and the millimetres across and down, in
 *                    digits enough to tell any two floats apart; or `refused` and the number, and of a loop its step behind it
 *   strokes check    each table has ` -> ` behind it and what is known of its chart, as known.h has it. Holds the call to that, and its
 *                    strokes to the points of the chart and to their x. Prints what became of how many tables
 *   strokes limits   reads nothing and prints the most points and the most strokes that the header has
 * Behind the last stroke there has to be none, and a refused table has to be refused at every index. Ends with status 1 at the first
 * surprise, and with 2 if none of these is named. */
static const char program[] = "strokes";
#include "known.h"

static yuvatondro_stroke strokes[YUVATONDRO_MAX_STROKES];
static size_t count;

static int is_positive_zero(float number) {
  const uint8_t zeros[sizeof number] = {0};
  return memcmp(&number, zeros, sizeof number) == 0;
}

/* At each of these indexes there is this answer, with no corner. */
static void expect_no_stroke(size_t start, uint64_t answer) {
  const size_t indexes[] = {start, start + 1, 2 * start + 2, YUVATONDRO_MAX_STROKES, UINT16_MAX + start, SIZE_MAX / 2 + start, SIZE_MAX};
  for (size_t k = 0; k < sizeof indexes / sizeof *indexes; k++) {
    yuvatondro_stroke stroke = yuvatondro_stroke_at(table, table_len, indexes[k]);
    expect(stroke.answer == answer, "another answer behind the last stroke");
    expect(is_positive_zero(stroke.x) && is_positive_zero(stroke.y), "a corner where there is no stroke");
  }
}

/* All strokes of the table; the answer where there are no more, which is a refusal or none. */
static uint64_t read_strokes(void) {
  for (count = 0;; count++) {
    yuvatondro_stroke stroke = yuvatondro_stroke_at(table, table_len, count);
    if (stroke.answer != (uint64_t)YUVATONDRO_MOVE << 8 && stroke.answer != (uint64_t)YUVATONDRO_LINE << 8) {
      expect(count == 0 || stroke.answer == YUVATONDRO_NO_STROKE, "refused at an index behind a stroke");
      expect_no_stroke(count, stroke.answer);
      return stroke.answer;
    }
    expect(count < YUVATONDRO_MAX_STROKES, "more strokes than there may be");
    strokes[count] = stroke;
  }
}

static void show_table(void) {
  uint64_t answer = read_strokes();
  if (yuvatondro_refusal(answer) == YUVATONDRO_DONE) {
    printf("strokes");
    for (size_t i = 0; i < count; i++)
      printf(" %c %.9g %.9g", yuvatondro_stroke_case(strokes[i].answer) == YUVATONDRO_MOVE ? 'M' : 'L', strokes[i].x, strokes[i].y);
  } else {
    print_refusal(answer);
  }
  printf("\n");
}

/* The points of the chart by row and x, each number one higher than it is, and 0 where there is none. */
static uint16_t point_at[YUVATONDRO_MAX_XS][YUVATONDRO_MAX_XS];

static void place_points(const char *sizes, unsigned points) {
  uint16_t rows[YUVATONDRO_MAX_STEPS], order[YUVATONDRO_MAX_POINTS], xs[YUVATONDRO_MAX_XS];
  unsigned at = 0, row = 0;
  uint64_t chart = yuvatondro_chart(table, table_len, rows, YUVATONDRO_MAX_STEPS, order, YUVATONDRO_MAX_POINTS);
  expect(yuvatondro_refusal(chart) == YUVATONDRO_DONE && yuvatondro_points(chart) == points, "the chart call has other points");
  expect(yuvatondro_xs(table, table_len, xs, YUVATONDRO_MAX_XS) == (uint64_t)points << 8, "the call for x has other points");
  memset(point_at, 0, sizeof point_at);
  for (char *end; at < points; sizes = end, row++)
    for (unsigned row_end = at + (unsigned)strtoul(sizes, &end, 10); at < row_end; at++)
      point_at[row][xs[order[at]]] = (uint16_t)(order[at] + 1);
}

/* Where a pen is that draws the strokes: at which point and in which row; how many rows it went down with the last line stroke, -1 for up; and
 * the lowest number that no dummy of the lines before has, and how many dummies this line has so far. */
typedef struct {
  unsigned point, row, next, passed;
  int way;
} Pen;

/* The point whose corner a stroke has. */
static void find_corner(Pen *pen, const yuvatondro_stroke *stroke) {
  const float end = YUVATONDRO_MAX_XS;
  expect(stroke->x >= 0 && stroke->x < 12.5f * end && stroke->y >= 0 && stroke->y < 7.25f * end, "a corner outside of every chart");
  unsigned x = (unsigned)(stroke->x / 12.5f);
  pen->row = (unsigned)(stroke->y / 7.25f);
  expect(stroke->x == 12.5f * (float)x && stroke->y == 7.25f * (float)pen->row, "a corner between rows or columns");
  expect(point_at[pen->row][x] > 0, "a corner without a point");
  pen->point = point_at[pen->row][x] - 1u;
}

/* A line stroke leads to a neighbouring row, the same way as the one before it. The dummies of a line are the next ones by number, from the
 * upper end on. */
static void draw_line(Pen *pen, const yuvatondro_stroke *stroke, unsigned steps) {
  Pen before = *pen;
  find_corner(pen, stroke);
  pen->way = (int)pen->row - (int)before.row;
  expect((pen->way == 1 || pen->way == -1) && (before.way == 0 || before.way == pen->way), "a line stroke to another row");
  if (pen->point < steps) {
    expect(pen->passed == 0 || before.point == (pen->way > 0 ? pen->next + pen->passed - 1 : pen->next), "dummies of another line");
    pen->next += pen->passed;
  } else {
    expect(pen->passed == 0 || (int)pen->point == (int)before.point + pen->way, "dummies of a line out of order");
    pen->passed++;
  }
}

/* Each line starts and ends at a step, passes dummies alone, and all lines together pass every dummy. */
static void check_lines(unsigned steps, unsigned edges, unsigned points) {
  Pen pen = {.point = 0, .next = steps};
  unsigned moves = 0;
  for (size_t i = 0; i < count; i++) {
    int is_move = yuvatondro_stroke_case(strokes[i].answer) == YUVATONDRO_MOVE, is_line_over = i == 0 || (pen.point < steps && pen.way != 0);
    expect(is_move == is_line_over, "a line that ends at no step, or goes on behind one");
    if (!is_move) {
      draw_line(&pen, &strokes[i], steps);
      continue;
    }
    find_corner(&pen, &strokes[i]);
    expect(pen.point < steps, "a move to a dummy");
    pen.way = 0;
    pen.passed = 0;
    moves++;
  }
  expect(count == 0 || (pen.point < steps && pen.way != 0), "the last line does not end at a step");
  expect(pen.next == points && count == points - steps + 2 * moves, "not every dummy is passed");
  expect(moves <= edges && (moves > 0) == (edges > 0), "more lines than edges, or none");
}

typedef struct { unsigned long drawn, large, refused; } Counts;

static void check_table(Counts *counts) {
  const char *known = find_known(), *sizes = find_sizes(known);
  uint64_t answer = read_strokes();
  if (sizes == NULL) {
    expect(count == 0 && answer == read_refusal(known), "not refused as the chart is");
    counts->refused++;
    return;
  }
  unsigned points = add_sizes(sizes);
  if (points > YUVATONDRO_MAX_XS) {
    expect(answer == YUVATONDRO_LARGE_CHART, "a large chart is not refused by 16");
    counts->large++;
    return;
  }
  uint64_t read = yuvatondro_counts(table, table_len);
  expect(answer == YUVATONDRO_NO_STROKE, "refused");
  place_points(sizes, points);
  check_lines(yuvatondro_steps(read), yuvatondro_edges(read), points);
  counts->drawn++;
}

int main(int argc, char **argv) {
  const char *what = argc == 2 ? argv[1] : "";
  Counts counts = {0, 0, 0};
  if (strcmp(what, "limits") == 0) {
    printf("%d %d\n", YUVATONDRO_MAX_XS, YUVATONDRO_MAX_STROKES);
  } else if (strcmp(what, "show") == 0) {
    while (read_table()) show_table();
  } else if (strcmp(what, "check") == 0) {
    while (read_table()) check_table(&counts);
    printf("%lu drawn through their points, %lu refused by 16, %lu as their charts are\n", counts.drawn, counts.large, counts.refused);
  } else {
    return 2;
  }
  return 0;
}
