/* How far from the left each point is drawn where the library has no x, for charts of many points and for those with a row in another order
 * than the library's. The order within the rows is kept; only the distances are chosen here.
 *
 * Each row in turn is moved to where its points wish to be, down and up several times: a step wishes for the mean of the ends of its
 * segments, a dummy for the lane of its line, so that long lines are straight. Within a row the wishes of neighbours may collide: then
 * those points become a block that moves as one, to the mean of its wishes (pool adjacent violators). All numbers are whole, so that
 * every machine draws the same picture. */
#include "chart.h"

enum {
  FIRST_ROUNDS = 8,  /* these bring the rows near to each other, one side at a time */
  LANE_ROUNDS = 192, /* these look both ways and straighten long lines; lines of hundreds of rows need many */
  LANE_WEIGHT = 32,  /* how much more the wish of a dummy counts than that of a segment's end */
  DUMMY_PULL = 64    /* how much more a dummy counts than an end of the line where a lane is found */
};

/* Whose ends count as wishes. */
typedef enum { FROM_ABOVE, FROM_BELOW, FROM_BOTH } Sides;

/* What the points wish for: the sum of weighted places, and the weights. */
typedef struct {
  long long sum[YUVATONDRO_MAX_POINTS], weight[YUVATONDRO_MAX_POINTS];
} Wishes;

/* Neighbours on a row that move as one. */
typedef struct {
  long long sum, weight;
  unsigned end;
} Block;

static long floor_mean(const Block *b) {
  long long mean = b->sum / b->weight;
  return (long)(mean * b->weight > b->sum ? mean - 1 : mean);
}

static void wish(Wishes *w, unsigned point, long weight, long x) {
  w->sum[point] += (long long)weight * x;
  w->weight[point] += weight;
}

static int is_dummy(const Chart *chart, unsigned point) { return point >= chart->steps; }

/* The lane of each line with dummies: where it goes straight down, their mean place, drawn a little towards its ends. */
static void find_lanes(const Chart *chart, const long *x, long *lane) {
  Block sum[YUVATONDRO_MAX_EDGES] = {{0, 0, 0}};
  for (unsigned i = 0; i < chart->segments; i++) {
    const Segment *s = &chart->segment[i];
    long upper = is_dummy(chart, s->upper) ? DUMMY_PULL : 1, lower = is_dummy(chart, s->lower) ? DUMMY_PULL : 1;
    sum[s->merged].sum += (long long)upper * x[s->upper] + (long long)lower * x[s->lower];
    sum[s->merged].weight += upper + lower;
  }
  for (unsigned i = 0; i < chart->merged_edges; i++) lane[i] = floor_mean(&sum[i]);
}

/* The places of the ends of a row's segments, as wishes. */
static void wish_for_ends(const Chart *chart, unsigned row, Sides sides, const long *x, Wishes *w) {
  if (sides != FROM_BELOW && row > 0)
    for (unsigned i = chart->below_start[row - 1]; i < chart->below_start[row]; i++) {
      const Segment *s = &chart->segment[chart->below[i]];
      wish(w, s->lower, 1, x[s->upper]);
    }
  if (sides != FROM_ABOVE)
    for (unsigned i = chart->below_start[row]; i < chart->below_start[row + 1]; i++) {
      const Segment *s = &chart->segment[chart->below[i]];
      wish(w, s->upper, 1, x[s->lower]);
    }
}

static void forget(Wishes *w, unsigned point) { w->sum[point] = w->weight[point] = 0; }

/* Where a point of a row wishes to be if it has no segment there: where it is; with no segment at all, close to a neighbour. */
static long idle_place(const Chart *chart, unsigned row, unsigned at, Sides sides, const long *packed, const long *x) {
  unsigned point = chart->order[at], beside = at > chart->row_start[row] ? at - 1 : at + 1;
  if (sides != FROM_BOTH || beside == chart->row_start[row + 1]) return x[point];
  return x[chart->order[beside]] + packed[point] - packed[chart->order[beside]];
}

/* The wishes of all points of a row. Only with both sides in view do dummies wish for their lane. */
static void make_wishes(const Chart *chart, unsigned row, Sides sides, const long *packed, const long *lane, const long *x, Wishes *w) {
  for (unsigned i = chart->row_start[row]; i < chart->row_start[row + 1]; i++) forget(w, chart->order[i]);
  wish_for_ends(chart, row, sides, x, w);
  for (unsigned i = chart->row_start[row]; i < chart->row_start[row + 1]; i++) {
    unsigned point = chart->order[i];
    if (is_dummy(chart, point) && sides == FROM_BOTH) {
      forget(w, point);
      wish(w, point, LANE_WEIGHT, lane[chart->point_merged[point]]);
    }
    if (w->weight[point] == 0) wish(w, point, 1, idle_place(chart, row, i, sides, packed, x));
  }
}

/* Where a point of a row would stand if the row were packed from 0: the rest is a shift, which must not fall from left to right. */
static void pack_row(const Chart *chart, unsigned row, const long *width, long blank, long *packed) {
  long left = 0;
  for (unsigned i = chart->row_start[row]; i < chart->row_start[row + 1]; i++) {
    unsigned point = chart->order[i];
    packed[point] = left + width[point] / 2;
    left += width[point] + blank;
  }
}

/* Puts the points of a row as near to their wishes as the order and the widths let them. */
static void settle_row(const Chart *chart, unsigned row, const Wishes *w, const long *packed, long *x) {
  Block block[YUVATONDRO_MAX_POINTS];
  unsigned blocks = 0, i = chart->row_start[row];
  for (; i < chart->row_start[row + 1]; i++) {
    unsigned point = chart->order[i];
    Block last = {w->sum[point] - w->weight[point] * packed[point], w->weight[point], i + 1};
    while (blocks > 0 && floor_mean(&block[blocks - 1]) > floor_mean(&last)) {
      blocks--;
      last.sum += block[blocks].sum;
      last.weight += block[blocks].weight;
    }
    block[blocks++] = last;
  }
  i = chart->row_start[row];
  for (unsigned b = 0; b < blocks; b++)
    for (; i < block[b].end; i++) x[chart->order[i]] = floor_mean(&block[b]) + packed[chart->order[i]];
}

/* One round: every row, from the top down or from the bottom up. */
static void move_rows(const Chart *chart, Sides sides, int up, const long *packed, long *x) {
  Wishes w;
  long lane[YUVATONDRO_MAX_EDGES];
  find_lanes(chart, x, lane);
  for (unsigned i = 0; i < chart->rows; i++) {
    unsigned row = up ? chart->rows - 1 - i : i;
    make_wishes(chart, row, sides, packed, lane, x, &w);
    settle_row(chart, row, &w, packed, x);
  }
}

/* Shifts all points so that the least left side is 0. */
static void shift_to_zero(const Chart *chart, const long *width, long *x) {
  long left = 0;
  for (unsigned i = 0; i < chart->points; i++)
    if (i == 0 || x[i] - width[i] / 2 < left) left = x[i] - width[i] / 2;
  for (unsigned i = 0; i < chart->points; i++) x[i] -= left;
}

void lay_out(const Chart *chart, const long *width, long blank, long *x) {
  long packed[YUVATONDRO_MAX_POINTS];
  for (unsigned row = 0; row < chart->rows; row++) pack_row(chart, row, width, blank, packed);
  for (unsigned i = 0; i < chart->points; i++) x[i] = packed[i];
  for (int round = 0; round < FIRST_ROUNDS; round++) {
    move_rows(chart, FROM_ABOVE, 0, packed, x);
    move_rows(chart, FROM_BELOW, 1, packed, x);
  }
  for (int round = 0; round < LANE_ROUNDS; round++) move_rows(chart, FROM_BOTH, round % 2, packed, x);
  shift_to_zero(chart, width, x);
}
