/* What the programs that draw a chart know of a table: the answers of the calls, the kinds and edges, and where each point stands. */
#ifndef CHART_H
#define CHART_H

#include <stdio.h>

#include "yuvatondro.h"

/* Rows count from 0. Each line has a segment more than it has dummies and a stroke more than segments, and there are no more lines than
 * edges. */
enum {
  MAX_ROWS = YUVATONDRO_MAX_ROW + 1,
  MAX_SEGMENTS = YUVATONDRO_MAX_POINTS + YUVATONDRO_MAX_EDGES,
  MAX_STROKES = MAX_SEGMENTS + YUVATONDRO_MAX_EDGES
};

/* How a program ends: the table is refused, or there is trouble with the arguments or files. */
enum { REFUSED = 1, TROUBLE = 2 };

/* In millimetres: from one x to the next, and from one row to the next. */
#define COLUMN 12.5f
#define ROW 7.25f

typedef enum { CHECK = 0, ADJUST = 1, WAIT = 2 } Kind;

/* A step as the table has it; the number is the tolerance of an adjustment or the minutes of a wait. The name is a stretch of the table. */
typedef struct {
  const uint8_t *name;
  size_t name_len;
  Kind kind;
  unsigned number;
} Step;

/* As the table has it: the ends of a turned edge are not exchanged here. */
typedef struct {
  size_t from, to, gap, weight, soft;
} Edge;

/* What is drawn as one line: the edges of one tail, one head and one firmness. It has the largest of their gaps and their weights added. */
typedef struct {
  unsigned first; /* the number of the first of them */
  size_t gap, weight;
} MergedEdge;

/* A part of a line, between neighbouring rows. */
typedef struct {
  unsigned upper, lower, merged;
} Segment;

/* In millimetres, x from the left and y from the top. */
typedef struct {
  float x, y;
} Corner;

/* A move or a line to a corner. */
typedef struct {
  unsigned shape;
  Corner corner;
} Stroke;

/* How much of a chart is known. */
typedef enum { NOTHING, STEPS, ROWS, ORDER } Known;

typedef struct {
  const uint8_t *table;
  size_t table_len;
  Known known;

  /* known from STEPS on */
  unsigned steps, edges, merged_edges;
  Step step[YUVATONDRO_MAX_STEPS];
  Edge edge[YUVATONDRO_MAX_EDGES];
  MergedEdge merged[YUVATONDRO_MAX_EDGES];
  unsigned edge_merged[YUVATONDRO_MAX_EDGES]; /* which of them an edge belongs to */
  uint8_t shortest[YUVATONDRO_MAX_SHORTEST];
  size_t shortest_len;

  /* known from ROWS on */
  uint16_t row[YUVATONDRO_MAX_STEPS];

  /* known with ORDER; the points of row r are order[row_start[r]] to order[row_start[r + 1] - 1], and the segments from row r to the next
   * are those numbered below[below_start[r]] to below[below_start[r + 1] - 1] */
  unsigned points, rows, segments;
  unsigned long total, crossings;
  uint16_t order[YUVATONDRO_MAX_POINTS];
  unsigned row_start[MAX_ROWS + 1];
  unsigned point_row[YUVATONDRO_MAX_POINTS];
  unsigned point_place[YUVATONDRO_MAX_POINTS];  /* from the left, from 0 */
  unsigned point_merged[YUVATONDRO_MAX_POINTS]; /* of a dummy */
  Segment segment[MAX_SEGMENTS];
  unsigned below[MAX_SEGMENTS], below_start[MAX_ROWS + 1];

  /* known with ORDER, but for a chart of more points than these, or with a row in another order than the library's */
  int has_xs;
  uint16_t x[YUVATONDRO_MAX_XS];

  /* known with ORDER; the strokes of a line start at line_stroke, and there is one more than its length */
  unsigned strokes;
  Stroke stroke[MAX_STROKES];
  unsigned line_stroke[YUVATONDRO_MAX_EDGES];
  Corner corner[YUVATONDRO_MAX_POINTS];
} Chart;

/* An order of one row: its points from left to right, and the crossings with the row above, with the row below, and of the whole chart. */
typedef struct {
  uint16_t point[YUVATONDRO_MAX_ROW_POINTS];
  unsigned long above, below, all;
} OrderedRow;

/* A row as it is and in the best order that was found in so many tries, and the floor of its crossings with the row above. */
typedef struct {
  unsigned row, tries, points;
  unsigned long floor;
  OrderedRow present, found;
} RowOrder;

/* load.c: reads a table from a file and asks for its chart, or, if it was stored in long forms, for that of what it is converted to; then
 * places what is drawn, as place_chart does for an order. Gives 0 and the library's answer, which is a refusal or not, or else tells the
 * trouble and gives its status. The name of the program stands before each message. */
int load_chart(const char *program, const char *path, Chart *chart, uint64_t *answer);
int place_chart(const char *program, Chart *chart);
int report(const char *program, const char *path);

/* stored.c: whether the library takes the table only by the rule of tables stored before long forms of numbers were refused. Then its
 * shortest form, which the library takes as any other table, stands in a buffer of YUVATONDRO_MAX_SHORTEST bytes, with its length. */
int convert_stored(const uint8_t *table, size_t table_len, uint8_t *shortest, size_t *shortest_len);

/* chart.c: asks the library for all that it has to say of the table; its last answer, which is a refusal or not. */
uint64_t ask_chart(Chart *chart, const uint8_t *table, size_t table_len);

/* said.c: the kinds and the edges of the table, which the library does not hand out. */
void read_kinds(Chart *chart);
void read_edges(Chart *chart);

/* edges.c: the lines that the edges are drawn as; and, from ROWS on, whether an edge was turned, the step at its upper and at its lower
 * end, and its length. All this is the same for a line as for its first edge. */
void merge_edges(Chart *chart);
int is_turned(const Chart *chart, unsigned edge);
unsigned upper_end(const Chart *chart, unsigned edge);
unsigned lower_end(const Chart *chart, unsigned edge);
unsigned length_of(const Chart *chart, unsigned edge);

/* points.c: whether the points that the lines make, kept or turned, are those of the library's order; if so they are placed. */
int place_points(Chart *chart);

/* strokes.c: the corner of each point, and, where the library has no strokes, those too; whether they are those of the lines. */
int place_strokes(Chart *chart);

/* columns.c: how far from the left the middle of each point is written, from widths and the blank between neighbours in any unit; no left
 * side is below 0. By the library's x, and where it has none as lay_out has it. */
void find_middles(const Chart *chart, const long *width, long blank, long *middle);

/* layout.c: the same without x. */
void lay_out(const Chart *chart, const long *width, long blank, long *x);

/* row_order.c: asks the library for the best order of a row in so many tries and puts that row of the chart in it; status and answer as of
 * load_chart. Where it is another than the present one, the chart has no x from then on, and strokes as if it were too large for them. */
int order_row(const char *program, Chart *chart, size_t row, size_t tries, RowOrder *r, uint64_t *answer);
void list_row_order(FILE *out, const Chart *chart, const RowOrder *r);

/* refusal.c: a sentence on what a refusal means and what to do about it. */
void explain_refusal(FILE *out, const char *program, const Chart *chart, uint64_t answer);

/* draw_text.c: the text of a point, with its length; and the drawing in text. */
enum { POINT_TEXT = 32 };
int point_text(const Chart *chart, unsigned point, char text[POINT_TEXT]);
void draw_text(FILE *out, const Chart *chart);

/* lists.c, draw_svg.c */
void list_chart(FILE *out, const Chart *chart);
void draw_svg(FILE *out, const Chart *chart);

#endif
