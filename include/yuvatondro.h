/* Yuvatondro: the calls for C.
 *
 * Link libhost.a (tools/build makes it). A table is the bytes of docs/FORMAT.md. A slice is a pointer and a length in entries; where the
 * length is 0 the pointer is not followed. No buffer shares memory with another, with the table or with the records. Every call
 * takes any bytes and any lengths, ends, and keeps no state.
 *
 * An answer is one word, with two floats beside it in yuvatondro_stroke_at. The word's low byte is 0, or the number of the refusal, and
 * then no buffer was changed. With refusal 11 the lowest step that lies on a loop of must edges stands in the byte above; with any other
 * the bits above are 0. Entries of a buffer behind those that a call fills keep their content.
 */
#ifndef YUVATONDRO_H
#define YUVATONDRO_H

#include <stddef.h>
#include <stdint.h>

#ifdef __cplusplus
extern "C" {
#endif

/* Why a call was turned down, in the order in which the conditions are judged: 1 to 10 and 15 from the bytes of the table from left to
 * right; then 14, or those of 11, 12, 16, 17, 18, 13 that the call judges, in this order. */
enum {
  YUVATONDRO_DONE = 0,
  YUVATONDRO_CUT = 1,           /* the bytes end in the middle of the table */
  YUVATONDRO_OVERLONG = 2,      /* the third byte of a number has its high bit set, or the last of its two or three bytes is 00 */
  YUVATONDRO_BAD_EDITION = 3,   /* an edition other than 1 and 2 */
  YUVATONDRO_MANY_STEPS = 4,    /* more than YUVATONDRO_MAX_STEPS steps */
  YUVATONDRO_BAD_KIND = 5,      /* a kind above 2 */
  YUVATONDRO_OUT_OF_RANGE = 6,  /* a number of a kind, a name's length, a gap or a weight */
  YUVATONDRO_BAD_NAME_BYTE = 7, /* a byte of a name outside 21 to 7E hexadecimal */
  YUVATONDRO_MANY_EDGES = 8,    /* more than YUVATONDRO_MAX_EDGES edges */
  YUVATONDRO_BAD_END = 9,       /* an end of an edge is no step, or both are the same */
  YUVATONDRO_SPARE = 10,        /* bytes follow the last edge */
  YUVATONDRO_LOOP = 11,         /* must edges form a loop: yuvatondro_loop_step tells the step */
  YUVATONDRO_MANY_POINTS = 12,  /* more than YUVATONDRO_MAX_POINTS points, as yuvatondro_chart counts them */
  YUVATONDRO_SHORT_BUFFER = 13, /* a buffer is too short for what the call puts in it */
  YUVATONDRO_NO_STEP = 14,      /* the table has no step of that number */
  YUVATONDRO_BAD_FIRMNESS = 15, /* a firmness above 1 */
  YUVATONDRO_LARGE_CHART = 16,  /* a chart of more than YUVATONDRO_MAX_XS points */
  YUVATONDRO_BAD_ROW = 17,      /* row 0, a row that the chart does not have, or one of more than YUVATONDRO_MAX_ROW_POINTS points */
  YUVATONDRO_MANY_TRIES = 18    /* more than YUVATONDRO_MAX_TRIES tries */
};

enum { YUVATONDRO_MAX_STEPS = 96, YUVATONDRO_MAX_EDGES = 288, YUVATONDRO_MAX_POINTS = 1024 };

/* The most points of a chart for which yuvatondro_xs finds an x each and yuvatondro_stroke_at has strokes. */
enum { YUVATONDRO_MAX_XS = 128 };

/* The most points of a row for which yuvatondro_row_order looks for an order, and the most tries that it takes. */
enum { YUVATONDRO_MAX_ROW_POINTS = 32, YUVATONDRO_MAX_TRIES = 50000 };

/* No row is above this: a gap is at most 4. Of a table of n steps none is above 4 * (n - 1); so tables of at most 64 steps, the most
 * there were up to version 1.3, have rows of at most 252, and lists of them that a host kept as bytes stay right. */
enum { YUVATONDRO_MAX_ROW = 4 * (YUVATONDRO_MAX_STEPS - 1) };

/* The bytes of the longest shortest form: the edition, a count and the steps, a count and the edges, each number in as many bytes as it can
 * need there, and names of 16. No accepted table is longer either, so a buffer of so many bytes holds any. */
enum { YUVATONDRO_MAX_SHORTEST = 1 + 1 + YUVATONDRO_MAX_STEPS * (1 + 2 + 1 + 16) + 2 + YUVATONDRO_MAX_EDGES * (1 + 1 + 1 + 2 + 1) };

/* Only yuvatondro_convert takes longer ones: of up to so many bytes, each number in three. */
enum { YUVATONDRO_MAX_STORED = 3 + 3 + YUVATONDRO_MAX_STEPS * (3 * 3 + 16) + 3 + YUVATONDRO_MAX_EDGES * (5 * 3) };

/* The refusal of any answer, and the step that comes with refusal 11. */
static inline unsigned yuvatondro_refusal(uint64_t answer) { return (unsigned)(answer & 0xFF); }
static inline unsigned yuvatondro_loop_step(uint64_t answer) { return (unsigned)(answer >> 8 & 0xFF); }

/* The steps and edges of a table. Refuses by 1 to 10 and 15. */
uint64_t yuvatondro_counts(const uint8_t *table, size_t table_len);
static inline unsigned yuvatondro_steps(uint64_t counts) { return (unsigned)(counts >> 8 & 0xFF); }
static inline unsigned yuvatondro_edges(uint64_t counts) { return (unsigned)(counts >> 16); }

/* Where the name of a step stands in the table: its start and its length, which is 1 to 16. Refuses by 1 to 10 and 15, then
 * 14. */
uint64_t yuvatondro_name(const uint8_t *table, size_t table_len, size_t step);
static inline size_t yuvatondro_name_length(uint64_t name) { return (size_t)(name >> 8 & 0xFF); }
static inline size_t yuvatondro_name_start(uint64_t name) { return (size_t)(name >> 16); }

/* The rows of a table, one entry a step: feasible, of least weighted total among all feasible rows, and among those the lowest at every
 * step. Answers 0. Refuses by 1 to 10 and 15, then 11, 13.
 *
 * A table of edition 2 says of each edge whether it is must or soft; in edition 1 all are must. Must edges stand as they are, and a
 * loop of them is refused. Then come the soft ones, one after another as the table lists them. Where one would form a loop with edges
 * that stand, it is turned: its ends are exchanged, and its gap, weight and number stay. Else it is kept, and stands from then on. So
 * refusal 11 is never due to a soft edge, and the rows are those of all edges as kept or turned. */
uint64_t yuvatondro_rows(const uint8_t *table, size_t table_len, uint16_t *rows, size_t rows_len);

/* The same for edges without a table: `numbers` entries of `records`, four to an edge (from, to, gap, weight); fewer than four left
 * over are no edge. All are must. Refuses by 4, 8, then each edge in turn by 9 and 6, then 11, 13. */
uint64_t yuvatondro_records(size_t steps, const size_t *records, size_t numbers, uint16_t *rows, size_t rows_len);

/* The whole chart of a table: its rows as above, and to `order` its points, row by row from row 0 and each row from left to right.
 * Answers how many points there are, the weighted total of the rows, and the crossings of the order. Refuses by 1 to 10 and 15, then 11,
 * 12, 13. YUVATONDRO_MAX_POINTS entries of `order` are always enough.
 *
 * Edges to which the table gives the same from, the same to and the same firmness are drawn as one line; up to version 1.5 each had a line
 * of its own. The line stands at the place of the first of them and has its number, the largest of their gaps, and their weights added.
 * Rows and total are the same for the lines as for the edges one by one. Points and crossings are those of the lines, and so are
 * refusal 12 and the entries that `order` needs. A step's point has the step's number; the dummies follow, by line and then by rising row.
 *
 * The edges of a line are all kept or all turned, and it is drawn as they are. A drawing can tell from the rows which are turned: those
 * whose tail in the table stands in a larger row than their head. Such a line has its dummies by rising row as well, so that its first one
 * is next to its head. Between the same two steps there may be a must line, a soft one that was kept and one that was turned. */
uint64_t yuvatondro_chart(const uint8_t *table, size_t table_len, uint16_t *rows, size_t rows_len, uint16_t *order, size_t order_len);
static inline unsigned yuvatondro_points(uint64_t chart) { return (unsigned)(chart >> 8 & 0x7FF); }
static inline unsigned long yuvatondro_total(uint64_t chart) { return (unsigned long)(chart >> 19 & 0x1FFFFFF); }
static inline unsigned long yuvatondro_crossings(uint64_t chart) { return (unsigned long)(chart >> 44); }

/* The best order of one row of a table's chart, as far as so many tries go: to `order` the points of the row from left to right. All other
 * rows stand as yuvatondro_chart has them. Answers how many points the row has, for yuvatondro_points; the crossings that it has with the
 * row above in this order, for yuvatondro_crossings; and a floor for these. Refuses by 1 to 10 and 15, then 11, 12, 17, 18, 13.
 * YUVATONDRO_MAX_ROW_POINTS entries of `order` are always enough.
 *
 * Only the segments between the two rows count: what a line has between them. An order of the row is written down as the positions, from 0,
 * that its points have in yuvatondro_chart, and the orders come as these lists stand in a dictionary. The first is the row as it is; so many
 * more are looked at as there are tries, or all there are if these are fewer. Of the orders looked at the answer is the first with fewest
 * crossings: with 0 tries the row as it is, and with more tries never a worse one.
 *
 * The floor takes each pair of points of the row in that of its two orders in which their segments cross less often, and adds these up. No
 * order of the row has fewer crossings, so that one which meets its floor is the best there is. Not every row has one that does.
 *
 * The crossings of the chart with the row below can grow where a row is put in its best order. */
uint64_t yuvatondro_row_order(const uint8_t *table, size_t table_len, size_t row, size_t tries, uint16_t *order, size_t order_len);
static inline unsigned long yuvatondro_floor(uint64_t answer) { return (unsigned long)(answer >> 19 & 0x1FFFFFF); }

/* How far from the left the points of a chart stand: to `xs` a whole x for each, by point number, steps first and then dummies as above.
 * x count from 0, and each is at least 1 more than that of the point's left neighbour in the order of yuvatondro_chart. Answers how many
 * points there are, for yuvatondro_points. Refuses by 1 to 10 and 15, then 11, 12, 16, 13. YUVATONDRO_MAX_XS entries of `xs` are always
 * enough.
 *
 * A segment is what a line has between two neighbouring rows, and costs the weight of the line, times a factor, times how far the x of its
 * two ends differ. The factor is 1 between two steps, 2 between a step and a dummy, and 8 between two dummies, so that long lines are
 * straight first of all. The x have the least sum of these costs that there is, and among all x with this sum the lowest at every point. So
 * some point of each chart that has points stands at 0, and no x is as large as the number of points.
 *
 * To draw with them, call yuvatondro_chart too: x goes to the right, rows go down. The row of a step stands in its `rows`, and the dummies
 * of a line stand in the rows between those of its two ends, one in each. An x counts columns and knows no widths: where all columns are as
 * wide as the widest thing that is drawn at a point nothing overlaps, and a segment whose ends have the same x is upright. A line of weight
 * 0 costs nothing, and so is straight only by chance. A chart of more than YUVATONDRO_MAX_XS points has its rows and order, but no x. */
uint64_t yuvatondro_xs(const uint8_t *table, size_t table_len, uint16_t *xs, size_t xs_len);

/* What a pen does next that draws the chart: it goes to a corner without drawing, or it draws a straight line to it. A corner is a pair of
 * millimetres, x from the left and y from the top: 12.5 for each x of yuvatondro_xs and 7.25 for each row of yuvatondro_chart. Both are
 * exact: no corner of any chart was rounded. */
typedef struct {
  uint64_t answer;
  float x, y;
} yuvatondro_stroke;

/* Which it is, where the refusal is 0: none, a move or a line. With none, and with a refusal, x and y are 0. */
enum { YUVATONDRO_NO_STROKE = 0, YUVATONDRO_MOVE = 1, YUVATONDRO_LINE = 2 };

/* No chart has more strokes: each line has two more than it has dummies. */
enum { YUVATONDRO_MAX_STROKES = YUVATONDRO_MAX_XS + 2 * YUVATONDRO_MAX_EDGES };

/* The stroke at an index, counted from 0 over all lines of a table's chart. They come line by line as yuvatondro_chart has them: of each a
 * move to the step that it starts at by the table, then a line to each of its dummies, and last one to the step that it ends at. So a line
 * that was turned is drawn upwards, and each line stroke leads from where the stroke before it ended to a neighbouring row. Answers none
 * from the number of strokes on, and at every index if there are no edges. Refuses by 1 to 10 and 15, then 11, 12, 16.
 *
 * Nothing is lent and nothing is kept between calls: each works the chart out anew. */
yuvatondro_stroke yuvatondro_stroke_at(const uint8_t *table, size_t table_len, size_t index);
static inline unsigned yuvatondro_stroke_case(uint64_t answer) { return (unsigned)(answer >> 8 & 0xFF); }

/* The shortest form of a table, to `out`: the same steps and edges in the same order, every number in its fewest bytes, edition 1 if no
 * edge is soft and else 2. Answers how many bytes it wrote. Refuses by 1 to 10 and 15, then 13. No loop is looked for, and no edge is
 * turned or joined with another: what the table says is written whether or not it has rows.
 *
 * Tables that say the same, firmness included, have the same shortest form, so that they can be compared by bytes; it is read as the
 * table is, is its own shortest form, and no table that says the same is shorter. So a buffer as long as the table is always long
 * enough, and so is one of YUVATONDRO_MAX_SHORTEST bytes. */
uint64_t yuvatondro_write(const uint8_t *table, size_t table_len, uint8_t *out, size_t out_len);
static inline size_t yuvatondro_written(uint64_t answer) { return (size_t)(answer >> 8); }

/* The same for a table that was stored before long forms were refused: a number may have 00 for the last of its two or three bytes, as
 * in 81 00 for 1, and 2 is for a third byte with its high bit set alone. All else is as in yuvatondro_write: what is written, the
 * answer, the other refusals and their order, and which buffers are long enough.
 *
 * What it writes, no other call refuses as a reader, and it says what the stored table said. Of a table without long forms it writes
 * what yuvatondro_write writes, so that converting again changes nothing. */
uint64_t yuvatondro_convert(const uint8_t *table, size_t table_len, uint8_t *out, size_t out_len);

#ifdef __cplusplus
}
#endif
#endif
