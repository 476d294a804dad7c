/* What the parts of this test share: tables, the calls on buffers between guards, and one entry for each part. */
#ifndef CALLS_H
#define CALLS_H

#include <string.h>

#include "yuvatondro.h"

/* The ranges of an edge's numbers, for which the header has no names. */
enum { MAX_GAP = 4, MAX_WEIGHT = 255 };

/* What buffers and guards are filled with, byte by byte: no row, point or x is FILL16. */
enum { FILL = 0xA5, FILL16 = 0xA5A5 };
/* Room for more rows and points than there can be. */
enum { ROWS = YUVATONDRO_MAX_STEPS + 16, POINTS = YUVATONDRO_MAX_POINTS + 76 };

/* Prints what was expected and ends with status 1 if it does not hold. */
void expect(int holds, const char *what);
void expect_of(const char *call, int holds, const char *what);

/* The longest stored table, and a byte that may follow. Of the others none is longer than YUVATONDRO_MAX_SHORTEST. */
typedef struct {
  uint8_t byte[YUVATONDRO_MAX_STORED + 1];
  size_t len;
} Table;

/* A table in hexadecimal, with capital letters. The words steps and edges stand for the most that there may be of them, steps+1 and
 * edges+1 for one more, each in its fewest bytes. */
Table read_hex(const char *text);
/* As many steps and edges as there may be, with every number in three bytes or in its fewest. */
Table write_largest(int in_three);
/* A number at the end of a table, in three bytes or in its fewest. */
void put_number(Table *t, unsigned number, int in_three);

/* Edges, four numbers each as the record form takes them, and which of them are soft, as only a table can say: up to one more than there
 * may be. */
typedef struct {
  size_t number[4 * (YUVATONDRO_MAX_EDGES + 1)];
  size_t count;
  uint8_t soft[YUVATONDRO_MAX_EDGES + 1];
} Edges;

void add_edge(Edges *edges, size_t from, size_t to, size_t gap, size_t weight);
void add_soft(Edges *edges, size_t from, size_t to, size_t gap, size_t weight);
/* Of the lines that there may be between two steps one more from the first to the second, by its number: a must one, a soft one, and a soft
 * one that is written the other way and turned, since it closes a loop with the must one. */
enum { SIDE_BY_SIDE = 3 };
void add_line(Edges *edges, size_t upper, size_t lower, size_t gap, size_t number);
/* Edges of this gap and weight from each of so many steps to the next. */
Edges make_chain(size_t steps, size_t gap, size_t weight);
/* A chart of the most steps and rows with so many points, which are more than YUVATONDRO_MAX_ROW. */
Edges make_points(size_t points);
/* The table of these edges, whose steps are checks of one name, in edition 1 if no edge is soft. */
Table write_edges(size_t steps, const Edges *edges);

#define SAMPLE                                                                                 \
  "01 04 02 1E 04 77 61 72 6D 00 04 6C 6F 63 6B 00 05 73 77 65 65 70 01 32 05 6C 65 76 65 6C " \
  "04 00 01 01 01 01 02 02 03 00 03 01 01 03 02 01 05"
extern const uint16_t sample_rows[4];

/* Whether the first entries of two lists are the same. */
int same_entries(const uint16_t *a, const uint16_t *b, size_t entries);

/* A table for each refusal of the reader, and for each place of a long form; and what the table is refused by if it is a stored one, 0
 * for nothing. */
typedef struct {
  const char *table;
  unsigned refusal, stored;
} Refused;
enum { REFUSED = 42 };
extern const Refused refused[REFUSED];

/* Accepted tables with their shortest form, and what the rows call refuses both by. */
typedef struct {
  const char *table, *shortest;
  unsigned rows;
} Written;
enum { WRITTEN = 9 };
extern const Written written[WRITTEN];

/* Each call with buffers of `room` entries (and `points` of order) between guards, whose content is handed out; what must stay is
 * checked. */
uint64_t call_rows(const Table *t, size_t room, uint16_t *rows);
uint64_t call_records(size_t steps, const size_t *records, size_t numbers, size_t room, uint16_t *rows);
uint64_t call_chart(const Table *t, size_t room, size_t points, uint16_t *rows, uint16_t *order);
uint64_t call_xs(const Table *t, size_t room, uint16_t *xs);
uint64_t call_row_order(const Table *t, size_t row, size_t tries, size_t room, uint16_t *order);
uint64_t call_write(const Table *t, size_t room, uint8_t *out);
uint64_t call_convert(const Table *t, size_t room, uint8_t *out);

/* Whether an answer of one of the last two, and what it left in the buffer, is this table. */
int wrote(uint64_t answer, const uint8_t *out, const Table *due);
/* One of them on a table with this shortest form, with buffers of every telling length. */
typedef uint64_t Writer(const Table *t, size_t room, uint8_t *out);
void test_writer(const char *call, Writer *writer, const Table *t, const Table *shortest);

/* The call for a stroke, which is lent no buffer: the same wherever the table stands. */
yuvatondro_stroke call_stroke(const Table *t, size_t index);
/* By the bits of the floats, so that neither a rounded corner nor a zero of the other sign is the same. */
int same_stroke(yuvatondro_stroke a, yuvatondro_stroke b);
uint32_t float_bits(float number);
/* There are so many strokes and not one more; and at every index the table is refused, by this answer. */
void expect_none(const char *what, const Table *t, size_t strokes);
void expect_refused_strokes(const Table *t, uint64_t answer, const char *what);
/* The strokes of a table whose chart has x are those of its lines, by the rows and x that the other calls give. */
void expect_strokes(const char *what, size_t steps, const Edges *lines, const Table *t);

/* The order of a row that is due: its points from left to right, the crossings that it has with the row above, and the floor. */
typedef struct {
  size_t points;
  const uint16_t *order;
  unsigned long crossings, floor;
} Ordered;
/* With so many tries the call gives this order of a row, in buffers of every telling length. */
void expect_order(const char *what, const Table *t, size_t row, size_t tries, const Ordered *due);
/* The order of a row is the best of so many tries: the row as it is and all orders behind it are written down and counted here, by the rows
 * and the order of the chart call and the lines of the table. None has fewer crossings than the floor. Where the best changes with a number of
 * tries, the call is made with one fewer too. A row of too many points, or none, is refused. Gives the points of the row. */
size_t expect_best(const char *what, const Table *t, size_t steps, const Edges *lines, size_t row, size_t tries);
/* The table is refused by this answer, whatever row is asked for, with how many tries and into which buffer. */
void expect_refused_orders(const Table *t, uint64_t answer, const char *what);

void test_rows_calls(void);
void test_chart_call(void);
void test_soft_edges(void);
void test_write_call(void);
void test_convert_call(void);
void test_counts(void);
void test_tall_charts(void);
void test_means(void);
void test_merged_edges(void);
void test_xs_call(void);
void test_stroke_call(void);
void test_row_order_call(void);

#endif
