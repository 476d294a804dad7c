/* How many steps and edges there may be, in every call that counts them. */
#include "calls.h"

static void expect_refused(const Table *t, unsigned due, const char *what) {
  uint16_t rows[ROWS], order[POINTS];
  uint8_t out[YUVATONDRO_MAX_SHORTEST];
  expect_of("counts", yuvatondro_counts(t->byte, t->len) == due, what);
  expect_of("name", yuvatondro_name(t->byte, t->len, 0) == due, what);
  expect_of("rows", call_rows(t, 0, rows) == due && call_rows(t, ROWS, rows) == due, what);
  expect_of("chart", call_chart(t, 0, 0, rows, order) == due && call_chart(t, ROWS, POINTS, rows, order) == due, what);
  expect_of("xs", call_xs(t, 0, order) == due && call_xs(t, POINTS, order) == due, what);
  expect_refused_strokes(t, due, what);
  expect_refused_orders(t, due, what);
  expect_of("write", call_write(t, 0, out) == due && call_write(t, YUVATONDRO_MAX_SHORTEST, out) == due, what);
  expect_of("convert", call_convert(t, 0, out) == due && call_convert(t, YUVATONDRO_MAX_SHORTEST, out) == due, what);
}

/* The table of these edges, none of which has a dummy, is its own shortest form; each call takes it, with exact buffers. */
static void expect_taken(size_t steps, const Edges *edges) {
  uint16_t rows[ROWS], order[POINTS];
  Table t = write_edges(steps, edges);
  uint64_t answer = yuvatondro_counts(t.byte, t.len);
  expect(yuvatondro_refusal(answer) == 0 && yuvatondro_steps(answer) == steps, "counts: the steps");
  expect(yuvatondro_edges(answer) == edges->count, "counts: the edges");
  expect(yuvatondro_name(t.byte, t.len, steps) == 14, "name: one behind the last step");
  answer = steps == 0 ? 0 : yuvatondro_name(t.byte, t.len, steps - 1);
  expect(steps == 0 || (yuvatondro_refusal(answer) == 0 && yuvatondro_name_length(answer) == 1), "name: the last step");
  expect(call_rows(&t, steps, rows) == 0, "rows: a number of steps or edges");
  expect(call_records(steps, edges->number, 4 * edges->count, steps, rows) == 0, "records: a number of steps or edges");
  answer = call_chart(&t, steps, steps, rows, order);
  expect(yuvatondro_refusal(answer) == 0 && yuvatondro_points(answer) == steps, "chart: its points");
  expect(yuvatondro_total(answer) == edges->count && yuvatondro_crossings(answer) == 0, "chart: its total and crossings");
  expect(call_xs(&t, steps, order) == (uint64_t)steps << 8, "xs: its points");
  for (size_t i = 0; i < steps; i++) expect(order[i] == (edges->count > 0 ? 0 : i), "xs: a step alone in its row, or all in one");
  expect(yuvatondro_stroke_case(call_stroke(&t, 1).answer) == (edges->count > 0 ? YUVATONDRO_LINE : YUVATONDRO_NO_STROKE), "strokes: a line");
  expect(call_stroke(&t, 2).answer == YUVATONDRO_NO_STROKE, "strokes: one line, however many edges");
  expect(call_row_order(&t, 1, 1, 1, order) == (edges->count > 0 ? 1 << 8 : 17), "row order: a step alone in its row, or no second row");
  test_writer("write", call_write, &t, &t);
  test_writer("convert", call_convert, &t, &t);
}

/* Steps without edges, of every number that there may be; and one more. */
static void test_steps(void) {
  const Edges none = {{0}, 0, {0}};
  uint16_t rows[ROWS];
  size_t steps = 0;
  for (; steps <= YUVATONDRO_MAX_STEPS; steps++) expect_taken(steps, &none);
  Table t = write_edges(steps, &none);
  expect_refused(&t, 4, "one step too many");
  expect(call_records(steps, NULL, 0, 0, rows) == 4 && call_records(steps, NULL, 0, ROWS, rows) == 4, "records: one step too many");
}

/* Edges between two steps, of every number that there may be; and one more. They are counted one by one, though they are drawn as one
 * line. */
static void test_edges(void) {
  Edges edges = {{0}, 0, {0}};
  uint16_t rows[ROWS];
  for (; edges.count <= YUVATONDRO_MAX_EDGES; add_edge(&edges, 0, 1, 1, 1)) expect_taken(2, &edges);
  Table t = write_edges(2, &edges);
  size_t numbers = 4 * edges.count;
  expect_refused(&t, 8, "one edge too many");
  expect(call_records(2, edges.number, numbers, 0, rows) == 8, "records: one edge too many, before a short buffer");
  expect(call_records(2, edges.number, numbers, 2, rows) == 8, "records: one edge too many");
  expect(call_records(2, edges.number, numbers - 1, 2, rows) == 0, "records: one edge too many, but for a number");
  expect(call_records(YUVATONDRO_MAX_STEPS + 1, edges.number, numbers, 2, rows) == 4, "records: steps are counted before edges");
  edges.number[0] = 1;
  expect(call_records(2, edges.number, numbers, 2, rows) == 8, "records: edges are counted before they are judged");
}

/* In long forms, which only a stored table may have. */
static void test_stored_counts(void) {
  uint8_t out[YUVATONDRO_MAX_SHORTEST];
  Table t = {{1}, 1};
  put_number(&t, YUVATONDRO_MAX_STEPS, 1);
  expect(yuvatondro_counts(t.byte, t.len) == 2 && call_convert(&t, 0, out) == 1, "the most steps in three bytes");
  t.len = 1;
  put_number(&t, YUVATONDRO_MAX_STEPS + 1, 1);
  expect(yuvatondro_counts(t.byte, t.len) == 2 && call_convert(&t, 0, out) == 4, "one step too many in three bytes");
  t = read_hex("01 00");
  put_number(&t, YUVATONDRO_MAX_EDGES, 1);
  expect(yuvatondro_counts(t.byte, t.len) == 2 && call_convert(&t, 0, out) == 1, "the most edges in three bytes");
  t.len = 2;
  put_number(&t, YUVATONDRO_MAX_EDGES + 1, 1);
  expect(yuvatondro_counts(t.byte, t.len) == 2 && call_convert(&t, 0, out) == 8, "one edge too many in three bytes");
}

void test_counts(void) {
  test_steps();
  test_edges();
  test_stored_counts();
}
