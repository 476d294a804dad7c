/* The call that writes the shortest form of a table. */
#include "calls.h"

int wrote(uint64_t answer, const uint8_t *out, const Table *due) {
  return yuvatondro_refusal(answer) == 0 && yuvatondro_written(answer) == due->len && memcmp(out, due->byte, due->len) == 0;
}

/* Buffers exact, longer, one short and empty. */
void test_writer(const char *call, Writer *writer, const Table *t, const Table *shortest) {
  uint8_t out[YUVATONDRO_MAX_STORED];
  expect_of(call, wrote(writer(t, shortest->len, out), out, shortest), "an exact buffer");
  expect_of(call, wrote(writer(t, t->len, out), out, shortest), "a buffer as long as the table");
  expect_of(call, wrote(writer(t, shortest->len + 9, out), out, shortest), "a longer buffer");
  for (size_t i = 0; i < 9; i++) expect_of(call, out[shortest->len + i] == FILL, "a byte behind the last changed");
  expect_of(call, wrote(writer(t, YUVATONDRO_MAX_SHORTEST, out), out, shortest), "a buffer for every table");
  expect_of(call, writer(t, shortest->len - 1, out) == 13, "a buffer one short");
  expect_of(call, writer(t, 0, out) == 13, "an empty buffer");
}

/* The shortest form gives what the table gives, with its rows or without, and is its own shortest form. */
static void test_same(const Table *t, const Table *shortest) {
  uint8_t out[YUVATONDRO_MAX_SHORTEST];
  uint16_t rows[2][ROWS], order[2][POINTS];
  uint64_t counts = yuvatondro_counts(t->byte, t->len);
  expect(yuvatondro_counts(shortest->byte, shortest->len) == counts, "written: counts");
  for (size_t i = 0; i < yuvatondro_steps(counts); i++) {
    uint64_t name = yuvatondro_name(t->byte, t->len, i), same = yuvatondro_name(shortest->byte, shortest->len, i);
    size_t length = yuvatondro_name_length(name);
    expect(yuvatondro_name_length(same) == length, "written: the length of a name");
    expect(memcmp(t->byte + yuvatondro_name_start(name), shortest->byte + yuvatondro_name_start(same), length) == 0, "written: a name");
  }
  expect(call_rows(t, ROWS, rows[0]) == call_rows(shortest, ROWS, rows[1]), "written: the answer of rows");
  expect(same_entries(rows[0], rows[1], ROWS), "written: rows");
  uint64_t chart = call_chart(t, ROWS, POINTS, rows[0], order[0]);
  expect(call_chart(shortest, ROWS, POINTS, rows[1], order[1]) == chart, "written: the answer of chart");
  expect(same_entries(rows[0], rows[1], ROWS) && same_entries(order[0], order[1], POINTS), "written: rows and order");
  expect(call_xs(t, POINTS, order[0]) == call_xs(shortest, POINTS, order[1]), "written: the answer of xs");
  expect(same_entries(order[0], order[1], POINTS), "written: xs");
  for (size_t i = 0; i < 4; i++) expect(same_stroke(call_stroke(t, i), call_stroke(shortest, i)), "written: a stroke");
  for (size_t i = 0; i < 4; i++) {
    uint64_t best = call_row_order(t, i, 5, POINTS, order[0]);
    expect(call_row_order(shortest, i, 5, POINTS, order[1]) == best, "written: the answer of row order");
    expect(same_entries(order[0], order[1], POINTS), "written: the order of a row");
  }
  expect(wrote(call_write(shortest, shortest->len, out), out, shortest), "written again");
}

static void test_written(void) {
  uint16_t rows[ROWS];
  for (size_t i = 0; i < WRITTEN; i++) {
    Table t = read_hex(written[i].table), shortest = read_hex(written[i].shortest);
    expect(yuvatondro_refusal(call_rows(&t, ROWS, rows)) == written[i].rows, "write: what the rows call makes of the table");
    test_writer("write", call_write, &t, &shortest);
    expect(yuvatondro_write(t.byte, t.len, NULL, 0) == 13, "write: no buffer");
    test_same(&t, &shortest);
  }
}

static void test_refused(void) {
  uint8_t out[YUVATONDRO_MAX_STORED];
  for (size_t i = 0; i < REFUSED; i++) {
    Table t = read_hex(refused[i].table);
    expect(call_write(&t, 0, out) == refused[i].refusal, "write: a refusal of the reader before a short buffer");
    expect(call_write(&t, 100, out) == refused[i].refusal, "write: a refusal of the reader");
    expect(yuvatondro_write(t.byte, t.len, NULL, 0) == refused[i].refusal, "write: a refusal of the reader and no buffer");
  }
  expect(yuvatondro_write(NULL, 0, NULL, 0) == 1, "write: no table and no buffer");
}

/* The longest table is its own shortest form. */
static void test_largest(void) {
  uint8_t out[YUVATONDRO_MAX_STORED];
  Table t = write_largest(0);
  expect(t.len == YUVATONDRO_MAX_SHORTEST, "largest: its length");
  test_writer("write", call_write, &t, &t);
  test_same(&t, &t);
  t.byte[t.len++] = 0;
  expect(call_write(&t, 0, out) == 10 && call_write(&t, YUVATONDRO_MAX_STORED, out) == 10, "largest: a spare byte");
  t = write_largest(1);
  expect(call_write(&t, YUVATONDRO_MAX_STORED, out) == 2, "largest: in long forms");
}

void test_write_call(void) {
  test_written();
  test_refused();
  test_largest();
}
