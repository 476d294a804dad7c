/* The calls that read a table and tell of it, and those that give rows. */
#include "calls.h"

static void test_reader(void) {
  Table t = read_hex(SAMPLE);
  uint64_t counts = yuvatondro_counts(t.byte, t.len);
  expect(yuvatondro_refusal(counts) == 0 && yuvatondro_steps(counts) == 4 && yuvatondro_edges(counts) == 4, "counts of the sample");
  const char *const names[] = {"warm", "lock", "sweep", "level"};
  for (size_t i = 0; i < 4; i++) {
    uint64_t name = yuvatondro_name(t.byte, t.len, i);
    expect(yuvatondro_refusal(name) == 0 && yuvatondro_name_length(name) == strlen(names[i]), "length of a name");
    expect(memcmp(t.byte + yuvatondro_name_start(name), names[i], strlen(names[i])) == 0, "bytes of a name");
  }
  expect(yuvatondro_name(t.byte, t.len, 4) == 14, "the name of a step that is not there");
  expect(yuvatondro_name(t.byte, t.len, SIZE_MAX) == 14, "the name of the largest step number");
  expect(yuvatondro_counts(NULL, 0) == 1, "counts of no bytes");
  for (size_t i = 0; i < REFUSED; i++) {
    uint16_t rows[ROWS];
    t = read_hex(refused[i].table);
    expect(yuvatondro_counts(t.byte, t.len) == refused[i].refusal, "counts: a refusal");
    expect(yuvatondro_name(t.byte, t.len, 0) == refused[i].refusal, "name: a refusal");
    expect(call_rows(&t, 0, rows) == refused[i].refusal, "rows: a refusal of the reader");
  }
}

static void test_rows(void) {
  uint16_t rows[ROWS];
  Table t = read_hex(SAMPLE);
  expect(call_rows(&t, 4, rows) == 0 && same_entries(rows, sample_rows, 4), "rows of the sample in an exact buffer");
  expect(call_rows(&t, 9, rows) == 0 && same_entries(rows, sample_rows, 4), "rows of the sample in a longer buffer");
  for (size_t i = 4; i < 9; i++) expect(rows[i] == FILL16, "rows: an entry behind the last step changed");
  expect(call_rows(&t, 3, rows) == 13, "a buffer one short");
  expect(call_rows(&t, 0, rows) == 13, "no buffer");
  t = read_hex("01 00 00");
  expect(call_rows(&t, 0, rows) == 0 && call_rows(&t, 1, rows) == 0 && rows[0] == FILL16, "a table of no steps");
  expect(yuvatondro_rows(t.byte, t.len, NULL, 0) == 0, "a table of no steps and no buffer");
  /* a loop of steps 1 and 2, reached from step 0; it comes before the short buffer */
  t = read_hex("01 03 00 01 41 00 01 42 00 01 43 03 00 01 01 01 01 02 01 01 02 01 01 01");
  uint64_t answer = call_rows(&t, 0, rows);
  expect(yuvatondro_refusal(answer) == 11 && yuvatondro_loop_step(answer) == 1, "a loop with its lowest step");
  t = read_hex("01 02 00 01 41 00 01 42 02 00 01 01 01 01 00 01 01");
  expect(call_rows(&t, 2, rows) == 11, "a loop through step 0");
}

static void test_records(void) {
  uint16_t rows[ROWS];
  const size_t edges[16] = {0, 1, 1, 1, 1, 2, 2, 3, 0, 3, 1, 1, 3, 2, 1, 5};
  expect(call_records(4, edges, 16, 4, rows) == 0 && same_entries(rows, sample_rows, 4), "records: the sample");
  expect(call_records(4, edges, 19 - 3, 5, rows) == 0 && rows[4] == FILL16, "records: an entry behind the last step changed");
  expect(call_records(4, edges, 15, 4, rows) == 0 && rows[3] == 1, "records: three numbers left over are no edge");
  expect(call_records(4, edges, 16, 3, rows) == 13, "records: a buffer one short");
  expect(call_records(SIZE_MAX, NULL, 0, ROWS, rows) == 4, "records: the largest step count");
  expect(call_records(0, NULL, 0, 0, rows) == 0 && yuvatondro_records(0, NULL, 0, NULL, 0) == 0, "records: nothing");
  const size_t itself[4] = {0, 0, 1, 1};
  expect(call_records(4, itself, 4, 4, rows) == 9, "records: an edge from a step to itself");
  const size_t both[4] = {4, 1, 0, 256}, gap[4] = {0, 1, 5, 1}, weight[4] = {0, 1, 4, 256}, most[4] = {0, 1, 4, 255};
  expect(call_records(4, both, 4, 4, rows) == 9, "records: the ends before the gap");
  expect(call_records(4, gap, 4, 4, rows) == 6, "records: a gap of 5");
  expect(call_records(4, weight, 4, 4, rows) == 6, "records: a weight of 256");
  expect(call_records(4, most, 4, 4, rows) == 0 && rows[1] == 4, "records: gap 4 and weight 255");
  const size_t order[8] = {0, 1, 5, 1, 4, 1, 1, 1};
  expect(call_records(4, order, 8, 4, rows) == 6, "records: the first edge at fault decides");
  const size_t loop[12] = {0, 1, 1, 1, 1, 2, 1, 1, 2, 1, 1, 1};
  uint64_t answer = call_records(3, loop, 12, 0, rows);
  expect(yuvatondro_refusal(answer) == 11 && yuvatondro_loop_step(answer) == 1, "records: a loop with its lowest step");
}

void test_rows_calls(void) {
  test_reader();
  test_rows();
  test_records();
}
