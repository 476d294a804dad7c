/* The call that writes the shortest form of a stored table, in which numbers may stand in long forms. */
#include "calls.h"

/* Stored tables with long forms, with their shortest form. */
static const struct {
  const char *table, *shortest;
} stored[] = {
    /* the sample in edition 2, with every number in two bytes or three */
    {"82 80 00 84 00 82 00 9E 80 00 84 00 77 61 72 6D 80 00 84 80 00 6C 6F 63 6B 80 80 00 85 00 73 77 65 65 70 "
     "81 00 B2 80 00 85 00 6C 65 76 65 6C 84 80 00 80 00 81 80 00 81 00 81 00 80 00 81 00 82 00 82 80 00 83 00 80 80 00 "
     "80 80 00 83 00 81 00 81 80 00 80 00 83 00 82 00 81 80 00 85 00 80 80 00",
     SAMPLE},
    /* the only soft edge is the last, and is turned; 127 in one byte and 128 in two, as tolerance or minutes and as weight */
    {"82 00 02 81 00 FF 00 01 41 02 80 81 00 02 42 43 82 80 00 00 01 01 FF 00 80 00 01 80 00 84 00 80 81 00 81 00",
     "02 02 01 7F 01 41 02 80 01 02 42 43 02 00 01 01 7F 00 01 00 04 80 01 01"},
    {"81 00 00 00", "01 00 00"},
    {"82 80 00 80 00 80 80 00", "01 00 00"},
    {"01 01 01 8F CE 00 90 80 00 61 62 63 64 65 66 67 68 69 6A 6B 6C 6D 6E 6F 70 00",
     "01 01 01 8F 4E 10 61 62 63 64 65 66 67 68 69 6A 6B 6C 6D 6E 6F 70 00"},
    /* tolerances 0 and 128, 127 minutes, two equal edges of weight 0 */
    {"02 04 81 00 80 00 01 41 01 80 81 00 01 41 02 FF 80 00 01 41 02 01 01 41 02 00 01 01 80 00 00 00 01 01 80 80 00 80 00",
     "01 04 01 00 01 41 01 80 01 01 41 02 7F 01 41 02 01 01 41 02 00 01 01 00 00 01 01 00"},
    /* must edges that form a loop, alone and beside a soft edge; only the last number is in a long form, or one in the middle */
    {"02 02 00 01 41 00 01 42 02 00 01 01 01 00 01 00 01 01 80 00", "01 02 00 01 41 00 01 42 02 00 01 01 01 01 00 01 01"},
    {"02 03 00 01 41 00 01 42 00 01 43 03 00 01 01 01 81 00 01 02 01 01 00 02 01 01 01 00",
     "02 03 00 01 41 00 01 42 00 01 43 03 00 01 01 01 01 01 02 01 01 00 02 01 01 01 00"},
};
enum { STORED = sizeof stored / sizeof *stored };

/* Every other call refuses the table by 2, and none of them, nor this one, what it is converted to. */
static void test_only_here(const Table *t, const Table *shortest) {
  uint8_t out[YUVATONDRO_MAX_STORED];
  uint16_t rows[ROWS], order[POINTS];
  expect(yuvatondro_counts(t->byte, t->len) == 2 && yuvatondro_name(t->byte, t->len, 0) == 2, "stored: counts and name");
  expect(call_rows(t, ROWS, rows) == 2 && call_chart(t, ROWS, POINTS, rows, order) == 2, "stored: rows and chart");
  expect(call_write(t, YUVATONDRO_MAX_STORED, out) == 2, "stored: write");
  expect(yuvatondro_refusal(yuvatondro_counts(shortest->byte, shortest->len)) == 0, "converted: counts");
  expect(wrote(call_write(shortest, shortest->len, out), out, shortest), "converted: write");
  test_writer("converted again", call_convert, shortest, shortest);
}

static void test_stored(void) {
  for (size_t i = 0; i < STORED; i++) {
    Table t = read_hex(stored[i].table), shortest = read_hex(stored[i].shortest);
    test_writer("convert", call_convert, &t, &shortest);
    expect(yuvatondro_convert(t.byte, t.len, NULL, 0) == 13, "convert: no buffer");
    test_only_here(&t, &shortest);
  }
}

/* Of a table without long forms it writes what the other call writes. */
static void test_short(void) {
  for (size_t i = 0; i < WRITTEN; i++) {
    Table t = read_hex(written[i].table), shortest = read_hex(written[i].shortest);
    test_writer("convert", call_convert, &t, &shortest);
  }
}

static void test_refused(void) {
  uint8_t out[YUVATONDRO_MAX_STORED];
  for (size_t i = 0; i < REFUSED; i++) {
    Table t = read_hex(refused[i].table);
    unsigned due = refused[i].stored;
    expect(yuvatondro_refusal(call_convert(&t, 100, out)) == due, "convert: a refusal of the reader, or none");
    expect(call_convert(&t, 0, out) == (due == 0 ? 13 : due), "convert: a refusal of the reader before a short buffer");
  }
  expect(yuvatondro_convert(NULL, 0, NULL, 0) == 1, "convert: no table and no buffer");
}

static void test_longest(void) {
  uint8_t out[YUVATONDRO_MAX_STORED];
  Table t = write_largest(1), shortest = write_largest(0);
  expect(t.len == YUVATONDRO_MAX_STORED && shortest.len == YUVATONDRO_MAX_SHORTEST, "longest stored: lengths");
  test_writer("convert", call_convert, &t, &shortest);
  test_only_here(&t, &shortest);
  t.byte[t.len++] = 0;
  expect(call_convert(&t, 0, out) == 10 && call_convert(&t, YUVATONDRO_MAX_STORED, out) == 10, "longest stored: a spare byte");
}

void test_convert_call(void) {
  test_stored();
  test_short();
  test_refused();
  test_longest();
}
