/* Buffers between guards. */
#include "calls.h"

/* Bytes, or entries of 16 bits; no call is lent more than the longest stored table and a byte would take. */
enum { GUARD = 64, MEMORY = GUARD + YUVATONDRO_MAX_STORED + 1 + GUARD };
typedef struct {
  size_t bytes;
  uint16_t memory[(MEMORY + 1) / 2];
} Lent;

static void *lend(Lent *lent, size_t bytes) {
  lent->bytes = bytes;
  memset(lent->memory, FILL, sizeof lent->memory);
  return lent->memory + GUARD / 2;
}

static int is_filled(const uint8_t *start, size_t bytes) {
  while (bytes > 0 && start[bytes - 1] == FILL) bytes--;
  return bytes == 0;
}

/* Hands out what the call left in the buffer; what must stay is checked. */
static void take_back(const Lent *lent, const char *call, uint64_t answer, void *content) {
  const uint8_t *before = (const uint8_t *)lent->memory, *start = before + GUARD;
  expect_of(call, is_filled(before, GUARD) && is_filled(start + lent->bytes, GUARD), "a guard byte changed");
  if (yuvatondro_refusal(answer) != YUVATONDRO_DONE) expect_of(call, is_filled(start, lent->bytes), "a refused call changed a buffer");
  memcpy(content, start, lent->bytes);
}

int same_entries(const uint16_t *a, const uint16_t *b, size_t entries) { return memcmp(a, b, entries * sizeof *a) == 0; }

uint64_t call_rows(const Table *t, size_t room, uint16_t *rows) {
  Lent lent;
  uint64_t answer = yuvatondro_rows(t->byte, t->len, lend(&lent, room * sizeof *rows), room);
  take_back(&lent, "rows", answer, rows);
  return answer;
}

uint64_t call_records(size_t steps, const size_t *records, size_t numbers, size_t room, uint16_t *rows) {
  Lent lent;
  uint64_t answer = yuvatondro_records(steps, records, numbers, lend(&lent, room * sizeof *rows), room);
  take_back(&lent, "records", answer, rows);
  return answer;
}

uint64_t call_write(const Table *t, size_t room, uint8_t *out) {
  Lent lent;
  uint64_t answer = yuvatondro_write(t->byte, t->len, lend(&lent, room), room);
  take_back(&lent, "write", answer, out);
  return answer;
}

uint64_t call_convert(const Table *t, size_t room, uint8_t *out) {
  Lent lent;
  uint64_t answer = yuvatondro_convert(t->byte, t->len, lend(&lent, room), room);
  take_back(&lent, "convert", answer, out);
  return answer;
}

uint64_t call_chart(const Table *t, size_t room, size_t points, uint16_t *rows, uint16_t *order) {
  Lent for_rows, for_order;
  uint16_t *lent_rows = lend(&for_rows, room * sizeof *rows), *lent_order = lend(&for_order, points * sizeof *order);
  uint64_t answer = yuvatondro_chart(t->byte, t->len, lent_rows, room, lent_order, points);
  take_back(&for_rows, "chart, rows", answer, rows);
  take_back(&for_order, "chart, order", answer, order);
  return answer;
}

uint64_t call_xs(const Table *t, size_t room, uint16_t *xs) {
  Lent lent;
  uint64_t answer = yuvatondro_xs(t->byte, t->len, lend(&lent, room * sizeof *xs), room);
  take_back(&lent, "xs", answer, xs);
  return answer;
}

uint64_t call_row_order(const Table *t, size_t row, size_t tries, size_t room, uint16_t *order) {
  Lent lent;
  uint64_t answer = yuvatondro_row_order(t->byte, t->len, row, tries, lend(&lent, room * sizeof *order), room);
  take_back(&lent, "row order", answer, order);
  return answer;
}
