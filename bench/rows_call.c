#include "rows_call.h"
#include "yuvatondro.h"
#include <string.h>

enum { LARGEST_TOLERANCE = 9999, LONGEST_NAME = 16 };

static uint8_t *write_number(uint8_t *out, unsigned k, int width) {
  for (; k >= 128 || width > 1; k >>= 7, width--) *out++ = 128 | (k & 127);
  *out++ = k;
  return out;
}
static uint8_t *write_step(uint8_t *out, Form form) {
  size_t name = form.full_steps ? LONGEST_NAME : 1;
  out = write_number(out, form.full_steps, form.width);
  if (form.full_steps) out = write_number(out, LARGEST_TOLERANCE, form.width);
  out = write_number(out, name, form.width);
  memset(out, 'a', name);
  return out + name;
}
static uint8_t *write_edge(uint8_t *out, const Edge *e, Form form) {
  out = write_number(out, e->from, form.width);
  out = write_number(out, e->to, form.width);
  out = write_number(out, e->gap, form.width);
  out = write_number(out, e->weight, form.width);
  return form.edition == 2 ? write_number(out, form.firmness, form.width) : out;
}
size_t write_form(const Instance *g, Form form, uint8_t *table) {
  uint8_t *out = write_number(table, form.edition, form.width);
  out = write_number(out, g->nodes, form.width);
  for (size_t v = 0; v < g->nodes; v++) out = write_step(out, form);
  out = write_number(out, g->edges, form.width);
  for (size_t i = 0; i < g->edges; i++) out = write_edge(out, &g->edge[i], form);
  return out - table;
}
size_t write_table(const Instance *g, uint8_t *table) { return write_form(g, (Form){ 1, MUST, 0, 1 }, table); }
size_t write_edition_2(const Instance *g, unsigned firmness, uint8_t *table) {
  return write_form(g, (Form){ 2, firmness, 0, 1 }, table);
}
unsigned call_rows(const uint8_t *table, size_t length, uint16_t *rows, size_t nodes) {
  return yuvatondro_refusal(yuvatondro_rows(table, length, rows, nodes));
}
unsigned call_records(size_t nodes, const size_t *numbers, size_t count, uint16_t *rows) {
  return yuvatondro_refusal(yuvatondro_records(nodes, numbers, count, rows, nodes));
}
size_t call_name(const uint8_t *table, size_t length, size_t step) {
  uint64_t answer = yuvatondro_name(table, length, step);
  return yuvatondro_refusal(answer) == 0 ? yuvatondro_name_start(answer) : 0;
}
