// The two builds that bench/before links: the adapters rows_call.c, chart_call.c and, where both have the calls that write tables,
// write_call.c, where both have the call for x, xs_call.c, and where both have the one for strokes, strokes_call.c, under a name for each
// build.
#ifndef BUILDS_H
#define BUILDS_H
#include "chart_call.h"
#include "rows_call.h"
#include "strokes_call.h"

unsigned before_call_rows(const uint8_t *table, size_t length, uint16_t *rows, size_t nodes);
unsigned before_call_records(size_t nodes, const size_t *numbers, size_t count, uint16_t *rows);
size_t before_call_name(const uint8_t *table, size_t length, size_t step);
void before_call_chart(const uint8_t *table, size_t length, ChartAnswer *answer);
void before_cut_to_accepted(Instance *inst);
unsigned now_call_rows(const uint8_t *table, size_t length, uint16_t *rows, size_t nodes);
unsigned now_call_records(size_t nodes, const size_t *numbers, size_t count, uint16_t *rows);
size_t now_call_name(const uint8_t *table, size_t length, size_t step);
void now_call_chart(const uint8_t *table, size_t length, ChartAnswer *answer);

size_t now_write_table(const Instance *inst, uint8_t *table);
size_t now_write_form(const Instance *inst, Form form, uint8_t *table);

unsigned before_call_counts(const uint8_t *table, size_t length);
unsigned now_call_counts(const uint8_t *table, size_t length);
size_t before_call_write(const uint8_t *table, size_t length, uint8_t *out);
size_t now_call_write(const uint8_t *table, size_t length, uint8_t *out);
size_t before_call_convert(const uint8_t *table, size_t length, uint8_t *out);
size_t now_call_convert(const uint8_t *table, size_t length, uint8_t *out);

unsigned before_call_xs(const uint8_t *table, size_t length, uint16_t *xs);
void before_cut_to_xs(Instance *inst);
unsigned now_call_xs(const uint8_t *table, size_t length, uint16_t *xs);

unsigned before_call_stroke(const uint8_t *table, size_t length, size_t index, Stroke *stroke);
unsigned now_call_stroke(const uint8_t *table, size_t length, size_t index, Stroke *stroke);
#endif
