// The only place that knows how our library is called.
#ifndef ROWS_CALL_H
#define ROWS_CALL_H
#include "instance.h"

// How an instance is written as a table: the edition, in edition 2 the firmness of all edges, and the least number of bytes for a number.
// Its steps are checks with names of one byte, or full steps: adjustments with the largest tolerance and the longest name.
enum { MUST, SOFT };
typedef struct { unsigned edition, firmness, full_steps; int width; } Form;
size_t write_form(const Instance *inst, Form form, uint8_t *table);

// The shortest table of an instance, in edition 1, and in edition 2 with one firmness for all edges; the answer is its length in bytes.
size_t write_table(const Instance *inst, uint8_t *table);
size_t write_edition_2(const Instance *inst, unsigned firmness, uint8_t *table);

// Rows of a table; 0, or the number of the refusal.
unsigned call_rows(const uint8_t *table, size_t length, uint16_t *rows, size_t nodes);

// The same of edges that are lent as numbers, four to an edge.
unsigned call_records(size_t nodes, const size_t *numbers, size_t count, uint16_t *rows);

// The start of a step's name in a table; 0 where it is refused, since no name starts there.
size_t call_name(const uint8_t *table, size_t length, size_t step);
#endif
