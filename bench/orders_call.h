// The only place that knows how the best order of a row is asked for. It is apart from chart_call.c so that a program can be linked to a
// library that does not have this call.
#ifndef ORDERS_CALL_H
#define ORDERS_CALL_H
#include "yuvatondro.h"

typedef struct {
  unsigned refusal;
  long points, crossings, floor;
  uint16_t order[YUVATONDRO_MAX_ROW_POINTS];
} OrderAnswer;

// The best order of a row of a table's chart, of so many tries.
void call_row_order(const uint8_t *table, size_t length, size_t row, size_t tries, OrderAnswer *answer);
#endif
