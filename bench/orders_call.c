#include "orders_call.h"

void call_row_order(const uint8_t *table, size_t length, size_t row, size_t tries, OrderAnswer *a) {
  uint64_t answer = yuvatondro_row_order(table, length, row, tries, a->order, YUVATONDRO_MAX_ROW_POINTS);
  a->refusal = yuvatondro_refusal(answer);
  a->points = yuvatondro_points(answer);
  a->crossings = yuvatondro_crossings(answer);
  a->floor = yuvatondro_floor(answer);
}
