// The best order of a row by its definition, in plain C, to check the answers of the call by.
#ifndef ROW_SEARCH_H
#define ROW_SEARCH_H
#include "chart_call.h"
#include "orders_call.h"

// A row as the chart has it: its points from left to right, and for each two of them, by their positions, how often their segments from the
// row above cross with the first left of the second.
typedef struct {
  long points, segments;
  uint16_t point[YUVATONDRO_MAX_ROW_POINTS];
  long between[YUVATONDRO_MAX_ROW_POINTS][YUVATONDRO_MAX_ROW_POINTS];
} ChartRow;

// A row of an accepted chart of an instance's lines (merged.h); 0 where the order is no order of its points, or the row is not there or has
// more points than are looked at.
int find_chart_row(const Instance *merged, const ChartAnswer *chart, size_t number, ChartRow *row);

// The row with most points of those that may have an order, the uppermost of such; 0 where there is none.
size_t find_widest_row(const Instance *merged, const ChartAnswer *chart);

// The answer that is due: the first with fewest crossings of the row as it is and of so many orders behind it.
void search_row(const ChartRow *row, size_t tries, OrderAnswer *due);
#endif
