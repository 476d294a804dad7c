// The only place that knows how our chart call is made and answers.
#ifndef CHART_CALL_H
#define CHART_CALL_H
#include "drawing.h"

enum { REFUSED_MANY_POINTS = 12 };

typedef struct {
  unsigned refusal;
  long points, total, crossings;
  uint16_t rows[YUVATONDRO_MAX_STEPS], order[YUVATONDRO_MAX_POINTS];
} ChartAnswer;

// The whole chart of a table.
void call_chart(const uint8_t *table, size_t length, ChartAnswer *answer);

// Takes edges off the end until the chart has few enough points; then it has about as many as a chart may have.
void cut_to_accepted(Instance *inst);

// An accepted answer as a drawing of the instance's lines (merged.h); 0 where its order is no order of its points.
int read_chart(const Instance *merged, const ChartAnswer *answer, Drawing *d);
#endif
