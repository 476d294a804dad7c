// The only place that knows how the x of a chart's points are asked for. It is apart from chart_call.c because bench/before links that file
// also to libraries that do not have this call.
#ifndef XS_CALL_H
#define XS_CALL_H
#include "instance.h"

enum { REFUSED_LARGE_CHART = 16 };

// The x of a table's points, to as many entries as are always enough; 0, or the number of the refusal.
unsigned call_xs(const uint8_t *table, size_t length, uint16_t *xs);

// Takes edges off the end until the chart has few enough points for x. A chart of no edges has.
void cut_to_xs(Instance *inst);
#endif
