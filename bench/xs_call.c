#include "xs_call.h"
#include "chart_call.h"
#include "rows_call.h"
#include "yuvatondro.h"

unsigned call_xs(const uint8_t *table, size_t length, uint16_t *xs) {
  return yuvatondro_refusal(yuvatondro_xs(table, length, xs, YUVATONDRO_MAX_XS));
}

void cut_to_xs(Instance *g) {
  static uint8_t table[YUVATONDRO_MAX_STORED];
  uint16_t xs[YUVATONDRO_MAX_XS];
  for (;; g->edges--) {
    unsigned refusal = call_xs(table, write_table(g, table), xs);
    if (refusal != REFUSED_MANY_POINTS && refusal != REFUSED_LARGE_CHART) return;
  }
}
