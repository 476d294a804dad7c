/* Tables that were stored when a number could have a last byte 00 behind others. */
#include "chart.h"

int convert_stored(const uint8_t *table, size_t table_len, uint8_t *shortest, size_t *shortest_len) {
  if (yuvatondro_refusal(yuvatondro_counts(table, table_len)) != YUVATONDRO_OVERLONG) return 0;
  uint64_t answer = yuvatondro_convert(table, table_len, shortest, YUVATONDRO_MAX_SHORTEST);
  if (yuvatondro_refusal(answer) != YUVATONDRO_DONE) return 0;
  *shortest_len = yuvatondro_written(answer);
  return 1;
}
