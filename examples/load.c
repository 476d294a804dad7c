/* From a file to a chart that can be drawn. */
#include <errno.h>
#include <string.h>

#include "chart.h"

/* More than YUVATONDRO_MAX_STORED, so that no table is cut; a longer file is refused for the same reason as its first 8,192 bytes. */
enum { ROOM = 8192 };

int report(const char *program, const char *path) {
  fprintf(stderr, "%s: %s: %s\n", program, path, strerror(errno));
  return TROUBLE;
}

/* Fills the buffer from a file; gives the status. */
static int read_table(const char *program, const char *path, uint8_t *table, size_t *table_len) {
  FILE *in = fopen(path, "rb");
  if (in == NULL) return report(program, path);
  *table_len = fread(table, 1, ROOM, in);
  int status = ferror(in) ? report(program, path) : 0;
  fclose(in);
  return status;
}

static uint64_t ask_stored(const char *program, Chart *chart, const uint8_t *table, size_t table_len) {
  static uint8_t shortest[YUVATONDRO_MAX_SHORTEST];
  size_t shortest_len;
  if (!convert_stored(table, table_len, shortest, &shortest_len)) return ask_chart(chart, table, table_len);
  fprintf(stderr, "%s: a stored table in long forms of numbers, converted from %zu bytes to %zu\n", program, table_len, shortest_len);
  return ask_chart(chart, shortest, shortest_len);
}

int place_chart(const char *program, Chart *chart) {
  if (place_points(chart) && place_strokes(chart)) return 0;
  fprintf(stderr, "%s: the lines that this program makes are not those of the library\n", program);
  return TROUBLE;
}

int load_chart(const char *program, const char *path, Chart *chart, uint64_t *answer) {
  static uint8_t table[ROOM];
  size_t table_len = 0;
  int status = read_table(program, path, table, &table_len);
  if (status != 0) return status;
  *answer = ask_stored(program, chart, table, table_len);
  return chart->known == ORDER ? place_chart(program, chart) : 0;
}
