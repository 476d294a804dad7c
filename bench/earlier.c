#include "earlier.h"
#include "builds.h"
#include <string.h>

typedef void (*Call)(const uint8_t *table, size_t length, ChartAnswer *answer);

static void find_rows(const uint8_t *table, size_t length, ChartAnswer *answer) {
  answer->refusal = before_call_rows(table, length, answer->rows, YUVATONDRO_MAX_STEPS);
}
// A call on a table of so many nodes, with so many edges of a gap from the first of them to the second.
static const ChartAnswer *try_earlier(Call call, size_t nodes, size_t edges, unsigned gap) {
  static Instance inst;
  static uint8_t table[YUVATONDRO_MAX_STORED];
  static ChartAnswer answer;
  inst.nodes = nodes;
  inst.edges = edges;
  for (size_t i = 0; i < edges; i++) inst.edge[i] = (Edge){ .from = 0, .to = 1, .gap = gap, .weight = 1 };
  memset(&answer, 255, sizeof answer);
  call(table, now_write_table(&inst, table), &answer);
  return &answer;
}
int earlier_takes(size_t nodes, size_t edges) { return try_earlier(find_rows, nodes, edges, 1)->refusal == 0; }

// The rows of two nodes are one entry where they are bytes, and the next keeps its content.
int earlier_gives_bytes(void) {
  const ChartAnswer *answer = try_earlier(find_rows, 2, 1, 1);
  return answer->refusal == 0 && answer->rows[1] == UINT16_MAX;
}
// Two nodes and the one dummy of their line.
int earlier_merges(void) { return try_earlier(before_call_chart, 2, 2, 2)->points == 3; }

// What no call wrote is all ones in either width, and no row that fits a byte is: those of the tables that such a build takes are below it.
void widen_rows(ChartAnswer *answer) {
  uint8_t bytes[YUVATONDRO_MAX_STEPS];
  memcpy(bytes, answer->rows, sizeof bytes);
  for (size_t v = 0; v < YUVATONDRO_MAX_STEPS; v++) answer->rows[v] = bytes[v] == UINT8_MAX ? UINT16_MAX : bytes[v];
}
