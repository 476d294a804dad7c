#include "x_tables.h"

int take_x_shapes(TakeInstance take, void *group) {
  static Instance inst;
  if (shape_count() * SEEDS * SIZES > MAX_X_TABLES) return 0;
  for (int k = 0; k < SIZES; k++)
    for (size_t shape = 0; shape < shape_count(); shape++)
      for (int seed = 1; seed <= SEEDS; seed++) {
        make_shape(&inst, shape, node_counts[k], node_counts[k] * EDGES_A_NODE, seed);
        take(group, &inst);
      }
  return 1;
}
void take_x_layers(TakeInstance take, void *group) {
  static const size_t layers[] = { 3, 4, 6, 8, 12 }, edges[] = { 100, 150, 200, 250, YUVATONDRO_MAX_EDGES };
  enum { LAYERS = sizeof layers / sizeof *layers, EDGES = sizeof edges / sizeof *edges, LONG_EDGES = 12 };
  _Static_assert(LAYERS * EDGES * SEEDS <= MAX_X_TABLES, "too many tables");
  static Instance inst;
  for (int k = 0; k < LAYERS; k++)
    for (int e = 0; e < EDGES; e++)
      for (int seed = 1; seed <= SEEDS; seed++) {
        make_layers(&inst, layers[k], edges[e], LONG_EDGES, seed);
        take(group, &inst);
      }
}
