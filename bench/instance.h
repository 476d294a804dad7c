// Instances of the row problem, as large as a table may be, and where they come from.
#ifndef INSTANCE_H
#define INSTANCE_H
#include "yuvatondro.h"
#ifdef __cplusplus
extern "C" {
#endif

enum { MAX_NAME = 64 };

typedef struct { unsigned from, to, gap, weight; } Edge;

typedef struct {
  char name[MAX_NAME];
  size_t nodes, edges;
  Edge edge[YUVATONDRO_MAX_EDGES];
} Instance;

// What the row problem needs of an instance; or of a network that is larger than a table may be, as the one for x is.
typedef struct { size_t nodes, edges; const Edge *edge; } Network;
static inline Network network_of(const Instance *inst) {
  Network network = { inst->nodes, inst->edges, inst->edge };
  return network;
}

// shapes.c: instances by shape, size and seed; the same arguments always give the same instance.
size_t shape_count(void);
void make_shape(Instance *inst, size_t shape, size_t nodes, size_t edges, uint64_t seed);

// Writes each edge of an instance so many times, each time with a gap and a weight of its own, in any order.
void repeat_edges(Instance *inst, size_t times);

// Not one of the shapes: as many edges as a table may have, two rows long, no two with the same ends, from nodes of one row to nodes of
// another, so that the row between them is as wide as a row can be. The fewer nodes a row has, the more ends each has in the wide one.
// There are no fewer pairs of such nodes than edges.
void make_wide(Instance *inst, size_t upper, size_t lower, uint64_t seed);

// Nor are these: as many nodes as a table may have, in so many layers, each node but those of the first with an edge from the layer above it;
// of the other edges so many lead over two layers and the rest over one. All gaps are 1 and no two edges have the same ends.
void make_layers(Instance *inst, size_t layers, size_t edges, size_t long_edges, uint64_t seed);

// So many nodes over so many others, with so many edges of gap 1 between them, no two with the same ends; each of the lower ones has one, so
// that all stand in the next row. There are no more edges than pairs of such nodes, and no fewer than lower ones.
void make_two_rows(Instance *inst, size_t upper, size_t lower, size_t edges, uint64_t seed);

// As many points as a chart may have, in 32 rows of 32: in all but the first and the last row 31 dummies of lines between those two, and a
// point of a chain, which holds the last row down by an edge to each of its nodes. A line ends at any of them.
void make_tall(Instance *inst, uint64_t seed);

// A number below k, from the sequence that the last instance was made from.
size_t random_below(size_t k);

// stored.c: an instance from a text file: nodes and edges, then from, to, gap and weight of each edge. 0 where the file is not one.
int read_instance(Instance *inst, const char *path);

#ifdef __cplusplus
}
#endif
#endif
