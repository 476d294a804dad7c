// The auxiliary network of Gansner and others (1993), whose least rows are the x of a chart's points: the points, and a node for each segment
// with an edge to either end of it, of gap 0 and of the weight that the segment has for x; and an edge of gap 1 and no weight from each point
// to its right neighbour. Where all is least, the node of a segment stands at the lower of the two x, and its edges cost the weight times how
// far these differ.
#ifndef X_NETWORK_H
#define X_NETWORK_H
#include "chart_call.h"

// Of at most so many points; a line has a segment more than it has dummies.
enum { MAX_SEGMENTS = YUVATONDRO_MAX_XS + YUVATONDRO_MAX_EDGES };
enum { MAX_X_NODES = YUVATONDRO_MAX_XS + MAX_SEGMENTS, MAX_X_EDGES = YUVATONDRO_MAX_XS + 2 * MAX_SEGMENTS };

typedef struct {
  size_t points, segments, neighbours;  // its edges are those of neighbours, then two for each segment
  Edge edge[MAX_X_EDGES];
} XNetwork;

// From the lines of an instance (merged.h) and an accepted answer of at most YUVATONDRO_MAX_XS points; 0 where they do not agree.
int build_x_network(const Instance *merged, const ChartAnswer *answer, XNetwork *x);
Network network_of_x(const XNetwork *x);

// Null where these x are apart, of least sum and lowest; else what is wrong. `flow` and `total` are the peer's.
const char *find_x_fault(const XNetwork *x, const uint16_t *xs, const long *flow, long total);
#endif
