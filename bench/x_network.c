#include "x_network.h"
#include "check.h"
#include <string.h>

Network network_of_x(const XNetwork *x) {
  Network network = { x->points + x->segments, x->neighbours + 2 * x->segments, x->edge };
  return network;
}

// Dummies follow the nodes, by line and rising row; segments go the same way.
typedef struct { size_t upper, lower; unsigned weight; } Segment;
typedef struct { int row[YUVATONDRO_MAX_XS]; Segment segment[MAX_SEGMENTS]; size_t points, segments; } Laid;

static int lay_line(Laid *laid, const Edge *line) {
  size_t upper = line->from;
  for (int r = laid->row[line->from] + 1; r < laid->row[line->to]; r++) {
    if (laid->points == YUVATONDRO_MAX_XS) return 0;
    laid->row[laid->points] = r;
    laid->segment[laid->segments++] = (Segment){ upper, laid->points, line->weight };
    upper = laid->points++;
  }
  laid->segment[laid->segments++] = (Segment){ upper, line->to, line->weight };
  return 1;
}
static int lay_lines(Laid *laid, const Instance *merged, const ChartAnswer *a) {
  laid->points = merged->nodes;
  laid->segments = 0;
  for (size_t v = 0; v < merged->nodes; v++) laid->row[v] = a->rows[v];
  for (size_t i = 0; i < merged->edges; i++) if (!lay_line(laid, &merged->edge[i])) return 0;
  return laid->points == (size_t)a->points;
}

// 1 between two nodes, 2 with one dummy, 8 between two.
static unsigned factor_of(const Segment *s, size_t nodes) {
  static const unsigned factors[3] = { 1, 2, 8 };
  return factors[(s->upper >= nodes) + (s->lower >= nodes)];
}
int build_x_network(const Instance *merged, const ChartAnswer *a, XNetwork *x) {
  static Laid laid;
  size_t edges = 0;
  if (!lay_lines(&laid, merged, a)) return 0;
  for (size_t k = 1; k < laid.points; k++)
    if (laid.row[a->order[k - 1]] == laid.row[a->order[k]]) x->edge[edges++] = (Edge){ a->order[k - 1], a->order[k], 1, 0 };
  x->neighbours = edges;
  for (size_t i = 0; i < laid.segments; i++) {
    const Segment *s = &laid.segment[i];
    unsigned weight = s->weight * factor_of(s, merged->nodes);
    x->edge[edges++] = (Edge){ laid.points + i, s->upper, 0, weight };
    x->edge[edges++] = (Edge){ laid.points + i, s->lower, 0, weight };
  }
  x->points = laid.points;
  x->segments = laid.segments;
  return 1;
}

// With the nodes of segments these are rows of the network, which are checked as such. The lowest row of a segment's node is the lower x of
// its ends if it has a weight, and else 0, since then nothing holds it.
const char *find_x_fault(const XNetwork *x, const uint16_t *xs, const long *flow, long total) {
  uint16_t rows[MAX_X_NODES];
  memcpy(rows, xs, x->points * sizeof *rows);
  for (size_t i = 0; i < x->segments; i++) {
    const Edge *upper = &x->edge[x->neighbours + 2 * i], *lower = upper + 1;
    uint16_t least = xs[upper->to] < xs[lower->to] ? xs[upper->to] : xs[lower->to];
    rows[x->points + i] = upper->weight > 0 ? least : 0;
  }
  return find_fault(network_of_x(x), rows, flow, total);
}
