/* The lines that the edges of a table are drawn as, joined here as the library joins them; and which edges it turned, from its rows. */
#include "chart.h"

/* The line that an edge belongs to among those found so far, or their number if it is the first of a new one. */
static unsigned find_merged(const Chart *chart, const Edge *e) {
  unsigned i = 0;
  for (; i < chart->merged_edges; i++) {
    const Edge *first = &chart->edge[chart->merged[i].first];
    if (first->from == e->from && first->to == e->to && first->soft == e->soft) break;
  }
  return i;
}

/* The library joins by the same rule where it places points: by the ends and the firmness that the table has, whatever the gaps and the
 * weights are, and each line at the place of its first edge. */
void merge_edges(Chart *chart) {
  chart->merged_edges = 0;
  for (unsigned i = 0; i < chart->edges; i++) {
    const Edge *e = &chart->edge[i];
    unsigned at = find_merged(chart, e);
    MergedEdge *m = &chart->merged[at];
    if (at == chart->merged_edges) {
      *m = (MergedEdge){i, 0, 0};
      chart->merged_edges++;
    }
    if (m->gap < e->gap) m->gap = e->gap;
    m->weight += e->weight;
    chart->edge_merged[i] = at;
  }
}

/* The rows tell which soft edges were turned: every edge leads down as it was kept or turned, so a turned one starts lower than it ends. */
int is_turned(const Chart *chart, unsigned edge) { return chart->row[chart->edge[edge].from] > chart->row[chart->edge[edge].to]; }

unsigned upper_end(const Chart *chart, unsigned edge) {
  return (unsigned)(is_turned(chart, edge) ? chart->edge[edge].to : chart->edge[edge].from);
}

unsigned lower_end(const Chart *chart, unsigned edge) {
  return (unsigned)(is_turned(chart, edge) ? chart->edge[edge].from : chart->edge[edge].to);
}

unsigned length_of(const Chart *chart, unsigned edge) {
  return (unsigned)(chart->row[lower_end(chart, edge)] - chart->row[upper_end(chart, edge)]);
}
