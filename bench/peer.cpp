// The dual of the row problem: a flow whose balance is that of the weights and whose sum of flow times gap is greatest.
// LEMON's supply is outflow minus inflow, its cost is to be least, so cost = -gap; arcs have no upper bound.
// int holds every flow: none is above the sum of all weights. Of an instance that is 288 * 255; of the network for x at most 16 times the
// weight of each line for each of its segments, and no line has more than 127, so 16 * 127 * 288 * 255, below 2^28.
#include "peer.h"
#include <lemon/network_simplex.h>
#include <lemon/smart_graph.h>
#include <vector>

using Graph = lemon::SmartDigraph;
using Simplex = lemon::NetworkSimplex<Graph, int, int>;

int peer_is_here() { return 1; }

// In a function of its own, so that its instructions can be counted apart (bench/instructions).
extern "C" __attribute__((noinline)) bool run_peer(void *simplex) {
  return static_cast<Simplex *>(simplex)->run() == Simplex::OPTIMAL;
}
int solve_by_peer(Network network, PeerAnswer *answer) {
  double start = now_us();
  Graph graph;
  Graph::ArcMap<int> cost(graph);
  Graph::NodeMap<int> supply(graph);
  std::vector<Graph::Node> node;
  std::vector<Graph::Arc> arc;
  for (size_t v = 0; v < network.nodes; v++) node.push_back(graph.addNode());
  for (size_t i = 0; i < network.edges; i++) {
    const Edge &e = network.edge[i];
    arc.push_back(graph.addArc(node[e.from], node[e.to]));
    cost[arc[i]] = -static_cast<int>(e.gap);
    supply[node[e.from]] += e.weight;
    supply[node[e.to]] -= e.weight;
  }
  Simplex simplex(graph);
  simplex.costMap(cost).supplyMap(supply);
  double built = now_us();
  bool optimal = run_peer(&simplex);
  double done = now_us();
  if (!optimal) return 0;
  answer->build_us = built - start;
  answer->run_us = done - built;
  answer->total = -simplex.totalCost<long>();
  for (size_t i = 0; i < network.edges; i++) answer->flow[i] = simplex.flow(arc[i]);
  return 1;
}
