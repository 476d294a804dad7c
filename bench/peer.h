// The peer: LEMON's network simplex on the dual flow problem.
#ifndef PEER_H
#define PEER_H
#include "clock.h"
#include "instance.h"
#ifdef __cplusplus
extern "C" {
#endif

// As many edges as the network for the x of a chart can have (x_network.h), which is larger than any instance.
enum { MAX_PEER_EDGES = 3 * YUVATONDRO_MAX_XS + 2 * YUVATONDRO_MAX_EDGES };

typedef struct {
  double build_us, run_us;  // making the graph, its maps and the solver object; run() alone
  long total;
  long flow[MAX_PEER_EDGES];
} PeerAnswer;

// 0 where the benchmark was built without LEMON (no_peer.c); the next call is then not made.
int peer_is_here(void);

// 1 where the peer found an optimum.
int solve_by_peer(Network network, PeerAnswer *answer);

#ifdef __cplusplus
}
#endif
#endif
