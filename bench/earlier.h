// What the earlier build of bench/before takes, hands out and draws: a library does not tell its version, so it is tried.
#ifndef EARLIER_H
#define EARLIER_H
#include "chart_call.h"

// 1 where it takes tables of so many nodes and edges.
int earlier_takes(size_t nodes, size_t edges);

// 1 where its rows are bytes, as they are up to version 1.3.
int earlier_gives_bytes(void);

// 1 where it draws edges with the same ends as one line, 0 where it draws each by itself, as up to version 1.5.
int earlier_merges(void);

// Rows that were handed out as bytes, in entries of 16 bits.
void widen_rows(ChartAnswer *answer);
#endif
