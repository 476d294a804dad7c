// The peer: graphviz's dot, in process.
#ifndef GRAPHVIZ_H
#define GRAPHVIZ_H
#include "clock.h"
#include "drawing.h"

// How much of dot's work is asked for.
enum { ORDER_ONLY, NO_CURVES, AS_IT_COMES, SETTINGS };

typedef struct { double layout_us, apart_us; } DotTimes;  // gvLayout alone; making and freeing the graph and its layout

// 1 where dot laid the instance out. The drawing is filled where it is not null.
int draw_by_dot(const Instance *inst, int setting, DotTimes *times, Drawing *d);

const char *dot_version(void);
#endif
