// The tables on which the calls for x and for strokes are timed: those whose charts have many points, but few enough for x.
#ifndef X_TABLES_H
#define X_TABLES_H
#include "instance.h"
#include "sizes.h"

enum { FEWEST_POINTS = 100 };  // a chart with fewer is left out

// Up to so many tables of each kind.
enum { MAX_X_TABLES = SIZES * 32 };

// What a benchmark does with an instance, which it may have to cut (xs_call.h) or to leave out.
typedef void (*TakeInstance)(void *group, const Instance *inst);

// The shapes at all sizes; 0 where there are more than MAX_X_TABLES.
int take_x_shapes(TakeInstance take, void *group);

// As many steps and up to as many edges as a table may have, in layers, so that there are few dummies.
void take_x_layers(TakeInstance take, void *group);
#endif
