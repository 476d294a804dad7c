// The only place that knows how the strokes of a chart are asked for. It is apart from xs_call.c so that a program can be linked to a library
// that does not have this call.
#ifndef STROKES_CALL_H
#define STROKES_CALL_H
#include "yuvatondro.h"

typedef struct { unsigned what; float x, y; } Stroke;  // none, a move or a line, as the header numbers them

// The stroke of a table's chart at an index; 0, or the number of the refusal.
unsigned call_stroke(const uint8_t *table, size_t length, size_t index, Stroke *stroke);

// All of them, to as many entries as are always enough; how many there are. Each takes a call, and one more says that there are no others. A
// refused table has none.
size_t call_strokes(const uint8_t *table, size_t length, Stroke *strokes);
#endif
