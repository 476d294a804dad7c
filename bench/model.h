// The method of the library, counted.
#ifndef MODEL_H
#define MODEL_H
#include <stdint.h>

typedef struct { uint64_t pushes, raises; } Work;

// Solves a table of the benchmark and tells how often it pushed flow and raised rows.
Work solve_by_model(const uint8_t *table, uint16_t *rows);
#endif
