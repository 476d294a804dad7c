// The only place that knows how the shortest form of a table is asked for. It is apart from rows_call.c because bench/before links that
// file also to libraries that do not have these calls.
#ifndef WRITE_CALL_H
#define WRITE_CALL_H
#include <stddef.h>
#include <stdint.h>

// Reads a table and does nothing else but count; 0, or the number of the refusal.
unsigned call_counts(const uint8_t *table, size_t length);

// Writes the shortest form of a table to a buffer that is as long as the table; its length, or 0 where the table is refused.
size_t call_write(const uint8_t *table, size_t length, uint8_t *out);

// The same of a table that may have long forms of numbers.
size_t call_convert(const uint8_t *table, size_t length, uint8_t *out);
#endif
