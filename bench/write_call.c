#include "write_call.h"
#include "yuvatondro.h"

unsigned call_counts(const uint8_t *table, size_t length) { return yuvatondro_refusal(yuvatondro_counts(table, length)); }

static size_t written_by(uint64_t answer) { return yuvatondro_refusal(answer) == 0 ? yuvatondro_written(answer) : 0; }
size_t call_write(const uint8_t *table, size_t length, uint8_t *out) { return written_by(yuvatondro_write(table, length, out, length)); }
size_t call_convert(const uint8_t *table, size_t length, uint8_t *out) { return written_by(yuvatondro_convert(table, length, out, length)); }
