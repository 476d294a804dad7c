#include "strokes_call.h"

unsigned call_stroke(const uint8_t *table, size_t length, size_t index, Stroke *stroke) {
  yuvatondro_stroke answer = yuvatondro_stroke_at(table, length, index);
  *stroke = (Stroke){ yuvatondro_stroke_case(answer.answer), answer.x, answer.y };
  return yuvatondro_refusal(answer.answer);
}

size_t call_strokes(const uint8_t *table, size_t length, Stroke *strokes) {
  size_t count = 0;
  while (count < YUVATONDRO_MAX_STROKES && call_stroke(table, length, count, &strokes[count]) == 0 &&
         strokes[count].what != YUVATONDRO_NO_STROKE)
    count++;
  return count;
}
