/* What the programs of tests/xs and tests/orders share beside known.h, which they take in before: a call that fills a lent buffer of 16-bit
 * numbers, tried with the largest buffer, the exact one, a longer one and shorter ones, all with guards round them. */
#ifndef LENT_H
#define LENT_H

/* The largest buffer holds more than either call ever fills. */
enum { GUARD = 16, FILL = 0xA5A5, ROOM = YUVATONDRO_MAX_XS + 3 };

static uint16_t guarded[GUARD + ROOM + GUARD];
static uint16_t *const lent = guarded + GUARD;

/* The call of a program, which is lent so many entries of `lent`. Its answer has how many points it put there. */
typedef uint64_t Call(size_t room);

static int is_filled(const uint16_t *start, size_t entries) {
  while (entries > 0 && start[entries - 1] == FILL) entries--;
  return entries == 0;
}

/* The call with a buffer of `room` entries. Nothing may change but those of the points. */
static uint64_t lend(Call *call, size_t room) {
  for (size_t i = 0; i < sizeof guarded / sizeof *guarded; i++) guarded[i] = FILL;
  uint64_t answer = call(room);
  size_t points = yuvatondro_refusal(answer) == YUVATONDRO_DONE ? yuvatondro_points(answer) : 0;
  expect(points <= room, "more points than there is room for");
  expect(is_filled(guarded, GUARD), "an entry changed before the buffer");
  expect(is_filled(lent + points, ROOM + GUARD - points), "an entry changed behind those of the points");
  return answer;
}

/* With the largest buffer; a shorter one that is long enough gives the same, and one that is too short is refused by 13, after all else. */
static uint64_t try_rooms(Call *call) {
  uint16_t found[ROOM];
  uint64_t answer = lend(call, ROOM);
  int is_done = yuvatondro_refusal(answer) == YUVATONDRO_DONE;
  size_t points = is_done ? yuvatondro_points(answer) : 0;
  const size_t shorter[3] = {0, points / 2, points - 1};
  memcpy(found, lent, sizeof found);
  for (size_t k = 0; k < 3 && points > 0; k++) expect(lend(call, shorter[k]) == YUVATONDRO_SHORT_BUFFER, "a short buffer is not refused by 13");
  expect(points > 0 || lend(call, 0) == answer, "an empty buffer changes the answer");
  expect(lend(call, points + 1) == answer && memcmp(lent, found, points * sizeof *lent) == 0, "a longer buffer changes the answer");
  expect(lend(call, points) == answer && memcmp(lent, found, points * sizeof *lent) == 0, "an exact buffer changes the answer");
  return answer;
}

#endif
