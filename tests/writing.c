/* What a call of the library makes of each table on standard input, one a line in hexadecimal: `writes` and the shortest form, or
 * `refused` and the number.
 *   writing write     by yuvatondro_write, which takes no long forms
 *   writing convert   by yuvatondro_convert, which takes them
 *   writing limits    reads nothing and prints the limits that the header names: steps, edges, the longest table, the longest stored one
 * Each table is tried with the largest buffer, the exact one and shorter ones, all with guard bytes round them. Ends with status 1 at the
 * first surprise, and with 2 if no such call is named. */
#include <stdio.h>
#include <stdlib.h>
#include <string.h>

#include "yuvatondro.h"

/* The longest stored table with a spare byte; a line of it has two digits and a blank or the line feed for each byte. */
enum { MAX_TABLE = YUVATONDRO_MAX_STORED + 1, MAX_LINE = 3 * MAX_TABLE + 1, GUARD = 32, FILL = 0xA5 };
enum { MANY = 256, FEW = 32 };

typedef uint64_t (*Call)(const uint8_t *table, size_t table_len, uint8_t *out, size_t out_len);
static const struct { const char *name; Call call; } calls[] = { { "write", yuvatondro_write }, { "convert", yuvatondro_convert } };
static Call chosen;

static uint8_t table[MAX_TABLE];
static size_t table_len;
static uint8_t guarded[GUARD + YUVATONDRO_MAX_SHORTEST + GUARD];
static uint8_t untouched[sizeof guarded];
static uint8_t *const out = guarded + GUARD;

static void expect(int holds, size_t room, const char *what) {
  if (holds) return;
  fprintf(stderr, "writing: a table of %zu bytes and a buffer of %zu: %s\n", table_len, room, what);
  exit(1);
}

/* The table of the next line; 0 where there is none. */
static int read_table(void) {
  static char line[MAX_LINE];
  char *at = line, *end;
  if (fgets(line, sizeof line, stdin) == NULL) return 0;
  expect(strchr(line, '\n') != NULL, 0, "the line of the next table does not fit");
  for (table_len = 0;; at = end) {
    unsigned long byte = strtoul(at, &end, 16);
    if (end == at) return 1;
    expect(table_len < MAX_TABLE, 0, "the next table does not fit");
    table[table_len++] = (uint8_t)byte;
  }
}

/* The call with a buffer of `room` bytes. Nothing may change but the bytes that it says it wrote. */
static uint64_t call_chosen(size_t room) {
  memset(guarded, FILL, sizeof guarded);
  uint64_t answer = chosen(table, table_len, out, room);
  int done = yuvatondro_refusal(answer) == YUVATONDRO_DONE;
  size_t written = done ? yuvatondro_written(answer) : 0;
  expect(done || answer < 256, room, "more than the refusal stands in the answer");
  expect(written <= room, room, "more was written than there is room for");
  expect(memcmp(guarded, untouched, GUARD) == 0, room, "a byte changed before the buffer");
  expect(memcmp(out + written, untouched, sizeof guarded - GUARD - written) == 0, room, "a byte changed behind those written");
  return answer;
}

/* An exact buffer gives what a larger one gave, and shorter ones are refused: each of them up to MANY bytes; of more about so many, since a
 * call reads the whole table each time, and one by one where fewer than FEW bytes are missing. */
static void check_rooms(uint64_t answer) {
  static uint8_t shortest[YUVATONDRO_MAX_SHORTEST];
  size_t written = yuvatondro_written(answer), stride = 1 + written / MANY;
  memcpy(shortest, out, written);
  expect(written <= table_len, written, "the shortest form is longer than the table");
  for (size_t room = 0; room < written; room += written - room > FEW ? stride : 1)
    expect(call_chosen(room) == YUVATONDRO_SHORT_BUFFER, room, "not refused by 13");
  expect(call_chosen(written) == answer && memcmp(out, shortest, written) == 0, written, "not what a larger buffer gives");
}

static void show_table(void) {
  uint64_t answer = call_chosen(YUVATONDRO_MAX_SHORTEST);
  if (yuvatondro_refusal(answer) != YUVATONDRO_DONE) {
    expect(call_chosen(0) == answer, 0, "an empty buffer is judged before the table");
    printf("refused %u\n", yuvatondro_refusal(answer));
    return;
  }
  check_rooms(answer);
  printf("writes");
  for (size_t i = 0; i < yuvatondro_written(answer); i++) printf(" %02X", out[i]);
  printf("\n");
}

static int show_limits(void) {
  printf("%d %d %d %d\n", YUVATONDRO_MAX_STEPS, YUVATONDRO_MAX_EDGES, YUVATONDRO_MAX_SHORTEST, YUVATONDRO_MAX_STORED);
  return 0;
}

int main(int argc, char **argv) {
  if (argc == 2 && strcmp(argv[1], "limits") == 0) return show_limits();
  for (size_t k = 0; k < sizeof calls / sizeof *calls; k++)
    if (argc == 2 && strcmp(argv[1], calls[k].name) == 0) chosen = calls[k].call;
  if (chosen == NULL) return 2;
  memset(untouched, FILL, sizeof untouched);
  while (read_table()) show_table();
  return 0;
}
