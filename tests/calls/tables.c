/* Tables that several parts of the test use. */
#include <stdio.h>

#include "calls.h"

/* A limit that the text names, at the end of the table. Gives what follows it in the text. */
static const char *read_limit(Table *t, const char *text) {
  unsigned limit = strncmp(text, "steps", 5) == 0 ? YUVATONDRO_MAX_STEPS : YUVATONDRO_MAX_EDGES;
  unsigned more = strncmp(text + 5, "+1", 2) == 0;
  put_number(t, limit + more, 0);
  return text + 5 + 2 * more;
}

Table read_hex(const char *text) {
  Table t = {{0}, 0};
  for (; *text; text += strspn(text, " ")) {
    if (*text == 's' || *text == 'e') {
      text = read_limit(&t, text);
    } else {
      unsigned byte;
      int used;
      expect(sscanf(text, "%2x%n", &byte, &used) == 1, "a table of the test is in hexadecimal");
      t.byte[t.len++] = (uint8_t)byte;
      text += used;
    }
  }
  return t;
}

const uint16_t sample_rows[4] = {0, 1, 3, 2};

/* Two checks and one edge, whose numbers follow. */
#define EDGE1 "01 02 00 01 41 00 01 42 01 "
#define EDGE2 "02 02 00 01 41 00 01 42 01 "

const Refused refused[REFUSED] = {
    {"", 1, 1},
    {"80 80 80", 2, 2},
    {"03", 3, 3},
    {"01 steps+1", 4, 4},
    {"01 steps", 1, 1},
    /* one step and one edge more than there might be up to version 1.3 */
    {"01 41", 1, 1},
    {"01 00 C1 01", 1, 1},
    {"01 01 03", 5, 5},
    {"01 01 02 00", 6, 6},
    {"01 01 00 01 20", 7, 7},
    {"01 00 edges+1", 8, 8},
    {"01 00 edges", 1, 1},
    {"01 01 00 01 41 01 00 00", 9, 9},
    {"01 00 00 00", 10, 10},
    {"00", 3, 3},
    {"02", 1, 1},
    {EDGE2 "00 01 01 01", 1, 1},
    {EDGE2 "00 01 01 01 02", 15, 15},
    {EDGE2 "00 01 01 80 02 02", 6, 6},
    {EDGE2 "00 01 01 01 02 00", 15, 15},
    /* a number that is cut, the smallest that needs three bytes, and the largest */
    {"80", 1, 1},
    {"80 80", 1, 1},
    {"80 80 01", 3, 3},
    {"FF FF 7F", 3, 3},
    /* a long form that would be good in its fewest bytes: at each kind of field */
    {"81 00 00 00", 2, 0},
    {"81 80 00 00 00", 2, 0},
    {"01 80 00 00", 2, 0},
    {"01 01 80 00 01 41 00", 2, 0},
    {"01 01 01 B2 80 00 01 41 00", 2, 0},
    {"01 01 02 9E 00 01 41 00", 2, 0},
    {"01 01 00 81 00 41 00", 2, 0},
    {"01 00 80 80 00", 2, 0},
    {EDGE1 "80 00 01 01 01", 2, 0},
    {EDGE1 "00 81 80 00 01 01", 2, 0},
    {EDGE1 "00 01 81 00 01", 2, 0},
    {EDGE1 "00 01 01 FF 81 00", 2, 0},
    {EDGE2 "00 01 01 01 81 80 00", 2, 0},
    /* and one that would not, or before another fault */
    {"80 00", 2, 3},
    {"83 80 00", 2, 3},
    {"01 FF 00", 2, 4},
    {EDGE2 "00 01 01 01 82 80 00", 2, 15},
    {"81 00 steps+1", 2, 4},
};

const Written written[WRITTEN] = {
    /* the sample in edition 2 */
    {"02 04 02 1E 04 77 61 72 6D 00 04 6C 6F 63 6B 00 05 73 77 65 65 70 01 32 05 6C 65 76 65 6C "
     "04 00 01 01 01 00 01 02 02 03 00 00 03 01 01 00 03 02 01 05 00",
     SAMPLE, 0},
    /* the only soft edge is the last, and is turned; 127 in one byte and 128 in two, as tolerance or minutes and as weight */
    {"02 02 01 7F 01 41 02 80 01 02 42 43 02 00 01 01 7F 00 01 00 04 80 01 01",
     "02 02 01 7F 01 41 02 80 01 02 42 43 02 00 01 01 7F 00 01 00 04 80 01 01", 0},
    {"01 00 00", "01 00 00", 0},
    {"02 00 00", "01 00 00", 0},
    {EDGE2 "00 01 01 05 00", EDGE1 "00 01 01 05", 0},
    {"02 01 01 8F 4E 10 61 62 63 64 65 66 67 68 69 6A 6B 6C 6D 6E 6F 70 00",
     "01 01 01 8F 4E 10 61 62 63 64 65 66 67 68 69 6A 6B 6C 6D 6E 6F 70 00", 0},
    /* tolerances 0 and 128, 127 minutes, two equal edges of weight 0 */
    {"02 04 01 00 01 41 01 80 01 01 41 02 7F 01 41 02 01 01 41 02 00 01 01 00 00 00 01 01 00 00",
     "01 04 01 00 01 41 01 80 01 01 41 02 7F 01 41 02 01 01 41 02 00 01 01 00 00 01 01 00", 0},
    /* must edges that form a loop, alone and beside a soft edge */
    {"02 02 00 01 41 00 01 42 02 00 01 01 01 00 01 00 01 01 00", "01 02 00 01 41 00 01 42 02 00 01 01 01 01 00 01 01", 11},
    {"02 03 00 01 41 00 01 42 00 01 43 03 00 01 01 01 01 01 02 01 01 00 02 01 01 01 00",
     "02 03 00 01 41 00 01 42 00 01 43 03 00 01 01 01 01 01 02 01 01 00 02 01 01 01 00", 11},
};

void put_number(Table *t, unsigned number, int in_three) {
  for (int width = 1; in_three ? width < 3 : number >= 0x80; width++) {
    t->byte[t->len++] = (uint8_t)(number | 0x80);
    number >>= 7;
  }
  t->byte[t->len++] = (uint8_t)number;
}

/* A chain of steps with gap 1; along each link of it a soft edge back and a soft edge on, with the largest gap; and for the rest soft edges
 * back over two links. Those that lead back are turned, and decide the rows together with those that lead on. No two have the same ends
 * and firmness. */
Table write_largest(int in_three) {
  enum { CHAIN = YUVATONDRO_MAX_STEPS - 1, TOLERANCE = 9999, NAME = 16 };
  Table t = {{0}, 0};
  put_number(&t, 2, in_three);
  put_number(&t, YUVATONDRO_MAX_STEPS, in_three);
  for (unsigned i = 0; i < YUVATONDRO_MAX_STEPS; i++) {
    put_number(&t, 1, in_three);
    put_number(&t, TOLERANCE, in_three);
    put_number(&t, NAME, in_three);
    for (unsigned k = 0; k < NAME; k++) t.byte[t.len++] = (uint8_t)('a' + k);
  }
  put_number(&t, YUVATONDRO_MAX_EDGES, in_three);
  for (unsigned i = 0; i < YUVATONDRO_MAX_EDGES; i++) {
    unsigned turn = i / CHAIN, over = turn == 3 ? 2 : 1, low = i % CHAIN * over, back = turn % 2 * over;
    const unsigned edge[5] = {low + back, low + over - back, turn > 0 ? MAX_GAP : 1, MAX_WEIGHT, turn > 0};
    for (unsigned k = 0; k < 5; k++) put_number(&t, edge[k], in_three);
  }
  return t;
}

void add_edge(Edges *edges, size_t from, size_t to, size_t gap, size_t weight) {
  const size_t numbers[4] = {from, to, gap, weight};
  memcpy(edges->number + 4 * edges->count++, numbers, sizeof numbers);
}

void add_soft(Edges *edges, size_t from, size_t to, size_t gap, size_t weight) {
  edges->soft[edges->count] = 1;
  add_edge(edges, from, to, gap, weight);
}

void add_line(Edges *edges, size_t upper, size_t lower, size_t gap, size_t number) {
  if (number == 0)
    add_edge(edges, upper, lower, gap, 1);
  else if (number == 1)
    add_soft(edges, upper, lower, gap, 1);
  else
    add_soft(edges, lower, upper, gap, 1);
}

Edges make_chain(size_t steps, size_t gap, size_t weight) {
  Edges edges = {{0}, 0, {0}};
  for (size_t i = 1; i < steps; i++) add_edge(&edges, i - 1, i, gap, weight);
  return edges;
}

Table write_edges(size_t steps, const Edges *edges) {
  static const uint8_t check[3] = {0, 1, 'a'};
  Table t = {{memchr(edges->soft, 1, edges->count) == NULL ? 1 : 2}, 1};
  put_number(&t, (unsigned)steps, 0);
  for (size_t i = 0; i < steps; i++, t.len += sizeof check) memcpy(t.byte + t.len, check, sizeof check);
  put_number(&t, (unsigned)edges->count, 0);
  for (size_t i = 0; i < 4 * edges->count; i++) {
    put_number(&t, (unsigned)edges->number[i], 0);
    if (i % 4 == 3 && t.byte[0] == 2) put_number(&t, edges->soft[i / 4], 0);
  }
  return t;
}
