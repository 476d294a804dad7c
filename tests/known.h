/* What the programs of tests/xs, tests/strokes and tests/orders share: the tables on standard input, one a line in hexadecimal, and what is
 * known of the chart of each, ` -> ` behind it: `points` and how many there are in each row, or `refused` and the number, and of a loop its
 * step behind it. A program tells its name as `program` before it takes this in. */
#ifndef KNOWN_H
#define KNOWN_H

#include <stdio.h>
#include <stdlib.h>
#include <string.h>

#include "yuvatondro.h"

/* The longest stored table with a spare byte; a line of it has two digits and a blank for each byte, and behind them a number a row. */
enum { MAX_TABLE = YUVATONDRO_MAX_STORED + 1, MAX_LINE = 3 * MAX_TABLE + 8 * (YUVATONDRO_MAX_ROW + 2) };

static char line[MAX_LINE];
static uint8_t table[MAX_TABLE];
static size_t table_len;
static unsigned long lines;

static void expect(int holds, const char *what) {
  if (holds) return;
  fprintf(stderr, "%s: line %lu, a table of %zu bytes: %s\n", program, lines, table_len, what);
  exit(1);
}

/* The table of the next line; 0 where there is none. */
static int read_table(void) {
  char *at = line, *end;
  if (fgets(line, sizeof line, stdin) == NULL) return 0;
  lines++;
  expect(strchr(line, '\n') != NULL, "the line does not fit");
  for (table_len = 0;; at = end) {
    unsigned long byte = strtoul(at, &end, 16);
    if (end == at) return 1;
    expect(table_len < MAX_TABLE, "the table does not fit");
    table[table_len++] = (uint8_t)byte;
  }
}

/* What is known of the table's chart. */
static const char *find_known(void) {
  const char *known = strstr(line, " -> ");
  expect(known != NULL, "the line does not say what is known");
  return known + strlen(" -> ");
}

/* The sizes of the rows, where the chart has some; null for a refused table. */
static const char *find_sizes(const char *known) {
  return strncmp(known, "points", strlen("points")) == 0 ? known + strlen("points") : NULL;
}

/* The answer for a refused table. */
static uint64_t read_refusal(const char *known) {
  unsigned refusal, step = 0;
  expect(sscanf(known, "refused %u %u", &refusal, &step) > 0, "the line does not say what is known");
  return refusal | (uint64_t)step << 8;
}

static unsigned add_sizes(const char *sizes) {
  unsigned points = 0;
  for (char *end;; sizes = end) {
    unsigned long size = strtoul(sizes, &end, 10);
    if (end == sizes) return points;
    points += (unsigned)size;
  }
}

/* A refused table as it is shown. */
static void print_refusal(uint64_t answer) {
  printf("refused %u", yuvatondro_refusal(answer));
  if (yuvatondro_refusal(answer) == YUVATONDRO_LOOP) printf(" %u", yuvatondro_loop_step(answer));
}

#endif
