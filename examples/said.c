/* What a table says that the library does not hand out: the kinds of the steps, and the ends, gaps, weights and firmness of the edges.
 *
 * A drawing needs the ends and the firmness, and shows the kinds. A host program mostly made its table itself and has them all; this one
 * has only the bytes. They are walked without any check, because this is done only with a table that yuvatondro_counts has accepted: then
 * every number is complete, and as many steps and edges stand there as were counted. */
#include "chart.h"

/* A number: seven bits a byte, the lowest first; the high bit says that another byte follows. Moves the place behind it. */
static size_t read_number(const uint8_t **at) {
  size_t number = 0;
  unsigned shift = 0;
  uint8_t byte;
  do {
    byte = *(*at)++;
    number |= (size_t)(byte & 0x7F) << shift;
    shift += 7;
  } while (byte & 0x80);
  return number;
}

/* The kinds stand behind the edition and the count of steps. A check adds no number to its kind. */
void read_kinds(Chart *chart) {
  const uint8_t *at = chart->table;
  read_number(&at);
  read_number(&at);
  for (unsigned i = 0; i < chart->steps; i++) {
    Step *step = &chart->step[i];
    step->kind = (Kind)read_number(&at);
    step->number = step->kind == CHECK ? 0 : (unsigned)read_number(&at);
    at = step->name + step->name_len;
  }
}

/* The edges stand behind the name of the last step and their own count. Without steps there are none. Firmness is a number of edition 2
 * only; the edges of edition 1 are all must. */
void read_edges(Chart *chart) {
  if (chart->steps == 0) return;
  const uint8_t *at = chart->table;
  size_t edition = read_number(&at);
  at = chart->step[chart->steps - 1].name + chart->step[chart->steps - 1].name_len;
  read_number(&at);
  for (unsigned i = 0; i < chart->edges; i++) {
    Edge *e = &chart->edge[i];
    e->from = read_number(&at);
    e->to = read_number(&at);
    e->gap = read_number(&at);
    e->weight = read_number(&at);
    e->soft = edition == 1 ? 0 : read_number(&at);
  }
}
