/* What is written in a drawing: the names, kinds and numbers of a chart as letters of XML, which are those of HTML too. */
#include "draw.h"

/* Any byte from 21 to 7E may stand in a name. */
void put_text(FILE *out, const uint8_t *text, size_t length) {
  for (size_t i = 0; i < length; i++) {
    switch (text[i]) {
      case '&': fputs("&amp;", out); break;
      case '<': fputs("&lt;", out); break;
      case '>': fputs("&gt;", out); break;
      case '"': fputs("&quot;", out); break;
      case '\'': fputs("&#39;", out); break;
      default: fputc(text[i], out);
    }
  }
}

void put_name(FILE *out, const Chart *chart, size_t step) { put_text(out, chart->step[step].name, chart->step[step].name_len); }

int kind_text(const Step *step, char *text, size_t size) {
  switch (step->kind) {
    case ADJUST: return snprintf(text, size, "adjust %u", step->number);
    case WAIT: return snprintf(text, size, "wait %u", step->number);
    default: return snprintf(text, size, "check");
  }
}

/* The number of a kind with its unit. */
static void put_meaning(FILE *out, const Step *step) {
  if (step->kind == ADJUST) fprintf(out, "adjust, tolerance %u.%02u dB", step->number / 100, step->number % 100);
  if (step->kind == WAIT) fprintf(out, "wait %u minute%s", step->number, step->number == 1 ? "" : "s");
  if (step->kind == CHECK) fprintf(out, "check");
}

void put_step_title(FILE *out, const Chart *chart, unsigned step) {
  fprintf(out, "step %u: ", step);
  put_name(out, chart, step);
  fprintf(out, ", ");
  put_meaning(out, &chart->step[step]);
  fprintf(out, ", row %u", chart->point_row[step]);
  if (chart->has_xs) fprintf(out, ", x %u", (unsigned)chart->x[step]);
}

/* A number of each edge that a line stands for: its own, or its weight. */
static void put_of_edges(FILE *out, const Chart *chart, unsigned line, int weights, const char *mark) {
  const char *before = "";
  for (unsigned i = chart->merged[line].first; i < chart->edges; i++) {
    if (chart->edge_merged[i] != line) continue;
    fprintf(out, "%s%u", before, weights ? (unsigned)chart->edge[i].weight : i);
    before = mark;
  }
}

static unsigned edges_of(const Chart *chart, unsigned line) {
  unsigned number = 0;
  for (unsigned i = 0; i < chart->edges; i++) number += chart->edge_merged[i] == line;
  return number;
}

void put_line_title(FILE *out, const Chart *chart, unsigned line) {
  const MergedEdge *m = &chart->merged[line];
  const Edge *e = &chart->edge[m->first];
  int repeated = edges_of(chart, line) > 1;
  fprintf(out, repeated ? "edges " : "edge ");
  put_of_edges(out, chart, line, 0, ", ");
  fprintf(out, ": %zu ", e->from);
  put_name(out, chart, e->from);
  fprintf(out, " to %zu ", e->to);
  put_name(out, chart, e->to);
  fprintf(out, ", gap %zu, weight %zu", m->gap, m->weight);
  if (repeated) {
    fprintf(out, " = ");
    put_of_edges(out, chart, line, 1, " + ");
  }
  fprintf(out, ", length %u%s%s", length_of(chart, m->first), e->soft ? ", soft" : "", is_turned(chart, m->first) ? ", turned" : "");
}

int figures_text(const Chart *chart, char *text, size_t size) {
  return snprintf(text, size, "%u steps, %u edges, %u lines, %u rows, %u points, total %lu, crossings %lu", chart->steps, chart->edges,
                  chart->merged_edges, chart->rows, chart->points, chart->total, chart->crossings);
}
