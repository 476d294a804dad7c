/* What each refusal means to the engineer at the bench, and what to do about it. */
#include <string.h>

#include "chart.h"

/* A # stands for the limit that was passed. */
static const char *const sentences[] = {
    [YUVATONDRO_CUT] = "the table ends in the middle; the file was cut short, copy or write it again",
    [YUVATONDRO_OVERLONG] =
        "a number of the table takes more than three bytes, or more than it needs, and the table cannot be converted; "
        "this is no table, or a damaged one",
    [YUVATONDRO_BAD_EDITION] = "the table is not of edition 1 or 2; it is no table, or one for another release",
    [YUVATONDRO_MANY_STEPS] = "the table has more than # steps; split the alignment into several tables",
    [YUVATONDRO_BAD_KIND] = "a step is neither a check nor an adjustment nor a wait; correct its kind",
    [YUVATONDRO_OUT_OF_RANGE] =
        "a tolerance (0 to 9999), a wait (1 to 240), a name's length (1 to 16), a gap (1 to 4) or a weight (0 to 255) "
        "is out of range",
    [YUVATONDRO_BAD_NAME_BYTE] = "a name has a blank, a control character or a letter beyond ASCII in it; rename that step",
    [YUVATONDRO_MANY_EDGES] = "the table has more than # edges; leave out those that others imply",
    [YUVATONDRO_BAD_END] = "an edge starts or ends at a step that is not in the table, or leads from a step to itself",
    [YUVATONDRO_SPARE] = "bytes follow the last edge; the counts of steps or edges are wrong, or two files were joined",
    [YUVATONDRO_LOOP] =
        "the must edges form a loop, so no order of work exists; take out an edge of that loop, turn it round or make it soft",
    [YUVATONDRO_MANY_POINTS] = "the chart would have more than # points; shorten long edges, or split the alignment",
    [YUVATONDRO_SHORT_BUFFER] = "this program lent too small a buffer; that is a mistake in the program, not in the table",
    [YUVATONDRO_NO_STEP] = "this program asked for a step that is not there; that is a mistake in the program, not in the table",
    [YUVATONDRO_BAD_FIRMNESS] = "an edge is neither must nor soft; correct its firmness, 0 or 1",
    [YUVATONDRO_LARGE_CHART] =
        "the chart has more than # points, for which there are no x and no strokes; the picture of examples/ does without, or split the "
        "alignment",
    [YUVATONDRO_BAD_ROW] =
        "that row has no order to look for: it is row 0, which has none above it, or the chart does not have it, or it has more than # "
        "points; choose another row",
    [YUVATONDRO_MANY_TRIES] = "more than # tries; ask for fewer",
};

static unsigned limit_of(unsigned refusal) {
  switch (refusal) {
    case YUVATONDRO_MANY_STEPS: return YUVATONDRO_MAX_STEPS;
    case YUVATONDRO_MANY_EDGES: return YUVATONDRO_MAX_EDGES;
    case YUVATONDRO_LARGE_CHART: return YUVATONDRO_MAX_XS;
    case YUVATONDRO_BAD_ROW: return YUVATONDRO_MAX_ROW_POINTS;
    case YUVATONDRO_MANY_TRIES: return YUVATONDRO_MAX_TRIES;
    default: return YUVATONDRO_MAX_POINTS;
  }
}

static void put_sentence(FILE *out, unsigned refusal) {
  const char *sentence = refusal < sizeof sentences / sizeof *sentences ? sentences[refusal] : "?";
  const char *limit = strchr(sentence, '#');
  if (limit == NULL)
    fputs(sentence, out);
  else
    fprintf(out, "%.*s%u%s", (int)(limit - sentence), sentence, limit_of(refusal), limit + 1);
}

void explain_refusal(FILE *out, const char *program, const Chart *chart, uint64_t answer) {
  unsigned refusal = yuvatondro_refusal(answer);
  fprintf(out, "%s: refused %u: ", program, refusal);
  put_sentence(out, refusal);
  fprintf(out, "\n");
  if (refusal == YUVATONDRO_LOOP) {
    unsigned step = yuvatondro_loop_step(answer);
    const Step *s = &chart->step[step];
    fprintf(out, "%s: the lowest step on such a loop is %u, %.*s\n", program, step, (int)s->name_len, (const char *)s->name);
  } else if (refusal == YUVATONDRO_BAD_ROW) {
    fprintf(out, "%s: this chart has %u row%s, numbered from 0\n", program, chart->rows, chart->rows == 1 ? "" : "s");
  } else if (refusal <= YUVATONDRO_SPARE || refusal == YUVATONDRO_BAD_FIRMNESS) {
    fprintf(out, "%s: 'tools/table read' on the same file tells the byte\n", program);
  }
}
