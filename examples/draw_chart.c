/* The chart as SVG, from its strokes: each line has its corners exactly where the strokes have them, in millimetres. A step is a box whose
 * middle is its corner, with its name, its number and its kind; the lines of it end in its middle, behind the box, and the tip of one that
 * leads to it stands where that one meets the box. A line of other steps that passes behind a box on a long slant is drawn faintly on it,
 * so that it can be followed and is not taken for one that ends there. No box is wider than a column or as high as a row, so none touches
 * another.
 *
 * Only lines between the same two steps in neighbouring rows can have the same corners, and no two of them are of one style: they lie on
 * each other, the must line lowest, and each is drawn wider than those above it. Hovering over a box or a line tells more of it. */
#include "draw.h"

/* In millimetres. */
static const double LETTER = 0.6; /* the width of a letter of a monospaced font, as a part of its size */
static const double NAME_SIZE = 1.65, KIND_SIZE = 1.1, ROW_SIZE = 1.5;
static const double BOX_WIDTH = 11.5, BOX_HEIGHT = 3.7, PADDING = 0.5; /* the width at most */
static const double NAME_FOOT = -0.05, KIND_FOOT = 1.4;                /* from the middle of a box down */
static const double LINE_WIDTH = 0.2, WIDER = 0.28;
static const double SIDE = 12, HEAD = 4; /* from the outermost corners to the frame */
static const double NUMBER = 8.4;        /* from the outermost corners to the numbers of the rows */

/* A style by name, colour and dashes. */
static const char *const style_class[] = {"must", "soft", "turned"};
static const char *const style_colour[] = {"#5f7285", "#2b6cb0", "#b4481e"};
static const char DASHES[] = "1 0.6";

/* A kind by name and by the colours of its box. */
static const char *const kind_class[] = {"check", "adjust", "wait"};
static const char *const kind_fill[] = {"#f1f5f9", "#eaf6ee", "#fdf3e0"};
static const char *const kind_border[] = {"#4a6785", "#2f7d4f", "#a06a14"};

const char *style_words(LineStyle style) {
  static const char *const words[] = {"must edge", "soft edge, kept", "soft edge, turned: drawn up"};
  return words[style];
}

static LineStyle style_of(const Chart *chart, unsigned line) {
  unsigned edge = chart->merged[line].first;
  return is_turned(chart, edge) ? TURNED : chart->edge[edge].soft ? SOFT : MUST;
}

static double right_most(const Chart *chart) {
  float right = 0;
  for (unsigned i = 0; i < chart->points; i++)
    if (right < chart->corner[i].x) right = chart->corner[i].x;
  return right;
}

Frame frame_of(const Chart *chart) {
  double lowest = chart->rows > 0 ? ROW * (chart->rows - 1) : 0;
  return (Frame){-SIDE, -HEAD, right_most(chart) + 2 * SIDE, lowest + 2 * HEAD};
}

/* Names shrink to the width of a column. */
static double name_size(const Step *step) {
  double most = (BOX_WIDTH - 2 * PADDING) / (LETTER * (double)step->name_len);
  return most < NAME_SIZE ? most : NAME_SIZE;
}

/* The number of a step as a text of a table has it, and its kind. */
static int note_text(const Chart *chart, unsigned step, char *text, size_t size) {
  int length = snprintf(text, size, "@%u ", step);
  return length + kind_text(&chart->step[step], text + length, size - (size_t)length);
}

static double box_width(const Chart *chart, unsigned step) {
  char note[32];
  double of_name = LETTER * name_size(&chart->step[step]) * (double)chart->step[step].name_len;
  double of_note = LETTER * KIND_SIZE * note_text(chart, step, note, sizeof note);
  return (of_name < of_note ? of_note : of_name) + 2 * PADDING;
}

static void draw_tip(FILE *out, LineStyle style) {
  fprintf(out,
          "<marker id=\"%s-tip\" viewBox=\"0 0 8 8\" refX=\"7.6\" refY=\"4\" markerUnits=\"userSpaceOnUse\" markerWidth=\"1.3\" "
          "markerHeight=\"1.3\" orient=\"auto\"><path class=\"%s\" d=\"M0 1L8 4L0 7Z\" fill=\"%s\"/></marker>",
          style_class[style], style_class[style], style_colour[style]);
}

void draw_tips(FILE *out) {
  fprintf(out, "<defs>");
  for (int style = MUST; style < LINE_STYLES; style++) draw_tip(out, (LineStyle)style);
  fprintf(out, "</defs>\n");
}

/* What all lines of a style have in common. */
static void put_style(FILE *out, LineStyle style, double width) {
  fprintf(out, " class=\"edge %s\" fill=\"none\" stroke=\"%s\" stroke-width=\"%g\" stroke-linejoin=\"round\"", style_class[style],
          style_colour[style], width);
  if (style != MUST) fprintf(out, " stroke-dasharray=\"%s\"", DASHES);
}

static void draw_mark(FILE *out, double x, double y, const char *mark) {
  fprintf(
      out,
      "<text class=\"mark\" x=\"%g\" y=\"%g\" font-size=\"1.5\" font-weight=\"bold\" fill=\"%s\" stroke=\"#ffffff\" stroke-width=\"0.5\" "
      "paint-order=\"stroke\">%s</text>",
      x + 0.4, y + 0.5, style_colour[TURNED], mark);
}

void draw_sample(FILE *out, LineStyle style, double x, double y) {
  fprintf(out, "<path");
  put_style(out, style, LINE_WIDTH);
  fprintf(out, " d=\"M%g %gH%g\" marker-end=\"url(#%s-tip)\"/>", x, y, x + 9, style_class[style]);
  if (style == TURNED) draw_mark(out, x + 4, y, "^");
}

/* Each row is numbered at both sides, so that one side is near in a wide chart. */
static void draw_rows(FILE *out, const Chart *chart) {
  double right = right_most(chart);
  fprintf(out, "<g class=\"rows\" font-size=\"%g\" fill=\"#8492a0\" stroke-width=\"0.15\">\n", ROW_SIZE);
  for (unsigned row = 0; row < chart->rows; row++) {
    double y = ROW * row;
    fprintf(out, "<path d=\"M%g %gH%g\" stroke=\"#e6eaee\"/>", -NUMBER + 1, y, right + NUMBER - 1);
    fprintf(out, "<text x=\"%g\" y=\"%g\" text-anchor=\"end\">%u</text>", -NUMBER, y + 0.5, row);
    fprintf(out, "<text x=\"%g\" y=\"%g\">%u</text>\n", right + NUMBER, y + 0.5, row);
  }
  fprintf(out, "</g>\n");
}

/* How many lines of the same corners lie on a line: they are of styles that are drawn later. */
static unsigned lines_above(const Chart *chart, unsigned line) {
  unsigned edge = chart->merged[line].first, above = 0;
  for (unsigned i = 0; i < chart->merged_edges; i++) {
    unsigned other = chart->merged[i].first;
    int same_ends = upper_end(chart, other) == upper_end(chart, edge) && lower_end(chart, other) == lower_end(chart, edge);
    above += same_ends && style_of(chart, i) > style_of(chart, line);
  }
  return length_of(chart, edge) == 1 ? above : 0;
}

static void put_corners(FILE *out, const Stroke *stroke, unsigned strokes) {
  fprintf(out, " d=\"");
  for (unsigned i = 0; i < strokes; i++)
    fprintf(out, "%c%g %g", stroke[i].shape == YUVATONDRO_MOVE ? 'M' : 'L', stroke[i].corner.x, stroke[i].corner.y);
  fprintf(out, "\"");
}

/* The tip, on a line without ink from the last corner but one to where it meets the box of the step that it leads to: all but the part of
 * the last segment that is inside. */
static void draw_end(FILE *out, const Chart *chart, unsigned line, const Stroke *last) {
  unsigned step = (unsigned)chart->edge[chart->merged[line].first].to;
  double dx = last[0].corner.x - last[-1].corner.x, dy = last[0].corner.y - last[-1].corner.y;
  double wide = box_width(chart, step) / 2, across = dx < 0 ? -dx : dx, inside = BOX_HEIGHT / 2 / (dy < 0 ? -dy : dy);
  if (inside * across > wide) inside = wide / across;
  fprintf(out, "<path class=\"tip\" d=\"M%g %gL%.3f %.3f\" fill=\"none\" marker-end=\"url(#%s-tip)\"/>", last[-1].corner.x,
          last[-1].corner.y, last[0].corner.x - inside * dx, last[0].corner.y - inside * dy, style_class[style_of(chart, line)]);
}

/* A turned line has a mark at each of its dummies, as the printed chart has; one without dummies has it half way. */
static void draw_marks(FILE *out, const Chart *chart, unsigned line, const Stroke *stroke, unsigned strokes) {
  char mark[16];
  snprintf(mark, sizeof mark, "^%u", chart->merged[line].first);
  for (unsigned i = 1; i + 1 < strokes; i++) draw_mark(out, stroke[i].corner.x, stroke[i].corner.y, mark);
  if (strokes == 2) draw_mark(out, (stroke[0].corner.x + stroke[1].corner.x) / 2, (stroke[0].corner.y + stroke[1].corner.y) / 2, mark);
}

/* A line, below it a wider one without ink, which is easier to hover over. */
static void draw_line(FILE *out, const Chart *chart, unsigned line) {
  unsigned edge = chart->merged[line].first, strokes = length_of(chart, edge) + 1;
  const Stroke *stroke = &chart->stroke[chart->line_stroke[line]];
  LineStyle style = style_of(chart, line);
  fprintf(out, "<g class=\"line\" data-line=\"%u\" data-from=\"%zu\" data-to=\"%zu\"><title>", line, chart->edge[edge].from,
          chart->edge[edge].to);
  put_line_title(out, chart, line);
  fprintf(out, "</title><path class=\"near\" fill=\"none\" stroke=\"#ffffff\" stroke-opacity=\"0\" stroke-width=\"1.4\"");
  put_corners(out, stroke, strokes);
  fprintf(out, "/><path");
  put_style(out, style, LINE_WIDTH + WIDER * lines_above(chart, line));
  put_corners(out, stroke, strokes);
  fprintf(out, "/>");
  draw_end(out, chart, line, &stroke[strokes - 1]);
  if (style == TURNED) draw_marks(out, chart, line, stroke, strokes);
  fprintf(out, "</g>\n");
}

static void draw_lines(FILE *out, const Chart *chart) {
  fprintf(out, "<g class=\"lines\">\n");
  for (int style = MUST; style < LINE_STYLES; style++)
    for (unsigned i = 0; i < chart->merged_edges; i++)
      if (style_of(chart, i) == (LineStyle)style) draw_line(out, chart, i);
  fprintf(out, "</g>\n");
}

/* Of a way from 0 to 1 that starts at one number and goes along another, the part between two bounds; whether there is any. */
static int keep_between(double start, double along, double low, double high, double *first, double *last) {
  if (along == 0) return low < start && start < high;
  double in = (along > 0 ? low - start : high - start) / along, out = (along > 0 ? high - start : low - start) / along;
  if (*first < in) *first = in;
  if (*last > out) *last = out;
  return *first < *last;
}

static int is_same(Corner a, Corner b) { return a.x == b.x && a.y == b.y; }

/* A stroke where it passes the box of a step, if it does and does not lead to it or from it. */
static void draw_pass(FILE *out, const Chart *chart, unsigned step, unsigned line, Corner from, Corner to) {
  Corner middle = chart->corner[step];
  double wide = box_width(chart, step) / 2, high = BOX_HEIGHT / 2, dx = to.x - from.x, dy = to.y - from.y, first = 0, last = 1;
  if (is_same(from, middle) || is_same(to, middle)) return;
  if (!keep_between(from.y, dy, middle.y - high, middle.y + high, &first, &last)) return;
  if (!keep_between(from.x, dx, middle.x - wide, middle.x + wide, &first, &last)) return;
  const Edge *e = &chart->edge[chart->merged[line].first];
  LineStyle style = style_of(chart, line);
  fprintf(out,
          "<path class=\"pass %s\" data-from=\"%zu\" data-to=\"%zu\" d=\"M%.3f %.3fL%.3f %.3f\" stroke=\"%s\" stroke-opacity=\"0.4\"/>",
          style_class[style], e->from, e->to, from.x + first * dx, from.y + first * dy, from.x + last * dx, from.y + last * dy,
          style_colour[style]);
}

static void draw_passes(FILE *out, const Chart *chart, unsigned step) {
  for (unsigned i = 0; i < chart->merged_edges; i++) {
    const Stroke *stroke = &chart->stroke[chart->line_stroke[i]];
    unsigned strokes = length_of(chart, chart->merged[i].first) + 1;
    for (unsigned j = 1; j < strokes; j++) draw_pass(out, chart, step, i, stroke[j - 1].corner, stroke[j].corner);
  }
}

/* A text of a known width, whatever font there is. */
static void open_text(FILE *out, const char *class, const Corner *middle, double foot, double size, double letters) {
  fprintf(out, "<text class=\"%s\" x=\"%g\" y=\"%.3f\" font-size=\"%.3f\" textLength=\"%.3f\" lengthAdjust=\"spacingAndGlyphs\">", class,
          middle->x, middle->y + foot, size, LETTER * size * letters);
}

static void draw_step(FILE *out, const Chart *chart, unsigned step) {
  const Step *s = &chart->step[step];
  const Corner *middle = &chart->corner[step];
  double width = box_width(chart, step);
  char note[32];
  int note_length = note_text(chart, step, note, sizeof note);
  fprintf(out, "<g class=\"step %s\" data-step=\"%u\"><title>", kind_class[s->kind], step);
  put_step_title(out, chart, step);
  fprintf(out, "</title><rect x=\"%.3f\" y=\"%.3f\" width=\"%.3f\" height=\"%.3f\" rx=\"0.7\" fill=\"%s\" stroke=\"%s\"/>",
          middle->x - width / 2, middle->y - BOX_HEIGHT / 2, width, BOX_HEIGHT, kind_fill[s->kind], kind_border[s->kind]);
  draw_passes(out, chart, step);
  open_text(out, "name", middle, NAME_FOOT, name_size(s), (double)s->name_len);
  put_name(out, chart, step);
  fprintf(out, "</text>");
  open_text(out, "note", middle, KIND_FOOT, KIND_SIZE, note_length);
  fprintf(out, "%s</text></g>\n", note);
}

void draw_chart(FILE *out, const Chart *chart) {
  draw_rows(out, chart);
  draw_lines(out, chart);
  fprintf(out, "<g class=\"steps\" text-anchor=\"middle\" fill=\"#1f2d3a\" stroke-width=\"0.18\">\n");
  for (unsigned i = 0; i < chart->steps; i++) draw_step(out, chart, i);
  fprintf(out, "</g>\n");
}
