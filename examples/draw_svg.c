/* The chart as a picture of its own, for paper: what draw_chart.c draws, with its figures above and what the lines mean below. A millimetre
 * of the picture is one on paper. */
#include "draw.h"

/* In millimetres. */
static const double LETTER = 0.6, TEXT_SIZE = 1.6;
static const double MARGIN = 3, TEXT_LINE = 4;
static const double SAMPLE = 11; /* from the start of a sample to that of its words */

typedef struct {
  Frame frame; /* of the chart with all around it */
  double bottom;
  char figures[160];
} Picture;

/* The picture is as wide as the figures, or wider. */
static Picture make_picture(const Chart *chart) {
  Picture p;
  int letters = figures_text(chart, p.figures, sizeof p.figures);
  double least = 2 * MARGIN + LETTER * TEXT_SIZE * letters;
  p.frame = frame_of(chart);
  p.bottom = p.frame.top + p.frame.height;
  p.frame.top -= TEXT_LINE;
  p.frame.height += (2 + LINE_STYLES) * TEXT_LINE;
  if (p.frame.width < least) p.frame.width = least;
  return p;
}

static void open_picture(FILE *out, const Picture *p) {
  const Frame *f = &p->frame;
  fprintf(out, "<?xml version=\"1.0\" encoding=\"UTF-8\"?>\n");
  fprintf(out, "<svg xmlns=\"http://www.w3.org/2000/svg\" width=\"%gmm\" height=\"%gmm\" viewBox=\"%g %g %g %g\"", f->width, f->height,
          f->left, f->top, f->width, f->height);
  fprintf(out, " font-family=\"DejaVu Sans Mono, Menlo, Consolas, monospace\" text-rendering=\"geometricPrecision\">\n<title>%s</title>\n",
          p->figures);
  draw_tips(out);
  fprintf(out, "<rect x=\"%g\" y=\"%g\" width=\"%g\" height=\"%g\" fill=\"#ffffff\"/>\n", f->left, f->top, f->width, f->height);
}

static void draw_words(FILE *out, double x, double y, const char *words) {
  fprintf(out, "<text x=\"%g\" y=\"%g\" font-size=\"%g\" fill=\"#52606d\">%s</text>\n", x, y, TEXT_SIZE, words);
}

void draw_svg(FILE *out, const Chart *chart) {
  Picture p = make_picture(chart);
  double left = p.frame.left + MARGIN;
  open_picture(out, &p);
  draw_words(out, left, p.frame.top + TEXT_LINE, p.figures);
  draw_chart(out, chart);
  fprintf(out, "<g class=\"legend\">\n");
  for (int style = MUST; style < LINE_STYLES; style++) {
    double y = p.bottom + TEXT_LINE * (style + 0.5);
    draw_sample(out, (LineStyle)style, left, y);
    draw_words(out, left + SAMPLE, y + TEXT_SIZE / 3, style_words((LineStyle)style));
  }
  fprintf(out, "</g>\n</svg>\n");
}
