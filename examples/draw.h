/* The chart as elements of SVG, in millimetres: what a picture and a page have in common.
 *
 * Colours and widths are attributes, so that any program that shows SVG has them, and every element has a class, by which a page can give
 * it others. */
#ifndef DRAW_H
#define DRAW_H

#include "chart.h"

/* How a line is drawn: one of must edges, of soft ones that were kept, of soft ones that were turned. */
typedef enum { MUST, SOFT, TURNED, LINE_STYLES } LineStyle;

/* What the drawing of a chart takes up. */
typedef struct {
  double left, top, width, height;
} Frame;

/* words.c: a text as letters of XML, and so a name; the words for a kind, as a text of a table has them; all there is to say of a step, and
 * of a line with the edges that it stands for; and the figures of the chart in one line. */
void put_text(FILE *out, const uint8_t *text, size_t length);
void put_name(FILE *out, const Chart *chart, size_t step);
int kind_text(const Step *step, char *text, size_t size);
void put_step_title(FILE *out, const Chart *chart, unsigned step);
void put_line_title(FILE *out, const Chart *chart, unsigned line);
int figures_text(const Chart *chart, char *text, size_t size);

/* draw_chart.c: the tips of lines, which all that is drawn refers to; a line of a style as a sample, 9 mm to the right from a corner; and
 * the chart, within its frame. */
Frame frame_of(const Chart *chart);
void draw_tips(FILE *out);
void draw_sample(FILE *out, LineStyle style, double x, double y);
void draw_chart(FILE *out, const Chart *chart);
const char *style_words(LineStyle style);

#endif
