/* The viewer: view TABLE writes the chart of a table to standard output, as one page of HTML that needs nothing else.
 *
 * The chart is drawn by examples/draw_chart.c from the strokes, in their millimetres; a zoom, chosen without a script, says how many
 * millimetres of the screen one of them is. A script only sets off the lines of the step under the pointer. The styles and the script stand
 * in view_style.h.
 *
 * Ends with status 0; with 1 and without a page if the table is refused, or has no strokes; with 2 for trouble with the arguments or files.
 */
#include <string.h>

#include "draw.h"
#include "view_style.h"

static const char PROGRAM[] = "view";

/* How many times as large as on paper the chart is shown; the third is the one at first, at which a name of 16 letters can be read. */
enum { ZOOMS = 5, FIRST_ZOOM = 3 };

/* The name of the file, without its folders. */
static void put_file(FILE *out, const char *path) {
  const char *slash = strrchr(path, '/'), *name = slash == NULL || slash[1] == '\0' ? path : slash + 1;
  for (; *name != '\0'; name++) {
    uint8_t letter = (uint8_t)*name;
    if (letter < 0x20 || letter == 0x7F) letter = '?';
    put_text(out, &letter, 1);
  }
}

static void put_head(FILE *out, const char *path) {
  fprintf(out, "<!DOCTYPE html>\n<html lang=\"en\">\n<head>\n<meta charset=\"utf-8\">\n");
  fprintf(out, "<meta name=\"viewport\" content=\"width=device-width, initial-scale=1\">\n");
  fprintf(out, "<title>");
  put_file(out, path);
  fprintf(out, ": chart</title>\n<style>\n%s", PAGE_STYLE);
  for (int zoom = 1; zoom <= ZOOMS; zoom++) fprintf(out, "#zoom%d:checked ~ .sheet { --zoom: %d; }\n", zoom, zoom);
  fprintf(out, "</style>\n</head>\n<body>\n");
}

/* One of the numbers that tell of the chart as a whole. */
static void put_figure(FILE *out, const char *what, unsigned long number) {
  fprintf(out, "<div><dt>%s</dt><dd>%lu</dd></div>", what, number);
}

static void put_figures(FILE *out, const Chart *chart, const char *path) {
  fprintf(out, "<h1>");
  put_file(out, path);
  fprintf(out, "</h1>\n<dl class=\"figures\">");
  put_figure(out, "steps", chart->steps);
  put_figure(out, "edges", chart->edges);
  put_figure(out, "lines", chart->merged_edges);
  put_figure(out, "rows", chart->rows);
  put_figure(out, "points", chart->points);
  put_figure(out, "total", chart->total);
  put_figure(out, "crossings", chart->crossings);
  fprintf(out, "</dl>\n");
}

/* The tips of the samples are those of the chart, which the page has further down. */
static void put_legend(FILE *out) {
  fprintf(out, "<ul class=\"legend\">\n");
  for (int style = MUST; style < LINE_STYLES; style++) {
    fprintf(out, "<li><svg viewBox=\"-0.5 -1 10.5 2\" aria-hidden=\"true\">");
    draw_sample(out, (LineStyle)style, 0, 0);
    fprintf(out, "</svg>%s</li>\n", style_words((LineStyle)style));
  }
  fprintf(out, "<li>Edges of the same ends and firmness are one line. Where lines lie on each other the lower is wider.</li>\n");
  fprintf(out, "<li class=\"hint\">Hovering over a step or a line tells more of it.</li>\n</ul>\n");
}

static void put_zoom(FILE *out) {
  fprintf(out, "<span class=\"zoom\">Zoom</span>\n<input type=\"radio\" name=\"zoom\" id=\"fit\"><label for=\"fit\">fit</label>\n");
  for (int zoom = 1; zoom <= ZOOMS; zoom++)
    fprintf(out, "<input type=\"radio\" name=\"zoom\" id=\"zoom%d\"%s><label for=\"zoom%d\">%d:1</label>\n", zoom,
            zoom == FIRST_ZOOM ? " checked" : "", zoom, zoom);
}

static void put_chart(FILE *out, const Chart *chart) {
  Frame f = frame_of(chart);
  fprintf(out, "<div class=\"sheet\">\n<svg class=\"chart\" width=\"%gmm\" height=\"%gmm\" viewBox=\"%g %g %g %g\" style=\"--width: %g\"",
          f.width, f.height, f.left, f.top, f.width, f.height, f.width);
  fprintf(out, " text-rendering=\"geometricPrecision\" role=\"img\" aria-label=\"the chart; its steps and lines are listed below\">\n");
  draw_tips(out);
  draw_chart(out, chart);
  fprintf(out, "</svg>\n</div>\n");
}

static void list_steps(FILE *out, const Chart *chart) {
  char kind[32];
  fprintf(out,
          "<table>\n<caption>Steps</caption>\n<tr><th>step</th><th class=\"word\">name</th>"
          "<th class=\"word\">kind</th><th>row</th><th>x</th></tr>\n");
  for (unsigned i = 0; i < chart->steps; i++) {
    kind_text(&chart->step[i], kind, sizeof kind);
    fprintf(out, "<tr><td>%u</td><td class=\"word\">", i);
    put_name(out, chart, i);
    fprintf(out, "</td><td class=\"word\">%s</td><td>%u</td><td>%u</td></tr>\n", kind, chart->point_row[i], (unsigned)chart->x[i]);
  }
  fprintf(out, "</table>\n");
}

/* What hovering tells, for paper and for who has no pointer. */
static void put_lists(FILE *out, const Chart *chart) {
  fprintf(out, "<details>\n<summary>Steps and lines as lists</summary>\n");
  list_steps(out, chart);
  fprintf(out, "<p class=\"caption\">Lines</p>\n<ul class=\"list\">\n");
  for (unsigned i = 0; i < chart->merged_edges; i++) {
    fprintf(out, "<li>");
    put_line_title(out, chart, i);
    fprintf(out, "</li>\n");
  }
  fprintf(out, "</ul>\n</details>\n");
}

static void put_page(FILE *out, const Chart *chart, const char *path) {
  put_head(out, path);
  put_figures(out, chart, path);
  put_legend(out);
  put_zoom(out);
  put_chart(out, chart);
  put_lists(out, chart);
  fprintf(out, "<script>\n%s</script>\n</body>\n</html>\n", PAGE_SCRIPT);
}

int main(int argc, char **argv) {
  static Chart chart;
  uint64_t answer;
  if (argc != 2) {
    fprintf(stderr, "usage: tools/view TABLE > PAGE\n");
    return TROUBLE;
  }
  int status = load_chart(PROGRAM, argv[1], &chart, &answer);
  if (status != 0) return status;
  if (yuvatondro_refusal(answer) == YUVATONDRO_DONE && !chart.has_xs) answer = YUVATONDRO_LARGE_CHART;
  if (yuvatondro_refusal(answer) != YUVATONDRO_DONE) {
    explain_refusal(stderr, PROGRAM, &chart, answer);
    return REFUSED;
  }
  put_page(stdout, &chart, argv[1]);
  return fflush(stdout) != 0 || ferror(stdout) ? report(PROGRAM, "standard output") : 0;
}
