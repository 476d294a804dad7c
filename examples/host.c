/* A host program: host TABLE [SVG [SHORTEST]] [--row ROW [--tries TRIES]]
 *
 * Reads a table from a file, prints all that the calls of include/yuvatondro.h tell of it as lists and as a drawing in text, and, with a
 * second argument, draws the chart as a picture. With a third it writes the shortest form of the table to a file, also of a table that
 * has no chart; two tables say the same just if these files are equal. A table that was stored in long forms of numbers is converted
 * first, and a message says so. chart.c has the calls. What the calls do not hand out, said.c reads: the edges, and the kinds of the steps,
 * which only the picture shows.
 *
 * With --row it prints, in place of the lists, the best order of that row that is found in so many tries, in the most there may be if none
 * are named, and what it is worth; drawing and picture have the row in this order.
 *
 * Ends with status 0; with 1 if the table, the row or the tries are refused, after printing what is known; with 2 for trouble with the
 * arguments or files.
 */
#include <string.h>

#include "chart.h"

static const char PROGRAM[] = "host";

enum { MAX_FILES = 3 };

/* What the program is asked for: the files in the order of the usage, the others NULL. */
typedef struct {
  const char *file[MAX_FILES];
  int has_row, has_tries;
  size_t row, tries;
} Request;

/* The number that a word of digits is. One that is too large for its type becomes the largest, which the library refuses too. */
static int read_number(const char *word, size_t *number) {
  if (word == NULL || *word == '\0') return 0;
  for (*number = 0; *word != '\0'; word++) {
    if (*word < '0' || *word > '9') return 0;
    size_t digit = (size_t)(*word - '0');
    *number = *number > (SIZE_MAX - digit) / 10 ? SIZE_MAX : 10 * *number + digit;
  }
  return 1;
}

/* The number behind an option, which may be given once. */
static int read_option(const char *word, int *is_given, size_t *number) {
  if (*is_given) return 0;
  *is_given = 1;
  return read_number(word, number);
}

/* Options may stand before, between and behind the files. A word that starts like one is no file. */
static int read_request(char **argv, Request *request) {
  unsigned files = 0;
  *request = (Request){.tries = YUVATONDRO_MAX_TRIES};
  while (*++argv != NULL) {
    if (strcmp(*argv, "--row") == 0) {
      if (!read_option(*++argv, &request->has_row, &request->row)) return 0;
    } else if (strcmp(*argv, "--tries") == 0) {
      if (!read_option(*++argv, &request->has_tries, &request->tries)) return 0;
    } else if (strncmp(*argv, "--", 2) != 0 && files < MAX_FILES) {
      request->file[files++] = *argv;
    } else {
      return 0;
    }
  }
  return files > 0 && request->has_row >= request->has_tries;
}

static void put_shortest(FILE *out, const Chart *chart) { fwrite(chart->shortest, 1, chart->shortest_len, out); }

static int write_file(const char *path, const Chart *chart, void (*put)(FILE *, const Chart *)) {
  FILE *out = fopen(path, "wb");
  if (out == NULL) return report(PROGRAM, path);
  put(out, chart);
  int failed = ferror(out);
  return fclose(out) != 0 || failed ? report(PROGRAM, path) : 0;
}

/* Prints what is known, of the chart or of the order of a row, and writes the shortest form, if a file is named for it; then says what was
 * refused, or draws the picture. */
static int show_chart(const Chart *chart, uint64_t answer, const RowOrder *order, const Request *request) {
  const char *svg = request->file[1], *shortest = request->file[2];
  int refused = yuvatondro_refusal(answer) != YUVATONDRO_DONE;
  if (!request->has_row)
    list_chart(stdout, chart);
  else if (!refused)
    list_row_order(stdout, chart, order);
  if (!refused) draw_text(stdout, chart);
  if (fflush(stdout) != 0 || ferror(stdout)) return report(PROGRAM, "standard output");
  if (shortest != NULL && chart->known >= STEPS && write_file(shortest, chart, put_shortest) != 0) return TROUBLE;
  if (refused) {
    explain_refusal(stderr, PROGRAM, chart, answer);
    return REFUSED;
  }
  return svg == NULL ? 0 : write_file(svg, chart, draw_svg);
}

int main(int argc, char **argv) {
  static Chart chart;
  static RowOrder order;
  Request request;
  uint64_t answer;
  if (argc == 0 || !read_request(argv, &request)) {
    fprintf(stderr, "usage: host TABLE [SVG [SHORTEST]] [--row ROW [--tries TRIES]]\n");
    return TROUBLE;
  }
  int status = load_chart(PROGRAM, request.file[0], &chart, &answer);
  if (status == 0 && request.has_row && yuvatondro_refusal(answer) == YUVATONDRO_DONE)
    status = order_row(PROGRAM, &chart, request.row, request.tries, &order, &answer);
  return status != 0 ? status : show_chart(&chart, answer, &order, &request);
}
