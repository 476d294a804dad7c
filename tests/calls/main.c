/* Every call for C through its header: each refusal it can give, the limits on both sides, exact and short buffers, empty ones, and
 * guard bytes round every buffer. Prints a line and ends with status 1 at the first surprise. */
#include <stdio.h>
#include <stdlib.h>

#include "calls.h"

static int checks;

void expect_of(const char *call, int holds, const char *what) {
  checks++;
  if (!holds) {
    printf("host: %s%s%s\n", call, *call ? ": " : "", what);
    exit(1);
  }
}

void expect(int holds, const char *what) { expect_of("", holds, what); }

int main(void) {
  test_rows_calls();
  test_chart_call();
  test_soft_edges();
  test_write_call();
  test_convert_call();
  test_counts();
  test_tall_charts();
  test_means();
  test_merged_edges();
  test_xs_call();
  test_stroke_call();
  test_row_order_call();
  printf("host: %d checks, each as expected\n", checks);
  return 0;
}
