#define _POSIX_C_SOURCE 200809L
#include "clock.h"
#include <stdlib.h>
#include <string.h>
#include <time.h>

double now_us(void) {
  struct timespec t;
  clock_gettime(CLOCK_THREAD_CPUTIME_ID, &t);
  return t.tv_sec * 1e6 + t.tv_nsec / 1e3;
}

static int compare(const void *a, const void *b) {
  double x = *(const double *)a, y = *(const double *)b;
  return (x > y) - (x < y);
}

double median_of(const double *times, size_t count) {
  double sorted[count];
  memcpy(sorted, times, sizeof sorted);
  qsort(sorted, count, sizeof *sorted, compare);
  return sorted[count / 2];
}
