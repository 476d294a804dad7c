// Time of this thread on the processor, in microseconds: other processes that take it meanwhile do not count.
#ifndef CLOCK_H
#define CLOCK_H
#include <stddef.h>
#ifdef __cplusplus
extern "C" {
#endif
double now_us(void);

// The middle one of some times.
double median_of(const double *times, size_t count);
#ifdef __cplusplus
}
#endif
#endif
