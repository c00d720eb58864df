/* timing.h: how the benchmark takes a time. */
#ifndef TIMING_H
#define TIMING_H

#include <stddef.h>

/* quick runs are timed in so many rounds through all of them, and the least median counts */
enum { ROUNDS = 9 };

/* Seconds of thread CPU time that one run takes: the median of samples of half a millisecond or one run
 * each; fewer when runs are long. */
double median_time(size_t (*run)(void *state), void *state);

#endif
