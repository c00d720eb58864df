/* timing.c: the median that timing.h declares. */
#include "timing.h"

#include <stdlib.h>
#include <time.h>

enum { SAMPLES = 31 };

static double thread_time(void)
{
    struct timespec now;
    clock_gettime(CLOCK_THREAD_CPUTIME_ID, &now);
    return (double)now.tv_sec + (double)now.tv_nsec / 1e9;
}

static double time_runs(size_t (*run)(void *state), void *state, long runs)
{
    double begin = thread_time();
    for (long i = 0; i < runs; i++)
        run(state);
    return (thread_time() - begin) / (double)runs;
}

static int ascending(const void *left, const void *right)
{
    double a = *(const double *)left, b = *(const double *)right;
    return (a > b) - (a < b);
}

double median_time(size_t (*run)(void *state), void *state)
{
    double samples[SAMPLES], begin = thread_time();
    double first = time_runs(run, state, 1);
    long runs = first > 0.0005 ? 1 : 1 + (long)(0.0005 / (first > 1e-8 ? first : 1e-8));
    int count = 0;
    if (first > 1)
        return first;
    while (count < SAMPLES && (count < 3 || thread_time() - begin < 0.3))
        samples[count++] = time_runs(run, state, runs);
    qsort(samples, (size_t)count, sizeof *samples, ascending);
    return count % 2 ? samples[count / 2] : (samples[count / 2 - 1] + samples[count / 2]) / 2;
}
