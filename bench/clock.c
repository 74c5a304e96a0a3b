// Times, and what is said of them.
#define _POSIX_C_SOURCE 199309L
#include "clock.h"

#include <stdlib.h>
#include <time.h>

double now(void)
{
    struct timespec time;
    clock_gettime(CLOCK_MONOTONIC, &time);
    return (double)time.tv_sec * 1e9 + (double)time.tv_nsec;
}

static int rising(const void *a, const void *b)
{
    double x = *(const double *)a, y = *(const double *)b;
    return (x > y) - (x < y);
}

double spread_of(double *times, size_t count)
{
    qsort(times, count, sizeof *times, rising);
    return 100 * (times[count / 2] - times[0]) / times[0];
}
