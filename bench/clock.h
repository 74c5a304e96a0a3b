// Times, and what is said of them.
#ifndef CLOCK_H
#define CLOCK_H

#include <stddef.h>

// Nanoseconds from some moment on.
double now(void);

// Sorts times, and gives by how many per cent the middle one lies above the least, which is then the first.
double spread_of(double *times, size_t count);

#endif
