// The check before anything is timed.
#ifndef CHECK_H
#define CHECK_H

#include "engine.h"
#include "vectors.h"

// Holds the library and the C translation to the vectors, and the translation to the library on other inputs, at all offsets and at
// records of any, with all steps and where a call refuses. Prints a line for each call that is wrong; gives 1 where none is.
int check_engines(const struct vectors *vectors);

// Holds the calls of key wrap of an engine to RFC 3394, the masked ones at all offsets, and those of packets to SP 800-38A, in
// every pipe, even and odd.
void check_wraps(const struct vectors *vectors, size_t engine);
void check_packets(const struct vectors *vectors, size_t engine);

// Holds the calls of one byte to the S-box of FIPS 197, on all pairs of bytes.
void check_tower(size_t engine);

#endif
