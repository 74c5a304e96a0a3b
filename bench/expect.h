// What the check of the library and of the C translation tries, and how it says what is wrong.
#ifndef EXPECT_H
#define EXPECT_H

#include "engine.h"

// What is to be written holds this before a call. The longest input that is tried is one block longer than any that is taken.
enum { UNTOUCHED = 0xa5, LONGEST = BLOCK_BYTES * (MOST_BLOCKS + 1) };

// The steps that are taken.
enum { STEPS = 13 };
extern const uint8_t steps[STEPS];

// The library and its translation.
extern const struct engine *const engines[2];

int same(const uint8_t *a, const uint8_t *b, size_t length);

// Says where a call of an engine is wrong: the first place, and not the others.
void expect(int right, size_t engine, enum call call, const char *of, size_t number);

// In how many places any call was wrong.
int faults(void);

// Numbers for inputs, the same in every run.
void draw(uint8_t *bytes, size_t length);

// Holds the translation to the library on other inputs than the vectors, at all offsets and at records of any, with all steps and
// where a call refuses: the calls of blocks, those of key wrap, and those of packets.
void compare_engines(void);
void compare_wraps(void);
void compare_packets(void);

#endif
