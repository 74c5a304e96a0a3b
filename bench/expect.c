// What the check tries, and what it says.
#include "expect.h"

#include <stdio.h>
#include <string.h>

const uint8_t steps[STEPS] = {1, 4, 5, 6, 7, 8, 9, 10, 11, 12, 13, 14, 15};

const struct engine *const engines[2] = {&library, &translation};

static int wrong[2][CALLS], all_wrong;

int same(const uint8_t *a, const uint8_t *b, size_t length)
{
    return memcmp(a, b, length) == 0;
}

void expect(int right, size_t engine, enum call call, const char *of, size_t number)
{
    if (right)
        return;
    all_wrong++;
    if (wrong[engine][call]++ == 0)
        printf("%s of %s is wrong at %s %zu\n", call_names[call], engines[engine]->name, of, number);
}

void draw(uint8_t *bytes, size_t length)
{
    static uint64_t seed = 1;
    for (size_t i = 0; i < length; i++) {
        seed = seed * 6364136223846793005 + 1442695040888963407;
        bytes[i] = (uint8_t)(seed >> 56);
    }
}

int faults(void)
{
    return all_wrong;
}
