// The check of key wrap: of both engines by RFC 3394, and of the C translation by the library.
#include "check.h"

#include <string.h>

#include "expect.h"

// One more length than is taken at either end.
enum { UNIT = 8, LONGEST_KEY_DATA = MOST_KEY_DATA + UNIT, LONGEST_WRAPPED = LONGEST_KEY_DATA + WRAP_EXTRA + 1 };

static int unwraps(enum call call)
{
    return call == UNWRAP || call == UNWRAP_MASKED;
}

// All four calls read one buffer and write another; the plain ones have no offset.
static uint8_t made(size_t engine, enum call call, const uint8_t *schedule, size_t schedule_length, const uint8_t *input,
                    size_t input_length, uint8_t *output, size_t output_length, uint8_t offset)
{
    const struct engine *e = engines[engine];
    switch (call) {
    case WRAP:
        return e->wrap(schedule, schedule_length, input, input_length, output, output_length);
    case UNWRAP:
        return e->unwrap(schedule, schedule_length, input, input_length, output, output_length);
    case WRAP_MASKED:
        return e->wrap_masked(schedule, schedule_length, input, input_length, output, output_length, offset);
    default:
        return e->unwrap_masked(schedule, schedule_length, input, input_length, output, output_length, offset);
    }
}

void check_wraps(const struct vectors *vectors, size_t engine)
{
    uint8_t schedule[SCHEDULE_BYTES], output[LONGEST_WRAP];
    library.expand_key(vectors->block[0].key, KEY_BYTES, schedule, SCHEDULE_BYTES);
    for (int call = WRAP; call <= UNWRAP_MASKED; call++)
        for (size_t number = 0; number < WRAPS; number++) {
            size_t length = vectors->wrap[number].length, longer = length + WRAP_EXTRA;
            const uint8_t *data = vectors->wrap[number].data, *wrapped = vectors->wrap[number].wrapped;
            int back = unwraps((enum call)call);
            for (uint8_t offset = 0; offset < 16; offset++) {
                memset(output, UNTOUCHED, sizeof output);
                made(engine, (enum call)call, schedule, SCHEDULE_BYTES, back ? wrapped : data, back ? longer : length, output,
                     back ? length : longer, offset);
                expect(same(output, back ? data : wrapped, back ? length : longer), engine, (enum call)call,
                       "wrap of RFC 3394 number", number + 1);
            }
        }
}

// A call of both engines: lengths and offset are given, and what is unwrapped is damaged or not. Everything that a call can write
// is compared, reply and bytes.
struct arguments {
    size_t schedule, key_data, wrapped;
    uint8_t offset;
    int damaged;
};

static void compare(enum call call, const struct arguments *a, size_t number)
{
    uint8_t schedule[SCHEDULE_BYTES + 1], key_data[LONGEST_KEY_DATA], wrapped[LONGEST_WRAPPED];
    uint8_t written[2][LONGEST_WRAPPED], reply[2];
    draw(schedule, sizeof schedule);
    draw(key_data, sizeof key_data);
    draw(wrapped, sizeof wrapped);
    // Where it refuses, what is to be unwrapped stays as it was drawn.
    library.wrap(schedule, SCHEDULE_BYTES, key_data, a->key_data, wrapped, a->wrapped);
    if (a->damaged)
        wrapped[number % a->wrapped] ^= (uint8_t)(1 << number % 8);
    memset(written, UNTOUCHED, sizeof written);
    for (size_t i = 0; i < 2; i++)
        if (unwraps(call))
            reply[i] = made(i, call, schedule, a->schedule, wrapped, a->wrapped, written[i], a->key_data, a->offset);
        else
            reply[i] = made(i, call, schedule, a->schedule, key_data, a->key_data, written[i], a->wrapped, a->offset);
    expect(reply[0] == reply[1] && same(written[0], written[1], sizeof written[0]), 1, call, "comparison", number);
}

// Every length that is taken, whole and damaged, at every offset.
static void compare_taken(enum call call)
{
    struct arguments a = {.schedule = SCHEDULE_BYTES};
    size_t number = 0;
    for (a.key_data = LEAST_KEY_DATA; a.key_data <= MOST_KEY_DATA; a.key_data += UNIT)
        for (a.offset = 0; a.offset < 16; a.offset++)
            for (a.damaged = 0; a.damaged < 2; a.damaged++) {
                a.wrapped = a.key_data + WRAP_EXTRA;
                compare(call, &a, ++number);
            }
}

// Lengths at the edges, each with each, an offset that is right or too great, whole and damaged.
static void compare_refused(enum call call)
{
    static const size_t lengths[] = {0, 8, 15, 16, 17, 20, 24, 255, 256, 257, 264};
    for (size_t choice = 0; choice < 11 * 3 * 3 * 2 * 2; choice++) {
        struct arguments a;
        size_t rest = choice;
        a.key_data = lengths[rest % 11];
        a.wrapped = a.key_data + WRAP_EXTRA - 1 + (rest /= 11) % 3;
        a.schedule = SCHEDULE_BYTES - 1 + (rest /= 3) % 3;
        a.offset = (uint8_t)(15 + (rest /= 3) % 2);
        a.damaged = (int)(rest / 2);
        compare(call, &a, choice + 1);
    }
}

void compare_wraps(void)
{
    for (int call = WRAP; call <= UNWRAP_MASKED; call++) {
        compare_taken((enum call)call);
        compare_refused((enum call)call);
    }
}
