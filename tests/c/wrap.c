/*
 * Key wrap as a C compiler calls it: the vectors of RFC 3394 with a 256-bit key, by both engines and at every offset, every damaged
 * bit, every length, also of a schedule, and every set of causes of refusal.
 */
#include "expect.h"

#include <string.h>

/* RFC 3394, 4.3, 4.5 and 4.6. The wrapping key is that of C.3, 00 01 .. 1f. */
static const struct vector {
    const char *key_data, *wrapped;
} vectors[] = {
    {"00112233445566778899aabbccddeeff", "64e8c3f9ce0f5ba263e9777905818a2a93c8191e7d6e8ae7"},
    {"00112233445566778899aabbccddeeff0001020304050607", "a8f9bc1612c68b3ff6e6f4fbe30e71e4769c8b80a32cb8958cd5d17d6b254da1"},
    {"00112233445566778899aabbccddeeff000102030405060708090a0b0c0d0e0f",
        "28c9f404c4b810f4cbccb35cfb87f8263f5786e2d80ed326cbc7f0e71a99f43bfb988b9b7a02dd21"},
};
enum { VECTORS = sizeof vectors / sizeof vectors[0] };

/* There is room for lengths above the greatest that is taken. */
static uint8_t schedule[SLIPGREASE_SCHEDULE_BYTES + 1], key_data[SLIPGREASE_KEY_DATA_MAX + 2 * SLIPGREASE_KEY_DATA_UNIT];
static uint8_t wrapped[sizeof key_data + 2 * SLIPGREASE_WRAP_EXTRA];

/* The key data of a vector is there, and nothing is wrapped yet; and the other way about. */
static struct lent to_wrap(const struct vector *vector)
{
    memset(key_data, 0, sizeof key_data);
    memset(wrapped, UNTOUCHED, sizeof wrapped);
    size_t length = read_digits(key_data, vector->key_data);
    return (struct lent){.schedule = {schedule, sizeof schedule - 1}, .key_data = {key_data, length},
        .wrapped = {wrapped, length + SLIPGREASE_WRAP_EXTRA}};
}

static struct lent to_unwrap(const struct vector *vector)
{
    struct lent lent = to_wrap(vector);
    memset(key_data, UNTOUCHED, sizeof key_data);
    memset(wrapped, 0, sizeof wrapped);
    read_digits(wrapped, vector->wrapped);
    return lent;
}

static struct lent right_to_wrap(void)
{
    return to_wrap(&vectors[0]);
}

static struct lent right_to_unwrap(void)
{
    return to_unwrap(&vectors[0]);
}

static unsigned wrapped_written(void)
{
    return touched(wrapped, sizeof wrapped);
}

static unsigned key_data_written(void)
{
    return touched(key_data, sizeof key_data);
}

static uint8_t wrap(const struct lent *lent)
{
    return slipgrease_wrap(HANDED(schedule), HANDED(key_data), HANDED(wrapped));
}

static uint8_t unwrap(const struct lent *lent)
{
    return slipgrease_unwrap(HANDED(schedule), HANDED(wrapped), HANDED(key_data));
}

static uint8_t wrap_masked(const struct lent *lent)
{
    return slipgrease_wrap_masked(HANDED(schedule), HANDED(key_data), HANDED(wrapped), lent->offset);
}

static uint8_t unwrap_masked(const struct lent *lent)
{
    return slipgrease_unwrap_masked(HANDED(schedule), HANDED(wrapped), HANDED(key_data), lent->offset);
}

/* The calls of both engines, each way. */
enum engine { PLAIN, MASKED, ENGINES };
static const struct call wrapping[ENGINES] = {
    {"wrap", wrap, {SLIPGREASE_REPLY_SCHEDULE_LENGTH, SLIPGREASE_REPLY_KEY_DATA_LENGTH, SLIPGREASE_REPLY_WRAPPED_LENGTH}},
    {"wrap_masked", wrap_masked,
        {SLIPGREASE_REPLY_SCHEDULE_LENGTH, SLIPGREASE_REPLY_OFFSET_RANGE, SLIPGREASE_REPLY_KEY_DATA_LENGTH,
            SLIPGREASE_REPLY_WRAPPED_LENGTH}},
};
static const struct call unwrapping[ENGINES] = {
    {"unwrap", unwrap,
        {SLIPGREASE_REPLY_SCHEDULE_LENGTH, SLIPGREASE_REPLY_KEY_DATA_LENGTH, SLIPGREASE_REPLY_WRAPPED_LENGTH,
            SLIPGREASE_REPLY_INTEGRITY}},
    {"unwrap_masked", unwrap_masked,
        {SLIPGREASE_REPLY_SCHEDULE_LENGTH, SLIPGREASE_REPLY_OFFSET_RANGE, SLIPGREASE_REPLY_KEY_DATA_LENGTH,
            SLIPGREASE_REPLY_WRAPPED_LENGTH, SLIPGREASE_REPLY_INTEGRITY}},
};

/* A vector both ways. Behind what a call writes nothing is touched. */
static void both_ways(const struct vector *vector, enum engine engine, uint8_t offset)
{
    const struct call *there = &wrapping[engine], *back = &unwrapping[engine];
    struct lent lent = to_wrap(vector);
    lent.offset = offset;
    number(there->name, there->answer(&lent), SLIPGREASE_REPLY_DONE);
    bytes(there->name, wrapped, vector->wrapped);
    number(there->name, touched(wrapped + lent.wrapped.length, sizeof wrapped - lent.wrapped.length), 0);

    lent = to_unwrap(vector);
    lent.offset = offset;
    number(back->name, back->answer(&lent), SLIPGREASE_REPLY_DONE);
    bytes(back->name, key_data, vector->key_data);
    number(back->name, touched(key_data + lent.key_data.length, sizeof key_data - lent.key_data.length), 0);
}

/* One bit after the other of what is wrapped is changed; the masked engine takes the offsets in turn. */
static void damage(const struct vector *vector, enum engine engine)
{
    const struct call *call = &unwrapping[engine];
    for (size_t bit = 0; bit < 8 * (strlen(vector->wrapped) / 2); bit++) {
        struct lent lent = to_unwrap(vector);
        lent.offset = (uint8_t)(bit % 16);
        wrapped[bit / 8] ^= (uint8_t)(1 << bit % 8);
        number(call->name, call->answer(&lent), SLIPGREASE_REPLY_INTEGRITY);
        number(call->name, key_data_written(), 0);
    }
}

/* What a call should answer to lengths; and otherwise, where they are right. */
static uint8_t reply_to_lengths(size_t data, size_t longer, uint8_t otherwise)
{
    if (data < SLIPGREASE_KEY_DATA_MIN || data > SLIPGREASE_KEY_DATA_MAX || data % SLIPGREASE_KEY_DATA_UNIT != 0)
        return SLIPGREASE_REPLY_KEY_DATA_LENGTH;
    return longer == data + SLIPGREASE_WRAP_EXTRA ? otherwise : SLIPGREASE_REPLY_WRAPPED_LENGTH;
}

/* Every length of key data, with lengths around the one that it has wrapped. Unwrapped are zeros, which nothing was wrapped to. */
static void lengths(enum engine engine)
{
    const struct call *there = &wrapping[engine], *back = &unwrapping[engine];
    for (size_t data = 0; data < sizeof key_data; data++)
        for (size_t longer = data; longer <= data + 2 * SLIPGREASE_WRAP_EXTRA; longer++) {
            struct lent lent = right_to_wrap();
            lent.key_data.length = data;
            lent.wrapped.length = longer;
            uint8_t reply = reply_to_lengths(data, longer, SLIPGREASE_REPLY_DONE);
            number(there->name, there->answer(&lent), reply);
            if (reply != SLIPGREASE_REPLY_DONE)
                number(there->name, wrapped_written(), 0);
            memset(key_data, UNTOUCHED, sizeof key_data);
            memset(wrapped, 0, sizeof wrapped);
            number(back->name, back->answer(&lent), reply_to_lengths(data, longer, SLIPGREASE_REPLY_INTEGRITY));
            number(back->name, key_data_written(), 0);
        }
}

/* Every length of a schedule but that of a 32-byte key, also those that the runs take. */
static void wrong_schedules(enum engine engine)
{
    const struct call *there = &wrapping[engine], *back = &unwrapping[engine];
    for (size_t length = 0; length <= sizeof schedule; length++) {
        if (length == SLIPGREASE_SCHEDULE_BYTES)
            continue;
        struct lent lent = right_to_wrap();
        lent.schedule.length = length;
        number(there->name, there->answer(&lent), SLIPGREASE_REPLY_SCHEDULE_LENGTH);
        number(there->name, wrapped_written(), 0);
        lent = right_to_unwrap();
        lent.schedule.length = length;
        number(back->name, back->answer(&lent), SLIPGREASE_REPLY_SCHEDULE_LENGTH);
        number(back->name, key_data_written(), 0);
    }
}

void key_wrap(void)
{
    memcpy(schedule, w, sizeof w);
    for (enum engine engine = PLAIN; engine < ENGINES; engine++) {
        for (size_t i = 0; i < VECTORS; i++) {
            for (uint8_t offset = 0; offset < (engine == MASKED ? 16 : 1); offset++)
                both_ways(&vectors[i], engine, offset);
            damage(&vectors[i], engine);
        }
        lengths(engine);
        wrong_schedules(engine);
        refusals(&wrapping[engine], right_to_wrap, wrapped_written);
        refusals(&unwrapping[engine], right_to_unwrap, key_data_written);
    }
    for (int offset = 16; offset < 256; offset++) {
        struct lent lent = right_to_wrap();
        lent.offset = (uint8_t)offset;
        number("wrap_masked", wrap_masked(&lent), SLIPGREASE_REPLY_OFFSET_RANGE);
        number("unwrap_masked", unwrap_masked(&lent), SLIPGREASE_REPLY_OFFSET_RANGE);
    }
}
