// Key wrap, translated: over the plain engine, and over the masked one with the published masks, step 1 and one offset.
#include "state.h"
#include "translated.h"

enum { VALUE = 8, LEAST = 16, MOST = 256, INITIAL = 0xa6 };

// Which engine makes a block; the plain one has no offset.
struct block_engine {
    int masked;
    uint8_t offset;
};

static inline void sealed(struct block_engine engine, const uint8_t *schedule, const uint8_t block[BLOCK], uint8_t output[BLOCK])
{
    if (engine.masked)
        translated_encrypt_one(schedule, SCHEDULE, block, BLOCK, output, BLOCK, engine.offset);
    else
        translated_encrypt(schedule, SCHEDULE, block, BLOCK, output, BLOCK);
}

static inline void opened(struct block_engine engine, const uint8_t *schedule, const uint8_t block[BLOCK], uint8_t output[BLOCK])
{
    if (engine.masked)
        translated_decrypt_one(schedule, SCHEDULE, block, BLOCK, output, BLOCK, engine.offset);
    else
        translated_decrypt(schedule, SCHEDULE, block, BLOCK, output, BLOCK);
}

// A | R[i].
static inline void gather(uint8_t block[BLOCK], const uint8_t *buffer, const uint8_t *value)
{
    memcpy(block, buffer, VALUE);
    memcpy(block + VALUE, value, VALUE);
}

static inline void scatter(const uint8_t block[BLOCK], uint8_t *buffer, uint8_t *value)
{
    memcpy(buffer, block, VALUE);
    memcpy(value, block + VALUE, VALUE);
}

// Steps 1 to 6 n. The counter is at most 192, so it is all in the last byte of A.
static inline void wrap_steps(struct block_engine engine, const uint8_t *schedule, uint8_t *buffer, size_t n)
{
    for (size_t k = 0; k < 6 * n; k++) {
        uint8_t block[BLOCK], output[BLOCK], *value = buffer + VALUE * (k % n + 1);
        gather(block, buffer, value);
        sealed(engine, schedule, block, output);
        output[VALUE - 1] ^= (uint8_t)(k + 1);
        scatter(output, buffer, value);
    }
}

static inline void unwrap_steps(struct block_engine engine, const uint8_t *schedule, uint8_t *buffer, size_t n)
{
    for (size_t k = 6 * n; k-- > 0;) {
        uint8_t block[BLOCK], output[BLOCK], *value = buffer + VALUE * (k % n + 1);
        gather(block, buffer, value);
        block[VALUE - 1] ^= (uint8_t)(k + 1);
        opened(engine, schedule, block, output);
        scatter(output, buffer, value);
    }
}

static inline uint8_t refusal(size_t schedule_length, uint8_t offset, size_t key_data_length, size_t wrapped_length)
{
    if (schedule_length != SCHEDULE)
        return SCHEDULE_LENGTH;
    if (offset > 15)
        return OFFSET_RANGE;
    if (key_data_length % VALUE != 0 || key_data_length < LEAST || key_data_length > MOST)
        return KEY_DATA_LENGTH;
    if (wrapped_length != key_data_length + VALUE)
        return WRAPPED_LENGTH;
    return DONE;
}

static inline uint8_t wrap(struct block_engine engine, const uint8_t *schedule, size_t schedule_length, const uint8_t *key_data,
                           size_t key_data_length, uint8_t *restrict wrapped, size_t wrapped_length)
{
    uint8_t refused = refusal(schedule_length, engine.offset, key_data_length, wrapped_length);
    if (refused != DONE)
        return refused;
    memset(wrapped, INITIAL, VALUE);
    memcpy(wrapped + VALUE, key_data, key_data_length);
    wrap_steps(engine, schedule, wrapped, key_data_length / VALUE);
    return DONE;
}

// The steps are made in a scratch, so that the key data is written only where the register is right.
static inline uint8_t unwrap(struct block_engine engine, const uint8_t *schedule, size_t schedule_length, const uint8_t *wrapped,
                             size_t wrapped_length, uint8_t *restrict key_data, size_t key_data_length)
{
    static const uint8_t initial[VALUE] = {INITIAL, INITIAL, INITIAL, INITIAL, INITIAL, INITIAL, INITIAL, INITIAL};
    uint8_t refused = refusal(schedule_length, engine.offset, key_data_length, wrapped_length);
    if (refused != DONE)
        return refused;
    uint8_t scratch[MOST + VALUE];
    memcpy(scratch, wrapped, wrapped_length);
    unwrap_steps(engine, schedule, scratch, key_data_length / VALUE);
    if (memcmp(scratch, initial, VALUE) != 0)
        return INTEGRITY;
    memcpy(key_data, scratch + VALUE, key_data_length);
    return DONE;
}

uint8_t translated_wrap(const uint8_t *schedule, size_t schedule_length, const uint8_t *key_data, size_t key_data_length,
                        uint8_t *restrict wrapped, size_t wrapped_length)
{
    return wrap((struct block_engine){0, 0}, schedule, schedule_length, key_data, key_data_length, wrapped, wrapped_length);
}

uint8_t translated_unwrap(const uint8_t *schedule, size_t schedule_length, const uint8_t *wrapped, size_t wrapped_length,
                          uint8_t *restrict key_data, size_t key_data_length)
{
    return unwrap((struct block_engine){0, 0}, schedule, schedule_length, wrapped, wrapped_length, key_data, key_data_length);
}

uint8_t translated_wrap_masked(const uint8_t *schedule, size_t schedule_length, const uint8_t *key_data, size_t key_data_length,
                               uint8_t *restrict wrapped, size_t wrapped_length, uint8_t offset)
{
    return wrap((struct block_engine){1, offset}, schedule, schedule_length, key_data, key_data_length, wrapped, wrapped_length);
}

uint8_t translated_unwrap_masked(const uint8_t *schedule, size_t schedule_length, const uint8_t *wrapped, size_t wrapped_length,
                                 uint8_t *restrict key_data, size_t key_data_length, uint8_t offset)
{
    return unwrap((struct block_engine){1, offset}, schedule, schedule_length, wrapped, wrapped_length, key_data, key_data_length);
}
