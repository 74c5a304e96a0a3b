// The steps over a state, sixteen bytes, column by column: each changes the state in place.
#ifndef STATE_H
#define STATE_H

#include <stddef.h>
#include <stdint.h>
#include <string.h>

#include "tables.h"

// The schedule is that of a 32-byte key, the longest.
enum { BLOCK = 16, SCHEDULE = 240 };

// How many rounds a schedule is for, which has a round key for each and one more, and 0 where no key has such a schedule.
static inline size_t rounds_of(size_t schedule_length)
{
    return schedule_length == 176 || schedule_length == 208 || schedule_length == SCHEDULE ? schedule_length / BLOCK - 1 : 0;
}

// How long the record of so many rounds is, and that of a decryption.
static inline size_t record_length(size_t rounds)
{
    return BLOCK * (5 * rounds + 1);
}

static inline size_t decryption_record_length(size_t rounds)
{
    return BLOCK * (6 * rounds + 1);
}

static inline void add(uint8_t state[BLOCK], const uint8_t other[BLOCK])
{
    for (size_t i = 0; i < BLOCK; i++)
        state[i] ^= other[i];
}

static inline void add_round_key(uint8_t state[BLOCK], const uint8_t *schedule, size_t round)
{
    add(state, schedule + BLOCK * round);
}

static inline void substitute(uint8_t state[BLOCK], const uint8_t box[256])
{
    for (size_t i = 0; i < BLOCK; i++)
        state[i] = box[state[i]];
}

// Byte i comes from place step * i modulo 16.
static inline void move(uint8_t state[BLOCK], size_t step)
{
    uint8_t moved[BLOCK];
    for (size_t i = 0; i < BLOCK; i++)
        moved[i] = state[step * i % BLOCK];
    memcpy(state, moved, BLOCK);
}

static inline void shift_rows(uint8_t state[BLOCK])
{
    move(state, 5);
}

static inline void inv_shift_rows(uint8_t state[BLOCK])
{
    move(state, 13);
}

// A column as a word of 32 bits, its first byte lowest.
static inline uint32_t column(const uint8_t *s)
{
    return s[0] | (uint32_t)s[1] << 8 | (uint32_t)s[2] << 16 | (uint32_t)s[3] << 24;
}

static inline void put_column(uint8_t *s, uint32_t x)
{
    for (size_t i = 0; i < 4; i++)
        s[i] = (uint8_t)(x >> 8 * i);
}

static inline uint32_t rot_word(uint32_t x)
{
    return x >> 8 | x << 24;
}

// Four bytes doubled: the bits of each move up by one, and 1b is added where its bit 7 was set.
static inline uint32_t doubled(uint32_t x)
{
    return (x & 0x7f7f7f7f) << 1 ^ (x >> 7 & 0x01010101) * 0x1b;
}

// The same twice, at once.
static inline uint32_t fourfold(uint32_t x)
{
    return (x & 0x3f3f3f3f) << 2 ^ (x >> 7 & 0x01010101) * 0x36 ^ (x >> 6 & 0x01010101) * 0x1b;
}

static inline uint32_t mix_column(uint32_t x)
{
    uint32_t turned = rot_word(x), sum = x ^ turned;
    return turned ^ rot_word(rot_word(sum)) ^ doubled(sum);
}

// To each byte, four times its sum with the byte opposite is added: mixed, that is the inverse.
static inline uint32_t inv_mix_column(uint32_t x)
{
    return mix_column(x ^ fourfold(x ^ rot_word(rot_word(x))));
}

static inline void mix_columns(uint8_t state[BLOCK])
{
    for (size_t i = 0; i < BLOCK; i += 4)
        put_column(state + i, mix_column(column(state + i)));
}

static inline void inv_mix_columns(uint8_t state[BLOCK])
{
    for (size_t i = 0; i < BLOCK; i += 4)
        put_column(state + i, inv_mix_column(column(state + i)));
}

// Writes a state to a record; gives the place of the next one.
static inline uint8_t *keep(const uint8_t state[BLOCK], uint8_t *record)
{
    memcpy(record, state, BLOCK);
    return record + BLOCK;
}

#endif
