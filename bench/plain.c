// The plain engine, translated: key expansion, both directions of the cipher and the recorded run.
#include "state.h"
#include "translated.h"

static const uint8_t round_constants[10] = {0x01, 0x02, 0x04, 0x08, 0x10, 0x20, 0x40, 0x80, 0x1b, 0x36};

static inline uint32_t sub_word(uint32_t x)
{
    uint8_t word[4];
    put_column(word, x);
    for (size_t i = 0; i < 4; i++)
        word[i] = sbox[word[i]];
    return column(word);
}

// The schedule of a key of so many words. Each call names a number, so that the compiler divides by none that it does not know.
static inline uint8_t by_words(const uint8_t *key, size_t words, uint8_t *restrict schedule, size_t schedule_length)
{
    if (schedule_length != BLOCK * (words + 7))
        return SCHEDULE_LENGTH;
    memcpy(schedule, key, 4 * words);
    uint32_t word = column(schedule + 4 * (words - 1));
    for (size_t i = words; i < 4 * (words + 7); i++) {
        if (i % words == 0)
            word = sub_word(rot_word(word)) ^ round_constants[i / words - 1];
        else if (words > 6 && i % words == 4)
            word = sub_word(word);
        word ^= column(schedule + 4 * (i - words));
        put_column(schedule + 4 * i, word);
    }
    return DONE;
}

uint8_t translated_expand_key(const uint8_t *key, size_t key_length, uint8_t *restrict schedule, size_t schedule_length)
{
    switch (key_length) {
    case 16:
        return by_words(key, 4, schedule, schedule_length);
    case 24:
        return by_words(key, 6, schedule, schedule_length);
    case 32:
        return by_words(key, 8, schedule, schedule_length);
    default:
        return KEY_LENGTH;
    }
}

static inline uint8_t refusal(size_t schedule_length, size_t input_length, size_t output_length)
{
    if (rounds_of(schedule_length) == 0)
        return SCHEDULE_LENGTH;
    if (input_length != BLOCK)
        return INPUT_LENGTH;
    if (output_length != BLOCK)
        return OUTPUT_LENGTH;
    return DONE;
}

uint8_t translated_encrypt(const uint8_t *schedule, size_t schedule_length, const uint8_t *input, size_t input_length,
                           uint8_t *restrict output, size_t output_length)
{
    uint8_t refused = refusal(schedule_length, input_length, output_length);
    if (refused != DONE)
        return refused;
    size_t rounds = rounds_of(schedule_length);
    uint8_t state[BLOCK];
    memcpy(state, input, BLOCK);
    add_round_key(state, schedule, 0);
    for (size_t round = 1; round < rounds; round++) {
        substitute(state, sbox);
        shift_rows(state);
        mix_columns(state);
        add_round_key(state, schedule, round);
    }
    substitute(state, sbox);
    shift_rows(state);
    add_round_key(state, schedule, rounds);
    memcpy(output, state, BLOCK);
    return DONE;
}

uint8_t translated_decrypt(const uint8_t *schedule, size_t schedule_length, const uint8_t *input, size_t input_length,
                           uint8_t *restrict output, size_t output_length)
{
    uint8_t refused = refusal(schedule_length, input_length, output_length);
    if (refused != DONE)
        return refused;
    size_t rounds = rounds_of(schedule_length);
    uint8_t state[BLOCK];
    memcpy(state, input, BLOCK);
    add_round_key(state, schedule, rounds);
    for (size_t round = rounds - 1; round > 0; round--) {
        inv_shift_rows(state);
        substitute(state, inv_sbox);
        add_round_key(state, schedule, round);
        inv_mix_columns(state);
    }
    inv_shift_rows(state);
    substitute(state, inv_sbox);
    add_round_key(state, schedule, 0);
    memcpy(output, state, BLOCK);
    return DONE;
}

uint8_t translated_record_plain(const uint8_t *schedule, size_t schedule_length, const uint8_t *input, size_t input_length,
                                uint8_t *restrict states, size_t states_length)
{
    size_t rounds = rounds_of(schedule_length);
    if (rounds == 0)
        return SCHEDULE_LENGTH;
    if (input_length != BLOCK)
        return INPUT_LENGTH;
    if (states_length != record_length(rounds))
        return RECORD_LENGTH;
    uint8_t state[BLOCK];
    memcpy(state, input, BLOCK);
    states = keep(state, states);
    for (size_t round = 0; round < rounds; round++) {
        add_round_key(state, schedule, round);
        states = keep(state, states);
        substitute(state, sbox);
        states = keep(state, states);
        shift_rows(state);
        states = keep(state, states);
        if (round < rounds - 1)
            mix_columns(state);
        else
            add_round_key(state, schedule, rounds);
        states = keep(state, states);
        // Where a masked run compensates or uncovers, a plain one has nothing to do.
        states = keep(state, states);
    }
    return DONE;
}
