// The check of the library and of the C translation, by vectors.
#include "check.h"

#include <string.h>

#include "expect.h"
#include "translated.h"

// One of NIST's vectors by the masked calls of one block, at a record of offsets. The step goes with its number, and its key's
// first half are the lent masks.
static void check_masked(const struct vectors *vectors, size_t number, size_t engine, const uint8_t *schedule,
                         const uint8_t offsets[BYTE_OFFSETS])
{
    const struct engine *e = engines[engine];
    const uint8_t *masks = vectors->block[number].key, *plain = vectors->block[number].plain;
    const uint8_t *cipher = vectors->block[number].cipher;
    uint8_t output[BLOCK_BYTES], states[RECORD_BYTES], states_back[DECRYPTION_RECORD_BYTES], step = steps[number % STEPS];

    memset(output, UNTOUCHED, BLOCK_BYTES);
    memset(states, UNTOUCHED, RECORD_BYTES);
    memset(states_back, UNTOUCHED, DECRYPTION_RECORD_BYTES);
    e->encrypt_published(schedule, SCHEDULE_BYTES, plain, BLOCK_BYTES, output, BLOCK_BYTES, offsets, BYTE_OFFSETS, step, 0);
    expect(same(output, cipher, BLOCK_BYTES), engine, ENCRYPT_PUBLISHED, "vector", number + 1);
    memset(output, UNTOUCHED, BLOCK_BYTES);
    e->encrypt_masked(schedule, SCHEDULE_BYTES, plain, BLOCK_BYTES, output, BLOCK_BYTES, masks, MASK_BYTES, offsets, BYTE_OFFSETS,
                      step, 0);
    expect(same(output, cipher, BLOCK_BYTES), engine, ENCRYPT_MASKED, "vector", number + 1);
    e->record_masked(schedule, SCHEDULE_BYTES, plain, BLOCK_BYTES, masks, MASK_BYTES, offsets, BYTE_OFFSETS, step, states,
                     RECORD_BYTES);
    expect(same(states + RECORD_BYTES - BLOCK_BYTES, cipher, BLOCK_BYTES), engine, RECORD_MASKED, "vector", number + 1);
    e->decrypt_published(schedule, SCHEDULE_BYTES, cipher, BLOCK_BYTES, output, BLOCK_BYTES, offsets, BYTE_OFFSETS, step);
    expect(same(output, plain, BLOCK_BYTES), engine, DECRYPT_PUBLISHED, "vector", number + 1);
    memset(output, UNTOUCHED, BLOCK_BYTES);
    e->decrypt_masked(schedule, SCHEDULE_BYTES, cipher, BLOCK_BYTES, output, BLOCK_BYTES, masks, MASK_BYTES, offsets, BYTE_OFFSETS,
                      step);
    expect(same(output, plain, BLOCK_BYTES), engine, DECRYPT_MASKED, "vector", number + 1);
    e->record_masked_decryption(schedule, SCHEDULE_BYTES, cipher, BLOCK_BYTES, masks, MASK_BYTES, offsets, BYTE_OFFSETS, step,
                                states_back, DECRYPTION_RECORD_BYTES);
    expect(same(states_back + DECRYPTION_RECORD_BYTES - BLOCK_BYTES, plain, BLOCK_BYTES), engine, RECORD_MASKED_DECRYPTION,
           "vector", number + 1);
}

// One of the vectors by all calls of one block: the masked ones at the record of one offset, which goes with its number, and at one
// that is drawn.
static void check_block(const struct vectors *vectors, size_t number, size_t engine)
{
    const struct engine *e = engines[engine];
    const uint8_t *plain = vectors->block[number].plain, *cipher = vectors->block[number].cipher;
    uint8_t schedule[SCHEDULE_BYTES], output[BLOCK_BYTES], one[BYTE_OFFSETS], drawn[BYTE_OFFSETS];

    memset(output, UNTOUCHED, BLOCK_BYTES);
    library.expand_key(vectors->block[number].key, KEY_BYTES, schedule, SCHEDULE_BYTES);
    e->encrypt(schedule, SCHEDULE_BYTES, plain, BLOCK_BYTES, output, BLOCK_BYTES);
    expect(same(output, cipher, BLOCK_BYTES), engine, ENCRYPT, "vector", number + 1);
    e->decrypt(schedule, SCHEDULE_BYTES, cipher, BLOCK_BYTES, output, BLOCK_BYTES);
    expect(same(output, plain, BLOCK_BYTES), engine, DECRYPT, "vector", number + 1);
    draw(drawn, BYTE_OFFSETS);
    for (size_t i = 0; i < BYTE_OFFSETS; i++) {
        one[i] = (uint8_t)((number + i) % 16);
        drawn[i] %= 16;
    }
    check_masked(vectors, number, engine, schedule, one);
    check_masked(vectors, number, engine, schedule, drawn);
}

// How many vectors, from one on, have the same key.
static size_t under_one_key(const struct vectors *vectors, size_t first)
{
    size_t count = 1;
    while (count < MOST_BLOCKS && first + count < BLOCKS &&
           same(vectors->block[first].key, vectors->block[first + count].key, KEY_BYTES))
        count++;
    return count;
}

// The vectors from one on that are under its key, in one call for each step. The offsets go with their numbers. Gives how many they
// are.
static size_t check_many(const struct vectors *vectors, size_t first, size_t engine)
{
    uint8_t schedule[SCHEDULE_BYTES], offsets[MOST_BLOCKS], input[LONGEST], output[LONGEST];
    size_t count = under_one_key(vectors, first), length = BLOCK_BYTES * count;

    for (size_t k = 0; k < count; k++) {
        memcpy(input + BLOCK_BYTES * k, vectors->block[first + k].plain, BLOCK_BYTES);
        offsets[k] = (uint8_t)((first + k) % 16);
    }
    library.expand_key(vectors->block[first].key, KEY_BYTES, schedule, SCHEDULE_BYTES);
    for (size_t n = 0; n < STEPS; n++) {
        memset(output, UNTOUCHED, length);
        engines[engine]->encrypt_blocks(schedule, SCHEDULE_BYTES, input, length, output, length, offsets, count, steps[n], 0);
        for (size_t k = 0; k < count; k++)
            expect(same(output + BLOCK_BYTES * k, vectors->block[first + k].cipher, BLOCK_BYTES), engine, ENCRYPT_BLOCKS,
                   "vector", first + k + 1);
    }
    return count;
}

// Which state of C.3 stands at a point of its decryption, which goes through them backwards. A round has six points there:
// unshifted, corrected, unboxed, keyed, unmixed, corrected; and five in the encryption: keyed, boxed, shifted, mixed, compensated.
static size_t point_back(size_t point)
{
    static const size_t earlier[6] = {3, 3, 4, 5, 7, 7};
    if (point < 2)
        return point == 0 ? 70 : 68;
    if (point == 84)
        return 0;
    return 70 - 5 * ((point - 2) / 6) - earlier[(point - 2) % 6];
}

// FIPS 197 A.3, and the states of C.3 by the plain engine.
static void check_appendix(const struct vectors *vectors, size_t engine)
{
    const struct engine *e = engines[engine];
    uint8_t schedule[SCHEDULE_BYTES], plain[RECORD_BYTES];

    memset(schedule, UNTOUCHED, SCHEDULE_BYTES);
    e->expand_key(vectors->key, KEY_BYTES, schedule, SCHEDULE_BYTES);
    for (size_t i = 0; i < SCHEDULE_BYTES; i++)
        expect(schedule[i] == vectors->schedule[i], engine, EXPAND_KEY, "byte of A.3", i);
    library.expand_key(vectors->block[0].key, KEY_BYTES, schedule, SCHEDULE_BYTES);
    memset(plain, UNTOUCHED, RECORD_BYTES);
    e->record_plain(schedule, SCHEDULE_BYTES, vectors->block[0].plain, BLOCK_BYTES, plain, RECORD_BYTES);
    for (size_t i = 0; i < RECORD_BYTES; i++)
        expect(plain[i] == vectors->states[i], engine, RECORD_PLAIN, "byte of C.3's states", i);
}

// The states of C.3 by the masked engine, at a record of offsets: under masks 00 the covered states are the plain ones.
static void check_states(const struct vectors *vectors, size_t engine, const uint8_t offsets[BYTE_OFFSETS])
{
    const struct engine *e = engines[engine];
    const uint8_t no_masks[MASK_BYTES] = {0}, *block = vectors->block[0].plain, *cipher = vectors->block[0].cipher;
    uint8_t schedule[SCHEDULE_BYTES], covered[RECORD_BYTES], back[DECRYPTION_RECORD_BYTES];

    library.expand_key(vectors->block[0].key, KEY_BYTES, schedule, SCHEDULE_BYTES);
    memset(covered, UNTOUCHED, RECORD_BYTES);
    memset(back, UNTOUCHED, DECRYPTION_RECORD_BYTES);
    e->record_masked(schedule, SCHEDULE_BYTES, block, BLOCK_BYTES, no_masks, MASK_BYTES, offsets, BYTE_OFFSETS, 1, covered,
                     RECORD_BYTES);
    e->record_masked_decryption(schedule, SCHEDULE_BYTES, cipher, BLOCK_BYTES, no_masks, MASK_BYTES, offsets, BYTE_OFFSETS, 1, back,
                                DECRYPTION_RECORD_BYTES);
    for (size_t i = 0; i < RECORD_BYTES; i++)
        expect(covered[i] == vectors->states[i], engine, RECORD_MASKED, "byte of C.3's states", i);
    for (size_t i = 0; i < DECRYPTION_RECORD_BYTES; i++) {
        uint8_t state = vectors->states[BLOCK_BYTES * point_back(i / BLOCK_BYTES) + i % BLOCK_BYTES];
        expect(back[i] == state, engine, RECORD_MASKED_DECRYPTION, "byte of C.3's states backwards", i);
    }
}

// FIPS 197, A.1 to A.3 and C.1 to C.3: the keys of each length, the masked calls at all offsets with all steps.
static void check_key(const struct vectors *vectors, size_t engine, size_t i)
{
    static const uint8_t plain[] = {0x00, 0x11, 0x22, 0x33, 0x44, 0x55, 0x66, 0x77, 0x88, 0x99, 0xaa, 0xbb, 0xcc, 0xdd, 0xee, 0xff};
    const struct engine *e = engines[engine];
    const struct lengths *lengths = &lengths_of_keys[i];
    const uint8_t *cipher = vectors->length[i].cipher;
    uint8_t key[KEY_BYTES], schedule[SCHEDULE_BYTES], output[BLOCK_BYTES], offsets[BYTE_OFFSETS];

    memset(schedule, UNTOUCHED, SCHEDULE_BYTES);
    e->expand_key(vectors->length[i].key, lengths->key, schedule, lengths->schedule);
    expect(same(schedule + lengths->schedule - BLOCK_BYTES, vectors->length[i].last, BLOCK_BYTES), engine, EXPAND_KEY, "A.", i + 1);
    for (size_t k = 0; k < KEY_BYTES; k++)
        key[k] = (uint8_t)k;
    library.expand_key(key, lengths->key, schedule, lengths->schedule);
    memset(output, UNTOUCHED, BLOCK_BYTES);
    e->encrypt(schedule, lengths->schedule, plain, BLOCK_BYTES, output, BLOCK_BYTES);
    expect(same(output, cipher, BLOCK_BYTES), engine, ENCRYPT, "C.", i + 1);
    e->decrypt(schedule, lengths->schedule, cipher, BLOCK_BYTES, output, BLOCK_BYTES);
    expect(same(output, plain, BLOCK_BYTES), engine, DECRYPT, "C.", i + 1);
    for (size_t n = 0; n < 16 * STEPS; n++) {
        for (size_t k = 0; k < BYTE_OFFSETS; k++)
            offsets[k] = (uint8_t)((n + k) % 16);
        memset(output, UNTOUCHED, BLOCK_BYTES);
        e->encrypt_published(schedule, lengths->schedule, plain, BLOCK_BYTES, output, BLOCK_BYTES, offsets, BYTE_OFFSETS,
                             steps[n / 16], 0);
        expect(same(output, cipher, BLOCK_BYTES), engine, ENCRYPT_PUBLISHED, "C.", i + 1);
        e->decrypt_published(schedule, lengths->schedule, cipher, BLOCK_BYTES, output, BLOCK_BYTES, offsets, BYTE_OFFSETS,
                             steps[n / 16]);
        expect(same(output, plain, BLOCK_BYTES), engine, DECRYPT_PUBLISHED, "C.", i + 1);
    }
}

int check_engines(const struct vectors *vectors)
{
    static const uint8_t zeros[BYTE_OFFSETS], rising[] = {0, 1, 2, 3, 4, 5, 6, 7, 8, 9, 10, 11, 12, 13, 14, 15};
    translated_prepare();
    for (size_t engine = 0; engine < 2; engine++) {
        for (size_t number = 0; number < BLOCKS; number++)
            check_block(vectors, number, engine);
        for (size_t first = 0; first < BLOCKS;)
            first += check_many(vectors, first, engine);
        for (size_t i = 0; i < KEY_LENGTHS; i++)
            check_key(vectors, engine, i);
        check_appendix(vectors, engine);
        check_states(vectors, engine, zeros);
        check_states(vectors, engine, rising);
        check_wraps(vectors, engine);
        check_packets(vectors, engine);
        check_tower(engine);
    }
    compare_engines();
    compare_wraps();
    compare_packets();
    return faults() == 0;
}
