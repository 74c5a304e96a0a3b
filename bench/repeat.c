// What the makers are made to do.
#include <string.h>

#include "maker.h"
#include "translated.h"

enum { ELEVEN_BLOCKS = 11 * BLOCK_BYTES };

static struct {
    uint8_t key[KEY_BYTES], schedule[SCHEDULE_BYTES], plain[BLOCK_BYTES], cipher[BLOCK_BYTES], output[BLOCK_BYTES];
    uint8_t states[RECORD_BYTES], decryption_states[DECRYPTION_RECORD_BYTES];
    uint8_t blocks[BLOCK_BYTES * MOST_BLOCKS], outputs[BLOCK_BYTES * MOST_BLOCKS], offsets[MOST_BLOCKS], one_record[BYTE_OFFSETS];
    uint8_t key_data[KEY_DATA], wrapped[KEY_DATA + WRAP_EXTRA], unwrapped[KEY_DATA], rewrapped[KEY_DATA + WRAP_EXTRA];
    struct {
        uint8_t schedule[SCHEDULE_BYTES], cipher[BLOCK_BYTES];
    } shorter[KEY_LENGTHS - 1];
    uint8_t pipes[PIPES_BYTES], packet[PACKET_BYTES], scrambled[PACKET_BYTES], unlisted[PACKET_BYTES], made[PACKET_BYTES];
} work;

static const uint8_t *const starting_block = work.pipes + PIPES_BYTES - PIPE_BYTES + START_AT;

enum { OFFSET = 5, STEP = 1, OTHER_STEP = 5, FORM = 0 };

// A record of offsets that is not that of one offset.
static const uint8_t another_record[BYTE_OFFSETS] = {13, 7, 1, 1, 15, 9, 2, 2, 4, 12, 11, 4, 3, 3, 14, 5};

// Pipes 0010 to 0016 under one key, and packets of 0016 and 0017, all payload.
static void start_packets(void)
{
    for (size_t k = 0; k < PIPES; k++) {
        uint8_t *pipe = work.pipes + PIPE_BYTES * k;
        pipe[1] = (uint8_t)(0x10 + k);
        memcpy(pipe + EVEN_AT, work.schedule, SCHEDULE_BYTES);
        memcpy(pipe + ODD_AT, work.schedule, SCHEDULE_BYTES);
        memcpy(pipe + START_AT, work.cipher, BLOCK_BYTES);
    }
    memcpy(work.packet, (uint8_t[]){0x47, 0x00, 0x16, 0x10}, HEADER_BYTES);
    for (size_t i = HEADER_BYTES; i < PACKET_BYTES; i++)
        work.packet[i] = (uint8_t)i;
    memcpy(work.unlisted, work.packet, PACKET_BYTES);
    work.unlisted[2] = 0x17;
    library.scramble(work.packet, PACKET_BYTES, work.scrambled, PACKET_BYTES, work.pipes, PIPES_BYTES, false);
}

void start(const struct maker *maker)
{
    for (size_t i = 0; i < KEY_BYTES; i++)
        work.key[i] = (uint8_t)i;
    for (size_t i = 0; i < BLOCK_BYTES; i++)
        work.plain[i] = (uint8_t)(0x11 * i);
    for (size_t i = 0; i < MOST_BLOCKS; i++) {
        memcpy(work.blocks + BLOCK_BYTES * i, work.plain, BLOCK_BYTES);
        work.offsets[i] = (uint8_t)(i % 16);
    }
    for (size_t i = 0; i < BYTE_OFFSETS; i++)
        work.one_record[i] = (uint8_t)((OFFSET + i) % 16);
    library.expand_key(work.key, KEY_BYTES, work.schedule, SCHEDULE_BYTES);
    library.encrypt(work.schedule, SCHEDULE_BYTES, work.plain, BLOCK_BYTES, work.cipher, BLOCK_BYTES);
    for (size_t i = 0; i < KEY_LENGTHS - 1; i++) {
        const struct lengths *lengths = &lengths_of_keys[i];
        library.expand_key(work.key, lengths->key, work.shorter[i].schedule, lengths->schedule);
        library.encrypt(work.shorter[i].schedule, lengths->schedule, work.plain, BLOCK_BYTES, work.shorter[i].cipher, BLOCK_BYTES);
    }
    memcpy(work.key_data, work.plain, BLOCK_BYTES);
    memcpy(work.key_data + BLOCK_BYTES, work.key, KEY_DATA - BLOCK_BYTES);
    library.wrap(work.schedule, SCHEDULE_BYTES, work.key_data, KEY_DATA, work.wrapped, sizeof work.wrapped);
    start_packets();
    translated_prepare();
    if (maker->peer != NULL)
        maker->peer->start(work.key);
}

// The record and the step with which a masked call of one block is made.
static const uint8_t *record_of(enum call call)
{
    return call >= ENCRYPT_PUBLISHED_ANOTHER && call <= RECORD_MASKED_DECRYPTION_ANOTHER ? another_record : work.one_record;
}

static uint8_t step_of(enum call call)
{
    return call == ENCRYPT_PUBLISHED_STEP_5 || call == DECRYPT_PUBLISHED_STEP_5 ? OTHER_STEP : STEP;
}

static void repeat_masked(const struct engine *e, enum call call, long times)
{
    const uint8_t *offsets = record_of(call);
    uint8_t step = step_of(call);
    switch (call) {
    case ENCRYPT_PUBLISHED:
    case ENCRYPT_PUBLISHED_STEP_5:
    case ENCRYPT_PUBLISHED_ANOTHER:
        while (times-- > 0)
            e->encrypt_published(work.schedule, SCHEDULE_BYTES, work.plain, BLOCK_BYTES, work.output, BLOCK_BYTES, offsets,
                                 BYTE_OFFSETS, step, FORM);
        break;
    case ENCRYPT_MASKED:
    case ENCRYPT_MASKED_ANOTHER:
        while (times-- > 0)
            e->encrypt_masked(work.schedule, SCHEDULE_BYTES, work.plain, BLOCK_BYTES, work.output, BLOCK_BYTES, published_masks,
                              MASK_BYTES, offsets, BYTE_OFFSETS, step, FORM);
        break;
    case RECORD_MASKED:
    case RECORD_MASKED_ANOTHER:
        while (times-- > 0)
            e->record_masked(work.schedule, SCHEDULE_BYTES, work.plain, BLOCK_BYTES, published_masks, MASK_BYTES, offsets,
                             BYTE_OFFSETS, step, work.states, RECORD_BYTES);
        break;
    case DECRYPT_PUBLISHED:
    case DECRYPT_PUBLISHED_STEP_5:
    case DECRYPT_PUBLISHED_ANOTHER:
        while (times-- > 0)
            e->decrypt_published(work.schedule, SCHEDULE_BYTES, work.cipher, BLOCK_BYTES, work.output, BLOCK_BYTES, offsets,
                                 BYTE_OFFSETS, step);
        break;
    case DECRYPT_MASKED:
    case DECRYPT_MASKED_ANOTHER:
        while (times-- > 0)
            e->decrypt_masked(work.schedule, SCHEDULE_BYTES, work.cipher, BLOCK_BYTES, work.output, BLOCK_BYTES, published_masks,
                              MASK_BYTES, offsets, BYTE_OFFSETS, step);
        break;
    default:
        while (times-- > 0)
            e->record_masked_decryption(work.schedule, SCHEDULE_BYTES, work.cipher, BLOCK_BYTES, published_masks, MASK_BYTES,
                                        offsets, BYTE_OFFSETS, step, work.decryption_states, DECRYPTION_RECORD_BYTES);
    }
}

// The calls with a shorter key.
static void repeat_shorter(const struct engine *e, enum call call, long times)
{
    size_t i = call == EXPAND_KEY_24 || call == ENCRYPT_24 || call == DECRYPT_24 || call >= ENCRYPT_PUBLISHED_24;
    const struct lengths *lengths = &lengths_of_keys[i];
    uint8_t *schedule = work.shorter[i].schedule, *cipher = work.shorter[i].cipher;
    switch (call) {
    case EXPAND_KEY_16:
    case EXPAND_KEY_24:
        while (times-- > 0)
            e->expand_key(work.key, lengths->key, schedule, lengths->schedule);
        break;
    case ENCRYPT_16:
    case ENCRYPT_24:
        while (times-- > 0)
            e->encrypt(schedule, lengths->schedule, work.plain, BLOCK_BYTES, work.output, BLOCK_BYTES);
        break;
    case DECRYPT_16:
    case DECRYPT_24:
        while (times-- > 0)
            e->decrypt(schedule, lengths->schedule, cipher, BLOCK_BYTES, work.output, BLOCK_BYTES);
        break;
    case ENCRYPT_PUBLISHED_16:
    case ENCRYPT_PUBLISHED_24:
        while (times-- > 0)
            e->encrypt_published(schedule, lengths->schedule, work.plain, BLOCK_BYTES, work.output, BLOCK_BYTES, work.one_record,
                                 BYTE_OFFSETS, STEP, FORM);
        break;
    default:
        while (times-- > 0)
            e->decrypt_published(schedule, lengths->schedule, cipher, BLOCK_BYTES, work.output, BLOCK_BYTES, work.one_record,
                                 BYTE_OFFSETS, STEP);
    }
}

static void repeat_engine(const struct engine *e, enum call call, long times)
{
    switch (call) {
    case EXPAND_KEY:
        while (times-- > 0)
            e->expand_key(work.key, KEY_BYTES, work.schedule, SCHEDULE_BYTES);
        break;
    case ENCRYPT:
        while (times-- > 0)
            e->encrypt(work.schedule, SCHEDULE_BYTES, work.plain, BLOCK_BYTES, work.output, BLOCK_BYTES);
        break;
    case DECRYPT:
        while (times-- > 0)
            e->decrypt(work.schedule, SCHEDULE_BYTES, work.cipher, BLOCK_BYTES, work.output, BLOCK_BYTES);
        break;
    case ENCRYPT_BLOCKS:
        while (times-- > 0)
            e->encrypt_blocks(work.schedule, SCHEDULE_BYTES, work.blocks, sizeof work.blocks, work.outputs, sizeof work.outputs,
                              work.offsets, MOST_BLOCKS, STEP, FORM);
        break;
    case RECORD_PLAIN:
        while (times-- > 0)
            e->record_plain(work.schedule, SCHEDULE_BYTES, work.plain, BLOCK_BYTES, work.states, RECORD_BYTES);
        break;
    case WRAP:
        while (times-- > 0)
            e->wrap(work.schedule, SCHEDULE_BYTES, work.key_data, KEY_DATA, work.rewrapped, sizeof work.rewrapped);
        break;
    case UNWRAP:
        while (times-- > 0)
            e->unwrap(work.schedule, SCHEDULE_BYTES, work.wrapped, sizeof work.wrapped, work.unwrapped, KEY_DATA);
        break;
    case WRAP_MASKED:
        while (times-- > 0)
            e->wrap_masked(work.schedule, SCHEDULE_BYTES, work.key_data, KEY_DATA, work.rewrapped, sizeof work.rewrapped, OFFSET);
        break;
    case UNWRAP_MASKED:
        while (times-- > 0)
            e->unwrap_masked(work.schedule, SCHEDULE_BYTES, work.wrapped, sizeof work.wrapped, work.unwrapped, KEY_DATA, OFFSET);
        break;
    case SCRAMBLE:
        while (times-- > 0)
            e->scramble(work.packet, PACKET_BYTES, work.made, PACKET_BYTES, work.pipes, PIPES_BYTES, false);
        break;
    case DESCRAMBLE:
        while (times-- > 0)
            e->descramble(work.scrambled, PACKET_BYTES, work.made, PACKET_BYTES, work.pipes, PIPES_BYTES);
        break;
    case MASKED_INVERSE:
        while (times-- > 0)
            work.output[0] = e->masked_inverse(work.plain[5], work.plain[7]);
        break;
    case TOWER_INVERSE:
        while (times-- > 0)
            work.output[0] = e->tower_inverse(work.plain[5], work.plain[7]);
        break;
    case TOWER_BOX:
        while (times-- > 0)
            work.output[0] = e->tower_box(OFFSET, work.plain[7]);
        break;
    case SCRAMBLE_UNLISTED:
        while (times-- > 0)
            e->scramble(work.unlisted, PACKET_BYTES, work.made, PACKET_BYTES, work.pipes, PIPES_BYTES, false);
        break;
    default:
        if (call >= EXPAND_KEY_16)
            repeat_shorter(e, call, times);
        else
            repeat_masked(e, call, times);
    }
}

static void repeat_peer(const struct peer *peer, enum call call, long times)
{
    // Which length the key has; the calls with a shorter one come in the order of the first three.
    size_t i = KEY_LENGTHS - 1;
    const uint8_t *cipher = work.cipher;
    if (call >= EXPAND_KEY_16) {
        i = (call - EXPAND_KEY_16) / 3;
        cipher = work.shorter[i].cipher;
        call = (enum call)((call - EXPAND_KEY_16) % 3);
    }
    switch (call) {
    case EXPAND_KEY:
        while (times-- > 0)
            peer->expand_key[i](work.key);
        break;
    case ENCRYPT:
        while (times-- > 0)
            peer->encrypt[i](work.plain, work.output);
        break;
    case DECRYPT:
        while (times-- > 0)
            peer->decrypt[i](cipher, work.output);
        break;
    case WRAP:
        while (times-- > 0)
            peer->wrap(work.key_data, work.rewrapped);
        break;
    case UNWRAP:
        while (times-- > 0)
            peer->unwrap(work.wrapped, work.unwrapped);
        break;
    case SCRAMBLE:
        while (times-- > 0)
            peer->chain(starting_block, work.packet + HEADER_BYTES, ELEVEN_BLOCKS, work.made + HEADER_BYTES);
        break;
    default:
        while (times-- > 0)
            peer->unchain(starting_block, work.scrambled + HEADER_BYTES, ELEVEN_BLOCKS, work.made + HEADER_BYTES);
    }
}

void repeat(const struct maker *maker, enum call call, long times)
{
    if (maker->engine != NULL)
        repeat_engine(maker->engine, call, times);
    else
        repeat_peer(maker->peer, call, times);
}
