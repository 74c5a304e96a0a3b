/*
 * Keys of 16, 24 and 32 bytes, as a C compiler hands them over: the key expansions of FIPS 197, A.1 to A.3, its ciphertexts, C.1 to
 * C.3, by both engines, and every length of a key beside one of a schedule, and of a schedule beside one of a record.
 */
#include "expect.h"

#include <string.h>

/* The key, the sixteen bytes behind it and the last sixteen. */
static const struct expansion {
    const char *key, *behind, *last;
} expansions[EXAMPLES] = {
    {"2b7e151628aed2a6abf7158809cf4f3c", "a0fafe1788542cb123a339392a6c7605", "d014f9a8c9ee2589e13f0cc8b6630ca6"},
    {"8e73b0f7da0e6452c810f32b809079e562f8ead2522c6b7b", "fe0c91f72402f5a5ec12068e6c827f6b",
        "e98ba06f448c773c8ecc720401002202"},
    {"603deb1015ca71be2b73aef0857d77811f352c073b6108d72d9810a30914dff4", "9ba354118e6925afa51a8b5f2067fcde",
        "fe4890d1e6188d0b046df344706c631e"},
};

/* There is room for lengths above the greatest that is taken. */
static uint8_t key[SLIPGREASE_KEY_BYTES + 16], schedule[SLIPGREASE_SCHEDULE_BYTES + 32];
static uint8_t input[SLIPGREASE_BLOCK_BYTES], output[SLIPGREASE_BLOCK_BYTES];
static uint8_t record[SLIPGREASE_DECRYPTION_RECORD_BYTES + 16];

/* A.1 to A.3. Behind the schedule nothing is touched. */
static void expanded(const struct example *example, const struct expansion *expansion)
{
    size_t length = read_digits(key, expansion->key);
    memset(schedule, UNTOUCHED, sizeof schedule);
    CALL(expand_key, SLIPGREASE_REPLY_DONE, key, length, schedule, example->schedule);
    bytes("expand_key", schedule, expansion->key);
    bytes("expand_key", schedule + length, expansion->behind);
    bytes("expand_key", schedule + example->schedule - 16, expansion->last);
    number("expand_key", touched(schedule + example->schedule, sizeof schedule - example->schedule), 0);
}

/* What the header's macros tell of a key. */
static void told(const struct example *example)
{
    number("expand_key", SLIPGREASE_SCHEDULE_BYTES_OF(example->key), example->schedule);
    number("encrypt", SLIPGREASE_ROUNDS_OF(example->schedule), example->rounds);
    number("record_plain", SLIPGREASE_RECORD_BYTES_OF(example->schedule), example->record);
    number("record_plain", SLIPGREASE_STATES_OF(example->schedule), example->record / 16);
    number("record_masked_decryption", SLIPGREASE_DECRYPTION_RECORD_BYTES_OF(example->schedule), example->decryption_record);
    number("record_masked_decryption", SLIPGREASE_DECRYPTION_STATES_OF(example->schedule), example->decryption_record / 16);
}

/* Every length of a key with every one of a schedule. The key is judged first. */
static void every_key(void)
{
    for (size_t length = 0; length <= sizeof key; length++)
        for (size_t room = 0; room <= sizeof schedule; room++) {
            unsigned reply = SLIPGREASE_REPLY_KEY_LENGTH;
            for (size_t i = C_1; i < EXAMPLES; i++)
                if (examples[i].key == length)
                    reply = examples[i].schedule == room ? SLIPGREASE_REPLY_DONE : SLIPGREASE_REPLY_SCHEDULE_LENGTH;
            memset(schedule, UNTOUCHED, sizeof schedule);
            CALL(expand_key, reply, key, length, schedule, room);
            if (reply != SLIPGREASE_REPLY_DONE)
                number("expand_key", touched(schedule, sizeof schedule), 0);
        }
}

/* C.1 to C.3 by the plain engine, and of many blocks at every offset with every step. */
static void ciphertexts(const struct example *example)
{
    const uint8_t *finished = record + example->record - sizeof output;
    expand(example, schedule);
    read_digits(input, plaintext);
    CALL(encrypt, SLIPGREASE_REPLY_DONE, schedule, example->schedule, LENT(input), LENT(output));
    bytes("encrypt", output, example->ciphertext);
    CALL(decrypt, SLIPGREASE_REPLY_DONE, schedule, example->schedule, LENT(output), LENT(input));
    bytes("decrypt", input, plaintext);
    CALL(record_plain, SLIPGREASE_REPLY_DONE, schedule, example->schedule, LENT(input), record, example->record);
    bytes("record_plain", record, plaintext);
    bytes("record_plain", finished, example->ciphertext);
    for (uint8_t offset = 0; offset < 16; offset++)
        for (uint8_t step = 0; step < 17; step++) {
            memset(output, UNTOUCHED, sizeof output);
            CALL(encrypt_blocks, reply_to_step(step), schedule, example->schedule, LENT(input), LENT(output), &offset, 1, step, 0);
            if (reply_to_step(step) == SLIPGREASE_REPLY_DONE)
                bytes("encrypt_blocks", output, example->ciphertext);
        }
}

/* Every length of a schedule. */
static void every_schedule(void)
{
    static const uint8_t offset = 0;
    for (size_t length = 0; length <= sizeof schedule; length++) {
        unsigned reply = SLIPGREASE_REPLY_SCHEDULE_LENGTH;
        for (size_t i = C_1; i < EXAMPLES; i++)
            if (examples[i].schedule == length)
                reply = SLIPGREASE_REPLY_DONE;
        CALL(encrypt, reply, schedule, length, LENT(input), LENT(output));
        CALL(decrypt, reply, schedule, length, LENT(input), LENT(output));
        CALL(encrypt_blocks, reply, schedule, length, LENT(input), LENT(output), &offset, 1, 1, 0);
        CALL(encrypt_blocks, reply, schedule, length, NONE, NONE, NONE, 1, 0);
    }
}

static uint8_t record_plain(const struct lent *lent)
{
    return slipgrease_record_plain(HANDED(schedule), HANDED(input), HANDED(record));
}

/* Every length of a schedule with lengths of a record about those that are right with any. One of these is right with two. */
static void every_record(const char *name, uint8_t (*answer)(const struct lent *), bool back)
{
    static uint8_t table[SLIPGREASE_MASKS_BYTES], offsets[SLIPGREASE_BYTE_OFFSETS];
    struct lent lent = {.input = {LENT(input)}, .masks = {LENT(table)}, .offsets = {LENT(offsets)}, .step = 1};
    for (size_t length = 0; length <= sizeof schedule; length++)
        for (size_t room = 0; room <= sizeof record; room += room % 16 == 1 ? 14 : 1) {
            unsigned reply = SLIPGREASE_REPLY_SCHEDULE_LENGTH;
            for (size_t i = C_1; i < EXAMPLES; i++)
                if (examples[i].schedule == length) {
                    bool right = room == (back ? examples[i].decryption_record : examples[i].record);
                    reply = right ? SLIPGREASE_REPLY_DONE : SLIPGREASE_REPLY_RECORD_LENGTH;
                }
            lent.schedule = (struct buffer){schedule, length};
            lent.record = (struct buffer){record, room};
            memset(record, UNTOUCHED, sizeof record);
            number(name, answer(&lent), reply);
            if (reply != SLIPGREASE_REPLY_DONE)
                number(name, touched(record, sizeof record), 0);
        }
}

void key_lengths(void)
{
    for (size_t i = C_1; i < EXAMPLES; i++) {
        expanded(&examples[i], &expansions[i]);
        told(&examples[i]);
        ciphertexts(&examples[i]);
    }
    every_key();
    every_schedule();
    every_record("record_plain", record_plain, false);
    every_record("record_masked", masked_calls[RECORD_MASKED].answer, false);
    every_record("record_masked_decryption", masked_calls[RECORD_MASKED_DECRYPTION].answer, true);
}
