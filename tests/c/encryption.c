/*
 * Masked encryption as a C compiler calls it: C.3 at every offset with every step, one block in a call and two.
 */
#include "expect.h"

#include <string.h>

/* States of C.3's first rounds, each under the mask of its point: the labels advance by the step from round to round, and by one
   from byte to byte. State 5r xor state 5r + 1 is round key r, so the record gives the key away. */
static void states(const uint8_t *record, uint8_t o, uint8_t d)
{
    static const char name[] = "record_masked";
    for (size_t r = 0; r < 2; r++) {
        uint8_t key[SLIPGREASE_BLOCK_BYTES];
        for (size_t i = 0; i < sizeof key; i++)
            key[i] = record[16 * 5 * r + i] ^ record[16 * (5 * r + 1) + i];
        alike(name, key, w + 16 * r, sizeof key);
    }
    under(name, record, o, plaintext);
    under(name, record + 16 * 1, o, "00102030405060708090a0b0c0d0e0f0");
    under(name, record + 16 * 2, o + d, "63cab7040953d051cd60e0e7ba70e18c");
    under(name, record + 16 * 5, o + d, "5f72641557f5bc92f7be3b291db9f91a");
    under(name, record + 16 * 6, o + d, "4f63760643e0aa85efa7213201a4e705");
    under(name, record + 16 * 7, o + 2 * d, "84fb386f1ae1ac97df5cfd237c49946b");
    under(name, record + 16 * 10, o + 2 * d, "bd2a395d2b6ac438d192443e615da195");
}

/* All calls at one offset with a step, taken or not. */
static void at(uint8_t o, uint8_t d)
{
    uint8_t offsets[SLIPGREASE_BYTE_OFFSETS], reply = o > 15 ? SLIPGREASE_REPLY_OFFSET_RANGE : reply_to_step(d);
    slipgrease_one_offset(offsets, o);
    for (enum masked call = ENCRYPT_PUBLISHED; call <= RECORD_MASKED; call++) {
        struct lent lent = lent_to(call, offsets, d);
        const uint8_t *record = answered(call, &lent, reply);
        if (record != NULL)
            states(record, o, d);
    }
    uint8_t in[SLIPGREASE_BLOCK_BYTES], out[SLIPGREASE_BLOCK_BYTES] = {0};
    read_digits(in, plaintext);
    CALL(encrypt_blocks, reply, LENT(w), LENT(in), LENT(out), &o, 1, d, 0);
    if (reply == SLIPGREASE_REPLY_DONE)
        bytes("encrypt_blocks", out, ciphertext);
}

/* The block of C.3, and its ciphertext as another block, which the rack's engine must get back. */
static void many(void)
{
    static const uint8_t offsets[] = {5, 7, 16};
    uint8_t two[2 * SLIPGREASE_BLOCK_BYTES], made[2 * SLIPGREASE_BLOCK_BYTES], back[SLIPGREASE_BLOCK_BYTES] = {0};
    read_digits(two, plaintext);
    read_digits(two + SLIPGREASE_BLOCK_BYTES, ciphertext);
    CALL(encrypt_blocks, SLIPGREASE_REPLY_DONE, LENT(w), LENT(two), LENT(made), offsets, 2, 1, 0);
    bytes("encrypt_blocks", made, ciphertext);
    CALL(decrypt, SLIPGREASE_REPLY_DONE, LENT(w), made + sizeof back, sizeof back, LENT(back));
    bytes("encrypt_blocks", back, ciphertext);
    CALL(encrypt_blocks, SLIPGREASE_REPLY_DONE, LENT(w), NONE, NONE, NONE, 1, 0);
    for (int form = 1; form < 256; form++)
        CALL(encrypt_blocks, SLIPGREASE_REPLY_FORM_UNKNOWN, LENT(w), NONE, NONE, NONE, 1, (uint8_t)form);
    CALL(encrypt_blocks, SLIPGREASE_REPLY_SCHEDULE_LENGTH, NONE, NONE, NONE, NONE, 1, 0);
    CALL(encrypt_blocks, SLIPGREASE_REPLY_INPUT_LENGTH, LENT(w), two, 17, LENT(made), offsets, 2, 1, 0);
    CALL(encrypt_blocks, SLIPGREASE_REPLY_OUTPUT_LENGTH, LENT(w), NONE, LENT(made), offsets, 2, 1, 0);
    CALL(encrypt_blocks, SLIPGREASE_REPLY_OUTPUT_LENGTH, LENT(w), LENT(two), NONE, offsets, 2, 1, 0);
    CALL(encrypt_blocks, SLIPGREASE_REPLY_OFFSETS_LENGTH, LENT(w), LENT(two), LENT(made), NONE, 1, 0);
    CALL(encrypt_blocks, SLIPGREASE_REPLY_OFFSETS_LENGTH, LENT(w), LENT(two), LENT(made), LENT(offsets), 1, 0);
    CALL(encrypt_blocks, SLIPGREASE_REPLY_OFFSET_RANGE, LENT(w), LENT(two), LENT(made), offsets + 1, 2, 2, 0);
    CALL(encrypt_blocks, SLIPGREASE_REPLY_STEP_WRONG, LENT(w), LENT(two), LENT(made), offsets, 2, 2, 1);
    bytes("encrypt_blocks", made, ciphertext);
}

void encryption(void)
{
    choose(&examples[C_3]);
    for (int o = 0; o < 17; o++)
        for (int d = 0; d < 256; d++)
            at((uint8_t)o, (uint8_t)d);
    many();
}
