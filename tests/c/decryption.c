/*
 * Masked decryption as a C compiler calls it: C.3 at every offset with every step.
 */
#include "expect.h"

/* States of C.3 from its last round to its first, each under the mask of its point. State 2 with its rows shifted is state 1 again,
   and state 6 with its columns mixed is state 5. */
static void states(const uint8_t *record, uint8_t o, uint8_t d)
{
    static const char name[] = "record_masked_decryption", keyed_14[] = "aa5ece06ee6e3c56dde68bac2621bebf";
    static const char keyed_13[] = "2c21a820306f154ab712c75eee0da04f";
    const uint8_t *rows = record + 16 * 2;
    uint8_t shifted[16], mixed[16], key_14[16], key_13[16];
    for (size_t i = 0; i < 16; i++) {
        const uint8_t *column = record + 16 * 6 + i / 4 * 4;
        shifted[i] = rows[(i + 4 * (i % 4)) % 16];
        mixed[i] = slipgrease_multiply(2, column[i % 4]) ^ slipgrease_multiply(3, column[(i + 1) % 4]) ^ column[(i + 2) % 4]
            ^ column[(i + 3) % 4];
        key_14[i] = record[i] ^ record[16 * 1 + i];
        key_13[i] = record[16 * 4 + i] ^ record[16 * 5 + i];
    }
    /* It gives the key away. */
    alike(name, key_14, w + 16 * 14, sizeof key_14);
    alike(name, key_13, w + 16 * 13, sizeof key_13);
    under(name, record, o, ciphertext);
    under(name, record + 16 * 1, o, keyed_14);
    under(name, shifted, o, keyed_14);
    under(name, record + 16 * 3, o, "aa218b56ee5ebeacdd6ecebf26e63c06");
    under(name, record + 16 * 4, o + d, "627bceb9999d5aaac945ecf423f56da5");
    under(name, record + 16 * 5, o + d, keyed_13);
    under(name, mixed, o + d, keyed_13);
    under(name, record + 16 * 7, o + d, "d1ed44fd1a0f3f2afa4ff27b7c332a69");
    under(name, record + 16 * 9, o + d, "d133f22a1aed2a7bfa0f44697c4f3ffd");
    under(name, record + 16 * 10, o + 2 * d, "516604954353950314fb86e401922521");
    under(name, record + 16 * 82, o + 14 * d, "00102030405060708090a0b0c0d0e0f0");
    under(name, record + 16 * 83, o + 14 * d, plaintext);
}

/* All calls at one offset with a step, taken or not. */
static void at(uint8_t o, uint8_t d)
{
    uint8_t offsets[SLIPGREASE_BYTE_OFFSETS], reply = o > 15 ? SLIPGREASE_REPLY_OFFSET_RANGE : reply_to_step(d);
    slipgrease_one_offset(offsets, o);
    for (enum masked call = DECRYPT_PUBLISHED; call <= RECORD_MASKED_DECRYPTION; call++) {
        struct lent lent = lent_to(call, offsets, d);
        const uint8_t *record = answered(call, &lent, reply);
        if (record != NULL)
            states(record, o, d);
    }
}

void decryption(void)
{
    choose(&examples[C_3]);
    for (int o = 0; o < 17; o++)
        for (int d = 0; d < 256; d++)
            at((uint8_t)o, (uint8_t)d);
}
