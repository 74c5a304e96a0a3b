/*
 * Every call of the header as a C compiler makes it, with answers of FIPS 197 and of the rules of the masks, and a null pointer
 * of length 0 in the place of each buffer. How the calls answer in general is for the proofs and the second program. Keys of other
 * lengths than 32 bytes are in keys.c, the masked calls in masked.c, encryption.c, decryption.c and offsets.c, key wrap is in wrap.c,
 * and packets are in packets.c.
 *
 * Usage: calls [NAME]. What is expected of the call NAME, which goes without slipgrease_, is spoiled: it must be found to differ.
 * Prints a line for each difference, and fails if there is any.
 */
#include "expect.h"

/* Byte i of what early modules stored in form 1 at offset o is covered by M(o + 14 + i); o is 5 where nothing else is said. */
static const char form_1[] = "b7f1ebaf3bf2df1c463a8060b4496fbf";
static const char form_1_at_7[] = "d2c7dd5fcbc4e979230cb690447f59da";
static const uint8_t rising[SLIPGREASE_MASKS_BYTES] = {0, 1, 2, 3, 4, 5, 6, 7, 8, 9, 10, 11, 12, 13, 14, 15};

static uint8_t key[SLIPGREASE_KEY_BYTES], in[SLIPGREASE_BLOCK_BYTES], out[SLIPGREASE_BLOCK_BYTES];
static uint8_t record[SLIPGREASE_RECORD_BYTES], table[SLIPGREASE_MASKS_BYTES];

/* A record gives the key away: state 5r xor state 5r + 1 is round key r, and the first two are the key. */
static void given_away(void)
{
    for (size_t r = 0; r < 2; r++) {
        uint8_t xored[SLIPGREASE_BLOCK_BYTES];
        for (size_t i = 0; i < sizeof xored; i++)
            xored[i] = record[16 * 5 * r + i] ^ record[16 * (5 * r + 1) + i];
        alike("record_plain", xored, key + 16 * r, sizeof xored);
    }
}

static void rack(void)
{
    for (int i = 0; i < 32; i++)
        key[i] = (uint8_t)i;
    for (int i = 0; i < 16; i++)
        in[i] = (uint8_t)(0x11 * i);
    CALL(expand_key, SLIPGREASE_REPLY_DONE, LENT(key), LENT(w));
    bytes("expand_key", w + 16 * 14, "24fc79ccbf0979e9371ac23c6d68de36");
    CALL(expand_key, SLIPGREASE_REPLY_KEY_LENGTH, NONE, LENT(w));
    CALL(expand_key, SLIPGREASE_REPLY_SCHEDULE_LENGTH, LENT(key), NONE);

    CALL(encrypt, SLIPGREASE_REPLY_DONE, LENT(w), LENT(in), LENT(out));
    bytes("encrypt", out, ciphertext);
    CALL(encrypt, SLIPGREASE_REPLY_SCHEDULE_LENGTH, NONE, LENT(in), LENT(out));
    CALL(encrypt, SLIPGREASE_REPLY_INPUT_LENGTH, LENT(w), NONE, LENT(out));
    CALL(encrypt, SLIPGREASE_REPLY_OUTPUT_LENGTH, LENT(w), LENT(in), NONE);

    CALL(decrypt, SLIPGREASE_REPLY_DONE, LENT(w), LENT(out), LENT(table));
    bytes("decrypt", table, plaintext);
    CALL(decrypt, SLIPGREASE_REPLY_SCHEDULE_LENGTH, NONE, LENT(in), LENT(out));
    CALL(decrypt, SLIPGREASE_REPLY_INPUT_LENGTH, LENT(w), NONE, LENT(out));
    CALL(decrypt, SLIPGREASE_REPLY_OUTPUT_LENGTH, LENT(w), LENT(in), NONE);

    CALL(record_plain, SLIPGREASE_REPLY_DONE, LENT(w), LENT(in), LENT(record));
    bytes("record_plain", record, plaintext);
    bytes("record_plain", record + 16 * 1, "00102030405060708090a0b0c0d0e0f0");
    bytes("record_plain", record + 16 * 2, "63cab7040953d051cd60e0e7ba70e18c");
    bytes("record_plain", record + 16 * 3, "6353e08c0960e104cd70b751bacad0e7");
    bytes("record_plain", record + 16 * 4, "5f72641557f5bc92f7be3b291db9f91a");
    bytes("record_plain", record + 16 * (SLIPGREASE_STATES - 1), ciphertext);
    given_away();
    CALL(record_plain, SLIPGREASE_REPLY_SCHEDULE_LENGTH, NONE, LENT(in), LENT(record));
    CALL(record_plain, SLIPGREASE_REPLY_INPUT_LENGTH, LENT(w), NONE, LENT(record));
    CALL(record_plain, SLIPGREASE_REPLY_RECORD_LENGTH, LENT(w), LENT(in), NONE);
}

/* What early modules stored in form 1 is converted, and a second time gives it back. */
static void forms(void)
{
    CALL(encrypt, SLIPGREASE_REPLY_DONE, LENT(w), LENT(in), LENT(out));
    CALL(convert, SLIPGREASE_REPLY_DONE, LENT(out), LENT(table), 5);
    bytes("convert", table, form_1);
    CALL(convert, SLIPGREASE_REPLY_DONE, LENT(table), LENT(out), 5);
    bytes("convert", out, ciphertext);
    CALL(convert, SLIPGREASE_REPLY_DONE, LENT(out), LENT(table), 7);
    bytes("convert", table, form_1_at_7);
    CALL(convert, SLIPGREASE_REPLY_INPUT_LENGTH, NONE, NONE, 16);
    CALL(convert, SLIPGREASE_REPLY_OUTPUT_LENGTH, LENT(out), NONE, 16);
    CALL(convert, SLIPGREASE_REPLY_OFFSET_RANGE, LENT(out), LENT(table), 16);
    bytes("convert", table, form_1_at_7);
}

static void sheets(void)
{
    static const char sixteen[] = "000f3639535c656a959aa3acc6c9f0ff";
    uint8_t one[SLIPGREASE_SHEET_1_BYTES], two[SLIPGREASE_SHEET_2_BYTES];
    CALL(write_sheet, SLIPGREASE_REPLY_DONE, LENT(masks), 1, LENT(one));
    bytes("write_sheet", one, "4d534b0001000f3639535c656a959aa3");
    bytes("write_sheet", one + 5, sixteen);
    CALL(write_sheet, SLIPGREASE_REPLY_DONE, LENT(masks), 5, LENT(two));
    bytes("write_sheet", two, "4d534b0002000f3639535c656a959aa3");
    bytes("write_sheet", two + 5, sixteen);
    number("write_sheet", two[21], 5);
    CALL(write_sheet, SLIPGREASE_REPLY_STEP_WRONG, NONE, 2, NONE);
    CALL(write_sheet, SLIPGREASE_REPLY_SHEET_LENGTH, NONE, 1, NONE);
    CALL(write_sheet, SLIPGREASE_REPLY_SHEET_LENGTH, LENT(masks), 1, LENT(two));
    CALL(write_sheet, SLIPGREASE_REPLY_SHEET_LENGTH, LENT(masks), 5, LENT(one));
    CALL(write_sheet, SLIPGREASE_REPLY_MASKS_LENGTH, NONE, 1, LENT(one));
    CALL(write_sheet, SLIPGREASE_REPLY_MASKS_LENGTH, NONE, 5, LENT(two));

    PACKED(read_sheet, SLIPGREASE_REPLY_DONE, 1, LENT(one), LENT(out));
    bytes("read_sheet", out, sixteen);
    PACKED(read_sheet, SLIPGREASE_REPLY_DONE, 5, LENT(two), LENT(table));
    bytes("read_sheet", table, sixteen);
    PACKED(read_sheet, SLIPGREASE_REPLY_MASKS_LENGTH, 0, LENT(one), NONE);
    for (int step = 0; step < 256; step++) {
        unsigned reply = step >= 4 && step <= 15 ? SLIPGREASE_REPLY_MASKS_LENGTH : SLIPGREASE_REPLY_STEP_WRONG;
        two[21] = (uint8_t)step;
        PACKED(read_sheet, reply, 0, LENT(two), NONE);
    }

    /* What comes before these two: the length of another version, then an unknown version, a wrong mark and fewer than 5 bytes. */
    PACKED(read_sheet, SLIPGREASE_REPLY_SHEET_LENGTH, 0, two, 21, NONE);
    two[4] = 1;
    PACKED(read_sheet, SLIPGREASE_REPLY_SHEET_LENGTH, 0, LENT(two), NONE);
    two[4] = 3;
    PACKED(read_sheet, SLIPGREASE_REPLY_VERSION_UNKNOWN, 0, two, 5, NONE);
    two[3] = two[4] = 1;
    PACKED(read_sheet, SLIPGREASE_REPLY_VERSION_UNKNOWN, 0, LENT(two), NONE);
    two[0] = 0;
    PACKED(read_sheet, SLIPGREASE_REPLY_MARK_WRONG, 0, two, 5, NONE);
    PACKED(read_sheet, SLIPGREASE_REPLY_SHEET_LENGTH, 0, two, 4, NONE);
    PACKED(read_sheet, SLIPGREASE_REPLY_SHEET_LENGTH, 0, NONE, LENT(table));
}

/* Row, byte, three bits and a pattern of them. The published masks are fit, so that in all rows but 5 each pattern is shown twice; of
   the rising ones eight are odd, which tells the lowest bit from the highest. */
static void counts(void)
{
    uint8_t seventeen[SLIPGREASE_MASKS_BYTES + 1] = {0};
    PACKED(mask_count, SLIPGREASE_REPLY_DONE, 2, LENT(masks), 2, 0, 5, 6, 7, 7);
    PACKED(mask_count, SLIPGREASE_REPLY_DONE, 3, LENT(masks), 5, 0, 5, 6, 7, 7);
    PACKED(mask_count, SLIPGREASE_REPLY_DONE, 2, LENT(masks), 7, 15, 0, 1, 2, 0);
    PACKED(mask_count, SLIPGREASE_REPLY_DONE, 8, LENT(rising), 1, 9, 0, 4, 5, 1);
    PACKED(mask_count, SLIPGREASE_REPLY_DONE, 0, LENT(rising), 1, 9, 0, 4, 5, 4);
    PACKED(mask_count, SLIPGREASE_REPLY_DONE, 0, LENT(masks), 0, 0, 5, 6, 7, 7);
    PACKED(mask_count, SLIPGREASE_REPLY_DONE, 0, LENT(masks), 8, 0, 5, 6, 7, 7);
    PACKED(mask_count, SLIPGREASE_REPLY_DONE, 0, LENT(masks), 2, 16, 5, 6, 7, 7);
    PACKED(mask_count, SLIPGREASE_REPLY_DONE, 0, LENT(masks), 2, 0, 5, 6, 8, 3);
    PACKED(mask_count, SLIPGREASE_REPLY_DONE, 0, LENT(masks), 2, 0, 6, 6, 7, 7);
    PACKED(mask_count, SLIPGREASE_REPLY_DONE, 0, LENT(masks), 2, 0, 7, 6, 5, 7);
    PACKED(mask_count, SLIPGREASE_REPLY_DONE, 0, LENT(masks), 2, 0, 5, 6, 7, 8);
    PACKED(mask_count, SLIPGREASE_REPLY_MASKS_LENGTH, 0, masks, 15, 2, 0, 5, 6, 7, 7);
    PACKED(mask_count, SLIPGREASE_REPLY_MASKS_LENGTH, 0, LENT(seventeen), 2, 0, 5, 6, 7, 0);
    PACKED(mask_count, SLIPGREASE_REPLY_MASKS_LENGTH, 0, NONE, 2, 0, 5, 6, 7, 7);
}

static void beside(void)
{
    PACKED(fitness, SLIPGREASE_REPLY_DONE, 1, LENT(masks));
    PACKED(fitness, SLIPGREASE_REPLY_DONE, 0, LENT(rising));
    PACKED(fitness, SLIPGREASE_REPLY_MASKS_LENGTH, 0, NONE);
    counts();
    CALL(multiply, 0xc1, 0x57, 0x83);
    CALL(inverse, 0xca, 0x53);
    PACKED(logarithm, SLIPGREASE_REPLY_DONE, 254, 0xf6);
    PACKED(logarithm, SLIPGREASE_REPLY_NO_LOGARITHM, 0, 0x00);
    PACKED(power, SLIPGREASE_REPLY_DONE, 0xf6, 254);
    PACKED(power, SLIPGREASE_REPLY_POWER_RANGE, 0, 255);
    CALL(masked_inverse, 0xca ^ 0x1f, 0x53 ^ 0x1f, 0x1f);
    CALL(tower_inverse, 0xca ^ 0x1f, 0x53 ^ 0x1f, 0x1f);
    CALL(tower_box, 0xed ^ 0x0f, 16, 0x53);
    CALL(sort_reply, SLIPGREASE_GO_ON, SLIPGREASE_REPLY_DONE);
    CALL(sort_reply, SLIPGREASE_CALLER_FAULT, SLIPGREASE_REPLY_RECORD_LENGTH);
    CALL(sort_reply, SLIPGREASE_DATA_FAULT, SLIPGREASE_REPLY_NO_LOGARITHM);
    CALL(sort_reply, SLIPGREASE_CALLER_FAULT, SLIPGREASE_REPLY_STEP_WRONG);
    CALL(sort_reply, SLIPGREASE_CALLER_FAULT, SLIPGREASE_REPLY_KEY_DATA_LENGTH);
    CALL(sort_reply, SLIPGREASE_CALLER_FAULT, SLIPGREASE_REPLY_WRAPPED_LENGTH);
    CALL(sort_reply, SLIPGREASE_DATA_FAULT, SLIPGREASE_REPLY_INTEGRITY);
    CALL(sort_reply, SLIPGREASE_CALLER_FAULT, SLIPGREASE_REPLY_PACKET_LENGTH);
    CALL(sort_reply, SLIPGREASE_DATA_FAULT, SLIPGREASE_REPLY_SYNC_LOST);
    CALL(sort_reply, SLIPGREASE_DATA_FAULT, SLIPGREASE_REPLY_FIELD_WRONG);
    CALL(sort_reply, SLIPGREASE_CALLER_FAULT, SLIPGREASE_REPLY_PIPES_WRONG);
    CALL(sort_reply, SLIPGREASE_DATA_FAULT, SLIPGREASE_REPLY_BITS_WRONG);
    CALL(sort_reply, SLIPGREASE_CALLER_FAULT, SLIPGREASE_REPLY_OFFSET_PER_BYTE);
    CALL(sort_reply, SLIPGREASE_CALLER_FAULT, SLIPGREASE_REPLY_OFFSET_PER_BYTE + 1);
}

int main(int count, char **words)
{
    if (count > 1)
        spoiled = words[1];
    rack();
    key_lengths();
    masked_refusals();
    encryption();
    decryption();
    offset_for_each_byte();
    key_wrap();
    packets();
    forms();
    sheets();
    beside();
    return faults;
}
