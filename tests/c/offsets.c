/*
 * An offset for each byte, as a C compiler hands them over: C.1 to C.3 both ways, with every step, at records of offsets that are
 * not those of one offset. Each state that is recorded is held to the header's tables, whose masks are worked out here.
 */
#include "expect.h"

#include <string.h>

/* The sixteen bytes of a state, and how many masks there are. */
enum { BYTES = SLIPGREASE_BLOCK_BYTES, MASK_COUNT = SLIPGREASE_MASKS_BYTES };

static const uint8_t equal[BYTES] = {0};
static const uint8_t others[][BYTES] = {
    {15, 15, 15, 15, 15, 15, 15, 15, 15, 15, 15, 15, 15, 15, 15, 15},
    {15, 14, 13, 12, 11, 10, 9, 8, 7, 6, 5, 4, 3, 2, 1, 0},
    {3, 14, 1, 5, 9, 2, 6, 5, 3, 5, 8, 9, 7, 9, 3, 2},
    /* Each is that of one offset but for one byte: the first, one in the middle, the last. */
    {1, 1, 2, 3, 4, 5, 6, 7, 8, 9, 10, 11, 12, 13, 14, 15},
    {5, 6, 7, 8, 9, 10, 11, 11, 13, 14, 15, 0, 1, 2, 3, 4},
    {9, 10, 11, 12, 13, 14, 15, 0, 1, 2, 3, 4, 5, 6, 7, 9},
};
enum { OTHERS = sizeof others / sizeof others[0] };

/* The states of an example by the plain engine, and how many rounds there are. */
static uint8_t plain[SLIPGREASE_RECORD_BYTES];
static size_t rounds;

/* Mask(o+k). */
static void mask(uint8_t to[BYTES], const uint8_t table[MASK_COUNT], const uint8_t offsets[BYTES], size_t on)
{
    for (size_t i = 0; i < BYTES; i++)
        to[i] = table[(offsets[i] + on) % MASK_COUNT];
}

/* Byte i comes from place 5 i, and back from place 13 i. */
enum { SHIFTED = 5, SHIFTED_BACK = 13 };
static void shift_rows(uint8_t state[BYTES], size_t by)
{
    uint8_t moved[BYTES];
    for (size_t i = 0; i < BYTES; i++)
        moved[i] = state[by * i % BYTES];
    memcpy(state, moved, BYTES);
}

/* By the matrix that has this first row, each other row being the one above it, turned. */
static const uint8_t forth[4] = {2, 3, 1, 1}, back[4] = {14, 11, 13, 9};
static void mix_columns(uint8_t state[BYTES], const uint8_t row[4])
{
    uint8_t mixed[BYTES] = {0};
    for (size_t i = 0; i < BYTES; i++)
        for (size_t k = 0; k < 4; k++)
            mixed[i] ^= slipgrease_multiply(row[k], state[i / 4 * 4 + (i + k) % 4]);
    memcpy(state, mixed, BYTES);
}

/* What lies over state s, by the last column of a table in the header. */
static void cover(uint8_t over[BYTES], enum masked call, size_t s, const uint8_t *table, const uint8_t *offsets, size_t d)
{
    size_t begun = call == RECORD_MASKED ? 1 : 2, points = call == RECORD_MASKED ? 5 : 6;
    if (s < begun) {
        mask(over, table, offsets, 0);
        return;
    }
    size_t r = (s - begun) / points, point = (s - begun) % points;
    if (call == RECORD_MASKED) {
        mask(over, table, offsets, d * (point < 1 ? r : r + 1));
        if (point == 2 || point == 3)
            shift_rows(over, SHIFTED);
        if (point == 3 && r < rounds - 1)
            mix_columns(over, forth);
    } else {
        mask(over, table, offsets, d * (point < 2 ? r : r + 1));
        if (point == 0)
            shift_rows(over, SHIFTED_BACK);
        if (point == 4)
            mix_columns(over, back);
    }
}

/* Which of the plain states stands under it. A decryption goes through them backwards: in each round to those after the boxes,
   twice, after the key, before it, and after ShiftRows, twice. */
static const uint8_t *plain_state(enum masked call, size_t s)
{
    static const size_t before[6] = {3, 3, 4, 5, 7, 7};
    if (call == RECORD_MASKED)
        return plain + BYTES * s;
    return plain + BYTES * (5 * rounds - (s < 2 ? 2 * s : 5 * ((s - 2) / 6) + before[(s - 2) % 6]));
}

/* The last state, over which nothing lies. */
static size_t last(enum masked call)
{
    return rounds * (call == RECORD_MASKED ? 5 : 6);
}

/* All states but the last. */
static void states(enum masked call, const uint8_t *record, const uint8_t *table, const uint8_t *offsets, uint8_t d)
{
    for (size_t s = 0; s < last(call); s++) {
        uint8_t bare[BYTES];
        cover(bare, call, s, table, offsets, d);
        for (size_t i = 0; i < BYTES; i++)
            bare[i] ^= record[BYTES * s + i];
        alike(masked_calls[call].name, bare, plain_state(call, s), BYTES);
    }
}

/* With sixteen equal offsets, 0, all bytes of a state lie under one mask, M(dr), which neither moving nor mixing changes. */
static void one_mask(enum masked call, const uint8_t *record, uint8_t d)
{
    for (size_t s = 0; s < last(call); s++) {
        size_t r = call == RECORD_MASKED ? (s + 3) / 5 : (s + 2) / 6;
        uint8_t bare[BYTES];
        for (size_t i = 0; i < BYTES; i++)
            bare[i] = record[BYTES * s + i] ^ masks[d * r % MASK_COUNT];
        alike(masked_calls[call].name, bare, plain_state(call, s), BYTES);
    }
}

/* All calls at one record with every step, under the published masks and, where they are lent, under others. */
static void at(const uint8_t offsets[BYTES])
{
    uint8_t other_masks[MASK_COUNT];
    read_digits(other_masks, ciphertext);
    for (uint8_t d = 0; d < 16; d++)
        for (enum masked call = ENCRYPT_PUBLISHED; call < MASKED_CALLS; call++) {
            struct lent lent = lent_to(call, offsets, d);
            const uint8_t *record = answered(call, &lent, reply_to_step(d));
            if (record != NULL)
                states(call, record, masks, offsets, d);
            if (record != NULL && offsets == equal)
                one_mask(call, record, d);
            lent = lent_to(call, offsets, d);
            memcpy(lent.masks.bytes, other_masks, MASK_COUNT);
            record = answered(call, &lent, reply_to_step(d));
            if (record != NULL)
                states(call, record, other_masks, offsets, d);
        }
}

/* What the header makes of one offset, and no byte behind it; of a number above 15, what every call refuses. */
static void one_offset(void)
{
    for (int n = 0; n < 256; n++) {
        uint8_t made[BYTES + 1], expected[BYTES + 1] = {0};
        memset(made, UNTOUCHED, sizeof made);
        for (int i = 0; i < BYTES; i++)
            expected[i] = (uint8_t)(n > 15 ? n : (n + i) % 16);
        expected[BYTES] = UNTOUCHED;
        slipgrease_one_offset(made, (uint8_t)n);
        alike("one_offset", made, expected, sizeof made);
        for (enum masked call = ENCRYPT_PUBLISHED; call < MASKED_CALLS; call++) {
            struct lent lent = lent_to(call, made, 1);
            answered(call, &lent, n > 15 ? SLIPGREASE_REPLY_OFFSET_RANGE : SLIPGREASE_REPLY_DONE);
        }
    }
}

/* All of it with the key of an example. */
static void with(const struct example *example)
{
    uint8_t in[BYTES], offsets[BYTES], schedule[SLIPGREASE_SCHEDULE_BYTES];
    read_digits(in, plaintext);
    expand(example, schedule);
    CALL(record_plain, SLIPGREASE_REPLY_DONE, schedule, example->schedule, LENT(in), plain, example->record);
    rounds = example->rounds;
    choose(example);
    one_offset();
    at(equal);
    for (size_t k = 0; k < OTHERS; k++)
        at(others[k]);
    /* The tables hold at one offset too. */
    for (uint8_t n = 0; n < 16; n++) {
        slipgrease_one_offset(offsets, n);
        at(offsets);
    }
}

void offset_for_each_byte(void)
{
    for (size_t i = C_1; i < EXAMPLES; i++)
        with(&examples[i]);
}
