/*
 * The masked calls for one block as a C compiler makes them, and what they refuse with a key of each length: every set of causes,
 * every length of the offsets about the right one, a number above 15 alone in each of their places, and every form but 0.
 */
#include "expect.h"

#include <string.h>

/* There is room for lengths above the right one. */
static uint8_t schedule[SLIPGREASE_SCHEDULE_BYTES + 1], input[SLIPGREASE_BLOCK_BYTES + 1], output[SLIPGREASE_BLOCK_BYTES + 1];
static uint8_t table[SLIPGREASE_MASKS_BYTES + 1], offsets[2 * SLIPGREASE_BYTE_OFFSETS];
static uint8_t record[SLIPGREASE_DECRYPTION_RECORD_BYTES + 1];

static const struct example *chosen;
static uint8_t expanded[SLIPGREASE_SCHEDULE_BYTES];

static const uint8_t falling[SLIPGREASE_BYTE_OFFSETS] = {15, 14, 13, 12, 11, 10, 9, 8, 7, 6, 5, 4, 3, 2, 1, 0};

static unsigned written(void)
{
    return touched(output, sizeof output) + touched(record, sizeof record);
}

static uint8_t encrypt_published(const struct lent *lent)
{
    return slipgrease_encrypt_published(
        HANDED(schedule), HANDED(input), HANDED(output), HANDED(offsets), lent->step, lent->form);
}

static uint8_t encrypt_masked(const struct lent *lent)
{
    return slipgrease_encrypt_masked(
        HANDED(schedule), HANDED(input), HANDED(output), HANDED(masks), HANDED(offsets), lent->step, lent->form);
}

static uint8_t record_masked(const struct lent *lent)
{
    return slipgrease_record_masked(
        HANDED(schedule), HANDED(input), HANDED(masks), HANDED(offsets), lent->step, HANDED(record));
}

static uint8_t decrypt_published(const struct lent *lent)
{
    return slipgrease_decrypt_published(HANDED(schedule), HANDED(input), HANDED(output), HANDED(offsets), lent->step);
}

static uint8_t decrypt_masked(const struct lent *lent)
{
    return slipgrease_decrypt_masked(
        HANDED(schedule), HANDED(input), HANDED(output), HANDED(masks), HANDED(offsets), lent->step);
}

static uint8_t record_masked_decryption(const struct lent *lent)
{
    return slipgrease_record_masked_decryption(
        HANDED(schedule), HANDED(input), HANDED(masks), HANDED(offsets), lent->step, HANDED(record));
}

const struct call masked_calls[MASKED_CALLS] = {
    {"encrypt_published", encrypt_published,
        {SLIPGREASE_REPLY_SCHEDULE_LENGTH, SLIPGREASE_REPLY_INPUT_LENGTH, SLIPGREASE_REPLY_OUTPUT_LENGTH,
            SLIPGREASE_REPLY_OFFSET_PER_BYTE, SLIPGREASE_REPLY_OFFSET_RANGE, SLIPGREASE_REPLY_STEP_WRONG,
            SLIPGREASE_REPLY_FORM_UNKNOWN}},
    {"encrypt_masked", encrypt_masked,
        {SLIPGREASE_REPLY_SCHEDULE_LENGTH, SLIPGREASE_REPLY_INPUT_LENGTH, SLIPGREASE_REPLY_OUTPUT_LENGTH,
            SLIPGREASE_REPLY_MASKS_LENGTH, SLIPGREASE_REPLY_OFFSET_PER_BYTE, SLIPGREASE_REPLY_OFFSET_RANGE,
            SLIPGREASE_REPLY_STEP_WRONG, SLIPGREASE_REPLY_FORM_UNKNOWN}},
    {"record_masked", record_masked,
        {SLIPGREASE_REPLY_SCHEDULE_LENGTH, SLIPGREASE_REPLY_INPUT_LENGTH, SLIPGREASE_REPLY_MASKS_LENGTH,
            SLIPGREASE_REPLY_OFFSET_PER_BYTE, SLIPGREASE_REPLY_OFFSET_RANGE, SLIPGREASE_REPLY_STEP_WRONG,
            SLIPGREASE_REPLY_RECORD_LENGTH}},
    {"decrypt_published", decrypt_published,
        {SLIPGREASE_REPLY_SCHEDULE_LENGTH, SLIPGREASE_REPLY_INPUT_LENGTH, SLIPGREASE_REPLY_OUTPUT_LENGTH,
            SLIPGREASE_REPLY_OFFSET_PER_BYTE, SLIPGREASE_REPLY_OFFSET_RANGE, SLIPGREASE_REPLY_STEP_WRONG}},
    {"decrypt_masked", decrypt_masked,
        {SLIPGREASE_REPLY_SCHEDULE_LENGTH, SLIPGREASE_REPLY_INPUT_LENGTH, SLIPGREASE_REPLY_OUTPUT_LENGTH,
            SLIPGREASE_REPLY_MASKS_LENGTH, SLIPGREASE_REPLY_OFFSET_PER_BYTE, SLIPGREASE_REPLY_OFFSET_RANGE,
            SLIPGREASE_REPLY_STEP_WRONG}},
    {"record_masked_decryption", record_masked_decryption,
        {SLIPGREASE_REPLY_SCHEDULE_LENGTH, SLIPGREASE_REPLY_INPUT_LENGTH, SLIPGREASE_REPLY_MASKS_LENGTH,
            SLIPGREASE_REPLY_OFFSET_PER_BYTE, SLIPGREASE_REPLY_OFFSET_RANGE, SLIPGREASE_REPLY_STEP_WRONG,
            SLIPGREASE_REPLY_RECORD_LENGTH}},
};

static bool encrypts(enum masked call)
{
    return call < DECRYPT_PUBLISHED;
}

static bool records(enum masked call)
{
    return call == RECORD_MASKED || call == RECORD_MASKED_DECRYPTION;
}

void choose(const struct example *example)
{
    chosen = example;
    expand(example, expanded);
}

struct lent lent_to(enum masked call, const uint8_t at[SLIPGREASE_BYTE_OFFSETS], uint8_t step)
{
    memcpy(schedule, expanded, sizeof expanded);
    read_digits(input, encrypts(call) ? plaintext : chosen->ciphertext);
    memcpy(table, masks, sizeof masks);
    memcpy(offsets, at, SLIPGREASE_BYTE_OFFSETS);
    memset(output, UNTOUCHED, sizeof output);
    memset(record, UNTOUCHED, sizeof record);
    return (struct lent){
        .schedule = {schedule, chosen->schedule}, .input = {input, sizeof input - 1}, .output = {output, sizeof output - 1},
        .masks = {table, sizeof table - 1}, .offsets = {offsets, SLIPGREASE_BYTE_OFFSETS}, .step = step,
        .record = {record, encrypts(call) ? chosen->record : chosen->decryption_record}};
}

const uint8_t *answered(enum masked call, const struct lent *lent, uint8_t reply)
{
    const char *name = masked_calls[call].name;
    const uint8_t *block = records(call) ? lent->record.bytes + lent->record.length - SLIPGREASE_BLOCK_BYTES : output;
    number(name, masked_calls[call].answer(lent), reply);
    if (reply != SLIPGREASE_REPLY_DONE) {
        number(name, written(), 0);
        return NULL;
    }
    bytes(name, block, encrypts(call) ? chosen->ciphertext : plaintext);
    return records(call) ? record : NULL;
}

static struct lent right_to_encrypt(void)
{
    return lent_to(RECORD_MASKED, falling, 4);
}

static struct lent right_to_decrypt(void)
{
    return lent_to(RECORD_MASKED_DECRYPTION, falling, 4);
}

/* Offsets that are too few or too many, and one above 15 in each of the sixteen places. */
static void wrong_offsets(enum masked call)
{
    struct lent lent;
    for (size_t length = 0; length <= sizeof offsets; length++) {
        lent = lent_to(call, falling, 1);
        lent.offsets.length = length;
        answered(call, &lent, length == SLIPGREASE_BYTE_OFFSETS ? SLIPGREASE_REPLY_DONE : SLIPGREASE_REPLY_OFFSET_PER_BYTE);
    }
    lent = lent_to(call, falling, 1);
    lent.offsets = (struct buffer){NONE};
    answered(call, &lent, SLIPGREASE_REPLY_OFFSET_PER_BYTE);
    for (size_t place = 0; place < SLIPGREASE_BYTE_OFFSETS; place++)
        for (int above = 16; above < 256; above++) {
            lent = lent_to(call, falling, 1);
            offsets[place] = (uint8_t)above;
            answered(call, &lent, SLIPGREASE_REPLY_OFFSET_RANGE);
        }
}

/* No form but 0 is taken, where there is one. */
static void wrong_forms(enum masked call)
{
    for (int form = 1; form < 256; form++) {
        struct lent lent = lent_to(call, falling, 1);
        lent.form = (uint8_t)form;
        answered(call, &lent, SLIPGREASE_REPLY_FORM_UNKNOWN);
    }
}

void masked_refusals(void)
{
    for (size_t i = C_1; i < EXAMPLES; i++) {
        choose(&examples[i]);
        for (enum masked call = ENCRYPT_PUBLISHED; call < MASKED_CALLS; call++) {
            refusals(&masked_calls[call], encrypts(call) ? right_to_encrypt : right_to_decrypt, written);
            wrong_offsets(call);
        }
        wrong_forms(ENCRYPT_PUBLISHED);
        wrong_forms(ENCRYPT_MASKED);
    }
}
