// The comparison of the C translation with the library.
#include <string.h>

#include "expect.h"

enum { CASES = 2 };

// Steps at the edges between those that are taken and the others.
enum { EDGES = 8 };
static const uint8_t edges[EDGES] = {0, 1, 2, 3, 4, 15, 16, 255};

// A call of both engines: lengths, step and form are given, and everything that a call can write is compared, reply and bytes.
struct arguments {
    size_t key, schedule, input, output, masks, states, offsets;
    // One offset in its place. The others are in range: those of one offset, from the first on, or drawn.
    uint8_t offset;
    size_t place;
    bool one;
    uint8_t first;
    uint8_t step, form;
};

static void lay_offsets(uint8_t offsets[MOST_BLOCKS + 1], const struct arguments *a)
{
    draw(offsets, MOST_BLOCKS + 1);
    for (size_t k = 0; k <= MOST_BLOCKS; k++)
        offsets[k] = (uint8_t)((a->one ? a->first + k : offsets[k]) % 16);
    offsets[a->place] = a->offset;
}

static void compare(enum call call, const struct arguments *a, size_t number)
{
    uint8_t key[KEY_BYTES + 1], schedule[SCHEDULE_BYTES + 1], input[LONGEST], masks[MASK_BYTES + 1], offsets[MOST_BLOCKS + 1];
    uint8_t written[2][LONGEST], reply[2];

    draw(key, sizeof key);
    draw(schedule, sizeof schedule);
    draw(input, a->input);
    draw(masks, sizeof masks);
    lay_offsets(offsets, a);
    memset(written, UNTOUCHED, sizeof written);
    for (size_t i = 0; i < 2; i++) {
        const struct engine *e = engines[i];
        uint8_t *to = written[i];
        switch (call) {
        case EXPAND_KEY:
            reply[i] = e->expand_key(key, a->key, to, a->schedule);
            break;
        case ENCRYPT:
            reply[i] = e->encrypt(schedule, a->schedule, input, a->input, to, a->output);
            break;
        case DECRYPT:
            reply[i] = e->decrypt(schedule, a->schedule, input, a->input, to, a->output);
            break;
        case ENCRYPT_PUBLISHED:
            reply[i] = e->encrypt_published(schedule, a->schedule, input, a->input, to, a->output, offsets, a->offsets, a->step,
                                            a->form);
            break;
        case ENCRYPT_BLOCKS:
            reply[i] = e->encrypt_blocks(schedule, a->schedule, input, a->input, to, a->output, offsets, a->offsets, a->step,
                                         a->form);
            break;
        case ENCRYPT_MASKED:
            reply[i] = e->encrypt_masked(schedule, a->schedule, input, a->input, to, a->output, masks, a->masks, offsets,
                                         a->offsets, a->step, a->form);
            break;
        case RECORD_PLAIN:
            reply[i] = e->record_plain(schedule, a->schedule, input, a->input, to, a->states);
            break;
        case RECORD_MASKED:
            reply[i] = e->record_masked(schedule, a->schedule, input, a->input, masks, a->masks, offsets, a->offsets, a->step,
                                        to, a->states);
            break;
        case DECRYPT_PUBLISHED:
            reply[i] = e->decrypt_published(schedule, a->schedule, input, a->input, to, a->output, offsets, a->offsets, a->step);
            break;
        case DECRYPT_MASKED:
            reply[i] = e->decrypt_masked(schedule, a->schedule, input, a->input, to, a->output, masks, a->masks, offsets,
                                         a->offsets, a->step);
            break;
        default:
            reply[i] = e->record_masked_decryption(schedule, a->schedule, input, a->input, masks, a->masks, offsets, a->offsets,
                                                   a->step, to, a->states);
        }
    }
    expect(reply[0] == reply[1] && same(written[0], written[1], sizeof written[0]), 1, call, "comparison", number);
}

// What a call takes with a key of one of the lengths.
static struct arguments taken_by(enum call call, const struct lengths *lengths)
{
    return (struct arguments){.key = lengths->key, .schedule = lengths->schedule, .input = BLOCK_BYTES, .output = BLOCK_BYTES,
                              .masks = MASK_BYTES, .offsets = call == ENCRYPT_BLOCKS ? 1 : BYTE_OFFSETS, .step = 1,
                              .states = call == RECORD_MASKED_DECRYPTION ? lengths->decryption_record : lengths->record};
}

// Each length of a key, of a schedule and of a record, or one byte more or less, with each other.
static void compare_lengths(enum call call)
{
    struct arguments a = taken_by(call, &lengths_of_keys[0]);
    for (size_t choice = 0; choice < 9 * 9 * 18; choice++) {
        const struct lengths *of_record = &lengths_of_keys[choice / 81 / 3 % 3];
        a.key = lengths_of_keys[choice / 3 % 3].key - 1 + choice % 3;
        a.schedule = lengths_of_keys[choice / 9 / 3 % 3].schedule - 1 + choice / 9 % 3;
        a.states = (choice / 81 / 9 == 0 ? of_record->record : of_record->decryption_record) - 1 + choice / 81 % 3;
        compare(call, &a, choice + 1);
    }
}

// The record of each offset, the same with another offset in each place, and a drawn one.
static void compare_taken(enum call call, const struct lengths *lengths)
{
    struct arguments a = taken_by(call, lengths);
    size_t number = 0;
    for (size_t i = 0; i < CASES * STEPS; i++) {
        a.step = steps[i % STEPS];
        for (uint8_t n = 0; n < 16; n++) {
            a.one = true;
            a.first = a.offset = n;
            a.place = 0;
            compare(call, &a, ++number);
            a.place = number % a.offsets;
            a.offset = (uint8_t)((n + a.place + 1 + i % 15) % 16);
            compare(call, &a, ++number);
            a.one = false;
            compare(call, &a, ++number);
        }
    }
}

// Each of the arguments too small, right or too great, all together, with each of the steps at the edges; the offset that is too
// great is in each place in turn.
static void compare_refused(enum call call)
{
    const struct arguments taken = taken_by(call, &lengths_of_keys[KEY_LENGTHS - 1]);
    struct arguments a = taken;
    for (size_t choice = 0; choice < 3 * 3 * 3 * 3 * 3 * 3 * 3 * 2 * 2 * EDGES; choice++) {
        size_t rest = choice;
        a.one = choice % 2 != 0;
        a.place = choice % taken.offsets;
        a.key = taken.key - 1 + rest % 3;
        a.schedule = taken.schedule - 1 + (rest /= 3) % 3;
        a.input = taken.input - 1 + (rest /= 3) % 3;
        a.output = taken.output - 1 + (rest /= 3) % 3;
        a.masks = taken.masks - 1 + (rest /= 3) % 3;
        a.states = taken.states - 1 + (rest /= 3) % 3;
        a.offsets = taken.offsets - 1 + (rest /= 3) % 3;
        a.offset = (uint8_t)(15 + (rest /= 3) % 2);
        a.form = (uint8_t)((rest /= 2) % 2);
        a.step = edges[rest / 2];
        compare(call, &a, choice + 1);
    }
}

// Every number of blocks that is taken, none too.
static void compare_many_taken(const struct lengths *lengths)
{
    struct arguments a = taken_by(ENCRYPT_BLOCKS, lengths);
    for (a.offsets = 0; a.offsets <= MOST_BLOCKS; a.offsets++) {
        a.input = a.output = BLOCK_BYTES * a.offsets;
        a.place = a.offsets > 0 ? a.offsets - 1 : 0;
        a.offset = (uint8_t)(a.offsets % 16);
        a.step = steps[a.offsets % STEPS];
        compare(ENCRYPT_BLOCKS, &a, a.offsets);
    }
}

// Lengths about no block, one block and the most, each with each, a last offset and a form that are right or too great, and steps
// at the edges.
static void compare_many_refused(void)
{
    static const size_t lengths[] = {0, 15, 16, 17, 4095, 4096, 4097, 4112}, counts[] = {0, 1, 2, 255, 256, 257};
    const struct arguments taken = taken_by(ENCRYPT_BLOCKS, &lengths_of_keys[KEY_LENGTHS - 1]);
    struct arguments a = taken;
    for (size_t choice = 0; choice < 8 * 8 * 6 * 3 * 2 * 2 * EDGES; choice++) {
        size_t rest = choice;
        a.input = lengths[rest % 8];
        a.output = lengths[(rest /= 8) % 8];
        a.offsets = counts[(rest /= 8) % 6];
        a.place = a.offsets > 0 ? a.offsets - 1 : 0;
        a.schedule = taken.schedule - 1 + (rest /= 6) % 3;
        a.offset = (uint8_t)(15 + (rest /= 3) % 2);
        a.form = (uint8_t)((rest /= 2) % 2);
        a.step = edges[rest / 2];
        compare(ENCRYPT_BLOCKS, &a, choice + 1);
    }
}

void compare_engines(void)
{
    for (size_t i = 0; i < KEY_LENGTHS; i++)
        compare_many_taken(&lengths_of_keys[i]);
    compare_many_refused();
    for (int call = 0; call < WRAP; call++) {
        for (size_t i = 0; i < KEY_LENGTHS; i++)
            compare_taken((enum call)call, &lengths_of_keys[i]);
        compare_lengths((enum call)call);
        compare_refused((enum call)call);
    }
}
