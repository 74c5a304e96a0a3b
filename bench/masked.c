// The masked engine, translated: encryption of one block and of many with the published masks, from stored boxes where the step is
// 1, encryption with sixteen lent masks, whose boxes are worked out in each call, and the recorded run.
#include "covered.h"

enum { MOST_BLOCKS = 256 };

// Of the published masks: the boxes with step 1, and the compensations at the offsets of 0, which depend on no step.
static uint8_t stored_boxes[BOXES];
static constant stored_compensations[MASKS];

// What the masks over a state become where a round compensates them.
static inline void shift_and_mix(uint8_t state[BLOCK])
{
    shift_rows(state);
    mix_columns(state);
}

// At the offsets of 0, and at those of a start.
static void make_compensations(constant compensations[MASKS], const uint8_t masks[TWICE])
{
    make_constants(compensations, masks, shift_and_mix);
}

static void make_compensations_at(constant compensations[MASKS], const uint8_t masks[TWICE], const struct start *start)
{
    uint8_t lines[BLOCK][MASKS], covering[BLOCK];
    lay_lines(lines, masks, start);
    for (size_t label = 0; label < MASKS; label++) {
        one_of_each(covering, lines, label);
        make_constant(compensations[label], covering, shift_and_mix);
    }
}

void translated_prepare(void)
{
    make_boxes(stored_boxes, sbox, published, 1);
    make_compensations(stored_compensations, published);
    prepare_opening();
    prepare_tower();
}

// The last constant, which uncovers the block.
static inline void ending(uint8_t end[BLOCK], const uint8_t masks[TWICE], const struct start *start, size_t label)
{
    mask(end, masks, start, label);
    shift_rows(end);
}

// The finished block alone, from a label on.
static inline void run(const uint8_t *schedule, size_t rounds, const uint8_t *input, uint8_t *restrict output,
                       const uint8_t masks[TWICE], const uint8_t boxes[BOXES], const constant compensations[MASKS],
                       const struct start *start, size_t label, size_t step)
{
    uint8_t end[BLOCK], state[BLOCK];
    ending(end, masks, start, label + rounds * step);
    memcpy(state, input, BLOCK);
    cover(state, masks, start, label);
    for (size_t round = 0; round < rounds - 1; round++) {
        add_round_key(state, schedule, round);
        substitute_covered(state, boxes, start, label);
        label = (label + step) % MASKS;
        shift_rows(state);
        mix_columns(state);
        add(state, compensations[label]);
    }
    add_round_key(state, schedule, rounds - 1);
    substitute_covered(state, boxes, start, label);
    shift_rows(state);
    add_round_key(state, schedule, rounds);
    add(state, end);
    memcpy(output, state, BLOCK);
}

// All states of a run.
static inline void record(const uint8_t *schedule, size_t rounds, const uint8_t *input, uint8_t *restrict states,
                          const uint8_t masks[TWICE], const uint8_t boxes[BOXES], const constant compensations[MASKS],
                          const struct start *start, size_t step)
{
    uint8_t end[BLOCK], state[BLOCK];
    size_t label = start->first;
    ending(end, masks, start, label + rounds * step);
    memcpy(state, input, BLOCK);
    cover(state, masks, start, label);
    states = keep(state, states);
    for (size_t round = 0; round < rounds; round++) {
        add_round_key(state, schedule, round);
        states = keep(state, states);
        substitute_covered(state, boxes, start, label);
        label += step;
        states = keep(state, states);
        shift_rows(state);
        states = keep(state, states);
        if (round < rounds - 1)
            mix_columns(state);
        else
            add_round_key(state, schedule, rounds);
        states = keep(state, states);
        add(state, round < rounds - 1 ? compensations[label % MASKS] : end);
        states = keep(state, states);
    }
}

// The run over the published masks from any start. What is stored of them is with step 1, and at the offsets of 0; anything else
// is worked out before the block is read. Where the offsets are those of 0 the run is told so once more: by gcc -O3 that saves
// 240 instructions.
static inline void sealed(const uint8_t *schedule, size_t rounds, const uint8_t *input, uint8_t *restrict output,
                          const struct start *start, size_t step)
{
    uint8_t place[BOXES];
    const uint8_t *boxes = published_boxes(stored_boxes, place, sbox, step);
    if (start->one) {
        struct start of_zero = start_with_one(0);
        run(schedule, rounds, input, output, published, boxes, stored_compensations, &of_zero, start->first, step);
    } else {
        constant compensations[MASKS];
        make_compensations_at(compensations, published, start);
        run(schedule, rounds, input, output, published, boxes, compensations, start, start->first, step);
    }
}

// What many blocks refuse.
static inline uint8_t refusal_of_many(size_t schedule_length, size_t input_length, size_t output_length, const uint8_t *offsets,
                                      size_t offsets_length, uint8_t step, uint8_t form)
{
    if (rounds_of(schedule_length) == 0)
        return SCHEDULE_LENGTH;
    if (input_length % BLOCK != 0 || input_length > BLOCK * MOST_BLOCKS)
        return INPUT_LENGTH;
    if (output_length != input_length)
        return OUTPUT_LENGTH;
    if (offsets_length != input_length / BLOCK)
        return OFFSETS_LENGTH;
    return refusal_of_offsets(offsets, offsets_length, step, form);
}

uint8_t translated_encrypt_published(const uint8_t *schedule, size_t schedule_length, const uint8_t *input, size_t input_length,
                                     uint8_t *restrict output, size_t output_length, const uint8_t *offsets,
                                     size_t offsets_length, uint8_t step, uint8_t form)
{
    uint8_t refused = refusal(schedule_length, input_length, output_length, MASKS, offsets, offsets_length, step, form);
    if (refused != DONE)
        return refused;
    struct start start = start_with(offsets);
    sealed(schedule, rounds_of(schedule_length), input, output, &start, step);
    return DONE;
}

uint8_t translated_encrypt_one(const uint8_t *schedule, size_t schedule_length, const uint8_t *input, size_t input_length,
                               uint8_t *restrict output, size_t output_length, uint8_t offset)
{
    uint8_t refused = refusal_of_one(schedule_length, input_length, output_length, offset);
    if (refused != DONE)
        return refused;
    struct start start = start_with_one(offset);
    sealed(schedule, rounds_of(SCHEDULE), input, output, &start, 1);
    return DONE;
}

uint8_t translated_encrypt_blocks(const uint8_t *schedule, size_t schedule_length, const uint8_t *input, size_t input_length,
                                  uint8_t *restrict output, size_t output_length, const uint8_t *offsets, size_t offsets_length,
                                  uint8_t step, uint8_t form)
{
    uint8_t refused = refusal_of_many(schedule_length, input_length, output_length, offsets, offsets_length, step, form);
    if (refused != DONE)
        return refused;
    uint8_t place[BOXES];
    const uint8_t *boxes = published_boxes(stored_boxes, place, sbox, step);
    size_t rounds = rounds_of(schedule_length);
    struct start start = start_with_one(0);
    for (size_t k = 0; k < offsets_length; k++, input += BLOCK, output += BLOCK)
        run(schedule, rounds, input, output, published, boxes, stored_compensations, &start, offsets[k], step);
    return DONE;
}

uint8_t translated_encrypt_masked(const uint8_t *schedule, size_t schedule_length, const uint8_t *input, size_t input_length,
                                  uint8_t *restrict output, size_t output_length, const uint8_t *masks, size_t masks_length,
                                  const uint8_t *offsets, size_t offsets_length, uint8_t step, uint8_t form)
{
    uint8_t refused = refusal(schedule_length, input_length, output_length, masks_length, offsets, offsets_length, step, form);
    if (refused != DONE)
        return refused;
    struct start start = start_with(offsets);
    uint8_t twice[TWICE], boxes[BOXES];
    constant compensations[MASKS];
    lay_twice(twice, masks);
    make_boxes(boxes, sbox, twice, step);
    make_compensations(compensations, twice);
    if (!start.one)
        make_compensations_at(compensations, twice, &start);
    run(schedule, rounds_of(schedule_length), input, output, twice, boxes, compensations, &start, start.first, step);
    return DONE;
}

uint8_t translated_record_masked(const uint8_t *schedule, size_t schedule_length, const uint8_t *input, size_t input_length,
                                 const uint8_t *masks, size_t masks_length, const uint8_t *offsets, size_t offsets_length,
                                 uint8_t step, uint8_t *restrict states, size_t states_length)
{
    uint8_t refused = refusal(schedule_length, input_length, BLOCK, masks_length, offsets, offsets_length, step, 0);
    if (refused != DONE)
        return refused;
    if (states_length != record_length(rounds_of(schedule_length)))
        return RECORD_LENGTH;
    struct start start = start_with(offsets);
    uint8_t twice[TWICE], boxes[BOXES];
    constant compensations[MASKS];
    lay_twice(twice, masks);
    make_boxes(boxes, sbox, twice, step);
    make_compensations(compensations, twice);
    if (!start.one)
        make_compensations_at(compensations, twice, &start);
    record(schedule, rounds_of(schedule_length), input, states, twice, boxes, compensations, &start, step);
    return DONE;
}
