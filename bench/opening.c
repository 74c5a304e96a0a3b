// The masked engine, translated: decryption of one block with the published masks, from stored inverse boxes where the step is 1,
// decryption with sixteen lent masks, whose tables are worked out in each call, and the recorded run.
#include "covered.h"

// Of the published masks: the inverse boxes with step 1, and the corrections after InvShiftRows and after InvMixColumns at the
// offsets of 0, which depend on no step.
static uint8_t stored_boxes[BOXES];
static constant stored_rows[MASKS], stored_columns[MASKS];

// At the offsets of 0, and at those of a start.
static void make_corrections(constant rows[MASKS], constant columns[MASKS], const uint8_t masks[TWICE])
{
    make_constants(rows, masks, inv_shift_rows);
    make_constants(columns, masks, inv_mix_columns);
}

static void make_corrections_at(constant rows[MASKS], constant columns[MASKS], const uint8_t masks[TWICE],
                                const struct start *start)
{
    uint8_t lines[BLOCK][MASKS], covering[BLOCK];
    lay_lines(lines, masks, start);
    for (size_t label = 0; label < MASKS; label++) {
        one_of_each(covering, lines, label);
        make_constant(rows[label], covering, inv_shift_rows);
        make_constant(columns[label], covering, inv_mix_columns);
    }
}

void prepare_opening(void)
{
    make_boxes(stored_boxes, inv_sbox, published, 1);
    make_corrections(stored_rows, stored_columns, published);
}

// What every round begins with. It is called before the loop and at the loop's end: as the loop's beginning it would cost 30
// instructions more by gcc -O3.
static inline void begin_round(uint8_t state[BLOCK], const uint8_t boxes[BOXES], const constant rows[MASKS],
                               const struct start *start, size_t label)
{
    inv_shift_rows(state);
    add(state, rows[label]);
    substitute_covered(state, boxes, start, label);
}

// The finished block alone, from a label on.
static inline void run(const uint8_t *schedule, size_t rounds, const uint8_t *input, uint8_t *restrict output,
                       const uint8_t masks[TWICE], const uint8_t boxes[BOXES], const constant rows[MASKS],
                       const constant columns[MASKS], const struct start *start, size_t label, size_t step)
{
    uint8_t end[BLOCK], state[BLOCK];
    mask(end, masks, start, label + rounds * step);
    memcpy(state, input, BLOCK);
    cover(state, masks, start, label);
    add_round_key(state, schedule, rounds);
    begin_round(state, boxes, rows, start, label);
    for (size_t round = rounds - 1; round > 0; round--) {
        label = (label + step) % MASKS;
        add_round_key(state, schedule, round);
        inv_mix_columns(state);
        add(state, columns[label]);
        begin_round(state, boxes, rows, start, label);
    }
    add_round_key(state, schedule, 0);
    add(state, end);
    memcpy(output, state, BLOCK);
}

// All states of a run.
static inline void record(const uint8_t *schedule, size_t rounds, const uint8_t *input, uint8_t *restrict states,
                          const uint8_t masks[TWICE], const uint8_t boxes[BOXES], const constant rows[MASKS],
                          const constant columns[MASKS], const struct start *start, size_t step)
{
    uint8_t state[BLOCK];
    size_t label = start->first;
    memcpy(state, input, BLOCK);
    cover(state, masks, start, label);
    states = keep(state, states);
    add_round_key(state, schedule, rounds);
    states = keep(state, states);
    for (size_t round = rounds; round-- > 0;) {
        inv_shift_rows(state);
        states = keep(state, states);
        add(state, rows[label % MASKS]);
        states = keep(state, states);
        substitute_covered(state, boxes, start, label);
        label += step;
        states = keep(state, states);
        add_round_key(state, schedule, round);
        states = keep(state, states);
        if (round == 0)
            break;
        inv_mix_columns(state);
        states = keep(state, states);
        add(state, columns[label % MASKS]);
        states = keep(state, states);
    }
    cover(state, masks, start, label);
    keep(state, states);
}

// The run over the published masks from any start. What is stored of them is with step 1, and at the offsets of 0; anything else
// is worked out before the block is read. Where the offsets are those of 0 the run is told so once more, as in masked.c.
static inline void unsealed(const uint8_t *schedule, size_t rounds, const uint8_t *input, uint8_t *restrict output,
                            const struct start *start, size_t step)
{
    uint8_t place[BOXES];
    const uint8_t *boxes = published_boxes(stored_boxes, place, inv_sbox, step);
    if (start->one) {
        struct start of_zero = start_with_one(0);
        run(schedule, rounds, input, output, published, boxes, stored_rows, stored_columns, &of_zero, start->first, step);
    } else {
        constant rows[MASKS], columns[MASKS];
        make_corrections_at(rows, columns, published, start);
        run(schedule, rounds, input, output, published, boxes, rows, columns, start, start->first, step);
    }
}

uint8_t translated_decrypt_published(const uint8_t *schedule, size_t schedule_length, const uint8_t *input, size_t input_length,
                                     uint8_t *restrict output, size_t output_length, const uint8_t *offsets,
                                     size_t offsets_length, uint8_t step)
{
    uint8_t refused = refusal(schedule_length, input_length, output_length, MASKS, offsets, offsets_length, step, 0);
    if (refused != DONE)
        return refused;
    struct start start = start_with(offsets);
    unsealed(schedule, rounds_of(schedule_length), input, output, &start, step);
    return DONE;
}

uint8_t translated_decrypt_one(const uint8_t *schedule, size_t schedule_length, const uint8_t *input, size_t input_length,
                               uint8_t *restrict output, size_t output_length, uint8_t offset)
{
    uint8_t refused = refusal_of_one(schedule_length, input_length, output_length, offset);
    if (refused != DONE)
        return refused;
    struct start start = start_with_one(offset);
    unsealed(schedule, rounds_of(SCHEDULE), input, output, &start, 1);
    return DONE;
}

uint8_t translated_decrypt_masked(const uint8_t *schedule, size_t schedule_length, const uint8_t *input, size_t input_length,
                                  uint8_t *restrict output, size_t output_length, const uint8_t *masks, size_t masks_length,
                                  const uint8_t *offsets, size_t offsets_length, uint8_t step)
{
    uint8_t refused = refusal(schedule_length, input_length, output_length, masks_length, offsets, offsets_length, step, 0);
    if (refused != DONE)
        return refused;
    struct start start = start_with(offsets);
    uint8_t twice[TWICE], boxes[BOXES];
    constant rows[MASKS], columns[MASKS];
    lay_twice(twice, masks);
    make_boxes(boxes, inv_sbox, twice, step);
    make_corrections(rows, columns, twice);
    if (!start.one)
        make_corrections_at(rows, columns, twice, &start);
    run(schedule, rounds_of(schedule_length), input, output, twice, boxes, rows, columns, &start, start.first, step);
    return DONE;
}

uint8_t translated_record_masked_decryption(const uint8_t *schedule, size_t schedule_length, const uint8_t *input,
                                            size_t input_length, const uint8_t *masks, size_t masks_length,
                                            const uint8_t *offsets, size_t offsets_length, uint8_t step, uint8_t *restrict states,
                                            size_t states_length)
{
    uint8_t refused = refusal(schedule_length, input_length, BLOCK, masks_length, offsets, offsets_length, step, 0);
    if (refused != DONE)
        return refused;
    if (states_length != decryption_record_length(rounds_of(schedule_length)))
        return RECORD_LENGTH;
    struct start start = start_with(offsets);
    uint8_t twice[TWICE], boxes[BOXES];
    constant rows[MASKS], columns[MASKS];
    lay_twice(twice, masks);
    make_boxes(boxes, inv_sbox, twice, step);
    make_corrections(rows, columns, twice);
    if (!start.one)
        make_corrections_at(rows, columns, twice, &start);
    record(schedule, rounds_of(schedule_length), input, states, twice, boxes, rows, columns, &start, step);
    return DONE;
}
