// What both directions of the masked engine have, translated: masks, boxes and constants that are made of them, where the labels
// of a run begin, the steps over a covered state, and what a call of one block refuses.
#ifndef COVERED_H
#define COVERED_H

#include "state.h"
#include "translated.h"

enum { MASKS = 16, TWICE = 2 * MASKS, BOX = 256, BOXES = MASKS * BOX };

// Masks lie twice over wherever they are read, so that sixteen are in a row from any label on.
static const uint8_t published[TWICE] = {
    0x00, 0x0f, 0x36, 0x39, 0x53, 0x5c, 0x65, 0x6a, 0x95, 0x9a, 0xa3, 0xac, 0xc6, 0xc9, 0xf0, 0xff,
    0x00, 0x0f, 0x36, 0x39, 0x53, 0x5c, 0x65, 0x6a, 0x95, 0x9a, 0xa3, 0xac, 0xc6, 0xc9, 0xf0, 0xff,
};

typedef uint8_t constant[BLOCK];

static inline void lay_twice(uint8_t twice[TWICE], const uint8_t masks[MASKS])
{
    memcpy(twice, masks, MASKS);
    memcpy(twice + MASKS, masks, MASKS);
}

// Where the labels of a run begin: at offsets, so many labels on. Of the record of one offset these are the offsets of 0, and
// they are that offset on; of any other record they are its own, and not on. An offset is held by where its box begins, so that
// no label is multiplied where its box is read.
struct start {
    bool one;
    size_t first;
    uint16_t offsets[BLOCK];
};

static inline struct start start_with_one(uint8_t offset)
{
    struct start start = {.one = true, .first = offset % MASKS};
    for (size_t i = 0; i < BLOCK; i++)
        start.offsets[i] = (uint16_t)(BOX * i);
    return start;
}

static inline bool is_one(const uint8_t offsets[BLOCK])
{
    size_t first = offsets[0] % MASKS;
    bool right = true;
    for (size_t i = 0; i < BLOCK; i++)
        right &= offsets[i] == (first + i) % MASKS;
    return right;
}

static inline struct start start_with(const uint8_t offsets[BLOCK])
{
    if (is_one(offsets))
        return start_with_one(offsets[0]);
    struct start start = {.one = false, .first = 0};
    for (size_t i = 0; i < BLOCK; i++)
        start.offsets[i] = (uint16_t)(BOX * (offsets[i] % MASKS));
    return start;
}

// The masks over a state, so many labels on.
static inline void mask(uint8_t state[BLOCK], const uint8_t masks[TWICE], const struct start *start, size_t label)
{
    if (start->one)
        memcpy(state, masks + label % MASKS, BLOCK);
    else
        for (size_t i = 0; i < BLOCK; i++)
            state[i] = masks[start->offsets[i] / BOX + label % MASKS];
}

// Box j takes a byte under mask j and gives one under mask j + step: bare, it is S or its inverse.
static void make_boxes(uint8_t boxes[BOXES], const uint8_t bare[256], const uint8_t masks[TWICE], size_t step)
{
    for (size_t j = 0; j < MASKS; j++) {
        uint8_t from = masks[j], to = masks[(j + step) % MASKS];
        for (size_t x = 0; x < BOX; x++)
            boxes[BOX * j + x] = bare[x ^ from] ^ to;
    }
}

// The stored boxes of step 1, or those of another step, which are worked out in the lent place.
static inline const uint8_t *published_boxes(const uint8_t stored[BOXES], uint8_t place[BOXES], const uint8_t bare[256],
                                             size_t step)
{
    if (step == 1)
        return stored;
    make_boxes(place, bare, published, step);
    return place;
}

// The masks over a state and what a transformation makes of them.
static inline void make_constant(constant made, const uint8_t covering[BLOCK], void (*transform)(uint8_t state[BLOCK]))
{
    uint8_t state[BLOCK];
    memcpy(state, covering, BLOCK);
    transform(state);
    add(state, covering);
    memcpy(made, state, BLOCK);
}

// The same for each label, at the offsets of 0.
static inline void make_constants(constant constants[MASKS], const uint8_t masks[TWICE], void (*transform)(uint8_t state[BLOCK]))
{
    for (size_t label = 0; label < MASKS; label++) {
        uint8_t covering[BLOCK];
        memcpy(covering, masks + label, BLOCK);
        make_constant(constants[label], covering, transform);
    }
}

// For each byte the masks that lie over it from label to label, a line of sixteen; and one of each line, which lie over a state.
static inline void lay_lines(uint8_t lines[BLOCK][MASKS], const uint8_t masks[TWICE], const struct start *start)
{
    for (size_t i = 0; i < BLOCK; i++)
        memcpy(lines[i], masks + start->offsets[i] / BOX, MASKS);
}

static inline void one_of_each(uint8_t state[BLOCK], uint8_t lines[BLOCK][MASKS], size_t label)
{
    for (size_t i = 0; i < BLOCK; i++)
        state[i] = lines[i][label];
}

static inline void cover(uint8_t state[BLOCK], const uint8_t masks[TWICE], const struct start *start, size_t label)
{
    uint8_t covering[BLOCK];
    mask(covering, masks, start, label);
    add(state, covering);
}

// Byte i by the box over it, even positions first. Each label is counted on where its box is read: all at once, before they are,
// would cost 460 instructions more by gcc -O3, and rows of places, as the library has them, 340. A box begins at a multiple of 256,
// so the byte is the lower half of the place.
static inline void substitute_covered(uint8_t state[BLOCK], const uint8_t boxes[BOXES], const struct start *start, size_t label)
{
    static const uint8_t order[BLOCK] = {0, 2, 4, 6, 8, 10, 12, 14, 1, 3, 5, 7, 9, 11, 13, 15};
    for (size_t k = 0; k < BLOCK; k++) {
        size_t i = order[k];
        state[i] = boxes[(start->offsets[i] + BOX * label) % BOXES | state[i]];
    }
}

static inline int taken(uint8_t step)
{
    return (step == 1 || step >= 4) && step <= 15;
}

// What is checked last, of one block and of many.
static inline uint8_t refusal_of_offsets(const uint8_t *offsets, size_t offsets_length, uint8_t step, uint8_t form)
{
    for (size_t k = 0; k < offsets_length; k++)
        if (offsets[k] > 15)
            return OFFSET_RANGE;
    if (!taken(step))
        return STEP_WRONG;
    if (form != 0)
        return FORM_UNKNOWN;
    return DONE;
}

static inline uint8_t refusal(size_t schedule_length, size_t input_length, size_t output_length, size_t masks_length,
                              const uint8_t *offsets, size_t offsets_length, uint8_t step, uint8_t form)
{
    if (rounds_of(schedule_length) == 0)
        return SCHEDULE_LENGTH;
    if (input_length != BLOCK)
        return INPUT_LENGTH;
    if (output_length != BLOCK)
        return OUTPUT_LENGTH;
    if (masks_length != MASKS)
        return MASKS_LENGTH;
    if (offsets_length != BLOCK)
        return OFFSET_PER_BYTE;
    return refusal_of_offsets(offsets, offsets_length, step, form);
}

// The same with one offset, for callers that keep to 32-byte keys.
static inline uint8_t refusal_of_one(size_t schedule_length, size_t input_length, size_t output_length, uint8_t offset)
{
    if (schedule_length != SCHEDULE)
        return SCHEDULE_LENGTH;
    if (input_length != BLOCK)
        return INPUT_LENGTH;
    if (output_length != BLOCK)
        return OUTPUT_LENGTH;
    if (offset > 15)
        return OFFSET_RANGE;
    return DONE;
}

// Works out what the decryption has stored; translated_prepare calls it.
void prepare_opening(void);

// Makes the tables of the calls of one byte.
void prepare_tower(void);

#endif
