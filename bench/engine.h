// The calls that are measured, of the library and of its C translation, under the same arguments: a slice goes as a pointer and a
// length.
#ifndef ENGINE_H
#define ENGINE_H

#include <stdbool.h>
#include <stddef.h>
#include <stdint.h>

enum { KEY_BYTES = 32, SCHEDULE_BYTES = 240, BLOCK_BYTES = 16, MASK_BYTES = 16, BYTE_OFFSETS = 16, MOST_BLOCKS = 256 };
enum { RECORD_BYTES = 1136, DECRYPTION_RECORD_BYTES = 1360 };

// How long a key can be, and what goes with that: its schedule, and the records of runs with it. Those above are of the longest.
enum { KEY_LENGTHS = 3 };
struct lengths {
    size_t key, schedule, record, decryption_record;
};
extern const struct lengths lengths_of_keys[KEY_LENGTHS];
enum { LEAST_KEY_DATA = 16, MOST_KEY_DATA = 256, WRAP_EXTRA = 8 };
enum { PACKET_BYTES = 188, HEADER_BYTES = 4, PIPES = 7, PIPE_BYTES = 498, PIPES_BYTES = PIPES * PIPE_BYTES };

// Where the parts of a pipe begin behind its PID.
enum { EVEN_AT = 2, ODD_AT = EVEN_AT + SCHEDULE_BYTES, START_AT = ODD_AT + SCHEDULE_BYTES };

// After the calls come some of them once more: two with another step than 1, which makes them work out their boxes, the masked
// ones of one block at a record that is not that of one offset, which makes them work out its constants, one on a packet whose PID
// is not listed, and some with shorter keys: those that other libraries have come first, in the order that they have above.
enum call {
    EXPAND_KEY,
    ENCRYPT,
    DECRYPT,
    ENCRYPT_PUBLISHED,
    ENCRYPT_BLOCKS,
    ENCRYPT_MASKED,
    RECORD_PLAIN,
    RECORD_MASKED,
    DECRYPT_PUBLISHED,
    DECRYPT_MASKED,
    RECORD_MASKED_DECRYPTION,
    WRAP,
    UNWRAP,
    WRAP_MASKED,
    UNWRAP_MASKED,
    SCRAMBLE,
    DESCRAMBLE,
    MASKED_INVERSE,
    TOWER_INVERSE,
    TOWER_BOX,
    CALLS,
    ENCRYPT_PUBLISHED_STEP_5 = CALLS,
    DECRYPT_PUBLISHED_STEP_5,
    ENCRYPT_PUBLISHED_ANOTHER,
    ENCRYPT_MASKED_ANOTHER,
    RECORD_MASKED_ANOTHER,
    DECRYPT_PUBLISHED_ANOTHER,
    DECRYPT_MASKED_ANOTHER,
    RECORD_MASKED_DECRYPTION_ANOTHER,
    SCRAMBLE_UNLISTED,
    EXPAND_KEY_16,
    ENCRYPT_16,
    DECRYPT_16,
    EXPAND_KEY_24,
    ENCRYPT_24,
    DECRYPT_24,
    ENCRYPT_PUBLISHED_16,
    DECRYPT_PUBLISHED_16,
    ENCRYPT_PUBLISHED_24,
    DECRYPT_PUBLISHED_24,
    MEASURED,
};

extern const char *const call_names[MEASURED];

struct engine {
    const char *name;
    uint8_t (*expand_key)(const uint8_t *key, size_t key_length, uint8_t *schedule, size_t schedule_length);
    uint8_t (*encrypt)(const uint8_t *schedule, size_t schedule_length, const uint8_t *input, size_t input_length,
                       uint8_t *output, size_t output_length);
    uint8_t (*decrypt)(const uint8_t *schedule, size_t schedule_length, const uint8_t *input, size_t input_length,
                       uint8_t *output, size_t output_length);
    uint8_t (*encrypt_published)(const uint8_t *schedule, size_t schedule_length, const uint8_t *input, size_t input_length,
                                 uint8_t *output, size_t output_length, const uint8_t *offsets, size_t offsets_length,
                                 uint8_t step, uint8_t form);
    uint8_t (*encrypt_blocks)(const uint8_t *schedule, size_t schedule_length, const uint8_t *input, size_t input_length,
                              uint8_t *output, size_t output_length, const uint8_t *offsets, size_t offsets_length,
                              uint8_t step, uint8_t form);
    uint8_t (*encrypt_masked)(const uint8_t *schedule, size_t schedule_length, const uint8_t *input, size_t input_length,
                              uint8_t *output, size_t output_length, const uint8_t *masks, size_t masks_length,
                              const uint8_t *offsets, size_t offsets_length, uint8_t step, uint8_t form);
    uint8_t (*record_plain)(const uint8_t *schedule, size_t schedule_length, const uint8_t *input, size_t input_length,
                            uint8_t *states, size_t states_length);
    uint8_t (*record_masked)(const uint8_t *schedule, size_t schedule_length, const uint8_t *input, size_t input_length,
                             const uint8_t *masks, size_t masks_length, const uint8_t *offsets, size_t offsets_length,
                             uint8_t step, uint8_t *states, size_t states_length);
    uint8_t (*decrypt_published)(const uint8_t *schedule, size_t schedule_length, const uint8_t *input, size_t input_length,
                                 uint8_t *output, size_t output_length, const uint8_t *offsets, size_t offsets_length,
                                 uint8_t step);
    uint8_t (*decrypt_masked)(const uint8_t *schedule, size_t schedule_length, const uint8_t *input, size_t input_length,
                              uint8_t *output, size_t output_length, const uint8_t *masks, size_t masks_length,
                              const uint8_t *offsets, size_t offsets_length, uint8_t step);
    uint8_t (*record_masked_decryption)(const uint8_t *schedule, size_t schedule_length, const uint8_t *input,
                                        size_t input_length, const uint8_t *masks, size_t masks_length,
                                        const uint8_t *offsets, size_t offsets_length, uint8_t step, uint8_t *states,
                                        size_t states_length);
    uint8_t (*wrap)(const uint8_t *schedule, size_t schedule_length, const uint8_t *key_data, size_t key_data_length,
                    uint8_t *wrapped, size_t wrapped_length);
    uint8_t (*unwrap)(const uint8_t *schedule, size_t schedule_length, const uint8_t *wrapped, size_t wrapped_length,
                      uint8_t *key_data, size_t key_data_length);
    uint8_t (*wrap_masked)(const uint8_t *schedule, size_t schedule_length, const uint8_t *key_data, size_t key_data_length,
                           uint8_t *wrapped, size_t wrapped_length, uint8_t offset);
    uint8_t (*unwrap_masked)(const uint8_t *schedule, size_t schedule_length, const uint8_t *wrapped, size_t wrapped_length,
                             uint8_t *key_data, size_t key_data_length, uint8_t offset);
    uint8_t (*scramble)(const uint8_t *packet, size_t packet_length, uint8_t *packet_out, size_t packet_out_length,
                        const uint8_t *pipes, size_t pipes_length, bool odd);
    uint8_t (*descramble)(const uint8_t *packet, size_t packet_length, uint8_t *packet_out, size_t packet_out_length,
                          const uint8_t *pipes, size_t pipes_length);
    uint8_t (*masked_inverse)(uint8_t x, uint8_t r);
    uint8_t (*tower_inverse)(uint8_t x, uint8_t r);
    uint8_t (*tower_box)(uint8_t label, uint8_t x);
};

extern const struct engine library, translation;

// M0 to M15.
extern const uint8_t published_masks[MASK_BYTES];

#endif
