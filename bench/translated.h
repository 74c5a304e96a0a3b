// C translations of the library's steps, to be compared with it: the same checks in the same order, the same reply numbers, the
// same steps over a state of sixteen bytes, written as C is. Buffers do not overlap, as with the library.
#ifndef TRANSLATED_H
#define TRANSLATED_H

#include <stdbool.h>
#include <stddef.h>
#include <stdint.h>

enum reply {
    DONE = 0,
    KEY_LENGTH = 1,
    SCHEDULE_LENGTH = 2,
    INPUT_LENGTH = 3,
    OUTPUT_LENGTH = 4,
    MASKS_LENGTH = 5,
    OFFSET_RANGE = 6,
    FORM_UNKNOWN = 7,
    RECORD_LENGTH = 8,
    OFFSETS_LENGTH = 14,
    STEP_WRONG = 15,
    KEY_DATA_LENGTH = 16,
    WRAPPED_LENGTH = 17,
    INTEGRITY = 18,
    PACKET_LENGTH = 19,
    SYNC_LOST = 20,
    FIELD_WRONG = 21,
    PIPES_WRONG = 22,
    BITS_WRONG = 23,
    OFFSET_PER_BYTE = 24,
};

uint8_t translated_expand_key(const uint8_t *key, size_t key_length, uint8_t *schedule, size_t schedule_length);

uint8_t translated_encrypt(const uint8_t *schedule, size_t schedule_length, const uint8_t *input, size_t input_length,
                           uint8_t *output, size_t output_length);

uint8_t translated_decrypt(const uint8_t *schedule, size_t schedule_length, const uint8_t *input, size_t input_length,
                           uint8_t *output, size_t output_length);

uint8_t translated_record_plain(const uint8_t *schedule, size_t schedule_length, const uint8_t *input, size_t input_length,
                                uint8_t *states, size_t states_length);

// Works out the boxes with step 1 and the constants of the published masks, which the library has stored, for both directions:
// once, before the calls that read them.
void translated_prepare(void);

uint8_t translated_encrypt_published(const uint8_t *schedule, size_t schedule_length, const uint8_t *input, size_t input_length,
                                     uint8_t *output, size_t output_length, const uint8_t *offsets, size_t offsets_length,
                                     uint8_t step, uint8_t form);

uint8_t translated_encrypt_blocks(const uint8_t *schedule, size_t schedule_length, const uint8_t *input, size_t input_length,
                                  uint8_t *output, size_t output_length, const uint8_t *offsets, size_t offsets_length,
                                  uint8_t step, uint8_t form);

uint8_t translated_encrypt_masked(const uint8_t *schedule, size_t schedule_length, const uint8_t *input, size_t input_length,
                                  uint8_t *output, size_t output_length, const uint8_t *masks, size_t masks_length,
                                  const uint8_t *offsets, size_t offsets_length, uint8_t step, uint8_t form);

uint8_t translated_record_masked(const uint8_t *schedule, size_t schedule_length, const uint8_t *input, size_t input_length,
                                 const uint8_t *masks, size_t masks_length, const uint8_t *offsets, size_t offsets_length,
                                 uint8_t step, uint8_t *states, size_t states_length);

uint8_t translated_decrypt_published(const uint8_t *schedule, size_t schedule_length, const uint8_t *input, size_t input_length,
                                     uint8_t *output, size_t output_length, const uint8_t *offsets, size_t offsets_length,
                                     uint8_t step);

uint8_t translated_decrypt_masked(const uint8_t *schedule, size_t schedule_length, const uint8_t *input, size_t input_length,
                                  uint8_t *output, size_t output_length, const uint8_t *masks, size_t masks_length,
                                  const uint8_t *offsets, size_t offsets_length, uint8_t step);

uint8_t translated_record_masked_decryption(const uint8_t *schedule, size_t schedule_length, const uint8_t *input,
                                            size_t input_length, const uint8_t *masks, size_t masks_length,
                                            const uint8_t *offsets, size_t offsets_length, uint8_t step, uint8_t *states,
                                            size_t states_length);

// One block with the published masks, step 1 and one offset, for key wrap.
uint8_t translated_encrypt_one(const uint8_t *schedule, size_t schedule_length, const uint8_t *input, size_t input_length,
                               uint8_t *output, size_t output_length, uint8_t offset);

uint8_t translated_decrypt_one(const uint8_t *schedule, size_t schedule_length, const uint8_t *input, size_t input_length,
                               uint8_t *output, size_t output_length, uint8_t offset);

uint8_t translated_wrap(const uint8_t *schedule, size_t schedule_length, const uint8_t *key_data, size_t key_data_length,
                        uint8_t *wrapped, size_t wrapped_length);

uint8_t translated_unwrap(const uint8_t *schedule, size_t schedule_length, const uint8_t *wrapped, size_t wrapped_length,
                          uint8_t *key_data, size_t key_data_length);

uint8_t translated_wrap_masked(const uint8_t *schedule, size_t schedule_length, const uint8_t *key_data, size_t key_data_length,
                               uint8_t *wrapped, size_t wrapped_length, uint8_t offset);

uint8_t translated_unwrap_masked(const uint8_t *schedule, size_t schedule_length, const uint8_t *wrapped, size_t wrapped_length,
                                 uint8_t *key_data, size_t key_data_length, uint8_t offset);

uint8_t translated_scramble(const uint8_t *packet, size_t packet_length, uint8_t *packet_out, size_t packet_out_length,
                            const uint8_t *pipes, size_t pipes_length, bool odd);

uint8_t translated_descramble(const uint8_t *packet, size_t packet_length, uint8_t *packet_out, size_t packet_out_length,
                              const uint8_t *pipes, size_t pipes_length);

uint8_t translated_masked_inverse(uint8_t x, uint8_t r);

uint8_t translated_tower_inverse(uint8_t x, uint8_t r);

uint8_t translated_tower_box(uint8_t label, uint8_t x);

#endif
