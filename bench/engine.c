// The library and its C translation as engines.
#include "engine.h"

#include "translated.h"

#include <slipgrease.h>

const char *const call_names[MEASURED] = {
    "expand_key",
    "encrypt",
    "decrypt",
    "encrypt_published",
    "encrypt_blocks",
    "encrypt_masked",
    "record_plain",
    "record_masked",
    "decrypt_published",
    "decrypt_masked",
    "record_masked_decryption",
    "wrap",
    "unwrap",
    "wrap_masked",
    "unwrap_masked",
    "scramble",
    "descramble",
    "masked_inverse",
    "tower_inverse",
    "tower_box",
    "encrypt_published, step 5",
    "decrypt_published, step 5",
    "encrypt_published, another record",
    "encrypt_masked, another record",
    "record_masked, another record",
    "decrypt_published, another record",
    "decrypt_masked, another record",
    "record_masked_decryption, another record",
    "scramble, unlisted",
    "expand_key, 16-byte key",
    "encrypt, 16-byte key",
    "decrypt, 16-byte key",
    "expand_key, 24-byte key",
    "encrypt, 24-byte key",
    "decrypt, 24-byte key",
    "encrypt_published, 16-byte key",
    "decrypt_published, 16-byte key",
    "encrypt_published, 24-byte key",
    "decrypt_published, 24-byte key",
};

const struct lengths lengths_of_keys[KEY_LENGTHS] = {
    {16, 176, 816, 976},
    {24, 208, 976, 1168},
    {KEY_BYTES, SCHEDULE_BYTES, RECORD_BYTES, DECRYPTION_RECORD_BYTES},
};

const struct engine library = {
    "the library",
    slipgrease_expand_key,
    slipgrease_encrypt,
    slipgrease_decrypt,
    slipgrease_encrypt_published,
    slipgrease_encrypt_blocks,
    slipgrease_encrypt_masked,
    slipgrease_record_plain,
    slipgrease_record_masked,
    slipgrease_decrypt_published,
    slipgrease_decrypt_masked,
    slipgrease_record_masked_decryption,
    slipgrease_wrap,
    slipgrease_unwrap,
    slipgrease_wrap_masked,
    slipgrease_unwrap_masked,
    slipgrease_scramble,
    slipgrease_descramble,
    slipgrease_masked_inverse,
    slipgrease_tower_inverse,
    slipgrease_tower_box,
};

const struct engine translation = {
    "the C translation",
    translated_expand_key,
    translated_encrypt,
    translated_decrypt,
    translated_encrypt_published,
    translated_encrypt_blocks,
    translated_encrypt_masked,
    translated_record_plain,
    translated_record_masked,
    translated_decrypt_published,
    translated_decrypt_masked,
    translated_record_masked_decryption,
    translated_wrap,
    translated_unwrap,
    translated_wrap_masked,
    translated_unwrap_masked,
    translated_scramble,
    translated_descramble,
    translated_masked_inverse,
    translated_tower_inverse,
    translated_tower_box,
};

const uint8_t published_masks[MASK_BYTES] = {
    0x00, 0x0f, 0x36, 0x39, 0x53, 0x5c, 0x65, 0x6a, 0x95, 0x9a, 0xa3, 0xac, 0xc6, 0xc9, 0xf0, 0xff,
};
