// nettle as a peer. As Debian builds it, it takes AES-NI where the processor has it, else tables; NETTLE_FAT_OVERRIDE in the
// environment names the features that it may use.
#include <nettle/aes.h>
#include <nettle/cbc.h>
#include <nettle/nist-keywrap.h>
#include <nettle/version.h>

#include <stdio.h>
#include <stdlib.h>
#include <string.h>

#include "peer.h"

static const char *name(void)
{
    static char text[80];
    const char *allowed = getenv("NETTLE_FAT_OVERRIDE");
    int aesni = __builtin_cpu_supports("aes") && (allowed == NULL || strstr(allowed, "aesni") != NULL);
    snprintf(text, sizeof text, "nettle %d.%d, %s", nettle_version_major(), nettle_version_minor(), aesni ? "AES-NI" : "tables");
    return text;
}

// Its calls have the same shape for each length of a key and are named after its bits.
#define NETTLE(bits)                                                        \
    static struct aes##bits##_ctx encrypting_##bits, decrypting_##bits;     \
                                                                            \
    static void expand_key_##bits(const uint8_t *key)                       \
    {                                                                       \
        aes##bits##_set_encrypt_key(&encrypting_##bits, key);               \
    }                                                                       \
                                                                            \
    static void start_##bits(const uint8_t *key)                            \
    {                                                                       \
        expand_key_##bits(key);                                             \
        aes##bits##_set_decrypt_key(&decrypting_##bits, key);               \
    }                                                                       \
                                                                            \
    static void encrypt_##bits(const uint8_t input[16], uint8_t output[16]) \
    {                                                                       \
        aes##bits##_encrypt(&encrypting_##bits, 16, output, input);         \
    }                                                                       \
                                                                            \
    static void decrypt_##bits(const uint8_t input[16], uint8_t output[16]) \
    {                                                                       \
        aes##bits##_decrypt(&decrypting_##bits, 16, output, input);         \
    }

NETTLE(128)
NETTLE(192)
NETTLE(256)

static void start(const uint8_t key[32])
{
    start_128(key);
    start_192(key);
    start_256(key);
}

static const uint8_t initial[8] = {0xa6, 0xa6, 0xa6, 0xa6, 0xa6, 0xa6, 0xa6, 0xa6};

static void wrap(const uint8_t key_data[32], uint8_t wrapped[40])
{
    aes256_keywrap(&encrypting_256, initial, 40, wrapped, key_data);
}

static void unwrap(const uint8_t wrapped[40], uint8_t key_data[32])
{
    aes256_keyunwrap(&decrypting_256, initial, 32, key_data, wrapped);
}

static void chain(const uint8_t begin[16], const uint8_t *input, size_t length, uint8_t *output)
{
    uint8_t last[16];
    memcpy(last, begin, 16);
    cbc_aes256_encrypt(&encrypting_256, last, length, output, input);
}

static void unchain(const uint8_t begin[16], const uint8_t *input, size_t length, uint8_t *output)
{
    uint8_t last[16];
    memcpy(last, begin, 16);
    cbc_decrypt(&decrypting_256, (nettle_cipher_func *)aes256_decrypt, 16, last, length, output, input);
}

const struct peer nettle_peers[] = {
    {"nettle", name, start, {expand_key_128, expand_key_192, expand_key_256}, {encrypt_128, encrypt_192, encrypt_256},
     {decrypt_128, decrypt_192, decrypt_256}, wrap, unwrap, chain, unchain},
    {0},
};
