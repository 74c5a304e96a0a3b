// BearSSL as a peer, four of its implementations. It has no call for a bare block, so each is asked for CBC of one block with a
// vector of zeros. It works in place.
#include <bearssl.h>

#include <string.h>

#include "peer.h"

static const uint8_t zeros[16];

// Its calls have the same shape for each implementation and are named after it. Those for a length of a key have its bytes behind
// them.
#define WITH_KEY(way, bytes)                                                                                         \
    static br_aes_##way##_cbcenc_keys way##_encrypting_##bytes;                                                      \
    static br_aes_##way##_cbcdec_keys way##_decrypting_##bytes;                                                      \
                                                                                                                     \
    static void way##_expand_key_##bytes(const uint8_t *key)                                                         \
    {                                                                                                                \
        br_aes_##way##_cbcenc_init(&way##_encrypting_##bytes, key, bytes);                                           \
    }                                                                                                                \
                                                                                                                     \
    static void way##_start_##bytes(const uint8_t *key)                                                              \
    {                                                                                                                \
        way##_expand_key_##bytes(key);                                                                               \
        br_aes_##way##_cbcdec_init(&way##_decrypting_##bytes, key, bytes);                                           \
    }                                                                                                                \
                                                                                                                     \
    static void way##_chain_##bytes(const uint8_t start[16], const uint8_t *input, size_t length, uint8_t *output)   \
    {                                                                                                                \
        uint8_t vector[16];                                                                                          \
        memcpy(vector, start, 16);                                                                                   \
        memcpy(output, input, length);                                                                               \
        br_aes_##way##_cbcenc_run(&way##_encrypting_##bytes, vector, output, length);                                \
    }                                                                                                                \
                                                                                                                     \
    static void way##_unchain_##bytes(const uint8_t start[16], const uint8_t *input, size_t length, uint8_t *output) \
    {                                                                                                                \
        uint8_t vector[16];                                                                                          \
        memcpy(vector, start, 16);                                                                                   \
        memcpy(output, input, length);                                                                               \
        br_aes_##way##_cbcdec_run(&way##_decrypting_##bytes, vector, output, length);                                \
    }                                                                                                                \
                                                                                                                     \
    static void way##_encrypt_##bytes(const uint8_t input[16], uint8_t output[16])                                   \
    {                                                                                                                \
        way##_chain_##bytes(zeros, input, 16, output);                                                               \
    }                                                                                                                \
                                                                                                                     \
    static void way##_decrypt_##bytes(const uint8_t input[16], uint8_t output[16])                                   \
    {                                                                                                                \
        way##_unchain_##bytes(zeros, input, 16, output);                                                             \
    }

#define BEARSSL(way)                               \
    WITH_KEY(way, 16)                              \
    WITH_KEY(way, 24)                              \
    WITH_KEY(way, 32)                              \
                                                   \
    static void way##_start(const uint8_t key[32]) \
    {                                              \
        way##_start_16(key);                       \
        way##_start_24(key);                       \
        way##_start_32(key);                       \
    }

BEARSSL(big)
BEARSSL(small)
BEARSSL(ct64)
BEARSSL(x86ni)

static const char *big_name(void)
{
    return "BearSSL big, tables";
}

static const char *small_name(void)
{
    return "BearSSL small, S alone";
}

static const char *ct64_name(void)
{
    return "BearSSL ct64, bit slices";
}

static const char *x86ni_name(void)
{
    return br_aes_x86ni_cbcenc_get_vtable() == NULL ? NULL : "BearSSL x86ni, AES-NI";
}

// It has no key wrap.
#define PEER(id, way)                                                                                                   \
    {                                                                                                                   \
        id, way##_name, way##_start, {way##_expand_key_16, way##_expand_key_24, way##_expand_key_32},                   \
        {way##_encrypt_16, way##_encrypt_24, way##_encrypt_32}, {way##_decrypt_16, way##_decrypt_24, way##_decrypt_32}, \
        NULL, NULL, way##_chain_32, way##_unchain_32                                                                    \
    }

const struct peer bearssl_peers[] = {
    PEER("bearssl-big", big),
    PEER("bearssl-small", small),
    PEER("bearssl-ct64", ct64),
    PEER("bearssl-x86ni", x86ni),
    {0},
};
