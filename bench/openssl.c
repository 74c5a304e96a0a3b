// OpenSSL as a peer: by EVP, one block in ECB and many in CBC without padding, and by AES_encrypt and its like, which are deprecated
// and take no AES-NI. EVP takes AES-NI where the processor has it, else vpaes where it has SSSE3, and for eight blocks at once of CBC
// decrypted bsaes, else AES_encrypt, which looks up S alone; OPENSSL_ia32cap in the environment can hide either from it. EVP's key
// wrap takes AES_encrypt always, so it is a peer by itself.
#define OPENSSL_SUPPRESS_DEPRECATED
#include <openssl/aes.h>
#include <openssl/crypto.h>
#include <openssl/evp.h>

#include <stdio.h>
#include <stdlib.h>
#include <string.h>

#include "peer.h"

static EVP_CIPHER_CTX *chaining, *unchaining, *wrapping, *unwrapping;

static void stop_unless(int done)
{
    if (!done) {
        fputs("OpenSSL refused a call\n", stderr);
        exit(1);
    }
}

// Bits 41 and 57 of the processor's features as OpenSSL sees them are SSSE3 and AES-NI.
static const char *evp_name(void)
{
    static char name[80];
    const char *settings = OPENSSL_info(OPENSSL_INFO_CPU_SETTINGS);
    const char *value = settings == NULL ? NULL : strchr(settings, '=');
    unsigned long long features = value == NULL ? 0 : strtoull(value + 1, NULL, 16);
    const char *way = features >> 57 & 1 ? "AES-NI" : features >> 41 & 1 ? "SSSE3" : "S alone";
    snprintf(name, sizeof name, "OpenSSL %s EVP, %s", OpenSSL_version(OPENSSL_VERSION_STRING), way);
    return name;
}

// Contexts for both directions of a cipher, under a key.
static void evp_contexts(const char *cipher_name, const uint8_t *key, EVP_CIPHER_CTX **there, EVP_CIPHER_CTX **back)
{
    // Without the machine's own configuration, and without what only makes start and end longer.
    const uint64_t without = OPENSSL_INIT_NO_LOAD_CONFIG | OPENSSL_INIT_NO_LOAD_CRYPTO_STRINGS | OPENSSL_INIT_NO_ADD_ALL_CIPHERS |
                             OPENSSL_INIT_NO_ADD_ALL_DIGESTS | OPENSSL_INIT_NO_ATEXIT;
    stop_unless(OPENSSL_init_crypto(without, NULL));
    EVP_CIPHER *cipher = EVP_CIPHER_fetch(NULL, cipher_name, NULL);
    stop_unless(cipher != NULL);
    *there = EVP_CIPHER_CTX_new();
    *back = EVP_CIPHER_CTX_new();
    stop_unless(EVP_EncryptInit_ex2(*there, cipher, key, NULL, NULL) && EVP_DecryptInit_ex2(*back, cipher, key, NULL, NULL));
}

// One block in ECB, with a key of so many bits.
#define EVP(bits)                                                                                                       \
    static EVP_CIPHER_CTX *forwards_##bits, *backwards_##bits;                                                          \
                                                                                                                        \
    static void evp_start_##bits(const uint8_t *key)                                                                    \
    {                                                                                                                   \
        evp_contexts("AES-" #bits "-ECB", key, &forwards_##bits, &backwards_##bits);                                    \
        stop_unless(EVP_CIPHER_CTX_set_padding(forwards_##bits, 0) && EVP_CIPHER_CTX_set_padding(backwards_##bits, 0)); \
    }                                                                                                                   \
                                                                                                                        \
    static void evp_expand_key_##bits(const uint8_t *key)                                                               \
    {                                                                                                                   \
        stop_unless(EVP_EncryptInit_ex2(forwards_##bits, NULL, key, NULL, NULL));                                       \
    }                                                                                                                   \
                                                                                                                        \
    static void evp_encrypt_##bits(const uint8_t input[16], uint8_t output[16])                                         \
    {                                                                                                                   \
        int length;                                                                                                     \
        stop_unless(EVP_EncryptUpdate(forwards_##bits, output, &length, input, 16));                                    \
    }                                                                                                                   \
                                                                                                                        \
    static void evp_decrypt_##bits(const uint8_t input[16], uint8_t output[16])                                         \
    {                                                                                                                   \
        int length;                                                                                                     \
        stop_unless(EVP_DecryptUpdate(backwards_##bits, output, &length, input, 16));                                   \
    }

EVP(128)
EVP(192)
EVP(256)

static void evp_start(const uint8_t key[32])
{
    evp_start_128(key);
    evp_start_192(key);
    evp_start_256(key);
    evp_contexts("AES-256-CBC", key, &chaining, &unchaining);
    stop_unless(EVP_CIPHER_CTX_set_padding(chaining, 0) && EVP_CIPHER_CTX_set_padding(unchaining, 0));
}

static void evp_chain(const uint8_t start[16], const uint8_t *input, size_t length, uint8_t *output)
{
    int written;
    stop_unless(EVP_EncryptInit_ex2(chaining, NULL, NULL, start, NULL) &&
                EVP_EncryptUpdate(chaining, output, &written, input, (int)length));
}

static void evp_unchain(const uint8_t start[16], const uint8_t *input, size_t length, uint8_t *output)
{
    int written;
    stop_unless(EVP_DecryptInit_ex2(unchaining, NULL, NULL, start, NULL) &&
                EVP_DecryptUpdate(unchaining, output, &written, input, (int)length));
}

static const char *evp_wrap_name(void)
{
    static char name[80];
    snprintf(name, sizeof name, "OpenSSL %s EVP, S alone", OpenSSL_version(OPENSSL_VERSION_STRING));
    return name;
}

static void evp_wrap_start(const uint8_t key[32])
{
    evp_contexts("AES-256-WRAP", key, &wrapping, &unwrapping);
}

static void evp_wrap(const uint8_t key_data[32], uint8_t wrapped[40])
{
    int length;
    stop_unless(EVP_EncryptUpdate(wrapping, wrapped, &length, key_data, 32));
}

static void evp_unwrap(const uint8_t wrapped[40], uint8_t key_data[32])
{
    int length;
    stop_unless(EVP_DecryptUpdate(unwrapping, key_data, &length, wrapped, 40));
}

static const char *aes_name(void)
{
    static char name[80];
    snprintf(name, sizeof name, "OpenSSL %s no EVP, S alone", OpenSSL_version(OPENSSL_VERSION_STRING));
    return name;
}

// The same without EVP.
#define AES(bits)                                                               \
    static AES_KEY encrypting_##bits, decrypting_##bits;                        \
                                                                                \
    static void aes_expand_key_##bits(const uint8_t *key)                       \
    {                                                                           \
        stop_unless(AES_set_encrypt_key(key, bits, &encrypting_##bits) == 0);   \
    }                                                                           \
                                                                                \
    static void aes_start_##bits(const uint8_t *key)                            \
    {                                                                           \
        aes_expand_key_##bits(key);                                             \
        stop_unless(AES_set_decrypt_key(key, bits, &decrypting_##bits) == 0);   \
    }                                                                           \
                                                                                \
    static void aes_encrypt_##bits(const uint8_t input[16], uint8_t output[16]) \
    {                                                                           \
        AES_encrypt(input, output, &encrypting_##bits);                         \
    }                                                                           \
                                                                                \
    static void aes_decrypt_##bits(const uint8_t input[16], uint8_t output[16]) \
    {                                                                           \
        AES_decrypt(input, output, &decrypting_##bits);                         \
    }

AES(128)
AES(192)
AES(256)

static void aes_start(const uint8_t key[32])
{
    aes_start_128(key);
    aes_start_192(key);
    aes_start_256(key);
}

static void aes_wrap(const uint8_t key_data[32], uint8_t wrapped[40])
{
    stop_unless(AES_wrap_key(&encrypting_256, NULL, wrapped, key_data, 32) == 40);
}

static void aes_unwrap(const uint8_t wrapped[40], uint8_t key_data[32])
{
    stop_unless(AES_unwrap_key(&decrypting_256, NULL, key_data, wrapped, 40) == 32);
}

static void aes_chain(const uint8_t start[16], const uint8_t *input, size_t length, uint8_t *output)
{
    uint8_t last[16];
    memcpy(last, start, 16);
    AES_cbc_encrypt(input, output, length, &encrypting_256, last, AES_ENCRYPT);
}

static void aes_unchain(const uint8_t start[16], const uint8_t *input, size_t length, uint8_t *output)
{
    uint8_t last[16];
    memcpy(last, start, 16);
    AES_cbc_encrypt(input, output, length, &decrypting_256, last, AES_DECRYPT);
}

const struct peer openssl_peers[] = {
    {"openssl-evp", evp_name, evp_start, {evp_expand_key_128, evp_expand_key_192, evp_expand_key_256},
     {evp_encrypt_128, evp_encrypt_192, evp_encrypt_256}, {evp_decrypt_128, evp_decrypt_192, evp_decrypt_256}, NULL, NULL,
     evp_chain, evp_unchain},
    {"openssl-evp-wrap", evp_wrap_name, evp_wrap_start, {NULL}, {NULL}, {NULL}, evp_wrap, evp_unwrap, NULL, NULL},
    {"openssl-aes", aes_name, aes_start, {aes_expand_key_128, aes_expand_key_192, aes_expand_key_256},
     {aes_encrypt_128, aes_encrypt_192, aes_encrypt_256}, {aes_decrypt_128, aes_decrypt_192, aes_decrypt_256}, aes_wrap,
     aes_unwrap, aes_chain, aes_unchain},
    {0},
};
