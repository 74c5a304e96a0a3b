// Other libraries that are timed beside ours where they are installed: AES, a key or a block at a time, and with 32-byte keys key
// wrap and CBC.
#ifndef PEER_H
#define PEER_H

#include <stddef.h>
#include <stdint.h>

struct peer {
    // One word, to name it on the command line.
    const char *id;
    // What it is called in the table, and which of its ways it goes on this machine; NULL where it cannot run.
    const char *(*name)(void);
    // Expands the key for both directions, and its first 16 and 24 bytes as shorter keys.
    void (*start)(const uint8_t key[32]);
    // Of these three, each for keys of 16, 24 and 32 bytes, and of the two and two below, either all are there or none, which is
    // NULL.
    // Expands the key for encryption alone: this is what is timed as expand_key.
    void (*expand_key[3])(const uint8_t *key);
    void (*encrypt[3])(const uint8_t input[16], uint8_t output[16]);
    void (*decrypt[3])(const uint8_t input[16], uint8_t output[16]);
    // Key wrap of 32 bytes, and back.
    void (*wrap)(const uint8_t key_data[32], uint8_t wrapped[40]);
    void (*unwrap)(const uint8_t wrapped[40], uint8_t key_data[32]);
    // CBC over whole blocks from a starting block on, and back.
    void (*chain)(const uint8_t start[16], const uint8_t *input, size_t length, uint8_t *output);
    void (*unchain)(const uint8_t start[16], const uint8_t *input, size_t length, uint8_t *output);
};

// Lists, each ended by a peer without an id.
extern const struct peer openssl_peers[], nettle_peers[], bearssl_peers[];

#endif
