// The vectors that everything is checked against before it is timed.
#ifndef VECTORS_H
#define VECTORS_H

#include "engine.h"

enum { BLOCKS = 520, WRAPS = 3, LONGEST_WRAP = 40, CHAIN = 64 };

struct vectors {
    // NIST's with 32-byte keys, the first of them FIPS 197 C.3.
    struct {
        uint8_t key[KEY_BYTES], plain[BLOCK_BYTES], cipher[BLOCK_BYTES];
    } block[BLOCKS];
    // FIPS 197 A.3.
    uint8_t key[KEY_BYTES], schedule[SCHEDULE_BYTES];
    // The states of C.3, in the order of the recorded points.
    uint8_t states[RECORD_BYTES];
    // RFC 3394 4.3, 4.5 and 4.6: key data that is wrapped under C.3's key.
    struct {
        uint8_t data[LONGEST_WRAP], wrapped[LONGEST_WRAP];
        size_t length;
    } wrap[WRAPS];
    // FIPS 197, A.1 to A.3: a key, and the last sixteen bytes of its schedule. C.1 to C.3: the same block under the first bytes of
    // C.3's key.
    struct {
        uint8_t key[KEY_BYTES], last[BLOCK_BYTES], cipher[BLOCK_BYTES];
    } length[KEY_LENGTHS];
    // SP 800-38A F.2.5, CBC-AES256: four blocks.
    struct {
        uint8_t key[KEY_BYTES], start[BLOCK_BYTES], plain[CHAIN], cipher[CHAIN];
    } chain;
};

// Reads so many bytes of hex digits; gives 0 where there are others.
int read_hex(const char *text, uint8_t *bytes, size_t length);

// Reads the sections `ecb`, `key expansion` and `rounds` of a file like crates/vectors/stdin, with 32-byte keys alone; the wraps, the chain and what there
// is for each length of a key are known without it. Gives 0, and says on standard error what is wrong, where a line cannot be read
// or one is missing.
int read_vectors(const char *path, struct vectors *vectors);

#endif
