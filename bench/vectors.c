// Reads the vectors: text, a section after each line that begins with #, fields in hex.
#include "vectors.h"

#include <stdio.h>
#include <stdlib.h>
#include <string.h>

enum { LINE = 1024, POINTS = RECORD_BYTES / BLOCK_BYTES };

int read_hex(const char *text, uint8_t *bytes, size_t length)
{
    if (text == NULL || strlen(text) != 2 * length || strspn(text, "0123456789abcdef") != 2 * length)
        return 0;
    for (size_t i = 0; i < length; i++) {
        char digits[3] = {text[2 * i], text[2 * i + 1], 0};
        bytes[i] = (uint8_t)strtoul(digits, NULL, 16);
    }
    return 1;
}

// Whether a line begins with a key of 32 bytes. Vectors of shorter keys are for the proved programs; here a translation is compared
// with the library over all lengths, and read_lengths has what is known of each.
static int of_32(const char *line)
{
    return strcspn(line, " ") == 2 * KEY_BYTES;
}

// KEY PLAINTEXT CIPHERTEXT
static int read_block(char *line, struct vectors *vectors, size_t number)
{
    return number < BLOCKS && read_hex(strtok(line, " "), vectors->block[number].key, KEY_BYTES) &&
           read_hex(strtok(NULL, " "), vectors->block[number].plain, BLOCK_BYTES) &&
           read_hex(strtok(NULL, " "), vectors->block[number].cipher, BLOCK_BYTES);
}

// ROUND NAME STATE, named as in the appendix: which points have the state. The plain run has nothing to do at the fifth point of
// a round, so the state before it stands there again. The keys are not states.
static int read_round(char *line, struct vectors *vectors, size_t *points)
{
    const char *round = strtok(line, " "), *name = strtok(NULL, " "), *state = strtok(NULL, " ");
    if (round == NULL || name == NULL)
        return 0;
    if (strcmp(name, "k_sch") == 0)
        return 1;
    size_t repeated = strcmp(name, "m_col") == 0 || strcmp(name, "output") == 0 ? 2 : 1;
    for (size_t i = 0; i < repeated; i++, (*points)++)
        if (*points == POINTS || !read_hex(state, vectors->states + BLOCK_BYTES * *points, BLOCK_BYTES))
            return 0;
    return 1;
}

static void read_wraps(struct vectors *vectors)
{
    static const char *const wraps[WRAPS][2] = {
        {"00112233445566778899aabbccddeeff", "64e8c3f9ce0f5ba263e9777905818a2a93c8191e7d6e8ae7"},
        {"00112233445566778899aabbccddeeff0001020304050607",
         "a8f9bc1612c68b3ff6e6f4fbe30e71e4769c8b80a32cb8958cd5d17d6b254da1"},
        {"00112233445566778899aabbccddeeff000102030405060708090a0b0c0d0e0f",
         "28c9f404c4b810f4cbccb35cfb87f8263f5786e2d80ed326cbc7f0e71a99f43bfb988b9b7a02dd21"},
    };
    for (size_t i = 0; i < WRAPS; i++) {
        size_t length = vectors->wrap[i].length = strlen(wraps[i][0]) / 2;
        read_hex(wraps[i][0], vectors->wrap[i].data, length);
        read_hex(wraps[i][1], vectors->wrap[i].wrapped, length + WRAP_EXTRA);
    }
}

static void read_lengths(struct vectors *vectors)
{
    static const char *const known[KEY_LENGTHS][3] = {
        {"2b7e151628aed2a6abf7158809cf4f3c", "d014f9a8c9ee2589e13f0cc8b6630ca6", "69c4e0d86a7b0430d8cdb78070b4c55a"},
        {"8e73b0f7da0e6452c810f32b809079e562f8ead2522c6b7b", "e98ba06f448c773c8ecc720401002202",
         "dda97ca4864cdfe06eaf70a0ec0d7191"},
        {"603deb1015ca71be2b73aef0857d77811f352c073b6108d72d9810a30914dff4", "fe4890d1e6188d0b046df344706c631e",
         "8ea2b7ca516745bfeafc49904b496089"},
    };
    for (size_t i = 0; i < KEY_LENGTHS; i++) {
        read_hex(known[i][0], vectors->length[i].key, lengths_of_keys[i].key);
        read_hex(known[i][1], vectors->length[i].last, BLOCK_BYTES);
        read_hex(known[i][2], vectors->length[i].cipher, BLOCK_BYTES);
    }
}

static void read_chain(struct vectors *vectors)
{
    read_hex("603deb1015ca71be2b73aef0857d77811f352c073b6108d72d9810a30914dff4", vectors->chain.key, KEY_BYTES);
    read_hex("000102030405060708090a0b0c0d0e0f", vectors->chain.start, BLOCK_BYTES);
    read_hex("6bc1bee22e409f96e93d7e117393172aae2d8a571e03ac9c9eb76fac45af8e51"
             "30c81c46a35ce411e5fbc1191a0a52eff69f2445df4f9b17ad2b417be66c3710", vectors->chain.plain, CHAIN);
    read_hex("f58c4c04d6e5f1ba779eabfb5f7bfbd69cfc4e967edb808d679f777bc6702c7d"
             "39f23369a9d9bacfa530e26304231461b2eb05e2c39be9fcda6c19078c6a9d1b", vectors->chain.cipher, CHAIN);
}

int read_vectors(const char *path, struct vectors *vectors)
{
    char line[LINE], section[LINE] = "";
    size_t number = 0, blocks = 0, keys = 0, points = 0;
    FILE *file = fopen(path, "r");
    if (file == NULL) {
        perror(path);
        return 0;
    }
    read_wraps(vectors);
    read_lengths(vectors);
    read_chain(vectors);
    while (fgets(line, LINE, file) != NULL) {
        int read = 1;
        number++;
        line[strcspn(line, "\n")] = 0;
        if (line[0] == '#')
            strcpy(section, line);
        else if (strcmp(section, "# ecb") == 0)
            read = !of_32(line) || read_block(line, vectors, blocks++);
        else if (strcmp(section, "# key expansion") == 0)
            read = !of_32(line) || (keys++ == 0 && read_hex(strtok(line, " "), vectors->key, KEY_BYTES) &&
                   read_hex(strtok(NULL, " "), vectors->schedule, SCHEDULE_BYTES));
        else if (strcmp(section, "# rounds") == 0)
            read = read_round(line, vectors, &points);
        if (!read) {
            fprintf(stderr, "%s:%zu: not a vector\n", path, number);
            fclose(file);
            return 0;
        }
    }
    fclose(file);
    if (blocks != BLOCKS || keys != 1 || points != POINTS) {
        fprintf(stderr, "%s: %zu blocks, %zu keys and %zu states, and not %d, 1 and %d\n", path, blocks, keys, points, BLOCKS,
                POINTS);
        return 0;
    }
    return 1;
}
