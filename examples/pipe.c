/*
 * A pipe's key is one AES-256 block, made twice: at the rack by the plain engine, and in the module by the masked one, with an
 * offset from 0 to 15 for each byte and the step of the module's series. Here both make it from the key and the block of FIPS
 * 197, C.3, and must come to the ciphertext there. At session change the keys of all pipes are made in one call.
 *
 *     cc pipe.c $(pkg-config --cflags --libs slipgrease) -o pipe && ./pipe
 */
#include <slipgrease.h>

#include <stdio.h>
#include <stdlib.h>
#include <string.h>

/* FIPS 197, C.3: the block and its ciphertext. The key is 00 01 02 .. 1f. */
static const uint8_t block[SLIPGREASE_BLOCK_BYTES] = {
    0x00, 0x11, 0x22, 0x33, 0x44, 0x55, 0x66, 0x77, 0x88, 0x99, 0xaa, 0xbb, 0xcc, 0xdd, 0xee, 0xff};
static const uint8_t standard[SLIPGREASE_BLOCK_BYTES] = {
    0x8e, 0xa2, 0xb7, 0xca, 0x51, 0x67, 0x45, 0xbf, 0xea, 0xfc, 0x49, 0x90, 0x4b, 0x49, 0x60, 0x89};

/* What an early module stored of it in form 1, at offset 5. */
static const uint8_t stored[SLIPGREASE_BLOCK_BYTES] = {
    0xb7, 0xf1, 0xeb, 0xaf, 0x3b, 0xf2, 0xdf, 0x1c, 0x46, 0x3a, 0x80, 0x60, 0xb4, 0x49, 0x6f, 0xbf};

/* The steps of two series of modules, so that they share no sequence of masks. */
enum { STEP = 1, OTHER_STEP = 5 };

/* An offset for each byte of a block. In the order of the boxes, bytes 0, 2 .. 14 and then 1, 3 .. 15, none is a step above the one
   before it, with either step: so no box takes the mask that the one before it has given. */
static const uint8_t each_byte[SLIPGREASE_BYTE_OFFSETS] = {13, 7, 1, 1, 15, 9, 2, 2, 4, 12, 11, 4, 3, 3, 14, 5};

static void print_block(const char *name, const uint8_t *bytes)
{
    printf("%-21s", name);
    for (size_t i = 0; i < SLIPGREASE_BLOCK_BYTES; i++)
        printf("%02x", bytes[i]);
    printf("\n");
}

/* What a host does with a reply: it goes on, or blames the caller or the data. */
static const char *sorted(uint8_t reply)
{
    switch (slipgrease_sort_reply(reply)) {
    case SLIPGREASE_GO_ON:
        return "go on";
    case SLIPGREASE_CALLER_FAULT:
        return "caller fault";
    default:
        return "data fault";
    }
}

/* Every reply is looked at: a refused call has written nothing, so its buffer holds whatever it held before. */
static void must_be_done(uint8_t reply, const char *call)
{
    if (reply != SLIPGREASE_REPLY_DONE) {
        fprintf(stderr, "%s is refused with %d, %s\n", call, reply, sorted(reply));
        exit(EXIT_FAILURE);
    }
}

static void must(int holds, const char *what)
{
    if (!holds) {
        fprintf(stderr, "it should be that %s\n", what);
        exit(EXIT_FAILURE);
    }
}

static int same(const uint8_t *a, const uint8_t *b)
{
    return memcmp(a, b, SLIPGREASE_BLOCK_BYTES) == 0;
}

/* In the module. The offsets are those of one offset, as slipgrease_one_offset makes them, or any others. */
static uint8_t in_the_module(const uint8_t *schedule, const uint8_t *offsets, uint8_t step, uint8_t *key)
{
    return slipgrease_encrypt_published(
        schedule, SLIPGREASE_SCHEDULE_BYTES, block, sizeof block, key, SLIPGREASE_BLOCK_BYTES, offsets, SLIPGREASE_BYTE_OFFSETS,
        step, SLIPGREASE_FORM_STANDARD);
}

/* The module makes the keys of seven pipes in one call, each at an offset of its own. A block is a pipe's number and zeros. */
static void session_change(const uint8_t *schedule)
{
    enum { PIPES = 7 };
    static const uint8_t offsets[PIPES] = {3, 15, 0, 8, 3, 11, 6};
    uint8_t blocks[PIPES * SLIPGREASE_BLOCK_BYTES] = {0}, keys[sizeof blocks] = {0};
    for (size_t pipe = 0; pipe < PIPES; pipe++)
        blocks[pipe * SLIPGREASE_BLOCK_BYTES] = (uint8_t)pipe;
    uint8_t reply = slipgrease_encrypt_blocks(
        schedule, SLIPGREASE_SCHEDULE_BYTES, blocks, sizeof blocks, keys, sizeof keys, offsets, sizeof offsets, STEP,
        SLIPGREASE_FORM_STANDARD);
    must_be_done(reply, "encrypt_blocks");
    for (size_t at = 0; at < sizeof blocks; at += SLIPGREASE_BLOCK_BYTES) {
        uint8_t rack[SLIPGREASE_BLOCK_BYTES];
        reply = slipgrease_encrypt(schedule, SLIPGREASE_SCHEDULE_BYTES, blocks + at, sizeof rack, rack, sizeof rack);
        must_be_done(reply, "encrypt");
        must(same(keys + at, rack), "the module makes the rack's key of every pipe");
    }
    printf("%-21s%d keys in one call, each the rack's\n", "session change", PIPES);
}

int main(void)
{
    uint8_t key[SLIPGREASE_KEY_BYTES], schedule[SLIPGREASE_SCHEDULE_BYTES], rack[SLIPGREASE_BLOCK_BYTES];
    uint8_t offsets[SLIPGREASE_BYTE_OFFSETS], reply, offset;

    /* The key is expanded once; its schedule serves every block. */
    for (uint8_t i = 0; i < sizeof key; i++)
        key[i] = i;
    reply = slipgrease_expand_key(key, sizeof key, schedule, sizeof schedule);
    must_be_done(reply, "expand_key");

    /* At the rack. */
    reply = slipgrease_encrypt(schedule, sizeof schedule, block, sizeof block, rack, sizeof rack);
    must_be_done(reply, "encrypt");
    must(same(rack, standard), "the rack makes the ciphertext of the standard");
    print_block("rack", rack);

    /* In the module: the same key at every offset. */
    for (offset = 0; offset < 16; offset++) {
        uint8_t module[SLIPGREASE_BLOCK_BYTES] = {0};
        char name[32];
        slipgrease_one_offset(offsets, offset);
        must_be_done(in_the_module(schedule, offsets, STEP, module), "encrypt_published");
        must(same(module, rack), "the module makes the key of the rack");
        snprintf(name, sizeof name, "module, offset %d", offset);
        print_block(name, module);
    }

    /* And with an offset of its own for each byte. */
    uint8_t scattered[SLIPGREASE_BLOCK_BYTES] = {0};
    must_be_done(in_the_module(schedule, each_byte, STEP, scattered), "encrypt_published, each byte");
    must(same(scattered, rack), "the module makes the key of the rack with an offset for each byte");
    print_block("module, each byte", scattered);

    /* In a module of the other series: other masks from the first boxes on, and the same key. */
    uint8_t other[SLIPGREASE_BLOCK_BYTES] = {0};
    slipgrease_one_offset(offsets, 3);
    must_be_done(in_the_module(schedule, offsets, OTHER_STEP, other), "encrypt_published, step 5");
    must(same(other, rack), "a module of the other series makes the key of the rack");
    print_block("module, step 5", other);

    /* There is no offset 16. The call is refused with a number of its own, and its buffer is as it was. */
    uint8_t refused[SLIPGREASE_BLOCK_BYTES] = {0}, zeros[SLIPGREASE_BLOCK_BYTES] = {0};
    slipgrease_one_offset(offsets, 16);
    reply = in_the_module(schedule, offsets, STEP, refused);
    must(reply == SLIPGREASE_REPLY_OFFSET_RANGE, "offset 16 is refused with its own number");
    must(slipgrease_sort_reply(reply) == SLIPGREASE_CALLER_FAULT, "a wrong offset is a caller fault");
    must(same(refused, zeros), "a refused call has written nothing");
    printf("%-21srefused with %d, %s\n", "module, offset 16", reply, sorted(reply));

    /* Form 1, in which early modules ended, has retired; what they stored is converted. */
    uint8_t converted[SLIPGREASE_BLOCK_BYTES] = {0};
    reply = slipgrease_convert(stored, sizeof stored, converted, sizeof converted, 5);
    must_be_done(reply, "convert");
    must(same(converted, rack), "a block that was stored in form 1, converted, is the key of the rack");
    print_block("form 1, offset 5", stored);
    print_block("form 1, converted", converted);
    session_change(schedule);

    /* What was printed may still be in a buffer: only now is it known whether all of it could be written. */
    if (fflush(stdout) != 0 || ferror(stdout)) {
        fprintf(stderr, "what was printed could not be written\n");
        return EXIT_FAILURE;
    }
    return EXIT_SUCCESS;
}
