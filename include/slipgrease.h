/*
 * Slipgrease: AES with keys of 16, 24 and 32 bytes by a plain engine, for the rack, and by a masked engine, for the module; with
 * 32-byte keys also key wrap over either, and a packet scrambler over the plain one. All of it is in one archive, libslipgrease.a,
 * whose code is proved to do what is said here. This header is the manual of its C names.
 *
 *     cc pipe.c $(pkg-config --cflags --libs slipgrease)
 *
 * What is proved
 *   Every call ends, and gives for every input the one answer that its promise names: one reply, and one final content of the
 *   buffer that it writes. Of its caller's memory it reads and writes only the bytes that it is lent. A call that is refused has
 *   written nothing. The promises are in docs/PROMISES.md of the sources, a row for each call; below they are put into words.
 *
 * What the caller guarantees
 *   A buffer is two arguments: a pointer, and its length in bytes. That many bytes are there and may be read or, where the
 *   pointer's name ends in _out, written. What an _out buffer holds before the call does not matter.
 *   A buffer that is written shares no byte with another buffer of the same call, so nothing is encrypted, wrapped or scrambled in
 *   place. The same buffer may be lent twice for reading.
 *   Until the call returns, no other thread writes to a buffer that the call was lent, or reads its _out buffer. No call keeps
 *   anything for the next one, so threads may call at the same time.
 *   Nothing else is asked. Every length, alignment, content and number is allowed, and has its answer.
 *
 * Wrong lengths and null pointers
 *   A length other than those named below is refused, and not a byte of that buffer is touched, except that the mark and the
 *   version of a sheet that has at least these 5 bytes are read before its length is judged. Length 0 is accepted by
 *   slipgrease_encrypt_blocks alone, for no blocks at all, and refused elsewhere like any other wrong length; with length 0 the
 *   pointer may be null. (That this does no harm is tested on the compiled code; the proofs are about buffers that exist.)
 *
 * What is assumed
 *   The Rattle compiler and prover, LLVM, the C compiler and linker, memcpy and memset of the C library, and the machine. The
 *   code is for x86-64 and the System V calling convention, and is position independent. That this header agrees with the proved
 *   functions is not proved, but checked by a program (tools/header of the sources).
 *
 * What is not claimed
 *   Nothing about power, time, caches or any other side of a running machine.
 *   The code is not constant-time: boxes are read at places that depend on the covered state, and by the plain engine at places
 *   that depend on the state itself.
 *   Nothing is wiped: a call leaves its working values on the stack, and so does an unwrapping that is refused.
 *   Key wrap and CBC within a packet are the only modes of operation, and take no schedules but those of 32-byte keys. No offset is
 *   drawn: that is left to the caller.
 *
 * Stack
 *   Each call says how much stack it takes at most, whatever it is given, its return address included. The figures are not proved,
 *   but worked out from the compiled code by a program (tools/stack of the sources) and compared with what is measured.
 *   Not counted are arguments that are passed on the stack, those from the seventh on (8 bytes each, rounded up to a multiple of
 *   16), and what memcpy and memset of the C library take. Where the dynamic linker binds these two lazily, the first call of each
 *   takes some 3 KB more, which depends on the processor: for slipgrease_expand_key 3,696 bytes were measured in place of 568. With
 *   -z now or static linking it takes no more than later ones.
 */
#ifndef SLIPGREASE_H
#define SLIPGREASE_H

#if !defined(__x86_64__) || defined(__ILP32__) || defined(_WIN32) || defined(__CYGWIN__)
#error "libslipgrease.a is code for x86-64 with 64-bit pointers and the System V calling convention: compile for that"
#endif

#include <stdbool.h>
#include <stddef.h>
#include <stdint.h>

#ifdef __cplusplus
extern "C" {
#endif

/* ---- Version, replies and lengths ---- */

/* The version; and as a number, for #if: 10000 * major + 100 * minor + patch. */
#define SLIPGREASE_VERSION "0.1.0"
#define SLIPGREASE_VERSION_NUMBER 100

/*
 * What a refused call was to write still holds what it held before. So GCC, Clang and compilers like them warn where the reply of
 * a call that can refuse is not used.
 */
#ifdef __GNUC__
#define SLIPGREASE_CHECKED __attribute__((warn_unused_result))
#else
#define SLIPGREASE_CHECKED
#endif

/*
 * The replies. Only 0 says that a call was done; each refusal is named after what is wrong. Each call has the list of its
 * refusals, whose names stand there without SLIPGREASE_REPLY_. Where several apply, the first in that list is given.
 */
#define SLIPGREASE_REPLY_DONE 0             /* done */
#define SLIPGREASE_REPLY_KEY_LENGTH 1       /* the key is not 16, 24 or 32 bytes */
#define SLIPGREASE_REPLY_SCHEDULE_LENGTH 2  /* the schedule is not 176, 208 or 240 bytes, as the key asks; in key wrap, not 240 */
#define SLIPGREASE_REPLY_INPUT_LENGTH 3     /* the input is not 16 bytes; of many blocks, not 16 for each of 256 at most */
#define SLIPGREASE_REPLY_OUTPUT_LENGTH 4    /* the buffer for the output is not 16 bytes; for many blocks, not as long as the input */
#define SLIPGREASE_REPLY_MASKS_LENGTH 5     /* the mask table, or the buffer for it, is not 16 bytes */
#define SLIPGREASE_REPLY_OFFSET_RANGE 6     /* an offset is above 15 */
#define SLIPGREASE_REPLY_FORM_UNKNOWN 7     /* the form is not 0 */
#define SLIPGREASE_REPLY_RECORD_LENGTH 8    /* the buffer for the record is not 16 bytes for each state */
#define SLIPGREASE_REPLY_NO_LOGARITHM 9     /* 00 has no logarithm */
#define SLIPGREASE_REPLY_POWER_RANGE 10     /* the power is above 254 */
#define SLIPGREASE_REPLY_SHEET_LENGTH 11    /* the sheet, or the buffer for it, is not 21 bytes in version 1, 22 in version 2 */
#define SLIPGREASE_REPLY_MARK_WRONG 12      /* the sheet does not begin with "MSK" */
#define SLIPGREASE_REPLY_VERSION_UNKNOWN 13 /* the sheet's version is neither 1 nor 2 */
#define SLIPGREASE_REPLY_OFFSETS_LENGTH 14  /* there is not one offset for each block */
#define SLIPGREASE_REPLY_STEP_WRONG 15      /* the step is 0, 2, 3 or above 15; or 1, in a sheet of version 2 */
#define SLIPGREASE_REPLY_KEY_DATA_LENGTH 16 /* the key data, or the buffer for it, is not 16 to 256 bytes in a multiple of 8 */
#define SLIPGREASE_REPLY_WRAPPED_LENGTH 17  /* the wrapped key data, or the buffer for it, is not 8 bytes longer than that */
#define SLIPGREASE_REPLY_INTEGRITY 18       /* the register that unwrapping recovers is not a6a6a6a6a6a6a6a6 */
#define SLIPGREASE_REPLY_PACKET_LENGTH 19   /* the packet, or the buffer for it, is not 188 bytes */
#define SLIPGREASE_REPLY_SYNC_LOST 20       /* the packet does not begin with 47 */
#define SLIPGREASE_REPLY_FIELD_WRONG 21     /* the adaptation code is 00, or the length of the field does not fit the code */
#define SLIPGREASE_REPLY_PIPES_WRONG 22     /* the list is not 3,486 bytes, or has a PID outside 0010 to 1ffe, or the same PID twice */
#define SLIPGREASE_REPLY_BITS_WRONG 23      /* the scrambling bits do not allow what is to be done */
#define SLIPGREASE_REPLY_OFFSET_PER_BYTE 24 /* there are not 16 offsets, one for each byte of the block */
#define SLIPGREASE_REPLY_PARTY_FULL 25      /* the party holds twelve schedules already */
#define SLIPGREASE_REPLY_BANK_FULL 26       /* all sixteen places are held */
#define SLIPGREASE_REPLY_NOT_LOADED 27      /* the party has loaded nothing under this number, or has dropped it */
#define SLIPGREASE_REPLY_PARTY_UNKNOWN 28   /* the party is neither 0 nor 1 */

/* The lengths that the calls take. Those of a key, a schedule and records are the greatest, which go with a 32-byte key. */
#define SLIPGREASE_KEY_BYTES 32
#define SLIPGREASE_SCHEDULE_BYTES 240
#define SLIPGREASE_BLOCK_BYTES 16
#define SLIPGREASE_MASKS_BYTES 16
#define SLIPGREASE_BYTE_OFFSETS 16
#define SLIPGREASE_RECORD_BYTES 1136
#define SLIPGREASE_DECRYPTION_RECORD_BYTES 1360
#define SLIPGREASE_SHEET_1_BYTES 21
#define SLIPGREASE_SHEET_2_BYTES 22

/* The most blocks that one call takes. */
#define SLIPGREASE_BLOCKS_MAX 256

/* The length of key data in bytes: the least, the most, and the unit of which it is a multiple; and what wrapping adds to it. */
#define SLIPGREASE_KEY_DATA_MIN 16
#define SLIPGREASE_KEY_DATA_MAX 256
#define SLIPGREASE_KEY_DATA_UNIT 8
#define SLIPGREASE_WRAP_EXTRA 8

/* A packet, and the list of pipes: how many there are, the bytes of each, and of all. */
#define SLIPGREASE_PACKET_BYTES 188
#define SLIPGREASE_PIPES 7
#define SLIPGREASE_PIPE_BYTES 498
#define SLIPGREASE_PIPES_BYTES 3486

/* How many states, each as long as a block, the record of an encryption has at most, and that of a decryption. */
#define SLIPGREASE_STATES 71
#define SLIPGREASE_DECRYPTION_STATES 85

/*
 * What goes together. The macros tell it of a key's length, and of a schedule's; of other lengths than these they tell nothing.
 *
 *     key       schedule     rounds    record of an encryption    of a decryption
 *     16        176          10        51 states, 816 bytes       61 states, 976 bytes
 *     24        208          12        61 states, 976 bytes       73 states, 1,168 bytes
 *     32        240          14        71 states, 1,136 bytes     85 states, 1,360 bytes
 */
#define SLIPGREASE_SCHEDULE_BYTES_OF(key_len) (4 * (key_len) + 112)
#define SLIPGREASE_ROUNDS_OF(schedule_len) ((schedule_len) / 16 - 1)
#define SLIPGREASE_STATES_OF(schedule_len) (5 * SLIPGREASE_ROUNDS_OF(schedule_len) + 1)
#define SLIPGREASE_RECORD_BYTES_OF(schedule_len) (16 * SLIPGREASE_STATES_OF(schedule_len))
#define SLIPGREASE_DECRYPTION_STATES_OF(schedule_len) (6 * SLIPGREASE_ROUNDS_OF(schedule_len) + 1)
#define SLIPGREASE_DECRYPTION_RECORD_BYTES_OF(schedule_len) (16 * SLIPGREASE_DECRYPTION_STATES_OF(schedule_len))

/* The form of a masked run's output: the standard block, and no mask on it. It is the only one. */
#define SLIPGREASE_FORM_STANDARD 0

/* The published masks, M(0) to M(15): static const uint8_t masks[] = SLIPGREASE_PUBLISHED_MASKS; */
#define SLIPGREASE_PUBLISHED_MASKS { \
    0x00, 0x0f, 0x36, 0x39, 0x53, 0x5c, 0x65, 0x6a, 0x95, 0x9a, 0xa3, 0xac, 0xc6, 0xc9, 0xf0, 0xff}

/* What slipgrease_sort_reply answers. */
#define SLIPGREASE_GO_ON 0
#define SLIPGREASE_CALLER_FAULT 1
#define SLIPGREASE_DATA_FAULT 2

/* Some calls answer with a reply and a value in one number, reply * 256 + value. These take the two out of it. */
#define SLIPGREASE_NUMBER(x) ((uint8_t)((x) >> 8))
#define SLIPGREASE_VALUE(x) ((uint8_t)((x) & 0xff))

/* ---- The rack's engine ---- */

/*
 * Expands a key: KEYEXPANSION of FIPS 197, for AES-128, AES-192 or AES-256 as the key is long. Round key k is at byte 16 * k of the
 * schedule, which must have the length that goes with the key's, SLIPGREASE_SCHEDULE_BYTES_OF(key_len).
 * Reads key, 16, 24 or 32 bytes. Writes schedule_out, 176, 208 or 240 bytes.
 * Refusals: 1 KEY_LENGTH, 2 SCHEDULE_LENGTH.
 * Stack: 1,560 bytes.
 */
uint8_t slipgrease_expand_key(
    const uint8_t *key, size_t key_len,
    uint8_t *schedule_out, size_t schedule_len) SLIPGREASE_CHECKED;

/*
 * Encrypts one block: CIPHER of FIPS 197, with the 10, 12 or 14 rounds that go with the schedule's length. Any bytes of that length
 * are taken as a schedule.
 * Reads schedule, 176, 208 or 240 bytes, and input, 16 bytes. Writes output_out, 16 bytes.
 * Refusals: 2 SCHEDULE_LENGTH, 3 INPUT_LENGTH, 4 OUTPUT_LENGTH.
 * Stack: 360 bytes.
 */
uint8_t slipgrease_encrypt(
    const uint8_t *schedule, size_t schedule_len,
    const uint8_t *input, size_t input_len,
    uint8_t *output_out, size_t output_len) SLIPGREASE_CHECKED;

/*
 * Decrypts one block: INVCIPHER of FIPS 197, with as many rounds. It undoes slipgrease_encrypt with the same schedule, whichever
 * bytes that is, and is undone by it.
 * Reads schedule, 176, 208 or 240 bytes, and input, 16 bytes. Writes output_out, 16 bytes.
 * Refusals: 2 SCHEDULE_LENGTH, 3 INPUT_LENGTH, 4 OUTPUT_LENGTH.
 * Stack: 360 bytes.
 */
uint8_t slipgrease_decrypt(
    const uint8_t *schedule, size_t schedule_len,
    const uint8_t *input, size_t input_len,
    uint8_t *output_out, size_t output_len) SLIPGREASE_CHECKED;

/*
 * Encrypts one block with N rounds, and records the state at each of 5N + 1 points. State s is at byte 16 * s of the record.
 *
 *     state                     plain: the state of CIPHER          masked: the plain state, xored with
 *     0                         at the beginning: the block         Mask(o)
 *     5r + 1    r = 0 .. N-1    after round key r                   Mask(o+dr)
 *     5r + 2    r = 0 .. N-1    after the S-boxes                   Mask(o+d(r+1))
 *     5r + 3    r = 0 .. N-1    after ShiftRows                     ShiftRows(Mask(o+d(r+1)))
 *     5r + 4    r = 0 .. N-2    after MixColumns                    MixColumns(ShiftRows(Mask(o+d(r+1))))
 *     5r + 5    r = 0 .. N-2    the same (after compensation)       Mask(o+d(r+1))
 *     5N - 1                    after round key N                   ShiftRows(Mask(o+dN))
 *     5N                        the same: what encrypt writes       nothing
 *
 * The last column is that of slipgrease_record_masked, at the offsets o with step d. No separate output block is written.
 * A record gives the key away: state 0 xor state 1 is round key 0, and state 5 xor state 6 is round key 1; these two begin with the
 * key.
 * Reads schedule, 176, 208 or 240 bytes, and input, 16 bytes. Writes record_out, 16 bytes a state.
 * Refusals: 2 SCHEDULE_LENGTH, 3 INPUT_LENGTH, 8 RECORD_LENGTH.
 * Stack: 408 bytes.
 */
uint8_t slipgrease_record_plain(
    const uint8_t *schedule, size_t schedule_len,
    const uint8_t *input, size_t input_len,
    uint8_t *record_out, size_t record_len) SLIPGREASE_CHECKED;

/* ---- The module's engine ---- */

/*
 * A mask table is sixteen bytes, M(0) to M(15); labels are counted modulo 16. A record of offsets has an offset for each byte of a
 * block, o(0) to o(15), each 0 to 15: it says which mask lies over that byte when a run begins. Mask(o+k) is the sixteen bytes with
 * M(o(i)+k) at byte i. The published masks are SLIPGREASE_PUBLISHED_MASKS.
 * One offset stands for a record too: n, n+1 .. n+15, modulo 16. slipgrease_one_offset makes it; slipgrease_encrypt_blocks,
 * slipgrease_convert and key wrap take the one offset itself.
 * From round to round the labels advance by a step d: in round r, box j = o(i)+dr takes byte i under M(j) and gives it under M(j+d).
 * A step is 1, or 4 to 15. With step 0 a box would keep the mask. The boxes are called at the bytes 0, 2 .. 14 and then 1, 3 .. 15,
 * and none should take the mask that the one before it has given: at the record of one offset, with step 2 that would happen at
 * fourteen of the fifteen pairs of neighbours, and with step 3 at one, from byte 14 to byte 1. At other records it can happen with any
 * step; the caller who chooses them sees to that.
 * A run ends with the ciphertext of slipgrease_encrypt, at every record, with every step and any masks. That is the standard form,
 * SLIPGREASE_FORM_STANDARD, and no other is accepted: form 1, in which early modules left Mask(o+14d) on the block, has been
 * retired. slipgrease_convert is for blocks that they stored.
 * A masked decryption is a run with the inverse boxes, which take and give the same masks in the same order. It ends with the
 * plaintext of slipgrease_decrypt, again at every record, with every step and any masks, so none of these need be the ones with
 * which the block was encrypted. It has no form.
 */

/* Writes the record of one offset n to sixteen bytes: n, n+1 .. n+15, modulo 16. Of an n above 15, bytes that the calls refuse. */
static inline void slipgrease_one_offset(uint8_t record[SLIPGREASE_BYTE_OFFSETS], uint8_t n)
{
    uint8_t i;
    for (i = 0; i < SLIPGREASE_BYTE_OFFSETS; i++)
        record[i] = n > 15 ? n : (uint8_t)((n + i) % 16);
}

/*
 * Encrypts one block under the published masks, with step 1 by stored boxes; those of another step are worked out first.
 * Reads schedule, 176, 208 or 240 bytes, input, 16 bytes, and offsets, 16 bytes. Writes output_out, 16 bytes.
 * Refusals: 2 SCHEDULE_LENGTH, 3 INPUT_LENGTH, 4 OUTPUT_LENGTH, 24 OFFSET_PER_BYTE, 6 OFFSET_RANGE, 15 STEP_WRONG, 7 FORM_UNKNOWN.
 * Stack: 9,944 bytes, and 5,744 with step 1.
 */
uint8_t slipgrease_encrypt_published(
    const uint8_t *schedule, size_t schedule_len,
    const uint8_t *input, size_t input_len,
    uint8_t *output_out, size_t output_len,
    const uint8_t *offsets, size_t offsets_len,
    uint8_t step, uint8_t form) SLIPGREASE_CHECKED;

/*
 * Encrypts up to SLIPGREASE_BLOCKS_MAX blocks under the published masks, with one step: one after the other, each as
 * slipgrease_encrypt_published would. Block k is at byte 16 * k of input and output, and its offset is byte k of offsets. If one
 * offset is wrong, all blocks are refused. With no blocks at all the call is done, and nothing is written.
 * Reads schedule, 176, 208 or 240 bytes, input, 16 bytes a block, and offsets, 1 byte a block. Writes output_out, 16 bytes a block.
 * Refusals: 2 SCHEDULE_LENGTH, 3 INPUT_LENGTH, 4 OUTPUT_LENGTH, 14 OFFSETS_LENGTH, 6 OFFSET_RANGE, 15 STEP_WRONG, 7 FORM_UNKNOWN.
 * Stack: 9,896 bytes, and 5,696 with step 1.
 */
uint8_t slipgrease_encrypt_blocks(
    const uint8_t *schedule, size_t schedule_len,
    const uint8_t *input, size_t input_len,
    uint8_t *output_out, size_t output_len,
    const uint8_t *offsets, size_t offsets_len,
    uint8_t step, uint8_t form) SLIPGREASE_CHECKED;

/*
 * Encrypts one block under any sixteen masks, fit or not; their boxes are worked out first.
 * Reads schedule, 176, 208 or 240 bytes, input, 16 bytes, masks, 16 bytes, and offsets, 16 bytes. Writes output_out, 16 bytes.
 * Refusals: 2 SCHEDULE_LENGTH, 3 INPUT_LENGTH, 4 OUTPUT_LENGTH, 5 MASKS_LENGTH, 24 OFFSET_PER_BYTE, 6 OFFSET_RANGE, 15 STEP_WRONG, 7 FORM_UNKNOWN.
 * Stack: 9,912 bytes.
 */
uint8_t slipgrease_encrypt_masked(
    const uint8_t *schedule, size_t schedule_len,
    const uint8_t *input, size_t input_len,
    uint8_t *output_out, size_t output_len,
    const uint8_t *masks, size_t masks_len,
    const uint8_t *offsets, size_t offsets_len,
    uint8_t step, uint8_t form) SLIPGREASE_CHECKED;

/*
 * Encrypts one block under any sixteen masks, and records the state at each of the points of slipgrease_record_plain. Each is
 * the plain state under the mask that the table there names. No separate output block is written.
 * The masks do not keep this record from giving the key away, since state 0 and state 1 lie under the same mask, and so do
 * state 5 and state 6: here too, each pair xored is a round key, 0 and 1.
 * Reads schedule, 176, 208 or 240 bytes, input, 16 bytes, masks, 16 bytes, and offsets, 16 bytes. Writes record_out, 16 bytes a state.
 * Refusals: 2 SCHEDULE_LENGTH, 3 INPUT_LENGTH, 5 MASKS_LENGTH, 24 OFFSET_PER_BYTE, 6 OFFSET_RANGE, 15 STEP_WRONG, 8 RECORD_LENGTH.
 * Stack: 9,944 bytes.
 */
uint8_t slipgrease_record_masked(
    const uint8_t *schedule, size_t schedule_len,
    const uint8_t *input, size_t input_len,
    const uint8_t *masks, size_t masks_len,
    const uint8_t *offsets, size_t offsets_len,
    uint8_t step,
    uint8_t *record_out, size_t record_len) SLIPGREASE_CHECKED;

/*
 * Decrypts one block under the published masks, with step 1 by stored boxes; those of another step are worked out first.
 * Reads schedule, 176, 208 or 240 bytes, input, 16 bytes, and offsets, 16 bytes. Writes output_out, 16 bytes.
 * Refusals: 2 SCHEDULE_LENGTH, 3 INPUT_LENGTH, 4 OUTPUT_LENGTH, 24 OFFSET_PER_BYTE, 6 OFFSET_RANGE, 15 STEP_WRONG.
 * Stack: 10,216 bytes, and 6,032 with step 1.
 */
uint8_t slipgrease_decrypt_published(
    const uint8_t *schedule, size_t schedule_len,
    const uint8_t *input, size_t input_len,
    uint8_t *output_out, size_t output_len,
    const uint8_t *offsets, size_t offsets_len,
    uint8_t step) SLIPGREASE_CHECKED;

/*
 * Decrypts one block under any sixteen masks, fit or not; their boxes are worked out first.
 * Reads schedule, 176, 208 or 240 bytes, input, 16 bytes, masks, 16 bytes, and offsets, 16 bytes. Writes output_out, 16 bytes.
 * Refusals: 2 SCHEDULE_LENGTH, 3 INPUT_LENGTH, 4 OUTPUT_LENGTH, 5 MASKS_LENGTH, 24 OFFSET_PER_BYTE, 6 OFFSET_RANGE, 15 STEP_WRONG.
 * Stack: 10,168 bytes.
 */
uint8_t slipgrease_decrypt_masked(
    const uint8_t *schedule, size_t schedule_len,
    const uint8_t *input, size_t input_len,
    uint8_t *output_out, size_t output_len,
    const uint8_t *masks, size_t masks_len,
    const uint8_t *offsets, size_t offsets_len,
    uint8_t step) SLIPGREASE_CHECKED;

/*
 * Decrypts one block with N rounds under any sixteen masks, and records the state at each of 6N + 1 points. State s is at byte
 * 16 * s of the record.
 *
 *     state                     the plain state of INVCIPHER        xored with (offsets o, step d)
 *     0                         at the beginning: the block         Mask(o)
 *     1                         after round key N                   Mask(o)
 *     6r + 2    r = 0 .. N-1    after InvShiftRows                  InvShiftRows(Mask(o+dr))
 *     6r + 3    r = 0 .. N-1    the same (after correction)         Mask(o+dr)
 *     6r + 4    r = 0 .. N-1    after the inverse S-boxes           Mask(o+d(r+1))
 *     6r + 5    r = 0 .. N-1    after round key N-1-r               Mask(o+d(r+1))
 *     6r + 6    r = 0 .. N-2    after InvMixColumns                 InvMixColumns(Mask(o+d(r+1)))
 *     6r + 7    r = 0 .. N-2    the same (after restoration)        Mask(o+d(r+1))
 *     6N                        the same: what decrypt writes       nothing
 *
 * With sixteen masks 00 these are the plain states. No separate output block is written.
 * This record gives the key away too, covered or not: state 0 xor state 1 is round key N, and state 4 xor state 5 is round key N-1,
 * from which all others follow.
 * Reads schedule, 176, 208 or 240 bytes, input, 16 bytes, masks, 16 bytes, and offsets, 16 bytes. Writes record_out, 16 bytes a state.
 * Refusals: 2 SCHEDULE_LENGTH, 3 INPUT_LENGTH, 5 MASKS_LENGTH, 24 OFFSET_PER_BYTE, 6 OFFSET_RANGE, 15 STEP_WRONG, 8 RECORD_LENGTH.
 * Stack: 10,280 bytes.
 */
uint8_t slipgrease_record_masked_decryption(
    const uint8_t *schedule, size_t schedule_len,
    const uint8_t *input, size_t input_len,
    const uint8_t *masks, size_t masks_len,
    const uint8_t *offsets, size_t offsets_len,
    uint8_t step,
    uint8_t *record_out, size_t record_len) SLIPGREASE_CHECKED;

/*
 * Reads the sixteen masks and the step of a sheet, which is 4d 53 4b ("MSK"), the version and the masks. Version 00 01, 21 bytes,
 * means step 1; in version 00 02, 22 bytes, the step comes last, and is 4 to 15. Answers reply * 256 + step; with a refusal the
 * step is 0. The first SHEET_LENGTH is for fewer than 5 bytes, the second for a length that is not that of the version.
 * Reads sheet, 21 or 22 bytes. Writes masks_out, 16 bytes.
 * Refusals: 11 SHEET_LENGTH, 12 MARK_WRONG, 13 VERSION_UNKNOWN, 11 SHEET_LENGTH, 15 STEP_WRONG, 5 MASKS_LENGTH.
 * Stack: 8 bytes.
 */
uint16_t slipgrease_read_sheet(
    const uint8_t *sheet, size_t sheet_len,
    uint8_t *masks_out, size_t masks_len) SLIPGREASE_CHECKED;

/*
 * Writes the sheet of sixteen masks, fit or not, and their step: step 1 as version 1, 21 bytes, any other as version 2, 22 bytes.
 * Reads masks, 16 bytes. Writes sheet_out, 21 or 22 bytes.
 * Refusals: 15 STEP_WRONG, 11 SHEET_LENGTH, 5 MASKS_LENGTH.
 * Stack: 32 bytes.
 */
uint8_t slipgrease_write_sheet(
    const uint8_t *masks, size_t masks_len,
    uint8_t step,
    uint8_t *sheet_out, size_t sheet_len) SLIPGREASE_CHECKED;

/* ---- Key wrap ---- */

/*
 * Key wrap of RFC 3394 with AES-256 seals key data, which is usually a key itself, with the schedule of a 32-byte wrapping key; those
 * of shorter keys are refused. The result is 8 bytes longer. These hold the RFC's register, which begins as the initial value, a6
 * eight times (2.2.3.1); unwrapping must recover that value, and so detects a change. Key data has 16 to 256 bytes, a multiple of 8.
 * The two masked calls encrypt and decrypt by the module's engine: with the published masks, step 1 and one offset for the whole
 * call. At every offset they write the same bytes as the other two, so either engine unwraps what the other has wrapped.
 */

/*
 * Wraps key data: 2.2.1 of the RFC.
 * Reads schedule, 240 bytes, and key_data, 16, 24 .. 256 bytes. Writes wrapped_out, 8 bytes more than key_data.
 * Refusals: 2 SCHEDULE_LENGTH, 16 KEY_DATA_LENGTH, 17 WRAPPED_LENGTH.
 * Stack: 456 bytes.
 */
uint8_t slipgrease_wrap(
    const uint8_t *schedule, size_t schedule_len,
    const uint8_t *key_data, size_t key_data_len,
    uint8_t *wrapped_out, size_t wrapped_len) SLIPGREASE_CHECKED;

/*
 * Unwraps key data: 2.2.2 of the RFC. What slipgrease_wrap wrapped with the same schedule gives its key data back. Where the
 * lengths are right, the reply is INTEGRITY exactly if the register that is recovered is not the initial value: the wrapped key
 * data was changed, or was wrapped under another key. Then no byte of key_data_out has changed.
 * Reads schedule, 240 bytes, and wrapped, 8 bytes more than key_data. Writes key_data_out, 16, 24 .. 256 bytes.
 * Refusals: 2 SCHEDULE_LENGTH, 16 KEY_DATA_LENGTH, 17 WRAPPED_LENGTH, 18 INTEGRITY.
 * Stack: 728 bytes.
 */
uint8_t slipgrease_unwrap(
    const uint8_t *schedule, size_t schedule_len,
    const uint8_t *wrapped, size_t wrapped_len,
    uint8_t *key_data_out, size_t key_data_len) SLIPGREASE_CHECKED;

/*
 * Wraps key data by the module's engine, and writes what slipgrease_wrap does.
 * Reads schedule, 240 bytes, and key_data, 16, 24 .. 256 bytes. Writes wrapped_out, 8 bytes more than key_data.
 * Refusals: 2 SCHEDULE_LENGTH, 6 OFFSET_RANGE, 16 KEY_DATA_LENGTH, 17 WRAPPED_LENGTH.
 * Stack: 5,760 bytes.
 */
uint8_t slipgrease_wrap_masked(
    const uint8_t *schedule, size_t schedule_len,
    const uint8_t *key_data, size_t key_data_len,
    uint8_t *wrapped_out, size_t wrapped_len,
    uint8_t offset) SLIPGREASE_CHECKED;

/*
 * Unwraps key data by the module's engine, and writes and refuses what slipgrease_unwrap does.
 * Reads schedule, 240 bytes, and wrapped, 8 bytes more than key_data. Writes key_data_out, 16, 24 .. 256 bytes.
 * Refusals: 2 SCHEDULE_LENGTH, 6 OFFSET_RANGE, 16 KEY_DATA_LENGTH, 17 WRAPPED_LENGTH, 18 INTEGRITY.
 * Stack: 6,320 bytes.
 */
uint8_t slipgrease_unwrap_masked(
    const uint8_t *schedule, size_t schedule_len,
    const uint8_t *wrapped, size_t wrapped_len,
    uint8_t *key_data_out, size_t key_data_len,
    uint8_t offset) SLIPGREASE_CHECKED;

/* ---- Packets of the multiplex, for the rack ---- */

/*
 * A transport packet of ISO/IEC 13818-1 has 188 bytes:
 *     0        47, the sync byte
 *     1, 2     the PID in the lower 13 bits, the higher byte first; the upper three bits play no part
 *     3        the scrambling bits (c0), the adaptation code (30), and a counter, which plays no part
 *     4 ..     under code 01 the payload; under 11 the length of the adaptation field, the field, and then the payload; under 10
 *              the length, which is then 183, and the field alone
 *
 * The list of pipes has SLIPGREASE_PIPES entries of SLIPGREASE_PIPE_BYTES each, which hold from their beginning on:
 *     0        the PID, two bytes, the higher first: 0010 to 1ffe, and none twice
 *     2        the even schedule, as slipgrease_expand_key writes it of a 32-byte key
 *     242      the odd schedule
 *     482      the starting block, 16 bytes
 *
 * Scrambling is CBC (NIST SP 800-38A, 6.2) over the whole 16-byte blocks of the payload, starting anew in each packet with the
 * starting block; a remainder of fewer than 16 bytes stays clear. Only these blocks and the scrambling bits change. The schedules
 * and starting blocks of other pipes play no part.
 */

/*
 * Scrambles a packet of a listed PID with that pipe's even schedule, or with its odd one where odd is true, and sets the scrambling
 * bits to 10, or to 11. A packet whose payload is shorter than 16 bytes, or that has none, is copied, and so is every packet of a
 * PID that is not listed. FIELD_WRONG and BITS_WRONG are for a listed PID only: the adaptation code is 00, or the length of the
 * field is not 183 under code 10, or above 182 under code 11; the scrambling bits are not 00.
 * Reads packet, 188 bytes, and pipes, 3,486 bytes. Writes packet_out, 188 bytes.
 * Refusals: 19 PACKET_LENGTH, 20 SYNC_LOST, 22 PIPES_WRONG, 21 FIELD_WRONG, 23 BITS_WRONG.
 * Stack: 520 bytes.
 */
uint8_t slipgrease_scramble(
    const uint8_t *packet, size_t packet_len,
    uint8_t *packet_out, size_t packet_out_len,
    const uint8_t *pipes, size_t pipes_len,
    bool odd) SLIPGREASE_CHECKED;

/*
 * Descrambles a packet of a listed PID, with the schedule that the scrambling bits name, and sets them to 00. A packet whose bits
 * are 00 is copied, and so is every packet of a PID that is not listed. So it gives back every packet that slipgrease_scramble
 * took. FIELD_WRONG is as there; BITS_WRONG is for bits 01, and for 10 or 11 with a payload shorter than 16 bytes, or with none.
 * Reads packet, 188 bytes, and pipes, 3,486 bytes. Writes packet_out, 188 bytes.
 * Refusals: 19 PACKET_LENGTH, 20 SYNC_LOST, 22 PIPES_WRONG, 21 FIELD_WRONG, 23 BITS_WRONG.
 * Stack: 520 bytes.
 */
uint8_t slipgrease_descramble(
    const uint8_t *packet, size_t packet_len,
    uint8_t *packet_out, size_t packet_out_len,
    const uint8_t *pipes, size_t pipes_len) SLIPGREASE_CHECKED;

/* ---- Beside the engines ---- */

/*
 * Tests a mask table: value 1 if any three of the eight bit positions show each of their eight patterns in exactly two of the
 * sixteen masks, otherwise value 0. Answers reply * 256 + value; with a refusal the value is 0.
 * Reads masks, 16 bytes.
 * Refusals: 5 MASKS_LENGTH.
 * Stack: 56 bytes.
 */
uint16_t slipgrease_fitness(const uint8_t *masks, size_t masks_len) SLIPGREASE_CHECKED;

/*
 * Counts for the report of a mask table: at how many of the sixteen offsets three bits of the mask over a byte show a pattern. Rows 1
 * to 7 are the covered block, and the state after a key, boxes, ShiftRows, MixColumns, compensation and the last key; the count is
 * the same in any round, and with any step. The bits rise, low < middle < high, where 0 is the lowest of a byte and 7 the highest;
 * a pattern is 0 to 7, with the bit that is named high as its highest. Of a fit table each count is 2, except in row 5. There is no
 * row above 7 and no byte above 15, and no pattern above 7: what is asked for beside these is shown at no offset, so the count is 0.
 * Answers reply * 256 + count; with a refusal the count is 0.
 * Reads masks, 16 bytes.
 * Refusals: 5 MASKS_LENGTH.
 * Stack: 120 bytes.
 */
uint16_t slipgrease_mask_count(
    const uint8_t *masks, size_t masks_len,
    uint8_t row, uint8_t byte,
    uint8_t low, uint8_t middle, uint8_t high,
    uint8_t pattern) SLIPGREASE_CHECKED;

/*
 * Converts what an early module stored in form 1, with a 32-byte key, the published masks and step 1: xors it with Mask(o+14), which
 * gives the standard block. Of a standard block it makes what was stored, so doing it twice gives the input back.
 * Reads input, 16 bytes. Writes output_out, 16 bytes.
 * Refusals: 3 INPUT_LENGTH, 4 OUTPUT_LENGTH, 6 OFFSET_RANGE.
 * Stack: 48 bytes.
 */
uint8_t slipgrease_convert(
    const uint8_t *input, size_t input_len,
    uint8_t *output_out, size_t output_len,
    uint8_t offset) SLIPGREASE_CHECKED;

/*
 * Answers the product of a and b in the field of FIPS 197, modulo 11b.
 * Refusals: none.
 * Stack: 272 bytes.
 */
uint8_t slipgrease_multiply(uint8_t a, uint8_t b);

/*
 * Answers the inverse of x in that field, and 00 for 00.
 * Refusals: none.
 * Stack: 272 bytes.
 */
uint8_t slipgrease_inverse(uint8_t x);

/*
 * Answers reply * 256 + value, where 03 to the power of value is x. With the refusal of 00 the value is 0.
 * Refusals: 9 NO_LOGARITHM.
 * Stack: 272 bytes.
 */
uint16_t slipgrease_logarithm(uint8_t x) SLIPGREASE_CHECKED;

/*
 * Answers reply * 256 + value, where value is 03 to the power of n. With the refusal of 255 the value is 0.
 * Refusals: 10 POWER_RANGE.
 * Stack: 288 bytes.
 */
uint16_t slipgrease_power(uint8_t n) SLIPGREASE_CHECKED;

/*
 * Answers the inverse of a covered byte, covered: inverse(x xor r) xor r, where x is the byte under the mask r. It is worked
 * out without xoring x and r.
 * Refusals: none.
 * Stack: 304 bytes.
 */
uint8_t slipgrease_masked_inverse(uint8_t x, uint8_t r);

/*
 * Answers the same as slipgrease_masked_inverse, by inversion in a field of halves of four bits, with four tables of 256 bytes. x and r,
 * and what becomes of them there, are never xored.
 * Refusals: none.
 * Stack: 1,040 bytes.
 */
uint8_t slipgrease_tower_inverse(uint8_t x, uint8_t r);

/*
 * Answers what the masked box of a label makes of a byte: S(x xor M(label)) xor M(label+1), with the published masks. Labels are counted
 * modulo 16. No box is stored for it: it is made of the tables of slipgrease_tower_inverse, 1,024 bytes for 4,096.
 * Refusals: none.
 * Stack: 1,088 bytes.
 */
uint8_t slipgrease_tower_box(uint8_t label, uint8_t x);

/*
 * Sorts a reply: SLIPGREASE_GO_ON for 0, SLIPGREASE_CALLER_FAULT for 1 to 8, SLIPGREASE_DATA_FAULT for 9 to 13, 18, 20, 21
 * and 23, and SLIPGREASE_CALLER_FAULT for every other number above 13.
 * Refusals: none.
 * Stack: 8 bytes.
 */
uint8_t slipgrease_sort_reply(uint8_t number);

#ifdef __cplusplus
}
#endif

#endif
