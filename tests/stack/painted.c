/*
 * How much stack each call takes, measured: it is made on a stack of its own, which was painted before, and what has changed there
 * is counted from the lowest byte on. What this program itself takes is in the count; linked with calls that do nothing but return,
 * it prints that alone, and the return address of the call with it.
 * Prints a line for each call: its name, how it was made where it is made in two ways, and the bytes.
 */
#define _XOPEN_SOURCE 700
#include <slipgrease.h>

#include <stdio.h>
#include <string.h>
#include <ucontext.h>

static uint8_t key[SLIPGREASE_KEY_BYTES], schedule[SLIPGREASE_SCHEDULE_BYTES], block[SLIPGREASE_BLOCK_BYTES];
static uint8_t made[SLIPGREASE_BLOCKS_MAX * SLIPGREASE_BLOCK_BYTES], blocks[sizeof made], of_blocks[SLIPGREASE_BLOCKS_MAX];
/* All 0, which are not those of one offset: so their constants are worked out. */
static uint8_t offsets[SLIPGREASE_BYTE_OFFSETS];
static uint8_t output[SLIPGREASE_BLOCK_BYTES], masks[SLIPGREASE_MASKS_BYTES], sheet[SLIPGREASE_SHEET_2_BYTES];
static uint8_t record[SLIPGREASE_RECORD_BYTES], back[SLIPGREASE_DECRYPTION_RECORD_BYTES];
static uint8_t data[SLIPGREASE_KEY_DATA_MAX], wrapped[sizeof data + SLIPGREASE_WRAP_EXTRA], damaged[sizeof wrapped];
static uint8_t packet[SLIPGREASE_PACKET_BYTES], scrambled[sizeof packet], copy[sizeof packet], pipes[SLIPGREASE_PIPES_BYTES];

#define LENT(buffer) buffer, sizeof buffer

/* Every call, by the way on which it comes furthest. Unwrapping is there with its integrity and without. */
#define CALLS(X) \
    X(expand_key, , LENT(key), LENT(schedule)) \
    X(encrypt, , LENT(schedule), LENT(block), LENT(output)) \
    X(decrypt, , LENT(schedule), LENT(block), LENT(output)) \
    X(record_plain, , LENT(schedule), LENT(block), LENT(record)) \
    X(encrypt_published, , LENT(schedule), LENT(block), LENT(output), LENT(offsets), 5, 0) \
    X(encrypt_published, _with_step_1, LENT(schedule), LENT(block), LENT(output), LENT(offsets), 1, 0) \
    X(encrypt_blocks, , LENT(schedule), LENT(blocks), LENT(made), LENT(of_blocks), 5, 0) \
    X(encrypt_blocks, _with_step_1, LENT(schedule), LENT(blocks), LENT(made), LENT(of_blocks), 1, 0) \
    X(encrypt_masked, , LENT(schedule), LENT(block), LENT(output), LENT(masks), LENT(offsets), 5, 0) \
    X(record_masked, , LENT(schedule), LENT(block), LENT(masks), LENT(offsets), 5, LENT(record)) \
    X(decrypt_published, , LENT(schedule), LENT(block), LENT(output), LENT(offsets), 5) \
    X(decrypt_published, _with_step_1, LENT(schedule), LENT(block), LENT(output), LENT(offsets), 1) \
    X(decrypt_masked, , LENT(schedule), LENT(block), LENT(output), LENT(masks), LENT(offsets), 5) \
    X(record_masked_decryption, , LENT(schedule), LENT(block), LENT(masks), LENT(offsets), 5, LENT(back)) \
    X(read_sheet, , LENT(sheet), LENT(masks)) \
    X(write_sheet, , LENT(masks), 5, LENT(sheet)) \
    X(wrap, , LENT(schedule), LENT(data), LENT(wrapped)) \
    X(unwrap, , LENT(schedule), LENT(wrapped), LENT(data)) \
    X(unwrap, _refused, LENT(schedule), LENT(damaged), LENT(data)) \
    X(wrap_masked, , LENT(schedule), LENT(data), LENT(wrapped), 3) \
    X(unwrap_masked, , LENT(schedule), LENT(wrapped), LENT(data), 3) \
    X(unwrap_masked, _refused, LENT(schedule), LENT(damaged), LENT(data), 3) \
    X(scramble, , LENT(packet), LENT(scrambled), LENT(pipes), true) \
    X(descramble, , LENT(scrambled), LENT(copy), LENT(pipes)) \
    X(fitness, , LENT(masks)) \
    X(mask_count, , LENT(masks), 5, 0, 5, 6, 7, 7) \
    X(convert, , LENT(block), LENT(output), 3) \
    X(multiply, , 0x57, 0x83) \
    X(inverse, , 0x53) \
    X(logarithm, , 0x53) \
    X(power, , 100) \
    X(masked_inverse, , 0x53, 0x1f) \
    X(tower_inverse, , 0x53, 0x1f) \
    X(tower_box, , 0x05, 0x1f) \
    X(sort_reply, , SLIPGREASE_REPLY_OFFSET_RANGE)

static volatile unsigned answer;
#define FUNCTION(call, how, ...) \
    static void call##how(void) { answer = slipgrease_##call(__VA_ARGS__); }
CALLS(FUNCTION)

#define ROW(call, how, ...) {#call #how, call##how},
static const struct {
    const char *name;
    void (*function)(void);
} rows[] = {CALLS(ROW)};
enum { ROWS = sizeof rows / sizeof rows[0], STACK = 1 << 16 };

static uint8_t stack[STACK];
static ucontext_t here, there;
static void (*function)(void);

/* The function begins lower than what is called to come back from here. */
static void run(void)
{
    volatile uint8_t room[1024];
    room[0] = room[sizeof room - 1] = 0;
    function();
    room[1] = room[0];
}

static size_t taken(void (*of)(void), uint8_t paint)
{
    size_t untouched = 0;
    function = of;
    memset(stack, paint, sizeof stack);
    if (getcontext(&there) != 0)
        return 0;
    there.uc_stack.ss_sp = stack;
    there.uc_stack.ss_size = sizeof stack;
    there.uc_link = &here;
    makecontext(&there, run, 0);
    if (swapcontext(&here, &there) != 0)
        return 0;
    while (untouched < sizeof stack && stack[untouched] == paint)
        untouched++;
    return sizeof stack - untouched;
}

/* What the calls are lent, so that each has all of its work to do: published masks that are fit, a sheet and a wrapped key that are
   sound, and a listed packet that is all payload. */
static void prepare(void)
{
    static const uint8_t published[] = SLIPGREASE_PUBLISHED_MASKS;
    memcpy(masks, published, sizeof masks);
    for (size_t k = 0; k < SLIPGREASE_PIPES; k++)
        pipes[SLIPGREASE_PIPE_BYTES * k + 1] = (uint8_t)(0x10 + k);
    memcpy(packet, "\x47\x00\x16\x10", 4);
    answer = slipgrease_write_sheet(LENT(masks), 5, LENT(sheet));
    answer = slipgrease_wrap(LENT(schedule), LENT(data), LENT(wrapped));
    answer = slipgrease_scramble(LENT(packet), LENT(scrambled), LENT(pipes), true);
}

int main(void)
{
    prepare();
    for (size_t i = 0; i < ROWS; i++) {
        size_t one = taken(rows[i].function, 0x55), other = taken(rows[i].function, 0xaa);
        printf("%s %zu\n", rows[i].name, one > other ? one : other);
    }
    return 0;
}
