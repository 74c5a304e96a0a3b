#include "expect.h"

#include <stdio.h>
#include <string.h>

const char *spoiled = "";
int faults;

void number(const char *call, unsigned given, unsigned expected)
{
    if (strcmp(call, spoiled) == 0)
        expected++;
    if (given != expected) {
        printf("%s: %u, and should be %u\n", call, given, expected);
        faults = 1;
    }
}

void packed(const char *call, uint16_t given, unsigned reply, unsigned value)
{
    number(call, SLIPGREASE_NUMBER(given), reply);
    number(call, SLIPGREASE_VALUE(given), value);
}

/* The longest bytes that are compared are key data. */
enum { DIGITS = 2 * SLIPGREASE_KEY_DATA_MAX };

static void write_digits(char digits[DIGITS + 1], const uint8_t *from, size_t length)
{
    for (size_t i = 0; i < length; i++) {
        digits[2 * i] = "0123456789abcdef"[from[i] >> 4];
        digits[2 * i + 1] = "0123456789abcdef"[from[i] & 15];
    }
    digits[2 * length] = 0;
}

void bytes(const char *call, const uint8_t *given, const char *expected)
{
    char digits[DIGITS + 1];
    write_digits(digits, given, strlen(expected) / 2);
    if (strcmp(call, spoiled) == 0)
        expected = "spoiled";
    if (strcmp(digits, expected) != 0) {
        printf("%s: %s, and should be %s\n", call, digits, expected);
        faults = 1;
    }
}

void alike(const char *call, const uint8_t *given, const uint8_t *expected, size_t length)
{
    char digits[DIGITS + 1];
    write_digits(digits, expected, length);
    bytes(call, given, digits);
}

void under(const char *call, const uint8_t *given, size_t label, const char *expected)
{
    uint8_t bare[16];
    for (size_t i = 0; i < 16; i++)
        bare[i] = given[i] ^ masks[(label + i) % 16];
    bytes(call, bare, expected);
}

size_t read_digits(uint8_t *to, const char *digits)
{
    size_t length = strlen(digits) / 2;
    for (size_t i = 0; i < length; i++)
        sscanf(digits + 2 * i, "%2hhx", &to[i]);
    return length;
}

unsigned touched(const uint8_t *buffer, size_t length)
{
    unsigned count = 0;
    for (size_t i = 0; i < length; i++)
        count += buffer[i] != UNTOUCHED;
    return count;
}

uint8_t reply_to_step(uint8_t d)
{
    return d == 0 || d == 2 || d == 3 || d > 15 ? SLIPGREASE_REPLY_STEP_WRONG : SLIPGREASE_REPLY_DONE;
}

const struct example examples[EXAMPLES] = {
    {"69c4e0d86a7b0430d8cdb78070b4c55a", 16, 176, 10, 816, 976},
    {"dda97ca4864cdfe06eaf70a0ec0d7191", 24, 208, 12, 976, 1168},
    {"8ea2b7ca516745bfeafc49904b496089", 32, 240, 14, 1136, 1360},
};

void expand(const struct example *example, uint8_t schedule[SLIPGREASE_SCHEDULE_BYTES])
{
    uint8_t key[SLIPGREASE_KEY_BYTES];
    for (size_t i = 0; i < sizeof key; i++)
        key[i] = (uint8_t)i;
    CALL(expand_key, SLIPGREASE_REPLY_DONE, key, example->key, schedule, example->schedule);
}

const char plaintext[] = "00112233445566778899aabbccddeeff";
const char ciphertext[] = "8ea2b7ca516745bfeafc49904b496089";
uint8_t w[SLIPGREASE_SCHEDULE_BYTES];
const uint8_t masks[SLIPGREASE_MASKS_BYTES] = {
    0x00, 0x0f, 0x36, 0x39, 0x53, 0x5c, 0x65, 0x6a, 0x95, 0x9a, 0xa3, 0xac, 0xc6, 0xc9, 0xf0, 0xff};
