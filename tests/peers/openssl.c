/*
 * OpenSSL as a peer: openssl KIND reads lines of cases as tests/peers/cases.c prints them, and holds each to what OpenSSL makes of
 * it. Prints a line for each that differs, and last its name and how many cases it compared. Fails where any differs or cannot be
 * read.
 */
#include <openssl/crypto.h>
#include <openssl/evp.h>

#include <stdio.h>
#include <stdlib.h>
#include <string.h>

/* Longer than what a field has, and than any line of such fields. */
enum { MOST_BYTES = 512, MOST_FIELDS = 3, LINE = MOST_FIELDS * (2 * MOST_BYTES + 1) + 1 };

struct field {
    unsigned char bytes[MOST_BYTES];
    int length;
};

static unsigned long line_number;
static int faults;

static void fault(const char *what)
{
    printf("line %lu: %s\n", line_number, what);
    faults = 1;
}

static int same(const unsigned char *given, int length, const struct field *expected)
{
    return length == expected->length && memcmp(given, expected->bytes, (size_t)length) == 0;
}

/* Wraps, or unwraps, by RFC 3394 with its own initial value. Gives how many bytes come out, and -1 where OpenSSL refuses. */
static int wrapped(const struct field *key, const struct field *input, unsigned char *output, int wrapping)
{
    EVP_CIPHER_CTX *context = EVP_CIPHER_CTX_new();
    int length = -1;
    EVP_CIPHER_CTX_set_flags(context, EVP_CIPHER_CTX_FLAG_WRAP_ALLOW);
    if (EVP_CipherInit_ex(context, EVP_aes_256_wrap(), NULL, key->bytes, NULL, wrapping) != 1) {
        fputs("OpenSSL has no AES-256 key wrap\n", stderr);
        exit(2);
    }
    if (EVP_CipherUpdate(context, output, &length, input->bytes, input->length) != 1)
        length = -1;
    EVP_CIPHER_CTX_free(context);
    return length;
}

/* KEY DATA WRAPPED, or KEY - DAMAGED. */
static int hold_wrap(const struct field *fields)
{
    const struct field *key = &fields[0], *data = &fields[1], *sealed = &fields[2];
    unsigned char output[MOST_BYTES + 16];
    if (data->length == 0) {
        if (wrapped(key, sealed, output, 0) >= 0)
            fault("what is damaged is unwrapped");
        return 1;
    }
    if (!same(output, wrapped(key, data, output, 1), sealed))
        fault("the key data has another wrap");
    if (!same(output, wrapped(key, sealed, output, 0), data))
        fault("the wrap has other key data, or none");
    return 0;
}

/* Which fields a case has, what holds it and says of which of two sorts it was, and the names of the two. */
static const struct kind {
    const char *name;
    int key_bytes;
    int (*hold)(const struct field *fields);
    const char *sorts[2];
} kinds[] = {
    {"wrap", 32, hold_wrap, {"wraps", "damaged"}},
};

/* Hex digits, or - for no bytes. */
static int read_field(const char *text, struct field *field)
{
    size_t digits = text == NULL ? 1 : strcmp(text, "-") == 0 ? 0 : strlen(text);
    if (digits % 2 != 0 || digits > 2 * MOST_BYTES || (digits > 0 && strspn(text, "0123456789abcdef") != digits))
        return 0;
    field->length = (int)(digits / 2);
    for (int i = 0; i < field->length; i++) {
        char byte[3] = {text[2 * i], text[2 * i + 1], 0};
        field->bytes[i] = (unsigned char)strtoul(byte, NULL, 16);
    }
    return 1;
}

static void hold_all(const struct kind *kind)
{
    static char line[LINE];
    static struct field fields[MOST_FIELDS];
    unsigned long counts[2] = {0, 0};
    while (fgets(line, LINE, stdin) != NULL) {
        line_number++;
        if (line[0] == '#')
            continue;
        int read = 1;
        for (int i = 0; i < MOST_FIELDS; i++)
            read = read_field(strtok(i == 0 ? line : NULL, " \n"), &fields[i]) && read;
        if (read && strtok(NULL, " \n") == NULL && fields[0].length == kind->key_bytes)
            counts[kind->hold(fields)]++;
        else
            fault("not a case");
    }
    printf("OpenSSL %s: %lu %s, %lu %s\n", OpenSSL_version(OPENSSL_VERSION_STRING), counts[0], kind->sorts[0], counts[1],
        kind->sorts[1]);
}

int main(int count, char **words)
{
    for (size_t i = 0; count == 2 && i < sizeof kinds / sizeof kinds[0]; i++)
        if (strcmp(words[1], kinds[i].name) == 0) {
            hold_all(&kinds[i]);
            return faults;
        }
    fputs("usage: openssl KIND, where KIND is wrap\n", stderr);
    return 2;
}
