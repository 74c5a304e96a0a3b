/*
 * What the tests of the calls share: how an answer is compared, how every set of causes of refusal is tried, and the examples of
 * FIPS 197, C.1 to C.3.
 */
#include <slipgrease.h>

/* A buffer and its length, and none. */
#define LENT(buffer) buffer, sizeof buffer
#define NONE NULL, 0

/* A call and the number that it should answer; and one that should answer a reply and a value in one number. */
#define CALL(call, expected, ...) number(#call, slipgrease_##call(__VA_ARGS__), expected)
#define PACKED(call, reply, value, ...) packed(#call, slipgrease_##call(__VA_ARGS__), reply, value)

/* The call of which what is expected is spoiled, and whether any difference was found. */
extern const char *spoiled;
extern int faults;

void number(const char *call, unsigned given, unsigned expected);
void packed(const char *call, uint16_t given, unsigned reply, unsigned value);

/* Bytes that should have these hex digits; bytes that should be these; and sixteen under M(label), M(label + 1) .., which uncovered
   should have the digits. */
void bytes(const char *call, const uint8_t *given, const char *expected);
void alike(const char *call, const uint8_t *given, const uint8_t *expected, size_t length);
void under(const char *call, const uint8_t *given, size_t label, const char *expected);

/* Writes the bytes that have these hex digits, and gives how many they are. */
size_t read_digits(uint8_t *to, const char *digits);

/* What a masked run should answer that is asked for with step d, and with nothing wrong else. */
uint8_t reply_to_step(uint8_t d);

/* C.3: its block, the ciphertext, and the schedule of its key, which expand_key writes first. And the published masks. */
extern const char plaintext[], ciphertext[];
extern uint8_t w[SLIPGREASE_SCHEDULE_BYTES];
extern const uint8_t masks[SLIPGREASE_MASKS_BYTES];

/* C.1 to C.3: the ciphertext of the same block under a key 00 01 .. of so many bytes, the bytes of its schedule, how many rounds
   there are, and the bytes of the record of an encryption and of that of a decryption. */
struct example {
    const char *ciphertext;
    size_t key, schedule, rounds, record, decryption_record;
};
enum { C_1, C_2, C_3, EXAMPLES };
extern const struct example examples[EXAMPLES];

/* The schedule of an example's key, as long as that is. */
void expand(const struct example *example, uint8_t schedule[SLIPGREASE_SCHEDULE_BYTES]);

/* A lent buffer. Behind its bytes there is one more, for a length that is too great. */
struct buffer {
    uint8_t *bytes;
    size_t length;
};

/* What calls are lent; each takes its own part of it. */
struct lent {
    struct buffer schedule, input, output, masks, offsets, record, key_data, wrapped, packet, packet_out, pipes;
    uint8_t offset, step, form;
    bool odd;
};

/* A buffer as it is handed over. */
#define HANDED(buffer) lent->buffer.bytes, lent->buffer.length

/* What a buffer holds that nothing has been written to. */
enum { UNTOUCHED = 0x55 };

/* How many bytes of a buffer do not hold that. */
unsigned touched(const uint8_t *buffer, size_t length);

/* A call with its refusals in their order, behind which there are zeros. */
struct call {
    const char *name;
    uint8_t (*answer)(const struct lent *);
    uint8_t refusals[9];
};

/* In refusals.c: whatever the causes are, the first in the call's list is told, and nothing is written. `right` gives what has no
   cause, and `written` how many bytes that the call could have written are touched. */
void refusals(const struct call *call, struct lent (*right)(void), unsigned (*written)(void));

/* In masked.c: the masked calls for one block, those that encrypt first. */
enum masked {
    ENCRYPT_PUBLISHED,
    ENCRYPT_MASKED,
    RECORD_MASKED,
    DECRYPT_PUBLISHED,
    DECRYPT_MASKED,
    RECORD_MASKED_DECRYPTION,
    MASKED_CALLS
};
extern const struct call masked_calls[MASKED_CALLS];

/* Chooses the example that the next two are about. */
void choose(const struct example *example);

/* The block for such a call, or the ciphertext, with the published masks, and nothing written. */
struct lent lent_to(enum masked call, const uint8_t offsets[SLIPGREASE_BYTE_OFFSETS], uint8_t step);

/* Makes a call, which should answer this. Where it is done, the block that it ends with should be the example's, and where it is
   refused, nothing should be written. Gives the states that it has written, if it has. */
const uint8_t *answered(enum masked call, const struct lent *lent, uint8_t reply);

/* In keys.c: the three lengths of a key. In masked.c: what the masked calls for one block refuse. In encryption.c and decryption.c:
   C.3 at every offset with every step. In offsets.c: an offset for each byte. In wrap.c: the calls of key wrap. In packets.c: those
   of packets. */
void key_lengths(void);
void masked_refusals(void);
void encryption(void);
void decryption(void);
void offset_for_each_byte(void);
void key_wrap(void);
void packets(void);
