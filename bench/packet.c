// Packets, translated: scrambled and descrambled by CBC over the plain engine.
#include "state.h"
#include "translated.h"

enum { PACKET = 188, SYNC = 0x47, HEADER = 4, LENGTH_BYTE = 1 };
enum { PIPES = 7, PIPE = 498 };
enum { EVEN_SCHEDULE = 2, ODD_SCHEDULE = EVEN_SCHEDULE + SCHEDULE, STARTING_BLOCK = ODD_SCHEDULE + SCHEDULE };
enum { PAYLOAD_ALONE = 1, FIELD_ALONE = 2, FIELD_AND_PAYLOAD = 3 };
enum { CLEAR = 0, RESERVED = 1, EVEN = 2, ODD = 3 };

static inline unsigned pid_at(const uint8_t *pipes, size_t k)
{
    return (unsigned)pipes[PIPE * k] << 8 | pipes[PIPE * k + 1];
}

static inline bool are_pipes(const uint8_t *pipes, size_t pipes_length)
{
    if (pipes_length != PIPES * PIPE)
        return false;
    bool right = true;
    for (size_t k = 0; k < PIPES; k++) {
        unsigned pid = pid_at(pipes, k);
        right &= pid >= 0x0010 && pid <= 0x1ffe;
        for (size_t j = 0; j < k; j++)
            right &= pid_at(pipes, j) != pid;
    }
    return right;
}

// The pipe of a packet, and PIPES where its PID is not listed.
static inline size_t pipe_of(const uint8_t *pipes, const uint8_t *packet)
{
    unsigned pid = (packet[1] & 0x1fu) << 8 | packet[2];
    size_t k = 0;
    while (k < PIPES && pid_at(pipes, k) != pid)
        k++;
    return k;
}

static inline unsigned bits_of(const uint8_t *packet)
{
    return packet[3] >> 6;
}

static inline unsigned code_of(const uint8_t *packet)
{
    return packet[3] >> 4 & 3;
}

static inline bool is_field(const uint8_t *packet)
{
    unsigned code = code_of(packet), length = packet[HEADER];
    return code == PAYLOAD_ALONE || (code == FIELD_ALONE && length == PACKET - HEADER - LENGTH_BYTE) ||
           (code == FIELD_AND_PAYLOAD && length < PACKET - HEADER - LENGTH_BYTE);
}

static inline size_t payload_of(const uint8_t *packet)
{
    return code_of(packet) == PAYLOAD_ALONE ? HEADER : HEADER + LENGTH_BYTE + (size_t)packet[HEADER];
}

static inline bool has_block(const uint8_t *packet)
{
    return payload_of(packet) + BLOCK <= PACKET;
}

static inline uint8_t refusal(const uint8_t *packet, size_t packet_length, size_t packet_out_length, const uint8_t *pipes,
                              size_t pipes_length)
{
    if (packet_length != PACKET || packet_out_length != PACKET)
        return PACKET_LENGTH;
    if (packet[0] != SYNC)
        return SYNC_LOST;
    return are_pipes(pipes, pipes_length) ? DONE : PIPES_WRONG;
}

static inline void encrypt_chain(const uint8_t *schedule, const uint8_t *last, const uint8_t *input, uint8_t *restrict output,
                                 size_t blocks)
{
    for (size_t k = 0; k < blocks; k++, input += BLOCK, output += BLOCK) {
        uint8_t block[BLOCK];
        memcpy(block, input, BLOCK);
        add(block, last);
        translated_encrypt(schedule, SCHEDULE, block, BLOCK, output, BLOCK);
        last = output;
    }
}

static inline void decrypt_chain(const uint8_t *schedule, const uint8_t *last, const uint8_t *input, uint8_t *restrict output,
                                 size_t blocks)
{
    for (size_t k = 0; k < blocks; k++, input += BLOCK, output += BLOCK) {
        uint8_t block[BLOCK];
        translated_decrypt(schedule, SCHEDULE, input, BLOCK, block, BLOCK);
        add(block, last);
        memcpy(output, block, BLOCK);
        last = input;
    }
}

// The whole packet with other bits, and then its whole blocks once more.
static inline void change(bool back, bool odd, unsigned bits, const uint8_t *packet, uint8_t *restrict packet_out,
                          const uint8_t *pipe)
{
    const uint8_t *schedule = pipe + (odd ? ODD_SCHEDULE : EVEN_SCHEDULE), *start = pipe + STARTING_BLOCK;
    size_t from = payload_of(packet), blocks = (PACKET - from) / BLOCK;
    memcpy(packet_out, packet, PACKET);
    packet_out[3] = (uint8_t)(bits << 6 | (packet[3] & 0x3f));
    if (back)
        decrypt_chain(schedule, start, packet + from, packet_out + from, blocks);
    else
        encrypt_chain(schedule, start, packet + from, packet_out + from, blocks);
}

uint8_t translated_scramble(const uint8_t *packet, size_t packet_length, uint8_t *restrict packet_out, size_t packet_out_length,
                            const uint8_t *pipes, size_t pipes_length, bool odd)
{
    uint8_t refused = refusal(packet, packet_length, packet_out_length, pipes, pipes_length);
    if (refused != DONE)
        return refused;
    size_t k = pipe_of(pipes, packet);
    if (k < PIPES) {
        if (!is_field(packet))
            return FIELD_WRONG;
        if (bits_of(packet) != CLEAR)
            return BITS_WRONG;
    }
    if (k < PIPES && has_block(packet))
        change(false, odd, odd ? ODD : EVEN, packet, packet_out, pipes + PIPE * k);
    else
        memcpy(packet_out, packet, PACKET);
    return DONE;
}

uint8_t translated_descramble(const uint8_t *packet, size_t packet_length, uint8_t *restrict packet_out,
                              size_t packet_out_length, const uint8_t *pipes, size_t pipes_length)
{
    uint8_t refused = refusal(packet, packet_length, packet_out_length, pipes, pipes_length);
    if (refused != DONE)
        return refused;
    size_t k = pipe_of(pipes, packet);
    unsigned bits = bits_of(packet);
    if (k < PIPES) {
        if (!is_field(packet))
            return FIELD_WRONG;
        if (bits == RESERVED || (bits != CLEAR && !has_block(packet)))
            return BITS_WRONG;
    }
    if (k < PIPES && bits != CLEAR)
        change(true, bits == ODD, CLEAR, packet, packet_out, pipes + PIPE * k);
    else
        memcpy(packet_out, packet, PACKET);
    return DONE;
}
