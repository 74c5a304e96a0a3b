// The check of packets: of both engines by SP 800-38A, and of the C translation by the library.
#include "check.h"

#include <string.h>

#include "expect.h"

// PIDs that may be listed, with the first and the last of them; and one that is not listed.
static const unsigned pids[PIPES] = {0x0100, 0x0010, 0x1000, 0x1010, 0x1ffe, 0x00fe, 0x1f10};
enum { UNLISTED = 0x0110 };

static void list_pid(uint8_t *pipes, size_t k, unsigned pid)
{
    pipes[PIPE_BYTES * k] = (uint8_t)(pid >> 8);
    pipes[PIPE_BYTES * k + 1] = (uint8_t)pid;
}

// The first five bytes; the fifth is the length of the field, where the code has one.
static void head(uint8_t *packet, unsigned pid, uint8_t fourth, uint8_t length)
{
    memcpy(packet, (uint8_t[]){0x47, (uint8_t)(pid >> 8), (uint8_t)pid, fourth, length}, 5);
}

static uint8_t made(size_t engine, enum call call, const uint8_t *packet, size_t packet_length, uint8_t *packet_out,
                    size_t packet_out_length, const uint8_t *pipes, size_t pipes_length, bool odd)
{
    const struct engine *e = engines[engine];
    return call == SCRAMBLE ? e->scramble(packet, packet_length, packet_out, packet_out_length, pipes, pipes_length, odd)
                            : e->descramble(packet, packet_length, packet_out, packet_out_length, pipes, pipes_length);
}

// The four blocks of F.2.5 as the last of a packet, before a rest.
static void check_example(const struct vectors *vectors, size_t engine, size_t pipe, bool odd, size_t rest)
{
    uint8_t pipes[PIPES_BYTES], plain[PACKET_BYTES], cipher[PACKET_BYTES], output[PACKET_BYTES];
    size_t begin = PACKET_BYTES - CHAIN - rest;
    draw(pipes, PIPES_BYTES);
    for (size_t k = 0; k < PIPES; k++)
        list_pid(pipes, k, pids[k]);
    library.expand_key(vectors->chain.key, KEY_BYTES, pipes + PIPE_BYTES * pipe + (odd ? ODD_AT : EVEN_AT), SCHEDULE_BYTES);
    memcpy(pipes + PIPE_BYTES * pipe + START_AT, vectors->chain.start, BLOCK_BYTES);
    draw(plain, PACKET_BYTES);
    head(plain, pids[pipe], 0x30, (uint8_t)(begin - 5));
    memcpy(cipher, plain, PACKET_BYTES);
    cipher[3] |= odd ? 0xc0 : 0x80;
    memcpy(plain + begin, vectors->chain.plain, CHAIN);
    memcpy(cipher + begin, vectors->chain.cipher, CHAIN);
    for (int call = SCRAMBLE; call <= DESCRAMBLE; call++) {
        const uint8_t *from = call == SCRAMBLE ? plain : cipher, *to = call == SCRAMBLE ? cipher : plain;
        memset(output, UNTOUCHED, sizeof output);
        made(engine, (enum call)call, from, PACKET_BYTES, output, PACKET_BYTES, pipes, PIPES_BYTES, odd);
        expect(same(output, to, PACKET_BYTES), engine, (enum call)call, "SP 800-38A F.2.5 in pipe", pipe);
    }
}

void check_packets(const struct vectors *vectors, size_t engine)
{
    for (size_t pipe = 0; pipe < PIPES; pipe++)
        for (size_t rest = 0; rest < BLOCK_BYTES; rest++) {
            check_example(vectors, engine, pipe, false, rest);
            check_example(vectors, engine, pipe, true, rest);
        }
}

// A call of both engines: lengths, the packet's first five bytes and one of the PIDs in the list are given. Everything that a call
// can write is compared, reply and bytes.
struct arguments {
    size_t packet, packet_out, pipes;
    bool lost, odd;
    unsigned pid;
    uint8_t fourth, length;
    size_t changed;
    unsigned to;
};

static const struct arguments right = {
    .packet = PACKET_BYTES, .packet_out = PACKET_BYTES, .pipes = PIPES_BYTES, .pid = UNLISTED, .fourth = 0x10, .to = 0x0100};

static void compare(enum call call, const struct arguments *a, size_t number)
{
    uint8_t packet[PACKET_BYTES + 1], pipes[PIPES_BYTES + 1], written[2][PACKET_BYTES + 1], reply[2];
    draw(packet, sizeof packet);
    draw(pipes, sizeof pipes);
    head(packet, a->pid, a->fourth, a->length);
    packet[0] ^= a->lost;
    for (size_t k = 0; k < PIPES; k++)
        list_pid(pipes, k, k == a->changed ? a->to : pids[k]);
    memset(written, UNTOUCHED, sizeof written);
    for (size_t i = 0; i < 2; i++)
        reply[i] = made(i, call, packet, a->packet, written[i], a->packet_out, pipes, a->pipes, a->odd);
    expect(reply[0] == reply[1] && same(written[0], written[1], sizeof written[0]), 1, call, "comparison", number);
}

// Every adaptation code with every length of the field and all bits, in a pipe and in none.
static void compare_fields(enum call call)
{
    for (size_t choice = 0; choice < 16 * 256 * 2; choice++) {
        struct arguments a = right;
        a.fourth = (uint8_t)(choice << 4 | choice % 13);
        a.length = (uint8_t)(choice >> 4);
        a.odd = choice / 16 % 2 != 0;
        if (choice >> 12)
            a.pid = 0x8000 | pids[choice % PIPES];
        compare(call, &a, choice + 1);
    }
}

// In each place of the list each PID at the edges, and those of all pipes.
static void compare_lists(enum call call)
{
    static const unsigned edges[] = {0x0000, 0x000f, 0x0011, 0x1ffd, 0x1fff, 0x2000, 0x2010, 0xffff};
    for (size_t choice = 0; choice < PIPES * (8 + PIPES) * 2; choice++) {
        struct arguments a = right;
        size_t rest = choice / PIPES % (8 + PIPES);
        a.changed = choice % PIPES;
        a.to = rest < 8 ? edges[rest] : pids[rest - 8];
        a.pid = choice / PIPES / (8 + PIPES) ? pids[choice % 3] : UNLISTED;
        compare(call, &a, choice + 1);
    }
}

// Causes of refusal, each with each: lengths too small, right or too great, sync, a list with a PID twice, and a packet of a pipe or
// of none that has no code, bits 01, or other bits over a payload that is too short.
static void compare_refused(enum call call)
{
    static const uint8_t fourths[] = {0x10, 0x00, 0x50, 0xf0};
    for (size_t choice = 0; choice < 3 * 3 * 3 * 2 * 2 * 2 * 4; choice++) {
        struct arguments a = right;
        size_t rest = choice;
        a.packet = PACKET_BYTES - 1 + rest % 3;
        a.packet_out = PACKET_BYTES - 1 + (rest /= 3) % 3;
        a.pipes = PIPES_BYTES - 1 + (rest /= 3) % 3;
        a.lost = (rest /= 3) % 2 != 0;
        a.to = (rest /= 2) % 2 != 0 ? pids[1] : pids[0];
        a.pid = (rest /= 2) % 2 != 0 ? pids[2] : UNLISTED;
        a.fourth = fourths[rest / 2];
        a.length = 168;
        compare(call, &a, choice + 1);
    }
}

void compare_packets(void)
{
    for (int call = SCRAMBLE; call <= DESCRAMBLE; call++) {
        compare_fields((enum call)call);
        compare_lists((enum call)call);
        compare_refused((enum call)call);
    }
}
