/*
 * Packets as a C compiler hands them over: the CBC example of SP 800-38A in every pipe, even and odd, with every rest behind it;
 * every adaptation code, field length and scrambling bits; every PID; every wrong list; and every set of causes of refusal.
 */
#include "expect.h"

#include <string.h>

enum { PACKET = SLIPGREASE_PACKET_BYTES, PIPE = SLIPGREASE_PIPE_BYTES, BLOCK = SLIPGREASE_BLOCK_BYTES };

/* SP 800-38A, F.2.5 and F.2.6, CBC-AES256: the starting block is its initialization vector. */
static const char example_key[] = "603deb1015ca71be2b73aef0857d77811f352c073b6108d72d9810a30914dff4";
static const char example_start[] = "000102030405060708090a0b0c0d0e0f";
static const char example_plain[] = "6bc1bee22e409f96e93d7e117393172aae2d8a571e03ac9c9eb76fac45af8e51"
    "30c81c46a35ce411e5fbc1191a0a52eff69f2445df4f9b17ad2b417be66c3710";
static const char example_cipher[] = "f58c4c04d6e5f1ba779eabfb5f7bfbd69cfc4e967edb808d679f777bc6702c7d"
    "39f23369a9d9bacfa530e26304231461b2eb05e2c39be9fcda6c19078c6a9d1b";
enum { EXAMPLE = 64 };

/* The first and the last PID that may be listed, and some that share a byte with them; and one that is not listed. */
static const unsigned pids[SLIPGREASE_PIPES] = {0x0100, 0x0010, 0x1000, 0x1010, 0x1ffe, 0x00fe, 0x1f10};
enum { UNLISTED = 0x0110, LISTED = 3 };

static uint8_t packet[PACKET + 1], packet_out[PACKET + 1], pipes[SLIPGREASE_PIPES_BYTES + 1];

/* Parts of a pipe. */
static uint8_t *schedule_of(size_t k, bool odd)
{
    return pipes + PIPE * k + (odd ? 242 : 2);
}

static uint8_t *start_of(size_t k)
{
    return pipes + PIPE * k + 482;
}

static void list_pid(size_t k, unsigned pid)
{
    pipes[PIPE * k] = (uint8_t)(pid >> 8);
    pipes[PIPE * k + 1] = (uint8_t)pid;
}

/* A list whose schedules and starting blocks hold nothing but one byte. */
static void list_all(uint8_t filling)
{
    memset(pipes, filling, sizeof pipes);
    for (size_t k = 0; k < SLIPGREASE_PIPES; k++)
        list_pid(k, pids[k]);
}

/* A list of which every schedule and starting block is another. */
static void list_different(void)
{
    list_all(0);
    for (size_t k = 0; k < SLIPGREASE_PIPES; k++) {
        for (int odd = 0; odd < 2; odd++) {
            uint8_t key[SLIPGREASE_KEY_BYTES] = {(uint8_t)(2 * k + odd)};
            CALL(expand_key, SLIPGREASE_REPLY_DONE, LENT(key), schedule_of(k, odd), SLIPGREASE_SCHEDULE_BYTES);
        }
        memset(start_of(k), (int)(0x11 * k), BLOCK);
    }
}

/* A packet of a PID, with the three bits above that, byte 3 and byte 4, which is the length of the field where the code has one. What
   was written before is gone. */
static struct lent lent_of(unsigned pid, uint8_t upper, uint8_t fourth, uint8_t length)
{
    memset(packet_out, UNTOUCHED, sizeof packet_out);
    for (size_t i = 0; i < sizeof packet; i++)
        packet[i] = (uint8_t)(3 * i + 1);
    packet[0] = 0x47;
    packet[1] = (uint8_t)(upper << 5 | pid >> 8);
    packet[2] = (uint8_t)pid;
    packet[3] = fourth;
    packet[4] = length;
    return (struct lent){.packet = {packet, PACKET}, .packet_out = {packet_out, PACKET}, .pipes = {pipes, sizeof pipes - 1}};
}

static struct lent right_to_scramble(void)
{
    return lent_of(pids[LISTED], 0, 0x10, 0);
}

static struct lent right_to_descramble(void)
{
    return lent_of(pids[LISTED], 0, 0x90, 0);
}

static unsigned written(void)
{
    return touched(packet_out, sizeof packet_out);
}

static uint8_t scramble(const struct lent *lent)
{
    return slipgrease_scramble(HANDED(packet), HANDED(packet_out), HANDED(pipes), lent->odd);
}

static uint8_t descramble(const struct lent *lent)
{
    return slipgrease_descramble(HANDED(packet), HANDED(packet_out), HANDED(pipes));
}

#define REFUSALS                                                                                                \
    {SLIPGREASE_REPLY_PACKET_LENGTH, SLIPGREASE_REPLY_SYNC_LOST, SLIPGREASE_REPLY_PIPES_WRONG,                  \
        SLIPGREASE_REPLY_FIELD_WRONG, SLIPGREASE_REPLY_BITS_WRONG}
enum way { THERE, BACK, WAYS };
static const struct call calls[WAYS] = {{"scramble", scramble, REFUSALS}, {"descramble", descramble, REFUSALS}};

/* What a call should answer: done, with this packet and nothing behind it; or refused, with nothing written. */
static void answers(enum way way, const struct lent *lent, const uint8_t *expected)
{
    number(calls[way].name, calls[way].answer(lent), SLIPGREASE_REPLY_DONE);
    alike(calls[way].name, packet_out, expected, PACKET);
    number(calls[way].name, touched(packet_out + PACKET, 1), 0);
}

static void refuses(enum way way, const struct lent *lent, uint8_t reply)
{
    number(calls[way].name, calls[way].answer(lent), reply);
    number(calls[way].name, written(), 0);
}

/* The example as the last whole blocks of a pipe's packet, behind a field of such a length that so many bytes are left over. No
   other schedule or starting block is one. */
static void example(size_t k, bool odd, uint8_t rest)
{
    uint8_t key[SLIPGREASE_KEY_BYTES], scrambled[PACKET];
    size_t begin = (size_t)(PACKET - EXAMPLE - rest);
    list_all((uint8_t)(0x10 * k + rest));
    read_digits(key, example_key);
    CALL(expand_key, SLIPGREASE_REPLY_DONE, LENT(key), schedule_of(k, odd), SLIPGREASE_SCHEDULE_BYTES);
    read_digits(start_of(k), example_start);

    struct lent lent = lent_of(pids[k], (uint8_t)(rest % 8), (uint8_t)(0x30 | rest), (uint8_t)(begin - 5));
    lent.odd = odd;
    read_digits(packet + begin, example_plain);
    memcpy(scrambled, packet, PACKET);
    scrambled[3] |= odd ? 0xc0 : 0x80;
    read_digits(scrambled + begin, example_cipher);
    answers(THERE, &lent, scrambled);

    uint8_t plain[PACKET];
    memcpy(plain, packet, PACKET);
    memcpy(packet, scrambled, PACKET);
    memset(packet_out, UNTOUCHED, sizeof packet_out);
    answers(BACK, &lent, plain);
}

/* CBC over the whole blocks from a place on, one block after the other: SP 800-38A, 6.2. */
static void chain(enum way way, const uint8_t *from, uint8_t *to, size_t begin, size_t k, bool odd)
{
    const uint8_t *last = start_of(k);
    for (size_t at = begin; at + BLOCK <= PACKET; at += BLOCK) {
        uint8_t block[BLOCK];
        if (way == THERE) {
            for (size_t i = 0; i < BLOCK; i++)
                block[i] = from[at + i] ^ last[i];
            CALL(encrypt, SLIPGREASE_REPLY_DONE, schedule_of(k, odd), SLIPGREASE_SCHEDULE_BYTES, LENT(block), to + at, BLOCK);
            last = to + at;
        } else {
            CALL(decrypt, SLIPGREASE_REPLY_DONE, schedule_of(k, odd), SLIPGREASE_SCHEDULE_BYTES, from + at, BLOCK, LENT(block));
            for (size_t i = 0; i < BLOCK; i++)
                to[at + i] = block[i] ^ last[i];
            last = from + at;
        }
    }
}

/* Where the payload begins under a code with a field of some length, and 0 where the two do not fit. */
static size_t payload_at(unsigned code, unsigned length)
{
    if (code == 1)
        return 4;
    if (code == 2)
        return length == 183 ? PACKET : 0;
    return code == 3 && length <= 182 ? 5 + length : 0;
}

/* A packet of a listed PID, both ways. */
static void field(unsigned code, unsigned length, unsigned bits, bool odd)
{
    size_t begin = payload_at(code, length);
    bool covers = PACKET - begin >= BLOCK;
    for (enum way way = THERE; way < WAYS; way++) {
        struct lent lent = lent_of(pids[LISTED], 5, (uint8_t)(bits << 6 | code << 4 | 9), (uint8_t)length);
        uint8_t expected[PACKET];
        lent.odd = odd;
        memcpy(expected, packet, PACKET);
        if (begin == 0)
            refuses(way, &lent, SLIPGREASE_REPLY_FIELD_WRONG);
        else if (way == THERE ? bits != 0 : bits == 1 || (bits > 1 && !covers))
            refuses(way, &lent, SLIPGREASE_REPLY_BITS_WRONG);
        else {
            if (way == THERE ? covers : bits != 0) {
                chain(way, packet, expected, begin, LISTED, way == THERE ? odd : bits == 3);
                expected[3] = (uint8_t)((way == BACK ? 0 : odd ? 0xc0 : 0x80) | (expected[3] & 0x3f));
            }
            answers(way, &lent, expected);
        }
    }
}

/* One of a PID that is not listed, which is copied whatever its bits, code and length are. */
static void copied(unsigned pid, uint8_t upper, unsigned fourth, unsigned length)
{
    for (enum way way = THERE; way < WAYS; way++) {
        struct lent lent = lent_of(pid, upper, (uint8_t)fourth, (uint8_t)length);
        answers(way, &lent, packet);
    }
}

static bool is_listed(unsigned pid)
{
    for (size_t k = 0; k < SLIPGREASE_PIPES; k++)
        if (pids[k] == pid)
            return true;
    return false;
}

/* A list that is wrong by the PID of one pipe, or not. It is looked at whoever the packet belongs to, before its field and bits. */
static void list(size_t k, unsigned pid, bool taken)
{
    static const uint8_t fourth[] = {0x10, 0x00, 0x50};
    list_different();
    list_pid(k, pid);
    for (enum way way = THERE; way < WAYS; way++)
        for (size_t i = 0; i < sizeof fourth; i++) {
            struct lent lent = lent_of(UNLISTED, 0, fourth[i], 0);
            if (taken) {
                answers(way, &lent, packet);
                continue;
            }
            refuses(way, &lent, SLIPGREASE_REPLY_PIPES_WRONG);
            lent = lent_of(pids[(k + 1) % SLIPGREASE_PIPES], 0, fourth[i], 0);
            refuses(way, &lent, SLIPGREASE_REPLY_PIPES_WRONG);
        }
}

static void lists(void)
{
    static const unsigned edges[] = {0x0000, 0x000f, 0x1fff, 0x2000, 0x2010, 0x8010, 0xffff};
    for (size_t k = 0; k < SLIPGREASE_PIPES; k++) {
        for (size_t i = 0; i < sizeof edges / sizeof edges[0]; i++)
            list(k, edges[i], false);
        for (size_t other = 0; other < SLIPGREASE_PIPES; other++)
            list(k, pids[other], other == k);
        list(k, 0x0011, true);
        list(k, 0x1ffd, true);
    }
}

/* Each of the two packets in each length about its own, and none at all. */
static void lengths(void)
{
    for (enum way way = THERE; way < WAYS; way++)
        for (size_t i = 0; i < 16; i++) {
            struct lent lent = way == THERE ? right_to_scramble() : right_to_descramble();
            struct buffer *both[] = {&lent.packet, &lent.packet_out};
            for (size_t which = 0; which < 2; which++) {
                size_t choice = i >> 2 * which & 3;
                both[which]->length += choice - 1;
                if (choice == 3)
                    *both[which] = (struct buffer){NONE};
            }
            if (lent.packet.length != PACKET || lent.packet_out.length != PACKET)
                refuses(way, &lent, SLIPGREASE_REPLY_PACKET_LENGTH);
        }
}

/* Lists with the schedules of shorter keys. */
static void shorter_lists(void)
{
    for (enum way way = THERE; way < WAYS; way++)
        for (size_t i = C_1; i < C_3; i++) {
            struct lent lent = way == THERE ? right_to_scramble() : right_to_descramble();
            lent.pipes.length = SLIPGREASE_PIPES * (2 + 2 * examples[i].schedule + BLOCK);
            refuses(way, &lent, SLIPGREASE_REPLY_PIPES_WRONG);
        }
}

void packets(void)
{
    for (size_t k = 0; k < SLIPGREASE_PIPES; k++)
        for (uint8_t rest = 0; rest < BLOCK; rest++) {
            example(k, false, rest);
            example(k, true, rest);
        }
    list_different();
    for (unsigned choice = 0; choice < 4 * 4 * 256; choice++) {
        field(choice % 4, choice / 16, choice / 4 % 4, choice / 16 % 2 != 0);
        copied(UNLISTED, 2, choice % 16 << 4 | 3, choice / 16);
    }
    for (unsigned pid = 0; pid < 1 << 13; pid++)
        if (!is_listed(pid))
            copied(pid, (uint8_t)(pid % 8), 0xd0, 0);
    lengths();
    shorter_lists();
    refusals(&calls[THERE], right_to_scramble, written);
    refusals(&calls[BACK], right_to_descramble, written);
    lists();
}
