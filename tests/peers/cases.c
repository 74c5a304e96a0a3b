/*
 * Cases for other implementations: cases KIND SEED COUNT makes cases of a kind from random numbers, of each size COUNT, and holds
 * the library to itself on them. Where it differs from itself, that is said and the program fails. Else there is a line for each
 * case, whose fields are hex digits, and last a line of # and how many cases there are.
 *
 * wrap, key wrap: KEY DATA WRAPPED, with key data of every length; then for each byte of what is wrapped KEY - DAMAGED, in which
 * one bit of that byte is changed.
 *
 * packet, the packet scrambler: PIPES, which is PID, even key, odd key and starting block of each pipe; and for each adaptation
 * code and all scrambling bits PACKET EVEN ODD CLEAR, with this list and a field of one length: what scrambling in either parity
 * and descrambling make of the packet, or as one byte the reply that refuses it. Every length of a field is a size.
 */
#include <slipgrease.h>

#include <stdio.h>
#include <stdlib.h>
#include <string.h>

static uint64_t state;

static uint8_t draw(void)
{
    state = state * 6364136223846793005 + 1442695040888963407;
    return (uint8_t)(state >> 56);
}

static void fill(uint8_t *bytes, size_t length)
{
    for (size_t i = 0; i < length; i++)
        bytes[i] = draw();
}

static void print(const uint8_t *bytes, size_t length, char end)
{
    for (size_t i = 0; i < length; i++)
        printf("%02x", bytes[i]);
    putchar(end);
}

/* A key has its length by its type, so that it is always expanded. */
static void expand(const uint8_t key[SLIPGREASE_KEY_BYTES], uint8_t schedule[SLIPGREASE_SCHEDULE_BYTES])
{
    if (slipgrease_expand_key(key, SLIPGREASE_KEY_BYTES, schedule, SLIPGREASE_SCHEDULE_BYTES) != SLIPGREASE_REPLY_DONE)
        abort();
}

/* The plain engine, and the masked one at each offset. */
enum { PLAIN = 16, ENGINES };

enum { UNTOUCHED = 0x55 };

/* Key data that is wrapped under a key. */
struct wrap {
    uint8_t key[SLIPGREASE_KEY_BYTES], schedule[SLIPGREASE_SCHEDULE_BYTES];
    uint8_t data[SLIPGREASE_KEY_DATA_MAX], wrapped[SLIPGREASE_KEY_DATA_MAX + SLIPGREASE_WRAP_EXTRA];
    size_t data_length, wrapped_length;
};

static uint8_t wrap(const struct wrap *w, int engine, uint8_t *out)
{
    if (engine == PLAIN)
        return slipgrease_wrap(w->schedule, sizeof w->schedule, w->data, w->data_length, out, w->wrapped_length);
    return slipgrease_wrap_masked(
        w->schedule, sizeof w->schedule, w->data, w->data_length, out, w->wrapped_length, (uint8_t)engine);
}

static uint8_t unwrap(const struct wrap *w, int engine, uint8_t *out)
{
    if (engine == PLAIN)
        return slipgrease_unwrap(w->schedule, sizeof w->schedule, w->wrapped, w->wrapped_length, out, w->data_length);
    return slipgrease_unwrap_masked(
        w->schedule, sizeof w->schedule, w->wrapped, w->wrapped_length, out, w->data_length, (uint8_t)engine);
}

static void stop_unless(int holds, const char *what, const struct wrap *w, int engine)
{
    if (holds)
        return;
    fprintf(stderr, "%zu bytes of key data, ", w->data_length);
    if (engine == PLAIN)
        fprintf(stderr, "plain engine: %s\n", what);
    else
        fprintf(stderr, "masked engine at offset %d: %s\n", engine, what);
    exit(1);
}

/* All engines wrap to the same, and unwrap it. */
static void check_whole(struct wrap *w)
{
    uint8_t out[sizeof w->wrapped];
    stop_unless(wrap(w, PLAIN, w->wrapped) == SLIPGREASE_REPLY_DONE, "it is not wrapped", w, PLAIN);
    for (int engine = 0; engine < ENGINES; engine++) {
        memset(out, UNTOUCHED, sizeof out);
        int same = wrap(w, engine, out) == SLIPGREASE_REPLY_DONE && memcmp(out, w->wrapped, w->wrapped_length) == 0;
        stop_unless(same, "another wrap than the plain engine's", w, engine);
        memset(out, UNTOUCHED, sizeof out);
        int back = unwrap(w, engine, out) == SLIPGREASE_REPLY_DONE && memcmp(out, w->data, w->data_length) == 0;
        stop_unless(back, "its wrap does not give it back", w, engine);
    }
}

/* What is damaged is refused, and nothing is written. */
static void check_damaged(const struct wrap *w, int engine)
{
    uint8_t out[sizeof w->data];
    memset(out, UNTOUCHED, sizeof out);
    stop_unless(unwrap(w, engine, out) == SLIPGREASE_REPLY_INTEGRITY, "a damaged wrap is not refused with 18", w, engine);
    for (size_t i = 0; i < sizeof out; i++)
        stop_unless(out[i] == UNTOUCHED, "a damaged wrap is refused, and the buffer has changed", w, engine);
}

/* One bit of each byte is changed in turn, and then changed back. Gives how many damaged wraps there are. */
static unsigned long damage(struct wrap *w)
{
    for (size_t i = 0; i < w->wrapped_length; i++) {
        uint8_t bit = (uint8_t)(1 << draw() % 8);
        w->wrapped[i] ^= bit;
        check_damaged(w, PLAIN);
        check_damaged(w, draw() % 16);
        print(w->key, sizeof w->key, ' ');
        fputs("- ", stdout);
        print(w->wrapped, w->wrapped_length, '\n');
        w->wrapped[i] ^= bit;
    }
    return w->wrapped_length;
}

static void make_wraps(unsigned long count)
{
    unsigned long whole = 0, damaged = 0;
    for (size_t length = SLIPGREASE_KEY_DATA_MIN; length <= SLIPGREASE_KEY_DATA_MAX; length += SLIPGREASE_KEY_DATA_UNIT)
        for (unsigned long i = 0; i < count; i++, whole++) {
            struct wrap w = {.data_length = length, .wrapped_length = length + SLIPGREASE_WRAP_EXTRA};
            fill(w.key, sizeof w.key);
            fill(w.data, length);
            expand(w.key, w.schedule);
            check_whole(&w);
            print(w.key, sizeof w.key, ' ');
            print(w.data, length, ' ');
            print(w.wrapped, w.wrapped_length, '\n');
            damaged += damage(&w);
        }
    printf("# %lu wraps, %lu damaged\n", whole, damaged);
}

enum outcome { CHANGED, COPIED, REFUSED, OUTCOMES };

/* The list of pipes with their keys, as it is printed, and with their schedules. */
struct pipes {
    struct {
        uint8_t pid[2], even[SLIPGREASE_KEY_BYTES], odd[SLIPGREASE_KEY_BYTES], start[SLIPGREASE_BLOCK_BYTES];
    } keys[SLIPGREASE_PIPES];
    uint8_t list[SLIPGREASE_PIPES_BYTES];
};

enum { EVEN_AT = 2, ODD_AT = EVEN_AT + SLIPGREASE_SCHEDULE_BYTES, START_AT = ODD_AT + SLIPGREASE_SCHEDULE_BYTES };

static void draw_pipes(struct pipes *pipes)
{
    fill((uint8_t *)pipes->keys, sizeof pipes->keys);
    for (unsigned k = 0; k < SLIPGREASE_PIPES; k++) {
        uint8_t *pipe = pipes->list + SLIPGREASE_PIPE_BYTES * k;
        /* Different ones, since each leaves another rest by the number of pipes. */
        unsigned pid = 0x0010 + (unsigned)(draw() << 8 | draw()) % 1167 * SLIPGREASE_PIPES + k;
        pipes->keys[k].pid[0] = (uint8_t)(pid >> 8);
        pipes->keys[k].pid[1] = (uint8_t)pid;
        memcpy(pipe, pipes->keys[k].pid, 2);
        expand(pipes->keys[k].even, pipe + EVEN_AT);
        expand(pipes->keys[k].odd, pipe + ODD_AT);
        memcpy(pipe + START_AT, pipes->keys[k].start, SLIPGREASE_BLOCK_BYTES);
    }
}

/* Mostly of a listed PID. Only code 01 has no length behind it. */
static void draw_packet(const struct pipes *pipes, uint8_t *packet, unsigned code, unsigned length, unsigned bits)
{
    fill(packet, SLIPGREASE_PACKET_BYTES);
    packet[0] = 0x47;
    if (draw() % 8 != 0) {
        const uint8_t *pid = pipes->keys[draw() % SLIPGREASE_PIPES].pid;
        packet[1] = (uint8_t)((packet[1] & 0xe0) | pid[0]);
        packet[2] = pid[1];
    }
    packet[3] = (uint8_t)(bits << 6 | code << 4 | (packet[3] & 0x0f));
    if (code != 1)
        packet[4] = (uint8_t)length;
}

static void stop_packet_unless(int holds, const char *what, const uint8_t *packet)
{
    if (holds)
        return;
    fprintf(stderr, "packet %02x%02x%02x%02x%02x..: %s\n", packet[0], packet[1], packet[2], packet[3], packet[4], what);
    exit(1);
}

enum way { SCRAMBLED_EVEN, SCRAMBLED_ODD, DESCRAMBLED, WAYS };

static uint8_t send(enum way way, const uint8_t *list, const uint8_t *packet, uint8_t *out)
{
    if (way == DESCRAMBLED)
        return slipgrease_descramble(packet, SLIPGREASE_PACKET_BYTES, out, SLIPGREASE_PACKET_BYTES, list, SLIPGREASE_PIPES_BYTES);
    return slipgrease_scramble(
        packet, SLIPGREASE_PACKET_BYTES, out, SLIPGREASE_PACKET_BYTES, list, SLIPGREASE_PIPES_BYTES, way == SCRAMBLED_ODD);
}

/* The same list, with all that pipes of other PIDs have behind them inverted. */
static void invert_others(const struct pipes *pipes, const uint8_t *packet, uint8_t *list)
{
    memcpy(list, pipes->list, SLIPGREASE_PIPES_BYTES);
    for (unsigned k = 0; k < SLIPGREASE_PIPES; k++) {
        uint8_t *pipe = list + SLIPGREASE_PIPE_BYTES * k;
        for (unsigned i = EVEN_AT; i < SLIPGREASE_PIPE_BYTES; i++)
            if (pipe[0] != (packet[1] & 0x1f) || pipe[1] != packet[2])
                pipe[i] ^= 0xff;
    }
}

/* One outcome: nothing is written by a refusal, what is scrambled comes back, and other pipes play no part. */
static enum outcome check_sent(enum way way, const struct pipes *pipes, const uint8_t *packet, char end)
{
    uint8_t out[SLIPGREASE_PACKET_BYTES], again[SLIPGREASE_PACKET_BYTES], others[SLIPGREASE_PIPES_BYTES];
    memset(out, UNTOUCHED, sizeof out);
    memset(again, UNTOUCHED, sizeof again);
    uint8_t reply = send(way, pipes->list, packet, out);
    invert_others(pipes, packet, others);
    int same = send(way, others, packet, again) == reply && memcmp(again, out, sizeof out) == 0;
    stop_packet_unless(same, "what other pipes have plays a part", packet);
    if (reply != SLIPGREASE_REPLY_DONE) {
        for (size_t i = 0; i < sizeof out; i++)
            stop_packet_unless(out[i] == UNTOUCHED, "it is refused, and the buffer has changed", packet);
        print(&reply, 1, end);
        return REFUSED;
    }
    if (way != DESCRAMBLED) {
        int back = send(DESCRAMBLED, pipes->list, out, again) == SLIPGREASE_REPLY_DONE && memcmp(again, packet, sizeof again) == 0;
        stop_packet_unless(back, "it is scrambled, and does not come back", packet);
    }
    print(out, sizeof out, end);
    return memcmp(out, packet, sizeof out) == 0 ? COPIED : CHANGED;
}

static void make_packets(unsigned long count)
{
    unsigned long counts[OUTCOMES] = {0, 0, 0};
    for (unsigned length = 0; length < 256; length++)
        for (unsigned long i = 0; i < count; i++) {
            struct pipes pipes;
            draw_pipes(&pipes);
            print((const uint8_t *)pipes.keys, sizeof pipes.keys, '\n');
            for (unsigned header = 0; header < 4 * 4; header++) {
                uint8_t packet[SLIPGREASE_PACKET_BYTES];
                draw_packet(&pipes, packet, header / 4, length, header % 4);
                print(packet, sizeof packet, ' ');
                for (enum way way = 0; way < WAYS; way++)
                    counts[check_sent(way, &pipes, packet, way + 1 < WAYS ? ' ' : '\n')]++;
            }
        }
    printf("# %lu changed, %lu copied, %lu refused\n", counts[CHANGED], counts[COPIED], counts[REFUSED]);
}

static const struct kind {
    const char *name;
    void (*make)(unsigned long count);
} kinds[] = {
    {"wrap", make_wraps},
    {"packet", make_packets},
};

int main(int count, char **words)
{
    unsigned long of_each = count == 4 ? strtoul(words[3], NULL, 10) : 0;
    for (size_t i = 0; of_each > 0 && i < sizeof kinds / sizeof kinds[0]; i++)
        if (strcmp(words[1], kinds[i].name) == 0) {
            state = strtoull(words[2], NULL, 10);
            kinds[i].make(of_each);
            return 0;
        }
    fputs("usage: cases KIND SEED COUNT, where KIND is wrap or packet and COUNT is not 0\n", stderr);
    return 2;
}
