// The makers, and the check of the peers.
#include "maker.h"

#include <stdio.h>
#include <string.h>

static const struct peer *const peers[] = {
#ifdef WITH_OPENSSL
    openssl_peers,
#endif
#ifdef WITH_NETTLE
    nettle_peers,
#endif
#ifdef WITH_BEARSSL
    bearssl_peers,
#endif
    NULL,
};

size_t list_makers(struct maker makers[MOST_MAKERS])
{
    size_t count = 0;
    makers[count++] = (struct maker){"ours", &library, NULL};
    makers[count++] = (struct maker){"c", &translation, NULL};
    for (size_t i = 0; peers[i] != NULL; i++)
        for (const struct peer *peer = peers[i]; peer->id != NULL; peer++)
            makers[count++] = (struct maker){peer->id, NULL, peer};
    return count;
}

const char *maker_name(const struct maker *maker)
{
    return maker->engine != NULL ? maker->engine->name : maker->peer->name();
}

int has_call(const struct maker *maker, enum call call)
{
    const struct peer *peer = maker->peer;
    if (peer == NULL || call <= DECRYPT || (call >= EXPAND_KEY_16 && call <= DECRYPT_24))
        return peer == NULL || peer->encrypt[0] != NULL;
    if (call == WRAP || call == UNWRAP)
        return peer->wrap != NULL;
    return (call == SCRAMBLE || call == DESCRAMBLE) && peer->chain != NULL;
}

// It is started with another key, so that a key expansion that does nothing shows.
static int right_blocks(const struct peer *peer, const struct vectors *vectors, size_t i)
{
    const uint8_t *plain = vectors->block[0].plain, *cipher = vectors->length[i].cipher;
    uint8_t there[BLOCK_BYTES] = {0}, back[BLOCK_BYTES] = {0};
    peer->start(vectors->key);
    peer->expand_key[i](vectors->block[0].key);
    peer->encrypt[i](plain, there);
    peer->start(vectors->block[0].key);
    peer->decrypt[i](cipher, back);
    return memcmp(there, cipher, BLOCK_BYTES) == 0 && memcmp(back, plain, BLOCK_BYTES) == 0;
}

static int right_wraps(const struct peer *peer, const struct vectors *vectors)
{
    const uint8_t *data = vectors->wrap[WRAPS - 1].data, *wrapped = vectors->wrap[WRAPS - 1].wrapped;
    uint8_t there[KEY_DATA + WRAP_EXTRA] = {0}, back[KEY_DATA] = {0};
    peer->start(vectors->block[0].key);
    peer->wrap(data, there);
    peer->unwrap(there, back);
    return memcmp(there, wrapped, sizeof there) == 0 && memcmp(back, data, sizeof back) == 0;
}

static int right_chains(const struct peer *peer, const struct vectors *vectors)
{
    uint8_t there[CHAIN] = {0}, back[CHAIN] = {0};
    peer->start(vectors->chain.key);
    peer->chain(vectors->chain.start, vectors->chain.plain, CHAIN, there);
    peer->unchain(vectors->chain.start, vectors->chain.cipher, CHAIN, back);
    return memcmp(there, vectors->chain.cipher, CHAIN) == 0 && memcmp(back, vectors->chain.plain, CHAIN) == 0;
}

// Where a peer is wrong, if it is.
static const char *wrong_at(const struct peer *peer, const struct vectors *vectors)
{
    static const char *const examples[KEY_LENGTHS] = {"FIPS 197 C.1", "FIPS 197 C.2", "FIPS 197 C.3"};
    for (size_t i = 0; i < KEY_LENGTHS; i++)
        if (peer->encrypt[i] != NULL && !right_blocks(peer, vectors, i))
            return examples[i];
    if (peer->wrap != NULL && !right_wraps(peer, vectors))
        return "RFC 3394 4.6";
    return peer->chain != NULL && !right_chains(peer, vectors) ? "SP 800-38A F.2.5" : NULL;
}

int check_peers(const struct vectors *vectors)
{
    struct maker makers[MOST_MAKERS];
    size_t count = list_makers(makers);
    int faults = 0;
    for (size_t i = 0; i < count; i++) {
        const char *name = maker_name(&makers[i]);
        const char *where = makers[i].peer != NULL && name != NULL ? wrong_at(makers[i].peer, vectors) : NULL;
        if (where != NULL) {
            printf("%s is wrong at %s\n", name, where);
            faults++;
        }
    }
    return faults == 0;
}
