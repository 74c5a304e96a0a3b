// Whoever makes the measured calls: the library, its C translation, and the peers that were compiled in.
#ifndef MAKER_H
#define MAKER_H

#include "engine.h"
#include "peer.h"
#include "vectors.h"

// The key data that is wrapped has so many bytes.
enum { MOST_MAKERS = 16, KEY_DATA = 32 };

// One of the two is NULL.
struct maker {
    const char *id;
    const struct engine *engine;
    const struct peer *peer;
};

// Lists them, the library first; gives how many.
size_t list_makers(struct maker makers[MOST_MAKERS]);

// NULL where this machine cannot run it.
const char *maker_name(const struct maker *maker);

// A peer has at most the first three calls, with keys of any length, the plain ones of key wrap and those of packets.
int has_call(const struct maker *maker, enum call call);

// In repeat.c: what a maker needs before its calls are repeated.
void start(const struct maker *maker);

// Makes a call so many times, on the key and block of FIPS 197 C.3, or with C.1's or C.2's key where its name has that length, with
// step 1 and at the record of one offset where its name has no other: a call of many blocks on 256 of it, at all offsets in turn,
// one of key wrap on the 32 bytes of RFC 3394 4.6, and one of packets on eleven blocks, even, in the last pipe of the list; of that
// a peer makes the blocks alone, from the same starting block on.
void repeat(const struct maker *maker, enum call call, long times);

// Holds the peers to FIPS 197 C.1 to C.3, to RFC 3394 4.6 and to SP 800-38A F.2.5. Prints a line for each that is wrong; gives 1
// where none is.
int check_peers(const struct vectors *vectors);

#endif
