/* SHA-256. Where the core has instructions for it, it uses them. */
#ifndef SHA256_H
#define SHA256_H

#include "words.h"

enum { DIGEST_BYTES = 32, HASH_BLOCK_BYTES = 64, HASH_WORDS = 8 };

struct sha256_state {
    u32 word[HASH_WORDS];
};

struct sha256 {
    struct sha256_state state;
    u64 length;
    u8 block[HASH_BLOCK_BYTES];
};

/* Says by what digests are made: plain C, also where the core has instructions; it stands before the first digest. */
void sha256_choose(bool plain);

void sha256_start(struct sha256 *hash);
void sha256_add(struct sha256 *hash, const u8 *message, size_t length);
void sha256_finish(struct sha256 *hash, u8 digest[DIGEST_BYTES]);
void sha256(const u8 *message, size_t length, u8 digest[DIGEST_BYTES]);

/* Puts over the first half of a block the digest of the message that fills it together with its padding. Words have the high byte first. */
void sha256_of_block(u32 block[2 * HASH_WORDS]);

#endif
