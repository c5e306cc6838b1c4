#include "hmac.h"
#include "memory.h"

enum { INNER_MASK = 0x36, OUTER_MASK = 0x5C };

static void start(struct sha256 *hash, const u8 padded[HASH_BLOCK_BYTES], u8 mask)
{
    u8 block[HASH_BLOCK_BYTES];
    for (int i = 0; i < HASH_BLOCK_BYTES; i++) block[i] = padded[i] ^ mask;
    sha256_start(hash);
    sha256_add(hash, block, HASH_BLOCK_BYTES);
}

void hmac_key_set(struct hmac_key *key, const u8 *bytes, size_t length)
{
    u8 padded[HASH_BLOCK_BYTES];
    memset(padded, 0, HASH_BLOCK_BYTES);
    if (length > HASH_BLOCK_BYTES) sha256(bytes, length, padded);
    else memcpy(padded, bytes, length);
    start(&key->inner, padded, INNER_MASK);
    start(&key->outer, padded, OUTER_MASK);
}

void hmac(const struct hmac_key *key, const u8 *message, size_t length, u8 code[DIGEST_BYTES])
{
    struct sha256 hash = key->inner;
    sha256_add(&hash, message, length);
    sha256_finish(&hash, code);
    hash = key->outer;
    sha256_add(&hash, code, DIGEST_BYTES);
    sha256_finish(&hash, code);
}
