/* HMAC-SHA-256. */
#ifndef HMAC_H
#define HMAC_H

#include "sha256.h"

/* What a key leaves of both hashes behind their first blocks. */
struct hmac_key {
    struct sha256 inner, outer;
};

void hmac_key_set(struct hmac_key *key, const u8 *bytes, size_t length);
void hmac(const struct hmac_key *key, const u8 *message, size_t length, u8 code[DIGEST_BYTES]);

#endif
