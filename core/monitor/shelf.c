#include "shelf.h"
#include "ends.h"
#include "hmac.h"
#include "layout.h"
#include "log.h"
#include "memory.h"
#include "port.h"

/* The shelf has of each blob its length and then itself. The head of a blob is what stands before its logs, and has at most so many bytes. */
enum { LENGTH_BYTES = 8, MOST_OF_HEAD = 128 };

extern u8 shelf[], shelf_end[];

static u8 *filled = shelf;
static struct hmac_key key;

void shelf_open(const u8 *bytes, size_t length)
{
    hmac_key_set(&key, bytes, length);
}

static u8 *put_violation(u8 *at, const struct violation *violation)
{
    at = put_big(at, violation->stands, 1);
    if (!violation->stands) return at;
    return put_big(put_big(put_big(at, violation->cell, 4), violation->expected, 8), violation->found, 8);
}

static u8 *put_head(u8 *at, const struct opening *opening)
{
    at = put_big(put_bytes(at, "OATB", 4), opening->numbered ? 2 : 1, 1);
    at = put_big(at, opening->operation, 2);
    if (opening->numbered) at = put_big(at, opening->serial, 4);
    return put_bytes(put_bytes(at, opening->nonce, NONCE_BYTES), opening->digest, DIGEST_BYTES);
}

void shelf_seal(const struct opening *opening, const u8 hash[DIGEST_BYTES], const struct violation *violation)
{
    if ((size_t)(shelf_end - filled) < LENGTH_BYTES + MOST_OF_HEAD + log_length() + DIGEST_BYTES) refuse("the shelf of blobs is full");
    u8 *blob = filled + LENGTH_BYTES, *at = put_head(blob, opening);
    at = put_violation(put_bytes(at, hash, DIGEST_BYTES), violation);
    at = log_copy(at);
    hmac(&key, blob, (size_t)(at - blob), at);
    at += DIGEST_BYTES;
    put_big(filled, (u64)(at - blob), LENGTH_BYTES);
    filled = at;
}

static u64 take_length(const u8 **at)
{
    u64 length = 0;
    for (int i = 0; i < LENGTH_BYTES; i++) length = length << 8 | *(*at)++;
    return length;
}

void shelf_put(void)
{
    for (const u8 *at = shelf; at < filled;) {
        u64 length = take_length(&at);
        put("blob ");
        while (length--) put_byte(*at++);
        put("\n");
    }
}
