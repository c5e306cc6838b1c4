#include "sha256.h"
#include "memory.h"
#include "registers.h"

/* Where the length of a message stands in its last block. */
enum { LENGTH_AT = HASH_BLOCK_BYTES - 8, ROUNDS = 64, GIVEN = 16 };

static const struct sha256_state first_state = {
    {0x6A09E667, 0xBB67AE85, 0x3C6EF372, 0xA54FF53A, 0x510E527F, 0x9B05688C, 0x1F83D9AB, 0x5BE0CD19},
};

/* For both ways of making a digest. */
extern const u32 sha256_constants[ROUNDS];
const u32 sha256_constants[ROUNDS] __attribute__((aligned(16))) = {
    0x428A2F98, 0x71374491, 0xB5C0FBCF, 0xE9B5DBA5, 0x3956C25B, 0x59F111F1, 0x923F82A4, 0xAB1C5ED5, 0xD807AA98, 0x12835B01, 0x243185BE,
    0x550C7DC3, 0x72BE5D74, 0x80DEB1FE, 0x9BDC06A7, 0xC19BF174, 0xE49B69C1, 0xEFBE4786, 0x0FC19DC6, 0x240CA1CC, 0x2DE92C6F, 0x4A7484AA,
    0x5CB0A9DC, 0x76F988DA, 0x983E5152, 0xA831C66D, 0xB00327C8, 0xBF597FC7, 0xC6E00BF3, 0xD5A79147, 0x06CA6351, 0x14292967, 0x27B70A85,
    0x2E1B2138, 0x4D2C6DFC, 0x53380D13, 0x650A7354, 0x766A0ABB, 0x81C2C92E, 0x92722C85, 0xA2BFE8A1, 0xA81A664B, 0xC24B8B70, 0xC76C51A3,
    0xD192E819, 0xD6990624, 0xF40E3585, 0x106AA070, 0x19A4C116, 0x1E376C08, 0x2748774C, 0x34B0BCB5, 0x391C0CB3, 0x4ED8AA4A, 0x5B9CCA4F,
    0x682E6FF3, 0x748F82EE, 0x78A5636F, 0x84C87814, 0x8CC70208, 0x90BEFFFA, 0xA4506CEB, 0xBEF9A3F7, 0xC67178F2,
};

static bool by_instructions;

/* In sha256_core.S: by the core's instructions. */
void sha256_compress_core(struct sha256_state *state, const u8 *block);

static u32 turned(u32 x, int bits)
{
    return x >> bits | x << (32 - bits);
}

static u32 big_word(const u8 *at)
{
    return (u32)at[0] << 24 | (u32)at[1] << 16 | (u32)at[2] << 8 | at[3];
}

static void schedule(u32 w[ROUNDS], const u8 *block)
{
    for (int i = 0; i < GIVEN; i++) w[i] = big_word(block + 4 * i);
    for (int i = GIVEN; i < ROUNDS; i++) {
        u32 a = w[i - 15], b = w[i - 2];
        u32 s0 = turned(a, 7) ^ turned(a, 18) ^ a >> 3;
        u32 s1 = turned(b, 17) ^ turned(b, 19) ^ b >> 10;
        w[i] = w[i - 16] + s0 + w[i - 7] + s1;
    }
}

static void compress_plain(struct sha256_state *state, const u8 *block)
{
    u32 w[ROUNDS];
    u32 *s = state->word, a = s[0], b = s[1], c = s[2], d = s[3], e = s[4], f = s[5], g = s[6], h = s[7];
    schedule(w, block);
    for (int i = 0; i < ROUNDS; i++) {
        u32 t1 = h + (turned(e, 6) ^ turned(e, 11) ^ turned(e, 25)) + ((e & f) ^ (~e & g)) + sha256_constants[i] + w[i];
        u32 t2 = (turned(a, 2) ^ turned(a, 13) ^ turned(a, 22)) + ((a & b) ^ (a & c) ^ (b & c));
        h = g, g = f, f = e, e = d + t1, d = c, c = b, b = a, a = t1 + t2;
    }
    s[0] += a, s[1] += b, s[2] += c, s[3] += d, s[4] += e, s[5] += f, s[6] += g, s[7] += h;
}

static void compress(struct sha256_state *state, const u8 *block)
{
    if (by_instructions) sha256_compress_core(state, block);
    else compress_plain(state, block);
}

static void put_state(const struct sha256_state *state, u8 *digest)
{
    for (int i = 0; i < HASH_WORDS; i++) digest = put_big(digest, state->word[i], 4);
}

void sha256_choose(bool plain)
{
    by_instructions = !plain && HAS_SHA256(get(id_aa64isar0_el1));
}

void sha256_start(struct sha256 *hash)
{
    hash->state = first_state;
    hash->length = 0;
}

void sha256_add(struct sha256 *hash, const u8 *message, size_t length)
{
    while (length) {
        size_t filled = hash->length % HASH_BLOCK_BYTES, taken = HASH_BLOCK_BYTES - filled;
        if (taken > length) taken = length;
        if (taken == HASH_BLOCK_BYTES) {
            compress(&hash->state, message);
        } else {
            memcpy(hash->block + filled, message, taken);
            if (filled + taken == HASH_BLOCK_BYTES) compress(&hash->state, hash->block);
        }
        message += taken, length -= taken, hash->length += taken;
    }
}

void sha256_finish(struct sha256 *hash, u8 digest[DIGEST_BYTES])
{
    size_t filled = hash->length % HASH_BLOCK_BYTES;
    hash->block[filled++] = 0x80;
    if (filled > LENGTH_AT) {
        memset(hash->block + filled, 0, HASH_BLOCK_BYTES - filled);
        compress(&hash->state, hash->block);
        filled = 0;
    }
    memset(hash->block + filled, 0, LENGTH_AT - filled);
    put_big(hash->block + LENGTH_AT, 8 * hash->length, 8);
    compress(&hash->state, hash->block);
    put_state(&hash->state, digest);
}

void sha256(const u8 *message, size_t length, u8 digest[DIGEST_BYTES])
{
    struct sha256 hash;
    sha256_start(&hash);
    sha256_add(&hash, message, length);
    sha256_finish(&hash, digest);
}

void sha256_of_block(u32 block[2 * HASH_WORDS])
{
    struct sha256_state state = first_state;
    compress(&state, (const u8 *)block);
    for (int i = 0; i < HASH_WORDS; i++) block[i] = __builtin_bswap32(state.word[i]);
}
