#include "chain.h"

/* A chained message: the chain before it and an address, 40 bytes. Its padding, which fills the block, stays where it is. */
enum { ADDRESS_AT = HASH_WORDS, MESSAGE_WORDS = ADDRESS_AT + 2, MESSAGE_BITS = 32 * MESSAGE_WORDS };

static u32 message[2 * HASH_WORDS] = {
    [MESSAGE_WORDS] = __builtin_bswap32(0x80000000),
    [2 * HASH_WORDS - 1] = __builtin_bswap32(MESSAGE_BITS),
};

void chain_start(const u8 *head, size_t length)
{
    sha256(head, length, (u8 *)message);
}

void chain_absorb(u64 address)
{
    message[ADDRESS_AT] = __builtin_bswap32((u32)(address >> 32));
    message[ADDRESS_AT + 1] = __builtin_bswap32((u32)address);
    sha256_of_block(message);
}

const u8 *chain_digest(void)
{
    return (const u8 *)message;
}
