#include "memory.h"

void *memcpy(void *to, const void *from, size_t length)
{
    u8 *at = to;
    const u8 *source = from;
    while (length--) *at++ = *source++;
    return to;
}

void *memset(void *to, int value, size_t length)
{
    u8 *at = to;
    while (length--) *at++ = (u8)value;
    return to;
}

void clear(u64 *from, size_t length)
{
    for (size_t i = 0; i < length / sizeof *from; i++) from[i] = 0;
}

u8 *put_bytes(u8 *at, const void *from, size_t length)
{
    memcpy(at, from, length);
    return at + length;
}

u8 *put_big(u8 *at, u64 value, int bytes)
{
    while (bytes--) *at++ = (u8)(value >> 8 * bytes);
    return at;
}
