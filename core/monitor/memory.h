/* Bytes: copies, and numbers with the high byte first. */
#ifndef MEMORY_H
#define MEMORY_H

#include "words.h"

void *memcpy(void *to, const void *from, size_t length);
void *memset(void *to, int value, size_t length);

/* Zeros a number of bytes that is a multiple of 8. */
void clear(u64 *from, size_t length);

/* Each puts something at an address and answers the one behind it. */
u8 *put_bytes(u8 *at, const void *from, size_t length);
u8 *put_big(u8 *at, u64 value, int bytes);

#endif
