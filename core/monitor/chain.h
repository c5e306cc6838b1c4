/* The chain of a window's returns. */
#ifndef CHAIN_H
#define CHAIN_H

#include "sha256.h"

void chain_start(const u8 *head, size_t length);
void chain_absorb(u64 address);
const u8 *chain_digest(void);

#endif
