#include "log.h"
#include "ends.h"
#include "layout.h"
#include "memory.h"

_Static_assert(LOG_BITS + LOG_ROOM / 8 <= LOG_TARGETS, "room for all bits");
_Static_assert(LOG_TARGETS + 8 * LOG_ROOM <= SHELF, "room for all targets");

enum { COUNT_BYTES = 4, FIRST_BIT = 0x80 };

extern u8 log_bits[];
extern u64 log_targets[];

static u64 room, bits, targets;

void log_open(u64 records)
{
    room = records < LOG_ROOM ? records : LOG_ROOM;
}

void log_clear(void)
{
    bits = targets = 0;
}

void log_bit(bool bit)
{
    if (bits == room) refuse("the log of bits is full");
    u8 *byte = &log_bits[bits / 8], set = (u8)(bit ? FIRST_BIT >> bits % 8 : 0);
    *byte = bits % 8 ? *byte | set : set;
    bits++;
}

void log_target(u64 address)
{
    if (targets == room) refuse("the log of targets is full");
    log_targets[targets++] = address;
}

static size_t bytes_of_bits(void)
{
    return (bits + 7) / 8;
}

size_t log_length(void)
{
    return 2 * COUNT_BYTES + bytes_of_bits() + 8 * targets;
}

u8 *log_copy(u8 *at)
{
    at = put_bytes(put_big(at, bits, COUNT_BYTES), log_bits, bytes_of_bits());
    at = put_big(at, targets, COUNT_BYTES);
    for (u64 i = 0; i < targets; i++) at = put_big(at, log_targets[i], 8);
    return at;
}
