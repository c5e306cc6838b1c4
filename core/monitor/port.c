#include "port.h"
#include "layout.h"

/* The registers of a PL011, by words, and a flag. */
enum { DATA = 0, FLAGS = 6 };
#define IS_FULL 0x20u
#define PSCI_SYSTEM_OFF 0x84000008u

static volatile u32 *const port = (volatile u32 *)(HIGH + PORT);

static void put_char(char c)
{
    while (port[FLAGS] & IS_FULL) {}
    port[DATA] = (u8)c;
}

void put(const char *text)
{
    while (*text) put_char(*text++);
}

void put_byte(u8 byte)
{
    static const char digits[] = "0123456789abcdef";
    put_char(digits[byte >> 4]);
    put_char(digits[byte & 0xF]);
}

void put_hex(u64 value, int digits)
{
    while (digits--) put_char("0123456789ABCDEF"[value >> 4 * digits & 0xF]);
}

void put_number(u64 value)
{
    if (value > 9) put_number(value / 10);
    put_char((char)('0' + value % 10));
}

void put_signed(u64 value)
{
    if (value >> 63) put_char('-');
    put_number(value >> 63 ? -value : value);
}

_Noreturn void off(void)
{
    register u64 x0 __asm__("x0") = PSCI_SYSTEM_OFF;
    __asm__ volatile("hvc #0" : "+r"(x0));
    for (;;) {}
}
