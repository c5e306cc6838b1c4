/* The serial port, on which the monitor puts its lines. */
#ifndef PORT_H
#define PORT_H

#include "words.h"

void put(const char *text);
void put_byte(u8 byte);              /* two lower-case hexadecimal digits */
void put_hex(u64 value, int digits); /* upper-case ones */
void put_number(u64 value);
void put_signed(u64 value);

/* Switches the machine off. */
_Noreturn void off(void);

#endif
