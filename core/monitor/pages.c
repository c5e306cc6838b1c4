#include "pages.h"
#include "attributes.h"
#include "layout.h"

enum { CACHE_LINE = 64 };

extern u8 image_code[];
extern u64 monitor_blocks[], code_pages[];

/* The first word of a page that EL0 can only execute: nobody reads it as data but the monitor. */
static u64 code_page(u64 at)
{
    return (at - HIGH) | NORMAL_PAGE | READ_ONLY | NOT_BY_EL1;
}

static void clean(const u8 *from, u64 length)
{
    for (u64 i = 0; i < length; i += CACHE_LINE) __asm__ volatile("dc cvau, %0" : : "r"(from + i) : "memory");
    __asm__ volatile("dsb ish" : : : "memory");
}

static void renew(void)
{
    __asm__ volatile("dsb ish\n tlbi vmalle1\n ic iallu\n dsb ish\n isb" : : : "memory");
}

void pages_give_code(u64 words)
{
    u64 length = 4 * words;
    clean(image_code, length);
    monitor_blocks[(IMAGE_CODE - RAM) / BLOCK] |= READ_ONLY;
    for (u64 i = 0; i < length; i += PAGE) code_pages[(CODE + i) / PAGE] = code_page((u64)image_code + i);
    renew();
}
