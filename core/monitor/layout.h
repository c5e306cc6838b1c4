/* The memory map, for C, assembly, the link script and the host's scripts: physical addresses, and those at EL0. */
#ifndef LAYOUT_H
#define LAYOUT_H

/* The monitor sees each physical address at HIGH more. */
#define HIGH 0xFFFFFFFF00000000

/* The machine's devices. */
#define GIC_DISTRIBUTOR 0x08000000
#define GIC_INTERFACE 0x08010000
#define PORT 0x09000000

/* The machine's memory, by blocks of 2 MB. */
#define RAM 0x40000000
#define BLOCK 0x200000
#define MONITOR_CODE 0x40200000
#define MONITOR_DATA 0x40400000
#define MONITOR_DATA_END 0x40600000
#define IMAGE_CODE 0x40600000
#define IMAGE_GLOBALS 0x40800000
#define IMAGE_STACK 0x40900000
#define LOG_BITS 0x41000000
#define LOG_TARGETS 0x41200000
#define SHELF 0x43200000
#define SHELF_END 0x46000000
#define JOB 0x46000000

/* The regions of an image, as EL0 sees them. */
#define PAGE 0x1000
#define CODE 0x10000
#define CODE_WORDS 131072
#define GLOBALS 0x40000000
#define GLOBALS_BYTES 0x80000
#define STACK 0x7FF00000
#define STACK_BYTES 0x100000
#define STACK_END 0x80000000

#endif
