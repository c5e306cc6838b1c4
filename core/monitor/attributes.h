/* The fields of the page tables' entries and of the registers that choose them. */
#ifndef ATTRIBUTES_H
#define ATTRIBUTES_H

#define TO_TABLE 3
#define NORMAL_BLOCK 0x701   /* valid, accessed, inner shareable, normal memory */
#define NORMAL_PAGE 0x703    /* the same, of a last table */
#define DEVICE_BLOCK 0x405   /* valid, accessed, device memory */
#define FOR_EL0 (1 << 6)     /* EL0 may read it, and write it where it isn't read-only */
#define READ_ONLY (1 << 7)
#define NOT_BY_EL1 0x0020000000000000 /* not to be executed at EL1 */
#define NOT_BY_EL0 0x0040000000000000 /* not to be executed at EL0 */

/* MAIR_EL1: 0 is normal memory, written back; 1 is a device. */
#define MEMORY_KINDS 0x00FF

/* TCR_EL1: 4 GB each for TTBR0 and TTBR1 by pages of 4 KB, written back; no tags in addresses. */
#define TRANSLATION 0xB5203520

/* SCTLR_EL1: the MMU, caches, alignment at both levels, nothing both writable and executable; at EL0 no cache upkeep, no DC ZVA, WFI, WFE or
   masks of interrupts. */
#define CONTROL 0x30D8180F

/* CPACR_EL1: vectors at EL1 alone. */
#define VECTORS_AT_EL1 (1 << 20)

#endif
