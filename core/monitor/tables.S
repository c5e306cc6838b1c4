// The page tables. EL0's addresses are those of TTBR0, the monitor's those of TTBR1; a table has 512 entries, the first of each two.
#include "attributes.h"
#include "layout.h"

        .macro  table name
        .quad   \name - HIGH + TO_TABLE
        .endm

        .macro  none count
        .fill   \count, 8, 0
        .endm

// So many pages or blocks from an address, each of this size.
        .macro  span from, count, size, attributes
        .set    at, \from
        .rept   \count
        .quad   at + \attributes
        .set    at, at + \size
        .endr
        .endm

        .data
        .balign PAGE
boot_table:                                     // 4 entries of 1 GB, of which the boot needs one
        .global boot_table
        none    1
        .quad   RAM + NORMAL_BLOCK + READ_ONLY
        none    2

        .balign PAGE
        .global monitor_table
monitor_table:                                  // 4 entries of 1 GB: the devices, the memory
        .quad   DEVICE_BLOCK + NOT_BY_EL1 + NOT_BY_EL0
        table   monitor_blocks
        none    2

        .balign PAGE
        .global image_table
image_table:                                    // 4 entries of 1 GB
        table   code_table
        table   data_table
        none    2

        .balign PAGE
        .global monitor_blocks
monitor_blocks:                                 // blocks of 2 MB from RAM: none, the monitor's code, and what it may write
        none    1
        .quad   MONITOR_CODE + NORMAL_BLOCK + READ_ONLY + NOT_BY_EL0
        span    MONITOR_DATA, 62, BLOCK, NORMAL_BLOCK + NOT_BY_EL1 + NOT_BY_EL0
        none    448

        .balign PAGE
code_table:                                     // blocks of 2 MB from 0
        table   code_pages
        none    511

        .global code_pages
code_pages:                                     // pages of 4 KB from 0, which pages.c gives
        none    512

data_table:                                     // blocks of 2 MB from GLOBALS: the first has the global data, the last the stack
        table   globals_pages
        none    510
        table   stack_pages

globals_pages:
        span    IMAGE_GLOBALS, GLOBALS_BYTES / PAGE, PAGE, NORMAL_PAGE + FOR_EL0 + NOT_BY_EL1 + NOT_BY_EL0
        none    512 - GLOBALS_BYTES / PAGE

stack_pages:                                    // the last pages below STACK_END
        none    512 - STACK_BYTES / PAGE
        span    IMAGE_STACK, STACK_BYTES / PAGE, PAGE, NORMAL_PAGE + FOR_EL0 + NOT_BY_EL1 + NOT_BY_EL0
