// From the machine's reset at EL1 to C, and from there to the first instruction at EL0.
#include "attributes.h"
#include "layout.h"

        .section .boot, "ax"
        .global _start
_start: ldr     x0, =boot_table - HIGH          // for the one step from physical addresses to the monitor's
        msr     ttbr0_el1, x0
        ldr     x0, =monitor_table - HIGH
        msr     ttbr1_el1, x0
        ldr     x0, =MEMORY_KINDS
        msr     mair_el1, x0
        ldr     x0, =TRANSLATION
        msr     tcr_el1, x0
        bl      forget
        ldr     x0, =CONTROL
        msr     sctlr_el1, x0
        isb
        ldr     x0, =1f
        br      x0
1:      ldr     x0, =image_table - HIGH
        msr     ttbr0_el1, x0
        ldr     x0, =forget
        blr     x0
        ldr     x0, =vectors_free
        msr     vbar_el1, x0
        msr     spsel, #1
        ldr     x0, =stack_top
        mov     sp, x0
        ldr     x0, =bss_start
        ldr     x1, =bss_end
2:      cmp     x0, x1
        b.hs    3f
        stp     xzr, xzr, [x0], #16
        b       2b
3:      ldr     x0, =VECTORS_AT_EL1
        msr     cpacr_el1, x0
        msr     cntkctl_el1, xzr                // EL0: no timers,
        msr     pmuserenr_el0, xzr              // no counters
        msr     oslar_el1, xzr                  // steps need the debug registers' lock open
        isb
        bl      boot

        ldr     x0, =STACK_END                  // the start of a run
        msr     sp_el0, x0
        ldr     x0, =CODE
        msr     elr_el1, x0
        .irp    n, 0, 1, 2, 3, 4, 5, 6, 7, 8, 9, 10, 11, 12, 13, 14, 15, 16, 17, 18, 19, 20, 21, 22, 23, 24, 25, 26, 27, 28, 29, 30
        mov     x\n, xzr
        .endr
        eret

forget: isb                                     // what was translated before
        tlbi    vmalle1
        dsb     sy
        isb
        ret
