// The entry of exceptions. C keeps X4 to X15 and X18 too where it changes them (monitor.flags), so a call keeps few registers here.
#include "frame.h"

        .macro  vector target
        .balign 0x80
        b       \target
        .endm

        .macro  four target
        .rept   4
        vector  \target
        .endr
        .endm

// The first eight are the monitor's own exceptions, the next four those of EL0: synchronous, interrupt, fast interrupt, error.
        .balign 0x800
        .global vectors_free
vectors_free:
        four    own
        four    own
        vector  free
        vector  tick
        vector  own
        vector  own
        four    own

        .balign 0x800
        .global vectors_stepped
vectors_stepped:
        four    own
        four    own
        vector  stepped
        vector  own
        vector  own
        vector  own
        four    own

// Registers that every C function may change, and for a call also those that it takes.
        .macro  few move
        \move\()p x0, x1, [sp]
        \move\()p x2, x3, [sp, #8 * 2]
        \move\()p x16, x17, [sp, #8 * 16]
        \move\()r x30, [sp, #8 * 30]
        .endm

        .macro  all move
        \move\()p x0, x1, [sp, #8 * 0]
        \move\()p x2, x3, [sp, #8 * 2]
        \move\()p x4, x5, [sp, #8 * 4]
        \move\()p x6, x7, [sp, #8 * 6]
        \move\()p x8, x9, [sp, #8 * 8]
        \move\()p x10, x11, [sp, #8 * 10]
        \move\()p x12, x13, [sp, #8 * 12]
        \move\()p x14, x15, [sp, #8 * 14]
        \move\()p x16, x17, [sp, #8 * 16]
        \move\()p x18, x19, [sp, #8 * 18]
        \move\()p x20, x21, [sp, #8 * 20]
        \move\()p x22, x23, [sp, #8 * 22]
        \move\()p x24, x25, [sp, #8 * 24]
        \move\()p x26, x27, [sp, #8 * 26]
        \move\()p x28, x29, [sp, #8 * 28]
        \move\()r x30, [sp, #8 * 30]
        .endm

        .macro  enter
        sub     sp, sp, #FRAME_BYTES
        .endm

        .macro  leave
        add     sp, sp, #FRAME_BYTES
        eret
        .endm

free:   enter
        few     st
        stp     x9, x10, [sp, #8 * 9]
        mov     x0, sp
        bl      on_exception
        few     ld
        leave

tick:   enter
        few     st
        bl      on_tick
        few     ld
        leave

stepped:
        enter
        all     st
        mov     x0, sp
        bl      on_step
        all     ld
        leave

own:    bl      on_own
