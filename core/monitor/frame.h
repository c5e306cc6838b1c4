/* The registers of EL0 that an exception keeps, X0 to X30 in their order. Where the core runs free, only those that C doesn't keep by itself
   and those that a monitor call takes are there: X0 to X3, X9, X10, X16, X17 and X30. */
#ifndef FRAME_H
#define FRAME_H

#define FRAME_BYTES 256

#ifndef __ASSEMBLER__
#include "words.h"

struct frame {
    u64 x[31], filling;
};

_Static_assert(sizeof(struct frame) == FRAME_BYTES, "the frame of the vectors");
#endif

#endif
