/* What the host puts into the machine's memory: a case, and the text of an image. */
#ifndef JOB_H
#define JOB_H

#include "words.h"

enum { KEY_BYTES = 1024, NONCE_BYTES = 16 };

enum option {
    STEPPED = 1, /* each instruction is a step */
    COUNTED = 2, /* what was made is put behind the blobs */
    TRACED = 4,  /* the registers are put before each instruction from number `trace_from` on */
    PLAIN = 8,   /* no instructions for SHA-256 */
};

struct job {
    u64 options, trace_from, log_room, text_length;
    u64 operation, calls, steps, inputs, writes, key_length; /* calls is 0 where the case has no such line */
    u8 key[KEY_BYTES], nonce[NONCE_BYTES];
    u64 rest[]; /* the inputs; the writes, of each its number, address, length and bytes, filled up; the image's text */
};

extern const struct job job;

#endif
