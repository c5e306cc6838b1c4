/* The measurement of a session's windows: its three states, and what each monitor call does in them. */
#ifndef MEASURE_H
#define MEASURE_H

#include "image.h"
#include "job.h"

/* What the windows of a session are opened for, and the number of the present one. */
struct opening {
    u64 operation, begin_at;
    u8 nonce[NONCE_BYTES], digest[DIGEST_BYTES];
    bool numbered;
    u64 serial, calls;
};

/* The first checked use of a window that found another value than its cell's. */
struct violation {
    bool stands;
    u64 cell, expected, found;
};

void measure_boot(const struct job *session, const u8 *text);
u64 measured_words(void); /* of the image's code */
bool measure_is_complete(void);

void measure_begin(u64 operation, u64 at);
void measure_end(u64 operation);
void measure_bit(u64 value);
void measure_target(u64 address);
void measure_return(u64 address);
void measure_define(u64 cell, u64 value);
void measure_use(u64 cell, u64 value);

#endif
