/* The image's text, of which code, data and cells are taken, and the digest made. */
#ifndef IMAGE_H
#define IMAGE_H

#include "sha256.h"

enum { CELLS = 65536 };

struct image {
    u64 words;    /* of its code */
    u64 begin_at; /* the address of the SVC in the operation's Begin group */
    u64 cells;
    u8 digest[DIGEST_BYTES];
};

/* Hashes a text, puts its code and data into the image's memory, and the first words of its cells. A text that isn't spelled as an image,
   or has no such operation, is refused. */
struct image read_image(const u8 *text, size_t length, u64 operation, u64 cells[CELLS]);

#endif
