/* The sealed blobs, which are put at the end of the run. */
#ifndef SHELF_H
#define SHELF_H

#include "measure.h"

void shelf_open(const u8 *key, size_t length);
void shelf_seal(const struct opening *opening, const u8 hash[DIGEST_BYTES], const struct violation *violation);
void shelf_put(void);

#endif
