/* The page tables: most of them stand in tables.S as they are. */
#ifndef PAGES_H
#define PAGES_H

#include "words.h"

/* Gives the image its code, by whole pages: EL0 may execute it, and from here on the monitor can't write it either. */
void pages_give_code(u64 words);

#endif
