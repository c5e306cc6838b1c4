/* The logs of a window: the bits of its branches and the targets of its indirect calls. A log that is full refuses the run. */
#ifndef LOG_H
#define LOG_H

#include "words.h"

/* The room for records of each kind that all memory of the logs has. */
#define LOG_ROOM 4194304

void log_open(u64 room);
void log_clear(void);
void log_bit(bool bit);
void log_target(u64 address);

/* How many bytes they have in a blob; and puts them there. */
size_t log_length(void);
u8 *log_copy(u8 *at);

#endif
