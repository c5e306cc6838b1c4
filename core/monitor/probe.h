/* What a check or a measure wants to see of a run. A device in use has none of it. */
#ifndef PROBE_H
#define PROBE_H

#include "frame.h"
#include "job.h"

void probe_boot(const struct job *session);

/* A monitor call was made by a step, from this address; the registers, before the next instruction, where they are wanted. */
void probe_call(u64 pc);
void probe_state(const struct frame *frame);

/* The run ends, by an attempt that isn't an instruction of its own or behind one that was made; and what was seen of it. */
void probe_end(bool attempted);
void probe_put(void);

#endif
