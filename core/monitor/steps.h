/* The instructions of EL0: their number, the writes of the case between them, and their limit. */
#ifndef STEPS_H
#define STEPS_H

#include "frame.h"
#include "job.h"

/* Takes the writes that lie there, and answers what lies behind them; then the counters start, and the run begins. */
const u64 *steps_boot(const struct job *session, const u64 *writes);
void steps_start(void);

/* How many instructions were made; an attempt that ends the run is one that the counter doesn't count. */
u64 steps_made(bool attempted);

/* One instruction was made by a step. */
void steps_count(void);

/* What comes before the next instruction: its writes, the end of the steps, and how far the core may run. */
void steps_go_on(void);

#endif
