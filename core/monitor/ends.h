/* The ends of a run. Each puts its line, the blobs that are sealed and the status, and switches the machine off. */
#ifndef ENDS_H
#define ENDS_H

#include "words.h"

_Noreturn void end_halted(void);
_Noreturn void end_trap(const char *kind, bool attempted); /* by a BRK, which is an attempt, or by a call that was made */
_Noreturn void end_fault(const char *kind, u64 address);
_Noreturn void end_stopped(const char *kind);
_Noreturn void end_steps(void);

/* The monitor's own refusal: a line `refused CAUSE`, without an end, a blob or a status. */
_Noreturn void refuse(const char *cause);

#endif
