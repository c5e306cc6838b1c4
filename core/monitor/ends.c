#include "ends.h"
#include "measure.h"
#include "port.h"
#include "probe.h"
#include "shelf.h"

enum { ALL_SEALED = 0, NO_BLOB = 7 };

static void put_end(const char *text, const char *kind)
{
    put("ended ");
    put(text);
    put(kind);
}

static _Noreturn void finish(void)
{
    put("\n");
    shelf_put();
    probe_put();
    put("status ");
    put_number(measure_is_complete() ? ALL_SEALED : NO_BLOB);
    put("\n");
    off();
}

_Noreturn void end_halted(void)
{
    probe_end(false);
    put_end("halted", "");
    finish();
}

_Noreturn void end_trap(const char *kind, bool attempted)
{
    probe_end(attempted);
    put_end("trap ", kind);
    finish();
}

_Noreturn void end_fault(const char *kind, u64 address)
{
    probe_end(true);
    put_end("fault ", kind);
    put(" ");
    put_hex(address, 16);
    finish();
}

_Noreturn void end_stopped(const char *kind)
{
    probe_end(false);
    put_end("stopped ", kind);
    finish();
}

_Noreturn void end_steps(void)
{
    probe_end(false);
    put_end("steps", "");
    finish();
}

_Noreturn void refuse(const char *cause)
{
    put("refused ");
    put(cause);
    put("\n");
    off();
}
