#include "probe.h"
#include "layout.h"
#include "port.h"
#include "registers.h"
#include "steps.h"

enum { REGISTERS = 31, DIGITS = 16, FLAGS_AT = 28 };

static u64 options, trace_from, made, of_monitor;
static u32 calls[CODE_WORDS]; /* from each word of the code, in steps */

void probe_boot(const struct job *session)
{
    options = session->options;
    trace_from = session->trace_from;
}

void probe_call(u64 pc)
{
    calls[(pc - CODE) / 4]++;
}

static void put_register(u64 value)
{
    put(" ");
    put_hex(value, DIGITS);
}

/* Number, PC, SP, flags, X0 to X30. */
void probe_state(const struct frame *frame)
{
    u64 number = steps_made(false);
    if (!(options & TRACED) || number < trace_from) return;
    put("state ");
    put_number(number);
    put_register(get(elr_el1));
    put_register(get(sp_el0));
    put(" ");
    put_hex(get(spsr_el1) >> FLAGS_AT, 1);
    for (int i = 0; i < REGISTERS; i++) put_register(frame->x[i]);
    put("\n");
}

void probe_end(bool attempted)
{
    of_monitor = get(pmevcntr1_el0);
    made = steps_made(attempted);
}

static void put_counts(void)
{
    put("made ");
    put_number(made);
    put(" monitor ");
    put_number(of_monitor);
    put("\n");
}

static void put_calls(u64 word)
{
    put("calls ");
    put_number(word);
    put(" ");
    put_number(calls[word]);
    put("\n");
}

void probe_put(void)
{
    if (!(options & COUNTED)) return;
    put_counts();
    for (u64 i = 0; i < CODE_WORDS; i++) {
        if (calls[i]) put_calls(i);
    }
}
