/* The exceptions of EL0: monitor calls, steps, traps and faults. */
#include "ends.h"
#include "frame.h"
#include "layout.h"
#include "measure.h"
#include "port.h"
#include "probe.h"
#include "registers.h"
#include "steps.h"

enum { LAST_CALL = 9, FIRST_TRAP = 1, LAST_TRAP = 4 };
enum { X0 = 0, X9 = 9, X10 = 10, X30 = 30 };

void inputs_set(const u64 *first, u64 count);
void on_exception(struct frame *frame);
void on_step(struct frame *frame);
_Noreturn void on_own(void);

static const u64 *inputs;
static u64 inputs_left;

void inputs_set(const u64 *first, u64 count)
{
    inputs = first;
    inputs_left = count;
}

/* The address of the SVC of this exception: ELR_EL1 has that of the word behind it. */
static u64 call_address(void)
{
    return get(elr_el1) - 4;
}

static void call_halt(struct frame *frame)
{
    (void)frame;
    end_halted();
}

static void call_begin(struct frame *frame)
{
    measure_begin(frame->x[X9], call_address());
}

static void call_end(struct frame *frame)
{
    measure_end(frame->x[X9]);
}

static void call_bit(struct frame *frame)
{
    measure_bit(frame->x[X9]);
}

static void call_target(struct frame *frame)
{
    measure_target(frame->x[X9]);
}

static void call_return(struct frame *frame)
{
    measure_return(frame->x[X30]);
}

static void call_define(struct frame *frame)
{
    measure_define(frame->x[X9], frame->x[X10]);
}

static void call_use(struct frame *frame)
{
    measure_use(frame->x[X9], frame->x[X10]);
}

static void call_input(struct frame *frame)
{
    if (!inputs_left) end_trap("InputEnd", false);
    frame->x[X0] = *inputs++;
    inputs_left--;
}

static void call_output(struct frame *frame)
{
    put("out ");
    put_signed(frame->x[X0]);
    put("\n");
}

static void (*const monitor_calls[LAST_CALL + 1])(struct frame *) = {
    call_halt, call_begin, call_end, call_bit, call_target, call_return, call_define, call_use, call_input, call_output,
};

static bool is_code(u64 address)
{
    return address % 4 == 0 && CODE <= address && address < CODE + 4 * measured_words();
}

static _Noreturn void end_by_trap(u64 number, u64 at)
{
    static const char *const kinds[] = {"DivZero", "Index", "NullCall", "Depth"};
    if (number < FIRST_TRAP || number > LAST_TRAP) end_fault("Undefined", at);
    end_trap(kinds[number - FIRST_TRAP], true);
}

/* An exception that is no call ends the run. A word behind the code, which is zero in its last page, is no instruction but no code either. */
static _Noreturn void end_by_exception(u64 esr)
{
    u64 at = get(elr_el1);
    switch (CLASS_OF(esr)) {
    case CLASS_SVC: end_fault("Undefined", call_address());
    case CLASS_BRK: end_by_trap(NUMBER_OF(esr), at);
    case CLASS_ACCESS: end_fault("Access", get(far_el1));
    case CLASS_FETCH:
    case CLASS_PC_ALIGNMENT: end_fault("Fetch", at);
    default: end_fault(is_code(at) ? "Undefined" : "Fetch", at);
    }
}

/* Where the core runs free. */
void on_exception(struct frame *frame)
{
    u64 esr = get(esr_el1), number = esr - ESR_OF_SVC_0;
    if (number > LAST_CALL) end_by_exception(esr);
    monitor_calls[number](frame);
}

/* Where it makes steps: the frame has all registers. */
void on_step(struct frame *frame)
{
    u64 esr = get(esr_el1), number = esr - ESR_OF_SVC_0;
    if (number > LAST_CALL && CLASS_OF(esr) != CLASS_STEP) end_by_exception(esr);
    steps_count();
    if (number <= LAST_CALL) {
        probe_call(call_address());
        monitor_calls[number](frame);
    }
    probe_state(frame);
    steps_go_on();
}

/* The monitor's own exception, which no run may come to. */
_Noreturn void on_own(void)
{
    put("own exception ");
    put_hex(get(esr_el1), 8);
    put(" at ");
    put_hex(get(elr_el1), 16);
    put(" by ");
    put_hex(get(far_el1), 16);
    put("\n");
    refuse("the monitor failed");
}
