#include "steps.h"
#include "ends.h"
#include "layout.h"
#include "memory.h"
#include "registers.h"

/* Far from the next stop the core runs free: a counter counts its instructions, and the timer ticks before the stop. From MARGIN instructions
   before it each is a step. The tick comes at least GUARD instructions before the stop, since the core makes at most PER_TICK in a tick. */
enum { MARGIN = 1024, GUARD = 64, PER_TICK = 16 };

/* A write of the case, as the job has it. */
struct write {
    u64 number, address, length;
    u8 bytes[];
};

/* The registers of the interrupt controller, by words. */
enum { DISTRIBUTOR_ON = 0, ENABLED = 0x100 / 4, INTERFACE_ON = 0, PRIORITY = 1, ACKNOWLEDGE = 3, DONE = 4 };
enum { ALL_PRIORITIES = 0xFF };

static volatile u32 *const distributor = (volatile u32 *)(HIGH + GIC_DISTRIBUTOR);
static volatile u32 *const interface = (volatile u32 *)(HIGH + GIC_INTERFACE);

extern u8 image_globals[], image_stack[];
extern const u8 vectors_free[], vectors_stepped[];

static enum { UNDECIDED, FREE, STEPS } mode;
static const struct write *write;
static u64 writes_left, limit, made, stop_at;
static bool may_run_free;

void on_tick(void);

static bool counts_instructions(void)
{
    return get(pmceid0_el0) >> EVENT_INST_RETIRED & 1;
}

static const struct write *behind(const struct write *one)
{
    return (const struct write *)(one->bytes + (one->length + 7) / 8 * 8);
}

static void start_counters(void)
{
    set(pmevtyper0_el0, EVENT_INST_RETIRED | AT_EL0_ALONE); /* towards the next stop */
    set(pmevtyper1_el0, EVENT_INST_RETIRED | AT_EL1_ALONE); /* the monitor's, for a measure */
    set(pmcntenset_el0, COUNTERS_USED);
    set(pmcr_el0, PMCR_ENABLE_RESET);
}

static void start_interrupts(void)
{
    distributor[ENABLED] = 1u << TIMER_INTERRUPT;
    distributor[DISTRIBUTOR_ON] = 1;
    interface[PRIORITY] = ALL_PRIORITIES;
    interface[INTERFACE_ON] = 1;
}

const u64 *steps_boot(const struct job *session, const u64 *writes)
{
    write = (const struct write *)writes;
    writes_left = session->writes;
    limit = session->steps;
    may_run_free = !(session->options & STEPPED) && counts_instructions();
    for (u64 i = 0; i < writes_left; i++) writes = (const u64 *)behind((const struct write *)writes);
    return writes;
}

void steps_start(void)
{
    start_interrupts();
    start_counters();
    set(spsr_el1, SPSR_START);
    steps_go_on();
}

u64 steps_made(bool attempted)
{
    if (mode == FREE) made = stop_at + (u64)(int32_t)get(pmevcntr0_el0);
    return made + attempted;
}

void steps_count(void)
{
    made++;
}

/* Where the monitor sees a byte of data memory; that a write lies there was made sure of the case. */
static u8 *data_at(u64 address)
{
    return address < STACK ? image_globals + (address - GLOBALS) : image_stack + (address - STACK);
}

static void make_writes(void)
{
    for (; writes_left && write->number == made; writes_left--) {
        memcpy(data_at(write->address), write->bytes, write->length);
        write = behind(write);
    }
}

static u64 next_stop(void)
{
    return writes_left && write->number < limit ? write->number : limit;
}

static void run_free(u64 stop)
{
    stop_at = stop;
    set(pmevcntr0_el0, (u32)(made - stop));
    set(cntv_tval_el0, (stop - GUARD - made) / PER_TICK);
    set(cntv_ctl_el0, TIMER_ON);
    if (mode == FREE) return;
    set(mdscr_el1, MDSCR_NO_CHANNEL);
    set(vbar_el1, vectors_free);
    set(spsr_el1, get(spsr_el1) & ~SPSR_STEP);
    mode = FREE;
}

static void step(void)
{
    if (mode != STEPS) {
        set(cntv_ctl_el0, 0);
        set(mdscr_el1, MDSCR_NO_CHANNEL | MDSCR_STEPS);
        set(vbar_el1, vectors_stepped);
        mode = STEPS;
    }
    set(spsr_el1, get(spsr_el1) | SPSR_STEP);
}

void steps_go_on(void)
{
    make_writes();
    if (made == limit) end_steps();
    u64 stop = next_stop();
    if (may_run_free && stop - made > MARGIN) run_free(stop);
    else step();
}

/* The timer's interrupt: the margin isn't used up yet. */
void on_tick(void)
{
    u32 number = interface[ACKNOWLEDGE];
    set(cntv_ctl_el0, 0);
    interface[DONE] = number;
    steps_made(false);
    steps_go_on();
}
