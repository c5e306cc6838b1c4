/* The core's system registers, and those of their fields that the monitor names. */
#ifndef REGISTERS_H
#define REGISTERS_H

#include "words.h"

#define get(name) ({ u64 value_; __asm__ volatile("mrs %0, " #name : "=r"(value_)); value_; })
#define set(name, value) __asm__ volatile("msr " #name ", %0\n isb" : : "r"((u64)(value)) : "memory")

/* ESR_EL1: why an exception came. */
#define CLASS_OF(esr) ((esr) >> 26)
#define NUMBER_OF(esr) ((esr) & 0xFFFF)
#define ESR_OF_SVC_0 0x56000000u
enum exception_class {
    CLASS_SVC = 0x15,
    CLASS_FETCH = 0x20,
    CLASS_PC_ALIGNMENT = 0x22,
    CLASS_ACCESS = 0x24,
    CLASS_STEP = 0x32,
    CLASS_BRK = 0x3C,
};

/* SPSR_EL1: at EL0 with the flags clear, and only the interrupts of the timer; whether a step is made. */
#define SPSR_START 0x340
#define SPSR_STEP (1ull << 21)

/* MDSCR_EL1: steps, and no debug channel at EL0. */
#define MDSCR_STEPS (1ull << 0)
#define MDSCR_NO_CHANNEL (1ull << 12)

/* The performance counters. The numbers say which event counts and at which level. */
#define EVENT_INST_RETIRED 0x08
#define AT_EL0_ALONE (1ull << 31)
#define AT_EL1_ALONE (1ull << 30)
#define COUNTERS_USED 0x3
#define PMCR_ENABLE_RESET 0x3

/* The virtual timer. */
#define TIMER_ON 1
#define TIMER_INTERRUPT 27

/* ID_AA64ISAR0_EL1: whether there are instructions for SHA-256. */
#define HAS_SHA256(isar0) (((isar0) >> 12 & 0xF) != 0)

#endif
