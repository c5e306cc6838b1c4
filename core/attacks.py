"""Attacks on the monitor by code at EL0, with instructions among them that no image may have, and how each has to end.

Each stands in a window that is open, and is tried where the core runs free and by steps. What each needs is refused by the page tables or by
the exception levels; WEAKER has monitors that lack one of these, and the attacks that notice it."""

import os
import subprocess
import tempfile

from device import case_text, image_text
from forms import CODE, encode

ACCESS, FETCH, UNDEFINED = "fault Access", "fault Fetch", "fault Undefined"
MONITOR, DATA, JOB = 0xFFFFFFFF40200000, 0xFFFFFFFF40400000, 0xFFFFFFFF46000000
SEPARATOR = 0xDEADBEEF
PLACES = {
    "the monitor's code": MONITOR, "the monitor's data": DATA, "its data by the physical address": 0x40400000, "the job": JOB,
    "the image's code": CODE, "the code by the monitor's address": 0xFFFFFFFF40600000, "the data by the monitor's address": 0xFFFFFFFF40800000,
    "the port": 0x09000000, "below global data": 0x3FFFFFF8, "behind global data": 0x40080000, "below the stack": 0x7FEFFFF8,
    "behind the stack": 0x80000000, "a tagged address": 0x0100000040000000, "4 GB above": 0x140000000, "the last word": 0xFFFFFFFFFFFFFFF8,
}
CROSSINGS = {
    "the start of global data": 0x3FFFFFFC, "the end of global data": 0x4007FFFC, "the start of the stack": 0x7FEFFFFC,
    "the end of the stack": 0x7FFFFFFC, "two pages": 0x40000FFC, "no bound, unaligned": 0x40000001,
}
CALLED = {
    "global data": 0x40000000, "the stack": 0x7FFFFFF0, "the monitor": MONITOR, "its vectors": MONITOR + 0x800, "the page behind the code": 0x11000,
    "behind the code in its page": 0x10FF0, "an odd address": 0x10001, "a tagged address": 0x0100000000010000,
}
UNKNOWN = [
    "svc #10", "svc #65535", "brk #0", "brk #5", "brk #65535", "hvc #0", "smc #0", "hlt #0xf000", "eret", "fmov d0, x0", "movi v0.16b, #0", "udf #0",
    "dcps1", "tlbi vmalle1", "ic iallu", "ic ivau, x1", "dc zva, x1", "dc ivac, x1", "dc civac, x1", "at s1e1r, x1", "msr daifset, #15", "msr spsel, #1",
]
READ = "ttbr0_el1 vbar_el1 sctlr_el1 mdscr_el1 elr_el1 sp_el0 pmccntr_el0 pmevcntr1_el0 cntvct_el0 cntpct_el0 ctr_el0 daif fpcr currentel".split()
WRITTEN = "ttbr0_el1 ttbr1_el1 vbar_el1 sctlr_el1 mdscr_el1 oslar_el1 spsr_el1 pmcr_el0 pmevcntr0_el0 cntv_ctl_el0 cntkctl_el1 cpacr_el1".split()


def to(address, *lines):
    return [f"to x1, {address:#x}", *lines]


def attacks():
    """The name, the lines and the end of each."""
    for verb, line in (("load", "ldr x0, [x1]"), ("store", "str x0, [x1]")):
        for name, at in PLACES.items():
            yield f"{verb}: {name}", to(at, line), f"{ACCESS} {at:016X}"
        for name, at in CROSSINGS.items():
            yield f"{verb} across {name}", to(at, line), f"{ACCESS} {at:016X}"
    yield "pair across the end of global data", to(0x4007FFF8, "ldp x2, x3, [x1]"), f"{ACCESS} 0000000040080000"
    yield "pair stored across the end of the stack", to(0x7FFFFFF8, "stp x2, x3, [x1]"), f"{ACCESS} 0000000080000000"
    yield "unprivileged load", to(DATA, "ldtr x0, [x1]"), f"{ACCESS} {DATA:016X}"
    yield "exclusive load", to(DATA, "ldxr x0, [x1]"), f"{ACCESS} {DATA:016X}"
    for name, at in CALLED.items():
        yield f"call: {name}", to(at, "blr x1"), f"{FETCH} {at:016X}"
    yield "code written into data", to(0x40000000, "to x2, 0xd4000001d2800000", "str x2, [x1]", "blr x1"), f"{FETCH} 0000000040000000"
    for line in [*UNKNOWN, *(f"mrs x0, {name}" for name in READ), *(f"msr {name}, x0" for name in WRITTEN)]:
        yield line, to(0x40000000, line), UNDEFINED
    for line in ("wfe", "yield", "prfm pldl1keep, [x1]"):
        yield f"{line}, which changes nothing", to(DATA, line), "halted"
    yield "SP in the monitor at calls", to(DATA, "mov sp, x1", "mov x0, #7", "svc #9", "svc #8"), "trap InputEnd"
    yield "X9 and X10 as wide as can be", ["mov x9, #-1", "mov x10, #-1", "svc #6", "svc #7", "svc #4", "svc #2"], "stopped WrongEnd"
    yield "operation plus 2^16", ["to x9, 0x10001", "svc #2"], "stopped WrongEnd"
    yield "begin in the window, elsewhere", ["mov x9, #1", "svc #1"], "stopped Nested"
    yield "a cell plus 2^32", ["mov x9, #0x100000000", "mov x10, #5", "svc #7"], "halted"


# Weaker monitors: in which file what stands in what place, and how the name of each attack begins that has to end otherwise.
WEAKER = {
    "EL0 reads the code": ([("pages.c", "NORMAL_PAGE | READ_ONLY |", "NORMAL_PAGE | READ_ONLY | FOR_EL0 |")], ["load: the image's code"]),
    "EL0 executes what it writes": (
        [
            ("tables.S", "span    IMAGE_GLOBALS, GLOBALS_BYTES / PAGE, PAGE, NORMAL_PAGE + FOR_EL0 + NOT_BY_EL1 + NOT_BY_EL0",
             "span    IMAGE_GLOBALS, GLOBALS_BYTES / PAGE, PAGE, NORMAL_PAGE + FOR_EL0 + NOT_BY_EL1"),
            ("attributes.h", "CONTROL 0x30D8180F", "CONTROL 0x30D0180F"),
        ],
        ["code written into data"],
    ),
    "alignment isn't looked at": ([("attributes.h", "CONTROL 0x30D8180F", "CONTROL 0x30D8180D")], ["load across no bound", "store across two pages"]),
    "EL0 reads and writes the monitor's data": (
        [("tables.S", "62, BLOCK, NORMAL_BLOCK +", "62, BLOCK, NORMAL_BLOCK + FOR_EL0 +")], ["load: the monitor's data", "store: the job"],
    ),
    "EL0 reads the monitor's code": ([("tables.S", "NORMAL_BLOCK + READ_ONLY + NOT_BY_EL0", "NORMAL_BLOCK + READ_ONLY + FOR_EL0")], ["load: the monitor's code"]),
    "EL0 reads the counters": ([("boot.S", "msr     pmuserenr_el0, xzr", "mov     x0, #1\n        msr     pmuserenr_el0, x0")], ["mrs x0, pmccntr_el0"]),
    "EL0 reads the timers": ([("boot.S", "msr     cntkctl_el1, xzr", "mov     x0, #3\n        msr     cntkctl_el1, x0")], ["mrs x0, cntvct_el0"]),
    "EL0 uses vectors": ([("attributes.h", "VECTORS_AT_EL1 (1 << 20)", "VECTORS_AT_EL1 (3 << 20)")], ["fmov d0, x0"]),
    "EL0 masks interrupts": ([("attributes.h", "CONTROL 0x30D8180F", "CONTROL 0x30D81A0F")], ["msr daifset, #15"]),
    "an operation is compared by 16 bits": ([("measure.c", "if (operation != opening.operation)", "if ((u16)operation != opening.operation)")], ["operation plus 2^16"]),
}


def expanded(line):
    """`to X, VALUE` is four moves."""
    if not line.startswith("to "):
        return [line]
    register, value = line[3:].split(", ")
    quarters = [int(value, 16) >> 16 * hw & 0xFFFF for hw in range(4)]
    return [f"mov{'k' if hw else 'z'} {register}, #{quarter}, lsl #{16 * hw}" for hw, quarter in enumerate(quarters)]


def assembled(pieces):
    """The words of each piece."""
    lines = [line for piece in pieces for line in [*(word for part in piece for word in expanded(part)), f".word {SEPARATOR:#x}"]]
    with tempfile.TemporaryDirectory() as folder:
        whole, content = os.path.join(folder, "o"), os.path.join(folder, "b")
        subprocess.run(["aarch64-linux-gnu-as", "-march=armv8-a", "-o", whole, "-"], input="\n".join([*lines, ""]), text=True, check=True)
        subprocess.run(["aarch64-linux-gnu-objcopy", "-O", "binary", whole, content], check=True)
        with open(content, "rb") as file:
            words = [int.from_bytes(word, "little") for word in iter(lambda: file.read(4), b"")]
    found, piece = [], []
    for word in words:
        if word == SEPARATOR:
            found.append(piece)
            piece = []
        else:
            piece.append(word)
    return found


def texts(words):
    """The image and the case of an attack: operation 1 begins, and then it comes."""
    code = [encode("Movz", rd=9, hw=0, imm16=1), encode("Svc", imm16=1), *words, encode("Svc", imm16=0)]
    return image_text(code, [(CODE, "begin", 1)], cells=[0]).encode(), case_text(10000).encode()


def trials():
    """The name of each attack, its image, its case and its end line."""
    all_attacks = list(attacks())
    for (name, _, end), words in zip(all_attacks, assembled(lines for _, lines, _ in all_attacks)):
        image, case = texts(words)
        yield name, image, case, f"ended {end} {CODE + 4 * (len(words) + 1):016X}" if end == UNDEFINED else f"ended {end}"
