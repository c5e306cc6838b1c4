"""QEMU's core for AArch64, by Unicorn, with what the device has around its processor: data regions, monitor calls, traps and writes.

The core computes each instruction. Of the device's rules these are this script's own reading: which accesses and fetches are faults, what the
monitor calls and traps do, and the numbers of instructions."""

import unicorn
from unicorn.arm64_const import UC_ARM64_REG_NZCV, UC_ARM64_REG_PC, UC_ARM64_REG_SP, UC_ARM64_REG_X0

from forms import CODE
from programs import TRAPS
from steps import GLOBALS, STACK

SVC, BRK = 2, 7
PAGE = 4096


class Core:
    """A run of a program: the lines that `oat device` has to put, where each of them was put, and the addresses of its instructions."""

    def __init__(self, program):
        self.words, self.steps = program.words, program.steps
        self.inputs, self.writes = iter(program.inputs), program.writes[::-1]
        self.lines, self.marks, self.trace, self.end = [], [], [], None
        self.uc = unicorn.Uc(unicorn.UC_ARCH_ARM64, unicorn.UC_MODE_ARM)
        code = b"".join(word.to_bytes(4, "little") for word in self.words)
        self.uc.mem_map(CODE, -(-len(code) // PAGE) * PAGE)
        self.uc.mem_write(CODE, code)
        for low, high in (GLOBALS, STACK):
            self.uc.mem_map(low, high - low)
        for index, value in program.data.items():
            self.uc.mem_write(GLOBALS[0] + 8 * index, value.to_bytes(8, "little"))
        self.uc.reg_write(UC_ARM64_REG_SP, STACK[1])
        self.uc.reg_write(UC_ARM64_REG_NZCV, 0)
        self.uc.hook_add(unicorn.UC_HOOK_CODE, self.on_fetch)
        self.uc.hook_add(unicorn.UC_HOOK_INTR, self.on_exception)
        self.uc.hook_add(unicorn.UC_HOOK_MEM_READ | unicorn.UC_HOOK_MEM_WRITE, self.on_access)
        self.uc.hook_add(unicorn.UC_HOOK_MEM_READ_UNMAPPED | unicorn.UC_HOOK_MEM_WRITE_UNMAPPED, self.on_access)

    def run(self):
        try:
            self.uc.emu_start(CODE, 1)
        except unicorn.UcError as error:
            pc = self.uc.reg_read(UC_ARM64_REG_PC)
            if not self.end:
                self.end = self.fetch_fault(pc) if error.errno == unicorn.UC_ERR_FETCH_UNMAPPED else f"core: {error} at {pc:08X}"
        self.put(f"ended {self.end}")
        return self

    def put(self, line):
        self.lines.append(line)
        self.marks.append(len(self.trace))

    def stop(self, end):
        self.end = self.end or end
        self.uc.emu_stop()

    def fetch_fault(self, pc):
        return "steps" if len(self.trace) == self.steps else f"fault Fetch {pc:016X}"

    def on_fetch(self, uc, address, _size, _data):
        if self.end:
            return uc.emu_stop()
        while self.writes and self.writes[-1][0] == len(self.trace):
            _, at, content = self.writes.pop()
            uc.mem_write(at, content)
        if len(self.trace) == self.steps:
            self.stop("steps")
        elif address % 4 or not CODE <= address < CODE + 4 * len(self.words):
            self.stop(self.fetch_fault(address))
        else:
            self.trace.append(address)

    def on_access(self, _uc, _kind, address, size, _value, _data):
        address %= 2**64
        if size != 8 or address % 8 or not any(low <= address < high for low, high in (GLOBALS, STACK)):
            self.stop(f"fault Access {address:016X}")

    def on_exception(self, uc, kind, _data):
        number = self.words[(self.trace[-1] - CODE) // 4] >> 5 & 0xFFFF
        if kind == SVC:
            self.monitor_call(uc, number)
        elif kind == BRK and number in TRAPS:
            self.stop(f"trap {TRAPS[number]}")
        elif kind == BRK:
            self.stop(f"fault Undefined {self.trace[-1]:016X}")
        else:
            self.stop(f"core: exception {kind} at {self.trace[-1]:08X}")

    def monitor_call(self, uc, number):
        if number == 0:
            self.stop("halted")
        elif number == 8:
            value = next(self.inputs, None)
            if value is None:
                self.stop("trap InputEnd")
            else:
                uc.reg_write(UC_ARM64_REG_X0, value)
        elif number == 9:
            value = uc.reg_read(UC_ARM64_REG_X0)
            self.put(f"out {value - 2**64 if value >> 63 else value}")
        elif number > 9:
            self.stop(f"fault Undefined {self.trace[-1]:016X}")
