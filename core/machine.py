"""QEMU's AArch64 machine with the monitor: how the monitor is built, and how the machine is run on a job."""

import os
import re
import shutil
import subprocess
import tempfile

HERE = os.path.dirname(os.path.abspath(__file__))
SOURCES, OUT = os.path.join(HERE, "monitor"), os.path.join(HERE, "out")
QEMU, TOOLS = "qemu-system-aarch64", "aarch64-linux-gnu-"
NEEDED = {QEMU: "qemu-system-arm", TOOLS + "gcc": "gcc-aarch64-linux-gnu", TOOLS + "objcopy": "binutils-aarch64-linux-gnu"}
MISSING = 127

# What C may change is little: X0 to X3, X16, X17 and X30 (see vectors.S).
KEPT = [*range(4, 16), 18]
FLAGS = [
    *"-std=gnu11 -O2 -Wall -Wextra -Wshadow -Wstrict-prototypes -Wmissing-prototypes -Wundef -Wvla -Werror".split(),
    *"-ffreestanding -fno-builtin -fno-pic -fno-stack-protector -fno-tree-loop-distribute-patterns".split(),
    *"-mgeneral-regs-only -mstrict-align -mcmodel=small -nostdlib -static -Wl,--build-id=none,--fatal-warnings".split(),
    *(f"-fcall-saved-x{register}" for register in KEPT),
]
# The programs: the monitor, and one that makes digests for a check, with the same start, digests and port.
SHARED = ["boot.S", "hmac.c", "memory.c", "port.c", "sha256.c", "sha256_core.S", "tables.S", "vectors.S"]
OWN = {
    "monitor": ["boot.c", "calls.c", "chain.c", "ends.c", "image.c", "log.c", "measure.c", "pages.c", "probe.c", "shelf.c", "steps.c"],
    "digests": ["digests.c"],
}


class Missing(Exception):
    """A tool isn't there: the one line that says so."""


def look_for_tools():
    for tool, package in NEEDED.items():
        if not shutil.which(tool):
            raise Missing(f"Debian's package {package} is needed: there is no {tool}")


def layout():
    """The addresses of layout.h."""
    with open(os.path.join(SOURCES, "layout.h")) as file:
        return {name: int(value, 0) for name, value in re.findall(r"#define (\w+) (0x\w+|\d+)$", file.read(), re.M)}


def build(folder, program="monitor", sources=SOURCES):
    """Makes a program of the sources, as the bytes that are loaded, in a folder."""
    script, whole, loaded = (os.path.join(folder, f"{program}.{kind}") for kind in ("ld", "elf", "bin"))
    compiler = TOOLS + "gcc"
    subprocess.run([compiler, "-E", "-P", "-x", "c", "-D__ASSEMBLER__", "-o", script, os.path.join(sources, "map.ld")], check=True)
    files = [os.path.join(sources, name) for name in [*SHARED, *OWN[program]]]
    subprocess.run([compiler, *FLAGS, f"-Wl,-T{script}", "-o", whole, *files], check=True)
    subprocess.run([TOOLS + "objcopy", "-O", "binary", whole, loaded], check=True)
    return loaded


def built(program="monitor"):
    """The program's file, which is made where a source is newer."""
    look_for_tools()
    kept = os.path.join(OUT, f"{program}.bin")
    sources = [__file__, *(os.path.join(SOURCES, name) for name in os.listdir(SOURCES))]
    if not os.path.exists(kept) or os.path.getmtime(kept) < max(map(os.path.getmtime, sources)):
        os.makedirs(OUT, exist_ok=True)
        with tempfile.TemporaryDirectory(dir=OUT) as folder:
            os.replace(build(folder, program), kept)
    return kept


def run(program, job, counter=True, timeout=600):
    """What the machine puts on its port when it starts with a job, and what QEMU says. Without the counter each instruction is a step."""
    places = layout()
    with tempfile.NamedTemporaryFile() as file:
        file.write(job)
        file.flush()
        words = [QEMU, "-M", "virt", "-cpu", "cortex-a53", "-m", "128M", "-display", "none", "-nodefaults", "-serial", "stdio"]
        words += ["-icount", "shift=0,sleep=off"] if counter else []
        words += ["-device", f"loader,file={program},addr={places['MONITOR_CODE']:#x},force-raw=on,cpu-num=0"]
        words += ["-device", f"loader,file={file.name},addr={places['JOB']:#x},force-raw=on"]
        try:
            done = subprocess.run(words, stdin=subprocess.DEVNULL, capture_output=True, timeout=timeout)
        except subprocess.TimeoutExpired as late:
            return (late.stdout or b"").decode("latin-1"), f"still running after {timeout} s"
    return done.stdout.decode("latin-1"), done.stderr.decode("latin-1").strip()
