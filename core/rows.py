"""Images and cases to try: those of folders, the drill's, and those at the edges of what the device has."""

import os
import subprocess
import tempfile

from device import case_text, image_text
from forms import CODE, encode

TOP = os.path.dirname(os.path.dirname(os.path.abspath(__file__)))
FOLDERS = ["tour", "memory/data", "crates/oat_prog/data"]
CONSTANTS, INPUTS, DRILL_STEPS = 16, 80, 4194304


class Oat:
    """The program `oat`."""

    def __init__(self, program):
        self.program = program

    def answer(self, command, *texts):
        """The text, the status and the second text of a command on files with these texts."""
        with tempfile.TemporaryDirectory() as folder:
            names = [f"F{i}" for i in range(len(texts))]
            for name, text in zip(names, texts):
                with open(os.path.join(folder, name), "wb") as file:
                    file.write(text)
            done = subprocess.run([self.program, command, *names], cwd=folder, capture_output=True)
        return done.stdout.decode("latin-1"), done.returncode, done.stderr.decode("latin-1")

    def image_of(self, program):
        """The image of a program's text, or None where there is none."""
        out, status, _ = self.answer("build", program)
        return out.encode() if status == 0 else None


def of_folder(oat, folder):
    """Each image of a folder with each case: an image is a file's text, or what `oat build` makes of it."""
    images, cases = [], []
    for name in sorted(os.listdir(folder)):
        path = os.path.join(folder, name)
        if not os.path.isfile(path):
            continue
        with open(path, "rb") as file:
            text = file.read()
        if text.startswith(b"oat-case 1"):
            cases.append((name, text))
        elif text.startswith(b"oat-image "):
            images.append((name, text))
        elif (image := oat.image_of(text)) is not None:
            images.append((name, image))
    for image_name, image in images:
        for case_name, case in cases:
            yield f"{os.path.basename(folder)}/{image_name} {case_name}", image, case


def drill_texts(number):
    """The drill's program and case, as docs/FORMATS.md says."""
    state, draws = number, []
    for _ in range(1 + CONSTANTS + INPUTS):
        state = (state * 6364136223846793005 + 1442695040888963407) % 2**64
        draws.append(state >> 33)
    lines = [f"critical limit {draws[0] % 1000}"]
    for j in range(CONSTANTS):
        lines += [f"func h{j} v:i64", "local k i64", "local m i64", "local c i64", "block b0", f"const k {draws[1 + j] % 100}", "add v v k"]
        lines += ["load m limit", "lt c m v", "branch c over under", "block over", "sub v v m", "ret v", "block under", "ret v", "end"]
    lines += ["operation 1 work n:i64", "local i i64", "local one i64", "local x i64", "local c i64", "local f fn/1", "block b0", "const one 1"]
    lines += ["jump test", "block test", "lt c i n", "branch c body done", "block body", "in x", *(f"call x h{j} x" for j in range(CONSTANTS))]
    lines += ["ref f h0", "icall x f x", "out x", "add i i one", "jump test", "block done", "ret i", "end"]
    lines += ["main", "local n i64", "local s i64", "block b0", f"const n {INPUTS}", "call s work n", "halt", "end", ""]
    case = ["oat-case 1", "key " + "4B" * 32, f"nonce {number:032x}", "operation 1", f"steps {DRILL_STEPS}"]
    case += [f"input {draw % 1000}" for draw in draws[1 + CONSTANTS :]]
    return "\n".join(lines).encode(), "\n".join([*case, ""]).encode()


def of_drill(oat, number):
    program, case = drill_texts(number)
    return f"drill {number}", oat.image_of(program), case


# ---- the edges of memory and of what is counted

WINDOW = [(CODE, "main")]
BEGIN, END = [encode("Movz", rd=9, hw=0, imm16=1), encode("Svc", imm16=1)], [encode("Movz", rd=9, hw=0, imm16=1), encode("Svc", imm16=2)]
HALT, OUT, NOP = encode("Svc", imm16=0), encode("Svc", imm16=9), encode("Nop")
WORDS_OF_CODE, WORDS_OF_DATA, WINDOWS = 131072, 65536, 1024
EDGES = [
    0, 0x8, 0xFFF8, 0x10000, 0x10FF8, 0x11000, 0x8FFF8, 0x90000, 0x3FFFFFF8, 0x3FFFFFFC, 0x40000000, 0x40000001, 0x4007FFF8, 0x4007FFFC, 0x40080000,
    0x40200000, 0x40400000, 0x46000000, 0x7FEFFFF8, 0x7FEFFFFC, 0x7FF00000, 0x7FFFFFF8, 0x7FFFFFFC, 0x7FFFFFFF, 0x80000000, 0x140000000,
    0x100000040000000, 0x8000000000000000, 0xFFFFFFFF40200000, 0xFFFFFFFF40400000, 0xFFFFFFFF46000000, 0xFFFFFFFFFFFFFFF8,
]


def moves(register, value):
    quarters = [value >> 16 * hw & 0xFFFF for hw in range(4)]
    return [encode("Movk" if hw else "Movz", rd=register, hw=hw, imm16=quarter) for hw, quarter in enumerate(quarters)]


def edge(words, *rows):
    """A window with these words, and one row among them."""
    code = [*BEGIN, *words, OUT, *END, HALT]
    rows = [(CODE, "begin", 1), *((CODE + 4 * at, *row) for at, *row in rows), (CODE + 4 * (len(code) - 3), "end", 1)]
    return image_text(code, rows, WINDOW).encode(), case_text(1000).encode()


def of_edges():
    """A load, a store, a call and a return at each edge; SVC and BRK of other numbers."""
    for at in EDGES:
        yield f"load at {at:X}", *edge([*moves(1, at), encode("Ldr", rt=0, rn=1, imm12=0)])
        yield f"store at {at:X}", *edge([*moves(1, at), encode("Str", rt=0, rn=1, imm12=0)])
        yield f"call of {at:X}", *edge([*moves(9, at), encode("Svc", imm16=4), encode("Blr", rn=9)], (6, "icall", 0))
        yield f"return to {at:X}", *edge([*moves(30, at), encode("Svc", imm16=5), encode("Ret", rn=30)], (6, "ret"))
    for number in (10, 255, 256, 265, 65535):
        yield f"SVC {number}", *edge([encode("Svc", imm16=number)])


def straight(count, tail):
    rows = [(CODE, "begin", 1), (CODE + 4 * (count + 2), "end", 1)]
    return image_text([*BEGIN, *[NOP] * count, *END, *tail], rows, WINDOW).encode()


def of_extremes():
    """The most code, cells, windows and writes."""
    yield "all code", straight(WORDS_OF_CODE - 5, [HALT]), case_text(4194304, key="7f" * 1024).encode()
    yield "behind all code", straight(WORDS_OF_CODE - 4, []), case_text(4194304, key="7f" * 65).encode()
    rows = [(CODE, "begin", 1), (CODE + 8, "end", 1)]
    data = [(i, i + 1) for i in range(WORDS_OF_DATA)]
    yield "all cells", image_text([*BEGIN, *END, HALT], rows, WINDOW, (), data, range(WORDS_OF_DATA)).encode(), case_text(100, key="01" * 64).encode()
    rows = [(CODE + 4, "begin", 1), (CODE + 12, "end", 1), (CODE + 20, "jump", CODE + 4)]
    windows = image_text([NOP, *BEGIN, *END, encode("B", off26=-4)], rows, WINDOW, [(CODE + 4, "b")]).encode()
    for steps in (2000, 9000):
        yield f"windows in {steps} steps", windows, case_text(steps, calls=WINDOWS).encode()
    reads = image_text([*BEGIN, *moves(1, 0x40000000), encode("Ldr", rt=0, rn=1, imm12=0), OUT, *END, HALT], [(CODE, "begin", 1), (CODE + 32, "end", 1)], WINDOW)
    for at, length in ((0x40000000, 4096), (0x4007F000, 4096), (0x7FF00000, 4096), (0x7FFFF000, 4096), (0x40000003, 1)):
        yield f"{length} bytes at {at:X}", reads.encode(), case_text(100, writes=[(k, at, bytes([k + 1]) * length) for k in range(8)]).encode()


def of_margins(random):
    """A loop that sums a word, which writes change at distances near those at which the monitor goes over to steps."""
    load, add = encode("Ldr", rt=2, rn=1, imm12=0), encode("AddReg", rd=0, rn=0, rm=2, amount=0)
    body = [load, add, *[NOP] * random.randrange(3)] * random.choice([5, 40, 300])
    code = [*BEGIN, *moves(1, 0x40000000), encode("B", off26=1), *body, OUT]
    back = len(code)
    code += [encode("B", off26=7 - back), *END]
    rows = [(CODE, "begin", 1), (CODE + 24, "jump", CODE + 28), (CODE + 4 * back, "jump", CODE + 28), (CODE + 4 * back + 4, "end", 1)]
    writes, at = [], random.choice([0, 1, 600, 1500])
    for _ in range(random.randrange(1, 40)):
        writes.append((at, random.choice([0x40000000, 0x40000003, 0x7FFFFFF0]), random.randbytes(random.choice([1, 2, 5]))))
        at += random.choice([0, 1, 2, random.randrange(55, 75), random.randrange(1000, 1100), random.randrange(1, 9000)])
    steps = max(1, at + random.choice([-100, -1, 0, 1, 2, random.randrange(3000)]))
    return "margins", image_text(code, rows, WINDOW, [(CODE + 28, "b")], [(0, 3)]).encode(), case_text(steps, writes=writes).encode()
