"""Random programs of the device with operations, cells and arrays of cells, and cases of sessions with one window or several.

The programs are those of beside/programs.py, and have besides: operations that are called more than once, each with a window; uses and
defines of cells and of elements; calls through a pointer in memory; and writes that change return addresses, pointers and cells."""

from device import case_text, image_text
from forms import CODE, encode
from programs import KINDS, Program
from steps import GLOBALS, Steps

STEPS = 20000
SESSION_KINDS = [*KINDS, *["halted"] * 8, "Element"]
FLAWS = {"nested": 0.04, "wrong end": 0.04}


def place(index):
    return GLOBALS[0] + 8 * index


class Session(Program):
    def __init__(self, random):
        Steps.__init__(self, random)
        self.functions, self.blocks, self.writes = [(CODE, "main")], [], []
        self.steps, self.operations, self.leaves = STEPS, {}, []
        self.take_cells()
        self.slot, self.pointer = (GLOBALS[0] + 8 * index for index in random.sample(range(1000, 2000), 2))
        flaw = random.random()
        self.flaw = next((name for i, name in enumerate(FLAWS) if flaw < 0.04 * (i + 1)), None)

    # ---- cells and arrays

    def take_cells(self):
        """Scalars and arrays behind one another, some of them with a gap between; all are words that are often used."""
        random, index = self.random, self.random.choice([0, 5, self.random.randrange(50000)])
        self.cells, self.scalars, self.arrays = [], [], []
        for _ in range(random.randrange(1, 6)):
            length = random.choice([0, 0, 1, 2, 7, 30])
            (self.arrays if length else self.scalars).append((len(self.cells), index, max(length, 1)))
            self.cells += range(index, index + max(length, 1))
            index += max(length, 1) + random.choice([0, 0, 3])
        self.data.update({word: random.getrandbits(64) | 1 for word in self.cells if random.random() < 0.5})
        self.hot += [place(word) for word in self.cells if random.random() < 0.3]

    def address(self, number):
        """X11 is an address."""
        self.put("Movz", rd=11, hw=0, imm16=number & 0xFFFF)
        self.put("Movk", rd=11, hw=1, imm16=number >> 16)

    def row(self, kind, *fields):
        self.rows.append((self.here, kind, *fields))

    def scalar(self):
        cell, index, _ = self.random.choice(self.scalars)
        if self.random.random() < 0.5:
            self.row("use", cell)
            self.address(place(index))
            self.put("Ldr", rt=10, rn=11, imm12=0)
            self.put("Movz", rd=9, hw=0, imm16=cell)
            self.put("Svc", imm16=7)
        else:
            self.set(10, self.number())
            self.row("def", cell)
            self.address(place(index))
            self.put("Movz", rd=9, hw=0, imm16=cell)
            self.put("Str", rt=10, rn=11, imm12=0)
            self.put("Svc", imm16=6)

    def element(self, beyond=False):
        cell, index, length = self.random.choice(self.arrays)
        self.set(12, self.random.choice([length, 2**64 - 1, length + 2**32]) if beyond else self.random.randrange(length))
        defines = self.random.random() < 0.5
        if defines:
            self.set(10, self.number(), 12)
        self.row("defat" if defines else "useat", cell, length)
        self.put("Movz", rd=11, hw=0, imm16=length)
        self.put("SubsReg", rd=31, rn=12, rm=11)
        self.put("BCond", low_cond=3, off19=2)
        self.put("Brk", imm16=2)
        self.address(place(index))
        if not defines:
            self.put("LdrReg", rt=10, rn=11, rm=12)
        self.put("Movz", rd=9, hw=0, imm16=cell)
        self.put("AddReg", rd=9, rn=9, rm=12, amount=0)
        if defines:
            self.put("StrReg", rt=10, rn=11, rm=12)
        self.put("Svc", imm16=6 if defines else 7)

    def cell(self):
        kinds = [kind for kind, there in ((self.scalar, self.scalars), (self.element, self.arrays)) if there]
        self.random.choice(kinds)()

    # ---- calls, and operations

    def unsure(self, count):
        sure, self.sure = self.sure, False
        self.straight(count)
        self.sure, self.sp = sure, None

    def leaf(self):
        """A function that is called by more than one, and keeps X30."""
        self.leaves.append(self.here)
        self.functions.append((self.here, f"f{len(self.functions)}"))
        self.kept = (30,)
        self.straight(self.random.randrange(1, 4))
        self.kept = ()
        self.ret()

    def call_of(self, entry):
        at, length = self.here, self.random.choice([1, 4])
        self.words += [0] * length
        self.write_call(at, length, entry)
        self.sp = None

    def call_by_pointer(self):
        self.address(self.pointer)
        self.put("Ldr", rt=9, rn=11, imm12=0)
        self.row("icall", 0)
        self.words += self.blr
        self.sp = None

    def call_of_leaf(self):
        if self.random.random() < 0.5:
            self.call_by_pointer()
        else:
            self.call_of(self.random.choice(self.leaves))

    def mark(self, kind, operation):
        self.row(kind, operation)
        self.put("Movz", rd=9, hw=0, imm16=operation)
        self.put("Svc", imm16=1 if kind == "begin" else 2)

    def pieces(self, count):
        random = self.random
        for _ in range(count):
            kinds = [lambda: self.straight(random.randrange(1, 5)), self.cell, self.branch, self.jump, self.call, self.call_of_leaf]
            random.choices(kinds, [20, 40, 20, 5, 8, 12])[0]()

    def operation(self, number):
        """A function with a window, which keeps its return address in a word of memory."""
        self.operations[number] = self.here
        self.functions.append((self.here, f"f{len(self.functions)}"))
        self.sp, self.sure = None, False
        self.address(self.slot)
        self.put("Str", rt=30, rn=11, imm12=0)
        self.mark("begin", number)
        self.pieces(self.random.randrange(8))
        if self.flaw == "nested" and self.random.random() < 0.5:
            self.flaw = None
            self.mark("begin", 30000 + number % 30000)
        if self.flaw == "wrong end" and self.random.random() < 0.5 and len(self.operations) > 1:
            self.flaw = None
            self.mark("end", next(iter(self.operations)))
        self.pieces(self.random.randrange(4))
        self.mark("end", number)
        self.address(self.slot)
        self.put("Ldr", rt=30, rn=11, imm12=0)
        self.ret()
        self.sp, self.sure = None, True

    def whole(self, kind):
        """All of a program, with an end of this kind."""
        random, start = self.random, self.gap()
        for _ in range(random.randrange(1, 4)):
            self.leaf()
        for number in random.sample([1, 2, 3, 255, 65535], random.randrange(1, 4)):
            self.operation(number)
        self.data[(self.pointer - GLOBALS[0]) // 8] = random.choice(self.leaves)
        self.jump_here(start)
        for _ in range(random.randrange(1, 7)):
            self.pieces(random.randrange(6))
            self.call_of(random.choice(list(self.operations.values())))
        if kind == "Element" and self.arrays:
            self.element(beyond=True)
        self.end("halted" if kind == "Element" else kind)

    # ---- the session

    def spot(self):
        """An address of code that a return or a pointer may be made to lead to."""
        sites = [at + 4 * {"call": 1, "icall": 2}[kind] for at, kind, *_ in self.rows if kind in ("call", "icall")]
        return self.random.choice([*sites, *(at for at, _ in self.functions), self.here])

    def write(self):
        random = self.random
        for at in sorted(random.randrange(2 * len(self.words)) for _ in range(random.choice([0, 0, 1, 2, 5, 30]))):
            kind = random.random()
            if kind < 0.15:
                self.writes.append((at, random.choice([self.slot, self.pointer]), self.spot().to_bytes(8, "little")))
            elif kind < 0.6:
                self.writes.append((at, place(random.choice(self.cells)) + random.randrange(4), random.randbytes(random.randrange(1, 5))))
            else:
                self.writes.append((at, random.choice(self.hot), random.randbytes(8)))

    def texts(self):
        """The texts of the image and of a case."""
        random = self.random
        image = image_text(self.words, self.rows, self.functions, self.blocks, self.data, self.cells)
        key, nonce = random.randbytes(random.choice([1, 20, 32, 64, 65, 200])).hex(), random.randbytes(16).hex()
        calls = random.choice([None, None, 1, 2, 3, 9])
        return image, case_text(self.steps, self.inputs, self.writes, key, nonce, random.choice(list(self.operations)), calls)


def random_session(random):
    kind = random.choice(SESSION_KINDS)
    session = Session(random)
    session.whole(kind)
    session.write()
    return session.texts()
