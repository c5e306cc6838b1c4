"""Random programs of the device: code with the rows of its map, global data, inputs and writes, and how each of them is meant to end."""

from forms import CODE, encode
from steps import GLOBALS, STACK, Steps

TRAPS = {1: "DivZero", 2: "Index", 3: "NullCall", 4: "Depth"}


class Program(Steps):
    def __init__(self, random):
        super().__init__(random)
        self.functions, self.blocks = [(CODE, "main")], []
        self.steps, self.writes = 200000, []
        self.rows.append((self.here, "begin", 1))
        self.put("Movz", rd=9, hw=0, imm16=1)
        self.put("Svc", imm16=1)

    def lead(self, at, form, **fields):
        """Puts the branch that stands at an address and leads here."""
        offset = (self.here - at) // 4
        self.words[(at - CODE) // 4] = encode(form, **fields, **{"off26" if form in ("B", "Bl") else "off19": offset})

    def gap(self):
        self.words.append(0)
        return self.here - 4

    def jump_here(self, at):
        self.lead(at, "B")
        self.rows.append((at, "jump", self.block()))

    def block(self):
        self.blocks.append((self.here, f"b{len(self.blocks)}"))
        return self.here

    def unsure(self, count):
        """Steps that may be jumped over."""
        self.sure = False
        self.straight(count)
        self.sure, self.sp = True, None

    def branch(self):
        if self.random.random() < 0.5:
            self.set(9, self.random.choice([0, self.number()]))
        at = self.here
        self.put("Svc", imm16=3)
        taken, other = self.gap(), self.gap()
        self.lead(taken, "Cbnz", rt=9)
        first = self.block()
        self.unsure(self.random.randrange(1, 4))
        self.lead(other, "B")
        self.rows.append((at, "branch", first, self.block()))

    def jump(self):
        """Jumps forwards over some words, or there, back into them and out again."""
        at, back = self.gap(), self.random.random() < 0.5
        if not back:
            self.unsure(self.random.randrange(1, 4))
            return self.jump_here(at)
        begin = self.block()
        self.straight(self.random.randrange(1, 4))
        out = self.gap()
        self.jump_here(at)
        self.rows.append((self.here, "jump", begin))
        self.put("B", off26=(begin - self.here) // 4)
        self.jump_here(out)

    def function(self):
        """A function that shows where it goes back to, and goes there."""
        entry = self.here
        self.functions.append((entry, f"f{len(self.functions)}"))
        self.show(30)
        self.kept = (30,)
        self.straight(self.random.randrange(4))
        self.kept = ()
        self.ret()
        return entry

    def call(self):
        """A call of a function that stands before it, or behind its return site."""
        length = self.random.choice([1, 4])
        if self.random.random() < 0.5:
            over = self.gap()
            entry = self.function()
            self.jump_here(over)
            at = self.here
            self.words += [0] * length
            self.write_call(at, length, entry)
        else:
            at = self.here
            self.words += [0] * length
            out = self.gap()
            self.write_call(at, length, self.function())
            self.jump_here(out)

    def write_call(self, at, length, entry):
        if length == 1:
            call = [encode("Bl", off26=(entry - at) // 4)]
            self.rows.append((at, "call", entry))
        else:
            call = [encode("Movz", rd=9, hw=0, imm16=entry & 0xFFFF), encode("Movk", rd=9, hw=1, imm16=entry >> 16), *self.blr]
            self.rows.append((at + 8, "icall", 0))
        index = (at - CODE) // 4
        self.words[index : index + length] = call

    blr = [encode("Svc", imm16=4), encode("Blr", rn=9)]

    def ret(self):
        self.rows.append((self.here, "ret"))
        self.put("Svc", imm16=5)
        self.put("Ret", rn=30)

    def body(self, count):
        while len(self.words) < count:
            self.straight(self.random.randrange(1, 12))
            self.random.choice([self.branch, self.jump, self.call])()

    # ---- ends

    def bad_address(self):
        """An address that isn't a multiple of 8 in a region, or that is outside of them."""
        random = self.random
        return random.choice([
            self.word_of_memory() + random.randrange(1, 8), GLOBALS[0] - 8, GLOBALS[1], STACK[0] - 8, STACK[1], 0, CODE, 2**64 - 8,
            2**32 + self.word_of_memory(), 2**63 + self.word_of_memory(), self.number() % 2**30, random.getrandbits(64),
        ])

    def end_access(self):
        address = self.bad_address()
        while address % 8 == 0 and any(low <= address < high for low, high in (GLOBALS, STACK)):
            address = self.bad_address()
        self.access(address)

    def end_fetch(self):
        """A return or an indirect call to an address where no word of code stands."""
        target = self.random.choice([self.here + self.random.randrange(1, 4), CODE - 4, 0, CODE + 4 * 131072, self.number() | 2**24, 2**32 + CODE])
        if self.random.random() < 0.5:
            self.set(30, target)
            self.ret()
        else:
            self.set(9, target)
            self.rows.append((self.here, "icall", 0))
            self.words += self.blr

    def end_undefined(self):
        if self.random.random() < 0.5:
            self.put("Svc", imm16=self.random.choice([10, 0xFFFF, 0x100, 0x109, self.random.randrange(10, 2**16)]))
        else:
            self.set(1, 0)
            self.rows.append((self.here, "check"))
            self.put("Cbnz", rt=1, off19=2)
            self.put("Brk", imm16=self.random.choice([0, 5, 0xFFFF, 0x101, self.random.randrange(5, 2**16)]))

    def end_input(self):
        self.put("Svc", imm16=8)

    def end(self, kind):
        """Puts an end of this kind. What follows it isn't to be reached."""
        self.show_all()
        if kind in TRAPS.values():
            self.check(passes=False, trap=next(number for number, name in TRAPS.items() if name == kind))
        elif kind == "steps":
            self.steps = self.random.randrange(1, len(self.words))
        elif kind not in ("halted", "off"):
            getattr(self, f"end_{kind}")()
        if kind != "off":
            self.show_all()
            self.put("Svc", imm16=0)

    def write(self):
        """Some writes between instructions, into words that are often used."""
        for at in sorted(self.random.randrange(len(self.words)) for _ in range(self.random.randrange(6))):
            address = self.random.choice(self.hot) + self.random.randrange(8)
            high = next(high for low, high in (GLOBALS, STACK) if low <= address < high)
            length = min(self.random.randrange(1, 17), high - address)
            self.writes.append((at, address, self.random.randbytes(length)))


KINDS = ["halted", "steps", "off", "access", "fetch", "undefined", "input", "access", "access", *TRAPS.values()]


def random_program(random, count, kind):
    program = Program(random)
    program.body(count)
    program.end(kind)
    program.write()
    return program
