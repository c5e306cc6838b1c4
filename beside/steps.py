"""Random straight code of the device, with the inputs that it takes and the rows of its checks."""

from forms import CODE, CONDITIONS, encode, random_fields

GLOBALS = (0x40000000, 0x40080000)
STACK = (0x7FF00000, 0x80000000)
ONES = 2**64 - 1
ARITHMETIC = [
    "AddImm", "SubImm", "SubsImm", "AddReg", "SubReg", "SubsReg", "AndReg", "OrrReg", "EorReg", "Madd", "Msub", "Udiv", "Sdiv", "Lslv",
    "Lsrv", "Asrv", "Movz", "Movk", "Csinc",
]


class Steps:
    """Code under construction.

    `sp` is what SP holds, where that is known. Registers in `kept` aren't changed. Where `sure` is false the code may be jumped over: it takes
    no input then, so that each input is taken where it was meant to be."""

    def __init__(self, random):
        self.random = random
        self.words, self.rows, self.inputs = [], [], []
        self.sp = STACK[1]
        self.hot = [self.word_of_memory() for _ in range(40)]
        self.data = {random.randrange(65536): random.getrandbits(64) | 1 for _ in range(40)}
        self.hot += [GLOBALS[0] + 8 * index for index in self.data]
        self.kept, self.sure = (), True

    # ---- words

    @property
    def here(self):
        return CODE + 4 * len(self.words)

    def put(self, form, **fields):
        self.words.append(encode(form, **fields))

    # ---- numbers and registers

    def number(self):
        random, bit = self.random, 1 << self.random.randrange(64)
        return random.choice([
            random.randrange(70), 0, 1, ONES, 1 << 63, (1 << 63) - 1, bit, bit - 1, bit + 1, -bit, -random.randrange(70),
            random.getrandbits(64), random.getrandbits(64), random.getrandbits(64), random.getrandbits(32), random.getrandbits(16),
        ]) & ONES

    def any_register(self):
        return self.random.choice([register for register in range(32) if register not in self.kept])

    def register(self, *others):
        """A register other than 31 and these."""
        return self.random.choice([register for register in range(31) if register not in self.kept and register not in others])

    def set(self, register, number, *others):
        """Gives a number to a register, by wide moves or as an input, with the other ones left as they are."""
        quarters = [number >> 16 * hw & 0xFFFF for hw in range(4)]
        needed = [hw for hw in range(4) if quarters[hw]] or [self.random.randrange(4)]
        if self.sure and len(needed) > 2 and 0 not in (register, *others) and self.random.random() < 0.7:
            self.inputs.append(number)
            self.put("Svc", imm16=8)
            self.put("AddImm", rd=register, rn=0, imm12=0)
            return
        self.random.shuffle(needed)
        for form, hw in zip(["Movz", "Movk", "Movk", "Movk"], needed):
            self.put(form, rd=register, hw=hw, imm16=quarters[hw])

    def show(self, register):
        """An output of a register, where 31 is SP."""
        if register == 31 or (register != 0 and self.random.random() < 0.5):
            self.put("AddImm", rd=0, rn=register, imm12=0)
        elif register != 0:
            self.put("OrrReg", rd=0, rn=31, rm=register)
        self.put("Svc", imm16=9)

    # ---- steps that go on

    def arithmetic(self):
        form = self.random.choice(ARITHMETIC)
        fields = random_fields(self.random, form)
        fields["rd"] = self.any_register()
        if self.random.random() < 0.6:
            sources, number = [], self.number()
            for name in ("rn", "rm", "ra"):
                if name in fields:
                    fields[name] = self.register(*sources)
                    self.set(fields[name], number, *sources)
                    sources.append(fields[name])
                    number = self.random.choice([self.number(), self.number(), number, number + 1, number - 1, -number, ONES]) & ONES
        self.put(form, **fields)
        if form in ("AddImm", "SubImm") and fields["rd"] == 31:
            self.sp = None
        if fields["rd"] < 31 or form in ("AddImm", "SubImm"):
            self.show(fields["rd"])
        if form.startswith("Subs"):
            self.flags(self.random.choice(list(CONDITIONS)))

    def flags(self, condition):
        """An output that tells a condition."""
        self.put("Csinc", rd=0, rn=self.random.choice([31, 30]), rm=31, cond=condition)
        self.put("Svc", imm16=9)

    def word_of_memory(self):
        random = self.random
        low, high = random.choice([GLOBALS, STACK])
        return random.choice([low, high - 8, low + 8 * random.randrange((high - low) // 8), high - 8 * random.randrange(1, 64)])

    def access(self, address):
        """A load or store at an address, by one of the addressings. Gives the register that is loaded."""
        random = self.random
        rn = 31 if random.random() < 0.4 else self.register()
        rm = random.choice([None, None, None, 31, self.register(rn), self.register(rn), self.register(rn)])
        steps = self.distance(address, rn, rm)
        base = (address - 8 * steps) % 2**64
        if rn < 31:
            self.set(rn, base)
        elif self.sp != base:
            self.set_sp(base)
        if rm not in (None, 31):
            self.set(rm, steps % 2**64, rn)
        load, rt = random.random() < 0.5, self.any_register()
        if rm is None:
            self.put("Ldr" if load else "Str", rt=rt, rn=rn, imm12=steps)
        else:
            self.put("LdrReg" if load else "StrReg", rt=rt, rn=rn, rm=rm)
        return rt if load else None

    def distance(self, address, rn, rm):
        """How many words an access is behind its base, which is in rn. They are in rm, or where that is None in the instruction."""
        random = self.random
        if rm == 31:
            return 0
        if rn == 31 and self.sp is not None and (address - self.sp) % 8 == 0 and random.random() < 0.7:
            steps = (address - self.sp) // 8
            if rm is not None:
                return steps % 2**61 + random.randrange(8) * 2**61
            if 0 <= steps < 4096:
                return steps
        if rm is None:
            return random.choice([0, 1, 4095, random.randrange(4096)])
        return random.choice([random.randrange(4096), -random.randrange(4096), self.number()])

    def set_sp(self, number):
        through, imm = self.register(), self.random.choice([0, self.random.randrange(4096)])
        form = self.random.choice(["AddImm", "SubImm"])
        self.set(through, (number - imm if form == "AddImm" else number + imm) % 2**64)
        self.put(form, rd=31, rn=through, imm12=imm)
        self.sp = number

    def memory(self):
        address = self.random.choice(self.hot) if self.random.random() < 0.8 else self.word_of_memory()
        loaded = self.access(address)
        if loaded is not None and loaded != 31:
            self.show(loaded)

    def input(self):
        if not self.sure:
            return self.nop()
        self.inputs.append(self.number())
        self.put("Svc", imm16=8)
        if self.random.random() < 0.3:
            self.show(0)

    def nop(self):
        self.put("Nop")

    def check(self, passes=True, trap=None):
        trap = self.random.randrange(1, 5) if trap is None else trap
        if self.random.random() < 0.5:
            register = self.register()
            self.set(register, (self.number() or 1) if passes else 0)
            self.rows.append((self.here, "check"))
            self.put("Cbnz", rt=register, off19=2)
        else:
            self.check_condition(passes)
        self.put("Brk", imm16=trap)

    def check_condition(self, passes):
        """B.cond behind a comparison. Equal numbers, or these two that are ordered alike with and without signs, decide each condition."""
        less = self.random.randrange(1, 2**15)
        more = self.random.randrange(less + 1, 2**16)
        holding = {(less, less): {0, 2, 9, 10, 13}, (less, more): {1, 3, 9, 11, 13}, (more, less): {1, 2, 8, 10, 12}}
        a, b = self.random.choice(list(holding))
        holds = holding[a, b]
        left = self.register()
        right = self.register(left)
        self.set(left, a)
        self.set(right, b, left)
        self.put("SubsReg", rd=31, rn=left, rm=right)
        self.rows.append((self.here, "check"))
        self.put("BCond", low_cond=self.random.choice([c for c in CONDITIONS if (c in holds) == passes]), off19=2)

    def straight(self, count):
        for _ in range(count):
            self.random.choices([self.arithmetic, self.memory, self.input, self.nop, self.check], [50, 35, 5, 1, 9])[0]()

    def show_all(self):
        """Outputs of each register, each condition and each word of memory that is often used."""
        for register in range(32):
            self.show(register)
        for condition in CONDITIONS:
            self.put("Csinc", rd=0, rn=31, rm=31, cond=condition)
            self.put("Svc", imm16=9)
        for address in self.hot:
            self.set(1, address)
            self.put("Ldr", rt=0, rn=1, imm12=0)
            self.put("Svc", imm16=9)
