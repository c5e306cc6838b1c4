"""The instruction table a second time: the word of each form from its fields, and the text that objdump has for it."""

import re
import struct
import subprocess
import tempfile

CODE = 0x10000
CONDITIONS = {0: "eq", 1: "ne", 2: "cs", 3: "cc", 8: "hi", 9: "ls", 10: "ge", 11: "lt", 12: "gt", 13: "le"}

# Where a field stands: its lowest bit and its width. An offset counts words and has a sign.
PLACES = {
    "rd": (0, 5), "rt": (0, 5), "rn": (5, 5), "rm": (16, 5), "ra": (10, 5), "amount": (10, 6), "imm12": (10, 12),
    "imm16": (5, 16), "hw": (21, 2), "cond": (12, 4), "low_cond": (0, 4), "off19": (5, 19), "off26": (0, 26),
}

# A form's word with zeros in its fields, and its text. A field `<rn|sp>` is a register where 31 is SP, `<hw*16>` and `<imm12*8>` are printed
# that many times as large, and a part in double brackets isn't printed where its number is zero.
FORMS = {
    "AddImm": (0x91000000, "add <rd|sp>, <rn|sp>, #<imm12>"),
    "SubImm": (0xD1000000, "sub <rd|sp>, <rn|sp>, #<imm12>"),
    "SubsImm": (0xF1000000, "subs <rd>, <rn|sp>, #<imm12>"),
    "AddReg": (0x8B000000, "add <rd>, <rn>, <rm>[[, lsl #<amount*1>]]"),
    "SubReg": (0xCB000000, "sub <rd>, <rn>, <rm>"),
    "SubsReg": (0xEB000000, "subs <rd>, <rn>, <rm>"),
    "AndReg": (0x8A000000, "and <rd>, <rn>, <rm>"),
    "OrrReg": (0xAA000000, "orr <rd>, <rn>, <rm>"),
    "EorReg": (0xCA000000, "eor <rd>, <rn>, <rm>"),
    "Madd": (0x9B000000, "madd <rd>, <rn>, <rm>, <ra>"),
    "Msub": (0x9B008000, "msub <rd>, <rn>, <rm>, <ra>"),
    "Udiv": (0x9AC00800, "udiv <rd>, <rn>, <rm>"),
    "Sdiv": (0x9AC00C00, "sdiv <rd>, <rn>, <rm>"),
    "Lslv": (0x9AC02000, "lslv <rd>, <rn>, <rm>"),
    "Lsrv": (0x9AC02400, "lsrv <rd>, <rn>, <rm>"),
    "Asrv": (0x9AC02800, "asrv <rd>, <rn>, <rm>"),
    "Movz": (0xD2800000, "movz <rd>, #<imm16>[[, lsl #<hw*16>]]"),
    "Movk": (0xF2800000, "movk <rd>, #<imm16>[[, lsl #<hw*16>]]"),
    "Csinc": (0x9A800400, "csinc <rd>, <rn>, <rm>, <cond>"),
    "Ldr": (0xF9400000, "ldr <rt>, [<rn|sp>[[, #<imm12*8>]]]"),
    "Str": (0xF9000000, "str <rt>, [<rn|sp>[[, #<imm12*8>]]]"),
    "LdrReg": (0xF8607800, "ldr <rt>, [<rn|sp>, <rm>, lsl #3]"),
    "StrReg": (0xF8207800, "str <rt>, [<rn|sp>, <rm>, lsl #3]"),
    "B": (0x14000000, "b <off26>"),
    "Bl": (0x94000000, "bl <off26>"),
    "BCond": (0x54000000, "b.<low_cond> <off19>"),
    "Cbz": (0xB4000000, "cbz <rt>, <off19>"),
    "Cbnz": (0xB5000000, "cbnz <rt>, <off19>"),
    "Blr": (0xD63F0000, "blr <rn>"),
    "Ret": (0xD65F0000, "ret <rn>"),
    "Svc": (0xD4000001, "svc #<imm16>"),
    "Brk": (0xD4200000, "brk #<imm16>"),
    "Nop": (0xD503201F, "hint #0x0"),
}


def name_of(text):
    return re.match(r"\.?\w+\.?", text)[0]


FIELD = re.compile(r"<(\w+)(?:\|(sp)|\*(\d+))?>")
FIELDS = {form: [match[1] for match in FIELD.finditer(text)] for form, (_, text) in FORMS.items()}
NAMED = {}
for form, (_, text) in FORMS.items():
    NAMED.setdefault(name_of(text), []).append(form)
TRANSFERS = {"B", "Bl", "BCond", "Cbz", "Cbnz", "Blr", "Ret"}


FIXED = {form: sum(2**PLACES[name][1] - 1 << PLACES[name][0] for name in FIELDS[form]) ^ 0xFFFFFFFF for form in FORMS}


def encode(form, **fields):
    word = FORMS[form][0]
    for name in FIELDS[form]:
        low, width = PLACES[name]
        word |= fields[name] % 2**width << low
    return word


def is_signed(name):
    return name.startswith("off")


def field_of(word, name):
    low, width = PLACES[name]
    number = word >> low & 2**width - 1
    return number - 2**width if is_signed(name) and number >> width - 1 else number


def register(number, with_sp):
    return f"x{number}" if number < 31 else "sp" if with_sp else "xzr"


def text_of(form, address, fields):
    """The instruction as objdump writes it."""
    def put(match):
        name, with_sp, scale = match[1], match[2], match[3]
        number = fields[name]
        if name.startswith("r"):
            return register(number, with_sp)
        if name.endswith("cond"):
            return CONDITIONS[number]
        if is_signed(name):
            return hex((address + 4 * number) % 2**64)
        return str(number * int(scale)) if scale else hex(number)

    text = FORMS[form][1]
    optional = re.search(r"\[\[(.*?)\]\]", text)
    if optional:
        left_out = fields[FIELD.search(optional[1])[1]] == 0
        text = text[: optional.start()] + ("" if left_out else optional[1]) + text[optional.end() :]
    text = FIELD.sub(put, text)
    return "ret" if text == "ret x30" else text


def form_of(word, address, text):
    """The form and the fields of a word that objdump names with this text, or None where it is none of the forms.

    The fields are taken from their places and then printed again: they are those of the text where that gives the text."""
    for form in NAMED.get(name_of(text), []):
        fields = {name: field_of(word, name) for name in FIELDS[form]}
        if all(number in CONDITIONS for name, number in fields.items() if name.endswith("cond")):
            if text_of(form, address, fields) == text:
                return form, fields
    return None


def disassembled(words, start=CODE):
    """What objdump has for each word, with one blank between its words and without its remarks."""
    with tempfile.NamedTemporaryFile() as file:
        file.write(struct.pack(f"<{len(words)}I", *words))
        file.flush()
        command = ["aarch64-linux-gnu-objdump", "-D", "-z", "-b", "binary", "-m", "aarch64", "-M", "no-aliases", f"--adjust-vma={start}"]
        lines = subprocess.run([*command, file.name], check=True, capture_output=True, text=True).stdout.splitlines()
    found = [re.match(r"\s+[0-9a-f]+:\t[0-9a-f]{8} \t(.*)", line) for line in lines]
    texts = [" ".join(re.split(r"//|;", match[1])[0].split()) for match in found if match]
    assert len(texts) == len(words), "objdump's lines"
    return texts


def random_fields(random, form):
    """Fields of a form, often at the ends of their ranges."""
    fields = {}
    for name in FIELDS[form]:
        width = PLACES[name][1]
        if name.endswith("cond"):
            fields[name] = random.choice(list(CONDITIONS))
        elif is_signed(name):
            half = 2 ** (width - 1)
            fields[name] = random.choice([-half, half - 1, -1, 0, 1, random.randrange(-half, half), random.randrange(-half, half)])
        else:
            fields[name] = random.choice([0, 2**width - 1, random.randrange(2**width), random.randrange(2**width)])
    return fields
