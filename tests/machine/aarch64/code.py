"""Instructions as two programs read them: objdump, whose text is used, and Capstone. The same patterns split the texts
of both into parts. They match each operand completely, and both texts must have the same parts."""
import functools
import re
from dataclasses import dataclass

import capstone

from .. import Refused
from ..code import Instruction, output

LINE = re.compile(r" *([0-9a-f]+):\t([0-9a-f]{8}) +\t([^/<\n]*)", re.A)
READER = capstone.Cs(capstone.CS_ARCH_ARM64, capstone.CS_MODE_ARM)
# Instructions that fill space, or that should not be reached.
SPACE = re.compile(r"nop|udf\b.*|brk\b.*")
# What Capstone writes in another way than objdump, and how objdump writes it.
OTHERWISE = ((r"^(b\.|.*, )lo\b", r"\1cc"), (r"^(b\.|.*, )hs\b", r"\1cs"), ("^(movz|ins) ", "mov "),
             ("^ushll (.*), #0$", r"uxtl \1"), ("^hint #0x22$", "bti c"))
# Mnemonics whose last operand is an address.
TO = re.compile(r"b|b\.\w\w|bl|cbn?z|tbn?z|adrp?")


@dataclass(frozen=True)
class Operand:
    """An operand of a kind that forms.py explains. A general register has a name such as `x0`, which also stands for
    `w0`, and a vector register has a number."""
    kind: str
    registers: tuple = ()
    number: int = None


def of_list(it):
    """Vectors in braces, with or without the number of a lane."""
    each = re.findall(r"v(\d+)\.(\w+)", it[1])
    kinds, number = ",".join(kind for _, kind in each), int(it[2], 0) if it[2] else None
    return Operand(f"{{{kinds}}}{'[]' * bool(it[2])}", tuple(int(at) for at, _ in each), number)


INDEX = r"\[(0x[0-9a-f]+|\d+)\]"
NUMBER = r"#(-?(?:0x[0-9a-f]+|\d+))"
LANES = "16b|8b|8h|4h|4s|2s|2d"
PATTERNS = {
    r"([xw])(\d+|zr)": lambda it: Operand(it[1], (f"x{it[2]}",)),
    "sp": lambda it: Operand("sp", ("sp",)),
    r"([bhsdq])(\d+)": lambda it: Operand(it[1], (int(it[2]),)),
    rf"v(\d+)\.({LANES})": lambda it: Operand(it[2], (int(it[1]),)),
    rf"v(\d+)\.([bhsd]){INDEX}": lambda it: Operand(f"{it[2]}[]", (int(it[1]),), int(it[3], 0)),
    rf"\{{ ?((?:(?:, )?v\d+\.(?:{LANES}))+) ?\}}()": of_list,
    rf"\{{ ?(v\d+\.[bhsd]) ?\}}{INDEX}": of_list,
    NUMBER: lambda it: Operand("i", (), int(it[1], 0)),
    rf"(lsl|lsr|asr|uxtb) {NUMBER}": lambda it: Operand(it[1], (), int(it[2], 0)),
    "uxtb": lambda it: Operand("uxtb", (), 0),
    rf"\[(x\d+|sp)(?:, {NUMBER})?\](!?)": lambda it: Operand(f"m{it[3]}", (it[1],), int(it[2] or "0", 0)),
    rf"\[(x\d+|sp), (x\d+)(?:, lsl {NUMBER})?\]": lambda it: Operand("mx", (it[1], it[2]), int(it[3] or "0", 0)),
    "eq|ne|cs|cc|mi|pl|vs|vc|hi|ls|ge|lt|gt|le": lambda it: Operand("c", (it[0],)),
    "c": lambda it: Operand("bti"),
}
PATTERNS = [(re.compile(pattern), function) for pattern, function in PATTERNS.items()]


def operand(text):
    for pattern, function in PATTERNS:
        if found := pattern.fullmatch(text):
            return function(found)
    raise Refused(f"an operand that is not known: {text}")


def parts(text):
    """The mnemonic and the operands of a text."""
    name, _, rest = text.partition(" ")
    # A comma in brackets or braces does not separate operands.
    words = re.split(r", (?![^\[{]*[\]}])", rest) if rest else []
    to = [Operand("to", (), int(words.pop().removeprefix("#"), 16))] if TO.fullmatch(name) else []
    return name, (*map(operand, words), *to)


def texts(path):
    """What objdump reads in a file: by its address, the bytes and the text of each instruction."""
    lines = map(LINE.match, output("aarch64-linux-gnu-objdump", "-dw", path).splitlines())
    return {int(it[1], 16): (bytes.fromhex(it[2])[::-1], " ".join(it[3].split())) for it in lines if it}


def is_space(text):
    return bool(SPACE.fullmatch(text))


@functools.lru_cache(None)
def instruction(at, code, text):
    """The instruction at an address. It is refused if two programs do not read it alike."""
    found = next(READER.disasm(code, at, 1), None)
    other = f"{found.mnemonic} {found.op_str}".strip() if found else ""
    for pattern, instead in OTHERWISE:
        other = re.sub(pattern, instead, other)
    if len(code) != 4 or parts(text) != parts(other):
        raise Refused(f"Capstone reads {other or 'nothing'} in place of {text}")
    return Instruction(at, at + 4, code, text, *parts(text))
