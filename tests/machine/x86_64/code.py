"""Instructions as two programs read them: objdump, whose text is used, and Capstone, which must read the same. Capstone
4 does not know AVX-512, whose instructions are encoded by EVEX or use mask registers. For such an instruction, `as`
assembles the text of objdump again, and must make the same bytes."""
import functools
import re
import subprocess
import tempfile
from dataclasses import dataclass
from pathlib import Path

import capstone
from capstone.x86 import X86_OP_IMM, X86_OP_REG

from .. import Refused
from ..code import Instruction, output

LINE = re.compile(r" *([0-9a-f]+):\t((?:[0-9a-f]{2} )+) *\t([^#<\n]*)", re.A)
# Prefixes have no effect on a nop.
NOP = re.compile(r"(?:data16 |cs )*nop\b.*|xchg +ax,ax")
VECTORS = {"xmm": 16, "ymm": 32, "zmm": 64}
SIZES = {"BYTE": 1, "WORD": 2, "DWORD": 4, "QWORD": 8, "XMMWORD": 16, "YMMWORD": 32, "ZMMWORD": 64}
MEMORY = re.compile(r"(?:(\w+) (PTR|BCST) )?\[(.*)\]")
NUMBER = re.compile(r"-?0x[0-9a-f]+|[0-9a-f]{4,}|\d")
EVEX = 0x62
# The names of each register, for 8, 4, 2 and 1 of its bytes.
NAMED = [[f"r{at}{end}" for end in ("", "d", "w", "b")] for at in range(8, 16)]
NAMED += [["r" + it, "e" + it, it, it.strip("x") + "l"] for it in ("ax", "cx", "dx", "bx", "sp", "bp", "si", "di")]
# For each name, the register that it belongs to, and how many bytes of the register it means.
REGISTERS = {name: (it[0], size) for it in NAMED for name, size in zip(it, (8, 4, 2, 1))}
READER = capstone.Cs(capstone.CS_ARCH_X86, capstone.CS_MODE_64)
READER.detail = True


@dataclass(frozen=True)
class Operand:
    """An operand of so many bytes: a register by its name, a number, or memory. The address of memory is a base, an
    index times a scale, and a distance. `is_repeated` says that memory holds one lane that stands for all lanes."""
    size: int = None
    register: str = None
    number: int = None
    address: tuple = None
    is_repeated: bool = False


def address(text):
    base, index, scale, distance = None, None, 1, 0
    for it in re.findall(r"-?[^-+]+", text):
        if "0x" in it:
            distance = int(it, 16)
        elif "*" in it:
            index, scale = it.split("*")
        else:
            base = it
    return base, index, int(scale), distance


def operand(text):
    if found := MEMORY.fullmatch(text):
        return Operand(SIZES.get(found[1]), address=address(found[3]), is_repeated=found[2] == "BCST")
    if NUMBER.fullmatch(text):
        return Operand(number=int(text, 16))
    if " fs:" in text:
        raise Refused("it reads what the thread has, as a stack protector does, which calls another function")
    if not re.fullmatch(r"[a-z]+\d*[bwd]?", text):
        raise Refused(f"an operand that is not known: {text}")
    # The size of a mask register does not matter.
    return Operand(VECTORS.get(text[:3]) or REGISTERS.get(text, (text, 8))[1], register=text)


def texts(path):
    """What objdump reads in a file: by its address, the bytes and the text of each instruction."""
    lines = map(LINE.match, output("objdump", "-dw", "-Mintel", path).splitlines())
    return {int(it[1], 16): (bytes.fromhex(it[2]), it[3].strip().removeprefix("{evex} ")) for it in lines if it}


def is_space(text):
    """Whether an instruction only fills space, or should not be reached."""
    return bool(NOP.fullmatch(text)) or text in ("int3", "ud2")


@functools.lru_cache(None)
def instruction(at, code, text):
    """The instruction at an address. It is refused if two programs do not read it alike."""
    if NOP.fullmatch(text):
        return Instruction(at, at + len(code), code, text, "nop", ())
    name, _, rest = text.partition(" ")
    operands = tuple(map(operand, filter(None, rest.strip().split(","))))
    read = Instruction(at, at + len(code), code, text, name, operands)
    if not is_wide(read):
        compare(read)
    return read


def is_wide(read):
    return read.code[0] == EVEX or read.name[0] == "k"


def compare(read):
    """Refuses an instruction that Capstone reads in another way. Capstone does not know vbroadcasti128, so it gets the
    code of vbroadcastf128, which does the same."""
    code, name = read.code, read.name
    if name == "vbroadcasti128":
        code, name = code[:3] + b"\x1a" + code[4:], "vbroadcastf128"
    found = next(READER.disasm(code, read.at, 1), None)
    if found is None or found.addr_size == 4 or \
            (found.size, found.mnemonic, len(found.operands)) != (len(code), name, len(read.operands)):
        raise Refused(f"Capstone reads {found and found.mnemonic} in place of {read.text}")
    size = 8 * min(8, read.operands[0].size or 8) if read.operands else 64
    for it, other in zip(read.operands, found.operands):
        if comparable(it, size) != comparable(of_capstone(found, other), size):
            raise Refused(f"Capstone reads {found.mnemonic} {found.op_str} in place of {read.text}")


def of_capstone(found, it):
    if it.type == X86_OP_REG:
        return Operand(register=found.reg_name(it.reg))
    if it.type == X86_OP_IMM:
        return Operand(number=it.imm)
    base, index = (found.reg_name(at) if at else None for at in (it.mem.base, it.mem.index))
    is_whole = found.mnemonic == "lea" or it.mem.segment
    return Operand(None if is_whole else it.size, address=(base, index, it.mem.scale if index else 1, it.mem.disp))


def comparable(it, bits):
    """The parts of an operand on which both programs must agree. A number counts modulo 2 to the power of `bits`."""
    *parts, distance = it.address or [None]
    where = it.size if it.address else None, *parts, distance and distance % 2**64
    return it.register, where, None if it.number is None else it.number % 2**bits


def assembles(reads):
    """Refuses instructions of AVX-512 if `as` does not make the same bytes of their texts."""
    reads = [it for it in reads if is_wide(it)]
    with tempfile.TemporaryDirectory() as folder:
        made, lines = Path(folder) / "made", [f"{'{evex} ' * (it.code[0] == EVEX)}{it.text}\n" for it in reads]
        words = "as", "-msyntax=intel", "-mnaked-reg", "-o", made, "-"
        done = subprocess.run(words, input="".join(lines), text=True, stderr=subprocess.DEVNULL)
        again = [] if done.returncode else [code for code, _ in texts(made).values()]
    if again != [it.code for it in reads]:
        raise Refused("`as` makes other bytes of an instruction of AVX-512")
