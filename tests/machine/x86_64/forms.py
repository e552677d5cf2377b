"""The forms of instructions that have a model. For each mnemonic they give the lowest level of x86-64 that has it, and
which operands it may have. An instruction of another form is refused. test_machine.py runs each form on the processor.

A row of TEXT has a level, mnemonics, sizes, and forms. A form lists the operands in the order of Intel. An operand is
`r` or `m` with a number of bytes for a register or memory, `x`, `y` or `z` for a vector of 16, 32 or 64 bytes, `k` for
a mask, `b` with a number of bytes for memory that is repeated in all lanes, or `i` for a number. `B4` and `B8` mean
`b4` and `b8`. Other capital letters stand for operands of each of the row's sizes: `R` for a register, `M` for memory,
`V` for a vector, `E` for R or M, `W` for V or M, and `H` for a vector or memory of half the size. A mnemonic with `(v)`
is one of SSE and of AVX. That of SSE has only the first size, and where a form begins with the same operand twice, it
names this operand once. An instruction that is encoded by EVEX has at least level 4."""
import itertools
import re
from collections import defaultdict

from .code import EVEX

WIDTHS = {"x": 16, "y": 32, "z": 64}
TEXT = """
2 | add sub and or xor adc cmp test mov | 1 2 4 8 | E,R R,M E,i
2 | inc dec neg not | 1 2 4 8 | E
2 | shl shr sar | 1 2 4 8 | E,i
2 | imul | 2 4 8 | R,E
2 | div | 4 8 | E
2 | lea | 2 4 8 | R,m0
2 | movzx movsx | 1 | r2,E r4,E r8,E
2 | movzx movsx | 2 | r4,E r8,E
2 | movsxd | 4 | r8,E
2 | cdqe leave ret nop endbr64 | 0 | -
2 | movabs | 8 | R,i
2 | push | 8 | E i
2 | pop jmp | 8 | R
2 | jmp call je jne jb jae jbe ja js jns jl jge jle jg | 0 | i
2 | sete setne setb setae setbe seta sets setns setl setge setle setg | 1 | E
2 | cmove cmovne cmovb cmovae cmovbe cmova cmovs cmovns cmovl cmovge cmovle cmovg | 2 4 8 | R,E
3 | andn | 4 8 | R,R,E
3 | bzhi | 4 8 | R,E,R
2 | paddb(v) psubb(v) paddw(v) paddusb(v) psubusb(v) pmullw(v) pminub(v) pmaxub(v) | x y z | V,V,W
2 | pshufb(v) packuswb(v) punpcklbw(v) punpckhbw(v) punpcklqdq(v) | x y z | V,V,W
2 | por(v) pand(v) pxor(v) xorps(v) | x y | V,V,W
4 | vpord vpandd vpxord | x y z | V,V,W V,V,B4
4 | vporq vpandq vpxorq | x y z | V,V,W V,V,B8
2 | psllw(v) psrlw(v) | x y z | V,V,i
2 | pshufd pshuflw | x | V,W,i
3 | vpermq | y z | V,W,i
5 | vpermb vpermt2b vpermi2b | x y z | V,V,W
4 | vpermi2q vpermt2q | x y z | V,V,W V,V,B8
3 | vpblendd | x y | V,V,W,i
3 | vperm2i128 | y | V,V,W,i
4 | vshufi64x2 | y z | V,V,W,i
3 | vextracti128 | x | V,y,i M,y,i
3 | vinserti128 | y | V,V,H,i
4 | vinserti64x4 | z | V,V,H,i
2 | pinsrb(v) | 1 | x,x,r4,i x,x,M,i
2 | pinsrw(v) | 2 | x,x,r4,i x,x,M,i
2 | pinsrd(v) | 4 | x,x,E,i
2 | pextrb(v) | 1 | r4,x,i M,x,i
2 | pextrw(v) | 2 | r4,x,i M,x,i
2 | pextrd(v) | 4 | E,x,i
2 | pextrq(v) | 8 | E,x,i
2 | movd(v) | 4 | x,E E,x
2 | movq(v) | 8 | x,E E,x x,x
2 | movdqu(v) | x y | V,W M,V
2 | movdqa(v) | x y | V,W
2 | movdqa(v) | x | M,V
2 | movups movaps | x | V,W M,V
4 | vmovdqu64 | x y z | V,W M,V
4 | vmovdqa64 | x y z | V,W
3 | vpbroadcastb | x y z | V,x V,m1 V,r4
3 | vpbroadcastw | x y z | V,x V,m2
3 | vpbroadcastd | x y z | V,x V,m4
3 | vpbroadcastq | x y z | V,x V,m8
3 | vbroadcasti128 | y | V,m16
4 | vbroadcasti32x4 | y z | V,m16
4 | vpmovwb | x y z | H,V
2 | ptest(v) | x y | V,W
4 | vpternlogd | x y z | V,V,W,i V,V,B4,i
4 | vpternlogq | x y z | V,V,W,i V,V,B8,i
4 | vptestmd | x y z | k,V,W k,V,B4
4 | kortestw | 0 | k,k
4 | kmovq | 8 | R,k
3 | vzeroupper | 0 | -
"""


def kinds(letter, size):
    half = {"x": ["x", "m8"], "y": ["x", "m16"], "z": ["y", "m32"]}.get(size)
    memory = f"m{WIDTHS.get(size, size)}"
    return {"R": [f"r{size}"], "M": [memory], "E": [f"r{size}", memory], "V": [size], "W": [size, memory], "H": half,
            "B4": ["b4"], "B8": ["b8"], "-": [""]}.get(letter, [letter])


def expanded(patterns, sizes):
    each = [(it.split(","), size) for it in patterns.split() for size in sizes.split()]
    return {",".join(it) for letters, size in each for it in itertools.product(*[kinds(a, size) for a in letters])}


def read():
    """The forms of each mnemonic, each with the lowest level that has it."""
    found = defaultdict(dict)
    for line in TEXT.strip().splitlines():
        level, names, sizes, patterns = line.split(" | ")
        first, once = sizes.split()[0], re.sub(r"\b(\w+),\1,", r"\1,", patterns)
        for name in names.split():
            if name.endswith("(v)"):
                found[name[:-3]] |= dict.fromkeys(expanded(once, first), int(level))
                found[f"v{name[:-3]}"] |= dict.fromkeys(expanded(patterns, sizes), 3)
            else:
                found[name] |= dict.fromkeys(expanded(patterns, sizes), int(level))
    return dict(found)


FORMS, LEVEL_OF_EVEX = read(), 4


def kind_of(operand):
    if operand.number is not None:
        return "i"
    if operand.address:
        return f"{'b' if operand.is_repeated else 'm'}{operand.size or 0}"
    return operand.register[0] if operand.size > 8 or operand.register[0] == "k" else f"r{operand.size}"


def level_of(instruction):
    """The lowest level of x86-64 that has an instruction, or None if the instruction has no model."""
    form = ",".join(map(kind_of, instruction.operands))
    found = FORMS.get(instruction.name, {}).get(form)
    return found and max(found, LEVEL_OF_EVEX if instruction.code[0] == EVEX else 0)
