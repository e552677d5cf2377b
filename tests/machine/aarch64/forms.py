"""The forms of instructions that have a model: for each mnemonic which operands it may have. An instruction of another
form is refused.

A row of TEXT has mnemonics, kinds, and forms, in which `R` stands for each of the kinds. An operand is `x` or `w` for a
general register of 64 or 32 bits, `sp`, a scalar `b`, `h`, `s`, `d` or `q` of 1 to 16 bytes, a vector by its lanes such
as `16b`, one lane such as `b[]`, vectors in braces, `i` for a number, `c` for a condition, `to` for an address, or the
name of a shift or an extension. Memory at a base and a distance is `m`, and a number that follows it is added to the
base after the access. Memory is `m!` if the base becomes the address before the access, and `mx` if an index is added
to the base, which may be shifted."""
from collections import defaultdict

TEXT = """
add sub and orr eor bic | x w | R,R,R R,R,R,lsl R,R,R,lsr R,R,R,asr
add sub and orr eor subs ands | x w | R,R,i
add sub | x | R,sp,i sp,sp,i R,R,w,uxtb
subs | x w | R,R,R
cmp cmn tst | x w | R,R R,i
cmp | x w | R,R,lsl R,R,lsr
neg | x w | R,R
mul udiv | x w | R,R,R
msub | x w | R,R,R,R
lsl lsr asr | x w | R,R,i
ubfx ubfiz bfi bfxil | x w | R,R,i,i
sxtb | w | R,R
csel | x w | R,R,R,c
cinc | x w | R,R,c
cset csetm | x w | R,c
ccmp | x w | R,i,i,c R,R,i,c
mov | x w | R,R R,i
mov | x | R,sp
adrp | x | R,to
cbz cbnz | x w | R,to
tbz tbnz | x w | R,i,to
b bl b.eq b.ne b.cs b.cc b.mi b.pl b.hi b.ls b.ge b.lt b.gt b.le | - | to
ret nop | - | -
bti | - | bti
ldr str | x w b h s d q | R,m R,m,i R,m! R,mx
ldrb strb ldrh strh | w | R,m R,m,i R,m! R,mx
ldur stur | x w b h s d q | R,m
ldurb sturb ldurh sturh | w | R,m
ldp stp | x w s d q | R,R,m R,R,m,i R,R,m!
ld1 | b h s d | {R}[],m
ld1r | 16b 8b 8h 4h 4s 2s 2d | {R},m
st2 | 16b 8b 8h 4h 4s 2s 2d | {R,R},m {R,R},m,i
add sub uqsub | 16b 8b 8h 4h 4s 2s 2d | R,R,R
umin mul | 16b 8b 8h 4h 4s 2s | R,R,R
mul | 8h 4h | R,R,h[]
and orr eor bit bsl | 16b 8b | R,R,R
uzp1 uzp2 zip1 zip2 | 16b 8b 8h 4h 4s 2s 2d | R,R,R
bic | 8h 4h 4s 2s | R,i R,i,lsl
movi | 16b 8b 8h 4h 4s 2s 2d d | R,i
mov | 16b 8b | R,R
mov | b h s d | R[],R[] R,R[]
mov | b h s | R[],w
mov | d | R[],x
umov | b h | w,R[]
dup | 16b 8b 8h 4h 4s 2s | R,w
dup | - | 16b,b[] 8b,b[] 8h,h[] 4h,h[] 4s,s[] 2s,s[] 2d,d[]
fmov | - | x,d d,x d,d s,w w,s s,s
ext | 16b 8b | R,R,R,i
ushr | 16b 8b 8h 4h 4s 2s 2d | R,R,i
shrn | - | 8b,8h,i 4h,4s,i 2s,2d,i
xtn | - | 8b,8h 4h,4s 2s,2d
uxtl | - | 8h,8b 4s,4h 2d,2s
uaddw usubw | - | 8h,8h,8b 4s,4s,4h 2d,2d,2s
tbl | 16b 8b | R,{16b},R R,{16b,16b},R
"""


def read():
    found = defaultdict(set)
    for line in TEXT.strip().splitlines():
        names, kinds, patterns = line.split(" | ")
        for name in names.split():
            found[name] |= {it.replace("R", kind) for it in patterns.split() for kind in kinds.split()}
    return dict(found)


FORMS = read()


def level_of(instruction):
    """The level 1, which each processor has, or None if the form of an instruction is not listed."""
    form = ",".join(it.kind for it in instruction.operands) or "-"
    return 1 if form in FORMS.get(instruction.name, ()) else None
