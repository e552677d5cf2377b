"""The effect of each instruction, for symbolic execution. TABLE maps a mnemonic, without the v of AVX, to a function
that performs the instruction on a Step of operands.py. The instruction must have one of the forms of forms.py.
test_machine.py runs each instruction on the processor too, and compares the results."""
import operator
from functools import partial

from z3 import And, BitVecVal, BoolVal, Extract, If, LShR, Or, UDiv, ULT, URem, Xor, ZeroExt

from .. import Refused
from ..terms import SIGNED, ZERO, alternated, are_all_zero, bits_and_not, by_lanes, carry_of_sum, chosen, \
    is_negative, lanes_of, lesser, never, overflow_of_difference, overflow_of_sum, saturated_difference, spread
from ..values import Value, apply, bytes_of, concat, constant, joined


# Functions from terms to terms, as in terms.py.

def have_common_bit(a, b):
    """The bit 1 if some bit is set in both terms, otherwise 0."""
    return If(a & b != 0, BitVecVal(1, 1), BitVecVal(0, 1))


def saturate_word(word):
    """A signed word as an unsigned byte: 0 if it is below 0, and 255 if it is above 255."""
    return If(word < 0, BitVecVal(0, 8), If(word > 255, BitVecVal(255, 8), Extract(7, 0, word)))


def shuffle_byte(control, *lane):
    """The byte of 16 that the lowest four bits of a control byte select, or 0 if the highest bit of this is set."""
    return If(control < 0, BitVecVal(0, 8), chosen(control, *lane))


def ternary_logic(number, a, b, c):
    """Combines three bytes bit by bit. Three bits can be combined in eight ways, and for each of them one bit of the
    number is the result."""
    result = BitVecVal(0, 8)
    for way in range(8):
        is_way = (a if way & 4 else ~a) & (b if way & 2 else ~b) & (c if way & 1 else ~c)
        result = result | If(Extract(way, way, number) == 1, is_way, BitVecVal(0, 8))
    return result


def are_all_one(*terms):
    return And(*[it == 1 for it in terms])


def add_with_carry(a, b, carry):
    return a + b + If(carry, BitVecVal(1, a.size()), BitVecVal(0, a.size()))


def carry_with_carry(a, b, carry):
    """The carry of two terms and a carry: the highest bit of their sum if it is computed with one more bit."""
    return Extract(a.size(), a.size(), add_with_carry(ZeroExt(1, a), ZeroExt(1, b), carry)) == 1


def overflow_with_carry(a, b, carry):
    return (~(a ^ b) & (a ^ add_with_carry(a, b, carry))) < 0


# Functions of two operands, and for `adc` also of the carry flag, that give the result, the carry and the overflow.
ARITHMETIC = {
    "add": (operator.add, carry_of_sum, overflow_of_sum), "sub": (operator.sub, ULT, overflow_of_difference),
    "and": (operator.and_, never, never), "andn": (bits_and_not, never, never),
    "or": (operator.or_, never, never), "xor": (operator.xor, never, never),
    "adc": (add_with_carry, carry_with_carry, overflow_with_carry),
}
# Each condition as a function of flags.
CONDITIONS = {"b": (And, "c"), "e": (And, "z"), "be": (Or, "cz"), "s": (And, "s"), "l": (Xor, "so"),
              "le": (lambda zero, sign, overflow: Or(zero, Xor(sign, overflow)), "zso")}
OPPOSITES = {"ae": "b", "ne": "e", "a": "be", "ns": "s", "ge": "l", "g": "le"}
# Each condition with its opposite.
OPPOSITE = OPPOSITES | {other: it for it, other in OPPOSITES.items()}
CONDITIONS |= OPPOSITES
# Instructions that combine two vectors lane by lane: how many bytes a lane has, and the function of two lanes.
LANES = {
    "paddb": (1, operator.add), "psubb": (1, operator.sub), "paddw": (2, operator.add), "pmullw": (2, operator.mul),
    "paddusb": (1, lambda a, b: If(ULT(a + b, a), BitVecVal(255, 8), a + b)),
    "psubusb": (1, saturated_difference), "pminub": (1, lesser), "pmaxub": (1, lambda a, b: If(ULT(a, b), b, a)),
    "por": (1, operator.or_), "pand": (1, operator.and_), "pxor": (1, operator.xor), "xorps": (1, operator.xor),
}
# AVX-512 has a name for each size of lanes, because masks select lanes. Without a mask, the sizes make no difference.
LANES |= {name + size: LANES[name] for name in ("pand", "por", "pxor") for size in "dq"}


# Instructions that write their first operand. Each function returns the bytes that are written.

def move_low(size, step):
    """movd and movq: in a vector, the bytes above become zero."""
    return step.bytes(1, size) + [ZERO] * (16 - size if step.vector(0) else 0)


def extend_sign(step):
    return bytes_of(apply(SIGNED[step.size(0) - step.size(1)], step.get(1)))


def broadcast(size, step):
    return step.bytes(1, size) * (step.width // size)


def lanewise(size, function, step):
    return by_lanes(function, size, *step.sources())


def shift_lanes(size, function, step):
    values = lanes_of(step.bytes(-2, step.width), size)
    return spread([apply(function, joined(it), constant(step.number(-1), size)) for it in values])


def halfwise(function, step):
    """Applies a function to each lane of 16 bytes of two vectors."""
    both = zip(*[lanes_of(it, 16) for it in step.sources()])
    return [it for a, b in both for it in function(a, b)]


def shuffle_bytes(values, controls):
    return [apply(shuffle_byte, it, *values) if it.number is None else
            ZERO if it.number & 128 else values[it.number & 15] for it in controls]


def unpack(size, begin, a, b):
    """Alternates the lanes of two vectors, which have `size` bytes each, out of the eight bytes from `begin` on."""
    return alternated(size, a[begin:begin + 8], b[begin:begin + 8])


def shuffle_lanes(size, step):
    """Fills each of four lanes with the one of these four that two bits of a number select. The bytes after the four
    lanes are copied."""
    for it in lanes_of(step.bytes(1, step.width), max(16, 4 * size)):
        lanes = lanes_of(it, size)
        chosen = [lanes[step.number(-1) >> 2 * at & 3] for at in range(4)]
        yield from [byte for lane in chosen for byte in lane] + it[4 * size:]


def choose_halves(step):
    """perm2i128: for each half, two bits of a number select one of four halves, or another bit makes it zero."""
    halves = lanes_of(step.bytes(1, 32) + step.bytes(2, 32), 16)
    return [byte for at in (0, 4) for byte in ([ZERO] * 16 if step.number(3) >> at & 8 else
                                               halves[step.number(3) >> at & 3])]


def extract(size, step):
    """The lane that the lowest bits of a number select."""
    lanes = lanes_of(step.bytes(1, max(16, 2 * size)), size)
    return lanes[step.number(2) % len(lanes)]


def insert(size, step):
    """The vector with other bytes in the lane that the lowest bits of a number select."""
    values = step.bytes(-3, max(16, 2 * size))
    at = size * step.number(-1) % len(values)
    return values[:at] + step.bytes(-2, size) + values[at + size:]


def blend(step):
    """pblendd: takes a lane of four bytes from the second vector if its bit in a number is set, else from the first."""
    first, second = (lanes_of(step.bytes(at, step.width), 4) for at in (1, 2))
    return [it for at, both in enumerate(zip(first, second)) for it in both[step.number(3) >> at & 1]]


def combine_three(step):
    """pternlogd and pternlogq: the vector that is written is also the first one that is read."""
    number, vectors = constant(step.number(3), 1), [step.bytes(at, step.width) for at in range(3)]
    return [apply(ternary_logic, number, *it) for it in zip(*vectors)]


def choose_lanes(size, controls, vectors, step):
    """vperm: selects lanes of so many bytes from the operands at the places `vectors`. The operand at the place
    `controls` has a lane for each, whose lowest bits say which lane is taken."""
    lanes = lanes_of([byte for at in vectors for byte in step.bytes(at, step.width)], size)
    for it in map(joined, lanes_of(step.bytes(controls, step.width), size)):
        if it.number is None:
            yield from bytes_of(apply(chosen, it, *map(joined, lanes)))
        else:
            yield from lanes[it.number % len(lanes)]


def choose_quarters(step):
    """shufi64x2: selects lanes of 16 bytes, the lower half from one vector and the upper half from another one."""
    first, second = (lanes_of(step.bytes(it, step.width), 16) for it in (1, 2))
    half = bits = len(first) // 2
    for at, lanes in enumerate(half * [first] + half * [second]):
        yield from lanes[step.number(3) >> bits * at & len(lanes) - 1]


# Other instructions. Their functions change the state themselves.

def write_result(function, step):
    step.write(list(function(step)))


def set_with_flags(step, value, carry, overflow, is_kept=True):
    """Sets the flags, and writes the result if it is kept. The flags for zero and the sign follow from the result."""
    step.state.flags.update(z=(are_all_zero, value), s=(is_negative, value), c=carry, o=overflow)
    if is_kept:
        step.set(value)


def arithmetic(name, step, is_kept=True, counts=False, negates=False):
    """Does arithmetic and sets the flags. `cmp` and `test` do not keep the result. `inc` and `dec` add or subtract 1
    and keep the carry flag. `neg` subtracts from zero."""
    result, carry, overflow = ARITHMETIC[name]
    first = int(name == "andn")
    a = constant(0, step.size(0)) if negates else step.get(first)
    b = constant(1, step.size(0)) if counts else step.get(0 if negates else first + 1)
    read = (a, b, apply(*step.state.flags["c"])) if name == "adc" else (a, b)
    said = step.state.flags["c"] if counts else (carry, *read)
    set_with_flags(step, apply(result, *read), said, (overflow, *read), is_kept)


def multiply(step):
    """imul. Its flags are not modelled."""
    step.set(apply(operator.mul, step.get(0), step.get(1)))
    step.state.flags.update(dict.fromkeys("czso"))


def divide(step):
    """div: divides the number in rdx and rax, or in edx and eax, by an operand. All of them must be public. The upper
    half of the number must be zero, so that the quotient fits into a register."""
    size, divisor, is_shown = step.size(0), step.get(0), partial(step.machine.is_shown, step.state)
    low, high = (joined(bytes_of(step.state.registers[it])[:size]) for it in ("rax", "rdx"))
    if low.of or high.of or divisor.of or not is_shown(And(high.term == 0, divisor.term != 0)):
        raise Refused("a division that may trap")
    # Z3 is slow with divisions by unknown numbers, so a quotient that is known to be 0 is not computed.
    is_less = is_shown(ULT(low.term, divisor.term))
    quotient, rest = (constant(0, size), low) if is_less else (apply(it, low, divisor) for it in (UDiv, URem))
    step.write_register("rax" if size == 8 else "eax", bytes_of(quotient))
    step.write_register("rdx" if size == 8 else "edx", bytes_of(rest))
    step.state.flags.update(dict.fromkeys("czso"))


def leave(step):
    step.write_register("rsp", bytes_of(step.state.registers["rbp"]))
    step.write_register("rbp", bytes_of(step.pop()))


def keep_low_bits(step):
    """bzhi: keeps as many of the lowest bits as a byte says. The value of this byte must be known."""
    count, value, bits = step.bytes(2, 1)[0].number, step.get(1), 8 * step.size(0)
    value = apply(operator.and_, value, constant(2**min(count, bits) - 1, bits // 8))
    set_with_flags(step, value, (partial(BoolVal, count >= bits),), (never,))


def shift(function, step):
    """A shift by the lowest bits of a number, as the processor does it. Carry and overflow have no model."""
    count = step.number(1) & (63 if step.size(0) == 8 else 31)
    value = apply(function, step.get(0), constant(count, step.size(0)))
    if count:
        set_with_flags(step, value, None, None)
    else:
        step.set(value)


def choose_if(name, step):
    """cmovCC gives the second operand if the condition holds, otherwise the first. setCC gives the byte 1 or 0."""
    holds, is_move = step.condition(name), len(step.operands) == 2
    step.set(apply(If, holds, *((step.get(1), step.get(0)) if is_move else (constant(1, 1), ZERO))))


def zero_upper(step):
    for it in step.state.vectors:
        it[16:] = [ZERO] * (len(it) - 16)


def test_lanes(step):
    """ptestmd: each bit of the mask says whether two lanes have a set bit in common. The bits above are zero."""
    both = zip(*[lanes_of(step.bytes(at, step.width), 4) for at in (1, 2)])
    bits = [apply(have_common_bit, joined(a), joined(b)) for a, b in both]
    step.state.masks[step.operands[0].register] = bits + [Value(BitVecVal(0, 1))] * (64 - len(bits))


def test_masks(step):
    """kortestw: sets z if the lowest 16 bits of both masks are 0, and c if each of these bits is set in one of them."""
    bits = [apply(operator.or_, *both) for both in zip(*[step.state.masks[it.register][:16] for it in step.operands])]
    step.state.flags.update(z=(are_all_zero, *bits), c=(are_all_one, *bits), s=(never,), o=(never,))


def test_bits(step):
    """ptest: sets z if both vectors have no set bit in common, and c if each bit of the second is set in the first."""
    both = list(zip(step.bytes(0, step.width), step.bytes(1, step.width)))
    common, only_second = ([apply(it, a, b) for a, b in both] for it in (operator.and_, bits_and_not))
    step.state.flags.update(z=(are_all_zero, *common), c=(are_all_zero, *only_second), s=(never,), o=(never,))


# Instructions that differ by the size of their lanes: their names, their function, and the size of each.
SIZED = (
    ("pinsrb pinsrw pinsrd inserti128 inserti64x4", insert, (1, 2, 4, 16, 32)),
    ("pextrb pextrw pextrd pextrq extracti128", extract, (1, 2, 4, 8, 16)),
    ("pbroadcastb pbroadcastw pbroadcastd pbroadcastq broadcasti128 broadcasti32x4", broadcast, (1, 2, 4, 8, 16, 16)),
    ("movd movq", move_low, (4, 8)), ("pshuflw pshufd permq", shuffle_lanes, (2, 4, 8)),
)
# The arguments of choose_lanes: the size of a lane, the place of the controls, and the places of the vectors.
CHOSEN = {"permb": (1, 1, (2,)), "permi2b": (1, 0, (1, 2)), "permi2q": (8, 0, (1, 2)), "permt2b": (1, 1, (0, 2)),
          "permt2q": (8, 1, (0, 2))}
HALVES = {"pshufb": shuffle_bytes, "punpcklbw": partial(unpack, 1, 0), "punpckhbw": partial(unpack, 1, 8),
          "punpcklqdq": partial(unpack, 8, 0),
          "packuswb": lambda a, b: [apply(saturate_word, joined(it)) for it in lanes_of(a + b, 2)]}
WRITTEN = {
    **dict.fromkeys("mov movabs movdqa movdqa64 movdqu movdqu64 movups movaps".split(),
                    lambda step: step.bytes(1, step.size(0))),
    "movzx": lambda step: step.bytes(1, step.size(1)) + [ZERO] * (step.size(0) - step.size(1)),
    "movsx": extend_sign, "movsxd": extend_sign, "pmovwb": lambda step: step.bytes(1, step.size(1))[::2],
    "lea": lambda step: bytes_of(step.address(1))[:step.size(0)], "pop": lambda step: bytes_of(step.pop()),
    "perm2i128": choose_halves, "pternlogd": combine_three,
    "pternlogq": combine_three, "pblendd": blend, "shufi64x2": choose_quarters,
    "psllw": partial(shift_lanes, 2, operator.lshift), "psrlw": partial(shift_lanes, 2, LShR),
    **{name: partial(choose_lanes, *it) for name, it in CHOSEN.items()},
    **{name: partial(lanewise, *it) for name, it in LANES.items()},
    **{name: partial(halfwise, function) for name, function in HALVES.items()},
    **{name: partial(function, size) for names, function, sizes in SIZED for name, size in zip(names.split(), sizes)},
}
TABLE = {
    **{name: partial(write_result, function) for name, function in WRITTEN.items()},
    **dict.fromkeys(("nop", "endbr64"), lambda step: None), "leave": leave, "zeroupper": zero_upper,
    **{name: partial(arithmetic, name) for name in ARITHMETIC},
    "cmp": partial(arithmetic, "sub", is_kept=False), "test": partial(arithmetic, "and", is_kept=False),
    "inc": partial(arithmetic, "add", counts=True), "dec": partial(arithmetic, "sub", counts=True),
    "neg": partial(arithmetic, "sub", negates=True), "not": lambda step: step.set(apply(operator.inv, step.get(0))),
    "imul": multiply, "div": divide, "bzhi": keep_low_bits,
    "cdqe": lambda step: step.write_register("rax", bytes_of(
        apply(SIGNED[4], joined(bytes_of(step.state.registers["rax"])[:4])))),
    "shl": partial(shift, operator.lshift), "shr": partial(shift, LShR), "sar": partial(shift, operator.rshift),
    **{begin + it: partial(choose_if, it) for begin in ("set", "cmov") for it in CONDITIONS},
    "ptest": test_bits, "ptestmd": test_lanes, "kortestw": test_masks, 
    "push": lambda step: step.push(constant(step.number(0), 8) if step.operands[0].number is not None else step.get(0)),
    "kmovq": lambda step: step.set(apply(concat, *step.state.masks[step.operands[1].register])),
}
