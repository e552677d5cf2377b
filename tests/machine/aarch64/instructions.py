"""The effect of each instruction, for symbolic execution. The tables map a mnemonic to a function that performs the
instruction on a Step of operands.py. The instruction must have one of the forms of forms.py. Flags have the names of
terms.py in place of Arm's N, Z, C and V. After a subtraction, the carry is set if nothing was borrowed."""
import operator
from functools import partial

import z3
from z3 import And, BitVecVal, Extract, If, LShR, Not, Or, UDiv, UGE, ULT, Xor

from .. import Refused
from ..terms import SIGNED, ZERO, alternated, always, are_all_zero, bits_and_not, by_lanes, carry_of_sum, chosen, \
    is_negative, lanes_of, lesser, never, overflow_of_difference, overflow_of_sum, saturated_difference
from ..values import apply, bytes_of, constant


# Functions from terms to terms, as in terms.py.

def first_and_not(a, b):
    return bits_and_not(b, a)


def increment_if(holds, value):
    return If(holds, value + 1, value)


def multiply_and_subtract(a, b, value):
    return value - a * b


def quotient(a, b):
    return If(b == 0, BitVecVal(0, a.size()), UDiv(a, b))


def select_bits(mask, a, b):
    """Takes each bit from the first of two values if its bit in a mask is set, and otherwise from the second."""
    return a & mask | b & ~mask


def looked_up(control, *table):
    """The byte of a table that a control byte selects, or 0 if the table is too short."""
    return If(ULT(control, len(table)), chosen(control, *table), BitVecVal(0, 8))


IS_CLEAR = [lambda term, at=at: Extract(at, at, term) == 0 for at in range(64)]
SHIFTS = {"lsl": operator.lshift, "lsr": LShR, "asr": operator.rshift}
# Functions of two operands that give the result, the carry flag and the overflow flag.
ARITHMETIC = {
    "add": (operator.add, carry_of_sum, overflow_of_sum), "sub": (operator.sub, UGE, overflow_of_difference),
    "and": (operator.and_, never, never), "orr": (operator.or_, never, never), "eor": (operator.xor, never, never),
    "bic": (first_and_not, never, never),
}
# Instructions that combine two vectors lane by lane, with the function of two lanes.
LANES = {name: ARITHMETIC[name][0] for name in ("add", "sub", "and", "orr", "eor")}
LANES |= {"mul": operator.mul, "umin": lesser, "uqsub": saturated_difference, "uaddw": operator.add,
          "usubw": operator.sub}
# Each condition as a function of flags.
CONDITIONS = {"eq": (And, "z"), "cs": (And, "c"), "mi": (And, "s"), "lt": (Xor, "so"),
              "ls": (lambda carry, zero: Or(Not(carry), zero), "cz"),
              "le": (lambda zero, sign, overflow: Or(zero, Xor(sign, overflow)), "zso")}
OPPOSITES = {"ne": "eq", "cc": "cs", "pl": "mi", "ge": "lt", "hi": "ls", "gt": "le"}
# Each condition with its opposite.
OPPOSITE = OPPOSITES | {other: it for it, other in OPPOSITES.items()}
CONDITIONS |= OPPOSITES


# Instructions that write a general register. Each function returns the value that is written.

def arithmetic(name, step):
    return apply(ARITHMETIC[name][0], step.get(1), step.get(2))


def set_flags(name, step, a, b):
    function, carry, overflow = ARITHMETIC[name]
    value = apply(function, a, b)
    step.state.flags.update(z=(are_all_zero, value), s=(is_negative, value), c=(carry, a, b), o=(overflow, a, b))
    return value


def divide(step):
    """udiv. Its time depends on the operands, so these must be public. Z3 is slow with divisions by unknown numbers, so
    a quotient that is known to be 0 is not computed."""
    a, b = step.get(1), step.get(2)
    if a.of or b.of:
        raise Refused("a division of what depends on the bytes")
    return step.constant(0) if step.machine.is_shown(step.state, ULT(a.term, b.term)) else apply(quotient, a, b)


def move_bits(is_left, is_kept, step):
    """Moves bits of the second operand up to a place or down from it. The other bits are kept, or are zero."""
    at, count = step.number(2), step.number(3)
    value = apply(operator.lshift if is_left else LShR, step.get(1), step.constant(at))
    mask = step.constant(2**count - 1 << at * is_left)
    return apply(select_bits, mask, value, step.get(0) if is_kept else step.constant(0))


def choose(step):
    return apply(If, step.condition(3), step.get(1), step.get(2))


def set_if(number, step):
    return apply(If, step.condition(1), step.constant(number), step.constant(0))


GENERAL = {
    **{name: partial(arithmetic, name) for name in ARITHMETIC},
    "subs": lambda step: set_flags("sub", step, step.get(1), step.get(2)),
    "ands": lambda step: set_flags("and", step, step.get(1), step.get(2)),
    "neg": lambda step: apply(operator.sub, step.constant(0), step.get(1)),
    "mul": lambda step: apply(operator.mul, step.get(1), step.get(2)),
    "msub": lambda step: apply(multiply_and_subtract, *map(step.get, (1, 2, 3))), "udiv": divide,
    **{name: lambda step, function=function: apply(function, step.get(1), step.get(2))
       for name, function in SHIFTS.items()},
    "ubfx": partial(move_bits, False, False), "ubfiz": partial(move_bits, True, False),
    "bfxil": partial(move_bits, False, True), "bfi": partial(move_bits, True, True),
    "sxtb": lambda step: apply(SIGNED[step.size() - 1], step.bytes(1)[0]),
    "csel": choose, "cset": partial(set_if, 1), "csetm": partial(set_if, -1),
    "cinc": lambda step: apply(increment_if, step.condition(2), step.get(1)),
    **dict.fromkeys(("mov", "fmov", "umov"), lambda step: step.get(1)),
    "adrp": lambda step: step.machine.image.address(step.number(1)),
}


# Instructions that write a vector. Each function returns the bytes that are written.

def repeated(number, size, count):
    return bytes_of(constant(number, size)) * (count // size)


def lanewise(function, step):
    """Combines two vectors. The second may be one lane that is used for all, or may have lanes of half the size."""
    second, size = step.bytes(2), step.lane()
    if step.lane(2) < size:
        second = alternated(size // 2, second, [ZERO] * len(second))
    return by_lanes(function, size, step.bytes(1), second * (step.size() // len(second)))


def clear_bits(step):
    number = step.number(1) << (step.number(2) if step.has(2) else 0)
    return by_lanes(first_and_not, step.lane(), step.bytes(0), repeated(number, step.lane(), step.size()))


def shift_lanes(step):
    """ushr shifts each lane. xtn writes only the lower half of each lane, and shrn does so after a shift."""
    size, values = step.lane(1), step.bytes(1)
    shifted = by_lanes(LShR, size, values, repeated(step.number(2) if step.has(2) else 0, size, len(values)))
    return [byte for lane in lanes_of(shifted, size) for byte in lane[:step.lane()]]


def every_other(begin, step):
    """uzp1 and uzp2: every other lane of two vectors."""
    return [byte for lane in lanes_of(step.bytes(1) + step.bytes(2), step.lane())[begin::2] for byte in lane]


def alternate(is_upper, step):
    """zip1 and zip2: alternates the lanes of the lower or upper halves of two vectors."""
    half = step.size() // 2
    return alternated(step.lane(), *[step.bytes(at)[half * is_upper:][:half] for at in (1, 2)])


def look_up(step):
    table = [byte for at in step.operands[1].registers for byte in step.state.vectors[at]]
    for it in step.bytes(2):
        if it.number is None:
            yield apply(looked_up, it, *table)
        else:
            yield table[it.number] if it.number < len(table) else ZERO


def select(mask, others, step):
    """bit and bsl: takes each bit from the second operand if its bit in the mask is set, otherwise from another one."""
    return [apply(select_bits, *it) for it in zip(step.bytes(mask), step.bytes(1), step.bytes(others))]


VECTORS = {
    **{name: partial(lanewise, function) for name, function in LANES.items()}, "bic": clear_bits,
    **dict.fromkeys(("ushr", "shrn", "xtn"), shift_lanes),
    "uxtl": lambda step: alternated(step.lane(1), step.bytes(1), [ZERO] * step.size(1)),
    "uzp1": partial(every_other, 0), "uzp2": partial(every_other, 1),
    "zip1": partial(alternate, False), "zip2": partial(alternate, True),
    "ext": lambda step: (step.bytes(1) + step.bytes(2))[step.number(3):][:step.size()],
    "tbl": look_up, "bit": partial(select, 2, 0), "bsl": partial(select, 0, 2),
    **dict.fromkeys(("mov", "fmov"), lambda step: step.bytes(1)[:step.size()]),
    "dup": lambda step: step.bytes(1)[:step.lane()] * (step.size() // step.lane()),
    "movi": lambda step: repeated(step.number(1), step.lane(), step.size()),
}


# Other instructions. Their functions change the state themselves.

def compare(name, step):
    set_flags(name, step, step.get(0), step.get(1))


def compare_if(step):
    """ccmp: compares if a condition holds. Otherwise the bits of a number become the flags."""
    holds, number = step.condition(3).term, step.number(2)
    if z3.is_true(holds):
        compare("sub", step)
    elif z3.is_false(holds):
        step.state.flags = {it: (always if number >> at & 1 else never, ZERO) for at, it in enumerate("oczs")}
    else:
        raise Refused("a comparison that depends on the bytes")


def load(size, count, step):
    """Loads `count` registers of `size` bytes each, or whole registers if `size` is None."""
    size = size or step.size()
    values = step.machine.load(step.state, step.address(count), size * count)
    for at, it in enumerate(lanes_of(values, size)):
        step.write(it, at)
    step.moves_base(count)


def store(size, count, step):
    values = [byte for at in range(count) for byte in step.bytes(at)[:size or step.size()]]
    step.machine.store(step.state, step.address(count), values)
    step.moves_base(count)


def load_repeated(step):
    step.write(step.machine.load(step.state, step.address(1), step.lane()) * (step.size() // step.lane()))


def store_alternating(step):
    """st2: alternates the lanes of two vectors in memory."""
    both = [step.state.vectors[at][:step.size()] for at in step.operands[0].registers]
    step.machine.store(step.state, step.address(1), alternated(step.lane(), *both))
    step.moves_base(1)


OTHERS = {
    "cmp": partial(compare, "sub"), "cmn": partial(compare, "add"), "tst": partial(compare, "and"), "ccmp": compare_if,
    # `bti` only marks where a call by a register may land. No instruction with a model calls so.
    **dict.fromkeys(("nop", "bti"), lambda step: None),
    **dict.fromkeys(("ldr", "ldur", "ld1"), partial(load, None, 1)), "ldp": partial(load, None, 2),
    **dict.fromkeys(("ldrb", "ldurb"), partial(load, 1, 1)), **dict.fromkeys(("ldrh", "ldurh"), partial(load, 2, 1)),
    **dict.fromkeys(("str", "stur"), partial(store, None, 1)), "stp": partial(store, None, 2),
    **dict.fromkeys(("strb", "sturb"), partial(store, 1, 1)), **dict.fromkeys(("strh", "sturh"), partial(store, 2, 1)),
    "ld1r": load_repeated, "st2": store_alternating,
}
