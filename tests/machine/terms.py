"""Functions from terms to terms of which the instructions of each processor are made. Each has a name here, because
values.py caches a term under the function that made it.

A term is a bit vector of Z3. There, `<`, `>` and `>>` take the highest bit for a sign, while ULT and LShR do not."""
from functools import partial

from z3 import And, BitVecVal, BoolVal, If, Not, SignExt, ULT

from . import Refused
from .values import apply, bytes_of, constant, joined

ZERO = constant(0, 1)
# Functions that extend a number with a sign by so many bytes.
SIGNED = {it: partial(SignExt, 8 * it) for it in range(1, 8)}


def bits_and_not(a, b):
    return ~a & b


def chosen(control, *lanes):
    """The lane that the lowest bits of a control lane select."""
    found = lanes[0]
    for at in range(1, len(lanes)):
        found = If(control & len(lanes) - 1 == at, lanes[at], found)
    return found


def saturated_difference(a, b):
    return If(ULT(a, b), BitVecVal(0, a.size()), a - b)


def lesser(a, b):
    return If(ULT(a, b), a, b)


# Functions that give a flag: c for carry, z for zero, s for sign, o for overflow. The state of a path has each flag as
# such a function with its operands.

def never(*_):
    return BoolVal(False)


def always(*_):
    return BoolVal(True)


def is_negative(term):
    return term < 0


def are_all_zero(*terms):
    return And(*[it == 0 for it in terms])


def carry_of_sum(a, b):
    return ULT(a + b, a)


def overflow_of_sum(a, b):
    return (~(a ^ b) & (a ^ (a + b))) < 0


def overflow_of_difference(a, b):
    return ((a ^ b) & (a ^ (a - b))) < 0


def condition(flags, table, name):
    """Whether a condition holds. The table has a condition as a function with its flags, or as the name of the opposite
    condition. A condition that needs a flag without a model is refused."""
    if isinstance(table[name], str):
        return apply(Not, condition(flags, table, table[name]))
    function, needed = table[name]
    if any(flags[it] is None for it in needed):
        raise Refused("a flag is not defined")
    return apply(function, *[apply(*flags[it]) for it in needed])


# Lists of bytes. Each byte is a Value, and the lowest byte comes first.

def lanes_of(values, size):
    return [values[at:at + size] for at in range(0, len(values), size)]


def spread(values):
    return [byte for value in values for byte in bytes_of(value)]


def by_lanes(function, size, *lists):
    """Applies a function to the lanes of `size` bytes that stand at the same place of each list."""
    return spread([apply(function, *map(joined, it)) for it in zip(*[lanes_of(one, size) for one in lists])])


def alternated(size, *lists):
    return [byte for lanes in zip(*[lanes_of(it, size) for it in lists]) for lane in lanes for byte in lane]
