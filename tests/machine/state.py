"""The state of a path: what registers, flags and memory hold, and what is known because the path was taken.

A byte of the source is named by the id of a term and a number, and the sum of the term and the number is its index. Two
names may mean the same byte, because blocks overlap. A set of indices is a list of spans. A span is a pair of terms:
its first index, and the index after its last one."""
import copy

import z3

from .values import Value, constant, is_proved, unknown

# Where source, destination and stack begin, and where the file with the library is loaded.
SOURCE, DESTINATION, STACK, IMAGE = BASES = [
    Value(z3.BitVec(it, 64)) for it in ("source", "destination", "stack", "image")]
LENGTH, ROOM = Value(z3.BitVec("length", 64)), Value(z3.BitVec("room", 64))
POLICY, SEPARATOR = Value(z3.BitVec("policy", 8)), Value(z3.BitVec("separator", 8))
RETURN, NONE, INDEX = unknown("return", 8), constant(0, 8), z3.BitVec("index", 64)

# A solver without conditions. Its model, which is completed on demand, gives the value 0 to each variable.
EMPTY = z3.Solver()
EMPTY.check()


def difference(a, b):
    """The number by which the first of two terms is greater, or None if it is not always the same. Z3 writes some equal
    terms in two ways, and does not simplify their difference to a number. Then Z3 must prove that the difference is
    always what it is if all variables are 0."""
    it = z3.simplify(a - b)
    number = it if z3.is_bv_value(it) else EMPTY.model().eval(it, True)
    is_one = number is it or is_proved(("difference", it.get_id()), lambda: [it != number])
    return number.as_signed_long() if is_one else None


def is_in(spans, index):
    return z3.Or(*[z3.And(z3.ULE(start, index), z3.ULT(index, end)) for start, end in spans])


def indices(spans):
    return {at for start, end in spans for at in range(start.as_long(), end.as_long())}


def ids(it):
    """The ids that Z3 gives to the terms of some values or spans. Terms are compared by these and never as text,
    because Z3 prints some different terms alike."""
    if isinstance(it, tuple):
        return tuple(map(ids, it))
    return it.id if isinstance(it, Value) else it.get_id()


class State:
    """What is known at a place of a path. All of it is true of each execution that takes this path. An earlier state of
    the same place may stand for this one, and the general state of a loop stands for all states before its turns. So
    loops.py must compare each field that is read later, or make its value unknown, or forget it. Exceptions are the
    fields whose comments say why this is not needed."""

    def __init__(self, at, processor):
        self.at = at
        # The values of places: registers, bytes of vectors, and bytes of the stack.
        self.registers, self.vectors = {**processor.before}, [[*it] for it in processor.vectors]
        self.stack = {**processor.stack}
        # The flags, and 64 bits of each mask register that was written. loops.py forgets both when it compares states.
        self.flags, self.masks = dict.fromkeys("czso"), {}
        # Conditions on public values that hold; the spans of the source whose bytes are valid digits; for each test
        # that failed, the spans in which some byte is no digit; and the spans of the destination that were written.
        self.facts, self.valid, self.refused, self.written = (), (), (), ()
        # The most branches on bytes so far, without those in turns of loops.
        self.tests = 0
        # The conditions under which the accesses since the last branch are allowed, each with the address of its
        # instruction. They are proved before a fact is added, at the head of a loop and at the end of the path.
        self.claims = ()
        # The loops from whose general states this path descends, by the addresses of their heads; how many turns have a
        # name; and the addresses where the path was joined. The last two keep apart the names of a state's unknowns.
        self.loops, self.turns, self.joins = {}, 0, frozenset()
        # Fields that only guide the search, where a wrong value costs time or ends in a refusal: how many facts were
        # known when the source was first read; whether the path has just forgotten some; the addresses that it has
        # executed, and how many instructions; the value that its last branch on public values compared with zero, with
        # the condition that held there and its name; and the addresses to which functions return.
        self.early, self.is_general, self.passed, self.steps, self.gap, self.calls = None, False, set(), 0, None, ()

    def copy(self):
        other = copy.copy(self)
        other.registers, other.flags, other.vectors = {**self.registers}, {**self.flags}, [[*it] for it in self.vectors]
        other.stack, other.masks, other.loops = {**self.stack}, {**self.masks}, {**self.loops}
        other.passed = {*self.passed}
        return other

    def values(self):
        vectors = {(at, to): it for at, vector in enumerate(self.vectors) for to, it in enumerate(vector)}
        return self.registers | vectors | self.stack

    def put(self, values):
        self.registers = {it: values[it] for it in self.registers}
        self.vectors = [[values[at, to] for to in range(len(it))] for at, it in enumerate(self.vectors)]
        self.stack = {it: value for it, value in values.items() if type(it) is int}

    def forget_flags(self):
        self.flags, self.masks, self.gap = dict.fromkeys("czso"), {}, None
