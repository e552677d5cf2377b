"""What must hold of a call of faster_hex.h, or of a call for Rust, for a source of any length. The call is executed
symbolically, and the state at the end of each path is compared with the definitions of hexadecimal.py."""
import operator

import z3

from . import Refused, hexadecimal
from .execution import Machine, valid_at
from .loops import IS_LONG
from .replay import Replay
from .state import DESTINATION, LENGTH, POLICY, ROOM, SEPARATOR, SOURCE, State, difference
from .values import X, Value, apply, bytes_of, constant, is_proved, joined, unknown

DONE, ODD_LENGTH, TOO_SMALL, INVALID, OVERFLOW, UNKNOWN_POLICY = range(6)
# Stands for each number that names no policy.
OTHER = 3
CALLS = {
    "check": "source length", "check_with_case": "source length policy", "first_invalid": "source length policy",
    "encode": "source length destination room upper", "decode": "source length destination room",
    "decode_with_case": "source length destination room policy",
}
# Calls that only Rust has, each with its policy.
POLICIES = {"check_lower": 1, "check_upper": 2}
CALLS |= dict.fromkeys(POLICIES, "source length")
ZERO = constant(0, 8)
IS_ODD = Value(LENGTH.term & 1 == 1)
# Twice the length does not fit into 64 bits.
IS_HUGE = Value(LENGTH.term < 0)
IS_NO_POLICY = Value(z3.UGT(POLICY.term, hexadecimal.UPPERCASE))


def is_valid_pointer(pointer, length):
    """Whether a pointer to so many bytes may be passed. It may be null only for 0 bytes, and the bytes must not go
    beyond the last address."""
    return z3.And(z3.Or(pointer != 0, length == 0), z3.ULE(pointer, ~length))


class Shown:
    """The check of a call under one policy, or for one case of letters, for any length from `least` to `most` and any
    room. The constructor does the whole check, and raises Refused if something does not hold."""

    def __init__(self, image, at, call, policy, is_upper, most=None, least=0):
        self.set(call, policy, is_upper, LENGTH)
        half = z3.LShR(LENGTH.term, 1) if self.has_room else z3.BitVecVal(0, 64)
        self.writes = Value(z3.simplify(2 * LENGTH.term if self.is_encoding else half))
        facts = [apply(is_valid_pointer, SOURCE, LENGTH), apply(is_valid_pointer, DESTINATION, ROOM), IS_NO_POLICY]
        facts += [apply(z3.ULE, LENGTH, constant(most, 8))] if most is not None else []
        facts += [apply(z3.UGE, LENGTH, constant(least, 8))] if least else []
        self.run(image, at, lambda name: policy % OTHER, facts)
        self.tests, self.long_tests = self.count(False), self.count(True)

    def set(self, call, policy, is_upper, length):
        self.call, self.policy, self.is_upper, self.length = call, policy, is_upper, length
        self.is_encoding, self.has_room = call.startswith("encode"), "room" in CALLS[call]

    def run(self, image, at, kind_of, facts):
        """Executes the call, and checks the state at the end of each path."""
        self.is_small = apply(z3.ULT, ROOM, self.writes)
        kind_of = None if self.is_encoding else kind_of
        self.machine = Machine(image, self.length, self.writes.term, kind_of, facts, self.check_byte)
        self.machine.cases, self.machine.call = self.cases(), (self.call, self.policy, self.is_upper)
        processor = self.machine.processor
        state, words = State(at, processor), CALLS[self.call].split()
        state.registers.update(zip(processor.arguments, map(self.argument, words)))
        for word in words[len(processor.arguments):]:
            state.stack.update(enumerate(bytes_of(self.argument(word)), self.machine.above))
            self.machine.above += 8
        self.ends = self.machine.run(state)
        for it in self.machine.loops:
            Replay(self.machine, it)
        for it in self.ends:
            self.check(it)

    def count(self, is_of_long):
        """The most branches on bytes on a path where all digits are valid. If `is_of_long` is False, only the paths
        that a short source can take count. Branches in turns of loops, which only long sources have, never count."""
        ends = [it for it in self.ends if not it.refused and (is_of_long or not self.machine.holds(it, Value(IS_LONG)))]
        most = max([it.tests for it in ends], default=0)
        if not is_of_long and most > (self.call == "first_invalid" or self.call.startswith("decode")):
            raise Refused("branches on valid digits more often than it may")
        return most

    def argument(self, word):
        """The eight bytes that pass an argument. If the argument is one byte, the other seven are unknown."""
        policy = POLICY if self.policy == OTHER else constant(self.policy, 1)
        byte = {"upper": constant(int(self.is_upper), 1), "policy": policy, "separator": SEPARATOR}.get(word)
        known = {"source": SOURCE, "destination": DESTINATION, "room": ROOM, "length": self.length}
        return joined([byte, unknown("above an argument", 7)]) if byte else known[word]

    def cases(self):
        return [IS_HUGE if self.is_encoding else IS_ODD, self.is_small] if self.has_room else []

    def check(self, state):
        """Compares the end of a path with the definitions, in each of the cases that they distinguish."""
        states = [(state.copy(), [])]
        for case in self.machine.cases:
            states = [(it, [*known, holds]) for one, known in states for it, holds in self.machine.outcomes(one, case)]
        for it, known in states:
            status, number = self.expected(it, *known)
            is_done = status == DONE and self.has_room
            if not (self.machine.covers(it, it.written, self.writes.term) if is_done else it.written == ()):
                raise Refused("writes too much or too little")
            if self.has_room or self.call == "first_invalid":
                self.check_answer(it, status, number)
            else:
                self.check_bool(it, status)

    def expected(self, state, is_no_length=False, is_small=False):
        """The status and the number that the definitions give. For an invalid digit check_invalid checks the number."""
        if self.policy == OTHER:
            return UNKNOWN_POLICY, ZERO
        if is_no_length:
            return OVERFLOW if self.is_encoding else ODD_LENGTH, ZERO
        if is_small:
            return TOO_SMALL, self.writes
        return INVALID if state.refused else DONE, self.writes

    def is_equal(self, state, value, term):
        return not value.of and self.machine.is_shown(state, value.term == term)

    def is_valid(self, state, others=()):
        return self.machine.covers(state, (*state.valid, *others), self.length.term)

    def check_answer(self, state, status, number):
        """Compares a struct that is returned: the number in one register, the status and the byte in another."""
        found, others = (state.registers[it] for it in self.machine.processor.answer)
        others = bytes_of(others)
        if not self.is_equal(state, others[0], z3.BitVecVal(status, 8)):
            raise Refused("answers another status")
        if status == INVALID:
            self.check_invalid(state, found, others[1])
        elif not self.is_equal(state, others[1], z3.BitVecVal(0, 8)) or not self.is_equal(state, found, number.term):
            raise Refused("answers another number or byte")
        elif status == DONE and not self.is_encoding and not self.is_valid(state):
            raise Refused("does not look at all digits")

    def check_invalid(self, state, index, byte):
        """Requires that the path knows the reported byte to be no digit, and all bytes before it to be valid digits."""
        if index.of or not self.machine.covers(state, state.valid, index.term) \
                or not self.machine.is_one_invalid(state, index.term):
            raise Refused("reports another byte as the first invalid one")
        if not byte.of or not byte.term.eq(X[0]) or byte.of[0][0] not in self.machine.terms \
                or not self.machine.is_shown(state, self.machine.index(byte.of[0]) == index.term):
            raise Refused("reports the first invalid byte as another one")

    def check_bool(self, state, status):
        """Checks that the result is true exactly if the policy is known and all digits are valid."""
        answer = bytes_of(state.registers[self.machine.processor.answer[0]])[0]
        is_true, is_false = (apply(operator.eq, answer, constant(it, 1)) for it in (1, 0))
        if not apply(z3.Not, is_true).is_same(is_false):
            raise Refused("answers neither true nor false")
        if status == DONE and not self.is_valid(state):
            digits, sign = self.machine.asked(is_true)
            if not sign or not self.is_valid(state, self.machine.spans(digits)):
                raise Refused("does not answer whether all digits are valid")
        elif not self.machine.holds(state, is_true if status == DONE else is_false):
            raise Refused("answers wrongly")

    def check_byte(self, state, at, value):
        """Checks a byte that is written: the byte that two digits stand for, or one of the two digits of a byte."""
        if len(value.of) != (1 if self.is_encoding else 2) or any(it[0] not in self.machine.terms for it in value.of):
            raise Refused(f"what is written depends on {value.of}")
        sides = [self.side(state, at, self.machine.index(it)) for it in value.of]
        key = "written", value.id, *sides, self.is_encoding, self.policy, self.is_upper
        if not is_proved(key, lambda: self.differs(value.term, sides)):
            raise Refused("what is written is wrong")

    def side(self, state, at, index):
        """Which digit of a byte two indices concern, 0 or 1: `at` in the destination and `index` in the source."""
        term = at - 2 * index if self.is_encoding else index - 2 * at
        number = difference(term, ZERO.term)
        for it in range(2):
            if number == it or number is None and self.machine.is_shown(state, term == it):
                return it
        raise Refused("what is written depends on other bytes")

    def differs(self, term, sides):
        """Conditions that hold together only if the byte that is written is wrong and the digits are valid."""
        if self.is_encoding:
            return [term != hexadecimal.digits_of(X[0], self.is_upper)[sides[0]]]
        if sorted(sides) != [0, 1]:
            raise Refused("what is written depends on one digit")
        digits = [valid_at(it, self.policy) for it in range(2)]
        return [*digits, term != hexadecimal.byte_of(*[X[sides.index(it)] for it in range(2)])]


def ways_of(call):
    policies = range(OTHER + 1) if "policy" in CALLS[call] else [POLICIES.get(call, 0)]
    cases = (False, True) if "upper" in CALLS[call] else (False,)
    return [(policy, is_upper) for policy in policies for is_upper in cases]


def shown(image, build, call, most=None, least=0):
    """Checks a call for each length from `least` to `most`, under each policy or for each case of letters."""
    for at in image.calls(build, call, call not in POLICIES):
        for policy, is_upper in ways_of(call):
            yield Shown(image, at, call, policy, is_upper, most, least)
