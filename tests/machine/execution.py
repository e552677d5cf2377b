"""Symbolic execution of a call: every path is followed, for a source whose length and bytes are unknown.

A path may access the source, the part of the destination that the call writes, the stack frame, and constants. Any
other access is refused. A branch may depend on bytes of the source only if its condition is equivalent to the statement
that all bytes of some part of it are valid digits, or to its negation, which Z3 decides. An address may depend on a
byte only to look it up in a table of constants, and only after some byte is known to be no digit, or in a grouped call.
loops.py explains why the paths that are followed stand for all executions."""
import functools
import re

import z3

from . import Refused, hexadecimal
from .loops import Loop, forget, forget_arguments, is_new
from .state import BASES, DESTINATION, INDEX, RETURN, SEPARATOR, SOURCE, STACK, ids, indices, is_in
from .values import MADE, X, Value, apply, is_proved, numbered, plus, unknown

FRAME, NO_KIND = 4096, -1
# The most instructions on a path, and in the tried turns of a loop, since a wrong loop may never end; and the most
# turns that a short loop has after its first one.
MOST_STEPS, FEW_TURNS = 20000, 8


def parts(term):
    """Yields terms that are all 0 exactly if the given term is 0."""
    if z3.is_app_of(term, z3.Z3_OP_BOR) or z3.is_app_of(term, z3.Z3_OP_CONCAT):
        for it in term.children():
            yield from parts(it)
    elif not z3.is_bv_value(term) or term.as_long():
        yield term


def without_number(term):
    """Splits a term into a rest and a number whose sum is the term. The number has the constants that are added, and
    the constant that the lowest bits are."""
    numbers = [it for it in term.children() if z3.is_bv_value(it)] if z3.is_app_of(term, z3.Z3_OP_BADD) else []
    number = term.as_signed_long() if z3.is_bv_value(term) else sum(it.as_signed_long() for it in numbers)
    rest = z3.simplify(term - number)
    *above, low = rest.children() if z3.is_app_of(rest, z3.Z3_OP_CONCAT) else [rest]
    if above and z3.is_bv_value(low):
        rest, number = z3.Concat(*above, z3.BitVecVal(0, low.size())), number + low.as_long()
    return rest, number


def conjuncts(term, is_negated=False):
    """The conjuncts of a condition, or of its negation. `term == 0` has one for each part of the term."""
    if z3.is_not(term):
        yield from conjuncts(term.arg(0), not is_negated)
    elif (z3.is_or if is_negated else z3.is_and)(term):
        for it in term.children():
            yield from conjuncts(it, is_negated)
    elif not is_negated and z3.is_eq(term) and z3.is_bv_value(term.arg(1)) and not term.arg(1).as_long():
        yield from (it == 0 for it in parts(term.arg(0)))
    else:
        yield z3.Not(term) if is_negated else term


@functools.lru_cache(None)
def valid_at(at, kind):
    """The condition that a byte of some kind is valid. The kind is the policy under which the byte must be a digit, or
    None if it must be the separator. A byte of the kind NO_KIND is never valid: it is no byte of the source, or it is
    to be encoded."""
    if kind == NO_KIND:
        return z3.BoolVal(False)
    return X[at] == SEPARATOR.term if kind is None else hexadecimal.is_digit(X[at], kind)


def validity(term, kinds):
    """Finds a set of bytes for which a condition is equivalent to `all of them are valid`, and returns it with True. If
    the negation of the condition is equivalent to that, the set is returned with False, and if neither is, no bytes
    are returned with None. Z3 gets all conjuncts on the same bytes at once, since each of them alone may say less."""
    ways = [(list(conjuncts(term, not sign)), sign) for sign in (True, False)]
    for terms, sign in sorted(ways, key=lambda it: -len(it[0])):
        said = {}
        for it, places in map(numbered, terms):
            said.setdefault(places, []).append(it)
        for places, it in said.items():
            it, those = z3.simplify(z3.And(*it)), tuple([kinds[at] for at in places])
            differs = it != z3.And(*[valid_at(at, kind) for at, kind in enumerate(those)])
            if not is_proved((it.get_id(), those), lambda: [differs]):
                break
        else:
            return {at for places in said for at in places}, sign
    return (), None


class Found(Exception):
    """Raised when a loop is found that was not known before."""


class Machine:
    """The execution of a call. It may write `writes` bytes to the destination, and `check_byte` refuses a wrong one.
    `kind_of` gives the kind of a byte of the source by its name, and is None for a call that encodes. If the length is
    one number, as for grouped calls, loops are executed turn by turn, and addresses may depend on the bytes."""

    def __init__(self, image, length, writes, kind_of, facts, check_byte):
        self.image, self.length, self.writes, self.kind_of = image, length, writes, kind_of
        self.processor = image.processor
        self.facts, self.check_byte, self.whole = facts, check_byte, ((z3.BitVecVal(0, 64), length.term),)
        self.is_fixed = length.number is not None
        # The call with its policy and case; the conditions that the definitions distinguish; and where the arguments on
        # the stack end, as a distance from the first stack pointer. The call may overwrite these arguments.
        self.call, self.cases, self.above = None, (), self.processor.above
        # The terms that the names of bytes refer to; the address of the instruction that was executed last; and how
        # many bytes of the frame were read before the call wrote them.
        self.terms, self.at, self.unwritten = {}, None, 0
        # Whether turns of a loop are only tried, to guess its general state. Nothing is proved meanwhile. Then, for
        # each loop that has branches on valid digits, how many a turn has and how many digits a turn tests.
        self.is_trying, self.turns = False, set()
        # The states that are left to execute, the states with which later ones may be joined, the addresses that were
        # executed, and the loops with their general states, which are the record that replay.py checks.
        self.left, self.joined, self.executed, self.loops = [], {}, set(), []

    def run(self, state):
        """Executes all paths, and returns the states at their ends, where the call has returned. If a new loop is
        found, the execution starts again."""
        while True:
            self.left, self.joined, self.executed, self.loops = [state.copy()], {}, set(), []
            try:
                ends = list(self.ends())
                self.image.executed |= self.executed
                return ends
            except Found:
                self.is_trying = False

    def ends(self):
        while self.left:
            state = self.left.pop()
            while not self.is_known(state) and (not state.is_general or is_new(self, state)) and self.enters(state):
                if not self.advances(state):
                    self.settle(state)
                    yield state
                    break

    def is_known(self, state):
        """Whether a state at the beginning of a build's own function was executed for a processor of another level."""
        if state.at not in self.image.entries:
            return False
        self.settle(state)
        places = {**state.registers, **state.stack}
        key = self.call, state.at, *places, ids(tuple(places.values())), ids((*self.facts, *state.facts))
        self.image.entering.add(key)
        self.executed.add(state.at)
        return key in self.image.entered

    def enters(self, state):
        """Treats a state at the head of a loop. If it descends from the loop's general state, it must be the general
        state of the next turn, which is the induction step. Its path ends there, and the result is False. Any other
        state becomes the general state that is guessed from two tried turns. If there are no two, or if the loop is
        short, the loop is executed turn by turn."""
        if self.is_fixed or state.at not in self.image.loops:
            return True
        self.settle(state)
        try:
            if state.at in state.loops:
                state.loops[state.at].check(state)
                return False
            self.is_trying = True
            first = self.turn(state)
            second = first and not self.is_short(state, first) and self.turn(first)
            self.is_trying = False
            if second:
                self.loops.append(Loop(self, state, first, second))
                state.__dict__ = self.loops[-1].state.copy().__dict__
            return True
        except Refused as why:
            raise Refused(f"in the loop at {state.at:#x}: {why}") from why

    def is_short(self, state, first):
        """Whether a loop has few turns and only collects what it reads until it is left, so that it has to be executed
        turn by turn. Such a loop adds no tested or written bytes in a turn, and its condition for another turn is
        constant, or the value that this condition compares with zero is small."""
        value, holds, _ = first.gap or (None, None, None)
        is_kept = value and (len(first.valid), len(first.written)) == (len(state.valid), len(state.written))
        return is_kept and (z3.is_true(holds.term) or self.is_shown(first, z3.ULE(value.term, FEW_TURNS)))

    def turn(self, state):
        """Tries to find a state after one turn of a loop, and proves nothing on the way. Without one, returns None."""
        others = self.left
        found = next((it for it in self.through(state.copy()) if it.at == state.at), None)
        self.left = others
        return found

    def through(self, state):
        """Executes a loop from its head. Yields the state of each path where it is at the head again or has left."""
        head, last, self.left, steps = state.at, self.image.loops[state.at], [], 0
        self.advances(state)
        self.left.append(state)
        while self.left:
            state = self.left.pop()
            while head < state.at <= last and steps < MOST_STEPS and self.advances(state):
                steps += 1
            yield state

    def advances(self, state):
        """Executes an instruction. Returns False if the call has returned."""
        self.at = state.at
        read = self.image.instruction(self.at)
        needed = self.processor.level_of(read)
        state.at = read.end
        state.passed.add(self.at)
        state.steps += 1
        try:
            if needed is None:
                raise Refused("this instruction has no model")
            if needed > (self.image.level or needed):
                raise Refused(f"x86-64-v{self.image.level} does not have this instruction")
            if state.steps > MOST_STEPS:
                raise Refused("a path without an end")
            if not self.is_trying:
                self.executed.add(self.at)
            return self.processor.perform(self, state, read)
        except (AttributeError, IndexError, KeyError, TypeError, Refused, z3.Z3Exception) as why:
            raise Refused(f"{read.text} at {self.at:#x}: {why}") from why

    def jumps(self, state, to):
        base, state.at = self.place(to)
        if base is not self.image.base:
            raise Refused("jumps to somewhere else")
        self.finds(state)

    def branches(self, state, asked, to, compared, names):
        """Goes on at the address `to` where a condition holds, and after the instruction where it does not. `compared`
        is the value that the condition compares with zero, or None. `names` has the names of the condition and of its
        opposite."""
        after, loops = state.at, state.loops
        outcomes = self.outcomes(state, asked)
        for it, holds in outcomes:
            it.at = to if holds else after
            if compared and not asked.of:
                it.gap = compared, *((asked, names[0]) if holds else (apply(z3.Not, asked), names[1]))
            for head, loop in loops.items() if not self.is_trying else ():
                loop.exits += [] if head <= it.at <= self.image.loops[head] else [it.copy()]
        self.left += [it for it, _ in outcomes[1:]]
        for it, _ in outcomes:
            self.finds(it)

    def finds(self, state):
        """Raises Found at a jump back that no known loop has. Loops are known by their heads and last jumps back."""
        is_back = state.at <= self.at and state.at in state.passed
        if is_back and not self.is_fixed and self.image.loops.get(state.at, 0) < self.at:
            self.image.loops[state.at] = self.at
            raise Found

    def returns(self, state, to):
        """Returns to another function of the file, or ends the call. At its end, the call must have restored the stack
        pointer and the registers that belong to its caller."""
        base, at = (None, 0) if to.of else self.place(to)
        if base is self.image.base:
            state.at, state.calls = at, state.calls[:-1]
            return True
        those = self.processor
        if not to.is_same(RETURN) or self.place(state.registers[those.pointer]) != (STACK, those.above):
            raise Refused("returns to somewhere else")
        kept = {it: (state.registers[it], those.before[it]) for it in those.kept}
        kept |= {f"byte {to} of vector {at}": (state.vectors[at][to], those.vectors[at][to])
                 for at, places in those.kept_vectors.items() for to in places}
        if changed := [name for name, (value, before) in kept.items() if not value.is_same(before)]:
            raise Refused(f"{changed[0]} is changed")
        return False

    def known(self, state):
        """All that is known on a path, as terms. For each test that failed, they give a name to the index of a byte in
        its spans that is no digit. If the length is one number, no such name is needed, because sets of indices tell
        more quickly what follows from tests."""
        terms = [it.term for it in (*self.facts, *state.facts)]
        for at, spans in enumerate(() if self.is_fixed else state.refused):
            it = z3.BitVec(f"invalid {at}", 64)
            terms += [is_in(spans, it), z3.ULT(it, self.length.term), z3.Not(is_in(state.valid, it))]
        return terms

    def is_shown(self, state, *terms):
        """Whether on this path, for all bytes, addresses and lengths, at least one of these terms holds."""
        key = [it.id for it in (*self.facts, *state.facts)] + [it.get_id() for it in terms]
        refused = ids((state.refused, state.valid)) if state.refused and not self.is_fixed else None
        return is_proved((*key, len(terms), refused), lambda: [*self.known(state), *map(z3.Not, terms)])

    def covers(self, state, spans, count):
        if self.is_fixed:
            return {*range(count.as_long())} <= indices(spans)
        return self.is_shown(state, z3.Implies(z3.ULT(INDEX, count), is_in(spans, INDEX)))

    def is_one_invalid(self, state, index):
        if self.is_fixed:
            return {z3.simplify(index).as_long()} in [indices(it) - indices(state.valid) for it in state.refused]
        return self.is_shown(state, *[z3.BitVec(f"invalid {it}", 64) == index for it in range(len(state.refused))])

    def settle(self, state):
        """Proves the claims of the accesses since the last branch. What is known has not changed since then, so no
        claim is proved from what was learned after its access."""
        claims, state.claims = state.claims, ()
        if claims and not self.is_trying and not self.is_shown(state, z3.And(*[it for it, _ in claims])):
            at = next((at for it, at in claims if not self.is_shown(state, it)), state.at)
            raise Refused(f"the instruction at {at:#x} accesses something else")

    def outcomes(self, state, asked):
        """The states after a condition was tested, each with whether the condition holds. The first is `state`."""
        if z3.is_true(asked.term) or z3.is_false(asked.term):
            return [(state, z3.is_true(asked.term))]
        self.settle(state)
        if asked.of:
            return self.of_bytes(state, asked)
        other = state.copy()
        state.facts, other.facts = (*state.facts, asked), (*state.facts, apply(z3.Not, asked))
        return self.possible(state, [(state, True), (other, False)])

    def decided(self, state, asked):
        """Whether a condition holds, as a Value. A condition on the bytes stays as it is. For any other one, this path
        takes one of the outcomes. If the other one is possible too, a second path executes this instruction again."""
        if asked.of:
            return asked
        (_, holds), *others = self.outcomes(state, asked)
        for it, _ in others:
            it.at = self.at
        self.left += [it for it, _ in others]
        return Value(z3.BoolVal(holds))

    def possible(self, state, outcomes):
        """Those of two outcomes that are not proved to be impossible. The first of them becomes this state."""
        if not self.is_trying:
            impossible = next((it for it in outcomes if self.is_shown(it[0], z3.BoolVal(False))), None)
            outcomes = [it for it in outcomes if it is not impossible]
        state.__dict__ = outcomes[0][0].__dict__
        return [(state, outcomes[0][1]), *outcomes[1:]]

    def of_bytes(self, state, asked):
        """Does the same as `outcomes` for a condition on the bytes. If the length is one number, sets of indices say
        which outcomes are possible."""
        digits, sign = self.asked(asked)
        spans, other = self.spans(digits), state.copy()
        state.valid, other.refused = (*state.valid, *spans), (*state.refused, spans)
        if self.is_fixed:
            if any(indices(it) <= indices(state.valid) for it in state.refused):
                state.__dict__ = other.__dict__
                return [(state, not sign)]
            return [(state, sign)] if indices(spans) <= indices(other.valid) else [(state, sign), (other, not sign)]
        outcomes = self.possible(state, [(state, sign), (other, not sign)])
        for it, _ in outcomes if len(outcomes) > 1 else []:
            it.tests += 1
            if not self.is_trying and (not it.refused or len(it.refused) == 1 and it.refused[0] is spans):
                self.forgets(it)
        return outcomes

    forgets = forget

    def holds(self, state, asked):
        """Whether a condition holds on this path for all bytes."""
        return [holds for _, holds in self.outcomes(state.copy(), asked)] == [True]

    def index(self, name):
        return self.terms[name[0]] + name[1]

    def spans(self, names):
        starts = sorted(it for it in names if (it[0], it[1] - 1) not in names)
        ends = sorted(it for it in names if (it[0], it[1] + 1) not in names)
        return tuple([(z3.simplify(self.index(a)), z3.simplify(self.index(b) + 1)) for a, b in zip(starts, ends)])

    def asked(self, asked):
        """The names of bytes, with True if the condition holds exactly when all of them are valid, or with False if
        it fails exactly then."""
        kinds = tuple([self.kind_of(it) if self.kind_of and it[0] in self.terms else NO_KIND for it in asked.of])
        key = "asked", asked.id, kinds
        if key not in MADE:
            MADE[key] = validity(asked.term, kinds), asked
        places, sign = MADE[key][0]
        if not places or any(kinds[at] == NO_KIND for at in places):
            raise Refused("a branch on the bytes is no test whether some are valid digits")
        return frozenset([asked.of[at] for at in places]), sign

    def place(self, address):
        """The region that an address is in, given by its first address, and the distance of the address from there.
        The distance is a term for the source and the destination, and a number for the stack and the file."""
        if address.of:
            raise Refused("an address depends on the bytes")
        key = "place", address.id, self.image.base.id
        if key not in MADE:
            bases = *BASES[:3], self.image.base
            distances = [(base, z3.simplify(address.term - base.term)) for base in bases]
            MADE[key] = [(base, it if base in BASES[:2] else it.as_signed_long()) for base, it in distances
                         if z3.is_bv_value(it) or
                         base in BASES[:2] and not re.search("source|destination|stack|image", it.sexpr())], address
        if len(MADE[key][0]) != 1:
            raise Refused("an address is not known")
        return MADE[key][0][0]

    def claim(self, state, start, size, count):
        """Notes a claim, which `settle` proves: `size` bytes from the distance `start` on are in the first `count`."""
        it = z3.And(z3.ULE(start, count), z3.ULE(size, count - start))
        state.claims += () if self.is_fixed and z3.is_true(z3.simplify(it)) else ((it, self.at),)

    def end_of(self, state):
        """The lowest address of the frame, which includes the red zone, as a distance from the first stack pointer."""
        return self.place(state.registers[self.processor.pointer])[1] - self.processor.red_zone

    def lowers(self, state):
        """Checks the stack pointer after a change. It must be aligned, and in a frame of at most a page. The bytes
        below the red zone are forgotten, because a signal handler may write there."""
        base, at = self.place(state.registers[self.processor.pointer])
        if base is not STACK or not -FRAME <= at <= self.processor.above or at % self.processor.aligned:
            raise Refused("the stack pointer leaves the frame")
        state.stack = {it: value for it, value in state.stack.items() if it >= at - self.processor.red_zone}

    def load(self, state, address, size):
        if address.of and (state.refused or self.is_fixed):
            return [self.looked_up(plus(address, it)) for it in range(size)]
        base, at = self.place(address)
        if base is SOURCE:
            return self.of_source(state, at, size)
        if base is STACK:
            found = [self.of_frame(state, it) for it in range(at, at + size)]
        else:
            found = self.image.constants_at(at, size) if base is self.image.base else [None]
        if not found or None in found:
            raise Refused("reads outside of source, constants and its frame")
        return found

    def of_frame(self, state, at):
        """A byte of the stack. It is unknown if nothing was written there, and None outside of the frame."""
        if at not in state.stack and self.end_of(state) <= at < 0:
            self.unwritten += 1
            state.stack[at] = unknown(f"unwritten {self.unwritten}")
        return state.stack.get(at) if at >= self.end_of(state) else None

    def of_source(self, state, at, size):
        self.claim(state, at, size, self.length.term)
        if state.early is None:
            state.early = len(state.facts)
            if self.is_fixed:
                self.settle(state)
                forget_arguments(self, state)
        # A byte is named by its index in two parts: a term, by its id, and the number that is added to this term.
        rest, number = without_number(at)
        rest = self.terms.setdefault(rest.get_id(), rest).get_id()
        return [Value(X[0], ((rest, it),)) for it in range(number, number + size)]

    def looked_up(self, address):
        """The byte of a table of constants at an address that depends on one byte of the source. The table is read for
        each of the 256 values of this byte."""
        if address.id not in self.image.tables:
            distance = address.term - self.image.base.term
            places = [z3.simplify(z3.substitute(distance, (X[0], z3.BitVecVal(it, 8)))) for it in range(256)]
            found = [self.image.bytes_at(it.as_long(), 1) if z3.is_bv_value(it) else None for it in places]
            if len(address.of) != 1 or None in found:
                raise Refused("an address depends on the bytes")
            term = X[0]
            for it in range(256):
                term = z3.If(X[0] == it, z3.BitVecVal(found[it][0], 8), term)
            self.image.tables[address.id] = z3.simplify(term), address
        return Value(self.image.tables[address.id][0], address.of)

    def store(self, state, address, values):
        """Stores bytes in the frame or in the destination. A call that decodes may store in the destination only when
        all digits are known to be valid. Each byte must be the one that the call has to write there."""
        base, at = self.place(address)
        if base is STACK and (self.end_of(state) <= at <= -len(values) or
                              self.processor.above <= at <= self.above - len(values)):
            return state.stack.update(enumerate(values, at))
        if base is not DESTINATION:
            raise Refused("stores outside of destination and frame")
        self.claim(state, at, len(values), self.writes)
        if not self.is_trying:
            if self.kind_of and not self.covers(state, state.valid, self.length.term):
                raise Refused("stores before all digits are known to be valid")
            for it, value in enumerate(values):
                self.check_byte(state, z3.simplify(at + it), value)
        state.written += (at, z3.simplify(at + len(values))),
