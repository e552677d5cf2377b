"""Loops and joined paths: why finitely many paths stand for all executions.

A state says what is true at its place, and contains unknowns. It stands for each execution at this place for which all
of this is true with some values of the unknowns. The addresses of the source, the destination and the stack are
unknowns, and so is the address at which a file is loaded, if the file can be loaded anywhere. The tool relies on two
facts about them: a file is loaded at a multiple of a page, and the stack is aligned as a caller must align it. A call
is shown to be right if each execution without a trap follows a path to a state that is compared with the definitions.
This holds for the following reasons.

- *Paths.* At a branch both outcomes are followed, unless Z3 proves that one is impossible. Each access is proved to be
  allowed from what was known when it was made. Source and destination do not overlap, so no store changes the source.
- *Bytes.* state.py explains the names of bytes, and the spans of a test. What is proved of a condition or of a stored
  byte holds for all values of its bytes. So it also holds where two names mean one byte. If a test failed, some byte in
  its spans is no digit, and the index of this byte lies in no span of valid digits. Each query may therefore use such
  an index. The spans of a test are not empty and lie in the source, because the call has read their bytes.
- *Loops.* The general state of a loop is its invariant: it says what holds at the loop's head before turn k, for any k
  below a bound N. It is guessed, and the argument does not depend on how. An induction on k shows that the general
  state stands for each arrival at the head. In the base case, the state at the entry is the general state for k = 0,
  and 0 < N. In the induction step, each path from the general state back to the head ends in the general state for
  k + 1, and k + 1 < N. Arithmetic is that of 64 bits, so a sum that wraps around is noticed. Paths that leave the loop
  go on from the general state. As k + 1 < N is proved for each further turn, there are at most N turns. A loop that
  gets no general state is executed turn by turn, as if it were unrolled.
- *Forgetting.* A state that says less stands for more executions, so each path may forget what it knows.
- *Joins.* A joined state stands for the executions of both states. Only states that agree in facts, valid digits,
  written bytes and calls that have not returned are joined, so the joined state keeps these. A register, a byte of a
  vector or a byte of the stack becomes unknown if its values differ, and is forgotten if only one state has it. Flags
  and masks are forgotten before states are compared, except for flags with a known value, in which joined states agree.
  If failed tests differ, each of them is replaced by a test of the whole source, which says less. The number of
  branches is the greater one. The name of an unknown contains the loop's turn or the place of the join. A state has
  each turn once and is joined once at each place, so no two unknowns of a state share a name. A joined state is
  explored in the same run, unless it equals the earlier state, which has been or will be explored.
- *Ends of paths.* A path ends at the head of a loop from whose general state it descends, at a join where an earlier
  state stands for it, or where the call returns. It cannot go through joins and loops forever. A path is joined only
  when it forgets. This happens at most twice: when a digit is found to be invalid, and when all digits are known to be
  valid. In a grouped call it happens once, before the source is first read. Between two joins, a path takes each loop
  from its general state once. A path with too many instructions is refused.
- *Levels.* If a call comes to the beginning of a build's function in the same state on processors of two levels, it
  takes the same paths from there on. So these are executed for one of the levels only.

The outcome is partial correctness: a call that returns has returned what the definitions say. All loops end. The source
has at most 2^64 - 2 bytes, because a pointer to 2^64 - 1 bytes would have to be 0, which is not valid."""
from itertools import pairwise

import z3

from . import Refused
from .state import INDEX, LENGTH, difference, ids, is_in
from .terms import ZERO, always, never
from .values import Value, apply, unknown

# Only a source of more bytes than this may have tests in the turns of loops. For such a source, a path forgets what it
# learned since the source was first read.
SHORT = 256
IS_LONG = z3.UGT(LENGTH.term, SHORT)


class Loop:
    """A loop with its general state, which is guessed from the state before the loop and the states after two tried
    turns. A value that both turns change by the same number is taken to change so in each turn. Any other value that
    they change is taken to be unknown. The spans that a turn tests or writes are taken to follow those of the turn
    before."""

    def __init__(self, machine, before, first, second):
        self.machine, self.turn = machine, z3.BitVec(f"turn {before.turns}", 64)
        # The places (registers, bytes of vectors and bytes of the stack) whose values are unknown, and those whose
        # values change with the turn; the states in which the loop was left; and the state before the loop.
        self.unknown, self.moving, self.exits, self.before = set(), set(), [], before.copy()
        self.state = it = before.copy()
        it.turns += 1
        it.loops[before.at] = self
        values = before.values(), first.values(), second.values()
        places = [it for it in values[0] if it in values[1] and it in values[2]]
        it.put({place: self.general(place, [each[place] for each in values]) for place in places})
        it.forget_flags()
        self.digits, valid = self.growth(first.valid[len(before.valid):])
        _, written = self.growth(first.written[len(before.written):])
        it.valid, it.written, it.facts = it.valid + valid, it.written + written, (*it.facts, self.bound(first, second))
        if not machine.is_shown(before, self.at(it.facts[-1].term, z3.BitVecVal(0, 64))):
            raise Refused("a loop without a turn")

    def general(self, place, values):
        """The value of a place before any turn, guessed from the values before the first three turns."""
        first = values[0]
        if all(it.is_same(first) for it in values):
            return first
        is_public = all(not it.of and it.term.size() == 64 for it in values)
        steps = {difference(after.term, it.term) for it, after in pairwise(values)} if is_public else {None}
        if len(steps) > 1 or None in steps:
            self.unknown.add(place)
            return unknown(f"{place} in {self.turn}", first.term.size() // 8)
        self.moving.add(place)
        return Value(z3.simplify(first.term + steps.pop() * self.turn))

    def growth(self, spans):
        """The number of indices in the spans of the first turn, and one span with the indices of all earlier turns."""
        if not spans:
            return 0, ()
        sizes = [difference(end, start) for start, end in spans]
        places = [difference(start, spans[0][0]) for start, _ in spans]
        if None in sizes + places:
            raise Refused("spans without an order")
        start = z3.simplify(spans[0][0] + min(places))
        return sum(sizes), ((start, z3.simplify(start + sum(sizes) * self.turn)),)

    def bound(self, first, second):
        """The condition that the turn is below the bound. The last branch of a turn compares a value with zero. The
        bound is how often this value can change by its step before the condition for another turn fails."""
        value, holds, name = first.gap or (None, None, None)
        step = value and second.gap and value.term.size() == 64 and difference(second.gap[0].term, value.term)
        if not step:
            raise Refused("a loop without a counter")
        way = value.term if step < 0 else -value.term
        size, begin = z3.BitVecVal(abs(step), 64), int(name not in self.machine.processor.inclusive)
        bound = z3.UDiv(way + abs(step), size) if name == "ne" else \
            z3.If(holds.term, z3.UDiv(way - begin, size) + 2, z3.BitVecVal(1, 64))
        return Value(z3.simplify(z3.ULT(self.turn, bound)))

    def at(self, term, turn):
        return z3.simplify(z3.substitute(term, (self.turn, turn)))

    def check(self, after):
        """Checks the induction step: that a state after a turn is the general state before the next turn."""
        values, count = after.values(), len(self.state.facts)
        for place, value in self.state.values().items():
            if place not in values or not self.is_next(place, value, values[place]):
                raise Refused(f"a loop changes {place} in another way than in its first turns")
        if ids(self.state.refused) != ids(after.refused) or ids(self.state.facts) != ids(after.facts[:count]):
            raise Refused("a loop changes what is known")
        if not self.covers_next(after, self.state.valid, after.valid):
            raise Refused("a loop leaves bytes of the source out")
        if not self.covers_next(after, self.state.written, after.written) or after.written and not self.state.written:
            raise Refused("a loop leaves bytes of the destination out")
        if not self.machine.is_shown(after, self.at(self.state.facts[-1].term, self.turn + 1)):
            raise Refused("a loop may have more turns than were counted")
        # The number of branches on valid digits in a turn. Only a source of more than SHORT bytes may have any.
        tests = 0 if after.refused else after.tests - self.state.tests
        if tests and not self.machine.is_shown(after, IS_LONG):
            raise Refused("a loop branches on the bytes of a short source")
        self.machine.turns |= {(tests, self.digits)} if tests else set()

    def is_next(self, place, value, after):
        """Whether the value of a place after a turn is the one of the general state before the next turn."""
        if place in self.unknown or place not in self.moving and value.is_same(after):
            return True
        is_public = not value.of and not after.of and value.term.size() == after.term.size()
        return is_public and difference(self.at(value.term, self.turn + 1), after.term) == 0

    def covers_next(self, after, spans, others):
        """Whether some spans of the general state, as they are before the next turn, lie within others."""
        spans = [(self.at(start, self.turn + 1), self.at(end, self.turn + 1)) for start, end in spans]
        return self.machine.is_shown(after, z3.Implies(is_in(spans, INDEX), is_in(others, INDEX)))


def forget(machine, state):
    """Forgets what no longer matters once all digits are known to be valid, or one is first known not to be: the tests
    before, and for a long source also what was learned since the source was first read."""
    is_valid = not state.refused and machine.covers(state, state.valid, machine.length.term)
    if is_valid or state.refused:
        known = state.copy()
        known.facts = state.facts[:state.early]
        state.facts = known.facts if machine.is_shown(known, IS_LONG) else state.facts
        state.valid = machine.whole if is_valid else ()
        state.forget_flags()
        state.loops, state.is_general = {}, True


def forget_arguments(machine, state):
    """Before a grouped call reads its source, only the facts matter that the definitions distinguish. All others are
    forgotten, for example in which gap between the intervals of digits the separator lies."""
    known = [it for case in machine.cases for it in (case, apply(z3.Not, case)) if machine.is_shown(state, it.term)]
    state.facts, state.is_general = tuple(known), True


def is_new(machine, state):
    """Joins a state that has just forgotten with the earlier state at its place that has the same key, if there is one.
    Values that differ become unknown. Returns False if the earlier state stands for this one."""
    state.is_general = False
    if state.at in state.joins:
        return True
    # A known number on the stack is often a constant or a flag that later code needs, so it must be the same.
    numbers = tuple([(at, it.number) for at, it in sorted(state.stack.items())])
    # If the length is one number, a later branch may need flags set before. Those with a known value are kept.
    flags = {it: apply(*flag).term for it, flag in state.flags.items() if flag} if machine.is_fixed else {}
    flags = {it: (always, ZERO) if z3.is_true(term) else (never, ZERO) for it, term in flags.items()
             if z3.is_true(term) or z3.is_false(term)}
    key = state.at, state.calls, numbers, len(state.refused), *map(ids, (state.facts, state.valid, state.written)), \
        tuple(flags.items())
    state.joins |= {state.at}
    state.forget_flags()
    state.flags |= flags
    before = machine.joined.get(key)
    if before and join(machine, state, before):
        return False
    machine.joined[key] = state.copy()
    return True


def join(machine, state, before):
    """Replaces a state by its join with an earlier state. Returns whether the join equals the earlier state."""
    others, values, refused = before.values(), state.values(), ids(before.refused)
    for place in [*values]:
        if place not in others:
            del values[place]
        elif not values[place].is_same(others[place]):
            values[place] = unknown(f"{place} joined at {state.at:#x}", values[place].term.size() // 8)
    state.put(values)
    if ids(state.refused) != refused:
        state.refused = (machine.whole,) * len(state.refused)
    state.tests, state.turns = max(state.tests, before.tests), max(state.turns, before.turns)
    state.joins |= before.joins
    return len(values) == len(others) and all(values[it].is_same(others[it]) for it in others) and \
        (ids(state.refused), state.tests) == (refused, before.tests)
