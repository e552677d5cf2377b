"""A second check of loops. The explorer, which is the symbolic execution of execution.py, leaves a record of each loop:
the state before the loop, the general state, which says what holds before turn k, and the states in which the loop was
left, from which the exploration went on. The replay takes this record and proves three statements with a solver of its
own. The base case is that the state before the loop is the general state for k = 0. The induction step is that each
path through the loop from the general state comes back as the general state for k + 1. The third statement is that each
path that leaves the loop does so in a state of the record.

The replay shares with the explorer the execution of a turn, the effects of instructions, the rules for accesses and
branches, and the function that turns a state into terms. The replay does not share the functions by which the explorer
guesses general states, forgets, and joins and compares states."""
import z3

from . import Refused
from .execution import Machine
from .state import INDEX, is_in
from .values import unknown

NO_TURN = z3.BitVecVal(0, 64)
# The answers of the solver, by the ids of terms. Z3 may give the id of a freed term to another one, so terms are kept.
SHOWN = {}


def holds(known, term):
    """Whether a term follows from others. A term that is one of them needs no solver."""
    key = *[it.get_id() for it in known], term.get_id()
    if key[-1] not in key[:-1] and key not in SHOWN:
        solver, terms = z3.SolverFor("QF_BV"), [*known, z3.Not(term)]
        solver.add(*terms)
        SHOWN[key] = solver.check() == z3.unsat, known, term
    return key not in SHOWN or SHOWN[key][0]


def are_within(known, spans, others):
    """Whether each index in some spans is in others too."""
    are_others = len(spans) <= len(others) and all(a.eq(b) for one, two in zip(spans, others) for a, b in zip(one, two))
    return are_others or holds(known, z3.Implies(is_in(spans, INDEX), is_in(others, INDEX)))


class Body(Machine):
    """The explorer's machine, as it executes one turn of a loop here."""
    def __init__(self, explorer):
        self.__dict__.update(explorer.__dict__)
        self.executed, self.is_fixed = set(), False

    def forgets(self, _):
        """Does nothing, because the replay of one turn may keep all that it knows."""


class Replay:
    """The replay of a loop. The constructor does the whole check, and raises Refused if something does not hold."""

    def __init__(self, explorer, loop):
        self.body, self.loop, self.turn, self.free = Body(explorer), loop, loop.turn, {}
        try:
            self.is_fresh()
            self.is_as(loop.before, NO_TURN)
            general = loop.state.copy()
            # Without this, each branch out of the loop would add an exit to the record.
            general.loops = {}
            for state in self.body.through(general):
                self.body.settle(state)
                if state.at == loop.state.at:
                    self.is_as(state, self.turn + 1)
                elif not any(self.stands_for(it, state) for it in loop.exits if it.at == state.at):
                    raise Refused(f"it is left to {state.at:#x} in another way")
        except Refused as why:
            raise Refused(f"the loop at {loop.state.at:#x}, replayed: {why}") from why

    def is_fresh(self):
        """Refuses a record in which the turn or an unknown of the loop occurs before the loop already, or in which the
        general state says something that is not compared."""
        before, general = self.loop.before, self.loop.state
        values, others, names = general.values(), before.values(), set()
        for place in self.loop.unknown:
            value = unknown(f"{place} in {self.turn}", values[place].term.size() // 8)
            names |= {*value.of}
            if not values[place].is_same(value):
                raise Refused(f"{place} is not unknown")
        terms = [it.term for it in before.facts] + [it for spans in (before.valid, before.written, *before.refused)
                                                    for span in spans for it in span]
        if any(not self.is_free(it) or not names.isdisjoint(it.of) for it in others.values()) or \
                not all(map(self.has_no_turn, terms)):
            raise Refused("its unknowns are not new")
        if general.masks or any(general.flags.values()):
            raise Refused("flags are not compared")

    def at(self, term, turn):
        return z3.substitute(term, (self.turn, turn))

    def moved(self, spans, turn):
        return [(self.at(first, turn), self.at(end, turn)) for first, end in spans]

    def is_as(self, state, turn):
        """Refuses a state that is not the general state before the given turn."""
        general, known, values = self.loop.state, self.body.known(state), state.values()
        for place, value in general.values().items():
            if place in self.loop.unknown:
                continue
            other = values.get(place)
            if not other or not (value.is_same(other) and self.is_free(value)) and \
                    not self.is_next(known, value, other, turn):
                raise Refused(f"{place} is another one")
        if not all(holds(known, self.at(it.term, turn)) for it in general.facts):
            raise Refused("a fact does not hold")
        for spans, others in (general.valid, state.valid), (general.written, state.written):
            if not are_within(known, self.moved(spans, turn), others):
                raise Refused("it leaves bytes out")
        if state.written and not general.written or len(state.refused) != len(general.refused):
            raise Refused("it writes or refuses something else")
        if not all(are_within(known, it, self.moved(spans, turn)) for it, spans in zip(state.refused, general.refused)):
            raise Refused("another byte is invalid")

    def is_next(self, known, value, other, turn):
        is_public = not value.of and not other.of and value.term.size() == other.term.size()
        return is_public and holds(known, self.at(value.term, turn) == other.term)

    def has_no_turn(self, term):
        """Whether a term does not depend on the turn. The term is kept, since Z3 may reuse the id of a freed term."""
        number = term.get_id()
        if number not in self.free:
            self.free[number] = z3.substitute(term, (self.turn, self.turn + 1)).eq(term), term
        return self.free[number][0]

    def is_free(self, value):
        """Whether a value does not depend on the turn, neither by its term nor by the indices of its bytes."""
        terms = self.body.terms
        names = {it[0] for it in value.of} & terms.keys()
        return self.has_no_turn(value.term) and all(self.has_no_turn(terms[it]) for it in names)

    def stands_for(self, explored, state):
        """Whether a state of the record says no more than another state, and therefore stands for it."""
        known, values = self.body.known(state), state.values()
        is_known = all(place in values and value.is_same(values[place]) for place, value in explored.values().items())
        return is_known and self.has_flags_of(explored, state) and all(holds(known, it.term) for it in explored.facts) \
            and are_within(known, explored.valid, state.valid) and bool(explored.written) == bool(state.written) \
            and are_within(known, explored.written, state.written) and len(explored.refused) == len(state.refused) \
            and all(are_within(known, it, spans) for it, spans in zip(state.refused, explored.refused))

    @staticmethod
    def has_flags_of(explored, state):
        pairs = [(flag, state.flags[name]) for name, flag in explored.flags.items() if flag]
        flags = all(other and flag[0] is other[0] and len(flag) == len(other) and
                    all(a.is_same(b) for a, b in zip(flag[1:], other[1:])) for flag, other in pairs)
        return flags and all(name in state.masks and all(a.is_same(b) for a, b in zip(bits, state.masks[name]))
                             for name, bits in explored.masks.items())
