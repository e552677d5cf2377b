"""The values in registers and memory: terms of Z3 over unknown bytes.

A term has the variables byte0, byte1, and so on. Its Value names the bytes that these stand for, which belong to the
source, or are unknown bytes of registers or of the stack. So what a call does to its first digit and what it does to
its last digit are the same term, which is built, simplified and proved only once. A value without such bytes is public:
it may depend on addresses or on the room, but not on the source."""
import functools
import operator
import re

import z3

X = [z3.BitVec(f"byte{at}", 8) for at in range(4096)]
# A term with more bytes than this keeps all of them, without a search for those that it really needs.
FEW = 32
# The bytes of a term are found in its text, which Z3 prints fastest in this format.
z3.z3core.Z3_set_ast_print_mode(z3.main_ctx().ref(), z3.Z3_PRINT_LOW_LEVEL)
# The terms that were built, and the answers of Z3. A key consists of the ids that Z3 gives to terms. Z3 may give the id
# of a freed term to another one, so the operands are kept too.
MADE, ANSWERS = {}, {}
# The models that Z3 found last, and how many of them are kept.
MODELS, MOST_MODELS = [], 16


class Value:
    """A term with its id in Z3 and the names of its bytes, in the order of its variables. `parts` has the value's bytes
    once `bytes_of` has taken it apart, and `whole` is the value that this one is a byte of."""
    __slots__ = "term", "of", "id", "parts", "whole"

    def __init__(self, term, of=()):
        self.term, self.of, self.id, self.parts, self.whole = term, of, term.get_id(), None, None

    @property
    def number(self):
        return self.term.as_long() if not self.of and z3.is_bv_value(self.term) else None

    def is_same(self, other):
        return (self.id, self.of) == (other.id, other.of)


@functools.lru_cache(None)
def constant(number, size):
    return Value(z3.BitVecVal(number, 8 * size))


def concat(*terms):
    """Joins several terms into one, the lowest first."""
    return z3.Concat(*reversed(terms)) if len(terms) > 1 else terms[0]


# There is one function for each place of a byte, because terms are cached by the function that makes them.
BYTES = [lambda term, at=at: z3.Extract(8 * at + 7, 8 * at, term) for at in range(64)]


def unknown(name, size=1):
    """A value of so many unknown bytes, the lowest first."""
    return Value(concat(*X[:size]), tuple(f"{name} {at}" for at in range(size)))


def renamed(term, changes):
    changes = [(X[at], X[to]) for at, to in changes if at != to]
    return z3.substitute(term, *changes) if changes else term


def numbered(term):
    """The term with its variables numbered from 0 on, and the numbers that these had before."""
    used = tuple(sorted({int(it) for it in re.findall(r"byte(\d+)", term.sexpr())}))
    return renamed(term, zip(used, range(len(used)))), used


def made(function, operands, places):
    terms = [renamed(it.term, enumerate(to)) for it, to in zip(operands, places)]
    term = z3.simplify(function(*terms), pull_cheap_ite=True)
    count = len({at for to in places for at in to})
    return Value(*((term, range(count)) if count > FEW and term.num_args() else numbered(term)))


def apply(function, *operands):
    """Applies a function of terms to values. The result is cached under the function, so pass one that exists already,
    because a function that is made anew for each call is never found again."""
    order, places = {}, []
    for it in operands:
        places.append(tuple([order.setdefault(name, len(order)) for name in it.of]))
    key = function, tuple([it.id for it in operands]), tuple(places)
    if key not in MADE:
        MADE[key] = made(function, operands, places), operands
    found, names = MADE[key][0], list(order)
    return Value(found.term, tuple([names[at] for at in found.of])) if found.of else found


def bytes_of(value):
    """The bytes of a value, the lowest first. Each of them refers to this value as its `whole`."""
    if value.parts is None:
        size = value.term.size() // 8
        value.parts = [apply(it, value) for it in BYTES[:size]] if size > 1 else [value]
        for it in value.parts if size > 1 else []:
            it.whole = value
    return list(value.parts)


def joined(values):
    """Joins several values into one, the lowest first."""
    whole = values[0].whole
    if whole and whole.parts == values:
        return whole
    return apply(concat, *values) if len(values) > 1 else values[0]


def plus(value, number):
    return apply(operator.add, value, constant(number, value.term.size() // 8))


def is_proved(key, conditions):
    """Whether the conditions that a function returns can never hold together. The answer is cached under the key."""
    if key not in ANSWERS:
        terms = conditions()
        ANSWERS[key] = not may_hold(terms), terms
    return ANSWERS[key][0]


def may_hold(terms):
    """Whether some terms may hold together. They do if they all hold in a model, one that answered an earlier question
    or a new one. If Z3 does not know, the answer is True. A model evaluates the last term first, because it is the
    condition that is asked for. A new solver for each question is faster than one that is used again."""
    for at, it in enumerate(MODELS):
        if all(z3.is_true(it.eval(term, True)) for term in reversed(terms)):
            MODELS.insert(0, MODELS.pop(at))
            return True
    solver = z3.SolverFor("QF_BV")
    solver.add(*terms)
    said = solver.check()
    if said == z3.sat:
        MODELS.insert(0, solver.model())
        del MODELS[MOST_MODELS:]
    return said != z3.unsat


def forget():
    """Frees all terms that are kept. No value that was made before may be used after this."""
    MADE.clear(), ANSWERS.clear(), MODELS.clear()
