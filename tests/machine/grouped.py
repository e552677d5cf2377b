"""What must hold of a call for digits in groups, for a source of one length and groups of one size. The bytes decide
how often its loops turn, so the call is executed turn by turn. The separator is unknown."""
import itertools

import z3

from . import Refused, hexadecimal
from .state import SEPARATOR, difference
from .statements import CALLS, DONE, INVALID, IS_NO_POLICY, OTHER, TOO_SMALL, UNKNOWN_POLICY, ZERO, Shown, ways_of
from .values import Value, apply, constant

NOT_A_GROUP, BAD_LENGTH = 6, 7
GROUPED = {f"{call}_grouped": f"source length destination room {word} every separator"
           for call, word in (("encode", "upper"), ("decode", "policy"))}
CALLS |= GROUPED
# Sources of at most so many bytes are checked with groups of each size.
MOST = 32
# Pairs of a number of decoded bytes and the size of a group, for longer sources that take other ways through the code.
# These texts are decoded under the first policy only.
LONGER = [(16, 8), (29, 8), (36, 10), (43, 12), (57, 16), (60, 17), (90, 24), (116, 33), (228, 65), (340, 97),
          (452, 129), (600, 257), (1024, 512), (59, 1), (59, 2), (95, 5), (95, 7), (64, 32), (128, 64), (256, 128)]
# A source that is encoded is also checked with groups of five blocks of 32 bytes and some more.
ENCODED = [*LONGER, (330, 165)]
EVERY = Value(z3.BitVec("every", 64))
# A byte may stand between groups if it is ASCII and no digit of hex.
IS_DIGIT = hexadecimal.is_digit(SEPARATOR.term, hexadecimal.EITHER_CASE)
IS_SEPARATOR = Value(z3.And(z3.ULT(SEPARATOR.term, 128), z3.Not(IS_DIGIT)))


def text_length(count, every):
    return 2 * count + ((count - 1) // every if count else 0)


class Grouped(Shown):
    """The check of a grouped call. If the size of a group is None, it is any size above the number of bytes."""

    def __init__(self, image, at, call, length, every, policy, is_upper):
        self.set(call, policy, is_upper, constant(length, 8))
        # All groups that no source fills give the same result, so this size stands for them.
        self.every, self.size, count = every, every if every is not None else length + 1, None
        if self.size and self.is_encoding:
            count = text_length(length, self.size)
        elif self.size:
            count = next((it for it in range(length + 1) if text_length(it, self.size) == length), None)
        self.count, self.writes = count, constant(count or 0, 8)
        above = apply(z3.UGT, EVERY, constant(length if self.is_encoding else length // 2, 8))
        self.run(image, at, self.kind_of, [IS_NO_POLICY] + ([above] if every is None else []))

    def argument(self, word):
        if word == "every":
            return EVERY if self.every is None else constant(self.every, 8)
        return super().argument(word)

    def kind_of(self, name):
        """The policy that a digit must follow, and None for a separator."""
        return self.policy if self.place(difference(self.machine.index(name), ZERO.term))[1] is not None else None

    def place(self, at):
        """For an index in a text, the index of its byte, and which digit of this byte is there, or None."""
        group, rest = divmod(at, 2 * self.size + 1)
        return group * self.size + rest // 2, rest % 2 if rest < 2 * self.size else None

    def cases(self):
        return [IS_SEPARATOR, self.is_small]

    def expected(self, state, is_separator, is_small):
        if self.policy == OTHER:
            return UNKNOWN_POLICY, ZERO
        if self.size == 0 or not is_separator:
            return NOT_A_GROUP, ZERO
        if self.count is None:
            return BAD_LENGTH, ZERO
        if is_small:
            return TOO_SMALL, self.writes
        return INVALID if state.refused else DONE, self.writes

    def check_byte(self, state, at, value):
        index = difference(at, ZERO.term)
        if not self.is_encoding or self.place(index)[1] is not None:
            super().check_byte(state, at, value)
        elif not self.is_equal(state, value, SEPARATOR.term):
            raise Refused("what is written is no separator")

    def side(self, state, at, index):
        at, index = (difference(it, ZERO.term) for it in (at, index))
        byte, side = self.place(at if self.is_encoding else index)
        if side is None or byte != (index if self.is_encoding else at):
            raise Refused("what is written depends on other bytes")
        return side


def shown_grouped(image, build, call, most=None):
    """Checks a call for some longer sources, and for each length up to `most` with groups of each size."""
    is_encoding = call == "encode_grouped"
    pairs = [(length, every) for length in range((MOST if most is None else most) + 1)
             for every in [*range((length if is_encoding else length // 2) + 1), None]]
    longer = ENCODED if is_encoding else [(text_length(count, every), every) for count, every in LONGER]
    longer = [it for it in longer if most is None or it[0] <= most]
    ways = ways_of(call)
    for at in image.calls(build, call):
        for those, each in (longer, ways[:None if is_encoding else 1]), (pairs, ways):
            for (length, every), way in itertools.product(those, each):
                yield Grouped(image, at, call, length, every, *way)
