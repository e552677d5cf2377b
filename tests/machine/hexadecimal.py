"""The definition of hex with which the machine code is compared. Digits are defined by intervals of characters, and the
two digits of a byte by division. This definition shares nothing with the proofs."""
from z3 import And, If, Or, UDiv, ULE, ULT, URem

POLICIES = EITHER_CASE, LOWERCASE, UPPERCASE = range(3)
ADMITTED = {EITHER_CASE: ("09", "af", "AF"), LOWERCASE: ("09", "af"), UPPERCASE: ("09", "AF")}


def is_in(interval, byte):
    first, last = interval
    return And(ULE(ord(first), byte), ULE(byte, ord(last)))


def is_digit(byte, policy):
    return Or(*[is_in(it, byte) for it in ADMITTED[policy]])


def value_of(digit):
    letter = If(is_in("af", digit), digit - ord("a"), digit - ord("A")) + 10
    return If(is_in("09", digit), digit - ord("0"), letter)


def digit_of(value, is_upper):
    return If(ULT(value, 10), value + ord("0"), value - 10 + ord("A" if is_upper else "a"))


def byte_of(first, second):
    return 16 * value_of(first) + value_of(second)


def digits_of(byte, is_upper):
    return digit_of(UDiv(byte, 16), is_upper), digit_of(URem(byte, 16), is_upper)
