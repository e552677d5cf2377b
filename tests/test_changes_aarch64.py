"""The changed copies of calls for aarch64 that machine/ must refuse are wrong under qemu, except the unseen ones."""
import random
import re
from dataclasses import dataclass

import pytest

import changes
from commands import ARM_CC, TOP, ran, runs
from emulator import BRK, PAGE, TRAP, Emulator, Registers

pytest.importorskip("z3")
pytest.importorskip("capstone")
from machine.statements import CALLS, DONE, INVALID, ODD_LENGTH, OVERFLOW, POLICIES, TOO_SMALL, UNKNOWN_POLICY

# Where the code is, and where the memory for the source, for the destination and for the stack ends.
CODE, SOURCE, DESTINATION, STACK = (it << 35 for it in range(2, 6))
RETURN = CODE - PAGE
# The most bytes of a source without a gap of zeros, the size of the caller's frame, and what fills other memory.
LONGEST, FRAME, FILL = 8 * PAGE, 256, 0xaa
DIGITS = b"0123456789abcdefABCDEF", b"0123456789abcdef", b"0123456789ABCDEF"
# The registers that belong to the caller: x19 to x29, and the lower halves of v8 to v15.
KEPT, HALVES_KEPT = range(19, 30), range(8, 16)
# How many cases are tried, and how many of those with a length above 2^32.
TRIES, FEW = 2000, 20
# The last column of a row begins with this if no run of the code shows the fault.
UNSEEN = "unseen: "


@dataclass
class Case:
    """The arguments of a call. If there is a gap, the source has so many zeros after its first page."""
    call: str
    given: bytes
    gap: int
    room: int
    policy: int
    is_upper: bool

    @property
    def length(self):
        return len(self.given) + self.gap

    @property
    def is_there(self):
        """Whether there is memory for the source. A longer source is only given to calls that do not read it."""
        return self.length < 2**33

    @property
    def needed(self):
        """How many bytes are written, if all is right."""
        return 2 * self.length if self.call == "encode" else self.length // 2 if self.has("room") else 0

    def has(self, word):
        return word in CALLS[self.call].split()

    def invalid(self):
        """The index of the first byte that is no digit, and this byte, or None if all are digits."""
        if self.call == "encode":
            return None
        if self.gap:
            return PAGE, 0
        return next(((at, it) for at, it in enumerate(self.given) if it not in DIGITS[self.policy]), None)

    def answer(self):
        """The number, the status and the byte that the call has to return."""
        if self.policy >= len(DIGITS):
            return 0, UNKNOWN_POLICY, 0
        if self.has("room") and self.call != "encode" and self.length % 2:
            return 0, ODD_LENGTH, 0
        if self.needed >= 2**64:
            return 0, OVERFLOW, 0
        if self.has("room") and self.room < self.needed:
            return self.needed, TOO_SMALL, 0
        found = self.invalid()
        return (found[0], INVALID, found[1]) if found else (self.needed, DONE, 0)

    def destination(self):
        """What the destination must hold at the end."""
        text = self.given.hex() if self.call == "encode" else self.given.decode("latin-1")
        written = b""
        if self.has("room") and self.answer()[1] == DONE:
            text = text.upper() if self.is_upper else text
            written = text.encode() if self.call == "encode" else bytes.fromhex(text)
        return written + bytes([FILL]) * (min(self.room, LONGEST) - len(written))


def drawn(call, length, chance):
    """A random case."""
    is_encoding, has_policy = call == "encode", "policy" in CALLS[call]
    policy = chance.choice((0, 1, 2, 3, chance.randrange(256))) if has_policy else POLICIES.get(call, 0)
    gap = max(length - 2 * PAGE, 0) if length > LONGEST else 0
    size = length - gap
    digits = DIGITS[policy % len(DIGITS)]
    given = bytearray(chance.randbytes(size) if is_encoding else (chance.choice(digits) for _ in range(size)))
    for _ in range(chance.choice((0, 1, 2)) if size and not gap and not is_encoding else 0):
        given[chance.randrange(size)] = chance.choice((*b"/:@G`gaAfF\0\x80\xff", chance.randrange(256)))
    it = Case(call, bytes(given), gap, 0, policy, chance.random() < 0.5)
    it.room = max(it.needed + chance.choice((0, 0, 0, 7, -1)), 0) % 2**64
    if gap and (is_encoding or not it.is_there) and it.needed:
        # The room is too small, because there is no memory for so many digits, or none for the source.
        it.room = chance.randrange(min(it.needed, 2**64))
    return it


def before(case, at, chance):
    """The registers before a call. What no argument fills is random: whole registers, and the bits above a byte."""
    it = Registers([chance.getrandbits(64) for _ in range(31)], STACK - FRAME, at, chance.randrange(16) << 28,
                   [chance.getrandbits(128) for _ in range(32)])
    known = {"source": SOURCE - case.length, "length": case.length, "destination": DESTINATION - case.room,
             "room": case.room, "policy": case.policy, "upper": case.is_upper}
    for at, word in enumerate(CALLS[case.call].split()):
        above = chance.getrandbits(56) << 8 if word in ("policy", "upper") else 0
        it.x[at] = (known[word] | above) % 2**64
    it.x[30] = RETURN
    return it


def memory(case, destination):
    """What is at some addresses. Without a gap, the page before the source is filled, as before the destination."""
    filled = bytes([FILL]) * PAGE
    found = {DESTINATION - len(destination) - PAGE: filled + destination, STACK - FRAME: filled[:FRAME]}
    if not case.gap:
        return found | {SOURCE - case.length - PAGE: filled + case.given}
    parts = {SOURCE - case.length: case.given[:PAGE], SOURCE - PAGE: case.given[PAGE:]}
    return found | (parts if case.is_there else {})


def answers_rightly(emulator, at, case, chance):
    """Whether a call answers rightly, writes what it must, and keeps the caller's registers and other memory."""
    for place, it in memory(case, bytes([FILL]) * min(case.room, LONGEST)).items():
        emulator.write(place, it)
    given = before(case, at, chance)
    done, signal = emulator.run(given)
    kept = [(it.sp, [it.x[at] for at in KEPT], [it.v[at] % 2**64 for at in HALVES_KEPT]) for it in (given, done)]
    number, status, byte = case.answer()
    if case.has("room") or case.call == "first_invalid":
        is_right = (done.x[0], done.x[1] & 0xff, done.x[1] >> 8 & 0xff) == (number, status, byte)
    else:
        is_right = done.x[0] & 0xff == (status == DONE)
    wanted = memory(case, case.destination())
    is_kept = kept[0] == kept[1] and all(emulator.read(at, len(it)) == it for at, it in wanted.items())
    if case.gap and case.is_there:
        emulator.write(SOURCE - case.length, bytes(PAGE))
    return is_right and is_kept and (signal, done.pc) == (TRAP, RETURN)


def length_of(least, lengths, chance):
    return chance.choice(lengths) if lengths else least + chance.choice((chance.randrange(130), chance.randrange(7000)))


def is_wrong(emulated, folder, text, call, least, lengths):
    """Whether a call of this assembly is wrong in one of the random cases in which qemu runs it."""
    (folder / "made.S").write_text(text)
    words = "-static", "-nostdlib", "-Wl,-e,0", f"-Wl,-Ttext-segment={CODE:#x}", f"-I{TOP}/generated"
    runs([ARM_CC, *words, "-o", folder / "made", folder / "made.S"])
    at, = re.findall(rf"^(\w+) . \w+_aarch64_{call}$", ran(["nm", folder / "made"]).stdout, re.M)
    chance, most = random.Random(call), max([least, *lengths])
    with Emulator(emulated) as it:
        it.loads(folder / "made")
        for end in SOURCE, DESTINATION, STACK:
            it.map(end - LONGEST - PAGE, LONGEST + PAGE)
        if 2**32 <= most < 2**33:
            it.map(SOURCE - 2**33, 2**33)
        it.map(RETURN, PAGE)
        it.write(RETURN, BRK)
        for _ in range(TRIES if most < LONGEST else FEW):
            case = drawn(call, length_of(least, lengths, chance), chance)
            if not answers_rightly(it, int(at, 16), case, chance):
                return True
    return False


@pytest.mark.parametrize("least", [0, 257, 2**32])
@pytest.mark.parametrize("call", CALLS)
def test_right(tmp_path, emulated, call, least):
    """The function that judges the changed copies below finds the shipped code right."""
    lengths = [2**33 + 2, 2**63] if least > LONGEST and "room" in CALLS[call] else []
    text = changes.changed("aarch64", call)
    assert not is_wrong(emulated, tmp_path, text, call, least, [])
    assert not lengths or not is_wrong(emulated, tmp_path, text, call, 0, lengths)


@pytest.mark.apart
@pytest.mark.parametrize("row", changes.rows("aarch64/changes.txt"))
def test_change_is_wrong(tmp_path, emulated, row):
    it = changes.read(row)
    least = max(it.least, default=0)
    assert is_wrong(emulated, tmp_path, it.text, it.call, least, it.lengths) != it.wrong.startswith(UNSEEN)
