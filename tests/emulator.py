"""Runs machine code of aarch64 with any registers and memory, by qemu. The program c/registers.c does it there."""
import struct
import subprocess
from dataclasses import dataclass, field

from commands import ARM_CC, ON_ARM, TESTS_IN_C, compiled, needs

MAP, WRITE, READ, RUN = range(4)
PAGE, SECONDS = 4096, 10
# The signal that an instruction `brk` raises, by which code without a fault ends, and this instruction.
TRAP, BRK = 5, bytes.fromhex("000020d4")
# The struct `state` of c/registers.c: x0 to x30, sp, pc, the flags, v0 to v31, each as two numbers, and the signal.
STATE = struct.Struct("<99Q")


@dataclass
class Registers:
    x: list = field(default_factory=lambda: [0] * 31)
    sp: int = 0
    pc: int = 0
    flags: int = 0
    v: list = field(default_factory=lambda: [0] * 32)


def built(folder):
    """Builds the program c/registers.c."""
    needs(ARM_CC, ON_ARM.split()[0])
    return compiled(ARM_CC, folder / "registers", "-static", "-std=gnu99", "-O2", TESTS_IN_C / "registers.c")


class Emulator:
    """A process of qemu that runs the program registers."""

    def __init__(self, program):
        # A cortex-a72 has what all processors of aarch64 have. With SVE, qemu would keep vectors in another place.
        words = [*ON_ARM.split(), "-cpu", "cortex-a72", program]
        self.process = subprocess.Popen(words, stdin=subprocess.PIPE, stdout=subprocess.PIPE)

    def __enter__(self):
        return self

    def __exit__(self, *_):
        self.process.kill()
        self.process.communicate()

    def says(self, *numbers, given=b""):
        self.process.stdin.write(struct.pack("<3Q", *numbers) + given)

    def hears(self, size):
        self.process.stdin.flush()
        said = self.process.stdout.read(size)
        assert len(said) == size, "the program registers has ended"
        return said

    def map(self, at, size):
        """Makes memory of zeros, in whole pages. An access outside of all such pages is a fault."""
        self.says(MAP, at, size)

    def write(self, at, given):
        self.says(WRITE, at, len(given), given=given)

    def read(self, at, size):
        self.says(READ, at, size)
        return self.hears(size)

    def loads(self, file, base=0):
        """Loads a linked file."""
        data = file.read_bytes()
        begin, = struct.unpack_from("<Q", data, 32)
        count, = struct.unpack_from("<H", data, 56)
        for it in range(count):
            kind, _, offset, at, _, size, whole = struct.unpack_from("<2I5Q", data, begin + 56 * it)
            if kind == 1:
                first = (base + at) // PAGE * PAGE
                self.map(first, -(-(base + at + whole - first) // PAGE) * PAGE)
                self.write(base + at, data[offset:offset + size])

    def run(self, it):
        """Runs code with these registers. Returns the registers at its end, and the signal that ended it."""
        vectors = [number >> bits & 2**64 - 1 for number in it.v for bits in (0, 64)]
        numbers = [*it.x, it.sp, it.pc, it.flags, *vectors, 0]
        self.says(RUN, 0, SECONDS, given=STATE.pack(*numbers))
        *numbers, signal = STATE.unpack(self.hears(STATE.size))
        halves = numbers[34:]
        vectors = [low | high << 64 for low, high in zip(halves[::2], halves[1::2])]
        return Registers(numbers[:31], *numbers[31:34], vectors), signal
