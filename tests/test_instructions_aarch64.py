"""Each form of each instruction of aarch64 that has a model in machine/aarch64 does there what it does under qemu. All
registers, flags and memory are compared after random operands. Nothing is compared with hardware."""
import functools
import random
import re

import pytest

from commands import ARM_CC, SEED, ran, runs
from emulator import TRAP, Emulator, Registers

z3 = pytest.importorskip("z3")
pytest.importorskip("capstone")
from machine import Refused, execution, values
from machine.aarch64 import PROCESSOR
from machine.aarch64.forms import FORMS, level_of
from machine.aarch64.instructions import GENERAL, OTHERS, VECTORS
from machine.image import Image, linked
from machine.state import IMAGE, STACK, State
from machine.terms import ZERO, always, never

# Where the code is loaded, the address that the model's stack begins at, and how many bytes below it are compared.
BASE, BEGIN, SIZE = 2 << 35, 3 << 35, 4096
# How many texts of a form are tried at first, how many of their instructions are compared, and with how many states;
# and how many changed instructions of a mnemonic are tried.
TEXTS, COMPARED, STATES, CHANGED = 150, 6, 6, 60
# Numbers for instructions that have one. The assembler refuses those that an instruction cannot have.
NUMBERS = [*range(17), 24, 31, 32, 33, 48, 56, 63, 64, 128, 170, 240, 255, 256, 4080, 4095, 4096, 65535, 0xffff0000]
NUMBERS += [0x5555555555555555, 0xff00ff00ff00ff00, 0xffffffff, 0xfffffffffffffe00, -1, -2, -256]
DISTANCES = 0, 1, 2, 3, 4, 5, 8, 12, 16, 24, 31, 32, 64, 256, 496, -1, -3, -8, -16, -32, -64, -255, -256, -512
SHIFTS = {"mx": ("", ",lsl #1", ",lsl #2", ",lsl #3", ",lsl #4"), "uxtb": ("uxtb", "uxtb #1", "uxtb #2", "uxtb #4")}
CONDITIONS = "eq ne cs cc mi pl hi ls ge lt gt le".split()
# Matches the forms of branches (`to`), of instructions without operands (`-`), and of the mark `bti`.
BRANCH = re.compile(r"\bto\b|-|bti")
# Reasons for which the tool refuses what processors do, or what each processor may do in its own way.
REFUSES_MORE = "this is not defined|the stack pointer leaves the frame"
# The flags of the model, by their bits from the highest one on.
FLAGS = "szco"
NAMES = [*[f"x{it}" for it in range(31)], "sp"]


def operand(kind, after, chance):
    """The text of a random operand of a kind. `after` is the kind of the next operand, or None."""
    place, number = chance.choice((0, 1, 2, 3, 4, 19, 30, 31)), chance.choice(NUMBERS)
    if kind in ("x", "w"):
        return f"{kind}{place if place < 31 else 'zr'}"
    if kind in ("m", "m!", "mx"):
        base = "sp" if kind != "mx" and chance.random() < 0.3 else f"x{place % 31}"
        if kind == "mx":
            return f"[{base},x{chance.randrange(5, 9)}{chance.choice(SHIFTS['mx'])}]"
        distance = chance.choice((0, chance.choice(DISTANCES)))
        if base == "sp":
            # The stack pointer stays a multiple of 16, and nothing below it is accessed.
            distance = abs(distance // 16 * 16) * (-1 if kind == "m!" and distance < 0 else 1)
        return f"[{base}]" if after == "i" or (kind, distance) == ("m", 0) else f"[{base},#{distance}]{kind[1:]}"
    if found := re.fullmatch(r"(\{?)([bhsd])(\}?)\[\]", kind):
        return f"{found[1]}v{place}.{found[2]}{found[3]}[{chance.randrange(16 >> 'bhsd'.index(found[2]))}]"
    if kind[0] == "{":
        return "{" + ",".join(f"v{(place + at) % 32}.{it}" for at, it in enumerate(kind.strip("{}").split(","))) + "}"
    if kind in ("lsl", "lsr", "asr"):
        return f"{kind} #{chance.choice((number, 8, 16, 24))}"
    others = {"i": f"#{number}", "c": chance.choice(CONDITIONS), "to": chance.choice((".+8", ".-8")),
              "uxtb": chance.choice(SHIFTS["uxtb"]), "sp": "sp", "bti": "c"}
    return others.get(kind) or (f"{kind}{place}" if kind in "bhsdq" else f"v{place}.{kind}")


def texts_of(name, form, chance):
    kinds = [] if form == "-" else re.findall(r"\{[^}]*\}(?:\[\])?|[^,]+", form)
    for _ in range(TEXTS if kinds else 1):
        each = [operand(it, after, chance) for it, after in zip(kinds, [*kinds[1:], None])]
        # The number after memory is added to its base. If this is the stack pointer, it must stay a multiple of 16.
        if kinds[-2:] == ["m", "i"]:
            each[-1] = f"#{chance.choice((-64, -32, 16, 32, 64, 1, 2, 4, 8)[:5 if '[sp]' in each else 9])}"
        yield f"{name} {','.join(each)}"


def assembled(folder, texts):
    """Assembles those texts that are instructions, and returns their image and their addresses."""
    def assemble(texts):
        # A branch goes two instructions forward or back, to a `brk`.
        lines = [f"brk #0; brk #0; t{at}: {it}; brk #0; brk #0" for at, it in enumerate(texts)]
        (folder / "made.s").write_text("\n".join([*lines, ""]))
        return ran([ARM_CC, "-c", "-march=armv8-a", "-Wa,--no-warn", "-o", folder / "made.o", folder / "made.s"]).stdout
    wrong = {int(it) - 1 for it in re.findall(r"made\.s:(\d+): Error", assemble(texts))}
    texts = [it for at, it in enumerate(texts) if at not in wrong]
    said = assemble(texts)
    assert not said, said
    image = Image(linked(folder / "image", folder / "made.o"), 1)
    return image, [at for it in range(len(texts)) for at in image.symbols[f"t{it}"]]


def some_number(chance):
    """A random number, a small one, or one at a boundary."""
    boundary = chance.choice((0, 1, 127, 128, 255, 2**31 - 1, 2**31, 2**32 - 1, 2**32, 2**63 - 1, 2**63, 2**64 - 1))
    return chance.choice((boundary, chance.getrandbits(64), chance.randrange(70)))


def some_vector(chance):
    """A random vector of any bytes, of small ones, of bytes at a boundary, or of few that are not zero."""
    any_byte, small = chance.randbytes(16), bytes(chance.randrange(40) for _ in range(16))
    boundary = bytes(chance.choice((0, 1, 127, 128, 254, 255)) for _ in range(16))
    few = bytes(chance.choice((0, 0, 0, 255)) for _ in range(16))
    return int.from_bytes(chance.choice((any_byte, small, boundary, few)), "little")


# The values of registers that an instruction does not name.
UNNAMED = Registers([some_number(random.Random(it)) for it in range(31)])
UNNAMED.v = [some_vector(random.Random(it)) for it in range(32)]


class Compared:
    """An instruction, random registers and memory for it, and what the model and qemu make of these."""

    def __init__(self, image, read, chance):
        self.image, self.read, self.chance = image, read, chance
        self.given = Registers([*UNNAMED.x], BEGIN - 16 * chance.randrange(150, 200), BASE + read.at,
                               chance.randrange(16) << 28, [*UNNAMED.v])
        for it in {name for each in read.operands for name in each.registers}:
            if type(it) is int:
                self.given.v[it] = some_vector(chance)
            elif re.fullmatch(r"x\d+", it):
                self.given.x[int(it[1:])] = some_number(chance)
        # What the stack holds, and the part of it that is accessed, of which the model knows the bytes.
        self.memory, self.near = bytearray(SIZE), ()
        for it in self.read.operands:
            if it.kind[0] == "m":
                self.points(it)
        if self.read.name == "ret":
            self.given.x[30] = BASE + read.at + 8

    def points(self, it):
        """Sets the registers of a memory operand so that its address is in the stack."""
        base, *index = it.registers
        place = self.given.sp
        if base != "sp":
            place = self.given.x[int(base[1:])] = BEGIN - self.chance.randrange(640, 1280)
        for name in index:
            self.given.x[int(name[1:])] = number = self.chance.randrange(20)
            place += number << it.number
        first = place - BEGIN + SIZE + (0 if index else it.number) - 16
        self.near = range(first, first + 80)
        self.memory[first:first + 80] = self.chance.randbytes(80)

    def state(self):
        """The state for the model. Registers that point to the stack or the code do so in the model too."""
        it = State(self.read.at, PROCESSOR)
        pointers = {"sp", *[each.registers[0] for each in self.read.operands if each.kind[0] == "m"]}
        for name, number in zip(NAMES, [*self.given.x, self.given.sp]):
            is_code = name == "x30" and self.read.name == "ret"
            it.registers[name] = values.plus(STACK, number - BEGIN) if name in pointers else \
                self.image.address(number - BASE) if is_code else values.constant(number, 8)
        it.vectors = [[values.constant(byte, 1) for byte in number.to_bytes(16, "little")] for number in self.given.v]
        it.flags = {flag: (always if self.given.flags >> 31 - at & 1 else never, ZERO) for at, flag in enumerate(FLAGS)}
        it.stack = {at - SIZE: values.constant(self.memory[at], 1) for at in self.near}
        return it

    def by_model(self):
        machine, state = execution.Machine(self.image, values.constant(0, 8), None, None, (), None), self.state()
        machine.advances(state)
        assert not machine.left, "two paths"
        return state

    def by_qemu(self, emulator):
        emulator.write(BEGIN - SIZE, bytes(self.memory))
        done, signal = emulator.run(self.given)
        assert signal == TRAP, signal
        return done, emulator.read(BEGIN - SIZE, SIZE)

    def differences(self, emulator):
        """The names of what differs afterwards between the model and qemu."""
        state, (done, memory) = self.by_model(), self.by_qemu(emulator)
        registers = {name: number(state.registers[name]) for name in NAMES}
        yield from [it for it, there in zip(NAMES, [*done.x, done.sp]) if registers[it] != there]
        yield from [f"v{at}" for at, there in enumerate(done.v)
                    if bytes(map(number, state.vectors[at])) != there.to_bytes(16, "little")]
        yield from [flag for at, flag in enumerate(FLAGS)
                    if z3.is_true(values.apply(*state.flags[flag]).term) != bool(done.flags >> 31 - at & 1)]
        # A byte that the model does not have was not stored to, or is below the stack pointer and not compared.
        wanted = bytearray(self.memory)
        for at, it in state.stack.items():
            wanted[at + SIZE] = number(it)
        first = max(done.sp - BEGIN, -SIZE) + SIZE
        yield from ["memory"] * (wanted[first:] != memory[first:])
        yield from ["pc"] * (BASE + state.at != done.pc)


# The addresses under qemu of what has unknown addresses in the model.
PLACES = (STACK.term, z3.BitVecVal(BEGIN, 64)), (IMAGE.term, z3.BitVecVal(BASE, 64))


@functools.lru_cache(None)
def number(it):
    """The number that a value is with the addresses under qemu."""
    return it.number if it.number is not None else z3.simplify(z3.substitute(it.term, *PLACES)).as_long()


def form_of(read):
    return ",".join(it.kind for it in read.operands) or "-"


def reads(image, addresses, allowed):
    """The instructions at these addresses, except for those that the tool refuses to read for an allowed reason."""
    for at in addresses:
        try:
            yield image.instruction(at)
        except Refused as why:
            assert re.search(allowed, str(why)), why


def is_compared(emulator, image, read, chance, allowed):
    """Compares an instruction in random states. Returns False if the tool refuses it for an allowed reason."""
    for _ in range(STATES):
        it = Compared(image, read, chance)
        try:
            found = [*it.differences(emulator)]
        except Refused as why:
            assert re.search(allowed, str(why)), why
            return False
        assert not found, f"SEED={SEED}: {read.text}: {vars(it.given)}"
    return True


def loaded(emulated, file):
    emulator = Emulator(emulated)
    emulator.loads(file, BASE)
    emulator.map(BEGIN - SIZE, SIZE)
    return emulator


@pytest.mark.apart
@pytest.mark.parametrize("name", FORMS)
def test_instruction(tmp_path, emulated, name):
    chance, left = random.Random(f"{SEED} {name}"), dict.fromkeys(FORMS[name], COMPARED)
    image, addresses = assembled(tmp_path, [it for form in sorted(left) for it in texts_of(name, form, chance)])
    with loaded(emulated, tmp_path / "image") as emulator:
        for it in reads(image, addresses, "Capstone reads"):
            form = form_of(it)
            if it.name == name and left.get(form):
                left[form] -= is_compared(emulator, image, it, chance, REFUSES_MORE)
    values.forget()
    assert COMPARED not in left.values(), f"no text has this form: {left}"


@pytest.mark.apart
@pytest.mark.parametrize("name", [name for name, forms in FORMS.items() if not BRANCH.search(f"{forms}")])
def test_changed_instruction(tmp_path, emulated, name):
    """Changes a bit of an instruction that is no branch. If the tool accepts the result, its effect must be the one
    under qemu, where a code that is no instruction ends by a fault."""
    chance, count = random.Random(f"{SEED} {name} changed"), 0
    image, addresses = assembled(tmp_path, [it for form in sorted(FORMS[name]) for it in texts_of(name, form, chance)])
    words = [int.from_bytes(image.texts[chance.choice(addresses)][0], "little") for _ in range(CHANGED)]
    image, addresses = assembled(tmp_path, [f".inst {it ^ 1 << chance.randrange(32):#x}" for it in words])
    with loaded(emulated, tmp_path / "image") as emulator:
        for it in reads(image, addresses, "."):
            is_near = all(abs(each.number or 0) <= 512 for each in it.operands if each.kind[0] == "m")
            if level_of(it) and is_near and not any(each.kind == "to" for each in it.operands):
                count += is_compared(emulator, image, it, chance, ".")
    values.forget()
    assert count > 0


@pytest.mark.parametrize("table, name, other", [
    (VECTORS, "uqsub", "sub"), (VECTORS, "zip2", "zip1"), (GENERAL, "bfxil", "ubfx"), (OTHERS, "cmp", "tst"),
    (OTHERS, "ldurh", "ldurb"), (OTHERS, "st2", "str"),
])
def test_wrong_model(tmp_path, emulated, monkeypatch, table, name, other):
    """The comparison notices that an instruction has the model of another one."""
    monkeypatch.setitem(table, name, table[other])
    with pytest.raises(AssertionError, match="SEED="):
        test_instruction(tmp_path, emulated, name)
