"""Compares random encodings of instructions with the processor. What machine/ executes must have the effect that the
processor gives to it, and what the processor refuses must be refused. What machine/ refuses may be anything."""
import ctypes
import operator
import os
import random
import re
import signal
import time
from pathlib import Path
from subprocess import CalledProcessError

import pytest

z3 = pytest.importorskip("z3")
pytest.importorskip("capstone")
from commands import CC, SEED, TESTS_IN_C, needs, runs
from machine import Refused, execution, values
from machine.image import Image
from machine.state import STACK, State
from machine.x86_64 import PROCESSOR
from machine.x86_64.code import assembles

# For how many seconds encodings are tried, and how many are read at once.
SECONDS, AT_ONCE = int(os.environ.get("SECONDS_OF_ENCODINGS") or 60), 1500
# Each encoding has a slot of so many bytes. The rest of a slot is one-byte nops, so that objdump finds the beginning of
# the next encoding. When an encoding is run, a jump back replaces the nops after it.
SLOT, LONGEST, NOP = 32, 15, b"\x90"
CODE, MEMORY, PAGE = 0x2_0000_0000, 0x3_0000_0000, 4096
# The memory that is compared is what the model of the stack has: from the red zone to the return address. The numbers
# are distances from the stack pointer, which is 8 bytes above an aligned address. The last one is that of an aligned
# address, to which rdi points.
BELOW, ABOVE, PLACE = -128, 8, -72
STACK_AT = MEMORY + 2056
NAMES = "rax rcx rdx rbx rsp rbp rsi rdi r8 r9 r10 r11 r12 r13 r14 r15".split()
# Bytes for registers and memory. Those at boundaries are more frequent.
NUMBERS = [*range(256), *(0, 1, 127, 128, 255) * 100]
FLAGS = {"c": 0, "z": 6, "s": 7, "o": 11}
HAS_FLAG = {flag: (lambda it, bit=bit: z3.Extract(bit, bit, it) == 1) for flag, bit in FLAGS.items()}
# Opcodes of AVX-512 that the model has. They are tried more often than others.
USED = bytes.fromhex("fc dc fd f8 d8 da de d5 00 db eb 76 7e 25 27 71 6f 7f 30 78 79 7a 58 3a")


class Registers(ctypes.Structure):
    """The struct `state` of decoder.c."""
    _fields_ = [("registers", ctypes.c_uint64 * 16), ("flags", ctypes.c_uint64), ("unused", ctypes.c_uint64 * 7),
                ("vectors", ctypes.c_ubyte * 64 * 16)]


def any_of(chance, common, seldom):
    """One of the common bytes, or seldom any byte."""
    return chance.choice(common) if chance.random() > seldom else chance.randrange(256)


def operands(chance):
    """The byte that names the operands, with bytes after it. It names two registers, or a register and memory at rdi,
    or seldom anything."""
    way, rest = chance.random(), chance.randbytes(LONGEST)
    if way < 0.7:
        return bytes([0xc0 | chance.randrange(64)]) + rest
    if way < 0.97:
        distance = chance.choice((0, 1, 4, 8, 16, 24, 40, 0xf8, 0xe0, 0xc8))
        return bytes([0x47 | chance.randrange(8) << 3, distance]) + rest
    return chance.randbytes(1) + rest


def prefixes(chance, most):
    many = chance.choice((0, 0, 1, 1, 1, 2)) if chance.random() < most else 0
    return bytes(chance.choice((0x66, 0x66, 0xf2, 0xf3, 0x2e, 0x3e, 0x67, 0x64, 0xf0)) for _ in range(many))


def legacy(chance):
    before, rex = prefixes(chance, 1), bytes([0x40 | chance.randrange(16)]) * (chance.random() < 0.6)
    before = before + rex if chance.random() < 0.95 else rex + before
    opcode = chance.choice((b"", b"\x0f", b"\x0f", b"\x0f\x38", b"\x0f\x3a")) + chance.randbytes(1)
    return before + opcode + operands(chance)


def vex(chance):
    if chance.random() < 0.3:
        begin = bytes([0xc5, chance.randrange(256)])
    else:
        # Many instructions have no second source. The bits that name it must then be ones.
        fields = chance.randrange(256) | chance.choice((0x78, 0))
        begin = bytes([0xc4, chance.randrange(8) << 5 | chance.choice((1, 2, 3)), fields])
    return prefixes(chance, 0.05) + begin + chance.randbytes(1) + operands(chance)


def evex(chance):
    map_, opcode = chance.choice((1, 1, 2, 3)), any_of(chance, USED, 0.1)
    first = chance.choice((0xf0, 0xf0, 0xd0, 0x70, 0x50, 0xb0)) | map_
    vector, prefix = chance.choice((15, 15, chance.randrange(16))), chance.choice((1, 1, 2, 3))
    second = chance.randrange(2) << 7 | vector << 3 | 4 | prefix
    third = chance.choice((0, 1, 2, 2, 3)) << 5 | 8 | 0x10 * (chance.random() < 0.2)
    flaw = chance.randrange(256) if chance.random() < 0.05 else 0
    place = chance.randrange(3)
    fields = [it ^ flaw * (at == place) for at, it in enumerate((first, second, third))]
    return prefixes(chance, 0.03) + bytes([0x62, *fields, opcode]) + operands(chance)


def encodings(chance, is_wide):
    kinds = [legacy] * 3 + [vex] * 3 + [evex] * 2 * is_wide
    return [chance.choice(kinds)(chance)[:LONGEST] for _ in range(AT_ONCE)]


@pytest.fixture(scope="module")
def processor(tmp_path_factory):
    """The functions of decoder.c."""
    needs("ld", "objdump")
    made = tmp_path_factory.mktemp("made") / "decoder.so"
    runs([CC, "-O1", "-shared", "-fPIC", "-Wl,-Bsymbolic", "-o", made, TESTS_IN_C / "decoder.c"])
    library = ctypes.CDLL(made)
    library.map.restype = ctypes.c_void_p
    library.map.argtypes = [ctypes.c_uint64] * 2
    library.prepare()
    assert library.map(CODE, SLOT * AT_ONCE + PAGE) == CODE and library.map(MEMORY, PAGE) == MEMORY
    return library


def imaged(folder, slots):
    """An image with the encodings at the address where the processor runs them."""
    (folder / "slots").write_bytes(slots)
    (folder / "slots.S").write_text(f'.incbin "{folder}/slots"\n')
    runs([CC, "-c", "-o", folder / "slots.o", folder / "slots.S"])
    runs(["ld", "-e", "0", f"-Ttext={CODE:#x}", "-o", folder / "image", folder / "slots.o"])
    return Image(folder / "image")


def any_state(chance):
    """Random registers, flags and vectors before an instruction, and random memory."""
    numbers = lambda count: bytes(chance.choices(NUMBERS, k=count))
    it = Registers.from_buffer_copy(numbers(ctypes.sizeof(Registers)))
    it.registers[4], it.registers[7] = STACK_AT, STACK_AT + PLACE
    it.flags = chance.randrange(1 << 12) & sum(1 << bit for bit in FLAGS.values()) | 2
    return it, numbers(ABOVE - BELOW)


def state_of(at, given, memory):
    """The same state in the model."""
    state = State(at, PROCESSOR)
    state.registers = {name: values.constant(given.registers[it], 8) for it, name in enumerate(NAMES)}
    place = values.apply(operator.add, STACK, values.constant(PLACE, 8))
    state.registers |= {"rsp": STACK, "rdi": place}
    state.vectors = [[values.constant(byte, 1) for byte in it] for it in given.vectors]
    state.stack = dict(enumerate((values.constant(it, 1) for it in memory), BELOW))
    state.flags = {flag: (function, values.constant(given.flags, 8)) for flag, function in HAS_FLAG.items()}
    return state


def is_number(value, number, size):
    """Whether a value of so many bytes is a number. Most values are constants, of which each exists only once."""
    return value is values.constant(number, size) or number_of(value) == number


def number_of(value):
    """The number or truth value of a value if the stack is where the processor has it, or None if it is not known."""
    it = z3.simplify(z3.substitute(value.term, (STACK.term, z3.BitVecVal(STACK_AT, 64))))
    return it.as_long() if z3.is_bv_value(it) else z3.is_true(it) if z3.is_true(it) or z3.is_false(it) else None


def modelled(image, read, given, memory):
    """The state after an instruction in the model, or None if the instruction does not go on to the next one: it jumps,
    or its effect depends on where the stack is."""
    machine = execution.Machine(image, values.constant(0, 8), None, None, (), None)
    state = state_of(read.at, given, memory)
    goes_on = machine.advances(state)
    return state if goes_on and state.at == read.end and not machine.left else None


def differences(state, done, memory, is_wide):
    """The differences between a state of the model and the one of the processor. Memory that the model has forgotten
    may be anything, and so may a flag without a model."""
    for at, name in enumerate(NAMES):
        if not is_number(state.registers[name], done.registers[at], 8):
            yield f"{name}: the model has {number_of(state.registers[name])}, the processor {done.registers[at]}"
    for at, vector in enumerate(state.vectors):
        both = list(zip(vector, done.vectors[at]))[:64 if is_wide else 32]
        if not all(is_number(it, byte, 1) for it, byte in both):
            yield f"vector {at}: the model and the processor have {[(number_of(it), byte) for it, byte in both]}"
    for at, it in state.stack.items():
        if BELOW <= at < ABOVE and not is_number(it, memory[at - BELOW], 1):
            yield f"memory at {at}: the model has {number_of(it)}, the processor {memory[at - BELOW]}"
    for flag, it in state.flags.items():
        if it and number_of(values.apply(*it)) != bool(done.flags >> FLAGS[flag] & 1):
            yield f"flag {flag}: the model has another one"


def faults(image, processor, chance, at, level):
    """What is wrong with how an encoding is read or executed, as a list, or None if it is refused, jumps, or needs a
    higher level than the processor has."""
    try:
        read = image.instruction(at)
        given, memory = any_state(chance)
        state = modelled(image, read, given, memory)
    except Refused:
        return None
    except Exception as why:
        return [f"{image.texts[at]} is neither executed nor refused: {why!r}"]
    if state is None or PROCESSOR.level_of(read) > level:
        return None
    place, is_wide = STACK_AT + BELOW, level > 3
    ctypes.memmove(place, memory, len(memory))
    caught = processor.run(ctypes.c_void_p(at), len(read.code), ctypes.byref(given), is_wide)
    after = ctypes.string_at(place, len(memory))
    found = [*differences(state, given, after, is_wide)]
    if caught:
        found = [f"the processor ends it with {signal.Signals(caught).name}"]
    is_read = not found or is_read_again(read)
    return [f"{read.code.hex()} {read.text}: {it}" for it in found] if is_read else None


def is_read_again(read):
    """Whether the record accepts an instruction. Of one of AVX-512, `as` must make the same bytes again."""
    try:
        assembles([read])
        return True
    except (Refused, CalledProcessError):
        return False


def test_random_encodings(tmp_path, processor):
    flags = Path("/proc/cpuinfo").read_text()
    has = lambda *names: all(re.search(rf"\b{it}\b", flags) for it in names)
    if not has("avx2", "bmi1", "bmi2"):
        pytest.skip("the processor has no AVX2")
    is_wide = has("avx512f", "avx512bw", "avx512dq", "avx512vl")
    level = 3 + is_wide + (is_wide and has("avx512vbmi"))
    chance, end, executed, found = random.Random(SEED), time.monotonic() + SECONDS, {}, []
    while time.monotonic() < end:
        slots = b"".join(it.ljust(SLOT, NOP) for it in encodings(chance, is_wide))
        image = imaged(tmp_path, slots)
        ctypes.memmove(CODE, slots, len(slots))
        for at in range(CODE, CODE + len(slots), SLOT):
            said = faults(image, processor, chance, at, level)
            found += said or []
            if said == []:
                name = image.instruction(at).name
                executed[name] = executed.get(name, 0) + 1
        values.forget()
    print(f"{sum(executed.values())} encodings of {len(executed)} instructions were executed")
    assert not found, f"SEED={SEED}\n" + "\n".join(found[:50])
    assert len(executed) > 20
