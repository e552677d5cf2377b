"""The execution of an instruction, and how it reads and writes its operands."""
from .. import Refused
from ..state import NONE, STACK
from ..terms import ZERO, condition
from ..values import apply, bytes_of, constant, joined, plus
from .code import REGISTERS
from .instructions import CONDITIONS, OPPOSITE, TABLE


def address_of(base, index, scale, distance):
    return base + index * scale + distance


class Step:
    """An instruction and the state on which it is executed. An operand is named by its place among the operands in the
    order of Intel, where the one that is written comes first."""

    def __init__(self, machine, state, instruction):
        self.machine, self.state, self.instruction = machine, state, instruction
        self.operands, self.is_vex = instruction.operands, instruction.name[0] == "v"
        self.name = instruction.name[self.is_vex:]

    def size(self, at):
        return self.operands[at].size

    def number(self, at):
        if self.operands[at].number is None:
            raise Refused("not a number")
        return self.operands[at].number

    def vector(self, at):
        """The bytes of an operand if it is a vector register, otherwise None."""
        name = self.operands[at].register or ""
        return self.state.vectors[int(name[3:])] if name[:3] in ("xmm", "ymm", "zmm") else None

    @property
    def width(self):
        return self.size(0 if self.vector(0) else 1)

    def condition(self, name):
        return self.machine.decided(self.state, condition(self.state.flags, CONDITIONS, name))

    def address(self, at):
        base, index, scale, distance = self.operands[at].address
        if base == "rip":
            return self.machine.image.address(self.instruction.end + distance)
        base, index = (self.state.registers[it] if it else NONE for it in (base, index))
        return apply(address_of, base, index, constant(scale, 8), constant(distance, 8))

    def bytes(self, at, count):
        it = self.operands[at]
        if it.number is not None:
            return bytes_of(constant(it.number, count))
        if it.address:
            self.is_aligned(at, count)
            size = it.size if it.is_repeated else count
            return self.machine.load(self.state, self.address(at), size) * (count // size)
        whole = self.vector(at) or bytes_of(self.state.registers[REGISTERS[it.register][0]])
        return whole[:count]

    def write(self, values):
        """Writes the first operand. The bytes above become zero in a register of which four bytes are written, and in
        the vector of an instruction of AVX. Otherwise they are kept."""
        if self.operands[0].address:
            self.is_aligned(0, len(values))
            self.machine.store(self.state, self.address(0), values)
        elif vector := self.vector(0):
            vector[:] = values + ([ZERO] * (len(vector) - len(values)) if self.is_vex else vector[len(values):])
        else:
            self.write_register(self.operands[0].register, values)

    def write_register(self, register, values):
        name, size = REGISTERS[register]
        if size < 4 and len(values) != size:
            raise Refused("not what the register holds")
        above = bytes_of(self.state.registers[name])[size:] if size < 4 else [ZERO] * (8 - len(values))
        self.state.registers[name] = joined(values + above)
        if name == "rsp":
            self.machine.lowers(self.state)

    def get(self, at):
        return joined(self.bytes(at, self.size(at if self.operands[at].number is None else 0)))

    def set(self, value):
        self.write(bytes_of(value))

    def sources(self):
        """The two vectors that are combined. AVX has them after the vector that is written. SSE writes the first."""
        return self.bytes(self.is_vex, self.width), self.bytes(1 + self.is_vex, self.width)

    def is_aligned(self, at, count):
        """Refuses an address that is not known to be aligned, if the instruction requires that. An instruction of SSE,
        movdqa and movaps require it for whole vectors. The first stack pointer is 8 bytes above an aligned address."""
        is_asked = self.name.startswith(("movdqa", "movaps")) or \
            not self.is_vex and self.name not in ("movdqu", "movups")
        if count >= 16 and is_asked:
            base, distance = self.machine.place(self.address(at))
            # The stack is only known to be aligned to 16 bytes. A file is loaded at the beginning of a page.
            is_known = base is self.machine.image.base or base is STACK and count == 16
            if not is_known or (distance + 8 * (base is STACK)) % count:
                raise Refused("not aligned")

    def push(self, value):
        if value.term.size() != 64:
            raise Refused("not eight bytes")
        end = self.state.registers["rsp"] = plus(self.state.registers["rsp"], -8)
        self.machine.lowers(self.state)
        self.machine.store(self.state, end, bytes_of(value))

    def pop(self):
        end = self.state.registers["rsp"]
        value = joined(self.machine.load(self.state, end, 8))
        self.state.registers["rsp"] = plus(end, 8)
        self.machine.lowers(self.state)
        return value


def perform(machine, state, instruction):
    """Executes an instruction. Returns False if the call has returned."""
    step = Step(machine, state, instruction)
    name = step.name
    if name == "ret":
        return machine.returns(state, step.pop())
    if name == "call":
        step.push(machine.image.address(state.at))
        state.calls += state.at,
    if name in ("jmp", "call"):
        # A register may have the address of a place in the file.
        machine.jumps(state, step.get(0) if step.operands[0].register else machine.image.address(step.number(0)))
    elif name[0] == "j":
        said, zero = condition(state.flags, CONDITIONS, name[1:]), state.flags["z"]
        machine.branches(state, said, step.number(0), zero and zero[1], (name[1:], OPPOSITE[name[1:]]))
    else:
        TABLE[name](step)
    return True
