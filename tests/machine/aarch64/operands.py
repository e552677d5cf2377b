"""The execution of an instruction, and how it reads and writes its operands."""
import operator

from z3 import Not

from .. import Refused
from ..terms import ZERO, are_all_zero, condition
from ..values import apply, bytes_of, constant, joined, plus
from .instructions import CONDITIONS, GENERAL, IS_CLEAR, OPPOSITE, OTHERS, SHIFTS, VECTORS

SIZES = {"x": 8, "sp": 8, "w": 4, "b": 1, "h": 2, "s": 4, "d": 8, "q": 16}


def indexed(base, index, shift):
    return base + (index << shift)


class Step:
    """An instruction and the state on which it is executed. An operand is named by its place among the operands, where
    a register that receives a result comes first."""

    def __init__(self, machine, state, instruction):
        self.machine, self.state, self.name = machine, state, instruction.name
        self.operands = instruction.operands

    def has(self, at):
        return at < len(self.operands)

    def number(self, at):
        return self.operands[at].number

    def size(self, at=0):
        """How many bytes the register of an operand has, or the lane of it that the operand names."""
        kind = self.operands[at].kind.strip("{}[]").split(",")[0]
        return SIZES[kind] if kind in SIZES else int(kind[:-1]) * SIZES[kind[-1]]

    def lane(self, at=0):
        return SIZES[self.operands[at].kind.strip("{}[]")[-1]]

    @property
    def is_of_vectors(self):
        """Whether the first operand is a vector register, or some of them."""
        return any(type(it) is int for each in self.operands[:1] for it in each.registers)

    def constant(self, number):
        return constant(number % 2**(8 * self.size()), self.size())

    def bytes(self, at):
        """The bytes of a register, or of the lane of it that the operand names."""
        name, size = self.operands[at].registers[0], self.size(at)
        if type(name) is str:
            return [ZERO] * size if name == "xzr" else bytes_of(self.state.registers[name])[:size]
        begin = size * (self.number(at) or 0)
        return self.state.vectors[name][begin:begin + size]

    def get(self, at):
        """An operand as one value. It is extended or shifted if the operand after it says so."""
        if self.operands[at].kind == "i":
            return self.constant(self.number(at))
        value, after = self.bytes(at), self.operands[at + 1].kind if self.has(at + 1) else None
        if after == "uxtb":
            value = value[:1] + [ZERO] * (self.size() - 1)
        if after in SHIFTS or after == "uxtb":
            return apply(SHIFTS.get(after, operator.lshift), joined(value), self.constant(self.number(at + 1)))
        return joined(value)

    def write(self, values, at=0):
        """Writes bytes to a register. If they belong to one lane, the other lanes are kept. Otherwise the bytes above
        become zero."""
        it = self.operands[at]
        name, begin = it.registers[0], len(values) * (it.number or 0)
        if type(name) is int:
            vector, end = self.state.vectors[name], begin + len(values)
            vector[begin:] = values + (vector[end:] if "[]" in it.kind else [ZERO] * (len(vector) - end))
        elif name != "xzr":
            self.set_register(name, joined(values + [ZERO] * (8 - len(values))))

    def set_register(self, name, value):
        self.state.registers[name] = value
        if name == "sp":
            self.machine.lowers(self.state)

    def condition(self, at):
        return self.machine.decided(self.state, condition(self.state.flags, CONDITIONS, self.operands[at].registers[0]))

    def address(self, at):
        """The address of an access. A base that becomes the address (`m!`) is updated here, so that a stack frame
        exists before it is written. The architecture does not define what happens if an instruction that updates the
        base also loads or stores this base, or if it loads a register twice. So both are refused."""
        it, others = self.operands[at], [name for each in self.operands[:at] for name in each.registers]
        name, *index = it.registers
        if name in others and (it.kind == "m!" or self.has(at + 1)) or self.name == "ldp" and len({*others}) < 2:
            raise Refused("this is not defined")
        if index:
            return apply(indexed, self.state.registers[name], self.state.registers[index[0]], constant(it.number, 8))
        address = plus(self.state.registers[name], it.number)
        if it.kind == "m!":
            self.set_register(name, address)
        return address

    def moves_base(self, at):
        """Adds the number after the memory operand, if there is one, to the base. It is called after the access."""
        if self.has(at + 1):
            name = self.operands[at].registers[0]
            self.set_register(name, plus(self.state.registers[name], self.number(at + 1)))

    def branch(self):
        """The condition of a branch, the value that it compares with zero, and the names of it and its opposite."""
        if self.name[0] == "b":
            name, zero = self.name[2:], self.state.flags["z"]
            return condition(self.state.flags, CONDITIONS, name), zero and zero[1], (name, OPPOSITE[name])
        value, is_opposite = self.get(0), "n" in self.name
        said = apply(IS_CLEAR[self.number(1)] if self.name[0] == "t" else are_all_zero, value)
        names = ("ne", "eq") if is_opposite else ("eq", "ne")
        return apply(Not, said) if is_opposite else said, None if self.name[0] == "t" else value, names


def perform(machine, state, instruction):
    """Executes an instruction. Returns False if the call has returned."""
    step = Step(machine, state, instruction)
    name, after = step.name, state.at
    if name == "ret":
        return machine.returns(state, state.registers["x30"])
    if name == "bl":
        state.registers["x30"], state.calls = machine.image.address(after), (*state.calls, after)
    if name in ("b", "bl"):
        machine.jumps(state, machine.image.address(step.number(0)))
    elif name.startswith("b.") or name in ("cbz", "cbnz", "tbz", "tbnz"):
        said, compared, names = step.branch()
        machine.branches(state, said, step.number(-1), compared, names)
    elif name in OTHERS:
        OTHERS[name](step)
    elif step.is_of_vectors:
        step.write(list(VECTORS[name](step)))
    else:
        step.write(bytes_of(GENERAL[name](step)))
    return True
