"""What the other files of this folder need to know of a processor. The folder of each processor has such an object."""
from collections.abc import Callable
from dataclasses import dataclass


@dataclass(frozen=True, eq=False)
class Processor:
    # The names of the processor in readelf and in the Makefile, the prefix of the names of its assembler, linker and
    # disassembler, and whether a call for C chooses its build by the level of the processor.
    machine: str
    target: str
    tools: str
    has_levels: bool
    # The values of registers, vectors (as lists of bytes) and bytes of the stack when a call begins; and the distance
    # from the stack pointer of the arguments that have no register. At its end the call leaves the stack pointer there.
    before: dict
    vectors: list
    stack: dict
    above: int
    # The registers of the first arguments and of the two halves of a result, and the name of the stack pointer.
    arguments: tuple
    answer: tuple
    pointer: str
    # The registers that a call must restore, and the bytes that it must restore of vectors, by their numbers. Then the
    # number of bytes below the stack pointer that belong to the frame, and how the stack pointer must be aligned.
    kept: tuple
    kept_vectors: dict
    red_zone: int
    aligned: int
    # The conditions for another turn of a loop that also hold if the two compared values are equal.
    inclusive: tuple
    # What reads the bytes and texts of a file's instructions, by their addresses; what makes an instruction of an
    # address, bytes and a text; whether a text only fills space; and an instruction's level, or None without a model.
    texts: Callable
    instruction: Callable
    is_space: Callable
    level_of: Callable
    # Refuses executed instructions if a third program has to assemble their texts and does not make the same bytes.
    confirms: Callable
    # Executes an instruction on a state. Returns False if the call has returned.
    perform: Callable
