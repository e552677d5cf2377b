"""What an instruction is, and how the output of a command is read. The folders of the processors read instructions."""
import subprocess
from dataclasses import dataclass


@dataclass(frozen=True)
class Instruction:
    at: int
    end: int
    code: bytes
    text: str
    name: str
    operands: tuple


def output(*words):
    return subprocess.run(words, stdout=subprocess.PIPE, stderr=subprocess.DEVNULL, text=True, check=True).stdout
