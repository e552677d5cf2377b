"""x86-64, with the calling convention of System V."""
from ..processor import Processor
from ..state import RETURN, STACK
from ..values import bytes_of, unknown
from .code import NAMED, assembles, instruction, is_space, texts
from .forms import level_of
from .operands import perform

PROCESSOR = Processor(
    machine="Advanced Micro Devices X86-64", target="", tools="", has_levels=True,
    before={it[0]: unknown(it[0], 8) for it in NAMED} | {"rsp": STACK},
    vectors=[bytes_of(unknown(f"vector {it}", 64)) for it in range(16)],
    stack=dict(enumerate(bytes_of(RETURN))), above=8,
    arguments=("rdi", "rsi", "rdx", "rcx", "r8", "r9"), answer=("rax", "rdx"), pointer="rsp",
    kept=("rbx", "rbp", "r12", "r13", "r14", "r15"), kept_vectors={}, red_zone=128, aligned=1,
    inclusive=("ae", "be", "ge", "le", "ns"),
    texts=texts, instruction=instruction, is_space=is_space, level_of=level_of, confirms=assembles, perform=perform)
