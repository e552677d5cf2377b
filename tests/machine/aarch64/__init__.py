"""aarch64, with the procedure call standard of Arm (AAPCS64), which has no red zone below the stack pointer."""
from ..processor import Processor
from ..state import RETURN, STACK
from ..values import bytes_of, unknown
from .code import instruction, is_space, texts
from .forms import level_of
from .operands import perform

PROCESSOR = Processor(
    machine="AArch64", target="aarch64", tools="aarch64-linux-gnu-", has_levels=False,
    before={f"x{it}": unknown(f"x{it}", 8) for it in range(30)} | {"x30": RETURN, "sp": STACK},
    vectors=[bytes_of(unknown(f"vector {it}", 16)) for it in range(32)], stack={}, above=0,
    arguments=tuple(f"x{it}" for it in range(8)), answer=("x0", "x1"), pointer="sp",
    kept=tuple(f"x{it}" for it in range(19, 30)), kept_vectors={it: range(8) for it in range(8, 16)},
    red_zone=0, aligned=16, inclusive=("cs", "ls", "ge", "le", "pl"),
    texts=texts, instruction=instruction, is_space=is_space, level_of=level_of, confirms=lambda _: None,
    perform=perform)
