"""Whether calls on keys use the same addresses and branches for all bytes. valgrind traces the instructions, loads and
stores of tests/c/addresses.c and addresses.rs. These make each call between two stores to `mark`."""
import bisect
import re

import pytest

from commands import BUILT, CC, RUSTC, TESTS_IN_C, TOP, alone, compiled, needs, runs

# The seeds have the same number of digits, so that the stack is the same in each run.
SEEDS = "11", "22", "33", "44"
TRACED = "valgrind --tool=lackey --trace-mem=yes".split()


def symbols(program):
    """The addresses and names of a program's functions and variables."""
    said = runs(["nm", "-n", program])
    return [(int(at, 16), name) for at, name in re.findall(r"^([0-9a-f]+) . (\S+)$", said, re.M)]


def traces(program, seed, log):
    """The trace of each call of the program, with a line for each instruction, load and store."""
    runs([*TRACED, f"--log-file={log}", program, seed])
    mark = next(at for at, name in symbols(program) if name == "mark")
    return log.read_text().split(f" S {mark:08x},4\n")[1::2]


def difference(program, one, other):
    """The function in which two traces begin to differ, and the first lines that differ."""
    at, lines = "", zip(one.split("\n"), other.split("\n"))
    for line, instead in lines:
        at = line if line.startswith("I") else at
        if line != instead:
            break
    names, address = symbols(program), int(at[3:].split(",")[0], 16)
    found = bisect.bisect(names, (address, "~")) - 1
    return f"{names[found][1]}+{address - names[found][0]:#x}:{line} or{instead}"


def differing(program, log):
    """The calls and lengths whose addresses depend on the bytes, each with the function where the traces begin to
    differ."""
    needs("valgrind")
    calls = re.findall(r"^faster_hex_(\w+)(\(\d\)) (\d+)$", runs([program]), re.M)
    first, *others = (traces(program, seed, log) for seed in SEEDS)
    if {len(calls)} != {len(it) for it in (first, *others)}:
        return ["a call lacks the mark before it or after it"]
    return [
        f"{name}{word} of {length}: {difference(program, one, other)}"
        for at, ((name, word, length), one) in enumerate(zip(calls, first))
        for other in [next((it[at] for it in others if it[at] != one), None)]
        if other is not None
    ]


def found_in_c(made, *linked):
    """The result of `differing` for addresses.c, linked with a library or a build."""
    words = [*BUILT, "-static", TESTS_IN_C / "addresses.c", *linked]
    return differing(compiled(CC, made / "addresses", *words), made / "trace")


# The build for x86-64 is left out, because it uses lookup tables.
@pytest.mark.parametrize("build", ["x86-64-v2", "x86-64-v3", "chosen"])
def test_build(tmp_path, library, build):
    is_chosen = build == "chosen"
    linked = [library / "libfaster_hex.a"] if is_chosen else [library / "builds.o", alone(tmp_path, build)]
    assert not found_in_c(tmp_path, *linked)


def test_a_call_that_looks_digits_up_is_seen_alone(tmp_path, library):
    found = found_in_c(tmp_path, "-DPLANTED", library / "libfaster_hex.a")
    assert found and all(re.match(r"decode\(0\) of \d+: planted\+", it) for it in found)


def test_vectors_and_strings_of_rust(tmp_path):
    needs(RUSTC, "valgrind")
    rust, crate, program = [RUSTC, "--edition", "2021", "-O"], tmp_path / "libfaster_hex.rlib", tmp_path / "addresses"
    words = ["--crate-name", "faster_hex", "--crate-type", "rlib", "--cfg", 'feature="std"', "--cfg"]
    runs([*rust, *words, 'feature="alloc"', "-o", crate, TOP / "bindings/rust/src/lib.rs"])
    words = ["-C", "relocation-model=static", "-o", program, "--extern", f"faster_hex={crate}"]
    runs([*rust, *words, TESTS_IN_C / "addresses.rs"])
    assert not differing(program, tmp_path / "trace")
