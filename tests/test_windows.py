"""The library for Windows, with mingw-w64 and wine, and the symbols of the library when it is assembled for macOS and
BSD."""
import re

import pytest

from commands import (BESIDE, CALLS, CRATE, NAMES, RUSTC, TESTS_IN_C, TOP, WINDOWS_CC, by_cmake, make_beside, needs,
                      passes, ran, runs)

# The registers that a call on Windows must restore.
KEPT = [*"%rbx %rbp %rsi %rdi %r12 %r13 %r14 %r15".split(), *(f"%xmm{it}" for it in range(6, 16))]
# The command that builds the tests in C for Windows.
BUILT = f"{WINDOWS_CC} -std=gnu99 -pthread -static -I{CRATE} -I{TESTS_IN_C}/windows -o".split()
# Targets for which the library is assembled and never run.
OTHERS = "x86_64-apple-macos11 arm64-apple-macos11 aarch64-unknown-freebsd13 x86_64-unknown-netbsd9".split()

# Processors by their names for rustc, with the end of the target's name, and the builds that C and Rust use for them.
TAKEN = {"x86_64 gnu": ["X86_64"], "aarch64 gnu": ["AARCH64"]}
TAKEN |= dict.fromkeys(("x86_64 gnux32", "aarch64_be gnu", "i686 gnu", "riscv64gc gnu"), [])
# Systems by their names for rustc, and whether a compiler uses the assembly there.
SYSTEMS = dict.fromkeys(("unknown-linux-gnu", "unknown-linux-musl", "unknown-freebsd", "unknown-netbsd"), True)
SYSTEMS |= dict.fromkeys(("unknown-openbsd", "unknown-illumos", "linux-android", "unknown-haiku", "apple-ios"), False)
SYSTEMS |= {"apple-darwin": True, "pc-windows-gnu": True, "pc-windows-msvc": False}


@pytest.fixture(scope="module")
def windows():
    """The folder with the library and the programs for Windows."""
    needs(WINDOWS_CC)
    runs(make_beside("windows", f"CC={WINDOWS_CC}"))
    return BESIDE / "windows"


def keeping(call):
    """A wrapper that fills the registers that a call must restore, makes the call, and ends the program if one has
    changed. It works in one thread only."""
    every = lambda form: [form.format("movups" if "m" in it else "mov", it, 16 * at) for at, it in enumerate(KEPT)]
    before = [*every("{0} {1},own+{2}(%rip)"), "pop own+400(%rip)", *every("{0} want+{2}(%rip),{1}")]
    after = [*every("{0} {1},seen+{2}(%rip)"), "push own+400(%rip)", "lea want(%rip),%rsi", "lea seen(%rip),%rdi"]
    after += ["mov $288,%ecx", "repe cmpsb", "je 1f", "ud2", "1:", *every("{0} own+{2}(%rip),{1}"), "ret"]
    return [f".globl __wrap_{call}", f"__wrap_{call}:", *before, f"call __real_{call}", *after]


def test_in_c(windows):
    needs("wine")
    passes(make_beside("windows", "test-c", f"CC={WINDOWS_CC}", "RUN=wine"))


def test_names_and_stack(windows):
    """Nothing is kept below the stack pointer, because Windows may overwrite it. The stack pointer moves by less than a
    page, because Windows requires that pages of the stack are touched one after the other."""
    said = ran([WINDOWS_CC.replace("gcc", "objdump"), "-pd", windows / "libfaster_hex.dll"]).stdout
    assert {*re.findall(r"^\s+\[ *\d+\] (\w+)$", said, re.M)} == {*NAMES}
    assert "(%rsp)" in said and not re.findall(r"-0x\w+\(%rsp.*|sub +\$0x\w{4,},%rsp", said)
    for program in "fhex", "fhex-stream":
        said = ran([WINDOWS_CC.replace("gcc", "objdump"), "-d", windows / f"{program}.exe"]).stdout
        said = "".join(re.findall(r"^\w+ <fhex_\w+>:\n(?:.+\n)+", said, re.M))
        assert "(%rsp)" in said and not re.findall(r"-0x\w+\(%rsp\)|sub +\$0x\w{4,},%rsp", said)


def test_registers(tmp_path, windows):
    needs("wine")
    data = [f"{name}: .byte {','.join(f'{7 * it % 251}' for it in range(288))}" for name in ("want", "seen")]
    text = [".comm own,512", ".data", *data, ".text", *(it for call in CALLS for it in keeping(call)), ""]
    (tmp_path / "kept.s").write_text("\n".join(text))
    words = [tmp_path / "kept.exe", TESTS_IN_C / "library.c", tmp_path / "kept.s", windows / "libfaster_hex.a"]
    runs([*BUILT, *words, *(f"-Wl,--wrap={it}" for it in CALLS)])
    passes(["wine", tmp_path / "kept.exe"])


def test_build_that_moves_the_stack(tmp_path, windows):
    """A function of the build for x86-64-v2 moves the stack. A newer processor does not use this build, so the choice
    of a build is replaced."""
    needs("wine")
    text, taken = (CRATE / "dispatch.c").read_text(), "level_of(processor())"
    assert text.count(taken) == 1
    (tmp_path / "dispatch.c").write_text(text.replace(taken, "2"))
    runs([*BUILT, tmp_path / "lower.exe", TESTS_IN_C / "library.c", tmp_path / "dispatch.c", windows / "builds.o"])
    passes(["wine", tmp_path / "lower.exe"])


def test_cmake(tmp_path):
    needs("wine", WINDOWS_CC)
    words = "SYSTEM_NAME=Windows", f"C_COMPILER={WINDOWS_CC}", f"RUNTIME_OUTPUT_DIRECTORY={tmp_path}"
    options = (f"-DCMAKE_{it}" for it in words)
    by_cmake(TOP / "examples/c", tmp_path, f"-DFASTER_HEX={TOP}", *options, tool="wine")


@pytest.mark.parametrize("target", OTHERS)
def test_names_for(tmp_path, target):
    needs("clang", "llvm-nm")
    objects = []
    for source in TOP / "generated/builds.S", CRATE / "dispatch.c":
        objects.append(tmp_path / f"{source.stem}.o")
        runs(["clang", "-target", target, "-ffreestanding", "-O2", "-c", "-o", objects[-1], source])
    found = re.findall(r" (\w) _?(\w+)$", ran(["llvm-nm", "-g", *objects]).stdout, re.M)
    assert {name for _, name in found if not re.match(r"faster_hex_\d", name)} == {*NAMES}
    assert {name for _, name in found} == {name for kind, name in found if kind != "U"}


@pytest.mark.parametrize("program", ["fhex", "fhex-stream"])
@pytest.mark.parametrize("target", OTHERS[2:])
def test_program_for(tmp_path, target, program):
    """It needs the functions of fhex.c, and three functions of C."""
    needs("clang", "llvm-nm")
    runs(["clang", "-target", target, "-c", "-o", tmp_path / "fhex.o", TOP / f"generated/{program}/builds.S"])
    asked = {*re.findall(r" U (\w+)$", ran(["llvm-nm", tmp_path / "fhex.o"]).stdout, re.M)}
    has = re.findall(r"^PROVED .*\b(fhex_\w+)\(.*\{", (TOP / "crates/fhex/fhex.c").read_text(), re.M)
    assert asked == {*(it for it in has if "_mem" not in it), "memcpy", "memmove", "memset"}


@pytest.mark.parametrize("target", TAKEN)
def test_builds_taken_for(target):
    """C and Rust use the assembly for the same processors."""
    needs("clang", RUSTC)
    named = target.replace(" ", "-unknown-linux-")
    said = runs(["clang", "-target", named.replace("riscv64gc", "riscv64"), "-dM", "-E", CRATE / "assembly.h"])
    assert re.findall("^#define FASTER_HEX_(.*) 1$", said, re.M) == TAKEN[target]
    assert is_portable({*runs([RUSTC, "--print", "cfg", "--target", named]).splitlines()}) == (not TAKEN[target])


@pytest.mark.parametrize("system", SYSTEMS)
@pytest.mark.parametrize("processor", ["x86_64", "aarch64"])
def test_systems_of_builds(processor, system):
    """C and Rust use the assembly exactly on the systems that packaging.md lists. On Windows that is mingw for
    x86-64."""
    needs("clang", RUSTC)
    named, has = f"{processor}-{system}", SYSTEMS[system] and (processor, system) != ("aarch64", "pc-windows-gnu")
    target = {"apple-darwin": "apple-macos11", "apple-ios": "apple-ios14"}.get(system, system)
    said = runs(["clang", "-target", f"{processor}-{target}", "-dM", "-E", CRATE / "assembly.h"])
    assert ("#define FASTER_HEX_" in said) == has
    known = ran([RUSTC, "--print", "cfg", "--target", named])
    if known.returncode:
        assert "could not find specification" in known.stdout
    else:
        assert is_portable({*known.stdout.splitlines()}) != has


def is_portable(known):
    """Whether bindings/rust uses its portable calls for a target with this configuration."""
    text = (TOP / "bindings/rust/src/lib.rs").read_text()
    asked = re.search(r"#\[cfg_attr\(\s*(any\(.*?\)),\s*path = \"portable.rs\"", text, re.S)[1]
    holds = lambda it: repr((f"{it[1]}={it[2]}" if it[2] else it[1]) in known)
    asked = re.sub(r"\b(?!(?:all|any|not)\()(\w+)(?: = (\"\w+\"))?", holds, asked)
    return eval(asked, {"all": lambda *it: all(it), "any": lambda *it: any(it)})


@pytest.mark.parametrize("processor, files", [("arm64", "aarch64.s"), ("x86_64", "x86-64*.s")])
def test_places_and_names_on_macos(tmp_path, processor, files):
    """Calls are private and aligned. The only writable data are addresses. Constants are found by page and offset."""
    needs("clang", "llvm-nm", "llvm-objdump")
    text, built = "".join(it.read_text() for it in TOP.glob(f"generated/{files}")), tmp_path / "builds.o"
    runs(["clang", "-target", f"{processor}-apple-macos11", "-c", "-o", built, TOP / "generated/builds.S"])
    named = lambda macro: {*re.findall(rf"^\t{macro}\t(.*)", text, re.M)}
    found = re.findall(r"^(\w+) \((\S+)\) (.*) ((?!ltmp)\S+)$", ran(["llvm-nm", "-m", built]).stdout, re.M)
    shown = {f"{it}_of_c" for it in named("hex_export")}
    assert {name[1:] for *_, kind, name in found if kind == "private external"} == shown
    assert {name for _, place, _, name in found if place.startswith("__DATA,")} == named("hex_addresses")
    assert {int(at, 16) % 64 for at, place, *_ in found if place == "__TEXT,__text"} == {0}
    said = ran(["llvm-objdump", "-r", built]).stdout
    assert said.count("_PAGE21 ") == text.count("\thex_page\t")
    assert said.count("_PAGEOFF12 ") == len(re.findall(r"\thex_(?:address|value)\t", text))
