"""Tests of the symbolic execution in machine/. It must refuse changed copies of the code, and what it accepts must
answer rightly. The effect that it gives to each instruction is compared with the processor."""
import ctypes
import itertools
import mmap
import multiprocessing
import operator
import os
import py_compile
import random
import re
import shutil
import sys
import time
from functools import partial
from pathlib import Path
from types import SimpleNamespace

import pytest

z3 = pytest.importorskip("z3")
pytest.importorskip("capstone")
import changes
import machine.__main__ as command
from changes import changed
from commands import ARM_CC, CC, CHANGES, CRATE, PRINTED, SEED, TOP, by_cmake, compiled, make, needs, ran, runs
from machine import Refused, execution, values
from machine.__main__ import BUILDS, sums
from machine.grouped import GROUPED, shown_grouped
from machine.image import Image, linked, name_of
from machine.replay import Replay
from machine.state import LENGTH, STACK, State
from machine.statements import CALLS, POLICIES, shown
from machine.x86_64 import PROCESSOR
from machine.x86_64.code import assembles
from machine.x86_64.forms import FORMS, WIDTHS
from machine.x86_64.instructions import CONDITIONS, TABLE

GENERATED = TOP / "generated"
PAIRS = [(build, call) for build, (_, calls) in BUILDS.items() for call in calls]
X86_64 = [it for it in BUILDS if it != "aarch64"]
# The greatest length of a source in the quick tests. It is smaller for digits in groups, because each of their lengths
# is executed on its own.
SHORT, SHORT_GROUPED = 8, 2
# Calls that can be shown for every length in a short time. For the others the record does it.
EVERY_LENGTH = ("v2", "encode"), ("v3", "encode"), ("v3", "check"), ("aarch64", "encode")
# The functions with instructions that no path executes, and how many these are. Each call for C has a jump to the
# baseline build, which is not checked. In v3_encode, one instruction is for a source of one block, but each source that
# comes there has several. For aarch64, three jumps are for a search that finds no invalid byte. Some functions only
# return texts. machine/README.md says what each of the other instructions is for.
LEFT = {f"faster_hex_{it}": 1 for it in CALLS if it not in POLICIES}
LEFT |= {"x86-64-v3_encode": 1, "faster_hex_status_text": 8, "faster_hex_version": 2, "faster_hex_build": 5}
LEFT["x86-64-vbmi_core_backend_Backend_decode_or_find_outlined"] = 2
LEFT |= {"x86-64-v2_encode_grouped": 1, "x86-64-v3_encode_grouped": 5}
LEFT |= {"x86-64-v2_decode_grouped": 39, "x86-64-v3_decode_grouped": 39}
LEFT |= {"x86-64-v2_codec_pieces_read_long_piece": 88, "x86-64-v3_codec_pieces_read_long_piece": 72}
LEFT |= {"aarch64_core_backend_Backend_first_invalid_byte": 2, "aarch64_core_backend_Backend_first_invalid": 1}
LEFT |= {"aarch64_faster_hex_status_text": 9, "aarch64_faster_hex_version": 3, "aarch64_faster_hex_build": 3}
LEFT |= {"aarch64_encode_grouped": 2, "aarch64_decode_grouped": 35, "aarch64_codec_pieces_read_long_piece": 150}


def all_shown(image, build, call, most, *least):
    return list((shown_grouped if call in GROUPED else shown)(image, build, call, most, *least))


@pytest.fixture(scope="module")
def image(library, tmp_path_factory):
    needs("ld", "objdump")
    return linked(tmp_path_factory.mktemp("made") / "image", library / "libfaster_hex.a")


@pytest.fixture(scope="module")
def arm_image(arm, tmp_path_factory):
    needs("aarch64-linux-gnu-ld", "aarch64-linux-gnu-objdump")
    return linked(tmp_path_factory.mktemp("made") / "image", arm / "libfaster_hex.a")


def image_for(build, request):
    """The image that has a build, on a processor that runs it."""
    return Image(request.getfixturevalue("image" if build in X86_64 else "arm_image"), BUILDS[build][0])


@pytest.fixture(autouse=True)
def forgets():
    yield
    values.forget()


@pytest.mark.quick
@pytest.mark.parametrize("build, call", PAIRS)
def test_call(request, build, call):
    most = SHORT_GROUPED if call in GROUPED else SHORT
    assert all_shown(image_for(build, request), build, call, most)


@pytest.mark.quick
@pytest.mark.parametrize("build, call", EVERY_LENGTH)
def test_every_length(request, build, call):
    """The call is shown, and not only because no path is possible. For each of some lengths there is an end where all
    digits are valid, and another one where some are not, if the call tells them apart by branches."""
    those = all_shown(image_for(build, request), build, call, None)
    lengths = [0, 1, 2, 17, 33, 65, 128, 257, 575, 576, 1000, 2**32 + 66, 2**63 - 2]
    lengths.append(random.Random(SEED).randrange(2**62))
    for length in lengths:
        has_branch = call == "check" and length > 575
        for it in those:
            assert kinds_of_ends(it, length) == ({False, True} if has_branch else {False}), f"SEED={SEED}, {length}"


@pytest.mark.quick
@pytest.mark.parametrize("build", BUILDS)
def test_ends_of_decode(request, build):
    """Checks the same as `test_every_length` for calls that find an invalid digit, for each short length."""
    for it in all_shown(image_for(build, request), build, "decode", SHORT):
        for length in range(SHORT + 1):
            is_refused = length % 2 == 0 and length > 0
            assert kinds_of_ends(it, length) == ({False, True} if is_refused else {False}), length
        assert not kinds_of_ends(it, SHORT + 1)


def kinds_of_ends(it, length):
    """Whether some digit is invalid, for each end of a call that is possible with a source of this length."""
    return {bool(end.refused) for end in it.ends if is_possible(it.machine.known(end), length)}


def is_possible(known, length):
    solver = z3.SolverFor("QF_BV")
    solver.add(*known, LENGTH.term == length)
    return solver.check() == z3.sat


@pytest.mark.quick
@pytest.mark.parametrize("call", [it for it in CALLS if it not in BUILDS["v4"][1]])
def test_call_that_the_widest_build_lacks(image, call):
    """On a processor with AVX-512 such a call takes the build for x86-64-v3, and both levels are checked."""
    assert command.levels_of("v3", call)[:2] == [3, 4] and command.levels_of("v2", call) == [2]
    assert all_shown(Image(image, 4), "v3", call, SHORT_GROUPED)


@pytest.mark.quick
def test_another_build(image):
    """A call must execute the build for which it is checked."""
    with pytest.raises(Refused, match="faster_hex_check does not take the build v3"):
        all_shown(Image(image, 2), "v3", "check", 1)


@pytest.mark.quick
def test_record():
    """generated/SHOWN was written for these sources, and has each call of each build. Paths executed all
    instructions of each function, except for those that LEFT counts, and for those of `decode_spaced`."""
    text = (GENERATED / "SHOWN").read_text()
    assert text.startswith(sums())
    lines = text.removeprefix(sums()).splitlines()
    said = dict(it.groups() for it in (re.fullmatch(r"([\w-]+ \w+): (.*)", line) for line in lines) if it)
    assert [*said] == [f"{name_of(build)} {call}" for build, call in PAIRS]
    for build, call in PAIRS:
        words = "0 to 32 bytes in groups of each size, any separator; up to 1024 "
        assert said[f"{name_of(build)} {call}"].startswith(words if call in GROUPED else "every length, ")
    found = [re.fullmatch(r"(\S+): (\d+) of (\d+) instructions executed", it) for it in lines]
    left = {it[1]: int(it[3]) - int(it[2]) for it in found if it}
    assert {*left} == names_of_functions()
    assert {it: count for it, count in left.items() if count and "spaced" not in it} == LEFT


def names_of_functions():
    """The functions of each build, and those for C."""
    others = "decode_spaced", "status_text", "version", "build"
    names = {f"{it}faster_hex_{call}" for call in (*CALLS, *others) if call not in POLICIES for it in ("", "aarch64_")}
    for build in map(name_of, BUILDS):
        text, name = (GENERATED / f"{build}.s").read_text(), build.replace("-", "_")
        names |= {build + it for it in re.findall(rf"\thex_(?:function|export)\t\w+_{name}(_\w+)", text)}
    return names


def test_record_of_other_sources(copy):
    """The record builds the library first, so it checks the code whose hashes it names."""
    with (copy / "generated/x86-64-v3.s").open("a") as file:
        file.write("\n")
    before = (copy / "generated/SHOWN").read_text()
    done = ran([sys.executable, "-m", "machine", "record"], cwd=copy / "tests")
    assert done.returncode and "not as PROVED says" in done.stdout
    assert (copy / "generated/SHOWN").read_text() == before


def files_in(folder):
    return {it: it.read_bytes() for it in folder.rglob("*") if it.is_file() and "__pycache__" not in it.parts}


@pytest.mark.parametrize("is_shown", [True, False])
def test_what_the_record_writes(copy, tmp_path, monkeypatch, is_shown):
    """The record writes generated/SHOWN and nothing else, so what is in out/ stays. If a call is not shown, it writes
    nothing. Other tests check what is said of the calls."""
    made = tmp_path / "made"
    made.mkdir(), (copy / "out").mkdir()
    (copy / "out/libfaster_hex.a").write_text("of somebody else")
    before = files_in(copy)
    monkeypatch.setattr(command, "TOP", copy)
    monkeypatch.setattr(command, "report", lambda *_: (["a line" if is_shown else "a: REFUSED: why"], [], is_shown))
    if is_shown:
        command.record(made, time.time_ns())
        before[copy / "generated/SHOWN"] = (copy / "generated/SHOWN").read_bytes()
        assert before[copy / "generated/SHOWN"].endswith(b"\na line\n")
    else:
        with pytest.raises(Refused, match="a: REFUSED: why"):
            command.record(made, time.time_ns())
    assert files_in(copy) == before


@pytest.mark.quick
@pytest.mark.parametrize("change", CHANGES)
def test_record_of_a_source_that_is_changed_meanwhile(copy, tmp_path, monkeypatch, change):
    """Nothing is recorded if a source is changed while the library is built."""
    made, record = tmp_path / "made", (copy / "generated/SHOWN").read_text()
    made.mkdir()
    change = CHANGES[change].format("crates/faster_hex_c/dispatch.c")
    (copy / "scripts/check-generated").write_text(f"#!/bin/sh\n{change}\n")
    monkeypatch.setattr(command, "TOP", copy)
    monkeypatch.setattr(command, "report", lambda *_: ([], [], True))
    with pytest.raises(Refused, match="a source was changed meanwhile"):
        command.record(made, time.time_ns())
    assert (copy / "generated/SHOWN").read_text() == record


def checks(*words):
    """Runs the command that checks a file, and returns its output."""
    return ran([sys.executable, "-m", "machine", "check", *words], cwd=TOP / "tests")


def test_nothing_to_check(tmp_path, library):
    """A file that cannot be checked gets one line and the status 2."""
    archive, other, text = library / "libfaster_hex.a", tmp_path / "other.a", tmp_path / "text"
    other.write_bytes(archive.read_bytes().replace(b"faster_hex_1_0_0", b"faster_hex_0_9_9"))
    text.write_text("no program")
    (tmp_path / "main.c").write_text("int main(void) { return 0; }")
    program = compiled(CC, tmp_path / "main", tmp_path / "main.c")
    stripped = compiled(CC, tmp_path / "stripped", "-s", TOP / "examples/c/digits.c", archive)
    lines = {
        tmp_path / "none": "No such file", tmp_path: "Is a directory", text: "does not read it", program: "not in it",
        stripped: "stripped", other: "another version",
    }
    for file, why in lines.items():
        done = checks(file, "v3", "decode", "4")
        assert done.returncode == 2 and done.stdout.count("\n") == 1 and why in done.stdout, done.stdout


@pytest.mark.quick
def test_wrong_words(library):
    """Words that the command does not know get a line that says so, and a status that says nothing of a call."""
    archive = library / "libfaster_hex.a"
    lines = {
        (archive, "v3", "decode", "x"): "x is no length", (archive, "v3", "decode", "-3"): "-3 is no length",
        (archive, "v3", "decode", "9" * 30): "is no length", (archive, "v9"): "invalid choice: 'v9'",
        (archive, "v4", "encode"): "the build v4 has no call encode",
        (archive, "--jobs", "0"): "0 is no number of jobs",
        (archive, "v3", "decode", "4", "more"): "unrecognized arguments: more", (): "arguments are required: file",
    }
    for words, why in lines.items():
        done = checks(*words)
        assert done.returncode == 2 and why in done.stdout, done.stdout
    done = checks("--help")
    assert done.returncode == 0 and "usage: " in done.stdout and "--jobs" in done.stdout


def test_archive_for_another_processor(arm, tmp_path):
    """Neither a build for another processor than the file's nor a file for RISC-V (by its header) can be checked."""
    data = bytearray((arm / "fhex").read_bytes())
    data[18] = 243
    (tmp_path / "program").write_bytes(data)
    for words, why in ((arm / "libfaster_hex.a", "v3"), "another processor"), ((tmp_path / "program",), "neither for"):
        done = checks(*words)
        assert done.returncode == 2 and done.stdout.count("\n") == 1 and why in done.stdout, done.stdout


# A piece of a module's text, and another one of the same length to put in its place.
STALE = {"__init__": ("To read it, begin", "To begin, read it"), "__main__": ("import argparse", "print('stale!')"),
         "values": ("import functools", "print('stale!') ")}


@pytest.mark.parametrize("module", STALE)
def test_stale_copy(copy, library, module):
    """A compiled copy does not run if it was made from another text with the size and the time of the file."""
    file = copy / f"tests/machine/{module}.py"
    text = file.read_text()
    file.write_text(text.replace(*STALE[module]))
    py_compile.compile(file, file.parent / f"__pycache__/{module}.{sys.implementation.cache_tag}.pyc", doraise=True)
    times = file.stat()
    file.write_text(text)
    os.utime(file, ns=(times.st_atime_ns, times.st_mtime_ns))
    words = library / "libfaster_hex.a", "v3", "check", "0"
    done = ran([sys.executable, "-m", "machine", "check", *words], cwd=copy / "tests")
    if module == "__init__":
        assert done.returncode == 1 and done.stdout.count("\n") == 1 and "is not what runs" in done.stdout, done.stdout
    else:
        assert done.returncode == 0 and "stale" not in done.stdout, done.stdout


def by_make(tmp_path, _):
    needs("clang")
    runs(make("lib", f"OUT={tmp_path}", f"BUILT={tmp_path}/built", "CC=clang", "CFLAGS=-O3"))
    return tmp_path / "libfaster_hex.a"


def made_by_cmake(tmp_path, _):
    by_cmake(TOP / "examples/c", tmp_path / "built", f"-DFASTER_HEX={TOP}", "-DCMAKE_BUILD_TYPE=Release")
    return next(tmp_path.rglob("libfaster_hex.a"))


def program_in_c(tmp_path, fixture):
    program = compiled(CC, tmp_path / "program", TOP / "examples/c/digits.c", fixture("library") / "libfaster_hex.a")
    runs([program], out=PRINTED)
    return program


def program_in_rust(tmp_path, fixture):
    """A program whose builds rustc assembles itself."""
    (tmp_path / "src").mkdir()
    (tmp_path / "src/main.rs").write_text((TOP / "examples/rust/src/main.rs").read_text())
    package = f'[package]\nname = "over"\nedition = "2021"\n[dependencies]\nfaster-hex = {{ path = "{TOP}" }}\n'
    (tmp_path / "Cargo.toml").write_text(package)
    env = {**os.environ, "CARGO_TARGET_DIR": f"{tmp_path}/target"}
    runs([*fixture("cargo"), "build", "-q", "--release"], cwd=tmp_path, env=env)
    return tmp_path / "target/release/over"


def made_for_arm(_, fixture):
    needs("aarch64-linux-gnu-ld", "aarch64-linux-gnu-objdump")
    return fixture("arm") / "libfaster_hex.a"


def program_for_arm(tmp_path, fixture):
    library = made_for_arm(tmp_path, fixture)
    return compiled(ARM_CC, tmp_path / "program", "-static", TOP / "examples/c/digits.c", library)


# How a file with the library is made, and calls to check in it, each with the greatest length of a source.
MADE = {
    by_make: ["v2 encode 8", "v3 check_with_case 8", "v4 decode_with_case 8", "vbmi check 8", "v3 decode_grouped 2"],
    made_by_cmake: ["v2 decode 8", "v3 first_invalid 8", "v4 check 8", "vbmi decode_with_case 8"],
    program_in_c: ["v3 encode 8", "v4 decode 8"],
    program_in_rust: ["v2 check 8", "v3 decode 8", "v4 decode 8", "vbmi decode 8"],
    made_for_arm: ["aarch64 first_invalid 8", "aarch64 decode_with_case 8", "aarch64 encode_grouped 2"],
    program_for_arm: ["aarch64 encode 8", "aarch64 decode 8"],
}


@pytest.mark.parametrize("making", MADE)
def test_anybodys_file(tmp_path, request, making):
    """The command says what is shown of a file, by whichever compiler or build system the file was made."""
    needs("ld", "objdump")
    file = making(tmp_path, request.getfixturevalue)
    for words in MADE[making]:
        build, call, most = words.split()
        done = checks(file, build, call, most)
        said = f"{name_of(build)} {call}: 0 to {most} bytes"
        assert done.returncode == 0 and f"\n{said}" in done.stdout and "file sha256 " in done.stdout, done.stdout


def test_wrong_archive(tmp_path):
    """If a call is not shown, the status is 1, and a line says why."""
    assembled(tmp_path, changed("v3", "check", ["1 sete %al => movb $1,%al"]))
    runs(["ar", "rcs", tmp_path / "wrong.a", tmp_path / "made.o"])
    done = checks(tmp_path / "wrong.a", "v3", "check", "8")
    assert done.returncode == 1 and "x86-64-v3 check: REFUSED: " in done.stdout, done.stdout
    assert checks(tmp_path / "wrong.a", "v3", "encode", "8").returncode == 0


# A place of dispatch.c and a wrong text for it, and rules for wrong copies of assembly.
CHOOSES = "        bool is_3 = "
WRONG_AT_LEVEL_4 = CHOOSES, f"        if (widest == 3 && known == 4) return (answer){{ 0 }}; {CHOOSES}"
BY_LOADER = """1 endbr64 => \\0; movq 70f(%rip),%rax; testq %rax,%rax; je 71f; movl $1,%eax; retq;
    .pushsection .data.rel.ro,"aw"; .p2align 3; 70: .quad environ; .popsection; 71:"""
BY_PLACE = """1 endbr64 => \\0; leaq 70f(%rip),%rax; shrq $30,%rax; je 71f; movl $1,%eax; retq; .pushsection .rodata;
    70: .byte 0; .popsection; 71:"""


def linked_with(*words, folder, dispatch=None, build=None, name="made.so", rule=None):
    """Links dispatch.c, or a text in place of it, and the builds, of which one may be changed. Without words the result
    is a shared library."""
    shutil.copytree(GENERATED, folder / "generated")
    (folder / "crates").symlink_to(TOP / "crates")
    if build:
        text = changed(build, "check", [" ".join(rule.split())])
        (folder / f"generated/x86-64-{build}.s").write_text(text.partition("\n")[2])
    (folder / "dispatch.c").write_text(dispatch or DISPATCH)
    sources = [folder / "dispatch.c", folder / "generated/builds.S"]
    words = words or ("-shared",)
    return compiled(CC, folder / name, *words, "-O2", "-fPIC", f"-I{CRATE}", *sources)


def of_a_program(*words, folder, **changes):
    (folder / "main.c").write_text('#include "faster_hex.h"\nint main(void) { return faster_hex_check("0", 1); }')
    return linked_with(*words, folder / "main.c", folder=folder, name="program", **changes)


def by_another_file(folder):
    """A library whose dispatch.c is included by another file, so that no symbol names the file dispatch.c."""
    (folder / "all.c").write_text(f'#include "{CRATE}/dispatch.c"\n')
    return compiled(CC, folder / "made.so", "-shared", "-fPIC", "-O2", folder / "all.c", GENERATED / "builds.S")


def by_link_time_optimization(folder):
    return of_a_program("-flto", "-no-pie", folder=folder)


def without_symbol(folder):
    runs(["objcopy", "--strip-symbol=faster_hex_encode", of_a_program("-pie", folder=folder), folder / "stripped"])
    return folder / "stripped"


def without_build(folder):
    made = linked_with(folder=folder)
    names = re.findall(r" (faster_hex_\w+_v3_encode(?:_of_c\w*)?)$", ran(["nm", made]).stdout, re.M)
    runs(["objcopy", *[f"--strip-symbol={it}" for it in names], made, folder / "stripped.so"])
    return folder / "stripped.so"


def indirect(folder):
    """A library with a call that the loader finds by a function, which it runs when it loads the library."""
    text = ran([CC, "-S", "-O2", "-fPIC", f"-I{CRATE}", "-o", "-", CRATE / "dispatch.c"]).stdout
    (folder / "dispatch.S").write_text(re.sub("(type\tfaster_hex_check, ).*", r"\1@gnu_indirect_function", text))
    return compiled(CC, folder / "made.so", "-shared", folder / "dispatch.S", GENERATED / "builds.S")


def with_other_headers(folder):
    """A library in which the header of a section names another place of the file than the one that is loaded."""
    file = linked_with(folder=folder)
    found = re.search(r"\[ *(\d+)\] \.rodata +\w+ +\w+ (\w+) (\w+)", ran(["readelf", "-SW", file]).stdout)
    number, begin, size = int(found[1]), int(found[2], 16), int(found[3], 16)
    data = bytearray(file.read_bytes())
    at = int.from_bytes(data[40:48], "little") + 64 * number + 24
    data[at:at + 8] = len(data).to_bytes(8, "little")
    data += data[begin:begin + size]
    data[begin:begin + size] = bytes(size)
    file.write_bytes(data)
    return file


def at_level_4(folder):
    return archive_with(folder, DISPATCH.replace(*WRONG_AT_LEVEL_4))


def archive_with(folder, text, *words, compiler=CC):
    """An archive of the builds and of a text in place of dispatch.c."""
    (folder / "dispatch.c").write_text(text)
    runs([compiler, "-c", *(words or ["-O2"]), f"-I{CRATE}", "-o", folder / "dispatch.o", folder / "dispatch.c"])
    runs([compiler if compiler == ARM_CC else CC, "-c", "-o", folder / "builds.o", GENERATED / "builds.S"])
    runs(["ar", "rcs", folder / "made.a", folder / "dispatch.o", folder / "builds.o"])
    return folder / "made.a"


DISPATCH = (CRATE / "dispatch.c").read_text()
# How each file that must be refused is made, the build and call that are wrong in it, and what is said of them.
WRONG = {
    by_another_file: ("v3 check", "not the variable"), by_link_time_optimization: ("v3 check", "but not"),
    without_symbol: ("v2 encode", "but not faster_hex_encode"),
    without_build: ("v3 encode", "the file does not have it"), indirect: ("v3 check", "is an indirect function"),
    with_other_headers: ("v3 check", "is not what is loaded"),
    at_level_4: ("v3 encode", "v3 encode: REFUSED"),
}
WRONG |= {partial(linked_with, build="v3", rule=BY_LOADER): ("v3 check", "what the loader writes by a name")}
WRONG |= {partial(making, *words, build="v3", rule=BY_PLACE): ("v3 check", "v3 check: REFUSED")
          for making, *words in ((linked_with,), (of_a_program, "-pie"), (of_a_program, "-static-pie"))}


@pytest.mark.parametrize("making", WRONG)
def test_wrong_file(tmp_path, making):
    """A wrong file is refused when its wrong call is checked, and the reason is printed."""
    needs("ld", "objdump")
    pair, why = WRONG[making]
    done = checks(making(folder=tmp_path), *pair.split(), "2")
    assert done.returncode == 1 and why in done.stdout, done.stdout


# The options with which dispatch.c is compiled, each with what is said if a call is refused, or None.
LEVELS_OF_OPTIMIZATION = "-O0", "-O1", "-O2", "-O3", "-Os", "-Oz", "-Og"
OPTIONS = {it: None for each in LEVELS_OF_OPTIMIZATION for it in (each, f"{each} -fno-optimize-sibling-calls")}
OPTIONS |= {"-O0 -fPIC": None, "-O2 -fno-omit-frame-pointer": None, "-O2 -mno-red-zone": None, "-O1 -fno-inline": None}
OPTIONS |= dict.fromkeys(("-O2 -fstack-protector-all", "-O0 -finstrument-functions"), "calls another function")
OPTIONS_FOR_ARM = [it for it in OPTIONS if "red-zone" not in it] + ["-O2 -mbranch-protection=standard"]


@pytest.mark.apart
@pytest.mark.parametrize("options", OPTIONS)
@pytest.mark.parametrize("compiler", ["gcc", "clang"])
def test_compiled_dispatch(tmp_path, compiler, options):
    """Code that other compilers make of dispatch.c is shown too, or is refused because it calls another function."""
    needs("ld", "objdump", compiler)
    made = linked(tmp_path / "image", archive_with(tmp_path, DISPATCH, *options.split(), compiler=compiler))
    for pair in "v2 encode_grouped", "v3 encode", "v3 first_invalid", "v4 decode_with_case", "vbmi check":
        said, is_shown, _ = command.checked(made, *pair.split(), 1)
        assert is_shown if OPTIONS[options] is None else OPTIONS[options] in said, said


@pytest.mark.apart
@pytest.mark.parametrize("options", OPTIONS_FOR_ARM)
def test_compiled_dispatch_for_arm(tmp_path, options):
    """Checks the same for aarch64. There such a call is refused as soon as it asks for the stack protector or for
    its own address."""
    needs(ARM_CC, "aarch64-linux-gnu-ld", "aarch64-linux-gnu-objdump")
    made = linked(tmp_path / "image", archive_with(tmp_path, DISPATCH, *options.split(), compiler=ARM_CC))
    for call in "decode_grouped", "encode", "first_invalid":
        said, is_shown, _ = command.checked(made, "aarch64", call, 1)
        assert is_shown == (OPTIONS.get(options) is None), said


def assembled(folder, text, level=None, compiler=CC):
    """Assembles a text, and returns the linked image of only this object."""
    (folder / "made.S").write_text(text)
    runs([compiler, "-c", f"-I{GENERATED}", "-o", folder / "made.o", folder / "made.S"])
    return Image(linked(folder / "image", folder / "made.o"), level)


@pytest.mark.apart
@pytest.mark.parametrize("row", changes.rows("x86_64/changes.txt") + changes.rows("aarch64/changes.txt"))
def test_change(tmp_path, row):
    it = changes.read(row)
    compiler = CC if it.build in X86_64 else ARM_CC
    needs(compiler)
    image = assembled(tmp_path, it.text, BUILDS[it.build][0], compiler)
    with pytest.raises(Refused):
        all_shown(image, it.build, it.call, max(it.lengths, default=None), *it.least)


# Copies of a loop that are right too: how the counter begins, how a turn changes it, and the jump to the next turn.
RIGHT = [("leaq -1(%r9),%r9", "subq $1,%r9", "jns"), ("shlq $5,%r9", "subq $32,%r9; cmpq $31,%r9", "ja"),
         ("shlq $5,%r9", "subq $32,%r9; cmpq $32,%r9", "jae"), ("negq %r9", "incq %r9", "js")]


@pytest.mark.apart
@pytest.mark.parametrize("begin, change, jump", RIGHT)
def test_right_change(tmp_path, begin, change, jump):
    """A loop may count and end in other ways than the shipped code does."""
    rules = fr"1 shrq \$9,%r9 => \0; {begin}", f"1 decq %r9 => {change}", f"1 jne 3b => {jump} 3b"
    image = assembled(tmp_path, changed("v3", "core_plain_check_long_outlined", rules), BUILDS["v3"][0])
    assert all_shown(image, "v3", "check", None, 513)


# A span of all indices but the last one.
ALL = ((z3.BitVecVal(0, 64), z3.BitVecVal(2**64 - 1, 64)),)


def other_state(state, register=None, **parts):
    """A copy of a state that differs in one register, whose value goes through a function, or in other fields."""
    it = state.copy()
    vars(it).update(parts)
    if register:
        name, function = register
        it.registers[name] = function(it.registers[name])
    return it


def wrong_claims(loop):
    """Records of a loop that are wrong in one place, each with what the replay says of it."""
    name = next(it for it in loop.moving if it in loop.state.registers)
    one_more, too_far = (name, lambda it: values.plus(it, 1)), (name, lambda it: values.Value(it.term + loop.turn))
    yield "another one", {"before": other_state(loop.before, one_more)}
    for wrong in one_more, too_far, (name, lambda it: loop.before.registers[name]):
        yield "another one|accesses something else", {"state": other_state(loop.state, wrong)}
    yield "is not unknown", {"unknown": loop.unknown | {name}}
    late = values.Value(loop.turn == 7)
    for words, parts in (("a fact", {"facts": (*loop.state.facts, late)}), ("leaves bytes", {"valid": ALL}),
                         ("leaves bytes", {"written": ALL}), ("something else", {"refused": (ALL,)}),
                         ("flags", {"flags": {"c": (operator.not_, late)}})):
        yield words, {"state": other_state(loop.state, **parts)}
    yield "in another way", {"exits": []}
    for wrong in ({"register": one_more}, {"facts": (late,)}, {"valid": ALL}, {"written": ALL}, {"at": 0},
                  {"refused": (ALL, ALL)}, {"flags": {"c": (operator.not_, late)}}):
        yield "in another way", {"exits": [other_state(it, **wrong) for it in loop.exits]}


@pytest.mark.quick
@pytest.mark.parametrize("call", ["encode", "check"])
def test_wrong_claim(image, call):
    """The replay of a loop refuses each wrong record. It accepts the right one afterwards, and does not change it."""
    machine = next(shown(Image(image, 3), "v3", call, None, 513)).machine
    for loop in machine.loops:
        exits = [*loop.exits]
        for words, wrong in wrong_claims(loop):
            with pytest.raises(Refused, match=words):
                Replay(machine, SimpleNamespace(**{**vars(loop), **wrong}))
        Replay(machine, loop)
        assert exits and loop.exits == exits


# Loops in which bytes are changed at random: the build, the call, and the function with the loop.
CHECKS = {"v3": "core_plain_check_long_outlined"} | dict.fromkeys(("v4", "vbmi"), "core_plain_check_wide_outlined")
LOOPS = [("v2", "encode", "encode"), ("v3", "encode", "encode"), *[(it, "check", at) for it, at in CHECKS.items()]]
LOOPS += [(it, "decode", "core_backend_Backend_decode_or_find_outlined") for it in X86_64]
# For each build, a flag in /proc/cpuinfo of the processors that run it.
FLAG = {"v2": "sse4_2", "v3": "avx2", "v4": "avx512bw", "vbmi": "avx512vbmi"}
PAGE, FILL = 4096, 0xaa


def has(*flags):
    """Skips a test if the processor lacks one of these flags."""
    for it in flags:
        if not re.search(rf"\b{it}\b", Path("/proc/cpuinfo").read_text()):
            pytest.skip(f"the processor has no {it}")


def in_loops(image, build, function):
    """The addresses in the loops of a function: all that a conditional jump back goes over."""
    begin, size = next((at, it[1]) for at, it in image.functions.items() if it[0].endswith(f"_{build}_{function}"))
    texts = {at: image.texts[at][1] for at in range(begin, begin + size) if at in image.texts}
    jumps = {at: re.match(r"j(?:ne|b|a|ae) +(\w+)", text) for at, text in texts.items()}
    return sorted({it for at, jump in jumps.items() if jump for it in range(int(jump[1], 16), at) if it >= begin})


class Answer(ctypes.Structure):
    _fields_ = [("number", ctypes.c_uint64), ("status", ctypes.c_uint8), ("byte", ctypes.c_uint8)]


class Guarded:
    """Some bytes in memory. They end where a page begins that cannot be accessed. The memory before them is filled."""

    def __init__(self, given):
        self.end = PAGE + -(-len(given) // PAGE) * PAGE
        self.region = mmap.mmap(-1, self.end + PAGE)
        self.first = ctypes.addressof(ctypes.c_char.from_buffer(self.region))
        self.region[:self.end] = bytes([FILL]) * (self.end - len(given)) + given
        assert ctypes.CDLL(None).mprotect(ctypes.c_void_p(self.first + self.end), PAGE, 0) == 0
        self.at = self.first + self.end - len(given)

    def holds(self, given):
        return self.region[:self.end] == bytes([FILL]) * (self.end - len(given)) + given


def source_for(call, chance, length):
    """A random source, and the index of its first invalid digit, or None. Most sources of digits have one."""
    if call == "encode":
        return chance.randbytes(length), None
    source = bytearray(chance.choice(b"0123456789abcdefABCDEF") for _ in range(length))
    places = [chance.randrange(length) for _ in range(chance.choice((0, 1, 2)) if length else 0)]
    for it in places:
        source[it] = chance.choice(b"/:@G`g\0\x80\xff")
    return bytes(source), min(places, default=None)


def answers_rightly(call, function, chance, length):
    given, invalid = source_for(call, chance, length)
    source = Guarded(given)
    if call == "check":
        return function(source.at, length) == (invalid is None) and source.holds(given)
    result = given.hex().encode() if call == "encode" else bytes.fromhex(given.decode()) if invalid is None else None
    room = 2 * length if call == "encode" else length // 2
    destination = Guarded(bytes([FILL]) * room)
    said = function(source.at, length, destination.at, room, 0)
    wanted = (room, 0, 0) if invalid is None else (invalid, 3, given[invalid])
    is_kept = source.holds(given) and destination.holds(bytes([FILL]) * room if result is None else result)
    return (said.number, said.status, said.byte) == wanted and is_kept


def tries(file, at, call, seed):
    """Ends this process, with the status 0 if the call at an address of a shared library answers rightly. The call is
    tried with random lengths, many of them long."""
    ctypes.CDLL(str(file))
    base = min(int(it.split("-")[0], 16) for it in Path("/proc/self/maps").read_text().splitlines() if str(file) in it)
    result = ctypes.c_bool if call == "check" else Answer
    function = ctypes.CFUNCTYPE(result, *[ctypes.c_uint64] * (2 if call == "check" else 5))(base + at)
    chance = random.Random(seed)
    lengths = [chance.randrange(8000) for _ in range(100)] + [chance.randrange(300) for _ in range(100)]
    is_even = call == "decode"
    sys.exit(0 if all(answers_rightly(call, function, chance, it - it % 2 * is_even) for it in lengths) else 1)


def answers(file, at, call, seed):
    """Whether a call answers rightly and ends within a minute."""
    process = multiprocessing.get_context("fork").Process(target=tries, args=(file, at, call, seed))
    process.start()
    process.join(60)
    process.kill()
    process.join()
    return process.exitcode == 0


def shared_of(folder, text):
    """Assembles and links a shared library."""
    assembled(folder, text)
    runs([CC, "-shared", "-nostdlib", "-o", folder / "made.so", folder / "made.o"])
    return folder / "made.so"


@pytest.mark.parametrize("build, call, function", LOOPS)
def test_answers(tmp_path, build, call, function):
    """The function that judges the randomly changed copies below tells right code from wrong code."""
    has(FLAG[build])
    for text, is_right in (changed(build, function), True), (changed(build, function, ["0 j(ne|b) .*b => nop"]), False):
        file = shared_of(tmp_path, text)
        at = next(Image(file).calls(build, call))
        assert answers(file, at, call, SEED) == is_right


@pytest.mark.apart
@pytest.mark.parametrize("turn", range(int(os.environ.get("ROUNDS") or 20_000) // 5_000))
def test_random_change(tmp_path, turn):
    """Changes a byte in a loop at random. If the changed copy is accepted all the same, it must answer rightly."""
    chance, told = random.Random(f"{SEED} {turn}"), f"SEED={SEED}"
    build, call, function = chance.choice(LOOPS)
    has(FLAG[build])
    file = shared_of(tmp_path, changed(build, function))
    image, data = Image(file), bytearray(file.read_bytes())
    at = chance.choice(in_loops(image, build, function))
    assert data[at:at + 8] == image.bytes_at(at, 8), "code does not stand at its address in the file"
    data[at] ^= chance.randrange(1, 256)
    file.write_bytes(data)
    try:
        all_shown(Image(file), build, call, None)
    except Refused:
        return
    is_right = answers(file, next(Image(file).calls(build, call)), call, told)
    assert is_right, f"{told}: {build} {call} was accepted with {data[at]:#x} at {at:#x}"


# Codes that must be refused, because no processor has them or they have no model. Many are changes of 62f16d48fcc1,
# which is vpaddb %zmm1,%zmm2,%zmm0, or of the code of a similar instruction.
NO_INSTRUCTIONS = {
    "62f16d49fcc1": "a mask", "62f16dc8fcc1": "zeros without a mask", "62f16d68fcc1": "vectors of 128 bytes",
    "62f16d58fcc1": "a rounding", "62e16d48fcc1": "zmm16", "62f16d40fcc1": "zmm18", "62b16d48fcc1": "zmm17",
    "62f96d48fcc1": "a bit that is zero", "62f16948fcc1": "a bit that is one", "62f16d58fc07": "one byte for all lanes",
    "62f1f5486fc1": "a third operand of vmovdqa64", "62f3ed283ac101": "vinserti64x4 to ymm",
    "62f27d487a07": "eax in memory", "62726d4827c1": "k8", "6662f16d48fcc1": "a prefix before",
    "62f16d48fc": "an end too early", "67480fdac3": "MMX with an address prefix", "67480fefc1": "MMX as well",
    "c4e2fd58c1": "vpbroadcastd with W=1", "f30f57f9": "xorps with F3", "48f3660fdcf9": "prefixes behind a REX",
}


def executes(image, at):
    """Executes an instruction, and lets `as` assemble its text again, as the record does."""
    execution.Machine(image, values.constant(0, 8), None, None, (), None).advances(State(at, PROCESSOR))
    assembles([image.instruction(at)])


@pytest.mark.parametrize("given", NO_INSTRUCTIONS)
def test_no_instruction(tmp_path, given):
    made = assembled(tmp_path, "at: .byte " + ",".join(f"{it:#x}" for it in bytes.fromhex(given)))
    with pytest.raises(Refused):
        executes(made, *made.symbols["at"])


def test_an_instruction(tmp_path):
    """Instructions like those that the codes above are changes of are not refused."""
    made = assembled(tmp_path, "at: vpaddb %zmm1,%zmm2,%zmm0; to: pminub %xmm1,%xmm0")
    executes(made, *made.symbols["at"]), executes(made, *made.symbols["to"])


def test_an_instruction_that_the_loader_changes(tmp_path):
    """An instruction is refused if a relocation writes over its last byte."""
    made = assembled(tmp_path, "at: pminub %xmm1,%xmm0")
    at, = made.symbols["at"]
    made.relocated[at + 3] = 0
    with pytest.raises(Refused):
        executes(made, at)


# A block has registers, flags and memory. A program loads a block, runs some instructions, and stores the block again.
BLOCK = {"vector 0": 32, "vector 1": 32, "vector 2": 32, "rax": 8, "rcx": 8, "rdx": 8, "flags": 8, "memory": 64}
# For AVX-512 the block also has the upper half of each vector, which is loaded and stored by these instructions.
BLOCK |= {f"above {it}": 32 for it in range(3)}
LOADS = "; ".join(f"vinserti64x4 $1,{192 + 32 * it}(%r11),%zmm{it},%zmm{it}" for it in range(3))
STORES = "; ".join(f"vextracti64x4 $1,%zmm{it},{192 + 32 * it}(%r11)" for it in range(3))
NAMES = [f"{it} {at}" for it, size in BLOCK.items() for at in range(size)]
# In the model, the memory is a part of the stack below what a program pushes. It is 8 bytes above an aligned address.
MEMORY = range(-128, -64)
FLAGS = {"c": 0, "z": 6, "s": 7, "o": 11}
HAS_FLAG = {flag: (lambda it, bit=bit: z3.Extract(bit, bit, it) == 1) for flag, bit in FLAGS.items()}
PROGRAM = """
    .globl run_{0}
run_{0}: mov %rdi,%r11
    vmovdqu (%r11),%ymm0; vmovdqu 32(%r11),%ymm1; vmovdqu 64(%r11),%ymm2; {2}
    mov 96(%r11),%rax; mov 104(%r11),%rcx; mov 112(%r11),%rdx; lea 128(%r11),%rdi; push 120(%r11); popfq
    .intel_syntax noprefix
begin_{0}: {1}
end_{0}: .att_syntax prefix
    pushfq; pop 120(%r11); mov %rax,96(%r11); mov %rcx,104(%r11); mov %rdx,112(%r11)
    vmovdqu %ymm0,(%r11); vmovdqu %ymm1,32(%r11); vmovdqu %ymm2,64(%r11); {3}; vzeroupper
    ret
"""
# The flags in /proc/cpuinfo of a processor that has the instructions of a level.
OF_LEVEL = {2: ["avx2"], 3: ["avx2", "bmi2"], 4: ["avx512f", "avx512bw", "avx512dq", "avx512vl"], 5: ["avx512vbmi"]}
REGISTERS = {1: "cl dl al", 2: "cx dx ax", 4: "ecx edx eax", 8: "rcx rdx rax"}
SIZES = {1: "byte", 2: "word", 4: "dword", 8: "qword", 16: "xmmword", 32: "ymmword", 64: "zmmword"}
# What comes before and after an instruction, so that its effect can be compared, or what stands in place of the
# instruction. {0} is a number, and {1} the instruction.
AROUND = {
    "div": "mov eax,{0}0007; xor edx,edx; mov ecx,77; mov qword ptr [rdi+7],77; {1}",
    "leave": "push rbp; mov rbp,rsp; push rcx; {1}",
    "push": "{1}; pop rdx", "pop": "push rdx; {1}", "bzhi": "mov al,{0}; {1}",
    "ret": "call 1f; jmp 2f; 1: inc rcx; ret; 2: nop", "call": "{1}; add rdx,rax; jmp 2f; 1: inc rcx; ret; 2: nop",
    **{name: "{1}; inc rax; 1: nop" for name in FORMS if name[0] == "j"},
    "jmp": "lea rcx,[rip+1f]; {1}; inc rax; 1: mov ecx,{0}",
    "kortestw": "vptestmd k0,zmm0,zmm0; vptestmd k1,zmm1,zmm2; {1}",
    "vzeroupper": "vmovdqu ymm0,ymmword ptr [rdi]; {1}",
}
# The numbers with which instructions that have a number are tried.
GIVEN = 5, 179, 63, 1


def operand_of(name, kind, place, number):
    """The text of an operand of a kind at a place."""
    size = int(kind[1:] or 0)
    if kind == "i":
        return "1f" if name[0] == "j" or name == "call" else str(number)
    if kind in WIDTHS:
        return f"{kind}mm{place}"
    if kind == "k":
        return f"k{place}"
    if kind[0] == "r":
        return REGISTERS[size].split()[place]
    if size == 0:
        return "[rcx+rdx*4+5]"
    if re.search("movdqa|movaps", name) and size > 16:
        return f"{SIZES[size]} ptr [rip+9f]"
    is_aligned = size == 16 and (name[0] != "v" or re.search("movdqa|movaps", name))
    distance = 8 if is_aligned else 0 if size == 64 else 7
    return f"{SIZES[size]} {'bcst' if kind[0] == 'b' else 'ptr'} [rdi+{distance}]"


def programs_of(name, form):
    """The programs for a form of an instruction. If the instruction also has a form with vectors of 64 bytes, the
    programs use its encoding of AVX-512 too."""
    kinds = [it for it in form.split(",") if it]
    wide = re.sub("m16|m32", "m64", re.sub("[xy]", "z", form))
    for number, prefix in itertools.product(GIVEN, ["", "{evex} "] if wide != form and wide in FORMS[name] else [""]):
        text = f"{prefix}{name} {', '.join(operand_of(name, it, at, number) for at, it in enumerate(kinds))}"
        text = AROUND.get(name, "{1}").format(number, text)
        text = f"vptestmd k1,zmm0,zmm1; {text}" if kinds[1:] == ["k"] and name not in AROUND else text
        text = f"{text}; kmovq rax,k0" if kinds[:1] == ["k"] and name not in AROUND else text
        numbers = ",".join(map(str, range(3, 195, 3)))
        yield text + (f"; jmp 8f; .p2align 6; 9: .byte {numbers}; 8: nop" if "9f" in text else "")


def modelled(image, begin, end, is_wide, known):
    """Runs a program in the model, and returns the bytes of the block and the flags. The bytes of the block at the
    beginning are those of `known`, or unknown. The upper halves of vectors come after the memory."""
    block = {it: values.bytes_of(values.unknown(it, size)) for it, size in BLOCK.items()}
    if known:
        block = {it: [values.constant(known[f"{it} {at}"], 1) for at in range(size)] for it, size in BLOCK.items()}
    machine, state = execution.Machine(image, values.constant(0, 8), None, None, (), None), State(begin, PROCESSOR)
    state.registers.update({it: values.joined(block[it]) for it in ("rax", "rcx", "rdx")},
                           rdi=values.plus(STACK, MEMORY[0]))
    state.vectors[:3] = [block[f"vector {it}"] + block[f"above {it}"] for it in range(3)]
    state.stack.update(zip(MEMORY, block["memory"]))
    state.flags = {flag: (function, values.joined(block["flags"])) for flag, function in HAS_FLAG.items()}
    while state.at != end:
        machine.advances(state)
    made = [it[:32] for it in state.vectors[:3]]
    made += [values.bytes_of(state.registers[it]) for it in ("rax", "rcx", "rdx")]
    flags = {flag: values.apply(*it) for flag, it in state.flags.items() if it}
    above = sum([it[32:] for it in state.vectors[:3]], []) if is_wide else []
    return sum(made, []), [state.stack[it] for it in MEMORY] + above, flags


def told(it, known):
    """The number or truth value of a Value for known bytes. Most values are one of these bytes themselves."""
    if it.term.eq(values.X[0]):
        return known[it.of[0]]
    each = [(values.X[at], z3.BitVecVal(known[name], 8)) for at, name in enumerate(it.of)]
    value = z3.simplify(z3.substitute(it.term, *each))
    return z3.is_true(value) if z3.is_bool(value) else value.as_long()


def same(program, made, known, done):
    """Checks that the model's bytes and flags are those of the processor."""
    registers, memory, flags = made
    made_there = done[:120] + done[128:128 + len(memory)]
    assert bytes(told(it, known) for it in [*registers, *memory]) == made_there, program
    word = int.from_bytes(done[120:128], "little")
    assert all(told(it, known) == bool(word >> FLAGS[flag] & 1) for flag, it in flags.items()), program


def any_byte():
    return random.choice((0, 1, 127, 128, 255, random.randrange(256)))


def dense_blocks():
    return [bytearray(any_byte() for _ in NAMES) for _ in range(10)]


def sparse_blocks(parts):
    """Blocks for instructions that ask whether bytes are zero or equal. All bytes of a block are zero, except for two
    anywhere, and one at the same place of all vectors or in only one vector. Each place is used."""
    for part, place in itertools.product(parts, range(32)):
        for vectors in range(3), [random.randrange(3)]:
            block, byte = bytearray(len(NAMES)), any_byte() or 1
            for at in random.sample(range(len(NAMES)), 2):
                block[at] = any_byte()
            for it in vectors:
                block[NAMES.index(f"{part} {it} {place}")] = byte
            yield block


def ran_on(function, block):
    """What a program makes of a block, which begins 8 bytes above an aligned address."""
    room = ctypes.create_string_buffer(len(block) + 24)
    at = -ctypes.addressof(room) % 16 + 8
    room[at:at + len(block)] = bytes(block)
    function(ctypes.c_void_p(ctypes.addressof(room) + at))
    return room[at:at + len(block)]


@pytest.mark.apart
@pytest.mark.parametrize("name", FORMS)
def test_instruction(tmp_path, name):
    """Each form of each instruction that has a model does on the processor what it does in the model."""
    level = max(FORMS[name].values())
    programs = sorted({it for form in FORMS[name] for it in programs_of(name, form)})
    is_wide = level > 3 or any(re.search("evex|zmm", it) for it in programs)
    has(*OF_LEVEL[4] * is_wide, *OF_LEVEL[level])
    above = [LOADS, STORES] if is_wide else ["", ""]
    image = assembled(tmp_path, "".join(PROGRAM.format(*it, *above) for it in enumerate(programs)))
    runs([CC, "-shared", "-nostdlib", "-o", tmp_path / "made.so", tmp_path / "made.o"])
    library = ctypes.CDLL(tmp_path / "made.so")
    random.seed(name)
    for at, program in enumerate(programs):
        places = *image.symbols[f"begin_{at}"], *image.symbols[f"end_{at}"], is_wide
        # A program with jumps, or whose effect depends on a known number, is executed again for each block.
        made = None if re.search(r"\bj|call|set", program) else modelled(image, *places, {})
        is_test = re.search("test", name) and made
        for block in [*dense_blocks(), *(sparse_blocks(["vector", "above"][:1 + is_wide]) if is_test else ())]:
            block[120:128] = bytes([random.randrange(256) & 0xc1 | 2, random.choice((0, 8)), 0, 0, 0, 0, 0, 0])
            known = dict(zip(NAMES, block))
            same(program, made or modelled(image, *places, known), known, ran_on(library[f"run_{at}"], block))


@pytest.mark.quick
def test_forms():
    """Each instruction with a form has an effect, and the other way round."""
    effects = {name for name in TABLE} | {name for name in ("ret", "call", "jmp")} | {f"j{it}" for it in CONDITIONS}
    assert {it if it in effects else it[1:] for it in FORMS} == effects
