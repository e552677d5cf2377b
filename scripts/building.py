"""Proves crates in a copy of their sources, and compiles them there. Nobody edits the copy, so a record that is made of
it fits what was proved."""
import functools
import os
import re
import shlex
import shutil
import subprocess
import sys
import tempfile
from pathlib import Path

import repository

TOP = repository.TOP
# The builds of the library: the name, the architecture, the processor that it is proved for, and the number that
# `level` of faster_hex_c returns there. By this number all calls of the library choose their plan. `rattle`, the
# toolchain's prover and compiler, knows no processor with AVX-512, so scripts/library.awk tells clang alone of one.
BUILDS = [
    ("x86-64", "x86_64", "x86-64", 1),
    ("x86-64-v2", "x86_64", "x86-64-v2", 2),
    ("x86-64-v3", "x86_64", "x86-64-v3", 3),
    ("x86-64-v4", "x86_64", "x86-64-v3", 4),
    ("x86-64-vbmi", "x86_64", "x86-64-v3", 5),
    ("aarch64", "aarch64", "generic", 2),
]
# The number of parallel jobs of a proof from nothing. Each job reads all libraries, so more jobs would take longer.
JOBS = str(min(4, len(os.sched_getaffinity(0))))
# A program has one build for each architecture.
OF_PROGRAMS = [it for it in BUILDS if it[0] in ("x86-64-v2", "aarch64")]


@functools.cache
def kit():
    """The folder of the toolchain."""
    if not shutil.which("rt"):
        sys.exit("there is no rt on PATH: it is in the folder bin of the Rattle toolchain")
    return Path(repository.said("rt", "doc")).parent


def copy(crates, to):
    """Copies crates, those below them, and the scripts that compile them and take their hash."""
    repository.copy(repository.below(crates), to, ("src", "specs", "proofs"))
    shutil.copy(TOP / "HANDLES", to)
    shutil.copytree(TOP / "scripts", to / "scripts", ignore=shutil.ignore_patterns("__pycache__"))


def verdict(words, folder):
    """Runs a command that proves the crate in this folder. Returns the line of its verdict. If the crate is not proved,
    it ends the script."""
    done = repository.ran(words, folder)
    found = re.findall("^logic=.*", done.stdout, re.M)
    if done.returncode or not found or not found[-1].startswith("logic=proved "):
        sys.exit("\n".join([*done.stdout.splitlines()[-40:], f"{folder.name} is not proved"]))
    print(f"{folder.name} proved", flush=True)
    return f"{folder.name} {found[-1]}"


def words_of(top, crate):
    """The words by which `rattle` proves and builds a crate over the libraries below it, which must be built."""
    own = repository.below([crate], top)[:-1]
    folder = lambda it: top / f"crates/{it}/out/rlib" if it in own else kit() / "rlibs"
    root = "src/main.rt" if (top / f"crates/{crate}/src/main.rt").exists() else "src/lib.rt"
    words = ["rattle", "build", "--crate-name", crate, root, "--links", f"{crate}="]
    for it in "std", *repository.uses(crate, top):
        words += ["--extern", f"{it}={folder(it)}/{it}.rlib"]
    for it in *own, "std":
        words += ["-L", f"dependency={folder(it)}"]
    words += ["--antt-project", kit() / "rattle/logic/antt-project.json", "--logic-built", kit() / "logic_built"]
    return words


def library(top, crate, anew=False):
    """Proves a library over those below it, and builds it. Returns the line of its verdict. `rt` begins with what it
    kept of the crate in any checkout on this machine, unless the proof is to begin with nothing."""
    folder = top / "crates" / crate
    if anew:
        (folder / "out/rlib").mkdir(parents=True)
        return verdict([*words_of(top, crate), "--statements", "-o", f"out/rlib/{crate}.rlib", "--jobs", JOBS], folder)
    line = verdict(["rt", "check"], folder)
    subprocess.run(["rt", "lib"], cwd=folder, stdout=subprocess.DEVNULL, check=True)
    return line


def tools(room, edits, architecture, level):
    """Makes a toolchain whose clang is scripts/clang-edited, which leaves the assembly as made.s. `rattle` clears the
    environment, so the arguments are in a program of two lines."""
    (room / "bin").mkdir()
    for it in (kit() / "toolchain/bin").iterdir():
        if it.name != "clang":
            (room / "bin" / it.name).symlink_to(it)
    (room / "lib").symlink_to(kit() / "toolchain/lib")
    words = edits.with_name("clang-edited"), kit() / "toolchain/bin/clang", edits, architecture, level, room / "made.s"
    (room / "bin/clang").write_text(f'#!/bin/sh\nexec {shlex.join(map(str, words))} "$@"\n')
    (room / "bin/clang").chmod(0o755)
    return room


def assembly(top, crate):
    """Proves a static library or a program once for each build, over the libraries below it, which must be built.
    Returns the assembly of each build as clang writes it, and the line of its verdict."""
    is_library = " staticlib:" in repository.lines_of(top)[crate]
    edits = top / "scripts" / ("library.awk" if is_library else "program.awk")
    words, found = [*words_of(top, crate), *["--crate-type", "staticlib"] * is_library], {}
    for name, architecture, processor, level in BUILDS if is_library else OF_PROGRAMS:
        with tempfile.TemporaryDirectory() as room:
            made = tools(Path(room), edits, architecture, level)
            target = ["--target", f"{architecture}-unknown-linux-gnu", "--cpu", processor, "--toolchain", made]
            line = verdict([*words, *target, "-o", made / "made"], top / "crates" / crate)
            found[name] = (made / "made.s").read_text(), line
    return found
