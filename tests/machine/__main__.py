"""Checks the library's calls in machine code. Run it in tests/ with the system's Python: `-m machine --help`."""
import argparse
import concurrent.futures
import hashlib
import os
import re
import subprocess
import sys
import tempfile
import time
from functools import partial
from pathlib import Path

# The time at which this tool started, before Python read its other files.
BEGAN = time.time_ns()

import capstone
import z3

from . import Refused, aarch64, code, x86_64
from .grouped import GROUPED, MOST, shown_grouped
from .image import Image, linked, name_of, processor_of
from .loops import SHORT
from .statements import CALLS, shown
from .values import forget

TOP = Path(__file__).resolve().parents[2]
KEPT = []
# The builds for AVX-512 only have the calls that check and decode, without those for groups.
WIDEST = [it for it in CALLS if it.startswith(("check", "decode")) and it not in GROUPED]
# Each build with its calls and its level, which is the lowest level of a processor that runs it. Levels 2 to 4 are
# those of x86-64, and level 5 is level 4 with AVX-512 VBMI.
BUILDS_OF = {x86_64.PROCESSOR: {"v2": (2, CALLS), "v3": (3, CALLS), "v4": (4, WIDEST), "vbmi": (5, WIDEST)},
             aarch64.PROCESSOR: {"aarch64": (1, CALLS)}}
BUILDS = {build: it for those in BUILDS_OF.values() for build, it in those.items()}
# The sources of the machine code and of this tool. The tool counts too, because a changed tool needs a new record.
SOURCES = [f"generated/{name_of(it)}.s" for it in BUILDS] + """generated/builds.S generated/elf.inc
    crates/faster_hex_c/dispatch.c crates/faster_hex_c/assembly.h crates/faster_hex_c/faster_hex.h""".split()
SOURCES += sorted(f"{it.relative_to(TOP)}" for it in Path(__file__).resolve().parent.rglob("*.py"))


def sums():
    lines = [f"sha256 {hashlib.sha256((TOP / it).read_bytes()).hexdigest()}  {it}\n" for it in SOURCES]
    return "Written by `python3 -m machine record`: do not edit.\n" + "".join(lines)


def tools(file, made):
    """The hash of a file, the compilers that it names, and the versions of the programs that check it."""
    compilers = re.findall(r"^ +\[ *\w+\] +(.*)$", code.output("readelf", "-p", ".comment", made), re.M)
    names = (processor_of(made).tools + it for it in ("ld", "objdump"))
    linker, disassembler = (code.output(it, "--version").splitlines()[0] for it in names)
    return [f"file sha256 {hashlib.sha256(file.read_bytes()).hexdigest()}",
            f"compiled by {', '.join(compilers) or 'a compiler that it does not name'}",
            f"checked by Z3 {z3.get_version_string()}, Capstone {capstone.__version__}, {disassembler}, {linker}"]


def branches(those):
    short, beyond = max(it.tests for it in those), max(it.long_tests for it in those)
    turns = sorted({it for one in those for it in one.machine.turns})
    words = f"{short} branches on valid digits"
    if (beyond, turns) != (short, []):
        each = "".join(f", and {tests} in each turn of {digits} digits" for tests, digits in turns)
        words += f"; above {SHORT} digits at most {beyond}{each}"
    return words


def levels_of(build, call):
    """The levels of the processors that run a build's call: its own, and those above whose builds lack the call."""
    own, those = next((it[build][0], it.values()) for it in BUILDS_OF.values() if build in it)
    having = [level for level, calls in those if call in calls]
    return [level for level, _ in those if max([0, *[it for it in having if it <= level]]) == own]


def checked(made, build, call, most):
    """What is said of a call, whether the call was shown to be right, and the addresses that were executed."""
    executed = set()
    # The calls of a build have much in common, so Z3's answers are kept for the next one. A grouped call starts anew.
    if KEPT != [build] or call in GROUPED:
        forget()
        KEPT[:] = [build]
    try:
        image = Image(made)
        for level in levels_of(build, call):
            image.level, image.executed = level, set()
            if call in GROUPED:
                list(shown_grouped(image, build, call, most))
                said = f"0 to {MOST if most is None else most} bytes in groups of each size, any separator"
                said += "; up to 1024 bytes in groups of some sizes" if most is None else ""
            else:
                words = branches(list(shown(image, build, call, most)))
                said = f"{'every length' if most is None else f'0 to {most} bytes'}, {words}"
            executed |= image.executed
        return f"{name_of(build)} {call}: {said}", True, executed
    except Refused as why:
        return f"{name_of(build)} {call}: REFUSED: {why}", False, set()


def functions(made, executed):
    """Yields a line for each function: how many of its instructions some path executed."""
    image, builds = Image(made), "|".join(map(name_of, BUILDS)).replace("-", "_")
    image.processor.confirms([image.instruction(at) for at in sorted(executed)])
    for at, (name, size) in sorted(image.functions.items(), key=lambda it: it[1]):
        found = re.search(rf"_((?:{builds})_\w+?)(?:_of_c\w*)?$|^(faster_hex_[a-z_]+)$", name)
        those = image.instructions(at, size)
        if found:
            said = found[1] or "_".join(filter(None, (image.processor.target, found[2])))
            said = said.replace("x86_64_", "x86-64-")
            yield f"{said}: {len(those & executed)} of {len(those)} instructions executed"


def report(made, most, pairs, jobs=None):
    """Checks calls in several processes, and prints what is said of each call as soon as it is known. Returns all that
    was said, the lines on functions, and whether every call was shown to be right."""
    with concurrent.futures.ProcessPoolExecutor(jobs) as pool:
        waiting = [pool.submit(checked, made, *it, most) for it in pairs]
        for it in concurrent.futures.as_completed(waiting):
            print(it.result()[0], flush=True)
    results = [it.result() for it in waiting]
    executed = set().union(*[it for _, _, it in results])
    return [it for it, _, _ in results], [*functions(made, executed)], all(it for _, it, _ in results)


def pairs_of(made, words):
    """The builds and calls to check in a file: all for its processor, or those that the words select."""
    names = [it for it in Image(made).symbols if re.match(r"faster_hex_\w+_(x86_64_v|aarch64_)", it)]
    builds = BUILDS_OF[processor_of(made)]
    version = re.search(r'VERSION "(.*)"', (TOP / "crates/faster_hex_c/faster_hex.h").read_text())[1].replace(".", "_")
    if not names:
        raise ValueError("the library is not in it, or it was stripped")
    if others := [it for it in names if f"faster_hex_{version}_" not in it]:
        raise ValueError(f"it has another version: {others[0]}")
    if words and words[0] not in builds:
        raise ValueError("it is for another processor")
    return [(build, call) for build in builds for call in builds[build][1] if [build, call][:len(words)] == words]


def image_of(folder, file):
    """The linked file to check: the given file, or what `ld` makes of an archive or an object."""
    file.read_bytes()
    if not processor_of(file):
        raise ValueError("it is neither for x86-64 nor for aarch64")
    is_linked = re.search(r"^ +Type: +(EXEC|DYN)", code.output("readelf", "-hW", file), re.M)
    return file if is_linked else linked(Path(folder) / "image", file)


def check(folder, given):
    made = image_of(folder, given.file)
    pairs = pairs_of(made, [it for it in (given.build, given.call) if it])
    print(*tools(given.file, made), sep="\n", flush=True)
    _, lines, is_shown = report(made, given.most, pairs, given.jobs)
    print(*[it for it in lines if not given.build or ": 0 of" not in it], sep="\n")
    return 0 if is_shown else 1


def record(folder, began=BEGAN, jobs=None):
    """Writes the record, if every call is shown to be right and no source was changed after the tool started."""
    text = sums()
    for target in (it.target for it in BUILDS_OF):
        out = Path(folder) / f"lib{target}"
        words = "UNPROVED=", f"TARGET={target}", f"OUT={out}", f"BUILT={out}/built"
        subprocess.run(["make", "-s", "-C", TOP, "lib", *words], check=True)
        made = linked(out / "image", out / "libfaster_hex.a")
        said, lines, is_shown = report(made, None, pairs_of(made, []), jobs)
        if not is_shown:
            raise Refused(next(it for it in said if "REFUSED" in it))
        text += "\n".join([*tools(out / "libfaster_hex.a", made), *said, *lines]) + "\n"
    if any((TOP / it).stat().st_ctime_ns >= began for it in SOURCES):
        raise Refused("a source was changed meanwhile")
    (TOP / "generated/SHOWN").write_text(text)


def number(least, name, text):
    if not re.fullmatch(r"\d{1,19}", text, re.A) or int(text) < least:
        raise argparse.ArgumentTypeError(f"{text} is no {name}")
    return int(text)


def arguments(words):
    about = "Executes the library's machine code symbolically: digits alone at every length, grouped text at some."
    ends = "The status is 0 if all is shown, 1 if something is not, 2 for a file or words that nothing is checked of."
    parser = argparse.ArgumentParser("python3 -m machine", description=about, epilog=ends)
    jobs = argparse.ArgumentParser(add_help=False)
    jobs.add_argument("--jobs", type=partial(number, 1, "number of jobs"), default=os.cpu_count(), metavar="N",
                      help="how many calls are checked at the same time (as many as there are processors)")
    commands = parser.add_subparsers(dest="command", required=True, metavar="check | record")
    it = commands.add_parser("check", parents=[jobs], epilog=ends, help="check a file. This writes nothing.",
                             description="Checks all calls in all builds for x86-64-v2 and above or aarch64, or some.")
    it.add_argument("file", type=Path, help="an archive of the library, or a linked file that contains it")
    it.add_argument("build", nargs="?", choices=BUILDS, help="the build to check")
    it.add_argument("call", nargs="?", choices=CALLS, metavar="call", help=f"the call to check: {', '.join(CALLS)}")
    it.add_argument("most", nargs="?", type=partial(number, 0, "length"),
                    help="the greatest length of a source, in bytes")
    commands.add_parser("record", parents=[jobs], help="build the library in a folder of its own, check all of it, and "
                        "write generated/SHOWN")
    given = parser.parse_args(words)
    if given.command == "check" and given.call and given.call not in BUILDS[given.build][1]:
        parser.error(f"the build {given.build} has no call {given.call}")
    return given


if __name__ == "__main__":
    asked = arguments(sys.argv[1:])
    try:
        with tempfile.TemporaryDirectory() as made_in:
            is_check = asked.command == "check"
            sys.exit(check(made_in, asked) if is_check else record(made_in, jobs=asked.jobs))
    except Refused as why:
        sys.exit(f"refused: {why}")
    except (OSError, ValueError, subprocess.CalledProcessError) as why:
        said = f"{Path(why.cmd[0]).name} does not read it" if hasattr(why, "cmd") else why
        print(f"{getattr(asked, 'file', 'record')}: {said}", file=sys.stderr)
        sys.exit(2)
