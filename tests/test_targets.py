"""`make` rejects bad variables, rebuilds what it must, and refuses unproved sources. tests/header.sh notices
differences. `make vendor` copies crates."""
import os
import re
import shutil
import subprocess
import time

import pytest

from commands import (BY_SYSTEM, SHARED, TOP, VERSION, is_locked, make, needs, needs_clone, only, ran, runs,
                      stands_alone)

pytestmark = pytest.mark.quick
# How often the commands of a build contain each of the user's variables.
WORDS = {"CC": 8, "CFLAGS": 8, "CPPFLAGS": 7, "LDFLAGS": 3, "AR": 1}
# Variables with which everything is built again, and the status of such a build.
OTHERS = {"CFLAGS=-O1 -g": 0, "CPPFLAGS=-DX='a  $$b'": 0, "LDFLAGS=-Wl,-O1": 0, "CC=gcc": 0, "UNPROVED=yes": 0}
OTHERS |= {"CC=nonexistent": 2}
# A file, a pattern, the text that replaces it, and what tests/header.sh then prints.
DIFFERENCES = [
    ("generated/PROVED", r"^sources \w", "sources z", "generated/ is not made of these sources"),
    ("generated/fhex/PROVED", "^prover .*", "prover another", "does not name the prover another"),
    ("generated/rattle/PROVED", r"^callers .*\n", "", "generated/rattle/PROVED tells of"),
    ("crates/callers/src/lib.rt", r"\Z", "\n", "generated/rattle/ is not made of these sources"),
    ("generated/x86-64.s", r"\A", "\n", "generated/ has a file that is not as PROVED says"),
    ("crates/faster_hex_c/dispatch.c", r"^CALL\(bool, check, .*\n", "", "faster_hex_check"),
]
# The tools that `make test` needs without Rattle and pytest.
TOOLS = """sh make date cc as ld ar mv mkdir rm cp cat grep sed sort find xargs sha256sum awk dirname uname nproc"""
# Targets of clang. The folder into which `make` builds, and whether it builds fhex.
SYSTEMS = {"x86_64-linux-gnu": ("out", True), "amd64-portbld-freebsd14": ("out", True)}
SYSTEMS |= dict.fromkeys(("aarch64-alpine-linux-musl", "arm64-linux-gnu"), ("out/aarch64", True))
SYSTEMS |= {"x86_64-w64-mingw32": ("out/windows", True), "arm64-apple-macos11": ("out/macos/aarch64", False)}
SYSTEMS |= {"x86_64-linux-gnu CFLAGS=-m32": ("out/i386", False), "riscv64-linux-gnu": ("out/riscv64", False)}
SYSTEMS |= dict.fromkeys(("x86_64-unknown-openbsd7.4", "x86_64-pc-solaris2.11", "aarch64-none-linux-android21",
                          "x86_64-linux-gnux32"), ("out/portable", False))
SYSTEMS["arm64-apple-ios14"] = "out/macos/portable", False
SYSTEMS["x86_64-linux-gnu TARGET=portable"] = "out/portable", False
WARNINGS = {f"warning: {folder}/ {what}" for folder in ("generated", "generated/fhex", "generated/fhex-stream")
            for what in ("is not made of these sources", "has a file that is not as PROVED says")}
# The files that are built again if one of these files is newer.
SOURCES_OF = {"generated/*.[sS]": "builds.o", "generated/*.inc": "builds.o fhex.o", "generated/fhex/*.[sS]": "fhex.o"}
SOURCES_OF |= {"crates/faster_hex_c/assembly.h": "builds.o dispatch.o exported.o"}
SOURCES_OF |= {"crates/faster_hex_c/*.[ch]": "dispatch.o exported.o"}
SOURCES_OF |= {"crates/faster_hex_c/*.map": SHARED[2], "crates/fhex/fhex.c": "fhex"}
PAGES = {"CALLING.md", "CHANGELOG.md", "DIFFERENCES.md", "proving.md", "security.md"}
CALLERS = {"src/digest.rt", "src/checksum.rt", "specs/Checksums.antt"}


def test_words_that_are_not_taken():
    for word, names in ("TARGET=arm", "makes code for"), ("JSON=false", "yes nor no"):
        done = ran(make("-n", "vendor", word))
        assert done.returncode == 2 and names in done.stdout and done.stdout.count("\n") == 1


def test_six_makes_at_once(copy):
    how = {"env": BY_SYSTEM, "stdout": subprocess.PIPE, "stderr": subprocess.STDOUT, "text": True}
    many = [subprocess.Popen(make(top=copy), **how) for _ in range(6)]
    assert {it.communicate()[0] for it in many} == {""}
    assert [it.returncode for it in many] == 6 * [0]
    made = {"builds.o", "dispatch.o", "exported.o", "libfaster_hex.a", SHARED[2], "built"}
    made |= {f"{program}{end}" for program in ("fhex", "fhex-stream") for end in ("", ".o")}
    assert {it.name for it in (copy / "out").iterdir()} == made


@pytest.mark.parametrize("word", OTHERS)
def test_other_words(copy, word):
    """With them every file is built again, and so it is without them afterwards. `make install` builds nothing."""
    how, out = {"env": BY_SYSTEM}, copy / "out"
    runs(make(top=copy), **how)
    before = {it: it.stat().st_mtime_ns for it in out.iterdir()}
    done = ran(make(word, top=copy), **how)
    assert done.returncode == OTHERS[word] and ("nonexistent: " in done.stdout) == (done.returncode > 0)
    for words in (["install"], [word], []) if not done.returncode else ():
        assert (words == []) == (" -o " in runs(make("-n", *words, top=copy), **how))
        assert not [it for it in before if it.stat().st_mtime_ns <= before[it]]
    runs(make(top=copy), **how)
    assert not [it for it in before if it.stat().st_mtime_ns <= before[it]]


def test_builds_in_two_folders(copy, tmp_path):
    """Each file has the same bytes in both folders. With debug information this holds if it names no folder."""
    other = shutil.copytree(copy, tmp_path / "other")
    for flags in "-O2", "-O2 -g -ffile-prefix-map='{}'=.":
        for top in copy, other:
            runs(make(f"CFLAGS={flags.format(top)}", top=top), env=BY_SYSTEM)
        made = {it.name: it.read_bytes() for it in (copy / "out").iterdir() if it.name != "built"}
        assert "fhex" in made and made == {it: (other / "out" / it).read_bytes() for it in made}


@pytest.mark.parametrize("name", ["generated/x86-64.s", "generated/fhex/x86-64-v2.s", "crates/hex_core/src/lib.rt"])
def test_unproved(copy, name):
    """A change of the assembly or of the sources is built only with UNPROVED=yes. The library's version then says
    so."""
    with (copy / name).open("a") as file:
        file.write("\n")
    how, program = {"env": BY_SYSTEM}, copy / "version"
    assert ran(make(top=copy), **how).returncode == 2
    done = ran(make("UNPROVED=yes", top=copy), **how)
    assert done.returncode == 0 and set(done.stdout.splitlines()) <= WARNINGS and "warning: " in done.stdout
    assert set(ran(make("install", f"PREFIX={copy}/there", top=copy), **how).stdout.splitlines()) <= WARNINGS
    (copy / "version.c").write_text('#include <faster_hex.h>\n#include <stdio.h>\n'
                                    'int main(void) { puts(faster_hex_version()); }\n')
    runs(["cc", "-I", copy / "there/include", "-o", program, f"{program}.c", copy / "there/lib/libfaster_hex.a"])
    runs([program], out=f"{VERSION}+unproved\n")
    assert ran(make(top=copy), **how).returncode == 2


def test_words_of_the_user(copy):
    words = [f"{name}={'cc' * (name == 'CC')} -D{name}_IS" for name in WORDS]
    said = ran(make("-n", *words, top=copy), env=BY_SYSTEM).stdout.partition("-o out/builds.o")
    said = "cc" + said[0].rpartition("cc")[2] + "".join(said[1:])
    assert {it: said.count(f" -D{it}_IS") for it in WORDS} == WORDS
    words = "LDFLAGS=-Wl,-z,norelro,-z,lazy", "CFLAGS=-O2 -flto -fstack-protector-all"
    runs(make("lib", *words, top=copy), env=BY_SYSTEM)
    is_locked(copy / "out" / SHARED[2])
    stands_alone(copy / "out/libfaster_hex.a")


@pytest.mark.parametrize("name, old, new, told", DIFFERENCES)
def test_header(copy, name, old, new, told):
    """tests/header.sh prints each difference."""
    text = (copy / name).read_text()
    (copy / name).write_text(re.sub(old, new, text, 1, re.M))
    done = ran([copy / "tests/header.sh"])
    assert (copy / name).read_text() != text and done.returncode == 1 and told in done.stdout, done.stdout


@pytest.mark.parametrize("system", SYSTEMS)
def test_systems(system):
    """`make` builds with assembly exactly where assembly.h has some, also with options that change the processor. On
    other systems and processors the libraries are plain C, and there is no fhex."""
    needs("clang")
    target, *words = system.split()
    compiler, (folder, has_programs) = f"clang -target {target}", SYSTEMS[system]
    said = runs(make("-n", f"CC={compiler}", *words))
    assert {*re.findall(r" -o (\S+)/builds\.o", said)} == {folder} and ("/fhex" in said) == has_programs
    options = [it.partition("=")[2] for it in words if it.startswith("CFLAGS")]
    options += ["-DFASTER_HEX_PORTABLE"] * (" -DFASTER_HEX_PORTABLE" in said)
    told = runs([*compiler.split(), *options, "-dM", "-E", TOP / "crates/faster_hex_c/assembly.h"])
    assert ("#define FASTER_HEX_X86_64" in told or "#define FASTER_HEX_AARCH64" in told) == (
        folder.rpartition("/")[2] in ("out", "aarch64", "windows"))


def test_other_sources(copy):
    """Changed sources of the library stop the build of the library and the programs. Those of a program stop only that
    one."""
    for name, made in (("hex_core/src/lib.rt", {"lib": 2, "fhex": 2, "fhex-stream": 2}),
                       ("fhex_stream/src/main.rt", {"lib": 0, "fhex": 0, "fhex-stream": 2})):
        source = copy / "crates" / name
        text = source.read_text()
        source.write_text(text + "\n")
        for word, status in made.items():
            done = ran(make(word, top=copy), env=BY_SYSTEM)
            said = [it for it in done.stdout.splitlines() if not it.startswith("make: ")]
            assert done.returncode == status and len(said) == (status > 0), said
            assert all("`make generate`" in it for it in said)
        source.write_text(text)
    assert (copy / "out/fhex").exists() and not (copy / "out/fhex-stream").exists()


def test_what_is_wrong_with_generated(copy, tmp_path):
    """A changed file and a missing tool each give one line."""
    tools = "make sh dirname mkdir mv sed cat awk grep find sort xargs cc as ld"
    tools = only(tmp_path / "tools", {it: it for it in tools.split()})
    with (copy / "generated/x86-64.s").open("a") as file:
        file.write("\n")
    for env, line in (BY_SYSTEM, "not as PROVED says"), (tools, "there is no sha256sum"):
        done = ran(make("lib", top=copy), env=env)
        said = [it for it in done.stdout.splitlines() if not it.startswith("make: ")]
        assert done.returncode == 2 and len(said) == 1 and line in said[0], said


def test_clone_that_changes_line_ends(tmp_path):
    """Git for Windows makes such a clone by default."""
    needs_clone()
    runs(["git", "clone", "-q", "-c", "core.autocrlf=true", TOP, tmp_path / "clone"])
    assert "w/crlf" not in ran(["git", "ls-files", "--eol"], cwd=tmp_path / "clone").stdout
    runs(make("help", top=tmp_path / "clone"), env=BY_SYSTEM)


def test_tests_without_the_toolchain(copy, tmp_path):
    """Without pytest, and with a script in place of pytest."""
    env = only(tmp_path / "tools", {it: it for it in TOOLS.split()})
    for has_pytest in False, True:
        done = ran(make("test", top=copy), env=env)
        assert done.returncode == 0 and done.stdout.endswith("these take the Rattle toolchain\n"), done.stdout
        assert ("there is no pytest: " in done.stdout) == (not has_pytest)
        has_quick = {it.name for it in copy.glob("tests/test_*.py") if "mark.quick" in it.read_text()}
        given = {*re.findall(r"^given -q -m quick tests/(\S+)$", done.stdout, re.M)}
        assert given == (has_quick if has_pytest else set())
        for name in "pytest", "rt":
            (tmp_path / "tools" / name).write_text('#!/bin/sh\necho "given $*"\n')
        (tmp_path / "tools/pytest").chmod(0o755)
    (tmp_path / "tools/rt").chmod(0o755)
    said = [*runs(make("-n", "test", top=copy), env=env).splitlines()]
    assert " -m quick" in said[-3] and "rt ci" in said[-2] and "mutations --gate" in said[-1]


@pytest.mark.parametrize("place", ["own", "listed", "listed/crates.txt", "missing"])
def test_vendor_refuses(tmp_path, place):
    """It refuses if a crate or a line of crates.txt is the user's own, and if the folder does not exist."""
    own, listed = tmp_path / "own/crates/hex_core/src/mine.rt", tmp_path / "listed/crates.txt"
    mark = tmp_path / "own/crates/hex_core/.gitignore"
    for file, text in (own, ""), (mark, "out/\n"), (listed, "hex_codec: mine\n"):
        file.parent.mkdir(parents=True, exist_ok=True)
        file.write_text(text)
    done = ran(make("vendor", f"DIR={tmp_path / place}"))
    said = [it for it in done.stdout.splitlines() if not it.startswith("make")]
    assert done.returncode and len(said) == 1 and "vendor: " in said[0]
    assert {*(tmp_path / "own").rglob("*.*")} == {own, mark} and listed.read_text() == "hex_codec: mine\n"


def has_parts(crate):
    """Checks that a copied crate has the sources, the specs, the proofs and the license that are here."""
    for part in "src", "specs", "proofs":
        own = TOP / "crates" / crate.name / part
        files = {it.relative_to(own): it.read_bytes() for it in own.rglob("*") if it.is_file()}
        assert files == {it: (crate / part / it).read_bytes() for it in files}
    assert (crate / "LICENSE").read_bytes() == (TOP / "LICENSE").read_bytes()


def anchors(text):
    """The names by which links reach the headings of a page."""
    heads = re.findall(r"^#+ (.*)", text, re.M)
    return {re.sub(r"[^\w -]", "", it).strip().lower().replace(" ", "-") for it in heads}


def test_copies_of_vendor(tmp_path):
    """A copy with JSON, and then one without JSON in its place."""
    (tmp_path / "crates.txt").write_text("app: std")
    ours = (TOP / "crates.txt").read_text().splitlines()
    for json, last in ("yes", "faster_hex"), ("no", "hex_io"):
        runs(make("vendor", f"JSON={json}", f"DIR={tmp_path}"), out="", err="")
        listed = (tmp_path / "crates.txt").read_text().splitlines()
        names = ["hex_core", "hex_codec", "hex_io", *["faster_hex"] * (json == "yes")]
        assert listed == ["app: std", *(it for name in names for it in ours if it.startswith(f"{name}:"))]
        callers = {it.name: it.read_text() for it in tmp_path.glob(f"crates/{last}/*.*t")}
        assert callers == {f"{it.rpartition('/')[2]}.txt": (TOP / "crates/callers" / it).read_text() for it in CALLERS}
        found = {it.name: it.read_text() for it in tmp_path.glob(f"crates/{last}/*.md")}
        assert {*found} == PAGES
        for name, text in found.items():
            for path, part in re.findall(r"\]\((?!\w+://)([^)#]*)#?([^)]*)\)", text):
                to = path or name
                assert to in PAGES | {*callers} and (not part or part in anchors(found[to])), (name, path, part)
        told = (tmp_path / "crates" / last / "VERSION").read_text()
        assert re.fullmatch(rf"Bunkmedlar {VERSION}(, commit [0-9a-f]+(-dirty)?)?\n", told), told
        ignored = [it.read_text() for it in tmp_path.glob("crates/*/.gitignore")]
        assert ignored and all("\nout/\n" in it for it in ignored)
        assert {it.name for it in (tmp_path / "crates").iterdir()} == {*names}
        for crate in names:
            has_parts(tmp_path / "crates" / crate)
        (tmp_path / "crates/hex_core/of_the_user").touch()
    assert not (tmp_path / "crates/faster_hex").exists() and (tmp_path / "crates/hex_core/of_the_user").exists()
    assert "--no-json" in ran(make("-n", "vendor", "JSON=no")).stdout
    done = ran(make("vendor"))
    assert done.returncode == 2 and "DIR=FOLDER" in done.stdout and done.stdout.count("\n") <= 2


def test_copy_of_vendor_over_another(tmp_path):
    """A second copy keeps what `rt` has in out/, and the order of the lines of crates.txt."""
    runs(make("vendor", f"DIR={tmp_path}"))
    kept, listed = tmp_path / "crates/hex_core/out/kept", tmp_path / "crates.txt"
    kept.parent.mkdir()
    kept.touch()
    listed.write_text("app: std\n" + listed.read_text() + "last: hex_core\n")
    before = listed.read_text()
    runs(make("vendor", f"DIR={tmp_path}"))
    assert kept.exists() and listed.read_text() == before


def test_what_is_built_anew_and_what_is_cleaned(copy):
    how = {"env": BY_SYSTEM}
    generated = sorted(it.name for it in (copy / "generated").iterdir())
    runs(make(top=copy), **how)
    assert " -o " not in runs(make("-n", top=copy), **how)
    for pattern, names in SOURCES_OF.items():
        files = [*copy.glob(pattern)]
        assert files, pattern
        for file in files:
            before = file.stat().st_mtime
            os.utime(file, (before, time.time() + 9))
            said = runs(make("-n", top=copy), **how)
            assert all(f" -o out/{it}.$" in said for it in names.split()), file
            os.utime(file, (before, before))
    runs(make("clean", top=copy))
    assert not (copy / "out").exists() and generated == sorted(it.name for it in (copy / "generated").iterdir())
