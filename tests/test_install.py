"""What `make install` installs and `make uninstall` removes, and the commands of README.md. See also test_pack.py."""
import hashlib
import os
import re

import pytest

from commands import (ARM_CC, BY_RUST, BY_SYSTEM, HELLO, INSTALLED, PRINTED, SHARED, TOP, VERSION, WINDOWS_CC, copied,
                      has_files, make, needs, only, own_files, ran, runs)

pytestmark = pytest.mark.quick
# The tools that `make install` may use. None of them builds anything.
TOOLS = "sh make date dirname sed cat awk rm mv ln mkdir rmdir find sort xargs grep install sha256sum env uname"
# The files of the programs in README.md.
FILES = {"c": "digits.c", "rust": "src/main.rs"}
# Prefixes with which `make install` fails: an empty one, and places that the test makes. The value says whether
# `make uninstall` fails too.
FAILING = {"": True, "file/there": False, "half": False, "taken": True}


@pytest.fixture(scope="module")
def top(tmp_path_factory):
    """A copy of the repository in which everything is built."""
    top = copied(own_files(), tmp_path_factory.mktemp("top") / "a copy")
    runs(make(top=top), env=BY_SYSTEM)
    return top


@pytest.fixture(scope="module")
def env(tmp_path_factory):
    return only(tmp_path_factory.mktemp("bin") / "tools", {it: it for it in TOOLS.split()})


def files_below(folder):
    return [it for it in folder.rglob("*") if not it.is_dir()]


@pytest.mark.parametrize("word", [[], ["DESTDIR="]])
def test_files_that_anybody_may_read(tmp_path, top, env, word):
    there = tmp_path / "bl ank"
    how = {"preexec_fn": lambda: os.umask(0o077), "env": env}
    runs(make("install", f"PREFIX={there}", *word, top=top), out="", err="", **how)
    has_files(there, INSTALLED)
    programs = there / "bin/fhex", there / "bin/fhex-stream", there / "lib" / SHARED[2]
    found = {it: it.stat().st_mode & 0o777 for it in there.rglob("*") if not it.is_symlink()}
    assert found == {it: 0o755 if it.is_dir() or it in programs else 0o644 for it in found}
    for program in "fhex", "fhex-stream":
        runs([there / "bin" / program, "encode"], out=HELLO, input="hello")
    runs(make("uninstall", f"PREFIX={there}", *word, top=top), out="", err="", env=env)
    assert not files_below(there)


def test_pages_that_stand_alone(tmp_path, top, env):
    """No link of an installed page leads to a file that is not installed."""
    runs(make("install", f"PREFIX={tmp_path}", top=top), env=env)
    pages = [*tmp_path.rglob("*.md")]
    for page in pages:
        links = re.findall(r"\]\((?!\w+://)([^)#]+)[^)]*\)", page.read_text())
        assert not [it for it in links if not (page.parent / it).resolve().exists()], page
    assert pages


def test_files_that_pages_cite(tmp_path, top, env):
    """Installed pages, headers and doc comments name no file of the repository that is not installed."""
    runs(make("install", f"PREFIX={tmp_path}", top=top), env=env)
    crate = tmp_path / "share/faster_hex/rust"
    kinds = "include/*", "share/man/*/*", "share/**/*.md", "share/**/*.rs"
    for page in (page for kind in kinds for page in tmp_path.glob(kind)):
        text = page.read_text()
        if page.suffix == ".rs":
            text = "\n".join(re.findall("//[!/].*", text))
        found = re.findall(r"(?<![\w/])(?:docs|tests|bench|scripts|crates|generated)/[\w./-]*\w", text)
        found += re.findall(r"README of the \w* ?repository", text)
        assert not [it for it in found if not (crate / it).exists()], page


def test_archive_that_was_checked(tmp_path, top):
    """The command in security.md compares the archive that was built with the record of the machine code."""
    command, = re.findall("^grep .*", (TOP / "docs/security.md").read_text(), re.M)
    sum_, record = hashlib.sha256((top / "out/libfaster_hex.a").read_bytes()).hexdigest(), tmp_path / "SHOWN"
    for line, is_same in (f"file sha256 {sum_}\n", True), (f"sha256 {sum_}  out/libfaster_hex.a\n", False):
        record.write_text(line)
        done = ran(["sh", "-c", command.replace("../generated/SHOWN", f"{record}")], cwd=top / "tests")
        assert (done.returncode == 0, done.stdout) == (is_same, "the same archive\n" * is_same)


def test_library_of_copied_files(tmp_path):
    """packaging.md names all files of the C library, and the commands that build it into programs in C and C++."""
    text = (TOP / "docs/packaging.md").read_text()
    told = re.search(r"^- Without installing: copy (.*?) with their folders .* These are (\d+) files "
                     ".* Then `(cc .*?)`", text, re.M)
    files = [it.relative_to(TOP) for pattern in re.findall("`(.*?)`", told[1]) for it in TOP.glob(pattern)]
    assert len(files) == int(told[2]) and "LICENSE" in map(str, files)
    assert f"[{told[2]} files](docs/packaging.md#use-it)" in (TOP / "README.md").read_text()
    copied(files, tmp_path)
    (tmp_path / "prog.c").write_text((TOP / "examples/c/digits.c").read_text())
    runs(told[3].split(), cwd=tmp_path)
    runs([tmp_path / "a.out"], out=PRINTED)
    steps = re.search(r"^- Without installing, in C\+\+: .* `(cc .*?)`.* `(c\+\+ .*?)`", text, re.M).groups()
    needs("c++")
    (tmp_path / "prog.cpp").write_text((TOP / "examples/cpp/digits.cpp").read_text())
    (tmp_path / "a.out").unlink()
    for step in steps:
        runs(step.split(), cwd=tmp_path)
    runs([tmp_path / "a.out"], out=PRINTED)


def test_files_of_others(tmp_path, top, env):
    """They stay, even in the library's own folders. All other folders of the library are removed."""
    there = ["PREFIX=/usr", f"DESTDIR={tmp_path}"]
    for keeps in False, True:
        runs(make("install", *there, top=top), env=env)
        foreign = [it / "foreign" for it in (tmp_path, *tmp_path.rglob("*")) if keeps and it.is_dir()]
        for file in foreign:
            file.touch()
        runs(make("uninstall", *there, top=top), out="", err="", env=env)
        assert {*files_below(tmp_path)} == {*foreign}
        assert any(tmp_path.rglob("*/faster_hex")) == keeps


def test_what_was_built_last(tmp_path, copy):
    """`make install` installs what was built last. For Windows it installs nothing, and a line says what does."""
    needs(ARM_CC, WINDOWS_CC)
    there = tmp_path / "there"
    runs(make("lib", f"CC={ARM_CC}", "CFLAGS=-O1", top=copy), env=BY_SYSTEM)
    done = ran(make("install", f"CC={WINDOWS_CC}", f"PREFIX={there}", top=copy), env=BY_SYSTEM)
    assert done.returncode == 2 and "CMake installs" in done.stdout and done.stdout.count("\n") == 1
    assert not there.exists()
    done = ran(make("install", f"PREFIX={there}", top=copy), env=BY_SYSTEM)
    assert done.returncode == 0 and re.fullmatch("make install: .* for aarch64 and not for .*\n", done.stdout)
    assert "AArch64" in ran(["readelf", "-h", there / "lib" / SHARED[2]]).stdout
    assert "CFLAGS = -O1\n" in (copy / "out/built").read_text()
    done = ran(make("lib", "TARGET=aarch64", "CC=cc", top=copy), env=BY_SYSTEM)
    assert done.returncode == 2 and done.stdout.count("\n") == 1


def test_upgrade(tmp_path, top, env):
    (tmp_path / "lib").mkdir()
    (tmp_path / "lib/libfaster_hex.so.1.0.9").touch()
    runs(make("install", f"PREFIX={tmp_path}", top=top), env=env)
    has_files(tmp_path, INSTALLED)


@pytest.mark.parametrize("prefix", FAILING)
def test_failure(tmp_path, top, prefix):
    """It fails with one line."""
    (tmp_path / "taken/bin/fhex").mkdir(parents=True)
    (tmp_path / "half").mkdir()
    for name in "file", "half/lib":
        (tmp_path / name).touch()
    there = prefix and f"{tmp_path / prefix}"
    told = {"DESTDIR": "", "VERSION": VERSION, "OUT": "out", "PROGRAMS": "fhex", "PREFIX": there}
    for words, is_refused in ([], True), (["--remove"], FAILING[prefix]):
        done = ran([top / "scripts/install.sh", *words], env={**os.environ, **told}, stderr=-1)
        assert (done.returncode > 0, done.stderr.count("\n"), done.stdout) == (is_refused, is_refused, "")
    assert (tmp_path / "half/lib").is_file() and (tmp_path / "taken/bin/fhex").is_dir()


def test_folders_of_files():
    """packaging.md has a row for each folder into which a file is installed, and a file of each row is installed."""
    text = (TOP / "docs/packaging.md").read_text().partition("## Where the files go")[2].partition("\n## ")[0]
    rows = re.findall(r"^(.*) \| `(\w+)(?:/(.*))?`$", text, re.M)
    folders = {"/".join(filter(None, ({"PREFIX": "", "LIBDIR": "lib"}[top], below))) for _, top, below in rows}
    crate = "share/faster_hex/rust"
    found = {it.rpartition("/")[0] for it in INSTALLED}
    assert folders == {crate if it.startswith(crate) else it for it in found}
    named = {it for files, *_ in rows for it in re.findall("`([^`*]+)`", files)}
    known = {it.rpartition("/")[2] for it in INSTALLED} | {it.removeprefix(crate + "/") for it in INSTALLED}
    assert not [it for it in named if it not in known and not any(file.startswith(it.rstrip("/")) for file in known)]


def test_readme(tmp_path, top):
    """Writes the programs and runs the commands of README.md. Each section runs in a folder of its own beside the
    clone. Each command must print what its comment says."""
    needs("pkg-config", "cargo")
    (tmp_path / "bunkmedlar").symlink_to(top)
    text = (TOP / "README.md").read_text().replace("$HOME", f"{tmp_path}")
    for at, part in enumerate(re.split("\n##+ ", text)):
        exports, own = "set -e\n" + "\n".join(re.findall("^export .*", part, re.M)) + "\n", tmp_path / f"{at}"
        (own / "src").mkdir(parents=True)
        for kind, block in re.findall(r"^```(\w+)\n(.*?)^```$", part, re.M | re.S):
            if kind in FILES:
                (own / FILES[kind]).write_text(block)
            for line in block.splitlines() if kind == "sh" else ():
                words, _, told = (it.strip() for it in line.partition("  # "))
                done = ran(["bash", "-c", exports + words], cwd=own)
                assert done.stdout.strip().splitlines()[-1:] == [told] if told else done.returncode == 0, done.stdout


def commands_of(page):
    return re.search(r"^```sh\n(.*?)^```$", (TOP / page).read_text(), re.M | re.S)[1]


def test_commands_of_examples(top):
    needs("c++", "cargo")
    said = runs(["bash", "-ec", commands_of("examples/README.md")], cwd=top)
    assert said.endswith(PRINTED + PRINTED + BY_RUST)


def test_commands_of_packaging(tmp_path, top):
    runs(["bash", "-ec", commands_of("docs/packaging.md").replace("$HOME", f"{tmp_path}")], cwd=top)
    has_files(tmp_path / ".local", INSTALLED)


def test_prefix_that_is_relative(tmp_path, top, env):
    """A relative prefix counts from the repository, and installed files have no double slashes."""
    words, there = ["PREFIX=some//where/", f"DESTDIR={tmp_path}"], tmp_path / f"{top}/some/where"[1:]
    runs(make("install", *words, top=top), env=env)
    has_files(there, INSTALLED)
    assert f"prefix={top}/some/where\n" in (there / "lib/pkgconfig/faster_hex.pc").read_text()
    runs(make("uninstall", *words, top=top), env=env)
    assert not files_below(tmp_path)
