"""A record vouches only for what was proved. The records are the files PROVED in generated/. Small programs stand for
the toolchain, because a proof would take long."""
import os
import re
import shutil
import subprocess
import time

import pytest

from commands import CHANGES, TOP, ran, runs

pytestmark = pytest.mark.quick
CORE = "crates/hex_core/src/lib.rt"
MARK = 'const MARK: &str = "{}";\n'
# What may happen to sources while they are proved: a change, a file that is there only for a while, and another script.
MEANWHILE = {it: text.format(CORE) for it, text in CHANGES.items()}
MEANWHILE |= {"added and removed": f"touch {CORE}.rt && rm {CORE}.rt", "edits": "echo exit 1 >scripts/checksum"}
# Makes a library, which is a folder with the marks that its proof has read: its own, and those of the libraries below,
# which are its input. At hex_core it runs what READ says between reading and writing, and then what WROTE says.
MAKES = """#!/bin/sh -eu
made=$1
text=$({ cat; sed -n 's/^const MARK: &str = "\\(.*\\)";$/\\1/p' src/*.rt; } | sort -u)
hook() { case $PWD in */hex_core) (cd "$TOP" && eval "$1") ;; esac; }
hook "${READ-}"
mkdir -p "$made"
echo "$text" >"$made/text"
hook "${WROTE-}"
"""
RT = """#!/bin/sh -eu
case $1 in
version) echo toolchain one ;;
doc) echo "$KIT/doc" ;;
check) echo 'logic=proved functions=1 incremental=trusted' ;;
lib)
    name=$(basename "$PWD")
    cat ../*/out/rlib/*/text 2>/dev/null | makes "out/rlib/$name.rlib" ;;
esac
"""
RATTLE = """#!/bin/sh -eu
tools=
for word; do
    case ${before-} in
    -o) made=$word ;;
    --toolchain) tools=$word ;;
    esac
    before=$word
done
for word; do
    [ ! -e "${word#*=}/text" ] || cat "${word#*=}/text"
done | makes "$made"
[ -z "$tools" ] || printf '\\t.file\\t"it"\\n\\t.ascii\\t"%s"\\n' $(tr '\n' . <"$made/text") >"$tools/made.s"
echo 'logic=proved functions=1'
"""
CLANG = "#!/bin/sh\necho clang version one\n"


def program(path, text):
    path.parent.mkdir(parents=True, exist_ok=True)
    path.write_text(text)
    path.chmod(0o755)


@pytest.fixture
def env(tmp_path, copy):
    """The environment in which the programs above are the toolchain, and hex_core has the mark `old`."""
    for name, text in {"rt": RT, "rattle": RATTLE, "makes": MAKES}.items():
        program(tmp_path / "bin" / name, text)
    program(tmp_path / "kit/toolchain/bin/clang", CLANG)
    (tmp_path / "kit/toolchain/lib").mkdir()
    with (copy / CORE).open("a") as file:
        file.write(MARK.format("old"))
    path = f"{tmp_path}/bin:{os.environ['PATH']}"
    return {**os.environ, "PATH": path, "KIT": f"{tmp_path}/kit", "TOP": f"{copy}"}


def hash_of(copy, *crates):
    return runs([copy / "scripts/checksum", *(crates or ("hex_core", "hex_codec", "faster_hex_c"))]).strip()


def vouches(folder):
    """The hash of the sources in a record, and the mark of the sources of which the assembly beside it was made."""
    record, assembly = (folder / "PROVED").read_text(), (folder / "x86-64-v3.s").read_text()
    return re.search("^sources (.*)", record, re.M)[1], re.search('"(.*)[.]"', assembly)[1]


@pytest.mark.parametrize("line", ["", r"\1\2"], ids=["removed", "cut"])
def test_assembly_that_proved_does_not_name(copy, line):
    """PROVED must name each file of its folder. A changed file is refused, also if its line is removed or lacks a digit
    of the hash."""
    file, record = copy / "generated/x86-64.s", copy / "generated/PROVED"
    file.write_text(file.read_text() + "\n")
    record.write_text(re.sub(r"(sha256 \w+)\w(  x86-64\.s\n)", line, record.read_text()))
    done = ran([copy / "scripts/check-generated", "generated"])
    assert done.returncode == 1 and "has the file x86-64.s" in done.stdout and done.stdout.count("\n") == 1
    assert ran([copy / "tests/header.sh"]).returncode == 1


OF_PROOFS = {CORE: "\n", "crates/hex_core/src/out/tables.rt": "//! Tables.\n", "HANDLES": "x", "crates.txt": ""}


@pytest.mark.parametrize("name", OF_PROOFS)
def test_hash_of_the_sources(copy, name):
    """It depends on all that a proof reads: a module with the name `out`, HANDLES, and the crate's line of crates.txt.
    It does not depend on lines of other crates, and on what commands made."""
    found = lambda: hash_of(copy, "hex_core", "hex_codec")
    before, path = found(), copy / name
    path.parent.mkdir(exist_ok=True)
    for own in "", "src":
        (copy / "crates/hex_core/out" / own).mkdir(parents=True)
        (copy / "crates/hex_core/out" / own / "made.rt").touch()
    with (copy / "crates.txt").open("a") as file:
        file.write("another: hex_core\n")
    assert found() == before
    text = path.read_text() if path.exists() else ""
    changed = text + OF_PROOFS[name] if OF_PROOFS[name] else text.replace("hex_codec: ", "hex_codec: serde_json ")
    path.write_text(changed)
    assert found() != before


# Pairs of texts with the same hash: they differ only in comments on lines of their own.
SAME = {
    "comment.rt": ("a();\n", "// why\na();\n    //why\n"),
    "document.rt": ("#[derive(Clone, Eq)]\nenum A {}\n", "//! What.\n/// What.\n#[derive(Clone, Eq)]\nenum A {}\n"),
    "after-clause.rt": ("fn a()\n    requires { b }\n{\n}\n", "fn a()\n    requires { b }\n{\n    // why\n}\n"),
    "after-text.rt": ('a("x\\\n    y");\nb();\n', 'a("x\\\n    y");\n// why\nb();\n'),
    "after-macro.rt": ('a!(")");\nfn b() {}\n', 'a!(")");\n/// What.\nfn b() {}\n'),
    "comment.antt": ("a = b\n", "-- why\na = b\n  --\n"),
}
# Pairs with another one: such a line is no comment, or somebody reads it, or it is not certain.
OTHER = {
    "text.rt": ('a("x\n// y\n");\n', 'a("x\n");\n'),
    "bytes.rt": ('a(b"x\\\n    // y");\n', 'a(b"x\\\n");\n'),
    "escape.rt": ('a("\\"x\n// y\n");\n', 'a("\\"x\n");\n'),
    "character.rt": ("a('\"');\nb(\"x\n// y\n\");\n", "a('\"');\nb(\"x\n\");\n"),
    "raw.rt": ('a(r"\\");\nb("x\n// y\n");\n', 'a(r"\\");\nb("x\n");\n'),
    "raw-hash.rt": ('a(r#""x\n// y\n"#);\n', 'a(r#""x\n"#);\n'),
    "behind.rt": ('a(); // say "\nb("x\n// y\n");\n', 'a(); // say "\nb("x\n");\n'),
    "block.rt": ("/*\n// */\na();\n/* */\n", "/*\na();\n/* */\n"),
    "nested.rt": ("/* /*\n// */\n*/\na();\n", "/* /*\n*/\na();\n"),
    "clause.rt": ("    ensures {\n        b\n        // c\n    }\n", "    ensures {\n        b\n    }\n"),
    "clause-comment.rt": ("    ensures { a -- }\n    // c\n    }\n", "    ensures { a -- }\n    }\n"),
    "clause-quote.rt": ('    ensures { a -- "\n    }\na("x\n// y\n");\n', '    ensures { a -- "\n    }\na("x\n");\n'),
    "named-clause.rt": ("    requires it\n    {\n    // c\n    }\n", "    requires it\n    {\n    }\n"),
    "ghost.rt": ("    ghost a: { b }\n    = {\n    // c\n    };\n", "    ghost a: { b }\n    = {\n    };\n"),
    "macro.rt": ("a!(\n    /// What.\n    b\n);\n", "a!(\n    b\n);\n"),
    "macro-of-text.rt": ('a!(")",\n    /// What.\n    b\n);\n', 'a!(")",\n    b\n);\n'),
    "macro-of-character.rt": ("a!(')',\n    /// What.\n    b\n);\n", "a!(')',\n    b\n);\n"),
    "macro-below.rt": ("a!(b) ) + c!(\n    /// What.\n);\n", "a!(b) ) + c!(\n);\n"),
    "macro-name.rt": ("a!\n(\n    /// What.\n);\n", "a!\n(\n);\n"),
    "derive.rt": ("/// What.\n#[derive(Error)]\nenum A {}\n", "#[derive(Error)]\nenum A {}\n"),
    "code.rt": ("a();\n", "a();\n\n"),
    "text.antt": ('a = "-- b"\n', 'a = "-- c"\n'),
    "block.antt": ("{-\n-- -}\na = b\n{- -}\n", "{-\na = b\n{- -}\n"),
    "name.antt": ("a =\n  --b\n", "a =\n"),
    "clause-words.antt": ("// b\n", ""),
}


@pytest.mark.parametrize("name", [*SAME, *OTHER])
def test_comments_have_no_part_in_the_hash(tmp_path, name):
    """A comment does not change the hash, but a line that might be no comment does. Every awk prints the same."""
    texts = [folder / name for folder in (tmp_path / "one", tmp_path / "two")]
    for path, text in zip(texts, (SAME | OTHER)[name]):
        path.parent.mkdir()
        path.write_text(text)
    for awk in (["mawk"], ["gawk"], ["original-awk"], ["busybox", "awk"], ["awk"]):
        if shutil.which(awk[0]):
            left = [runs([*awk, "-f", TOP / "scripts/uncommented.awk", name], cwd=path.parent) for path in texts]
            assert (left[0] == left[1]) == (name in SAME), left


def test_code_has_a_part_in_the_hash(copy):
    """Each line of the sources is in the text that is hashed, unless it is empty of code."""
    for path in sorted(copy.glob("crates/*/src/**/*.rt")) + sorted(copy.glob("crates/*/specs/**/*.antt")):
        kept = runs(["awk", "-f", copy / "scripts/uncommented.awk", path.name], cwd=path.parent).splitlines()[1:]
        code = [it for it in path.read_text().splitlines() if not re.match(" *(//|--( |$))", it)]
        assert [it for it in kept if not re.match(r"\t *(//|--( |$))", it)] == ["\t" + it for it in code]


@pytest.mark.parametrize("name", ["Facts'.antt", "two words.antt", 'a"b.rt', "a\nb.rt", "link.rt", "linked"])
def test_odd_names_and_links(tmp_path, copy, env, name):
    """They have no hash and no record: the prover would read what the hash does not."""
    path = copy / "crates/hex_core/specs" / name
    if "link" in name:
        path.symlink_to(tmp_path if name == "linked" else copy / "HANDLES")
    else:
        path.write_text("-- Facts.\n")
    done = ran([copy / "scripts/checksum", "hex_core"])
    assert done.returncode and "a link, or an odd name: hex_core/specs/" in done.stdout
    assert ran([copy / "scripts/check-generated", "generated"]).returncode
    assert ran([copy / "scripts/generate", tmp_path / "made"], env=env).returncode and not (tmp_path / "made").exists()


@pytest.mark.parametrize("tool", "find sort grep xargs awk sed sha256sum rt rattle makes".split())
def test_tool_that_dies(tmp_path, copy, env, tool):
    """If a tool fails after it has done its work, there is no hash, and no record is written."""
    program(tmp_path / "dies" / tool, f'#!/bin/sh\n{shutil.which(tool, path=env["PATH"])} "$@"\nexit 1\n')
    env["PATH"] = f"{tmp_path}/dies:{env['PATH']}"
    done = ran([copy / "scripts/checksum", "hex_core"], env=env)
    assert (done.returncode == 0) == (tool in ("rt", "rattle", "makes")), done.stdout
    for words in [], ["--anew"]:
        done = ran([copy / "scripts/generate", *words, tmp_path / "made"], env=env)
        assert done.returncode and not (tmp_path / "made").exists(), done.stdout


@pytest.mark.parametrize("names", [[], ["nosuch"], ["hex_core", "nosuch"], ["hex"]])
def test_hash_of_no_crate(copy, names):
    done = ran([copy / "scripts/checksum", *names])
    assert done.returncode and not re.search("^[0-9a-f]{64}$", done.stdout, re.M)


@pytest.mark.parametrize("change", MEANWHILE)
def test_sources_that_are_changed_meanwhile(tmp_path, copy, env, change):
    """The record is of the sources as they were when the run began, because only these are proved."""
    before = hash_of(copy)
    runs([copy / "scripts/generate", tmp_path / "made"], env={**env, "READ": MEANWHILE[change]})
    assert vouches(tmp_path / "made") == (before, "old")


def test_toolchain_that_is_changed_meanwhile(tmp_path, copy, env):
    change = "sed -i s/one/two/ $KIT/../bin/rt"
    done = ran([copy / "scripts/generate", tmp_path / "made"], env={**env, "READ": change})
    assert done.returncode and "another toolchain" in done.stdout and not (tmp_path / "made").exists()


def test_two_runs_at_once(tmp_path, copy, env):
    """Each record is of what its own run has proved. The first run has read the old sources before the second one
    begins, and makes its library of them while the second one is between two crates."""
    waits = "touch {0} && until [ -e {1} ]; do sleep 0.1; done"
    before, words = hash_of(copy), [copy / "scripts/generate"]
    reads, writes = {"READ": waits.format("read", "wrote")}, {"WROTE": waits.format("wrote", "done")}
    with subprocess.Popen([*words, tmp_path / "first"], env={**env, **reads}) as first:
        while not (copy / "read").exists():
            time.sleep(0.1)
        (copy / CORE).write_text((copy / CORE).read_text().replace(MARK.format("old"), MARK.format("new")))
        with subprocess.Popen([*words, tmp_path / "second"], env={**env, **writes}) as second:
            is_first_done = first.wait() == 0
            (copy / "done").touch()
            assert second.wait() == 0
    assert vouches(tmp_path / "second") == (hash_of(copy), "new")
    assert not is_first_done or vouches(tmp_path / "first") == (before, "old")


@pytest.mark.parametrize("words", [[], ["--anew"]])
def test_proofs_from_nothing(tmp_path, copy, env, words):
    """The record says whether a proof began with an earlier one, and names the command by which none does."""
    runs([copy / "scripts/generate", *words, tmp_path / "made"], env=env)
    for path in (tmp_path / "made").rglob("PROVED"):
        text, line = path.read_text(), path.read_text().splitlines()[1]
        assert line.endswith("scripts/generate --anew" + " proves from nothing" * (not words))
        assert line.startswith("proved from nothing by") == bool(words) == ("incremental=trusted" not in text)


def test_variables_that_leave_tests_out(tmp_path, copy):
    """`make` does not pass the options of pytest on that the environment has."""
    program(tmp_path / "bin/pytest-3", '#!/bin/sh\necho "with ${PYTEST_ADDOPTS-no} options"\n')
    env = {"PATH": f"{tmp_path}/bin:/usr/bin:/bin", "PYTEST_ADDOPTS": "--collect-only"}
    for words in ["-o", "all", "check"], ["-o", "test-c", "test"]:
        said = runs(["make", "-s", "-C", copy, *words], env=env)
        assert "with no options" in said and "collect-only" not in said


def test_record_that_was_just_made(tmp_path, copy, env):
    """The record of each folder fits the sources of which it was made."""
    runs([copy / "scripts/generate"], env=env)
    for folder in copy.glob("generated/**/PROVED"):
        runs([copy / "scripts/check-generated", folder.parent.relative_to(copy)], out="", err="")
