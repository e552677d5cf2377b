"""scripts/mutations with a small crate.

- Wrong bodies are refused, even if one mutation writes a text that another one replaces.
- A right body among them is reported as missed, even if a function that it calls or one of the same name is wrong. A
  wrong body that a weak contract allows is missed too.
- A mutation that can't be compiled or applied is an error. So is one that is refused only because a name is missing,
  even if the message has two lines.
- A test that fails notices a mutation, and must not fail without one."""
import os
import re
import shutil

import pytest

from commands import OF_PROOFS, copied, needs, ran

HEAD = """//! Functions with bodies to be put out.
#![tactic(auto)]

ghost use Rattle.std.specs.Prelude.{◌≡◌, ◌+◌, ◌*◌, ◌≤◌};

pub mod sizes;

const LARGEST: u8 = 10;
"""
FUNCTION = "\npub fn {}\n    ensures {{ {} }}\n{{\n    {}\n}}\n"
# A function whose proof uses the name of a local variable.
NAMING = """
pub fn {0}(x: u8) -> u32
    ensures {{ result ≡ x + x + (x + x) }}
{{
    let {1} = doubled(x);
    2 * u32::from({1})
}}
"""
ANSWER = """use Rattle.std.proofs.Common.{{arith}}
use Rattle.tiny.proofs.{0}.Goals as goal

pub returns : goal.returns
returns c = omega (arith, c.doubled-{1}.ensures)
"""
NAMED = ("fourfold", "twice"), ("fourfold_by_doubling_the_double_of_a_byte_that_is_handed_in", "double")
MODULE = """//! Sizes.

ghost use Rattle.std.specs.Prelude.{◌≤◌};

pub trait Small {
    fn size(&self) -> u8
        ensures { result ≤ 5 };
}
"""
METHOD = "\npub struct {0};\n\nimpl Small for {0} {{\n    fn size(&self) -> u8 {{\n        {1}\n    }}\n}}\n"
FUNCTIONS = [
    FUNCTION.format("doubled(x: u8) -> u16", "result ≡ x + x", "u16::from(x) + u16::from(x)"),
    FUNCTION.format("at_most_ten(x: u8) -> u8", "result ≤ 10", "x.min(LARGEST)"),
    FUNCTION.format("twice_doubled(x: u8) -> u16", "result ≡ 4 * x", "doubled(x) + doubled(x)"),
    FUNCTION.format("five() -> u8", "result ≡ 5", "5"),
    FUNCTION.format("six() -> u8", "result ≡ 6", "6"),
    *(NAMING.format(*names) for names in NAMED),
]
# Each mutation: its sentence, the old text, the new text, and how its result begins. They are tried in this order. A
# list that can't be read is halved, so the first two stay in one check. Methods with the same name are tried
# separately.
PROVED = "missed: tiny: {}: each goal of .* is still proved$"
REFUSED = "refused: tiny: {}: (?!alone: )"
LOST = "error: tiny: {}: it is refused only since names are gone"
EDIT = "right over a wrong one", "doubled(x) + doubled(x)", "2 * doubled(x)", PROVED
AT_EVERY_COMMIT = [("half is lost", "u16::from(x) + u16::from(x)", "u16::from(x)", REFUSED)]
OTHERS = [
    ("a name is lost", "let twice =", "let twice = 0u16; let _ =", LOST),
    ("a name is lost in two lines", "let double =", "let double = 0u16; let _ =", LOST),
    ("can not be applied", "x.max(LARGEST)", "x", "error: tiny: {}: .* must have .* once, and has it 0 times"),
    ("five is six", "    5", "    6", REFUSED),
    ("is let through", "x.min(LARGEST)", "x.min(9)", PROVED),
    ("six is seven", "    6", "    7", REFUSED),
    ("the largest is larger", "LARGEST: u8 = 10", "LARGEST: u8 = 11", "refused: tiny: {}: alone: "),
    ("unknown to the compiler", "x.min(LARGEST)", "x.least()", "error: tiny: {}: it can't be read"),
]
IN_A_MODULE = [
    ("one is large", "        1", "        9", REFUSED),
    ("one is right beside its namesake", "        3", "        4", PROVED),
]
# A test of the crate, and mutations with the results of trying them by it.
OF_TINY = """//! A test.
#![tactic(auto)]

#[test]
fn five_is_five(rt: HostRuntime) {
    assert_eq!(rt; tiny::five(), 5);
}
"""
BY_TESTS = [
    ("five is six", "    5", "    6", "noticed: tiny: {}: five_is_five in test_tiny fails$"),
    ("six is seven", "    6", "    7", "missed: tiny: {}: no test fails$"),
]


def table_of(heading, file, mutations):
    """A part of a table of mutations, with one heading."""
    parts = [f"{sentence}\n-{old}\n+{new}\n" for sentence, old, new, _ in mutations]
    return "".join([f"# {heading}\nfile src/{file}\n", *parts])


@pytest.fixture(scope="module")
def top(tmp_path_factory):
    """A repository with a small crate and its mutations."""
    top = tmp_path_factory.mktemp("repository")
    own = top / "crates/tiny"
    texts = {top / "crates.txt": "tiny:\n", top / "HANDLES": "Handles allowed: none.\n"}
    texts[own / "src/lib.rt"] = HEAD + "".join(FUNCTIONS)
    texts[own / "src/sizes.rt"] = MODULE + METHOD.format("One", 1) + METHOD.format("Many", 3)
    texts |= {own / f"proofs/{names[0]}/Answers.antt": ANSWER.format(*names) for names in NAMED}
    tables = [table_of("The prover refuses, at every commit", "lib.rt", AT_EVERY_COMMIT)]
    for file, mutations in ("lib.rt", [EDIT, *OTHERS]), ("sizes.rt", IN_A_MODULE):
        tables.append(table_of("The prover refuses", file, mutations))
    texts[own / "mutations"] = "\n".join(tables)
    for path, text in texts.items():
        path.parent.mkdir(parents=True, exist_ok=True)
        path.write_text(text, encoding="utf-8")
    copied(["scripts/mutations", "scripts/repository.py"], top)
    return top


def tries(top, *words):
    """The result of scripts/mutations for a repository. It has its own folder for temporary files."""
    room = top / "room"
    room.mkdir(exist_ok=True)
    done = ran([top / "scripts/mutations", *words], env={**os.environ, "TMPDIR": str(room)}, timeout=OF_PROOFS)
    assert not any(room.iterdir()) and not (top / "crates/tiny/out").exists()
    return done


@pytest.fixture(scope="module")
def all_tried(top):
    needs("rt")
    return tries(top)


@pytest.mark.parametrize("sentence, said", [(it[0], it[3]) for it in (EDIT, *AT_EVERY_COMMIT, *OTHERS, *IN_A_MODULE)])
def test_each_is_told(all_tried, sentence, said):
    assert re.search(f"^{said.format(sentence)}", all_tried.stdout, re.M), all_tried.stdout


def test_they_are_counted(all_tried):
    assert re.search("^tiny: 5 of 12 refused, ", all_tried.stdout, re.M)
    end = r"\n\d+ s of processor; left out: 0 other mutations, .*\n5 passed, 7 failed\n$"
    assert re.search(end, all_tried.stdout) and all_tried.returncode == 1


def test_the_gate_tries_the_first_alone(top):
    needs("rt")
    done = tries(top, "--gate")
    end = r"\n\d+ s of processor; left out: 11 other mutations, .*\n1 passed, 1 failed\n$"
    assert re.search(rf"^tiny: 1 of 1 refused, \d+ s of processor{end}", done.stdout, re.M), done.stdout
    assert done.stdout.startswith("error: tiny: can not be applied: ") and done.returncode == 1


@pytest.mark.parametrize("is_right", [True, False])
def test_what_tests_notice(top, tmp_path, is_right):
    needs("rt")
    shutil.copytree(top, tmp_path, dirs_exist_ok=True)
    (tmp_path / "crates.txt").write_text("tiny:\ntest_tiny: tiny\n")
    (tmp_path / "crates/tiny/mutations").write_text(table_of("Tests notice", "lib.rt", BY_TESTS))
    (tmp_path / "crates/test_tiny/src").mkdir(parents=True)
    (tmp_path / "crates/test_tiny/src/lib.rt").write_text(OF_TINY if is_right else OF_TINY.replace("5)", "4)"))
    done = tries(tmp_path)
    if is_right:
        assert all(re.search(f"^{said.format(sentence)}", done.stdout, re.M) for sentence, *_, said in BY_TESTS)
    else:
        assert done.stdout == "mutations: five_is_five in test_tiny fails without a mutation too\n"
    assert done.returncode == 1


def test_a_word_names_some(top):
    done = tries(top, "seven is six")
    assert done.stdout.count("\n") == 1 and "'seven is six'" in done.stdout and done.returncode == 1


def test_a_table_is_read_whole(top, tmp_path):
    shutil.copytree(top, tmp_path, dirs_exist_ok=True)
    with (tmp_path / "crates/tiny/mutations").open("a") as table:
        table.write("takes nothing away\n+    6\n")
    done = tries(tmp_path)
    assert done.stdout == "mutations: crates/tiny/mutations: cannot read the line 'takes nothing away'\n"


def test_none_to_try(top, tmp_path):
    """It fails if there is nothing to try, as for a crate that has none in the gate."""
    shutil.copytree(top, tmp_path, dirs_exist_ok=True)
    for text in table_of("The prover refuses", "sizes.rt", IN_A_MODULE), "":
        (tmp_path / "crates/tiny/mutations").write_text(text)
        done = tries(tmp_path, "--gate")
        assert done.returncode == 1 and done.stdout == "mutations: there is no mutation to try\n"


def test_the_gate_is_of_its_own_repository(tmp_path, copy):
    """No variable of the environment names another one, in which there may be nothing to try. A program that can read
    no mutation stands for `rt`."""
    (tmp_path / "rt").write_text("#!/bin/sh\necho src/lib.rt:1:1: error: unread\nexit 1\n")
    (tmp_path / "rt").chmod(0o755)
    (tmp_path / "crates.txt").touch()
    env = {"PATH": f"{tmp_path}:{os.environ['PATH']}", "MUTATIONS_TOP": f"{tmp_path}"}
    done = ran([copy / "scripts/mutations", "--gate"], env={**os.environ, **env})
    assert done.returncode == 1 and re.search("\n0 passed, [1-9][0-9]* failed\n$", done.stdout)
