"""Runs the examples, `fhex decode` and `fhex vectors` with an allocation that fails: each one in turn, but only two of
those of `vectors`. It takes some minutes. A growth is an allocation or a reallocation. The runs count them from 1."""
import re

import pytest

from commands import TOP, ran, runs

# The examples that make the four calls that allocate.
FOUR = r"(faster_hex_lib::lib|(faster_hex_(option_)?modules|long)::(option_)?(with|no)pfx_[a-z]*)_example"
# A test with the same four calls for many bytes. Where a module has options, a call that writes none comes before them.
LONG = """
#[test]
fn {0}_example(rt: HostRuntime) -> Result<(), Fail> {{
    let bytes = [0xab; 150_000];
    {1}let value = {0}::serialize(rt.alloc(), {2})?;
    let _ = {0}::deserialize(rt.alloc(), &value)?;
    let _ = {0}::deserialize_bounded::<150_000>(rt.alloc(), &value)?;
    let _ = {0}::array::serialize(rt.alloc(), {2})?;
    Ok(())
}}
"""
NONE = "let _ = {0}::serialize(rt.alloc(), None)?;\n    "
NAMES = [f"{prefix}_{case}" for prefix in ("withpfx", "nopfx") for case in ("ignorecase", "lowercase", "uppercase")]
TEST = r"^#\[test\]\nfn (\w+)\("
WANT = "^ *(error|left): .*(OutOfMemory|AllocError|out of memory)"


@pytest.fixture(scope="module")
def examples(tmp_path_factory):
    """The crate of the examples, with tests of long texts added."""
    made = tmp_path_factory.mktemp("examples") / "made"
    runs([TOP / "scripts/examples", "--write", made])
    source = made / "crates/doc_examples/src"
    long = "".join(LONG.format(it, "", "&bytes") for it in NAMES)
    for name in (f"option_{it}" for it in NAMES):
        long += LONG.format(name, NONE.format(name), "Some(&bytes)")
    (source / "long.rt").write_text(f"//! Long texts.\n\nuse faster_hex::*;\nuse std::test::Fail;\n{long}")
    with (source / "lib.rt").open("a") as root:
        root.write("#[cfg(test)]\nmod long;\n")
    return source


def is_refused(name, growth, passes, told):
    """Whether an example failed for want of memory. If it did, its error or its assertion must say so, and otherwise it
    must pass. The examples of FOUR make four calls with one growth each, so they must fail exactly if one of the first
    four growths fails, with the error of that call. This also shows that `null` is written and read without a
    growth."""
    refused = re.search(WANT, told, re.M)
    # A program ends with the status 3 if there is no memory.
    if re.search("::serve(_stream)?_example$", name):
        refused = refused or re.search("^ *left: 3$", told, re.M)
    if re.fullmatch(FOUR, name):
        refused = growth <= 4 and re.search(r"^ *error: Codec\(OutOfMemory\)$", told, re.M)
        passes = growth > 4 and passes
    # The examples of the refusing allocator itself may end in another way.
    assert passes or refused or name.startswith("test_kit_refusing"), f"{name}, growth {growth}: {told}"
    return bool(refused)


def test_examples(examples):
    texts = {it.stem: it.read_text() for it in examples.glob("*.rt")}
    every = {f"{module}::{name}" for module in texts for name in re.findall(TEST, texts[module], re.M)}
    assert any(re.fullmatch(FOUR, it) for it in every)
    for growth in range(1, 31):
        said = ran(["rt", "try", "--test", "--fail-alloc", f"{growth}"], cwd=examples.parent).stdout
        tests = said.partition("\ntest result:")[0]
        tests = re.split(r"^test (\S+) \.\.\. (ok|FAILED)$", tests, flags=re.M)
        assert {*tests[1::3]} == every, said
        each = zip(tests[1::3], tests[2::3], tests[3::3])
        if not sum(is_refused(name, growth, end == "ok", told) for name, end, told in each):
            break


def wants_memory(word, growth, given, answer, status=0):
    """Whether fhex fails for want of memory if a growth fails. It must say so, or else give its usual answer."""
    tried = ["rt", "try", "--fail-alloc", f"{growth}", "--", word]
    done = ran(tried, cwd=TOP / "crates/fhex", input=given)
    wants = done.returncode == 3 and bool(re.search("^out of memory", done.stdout, re.M))
    assert wants or done.returncode == status and answer in done.stdout, f"growth {growth}: {done.stdout}"
    return wants


def test_fhex_decode():
    """It can do without some growths. After three failures in a row that it survived, there are no more growths to
    fail."""
    found = []
    while len(found) < 3 or any(found[-3:]):
        found.append(wants_memory("decode", len(found) + 1, "68656c6c6f\n", "hello"))
    assert any(found)


def test_fhex_vectors_and_a_wrong_word():
    """The growths 9 and 14 of `vectors` are for its lines and a list, and it needs each of them. A word that names
    nothing is read with six growths, and there is no seventh for a buffer."""
    assert all(wants_memory("vectors", growth, "", "total ") for growth in (9, 14))
    assert not wants_memory("Encode", 7, "", "usage: fhex ", 2)
