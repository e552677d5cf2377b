"""Our Rust crate in place of faster-hex 1.0.0. RUST names a checkout of that crate. Its own tests and examples must
pass with our crate, without those of the features heapless-08 and defmt-03, which our crate does not have. Both crates
are also compared on random inputs: ROUNDS is their number, and SEED makes them repeatable."""
import os
import re
import shutil
from pathlib import Path

import pytest

from commands import TOP, passes
from packages import OF_SERDE, lacking, needs_crates, packed, without

CHECKOUT = os.environ.get("RUST") and Path(os.environ["RUST"]).absolute()
RANDOM = [os.environ.get("ROUNDS") or "20000", os.environ.get("SEED") or "1"]
# Texts by which a test file that needs crates is recognized, and the crates.
WANTS = {"proptest": ["proptest"], "hex::encode": ["hex"], '#![cfg(feature = "serde")]': OF_SERDE}


def files_of_tests():
    """The texts of the checkout's test files, by their paths. One file may have several, each below a line with its
    name."""
    files = sorted((CHECKOUT / "tests").rglob("*.rs")) if CHECKOUT else ()
    whole = "".join(f"// = {it.name} =\n{it.read_text()}\n" for it in files)
    pieces = re.split(r"(?:^// =+ \S*\.rs =+\n)*^// =+ (\S*\.rs) =+\n", whole, flags=re.M)
    return dict(zip(pieces[1::2], pieces[2::2])) or {"none": ""}


FILES = files_of_tests()


@pytest.fixture(scope="module")
def swap(tmp_path_factory, cargo):
    """A copy of tests/swap in a package, without the crates that are not installed."""
    if not CHECKOUT:
        pytest.skip("RUST names no checkout of faster-hex 1.0.0")
    assert (CHECKOUT / "src/decode.rs").is_file(), f"{CHECKOUT} is no checkout of faster-hex 1.0.0"
    top, lacks = packed(tmp_path_factory.mktemp("swap")), lacking(["proptest", "hex"])
    shutil.copytree(TOP / "tests/swap", top / "tests/swap")
    (top / "checkout").symlink_to(CHECKOUT)
    if lacking(OF_SERDE):
        lacks += ["serde", "serde_json", "postcard"]
    for name in "tests", "original":
        without(top / "tests/swap" / name / "Cargo.toml", lacks)
    (top / "tests/swap/tests/tests").mkdir()
    return top / "tests/swap"


@pytest.mark.parametrize("path", FILES)
def test_its_own_tests(swap, cargo, path):
    if path.startswith("src/"):
        pytest.skip(f"{path} names private items")
    if path == "none":
        pytest.skip(f"{CHECKOUT} has no tests")
    needs_crates(*(it for text in WANTS if text in FILES[path] for it in WANTS[text]))
    (swap / "tests/tests" / Path(path).name).write_text(FILES[path])
    passes([*cargo, "test", "--release", "--test", Path(path).stem], cwd=swap / "tests")


def test_its_own_examples(swap, cargo):
    passes([*cargo, "test", "--doc", "--no-fail-fast"], cwd=swap / "original")


def test_both_beside_one_another(swap, cargo):
    needs_crates(*OF_SERDE)
    passes([*cargo, "run", "--release", "--", *RANDOM], cwd=swap / "beside")
