"""Tests of commands.py and packages.py: a command that does not end, tools in other places, and a crate whose
dependency is missing."""
import time

import pytest

from commands import CARGO, needs, only, ran
from packages import REGISTRY, lacking, needs_crates

pytestmark = pytest.mark.quick


def test_command_that_does_not_end():
    """It is killed together with what it started, which keeps its output open."""
    start = time.monotonic()
    with pytest.raises(pytest.fail.Exception, match="did not end within 1 s"):
        ran(["sh", "-c", "echo begun; sleep 60 & wait"], timeout=1)
    assert time.monotonic() - start < 30


def test_where_rust_is(tmp_path, monkeypatch):
    """It may be in another place than HOME."""
    for name in "RUSTUP_HOME", "CARGO_HOME":
        monkeypatch.setenv(name, "/elsewhere")
    env = only(tmp_path / "tools", {"sh": "sh"})
    assert ran(["sh", "-c", "echo $RUSTUP_HOME $CARGO_HOME"], env=env).stdout == "/elsewhere /elsewhere\n"


def test_crate_of_which_a_part_is_missing(tmp_path):
    needs(CARGO)
    needs_crates("proptest", "hex")
    for it in REGISTRY.iterdir():
        if not it.name.startswith("bit-set-"):
            (tmp_path / it.name).symlink_to(it)
    assert lacking(["proptest", "hex"], tmp_path) == ["proptest"]
