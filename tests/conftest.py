"""Fixtures: what is built or copied for many tests. Each file of tests says at its head what it checks."""
import os
from pathlib import Path

import pytest

pytest.register_assert_rewrite("commands")
from commands import ARM_CC, BESIDE, CARGO, OUT, SEED, copied, make, make_beside, needs, own_files, runs
from emulator import built
from packages import REGISTRY, over


@pytest.fixture(scope="session", autouse=True)
def environment(tmp_path_factory):
    """The environment of all commands. The variables in which `make` passes on its options are removed, because a
    `make` in a test would wait for processors that the outer one does not lend."""
    made = tmp_path_factory.mktemp("made")
    for name in ("MAKEFLAGS", "MFLAGS", "MAKELEVEL"):
        os.environ.pop(name, None)
    os.environ.update(LC_ALL="C.UTF-8", CARGO_TARGET_DIR=f"{made}/target", CARGO_NET_OFFLINE="true",
                      WINEPREFIX=f"{made}/wine", WINEDEBUG="-all")


def pytest_collection_modifyitems(items):
    """If several processes run the tests, one of them runs all tests of a module, because they share what is built for
    them. The tests marked *apart* share nothing that takes long, so each process takes some of them."""
    for it in items:
        if not it.get_closest_marker("apart"):
            it.add_marker(pytest.mark.xdist_group(it.path.name))


def pytest_terminal_summary(terminalreporter):
    terminalreporter.write_line(f"lengths were drawn from SEED={SEED}")


@pytest.fixture(scope="session")
def library():
    """The folder with the library: the one that FASTER_HEX_LIB names, or the one of `make lib`."""
    if named := os.environ.get("FASTER_HEX_LIB"):
        return Path(named).absolute()
    runs(make("lib"))
    return OUT


@pytest.fixture(scope="session")
def arm():
    """The folder with the library and the programs for aarch64."""
    needs(ARM_CC)
    runs(make_beside("aarch64", "TARGET=aarch64", f"CC={ARM_CC}"))
    return BESIDE / "aarch64"


@pytest.fixture(scope="session")
def emulated(tmp_path_factory):
    """The program that runs machine code of aarch64 with any registers."""
    return built(tmp_path_factory.mktemp("made"))


@pytest.fixture(scope="session")
def fhex():
    """The program fhex: the one that FHEX names, or the one of `make fhex`."""
    if named := os.environ.get("FHEX"):
        return Path(named).absolute()
    runs(make("fhex"))
    return OUT / "fhex"


@pytest.fixture
def copy(tmp_path):
    """A copy of the repository's own files, as they are now."""
    return copied(own_files(), tmp_path / "a copy")


@pytest.fixture(scope="session")
def cargo(tmp_path_factory):
    """The command for cargo, with a folder of crates in place of the network. Without that folder, an empty one is
    used, since cargo refuses one that does not exist."""
    needs(CARGO)
    return over(REGISTRY if REGISTRY.is_dir() else tmp_path_factory.mktemp("crates"))
