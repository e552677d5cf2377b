"""Packages of our Rust crate, and the crates that cargo takes from a folder in place of a registry."""
import functools
import os
import re
import tempfile
from pathlib import Path

import pytest

from commands import CARGO, TOP, copied, ran

# The folder of crates that CRATES names, or the one of Debian's packages. Such a package is librust-hex-dev.
REGISTRY = Path(os.environ.get("CRATES") or "/usr/share/cargo/registry").absolute()
# The crates that the feature serde needs.
OF_SERDE = ["serde", "serde_json", "bincode"]


# The features of crates that tests need.
FEATURES = {"serde": ["derive"]}


def over(registry):
    """The command for cargo, with a folder of crates in place of the network."""
    options = 'source.crates-io.replace-with="here"', f'source.here.directory="{registry}"'
    return [CARGO, *(word for it in options for word in ("--config", it))]


@functools.cache
def is_there(name, registry):
    """Whether a folder of crates has a crate and everything that it needs."""
    if not any(registry.glob(f"{name}-[0-9]*")):
        return False
    with tempfile.TemporaryDirectory() as own:
        (Path(own) / "lib.rs").touch()
        wanted = f'{name} = {{ version = "*", features = {FEATURES.get(name, [])} }}'.replace("'", '"')
        package = '[package]\nname = "wants"\n[lib]\npath = "lib.rs"\n[dependencies]\n'
        (Path(own) / "Cargo.toml").write_text(package + wanted)
        return not ran([*over(registry), "generate-lockfile", "--offline"], cwd=own).returncode


def lacking(names, registry=REGISTRY):
    """The crates among these that are not there, or that need something that is not there."""
    return [name for name in names if not is_there(name, registry)]


def needs_crates(*names):
    """Skips a test if a crate is not there."""
    if lacks := lacking(names):
        pytest.skip(f"there is no crate {' and no '.join(lacks)}")


def without(manifest, names):
    """Removes the lines of these crates from a manifest, and the features with their names."""
    lines = "|".join(rf'^{name} = .*\n|(, )?"{name}"' for name in names) or "^$."
    manifest.write_text(re.sub(lines, "", manifest.read_text(), flags=re.M))


def files_of_package():
    words = re.search(r"^include = \[\n(.*?)^\]", (TOP / "Cargo.toml").read_text(), re.M | re.S)[1]
    found = [it for pattern in re.findall('"/(.*?)"', words) for it in TOP.glob(pattern) if it.is_file()]
    return ["Cargo.toml", *(str(it.relative_to(TOP)) for it in found)]


def packed(to):
    return copied(files_of_package(), to)
