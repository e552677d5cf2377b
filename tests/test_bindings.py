"""The examples of our Rust crate, for each feature and target, and programs that cargo builds with it."""
import os
import re
from pathlib import Path

import pytest

from commands import (ARM_CC, BY_RUST, CARGO, CC, HELLO, MODELS, ON_ARM, RUSTC, TOP, WINDOWS_CC, needs, only, passes,
                      ran, runs, takes)
from packages import OF_SERDE, files_of_package, lacking, needs_crates, packed, without

EXAMPLE = TOP / "examples/rust"
# Targets for which Rust's own library is often not installed, each with a linker and the command that runs programs.
TARGETS = {"aarch64-unknown-linux-gnu": (ARM_CC, ON_ARM), "x86_64-pc-windows-gnu": (WINDOWS_CC, "wine")}
TEST = "test -q --no-default-features --features".split()
BOTH = """
    #[link(name = "faster_hex", kind = "static")]
    extern "C" { fn faster_hex_check(src: *const u8, len: usize) -> bool; }
    fn main() {
        let text = faster_hex::hex_string(b"hello");
        // SAFETY: the pointer and the length are those of the text.
        assert!(unsafe { faster_hex_check(text.as_ptr(), text.len()) });
        println!("{text}\\n{}", later::Hex::new(&later::hex_decode_vec(text.as_bytes()).unwrap()));
    }"""

# Versions of faster-hex that a program asks for, and whether this crate can replace it there.
ASKED = {"1": True, "1.0": True, "1.0.1": False, "1.1": False}
# Calls whose result must be used.
UNUSED = ['hex_check(b"")', 'hex_check_with_case(b"", Default::default())', 'hex_string(b"")', 'hex_string_upper(b"")']
UNUSED += ["hex_build()", 'Hex::new(b"")', 'hex_encode(b"", &mut room)', 'hex_decode(b"", &mut room)']
UNUSED += ['hex_decode_array::<0>(b"")', 'hex_decode_vec(b"")']
# A shared library that exports the crate again, and a part of a program that makes calls of all builds through it.
DYLIB = """[package]
name = "between"
edition = "2021"
[lib]
crate-type = ["dylib"]
[dependencies]
faster-hex = {{ path = "{}" }}
"""
CALLED = """
use between::faster_hex;

#[used]
static CALLED: fn() = || {
    use faster_hex::CheckCase::{Lower, None, Upper};
    for case in [None, Lower, Upper] {
        let (mut bytes, mut text) = ([0; 2], [0; 4]);
        assert!(faster_hex::hex_check_with_case(b"0123", case));
        assert!(faster_hex::hex_decode_with_case(b"0123", &mut bytes, case).is_ok());
        assert!(faster_hex::hex_decode(b"0123", &mut bytes).is_ok());
        assert!(faster_hex::hex_encode(&bytes, &mut text).is_ok());
    }
};
"""


@pytest.fixture(scope="module")
def package(tmp_path_factory):
    """The package of the crate, without dependencies that are not installed: to test a crate, cargo looks up even its
    optional ones."""
    package = packed(tmp_path_factory.mktemp("package"))
    without(package / "Cargo.toml", OF_SERDE if lacking(OF_SERDE[:2]) else [])
    return package


def test_files_that_cargo_packs(cargo):
    needs_crates("serde", "serde_json")
    said = runs([*cargo, "package", "-q", "--list", "--allow-dirty"], cwd=TOP).split()
    made_by_cargo = {"Cargo.lock", "Cargo.toml.orig", ".cargo_vcs_info.json"}
    assert {*said} - made_by_cargo == {*files_of_package()}


def program_over(folder, source, *dependencies):
    (folder / "src").mkdir(parents=True)
    (folder / "src/main.rs").write_text(source)
    package = '[package]\nname = "over"\nedition = "2021"\n[profile.release]\nlto = "fat"\n[dependencies]\n'
    (folder / "Cargo.toml").write_text(package + "\n".join(dependencies))
    return folder


@pytest.mark.quick
@pytest.mark.parametrize("flags", ["", "--cfg faster_hex_portable"])
def test_units(tmp_path, flags):
    """The tests in the crate itself, and its front page, by the assembly and by the plain calls. They need no
    registry."""
    needs(CARGO)
    crate = packed(tmp_path)
    without(crate / "Cargo.toml", OF_SERDE)
    env = {**os.environ, "ROUNDS": "2000", "RUSTFLAGS": flags, "RUSTDOCFLAGS": flags}
    passes([CARGO, *TEST, "std", "--lib"], cwd=crate, env=env)
    passes([CARGO, *TEST, "std", "--doc", "src/lib.rs"], cwd=crate, env=env)


@pytest.mark.quick
def test_results_that_are_not_used(tmp_path):
    """The compiler refuses each of them, if it is told to."""
    needs(CARGO)
    crate = packed(tmp_path / "crate")
    without(crate / "Cargo.toml", OF_SERDE)
    lines = "\n".join(f"    faster_hex::{it};" for it in UNUSED)
    source = f"#![deny(unused_must_use)]\nfn main() {{\n    let mut room = [0; 4];\n{lines}\n}}\n"
    own = program_over(tmp_path / "own", source, f'faster-hex = {{ path = "{crate}" }}')
    done = ran([CARGO, "check", "-q", "--message-format", "short"], cwd=own)
    found = re.findall(r"main\.rs:(\d+):\d+: error.* must be used", done.stdout)
    assert [int(it) - 4 for it in found] == [*range(len(UNUSED))], done.stdout


@pytest.mark.parametrize("features", ["", "alloc", "std", "serde"])
def test_doc_comments(cargo, package, features):
    needs_crates(*{"serde": OF_SERDE[:2]}.get(features, []))
    passes([*cargo, *TEST, features], cwd=package)


@pytest.mark.parametrize("way", ["path", "git"])
def test_program_by_cargo_alone(tmp_path, way):
    """Cargo builds the program without an assembler, and uses all files of generated/ for the processor."""
    needs(CARGO)
    crate, own = packed(tmp_path / "crate"), tmp_path / "own"
    if way == "git":
        commit = "git init -q && git add . && git -c user.name=nobody -c user.email= commit -q -m crate"
        runs(["sh", "-c", commit], cwd=crate)
    place = crate if way == "path" else f"file://{crate}"
    program_over(own, (EXAMPLE / "src/main.rs").read_text(), f'faster-hex = {{ {way} = "{place}" }}')
    tools = only(tmp_path / "tools", {"cargo": CARGO, "rustc": RUSTC, "cc": CC, "ld": "ld"})
    runs(["cargo", "run", "-q"], out=BY_RUST, cwd=own, env={**tools, "CARGO_HOME": f"{own}/home"})
    said = "".join(it.read_text() for it in own.glob("target/debug/deps/faster_hex-*.d"))
    found = {Path(it).name: Path(it).read_bytes() for it in re.findall(r"^(\S+\.s):$", said, re.M)}
    assert found == {it.name: it.read_bytes() for it in TOP.glob("generated/x86-64*.s")}


@pytest.mark.parametrize("words", [[], ["--release"]])
def test_two_versions_and_the_archive_in_one_program(tmp_path, library, words):
    needs(CARGO)
    crate, later = packed(tmp_path / "crate"), packed(tmp_path / "later")
    for file in later / "Cargo.toml", later / "bindings/rust/src/builds.rs", *later.glob("generated/*.s"):
        text = file.read_text().replace('"1.0.0', '"1.0.1').replace("1_0_0", "1_0_1")
        file.write_text(text.replace(".L100", ".L101"))
    both = f'faster-hex = {{ path = "{crate}" }}', f'later = {{ package = "faster-hex", path = "{later}" }}'
    own, env = program_over(tmp_path / "own", BOTH, *both), {**os.environ, "RUSTFLAGS": f"-L native={library}"}
    runs([CARGO, "run", "-q", *words], out=2 * HELLO, cwd=own, env=env)


@pytest.mark.parametrize("words", [[], ["--release"]])
def test_program_over_a_dylib(tmp_path, words):
    """Calls that are inlined into the program find each build in the shared library that is between."""
    needs(CARGO)
    crate, between = packed(tmp_path / "crate"), tmp_path / "between"
    texts = {"src/lib.rs": "pub use faster_hex;\n", "Cargo.toml": DYLIB.format(crate)}
    for name, text in texts.items():
        (between / name).parent.mkdir(parents=True, exist_ok=True)
        (between / name).write_text(text)
    source = (EXAMPLE / "src/main.rs").read_text() + CALLED
    own = program_over(tmp_path / "own", source, f'between = {{ path = "{between}" }}')
    (own / "Cargo.toml").write_text((own / "Cargo.toml").read_text().replace('lto = "fat"', ""))
    runs([CARGO, "run", "-q", *words], out=BY_RUST, cwd=own)


@pytest.mark.parametrize("asked", ASKED)
def test_versions_that_a_patch_replaces(tmp_path, asked):
    """The versions that `[patch]` replaces, if a folder in place of a registry has later versions of faster-hex."""
    needs(CARGO)
    crate, own = packed(tmp_path / "crate"), tmp_path / "own"
    without(crate / "Cargo.toml", OF_SERDE)
    for version in "1.0.9", "1.1.0":
        other = program_over(tmp_path / f"registry/faster-hex-{version}", "pub fn hex_string(_: &[u8]) -> u8 { 0 }")
        (other / "src/main.rs").rename(other / "src/lib.rs")
        named = (other / "Cargo.toml").read_text().replace('"over"', f'"faster-hex"\nversion = "{version}"')
        (other / "Cargo.toml").write_text(named.partition("[profile")[0] + '[features]\nstd = []\ndefault = ["std"]\n')
        (other / ".cargo-checksum.json").write_text('{"files": {}}')
    program_over(own, 'fn main() { println!("{}", faster_hex::hex_string(b"hello")) }', f'faster-hex = "{asked}"',
                 f'[patch.crates-io]\nfaster-hex = {{ path = "{crate}" }}')
    here = f'source.here.directory="{tmp_path}/registry"'
    words = [CARGO, "--config", 'source.crates-io.replace-with="here"', "--config", here, "run", "-q", "--offline"]
    runs(words, out=HELLO if ASKED[asked] else "0\n", cwd=own)


@pytest.fixture(scope="module")
def installed(tmp_path_factory):
    needs(CARGO)
    root = tmp_path_factory.mktemp("root")
    runs([CARGO, "install", "-q", "--path", EXAMPLE, "--root", root])
    runs([root / "bin/digits"], out=BY_RUST)
    return root / "bin/digits"


@pytest.mark.parametrize("model", MODELS)
def test_installed_program_on_model(tmp_path, installed, model):
    takes(tmp_path, model, installed, BY_RUST)


@pytest.mark.parametrize("target", TARGETS)
def test_doc_comments_on(cargo, package, target):
    compiler, runner = TARGETS[target]
    needs(compiler, runner.split()[0])
    if not Path(ran([RUSTC, "--print", "target-libdir", "--target", target]).stdout.strip()).is_dir():
        pytest.skip(f"there is no library of Rust for {target}")
    name = f"CARGO_TARGET_{target.upper().replace('-', '_')}_"
    env = {"CARGO_BUILD_TARGET": target, f"{name}LINKER": compiler, f"{name}RUNNER": runner}
    passes([*cargo, *TEST, "std"], cwd=package, env={**os.environ, **env})
