"""Two copies of one version in one program, of which one was patched. Each runs its own code, in each order of linking:
the archive and our crate, in a library that Rust made for C, and two crates, if the patched one has other names."""
import hashlib
import re

import pytest

from commands import BY_SYSTEM, CC, RUSTC, TOP, make, needs, runs

pytestmark = pytest.mark.quick
OF_RUST = """
use std::slice;

/// # Safety
///
/// `src` points to `len` bytes.
#[no_mangle]
pub unsafe extern "C" fn check_of_rust(src: *const u8, len: usize) -> bool {
    // SAFETY: the caller promises this.
    faster_hex::hex_check(slice::from_raw_parts(src, len))
}
"""
OF_C = """
#include <faster_hex.h>
#include <stdio.h>
bool check_of_rust(const void *src, size_t len);
int main(void) { printf("%d %d\\n", faster_hex_check("00", 2), check_of_rust("00", 2)); }
"""


OF_BOTH = """
fn main() {
    println!("{} {}", plain::hex_check(b"00"), fixed::hex_check(b"00"));
}
"""


def patched(top, with_record):
    """Changes the calls `check` of each build, which then return false for every text. If told so, changes the hashes
    in PROVED too, as a distribution may do, so that `make` builds it without UNPROVED=yes."""
    record = top / "generated/PROVED"
    for path in top.glob("generated/x86-64*.s"):
        old = path.read_bytes()
        text = re.sub(rb"(\thex_export\t\w+_check\n)", rb"\1\txorl\t%eax,%eax\n\tret\n", old)
        assert text != old
        path.write_bytes(text)
        sums = [hashlib.sha256(it).hexdigest() for it in (old, text)]
        record.write_text(record.read_text().replace(*sums) if with_record else record.read_text())


def of_rust(top, made):
    """Builds a library of Rust for C over the crate in a folder."""
    made.mkdir()
    (made / "over.rs").write_text(OF_RUST)
    words = [RUSTC, "--edition", "2021", "-C", "opt-level=2", "--out-dir", made]
    root = top / "bindings/rust/src/lib.rs"
    runs([*words, "--crate-type", "rlib", "--crate-name", "faster_hex", root])
    runs([*words, "--crate-type", "staticlib", "--extern", f"faster_hex={made}/libfaster_hex.rlib", made / "over.rs"])
    return made / "libover.a"


def needs_x86_64():
    needs(CC, RUSTC)
    if "x86_64" not in runs([CC, "-dumpmachine"]):
        pytest.skip("the compiler does not make code for x86-64")


@pytest.mark.parametrize("which", ["archive", "archive, and its record", "crate"])
def test_each_runs_its_own_code(tmp_path, copy, library, which):
    needs_x86_64()
    plain, archive = of_rust(copy, tmp_path / "plain"), library / "libfaster_hex.a"
    patched(copy, "record" in which)
    if which == "crate":
        both, wanted = [archive, of_rust(copy, tmp_path / "patched")], "1 0\n"
    else:
        runs(make("lib", *[] if "record" in which else ["UNPROVED=yes"], top=copy), env=BY_SYSTEM)
        both, wanted = [copy / "out/libfaster_hex.a", plain], "0 1\n"
    (tmp_path / "both.c").write_text(OF_C)
    for order in both, both[::-1]:
        words = [CC, "-I", copy / "crates/faster_hex_c", tmp_path / "both.c", *order]
        runs([*words, *"-lpthread -ldl -lm -lgcc_s".split(), "-o", tmp_path / "both"])
        runs([tmp_path / "both"], out=wanted)


@pytest.mark.parametrize("order", [["plain", "fixed"], ["fixed", "plain"]])
def test_two_crates(tmp_path, copy, order):
    """The commands in packaging.md give a patched crate names of its own."""
    needs_x86_64()
    for words in re.findall("`(sed -i .*?)`", (TOP / "docs/packaging.md").read_text()):
        runs(["sh", "-c", words], cwd=copy)
    patched(copy, False)
    tops, own = {"plain": TOP, "fixed": copy}, [RUSTC, "--edition", "2021", "--out-dir", tmp_path]
    for name in order:
        runs([*own, "--crate-type", "rlib", "--crate-name", name, tops[name] / "bindings/rust/src/lib.rs"])
    (tmp_path / "both.rs").write_text(OF_BOTH)
    libraries = [word for name in order for word in ("--extern", f"{name}={tmp_path}/lib{name}.rlib")]
    runs([*own, *libraries, tmp_path / "both.rs"])
    runs([tmp_path / "both"], out="true false\n")
