"""The portable calls in C and in Rust. They are compared with the builds on random calls, and pass the tests of the
builds, on this processor and under qemu on processors without a build. With a fault they fail."""
import os
import shutil

import pytest

from commands import (BESIDE, BUILT, CC, CRATE, STRICT, TESTS_IN_C, compiled, make_beside, names_build, needs, passes,
                      ran, runs, tries)
from packages import OF_SERDE, lacking, packed, without

# A compiler, the command that runs its programs, and the folder of the library.
TARGETS = {"riscv64-linux-gnu-gcc": ("qemu-riscv64 -L /usr/riscv64-linux-gnu", "riscv64")}
TARGETS |= {"arm-linux-gnueabihf-gcc": ("qemu-arm -L /usr/arm-linux-gnueabihf", "arm")}
TARGETS |= {"s390x-linux-gnu-gcc": ("qemu-s390x -L /usr/s390x-linux-gnu", "s390x")}
# LD_LIBRARY_PATH is needed if the system has its own libraries for i386: qemu would use these.
I386 = "qemu-i386 -L /usr/i686-linux-gnu -E LD_LIBRARY_PATH=/usr/i686-linux-gnu/lib"
TARGETS |= {"i686-linux-gnu-gcc": (I386, "i686")}
# Targets without C's standard library, which the portable calls do not need.
FREESTANDING = "wasm32", "powerpc64le-linux-gnu", "aarch64-windows-gnu", "aarch64-none-elf -mgeneral-regs-only"
# Faults of the plain C that only destinations that can't be written, and lengths that no text has, show.
FAULTS = {
    "a refused decoding stores what was there": (
        "if (found.status != FASTER_HEX_DONE) return found;",
        "if (found.status != FASTER_HEX_DONE) return room == 0 ? found : (*(volatile uint8_t *)dst ^= 0, found);"),
    "a text that no size_t counts is reported as too little room": (
        "return answer_of(FASTER_HEX_OVERFLOW, 0);", "return answer_of(FASTER_HEX_OUTPUT_TOO_SMALL, SIZE_MAX);"),
}


def test_random_calls_beside_the_builds(tmp_path, library):
    words = ["-O2", "-std=gnu99", TESTS_IN_C / "portable.c", library / "libfaster_hex.a"]
    passes([compiled(CC, tmp_path / "portable", *words), "2000000", "7"])


@pytest.mark.parametrize("words", ["", "threads"])
@pytest.mark.parametrize("compiler", [CC, *TARGETS])
def test_in_c(tmp_path, compiler, words):
    runner, folder = TARGETS.get(compiler, ("", "portable"))
    needs(compiler, *runner.split()[:1])
    runs(make_beside(folder, "lib", f"CC={compiler}", *["TARGET=portable"] * (compiler == CC)), out="", err="")
    assert b"faster_hex_1_0_0" not in (BESIDE / folder / "libfaster_hex.a").read_bytes()
    tries(tmp_path, compiler, BESIDE / folder / "libfaster_hex.a", "-DFASTER_HEX_PORTABLE", runner, words)
    names_build(tmp_path, compiler, BESIDE / folder / "libfaster_hex.a", "portable", runner)


@pytest.mark.parametrize("fault", ["", *FAULTS])
def test_fault(tmp_path, fault):
    text, (old, new) = (CRATE / "portable.h").read_text(), FAULTS.get(fault, ("", ""))
    shutil.copytree(CRATE, tmp_path / "crate")
    (tmp_path / "crate/portable.h").write_text(text.replace(old, new))
    words = *BUILT, "-DFASTER_HEX_PORTABLE", TESTS_IN_C / "library.c", tmp_path / "crate/dispatch.c"
    done = ran([compiled(CC, tmp_path / "library", *words)])
    assert (text.count(old) == 1 and done.returncode) if fault else done.returncode == 0


@pytest.mark.parametrize("standard", ["c99", "c11"])
@pytest.mark.parametrize("compiler", ["gcc", "clang"])
def test_warnings(tmp_path, compiler, standard):
    """There are none under the oldest standard for which the plain C is written."""
    needs(compiler)
    words = f"-std={standard}", "-DFASTER_HEX_PORTABLE", "-c", "-o", tmp_path / "made.o", CRATE / "dispatch.c"
    runs([compiler, *STRICT, *words])


@pytest.mark.parametrize("target", FREESTANDING)
def test_names_for(tmp_path, target):
    needs("clang", "llvm-nm")
    words = ["clang", "-target", *target.split(), "-ffreestanding", "-O2", "-c", "-o", tmp_path / "made.o"]
    runs([*words, CRATE / "dispatch.c"])
    found = ran(["llvm-nm", "-g", tmp_path / "made.o"]).stdout
    assert "faster_hex_decode" in found and "faster_hex_1_0_0" not in found and "level" not in found


@pytest.mark.parametrize("features", ["", "alloc", "std"])
def test_in_rust(tmp_path, cargo, features):
    package = packed(tmp_path / "package")
    without(package / "Cargo.toml", OF_SERDE if lacking(OF_SERDE[:2]) else [])
    env = {**os.environ, "RUSTFLAGS": "--cfg faster_hex_portable"}
    words = [*cargo, "test", "-q", "--no-default-features", "--features", features]
    passes(words, cwd=package, env=env)
