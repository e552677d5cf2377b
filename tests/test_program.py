"""The program fhex, built by several compilers: its statuses, outputs and messages, byte for byte."""
import os
import random
import re
import subprocess

import pytest

from commands import ARM_CC, CC, ON_ARM, SEED, TOP, drawn_lengths, needs, ran, runs

pytestmark = pytest.mark.quick
USAGE = b"usage: fhex encode|encode-upper|decode|decode-lower|decode-upper|vectors\n"
ODD = b"hex input length must be even\n"
INVALID = b"invalid hex byte 0x%x at index %d\n"
PLANS = "scalar", "sse41", "avx2", "avx512", "neon"
VECTORS = [f"{plan} v{at:02} pass\n" for plan in PLANS for at in range(1, 17)]
VECTORS += [f"plain v{at} pass\n" for at in range(17, 21)] + ["total 84 passed 84 failed 0\n"]
# The arguments of fhex, its input, its status, its standard output and its standard error.
RUNS = [
    (["encode"], b"hello", 0, b"68656c6c6f\n", b""),
    (["encode"], b"", 0, b"\n", b""),
    (["encode-upper"], b"\0\xab\xff", 0, b"00ABFF\n", b""),
    (["decode"], b"00aBcD\n", 0, b"\0\xab\xcd", b""),
    (["decode"], b"", 0, b"", b""),
    (["decode-lower"], b"00ab", 0, b"\0\xab", b""),
    (["decode-upper"], b"00AB", 0, b"\0\xab", b""),
    (["vectors"], b"not read", 0, "".join(VECTORS).encode(), b""),
    (["decode"], b"0g", 1, b"", INVALID % (0x67, 1)),
    (["decode"], b"00ff0g", 1, b"", INVALID % (0x67, 5)),
    (["decode-lower"], b"0A0b", 1, b"", INVALID % (0x41, 1)),
    (["decode-upper"], b"0A0b", 1, b"", INVALID % (0x62, 3)),
    (["decode"], b"abc", 1, b"", ODD),
    (["decode"], b"ab\n\n", 1, b"", ODD),
    ([b"\xff"], b"hello", 3, b"", b"read failed\n"),  # not UTF-8
]
NO_WORDS = [], [""], ["encode", "decode"], ["vectors", "vectors"], ["Encode"], ["--help"], ["--version"]
RUNS += [(words, b"hello", 2, b"", USAGE) for words in NO_WORDS]


SANITIZERS = "-g -O1 -fsanitize=address,undefined -fno-sanitize-recover=all"
# The compiler, its options, and the tool that runs the program. The first is built by `make`.
BUILDS = {
    "make": (CC, "", ""),
    "clang": ("clang", "-O2", ""),
    "sanitizers": (CC, SANITIZERS, ""),
    "lto": (CC, "-O2 -flto", ""),
    "static-pie": (CC, "-O2 -static-pie", ""),
    "musl": ("musl-gcc", "-O2 -static", ""),
    "aarch64": (ARM_CC, "-O2", ON_ARM),
}


def built(folder, compiler, options, *more, name="fhex"):
    """Builds a program with a compiler."""
    needs(compiler)
    sources = TOP / "crates/fhex/fhex.c", TOP / f"generated/{name}/builds.S", *more
    runs([compiler, *options.split(), "-o", folder / name, *sources])
    return folder / name


@pytest.fixture(scope="module", params=BUILDS)
def program(request, fhex, tmp_path_factory):
    """The command that runs each program."""
    compiler, options, tool = BUILDS[request.param]
    needs(*tool.split()[:1])
    is_made = request.param == "make"
    return [*tool.split(), fhex if is_made else built(tmp_path_factory.mktemp("built"), compiler, options)]


def ended(*words, **how):
    """Runs a program for at most a minute, and returns its status, output and messages."""
    done = ran(words, **{"stderr": subprocess.PIPE, "text": None, "errors": None, "timeout": 60, **how})
    return done.returncode, done.stdout, done.stderr


def test_usage_in_man():
    """With 80 columns no word of the usage line is broken."""
    needs("man")
    said = runs(["man", "-l", TOP / "docs/fhex.1"], env={**os.environ, "MANWIDTH": "80"})
    assert re.search(USAGE.decode().strip().replace(" ", r"\s+").replace("|", r"\|"), said), said


@pytest.mark.parametrize("words, given, status, out, err", RUNS, ids=[f"{it[0]} {it[1]}" for it in RUNS])
def test_run(program, words, given, status, out, err):
    assert ended(*program, *words, input=given) == (status, out, err)


def test_streams_that_fail(program):
    folder, full = os.open(TOP, os.O_RDONLY), os.open("/dev/full", os.O_WRONLY)
    assert ended(*program, "encode", stdin=folder) == (3, b"", b"read failed\n")
    assert ended(*program, "decode", input=b"00\n", stdout=full) == (3, None, b"write failed\n")


def test_lengths_that_are_drawn(fhex):
    chance = random.Random(SEED)
    for length in drawn_lengths():
        given, at = chance.randbytes(length), chance.randrange(2 * length)
        text = given.hex().encode() + b"\n"
        upper = text.upper()
        invalid = text[:at] + b"g" + text[at + 1:]
        told = f"SEED={SEED}, {length} bytes"
        for word, before, after in [("encode", given, text), ("encode-upper", given, upper), ("decode", text, given),
                                    ("decode-lower", text, given), ("decode-upper", upper, given)]:
            assert ended(fhex, word, input=before) == (0, after, b""), f"{told}, {word}"
        assert ended(fhex, "decode", input=invalid) == (1, b"", INVALID % (0x67, at)), told
