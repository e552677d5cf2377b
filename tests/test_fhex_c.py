"""The C code of fhex, crates/fhex/fhex.c, which is not proved. It gives the proved part arguments, streams and memory,
and checks the processor. It is tested with injected failures and under sanitizers, and fhex is compared with the
program that the toolchain links."""
import errno
import os
import random
from pathlib import Path

import pytest

from commands import CC, OF_PROOFS, TESTS_IN_C, TOP, needs, passes, runs
from test_program import SANITIZERS, USAGE, built, ended

BYTES = bytes(range(256)) * 300
DIGITS = BYTES.hex().encode() + b"\n"
NO_MEMORY, NOT_READ, NOT_WRITTEN = ((3, b"", it) for it in (b"out of memory\n", b"read failed\n", b"write failed\n"))
WRAPPED = "-Wl,--wrap=read,--wrap=write,--wrap=malloc,--wrap=realloc,--wrap=madvise"
LARGE_PAGES = 14
# A system call that fails, which one of that name, the reason, and how `encode` then ends.
FAILURES = [
    ("read", 1, errno.EINTR, NOT_READ),
    ("read", 2, errno.EIO, NOT_READ),
    ("write", 1, errno.EINTR, NOT_WRITTEN),
    ("write", 1, errno.ENOSPC, NOT_WRITTEN),
    ("write", 1, 0, NOT_WRITTEN),
]


@pytest.fixture(scope="session")
def failing(tmp_path_factory):
    """The program with sanitizers and injected failures."""
    return built(tmp_path_factory.mktemp("failing"), CC, f"{SANITIZERS} {WRAPPED}", TESTS_IN_C / "failing.c")


def fails(program, call, number, reason, *words, given=BYTES):
    env = {**os.environ, "FAILS": f"{call} {number} {reason}"}
    return ended(program, *words, input=given, env=env)


@pytest.mark.parametrize("call, number, reason, how", FAILURES)
def test_failed_call(failing, call, number, reason, how):
    assert fails(failing, call, number, reason, "encode") == how


@pytest.mark.parametrize("word", ["encode", "decode", "vectors", "Encode"])
@pytest.mark.parametrize("call", ["malloc", "realloc"])
def test_refused_memory(failing, call, word):
    """Each allocation fails once. The program says so, or it can do without."""
    ample = ended(failing, word, input=DIGITS)
    found, at = [], 0
    while len(found) < 3 or NO_MEMORY in found[-3:]:
        at += 1
        found.append(fails(failing, call, at, errno.ENOMEM, word, given=DIGITS))
    assert {*found} <= {ample, NO_MEMORY}
    assert call == "realloc" or NO_MEMORY in found


@pytest.mark.parametrize("reason", [None, errno.EINVAL])
def test_large_pages(failing, tmp_path, reason):
    """Large pages are requested only for blocks of at least 4 MiB: for the input and for a long output. A system may
    have none."""
    if not Path("/sys/kernel/mm/transparent_hugepage").is_dir():
        pytest.skip("the system has no large pages")
    given, log = b"a1" * 2**22, tmp_path / "log"
    env = {**os.environ, "ADVISED": log, "FAILS": f"madvise 1 {reason}" if reason else ""}
    assert ended(failing, "decode", input=given, env=env) == (0, b"\xa1" * 2**22, b"")
    asked = [[int(it) for it in line.split()] for line in log.read_text().splitlines()]
    assert [it[1:] for it in asked] == [[LARGE_PAGES, -1 if reason else 0], [LARGE_PAGES, 0]]
    assert all(2**22 <= it[0] < 2**25 for it in asked)


def test_pieces(failing):
    """Each read and each write transfers at most seven bytes."""
    env = {**os.environ, "PIECE": "7"}
    assert ended(failing, "encode", input=BYTES, env=env) == (0, DIGITS, b"")
    assert ended(failing, "decode", input=DIGITS, env=env) == (0, BYTES, b"")


def test_words_of_each_length(failing):
    words = ["a" * length for length in (*range(1100), 65535, 65536, 65537)]
    assert ended(failing, *words, input=BYTES) == (2, b"", USAGE)


def test_long_second_words(fhex):
    """All bytes of each argument are read. They are UTF-8, or they end with a byte that is not."""
    for word in b"a", b"a" * 257, b"a" * 100_000, b"a" + b"\xc3\xa9" * 50_000:
        assert ended(fhex, "encode", word, input=BYTES) == (2, b"", USAGE)
    assert ended(fhex, "encode", b"a" * 100_000 + b"\xff", input=BYTES) == NOT_READ


def test_blocks(tmp_path):
    words = "-D_GNU_SOURCE", "-std=gnu11", "-o", tmp_path / "blocks", TESTS_IN_C / "blocks.c"
    runs([CC, *SANITIZERS.split(), *words])
    passes([tmp_path / "blocks"])


def test_closed_pipe(fhex):
    read, write = os.pipe()
    os.close(read)
    assert ended(fhex, "encode", input=BYTES, stdout=write) == (3, None, b"write failed\n")
    os.close(write)


@pytest.mark.parametrize("length, how", [(2**24, None), (2**24 + 1, (3, b"", b"input too long\n"))])
def test_longest_input(fhex, length, how):
    text = b"a" * length
    assert ended(fhex, "encode", input=text) == (how or (0, text.hex().encode() + b"\n", b""))


@pytest.mark.parametrize("lacks", ["ssse3", "sse4.1", "sse4.2", "popcnt"])
def test_processor_that_lacks(fhex, lacks):
    needs("qemu-x86_64")
    words = "qemu-x86_64", "-cpu", f"Nehalem,-{lacks}", fhex, "encode"
    said = b"this processor does not support x86-64-v2\n"
    assert ended(*words, input=b"hello") == (127, b"", said)


def a_run(chance):
    """Random arguments and an input. Half of the inputs are digits, and some of these have an error."""
    words = [chance.choice(("encode", "encode-upper", "decode", "decode", "decode-lower", "decode-upper"))]
    if chance.random() < 0.05:
        words = chance.choice(([], ["vectors"], ["Encode"], words * 2, ["e" * chance.randrange(2000)]))
    given = chance.randbytes(chance.choice((0, 1, 2, 3, 60, 300, 70_000)) + chance.randrange(40))
    if chance.random() < 0.6:
        given = bytearray(given.hex().encode())
        if given and chance.random() < 0.4:
            given[chance.randrange(len(given))] = chance.randrange(256)
        given = bytes(given.upper() if chance.random() < 0.4 else given) + b"\n" * chance.choice((0, 0, 1, 1, 2))
    return words, given


def test_alike(fhex):
    """The program that the toolchain links, with its own `main` and C functions, gives the same answers."""
    needs("rt")
    runs(["rt", "run", "--", "encode"], cwd=TOP / "crates/fhex", input="hello", timeout=OF_PROOFS)
    chance = random.Random(os.environ.get("SEED") or "1")
    for _ in range(3000):
        words, given = a_run(chance)
        answers = [ended(it, *words, input=given) for it in (fhex, TOP / "crates/fhex/out/fhex")]
        assert answers[0] == answers[1], (words, given)
