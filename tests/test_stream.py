"""The program fhex-stream, compared with a model: its output, also before an error, its statuses and messages. White
space and invalid bytes are at every kind of place, and streams are full, closed, slow or long."""
import errno
import os
import random
import signal
import subprocess
from pathlib import Path

import pytest

from commands import CC, OUT, TESTS_IN_C, TOP, VERSION, make, needs, runs
from test_fhex_c import WRAPPED
from test_program import BUILDS, SANITIZERS, built, ended

USAGE = b"usage: fhex-stream encode|encode-lines|decode\n"
THIS_VERSION = b"fhex-stream %s\n" % VERSION.encode()
INVALID = b"fhex-stream: invalid hex byte 0x%02x at index %d\n"
ODD = b"fhex-stream: hex input length must be even\n"
FAILURES = b"read failed", b"write failed", b"out of memory"
NOT_READ, NOT_WRITTEN, NO_MEMORY = (b"fhex-stream: %s\n" % it for it in FAILURES)
# The bytes of one read of `decode`, of a block from which white space is removed, and of a vector.
READ, BLOCK, LANES = 16384, 2048, 32
SPACES = b" \t\n\r\f"
DIGITS = b"0123456789abcdefABCDEF"
BORDERS = sorted({at + by for at in (0, LANES, 2 * LANES, BLOCK, READ, 2 * READ) for by in (-1, 0, 1) if at + by >= 0})
LENGTHS = 0, 1, 2, 29, 30, 31, 59, 60, 61, 90, 8189, 8190, 8191, 8192, 8193, 16380, 100_000
CHANCE = random.Random(os.environ.get("SEED") or "1")
BYTES = CHANCE.randbytes(200_000)
# The arguments, the input, the status, the standard output and the standard error.
RUNS = [
    (["encode"], b"hello", 0, b"68656c6c6f\n", b""),
    (["encode"], b"", 0, b"\n", b""),
    (["encode-lines"], b"\0\xab\xff", 0, b"00abff\n", b""),
    (["encode-lines"], b"", 0, b"", b""),
    (["encode-lines"], b"\n" * 31, 0, b"0a" * 30 + b"\n0a\n", b""),
    (["decode"], b"", 0, b"", b""),
    (["decode"], SPACES, 0, b"", b""),
    (["decode"], b"00aBcD\n\n", 0, b"\0\xab\xcd", b""),
    (["decode"], b" 6 8\t6\r\n5\f", 0, b"he", b""),
    (["decode"], b"68656", 1, b"he", ODD),
    (["decode"], b"6\n", 1, b"", ODD),
    (["decode"], b"0g", 1, b"", INVALID % (0x67, 1)),
    (["decode"], b"0\r\n g", 1, b"", INVALID % (0x67, 4)),
    (["decode"], b"0x00", 1, b"", INVALID % (0x78, 1)),
    (["decode"], b"0\v0", 1, b"", INVALID % (0x0b, 1)),
    (["decode"], b"00\0", 1, b"", INVALID % (0, 2)),
    (["decode"], b"00\xa0", 1, b"", INVALID % (0xa0, 2)),
    (["decode"], b"00;00", 1, b"", INVALID % (0x3b, 2)),
    ([b"\xff"], b"hello", 3, b"", b"fhex-stream: an argument is not UTF-8\n"),
]
RUNS += [(["--help"], b"hello", 0, USAGE, b""), (["--version"], b"hello", 0, THIS_VERSION, b"")]
NO_WORDS = [[], [""], ["encode", "decode"], ["vectors"], ["Encode"], ["encode-upper"], ["encode-lines "], ["-h"]]
NO_WORDS += [["--help", "encode"], ["encode", "--help"], ["--help", "--version"], ["--version", "--version"]]
RUNS += [(words, b"hello", 2, b"", USAGE) for words in NO_WORDS]


@pytest.fixture(scope="session")
def stream():
    """The program: the one that FHEX_STREAM names, or the one of `make fhex-stream`."""
    if named := os.environ.get("FHEX_STREAM"):
        return Path(named).absolute()
    runs(make("fhex-stream"))
    return OUT / "fhex-stream"


@pytest.fixture(scope="module", params=BUILDS)
def program(request, stream, tmp_path_factory):
    """The command that runs each program."""
    compiler, options, tool = BUILDS[request.param]
    needs(*tool.split()[:1])
    made = lambda: built(tmp_path_factory.mktemp("built"), compiler, options, name="fhex-stream")
    return [*tool.split(), stream if request.param == "make" else made()]


@pytest.fixture(scope="session")
def failing(tmp_path_factory):
    """The program with sanitizers and injected failures of reads, writes and allocations."""
    options = f"{SANITIZERS} {WRAPPED}"
    return built(tmp_path_factory.mktemp("failing"), CC, options, TESTS_IN_C / "failing.c", name="fhex-stream")


def lines_of(given):
    return b"".join(given[at:at + 30].hex().encode() + b"\n" for at in range(0, len(given), 30))


def model(word, given):
    """The status, the whole output, how many bytes may be missing at its end, and the message."""
    if word != "decode":
        return 0, given.hex().encode() + b"\n" if word == "encode" else lines_of(given), 0, b""
    bad = next((at for at, byte in enumerate(given) if byte not in DIGITS + SPACES), None)
    digits = bytes(byte for byte in given[:bad] if byte not in SPACES)
    output = bytes.fromhex(digits[:len(digits) // 2 * 2].decode())
    if bad is not None:
        return 1, output, READ // 2, INVALID % (given[bad], bad)
    return (1, output, 0, ODD) if len(digits) % 2 else (0, output, 0, b"")


def answers(program, word, given, **how):
    """Whether the program does what the model does."""
    status, output, missing, message = model(word, given)
    found, out, err = ended(program, word, input=given, **how)
    return (found, err) == (status, message) and output.startswith(out) and len(output) - len(out) <= missing


def put(text, at, *more):
    """A text in which these bytes replace as many others."""
    return text[:at] + bytes(more) + text[at + len(more):]


@pytest.mark.parametrize("words, given, status, out, err", RUNS, ids=[f"{it[0]} {it[1]}" for it in RUNS])
def test_run(program, words, given, status, out, err):
    assert ended(*program, *words, input=given) == (status, out, err)


def test_manual(stream):
    """The manual has the lines that `--help` and `--version` print."""
    manual = (TOP / "docs/fhex-stream.1").read_text().replace("\\", "")
    for word in "--help", "--version":
        status, line, _ = ended(stream, word)
        assert status == 0 and line.decode().strip() in manual


@pytest.mark.parametrize("length", LENGTHS)
@pytest.mark.parametrize("word", ["encode", "encode-lines"])
def test_encoded(stream, word, length):
    assert answers(stream, word, BYTES[:length])


@pytest.mark.parametrize("length", LENGTHS)
@pytest.mark.parametrize("every", [2, 60, 61, None])
def test_decoded(stream, length, every):
    """Digits of either case, in lines or on one line, with and without a newline at the end, and with one digit or byte
    too many."""
    text = (BYTES[:length // 2].hex() + BYTES[length // 2:length].hex().upper()).encode()
    lines = b"\r\n".join(text[at:at + every] for at in range(0, len(text), every)) if every else text
    assert all(answers(stream, "decode", lines + end) for end in (b"", b"\n", b"f", b"f\n", b"\ng"))


@pytest.mark.parametrize("space", SPACES)
def test_white_space_at_each_place(stream, space):
    """In the first blocks and around each border: one space, two, with a digit between them, of all kinds, and a whole
    vector."""
    text = BYTES[:READ].hex().encode()
    for at in {*range(2 * LANES + 2), *BORDERS}:
        for more in [space], [space, space], [space, 0x66, space], [space, *SPACES], [space] * (LANES + 1):
            assert answers(stream, "decode", put(text, at, *more)), (at, more)


@pytest.mark.parametrize("byte", [b"g", b"\v", b"\0", b"\x1f", b"!", b"\xff"])
@pytest.mark.parametrize("at", BORDERS)
def test_invalid_byte(stream, at, byte):
    """Among digits, in lines, at the end, and before another invalid byte."""
    text = BYTES[:READ + 99].hex().encode()
    spaced = b"\n".join(text[at:at + 60] for at in range(0, len(text), 60))
    for given in put(text, at, *byte), put(spaced, at, *byte), text[:at] + byte, put(text, at, *byte, *b"zz"):
        assert answers(stream, "decode", given)


@pytest.mark.parametrize("word", ["encode", "encode-lines", "decode"])
def test_random_inputs_and_cuttings(stream, failing, word):
    for _ in range(int(os.environ.get("ROUNDS") or 20_000) // 100):
        given = CHANCE.randbytes(CHANCE.choice((0, 1, 70, 5000, 40_000)) + CHANCE.randrange(90))
        if word == "decode":
            given = bytes(CHANCE.choice(SPACES) if byte < 8 else DIGITS[byte % 22] for byte in given)
            for _ in range(CHANCE.choice((0, 0, 0, 1, 2))):
                given = put(given, CHANCE.randrange(len(given) + 1), CHANCE.randrange(256))
        assert answers(stream, word, given)
        piece = CHANCE.choice((1, 7, 29, 4095)) if len(given) < 9000 else 4095
        assert answers(failing, word, given, env={**os.environ, "PIECE": f"{piece}"})


@pytest.mark.parametrize("word", ["encode", "encode-lines", "decode"])
def test_failed_calls(failing, word):
    """An interrupted read is repeated. Any other failure ends the program, after the beginning of the correct
    output."""
    text = BYTES.hex().encode()
    given, output = (text, BYTES) if word == "decode" else (BYTES, model(word, BYTES)[1])
    for call, number, reason, how in [
        ("read", 1, errno.EINTR, (0, b"")), ("read", 3, errno.EINTR, (0, b"")), ("read", 1, errno.EIO, (3, NOT_READ)),
        ("read", 4, errno.EIO, (3, NOT_READ)), ("write", 1, errno.EINTR, (3, NOT_WRITTEN)),
        ("write", 3, errno.ENOSPC, (3, NOT_WRITTEN)), ("write", 2, 0, (3, NOT_WRITTEN)),
        ("malloc", 1, errno.ENOMEM, (3, NO_MEMORY)),
    ]:
        env = {**os.environ, "FAILS": f"{call} {number} {reason}"}
        status, out, err = ended(failing, word, input=given, env=env)
        assert (status, err) == how and (out == output if status == 0 else output.startswith(out) and out != output)
        assert (out != b"") == (status == 0 or number > 1)


@pytest.mark.parametrize("word", ["encode", "encode-lines", "decode"])
def test_reads_and_writes(failing, tmp_path, word):
    """Each read asks for a whole chunk, which in lines has only whole lines. The last read may ask for the rest of a
    line. At most one write follows a read."""
    given, chunk = (BYTES.hex().encode(), READ) if word == "decode" else (BYTES, READ // 2)
    chunk -= chunk % 30 if word == "encode-lines" else 0
    source, log = tmp_path / "source", tmp_path / "log"
    source.write_bytes(given)
    with source.open("rb") as file:
        assert ended(failing, word, stdin=file, env={**os.environ, "CALLED": log}) == (0, model(word, given)[1], b"")
    calls = [line.split() for line in log.read_text().splitlines()]
    reads = [int(asked) for call, asked, _ in calls if call == "read"]
    assert {*reads[:-1]} == {chunk} and len(reads) <= len(given) // chunk + 2
    assert not any(one[0] == other[0] == "write" for one, other in zip(calls, calls[1:]))


@pytest.mark.parametrize("word, given, status", [
    ("encode", b"", 3), ("encode", b"a", 3), ("encode-lines", b"a", 3), ("encode-lines", b"", 0),
    ("decode", b"00\n", 3), ("decode", b"\n", 0), ("decode", b"0", 1), ("--help", b"", 3), ("--version", b"", 3)])
def test_full_disk(stream, word, given, status):
    """If there is no output, nothing is written, so nothing fails."""
    with open("/dev/full", "wb") as full:
        found, _, err = ended(stream, word, input=given, stdout=full)
    assert (found, err) == (status, {0: b"", 1: ODD, 3: NOT_WRITTEN}[status])


@pytest.mark.parametrize("word, how, status, err", [
    ("encode", "<&-", 3, NOT_READ), ("decode", "<&-", 3, NOT_READ), ("encode", "<.", 3, NOT_READ),
    ("encode-lines", ">&-", 3, NOT_WRITTEN), ("decode", ">&-", 3, NOT_WRITTEN), ("Encode", "2>&-", 2, b""),
    *((word, "| exec true", 128 + signal.SIGPIPE, b"") for word in ("encode", "encode-lines", "decode"))])
def test_streams_that_are_closed(stream, word, how, status, err):
    """The status stays the same if the message can't be written. If the reader of a pipe has ended, the program ends by
    SIGPIPE, without a message."""
    ended = "${PIPESTATUS[0]}" if how[0] == "|" else "$?"
    said = f"exec 3>&1; {{ {stream} {word} {how}; echo {ended} >&3; }} >/dev/null"
    done = subprocess.run(["bash", "-c", said], input=b"00" * 100_000, capture_output=True)
    assert (done.stdout, done.stderr) == (b"%d\n" % status, err)


def test_closed_pipe_where_the_signal_is_ignored(stream):
    """If the program was started so, the write fails like any other."""
    said = f"trap '' PIPE; {stream} encode </dev/zero 2>&3 | true; echo ${{PIPESTATUS[0]}}"
    done = subprocess.run(["bash", "-c", f"exec 3>&2; {said}"], capture_output=True)
    assert (done.stdout, done.stderr) == (b"3\n", NOT_WRITTEN)


def test_head(stream):
    said = f"set -o pipefail; {stream} encode </dev/zero | head -c 10"
    runs(["bash", "-c", said], 128 + signal.SIGPIPE, out=10 * "0", err="")


def test_slow_pipe(stream):
    """The output of each piece of input is written before the next piece is read."""
    for word, pieces in ("decode", [(b"68 6", b"h"), (b"5\n6c", b"el"), (b"6C", b"l")]), ("encode", [(b"he", b"6865")]):
        with subprocess.Popen([stream, word], stdin=subprocess.PIPE, stdout=subprocess.PIPE, bufsize=0) as process:
            for given, out in pieces:
                process.stdin.write(given)
                assert process.stdout.read(len(out)) == out
            process.stdin.close()
            assert process.stdout.read() == {"decode": b"", "encode": b"\n"}[word]
        assert process.returncode == 0


@pytest.mark.parametrize("word", ["encode", "encode-lines"])
def test_300_mb_in_64_mb(stream, word):
    """A long input is encoded and decoded through pipes. Each program has 64 MB of address space."""
    some = f"head -c 300M /dev/zero | tr '\\0' '\\225'"
    said = f"set -o pipefail; {some} | (ulimit -v 65536; {stream} {word} | {stream} decode) | cmp - <({some})"
    runs(["bash", "-c", said], out="", err="")
