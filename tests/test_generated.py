"""Whether generated/ is what the sources give, which takes some minutes, whether each build uses only instructions of
its processor, whether functions are inlined, and where jumps are."""
import re

import pytest

from commands import CC, OF_PROOFS, TOP, VERSION, needs, ran, runs

GENERATED = TOP / "generated"
# A pattern that must be in each build's assembly, and one that must not.
SPEAKS = {"x86-64": ("%rax", "pshufb|%ymm|%zmm"), "x86-64-v2": ("\tpshufb", "%ymm|%zmm")}
SPEAKS |= {"x86-64-v3": ("\tvpshufb\t.*%ymm", "%zmm"), "x86-64-v4": ("\tvptestm.*%zmm", "_encode|_grouped|\tvpermb\t")}
SPEAKS |= {"x86-64-vbmi": ("\tvpermb\t", "_encode|_grouped")}
# The builds for AVX-512, and the calls that they have.
OF_AVX512 = "x86-64-v4", "x86-64-vbmi"
CALLS = ["check", "check_lower", "check_upper", "check_with_case", "decode", "decode_spaced",
         "decode_with_case"]
SPEAKS |= {"aarch64": (r"\ttbl\t", "%")}
# Instructions that are one step for a processor together with the conditional jump after them.
TESTS = re.compile("(cmp|test|add|sub|inc|dec|and)[bwlq]?$")


@pytest.mark.quick
@pytest.mark.parametrize("build", SPEAKS)
def test_processor(build):
    text, (some, none) = (GENERATED / f"{build}.s").read_text(), SPEAKS[build]
    assert re.search(some, text) and not re.search(none, text)


@pytest.mark.quick
def test_vectors_of_the_baseline_build():
    """Its plan is `scalar`, which has no vectors. Only the call for digits with white space uses those of SSE2, to
    search the end of a run and to move results."""
    text = (GENERATED / "x86-64.s").read_text()
    found = re.findall(r"^\thex_(?:function|export)\t\w+?_x86_64_(\w+)(.*?)^\thex_end", text, re.M | re.S)
    assert {name for name, body in found if "%xmm" in body} == {
        "codec_spaced_run_len", "codec_spaced_decode_runs", "decode_spaced"}


@pytest.mark.quick
@pytest.mark.parametrize("build", OF_AVX512)
def test_calls_of_the_builds_for_avx512(build):
    exported = re.findall(r"^\thex_export\t\w+_x86_64_(?:v4|vbmi)_(\w+)$", (GENERATED / f"{build}.s").read_text(), re.M)
    assert sorted(exported) == CALLS


def body_of(text, call):
    """The instructions of the function that others call by this name."""
    return re.search(rf"^\thex_export\t\w+(?:64|v\d)_{call}\n(.*?)^\thex_end", text, re.M | re.S)[1]


def shuffles_wide(text):
    """Whether `encode` uses vectors of 32 bytes, as `Halved` does. Only then it exchanges the middle quarters of 32
    bytes with each other, in one instruction or in several."""
    return bool(re.search(r"\tvpermq|\tpunpck[lh]qdq|\tzip[12]\tv\d+\.2d", body_of(text, "encode")))


@pytest.mark.quick
@pytest.mark.parametrize("build", SPEAKS)
def test_width_of_blocks(build):
    """Each build was told its own level, and `plan` of faster_hex_c gives that level its vectors. With other ones all
    results are right, and the calls are slower. In the builds for AVX-512 other functions check long sources, which
    functions.txt shows."""
    text = (GENERATED / f"{build}.s").read_text()
    assert build in OF_AVX512 or shuffles_wide(text) == (build == "x86-64-v3")


def told(path):
    """A file, in a record without the words that say with what a proof began."""
    return re.sub("^proved .*\n| incremental=trusted", "", path.read_text(), flags=re.M)


@pytest.mark.parametrize("is_copy", [False, True])
def test_made_of_these_sources(tmp_path, copy, is_copy):
    anew = tmp_path / "anew"
    runs([(copy if is_copy else TOP) / "scripts/generate", anew], timeout=OF_PROOFS)
    made = {it.relative_to(anew): told(it) for it in anew.rglob("*") if it.is_file()}
    assert made and made == {name: told(GENERATED / name) for name in made}


def functions(path):
    """The functions of a build that are no calls for C or Rust."""
    own = f"faster_hex_{VERSION.replace('.', '_')}_{path.stem.replace('-', '_')}_"
    return sorted(re.findall(rf"^\thex_function\t{own}(\w+),", path.read_text(), re.M))


@pytest.mark.quick
def test_functions():
    """The toolchain silently ignores the mark `inline` if a function would become very large, and LLVM decides about
    functions without a mark. A function that was part of its callers and is called now slows short calls down. If that
    is meant, `functions.txt` gets its name."""
    text = (TOP / "tests/functions.txt").read_text()
    listed = [it.split() for it in re.sub("^#.*\n", "", text, flags=re.M).replace("\n  ", " ").splitlines()]
    assert [[it.stem, *functions(it)] for it in sorted(GENERATED.glob("*.s"))] == listed


def steps(code):
    """The jumps, calls and returns of an object, each with the places where it begins and ends. A conditional jump
    begins with the test before it."""
    lines = re.findall(r"^ *([\da-f]+):\t((?:[\da-f]{2} )+) *\t(\w+)", ran(["objdump", "-dw", code]).stdout, re.M)
    for before, (place, found, name) in zip([("0", "", ""), *lines], lines):
        begin = int(place, 16)
        if name[0] == "j" and name != "jmp" and TESTS.match(before[2]):
            yield name, int(before[0], 16), begin + len(found.split())
        elif re.match("j|call|ret", name):
            yield name, begin, begin + len(found.split())


@pytest.mark.quick
@pytest.mark.parametrize("build", [it for it in SPEAKS if re.search(r"v\d", it)])
def test_no_jump_crosses_a_multiple_of_32(tmp_path, build):
    """No jump, call or return crosses a multiple of 32 bytes or ends there. Intel's processors from Skylake to Comet
    Lake are slow at one that does."""
    needs(CC, "objdump")
    if "x86_64" not in runs([CC, "-dumpmachine"]):
        pytest.skip("the compiler does not assemble x86-64")
    made, text = tmp_path / "made.o", f'#include "elf.inc"\n#include "{build}.s"\n'
    runs([CC, "-c", "-x", "assembler-with-cpp", "-o", made, "-"], input=text, cwd=GENERATED)
    found = [*steps(made)]
    assert found and not [it for it in found if it[1] // 32 != it[2] // 32]
