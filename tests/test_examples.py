"""The headers under all standards of C and C++, the symbols and sections of the libraries, and the examples."""
import re

import pytest

from commands import (ARM_CC, CALLS, CC, CRATE, CXX, NAMES, ON_ARM, PRINTED, RUSTC, SHARED, STRICT, TESTS_IN_C, TOP,
                      compiled, is_locked, needs, passes, ran, runs, shows_names)

pytestmark = pytest.mark.quick
BUILDS = [*TOP.glob("generated/x86-64*.s")]
# The calls of the header, each with the arguments after a source and its length.
WORDS = {"check": "", "check_with_case": "0", "first_invalid": "0", "encode": "dst, 8, 0", "decode": "dst, 2"}
WORDS |= {"decode_with_case": "dst, 2, 0", "encode_grouped": "dst, 11, 0, 1, 58", "decode_grouped": "dst, 2, 0, 1, 58"}
WORDS |= {"decode_spaced": "dst, 2, 0"}
# Calls of faster_hex.hpp whose result must be used.
OF_CPP = ["encode(text)", "encode(text.data(), 1)", "decode(text)", "decode(text.data(), 2)", "decode_spaced(text)",
          "build()"]
# Calls of both headers that faster_hex.hpp does not let compile, each with a part of the only error, by gcc and by
# clang.
LITERAL, BYTES, DELETED, NONE = "string literal", "must be bytes", "deleted", "no matching function"
REFUSED = {
    'encode("hello")': LITERAL,
    'encode(u8"hello")': LITERAL,
    "encode(text.c_str())": LITERAL,
    "encode(std::vector<int>(2))": BYTES,
    "decode(std::vector<int>(2))": BYTES,
    "encode(text, true)": DELETED,
    'encode("hello", true)': DELETED,
    'decode("01", true)': DELETED,
    'decode("01", 2 > 1, faster_hex::policy::lowercase)': DELETED,
    "decode(text, room, true)": DELETED,
    "decode(text.data(), text.size(), room, true)": DELETED,
    'decode("0123", FASTER_HEX_LOWERCASE)': DELETED,
    "decode(text, FASTER_HEX_LOWERCASE)": DELETED,
    "decode(text, 1)": NONE,
    "decode(text, room, 2, FASTER_HEX_LOWERCASE)": DELETED,
    "decode(text.data(), text.size(), room, 2, 1)": NONE,
    # A separator where the number of bytes belongs.
    "faster_hex_encode_grouped(text.data(), 1, room, 2, false, ':', 1)": DELETED,
    "faster_hex_decode_grouped(text.data(), 2, room, 1, 0, ':', 1)": DELETED,
}


@pytest.fixture(params=["x86_64", "aarch64"])
def target(request):
    """The folder of a library, its compilers for C and C++, and the command that runs its programs."""
    if request.param == "aarch64":
        return request.getfixturevalue("arm"), ARM_CC, ARM_CC.replace("gcc", "g++"), ON_ARM
    return request.getfixturevalue("library"), CC, CXX, ""


@pytest.mark.parametrize("standard", "c90 c99 c11 c17 c++98 c++11 c++17".split())
def test_header(standard):
    language = standard.rstrip("0123456789")
    words = ["-x", language, f"-std={standard}", "-fsyntax-only", TOP / "examples/c/digits.c"]
    compiled(CC if language == "c" else CXX, "/dev/null", *words)


@pytest.mark.parametrize("compiler", [CC, "clang", CXX])
def test_results_that_are_not_used(tmp_path, compiler):
    """The compiler warns of each of them."""
    needs(compiler)
    source = tmp_path / ("unused.cpp" if compiler == CXX else "unused.c")
    lines = [f"faster_hex_{name}(src, 4{', ' * (words != '')}{words});" for name, words in WORDS.items()]
    source.write_text('#include "faster_hex.h"\nvoid f(const char *src, char *dst) {\n' + "\n".join(lines) + "\n}\n")
    said = ran([compiler, f"-I{CRATE}", "-c", "-o", tmp_path / "unused.o", source]).stdout
    found = re.findall(r"unused\.c(?:pp)?:(\d+):.* warning: ignoring return value", said)
    assert {f"faster_hex_{it}" for it in WORDS} == {*CALLS}
    assert {int(it) - 3 for it in found} == {*range(len(CALLS))} and len(found) == len(CALLS)


@pytest.mark.parametrize("compiler", [CXX, "clang++"])
def test_results_that_are_not_used_in_cpp(tmp_path, compiler):
    needs(compiler)
    lines = "\n".join(f"faster_hex::{it};" for it in OF_CPP)
    (tmp_path / "unused.cpp").write_text(f'#include "faster_hex.hpp"\nvoid f(std::string text) {{\n{lines}\n}}\n')
    words = "-std=c++17", f"-I{CRATE}", "-c", "-o", tmp_path / "unused.o", tmp_path / "unused.cpp"
    found = re.findall(r"unused\.cpp:(\d+):.* warning: ignoring return value", ran([compiler, *words]).stdout)
    assert [int(it) - 3 for it in found] == [*range(len(OF_CPP))]


def test_header_that_leaves_warnings_as_they_were(tmp_path):
    """The compiler does not warn of what the header uses beyond C90. It still warns of the same in the code after
    it."""
    needs("clang")
    (tmp_path / "own.c").write_text("#include <faster_hex.h>\n_Bool own;\n")
    words = ["clang", "-std=c90", "-Wc99-extensions", "-fsyntax-only", f"-I{CRATE}", tmp_path / "own.c"]
    assert re.findall(r"^\S*?(\w+\.[ch]):\d+:\d+: warning", ran(words).stdout, re.M) == ["own.c"]


def test_names_and_state_of_the_archive(target):
    """It has the header's functions, hides them from other shared libraries, and needs no external symbols. It has no
    other name that another library could have too. Its only state is the byte for the choice of a build."""
    folder, *_, runner = target
    said = ran(["readelf", "-SsW", folder / "libfaster_hex.a"]).stdout
    found = re.findall(r"^ *\d+: \w+ +\w+ \w+ +(GLOBAL|WEAK) +(\w+) +(\w+) (\S+)$", said, re.M)
    given = {name for *_, place, name in found if place != "UND"}
    assert {sight for _, sight, place, _ in found if place != "UND"} == {"HIDDEN"} and {*NAMES} <= given
    assert all(it.startswith("faster_hex_") for it in given)
    assert {name for *_, place, name in found if place == "UND"} <= given
    assert {*re.findall(r" \.text\.faster_hex_\d\S+ .* (\d+)$", said, re.M)} == {"64"}
    said = ran(["nm", "-S", folder / "libfaster_hex.a"]).stdout
    # Names such as $d mark places in code for ARM.
    found = re.findall(r"^\w+ 0*([1-9a-f]\w*) [BbCDd] ([^$\s]\S*)$", said, re.M)
    assert found == ([] if runner else [("1", "level")])


def test_sections_of_the_archive(target):
    """The only writable sections are for addresses, which a loader fills in, and for the choice of a build. Each object
    says that it needs no executable stack."""
    said = ran(["readelf", "-SW", target[0] / "libfaster_hex.a"]).stdout
    found = re.findall(r"\] (\.\S+) +[A-Z_]+ +0{16} \w+ (\w+) \w+ +([A-Z]*) +\d+ +\d+ +\d+$", said, re.M)
    written = [name for name, size, flags in found if "W" in flags and int(size, 16)]
    assert written and all(re.match(r"\.(data\.rel\.ro|init_array|bss)\b", it) for it in written)
    assert [it for name, _, it in found if name == ".note.GNU-stack"] == said.count("File: ") * [""]


def test_names_of_the_shared_library(target):
    shared = target[0] / SHARED[2]
    shows_names(shared)
    is_locked(shared)


def test_call_of_a_later_version(tmp_path):
    """This version's list of names does not export it. Otherwise a program that makes the call would start with a
    library of this version, and fail at the call."""
    (tmp_path / "later.c").write_text("void faster_hex_later(void) {}\nvoid faster_hex_build(void) {}\n")
    words = "-shared", "-fPIC", f"-Wl,--version-script={CRATE}/faster_hex.map", tmp_path / "later.c"
    runs([CC, *words, "-o", tmp_path / "later.so"])
    said = runs(["nm", "-D", "--defined-only", tmp_path / "later.so"])
    assert "faster_hex_build" in said and "faster_hex_later" not in said


def test_frames_of_the_builds(library):
    """A debugger can walk out of each function: the object has all that generated/ says of its frame."""
    said = ran(["readelf", "-sW", "-wf", library / "builds.o"]).stdout
    moves = re.findall(r"^\thex_cfi\tdef_cfa_offset", "".join(it.read_text() for it in BUILDS), re.M)
    # Each call has two names, of which the C library uses the one that ends so.
    functions = [it for it in re.findall(r" FUNC .* (\w\S*)$", said, re.M) if not it.endswith("_of_c")]
    assert said.count(" FDE ") == len(functions) and said.count("DW_CFA_def_cfa_offset: ") == len(moves) > 0


def snippets():
    """The first snippets of README.md by their languages: each call, and what its comment says of the key."""
    head = (TOP / "README.md").read_text().partition("\n## ")[0]
    found = re.findall(r"^```(c|rust)\n.*\n((?:\S.*\n)+)```$", head, re.M)
    return {kind: re.findall(r"^(?:answer = )?(.*?)\??; +/[/*] (.*?)(?: \*/)?$", lines, re.M) for kind, lines in found}


def test_snippet_in_c(tmp_path, library):
    calls = snippets()["c"]
    lines = "".join(f"    it = {call};\n    told(it);\n" for call, _ in calls)
    (tmp_path / "snippet.c").write_text(f"""#include <faster_hex.h>
        #include <stdio.h>
        static unsigned char key[2];
        static void told(struct faster_hex_answer it) {{
            if (it.status == FASTER_HEX_DONE) printf("FASTER_HEX_DONE");
            else if (it.status == FASTER_HEX_INVALID_CHAR) printf("FASTER_HEX_INVALID_CHAR, index %zu", it.number);
            else printf("status %d", it.status);
            printf(": key is%s %02x %02x\\n", it.status ? " still" : "", key[0], key[1]);
        }}
        int main(void) {{
            struct faster_hex_answer it;
        {lines}}}
        """)
    program = compiled(CC, tmp_path / "snippet", tmp_path / "snippet.c", library / "libfaster_hex.a")
    assert runs([program]).splitlines() == [told for _, told in calls] and len(calls) == 2


def test_snippet_in_rust(tmp_path):
    needs(RUSTC)
    calls = snippets()["rust"]
    lines = "".join(f"    told({call}.map(drop), key);\n" for call, _ in calls)
    (tmp_path / "snippet.rs").write_text(f"""use faster_hex::hex_decode;
        fn told(it: Result<(), faster_hex::Error>, key: [u8; 2]) {{
            let still = it.map_or_else(|error| format!("Err: {{error}}; key is still"), |()| "key is".to_string());
            println!("{{still}} [{{:#04x}}, {{:#04x}}]", key[0], key[1]);
        }}
        fn main() {{
            let mut key = [0; 2];
        {lines}}}
        """)
    assert runs([over_crate(tmp_path, "snippet.rs")]).splitlines() == [told for _, told in calls] and len(calls) == 2


def over_crate(folder, source):
    """Builds a program over our Rust crate, and returns it."""
    own = [RUSTC, "--edition", "2021", "--out-dir", folder]
    features = [word for it in ("std", "alloc") for word in ("--cfg", f'feature="{it}"')]
    runs([*own, *features, "--crate-type", "rlib", "--crate-name", "faster_hex", TOP / "bindings/rust/src/lib.rs"])
    runs([*own, "--extern", f"faster_hex={folder}/libfaster_hex.rlib", folder / source])
    return folder / source.removesuffix(".rs")


def test_snippet_of_the_crate(tmp_path):
    """The page of our Rust crate has a snippet with an assertion."""
    needs(RUSTC)
    block, = re.findall(r"^```rust\n(.*?)^```$", (TOP / "bindings/rust/README.md").read_text(), re.M | re.S)
    assert "assert_eq!" in block
    (tmp_path / "snippet.rs").write_text(f"fn main() {{\n{block}}}\n")
    runs([over_crate(tmp_path, "snippet.rs")], out="")


@pytest.mark.parametrize("source, options", [("c", "-std=c99"), ("cpp", "-std=c++17 -Wold-style-cast")])
def test_example(tmp_path, target, source, options):
    folder, cc, cxx, runner = target
    needs(*runner.split()[:1])
    words = [*options.split(), "-O2", TOP / f"examples/{source}/digits.{source}", folder / "libfaster_hex.a"]
    program = compiled(cc if source == "c" else cxx, tmp_path / "digits", *words)
    runs([*runner.split(), program], out=PRINTED)


@pytest.mark.parametrize("standard", ["c++17", "c++20", "c++2b"])
@pytest.mark.parametrize("compiler", [CXX, "clang++"])
def test_header_of_cpp(tmp_path, library, compiler, standard):
    words = [f"-std={standard}", "-Wold-style-cast", TESTS_IN_C / "strings.cpp", library / "libfaster_hex.a"]
    passes([compiled(compiler, tmp_path / "strings", *words)])


@pytest.mark.parametrize("compiler", [CXX, "clang++"])
def test_header_of_cpp_under_an_older_standard(compiler):
    """One error says which standard is needed."""
    needs(compiler)
    words = [compiler, "-std=c++14", f"-I{CRATE}", "-fsyntax-only", "-x", "c++", "-"]
    done = ran(words, input='#include "faster_hex.hpp"\n')
    errors = [it for it in done.stdout.splitlines() if "error:" in it]
    assert done.returncode and len(errors) == 1 and "needs C++17" in errors[0], done.stdout


@pytest.mark.parametrize("call", REFUSED)
@pytest.mark.parametrize("compiler, standard", [(CXX, "c++20"), ("clang++", "c++17")])
def test_what_the_header_of_cpp_refuses(tmp_path, compiler, standard, call):
    """A call that would read something other than it seems to does not compile, and one error says why."""
    needs(compiler)
    text = f"""#include "faster_hex.hpp"
        std::string text;
        char room[2];
        using namespace faster_hex;
        void refused() {{ (void){call}; }}
        """
    done = ran([compiler, f"-std={standard}", *STRICT, "-fsyntax-only", "-x", "c++", "-"], input=text)
    # An error in a header of the system only explains why a call does not fit.
    errors = [it for it in done.stdout.splitlines() if re.match("(?!/usr/).* error:", it)]
    assert done.returncode and len(errors) == 1 and REFUSED[call] in errors[0], done.stdout
