"""library.c with the library and with each build, linked in several ways and run by several tools."""
import pytest

from commands import (ARM_CC, BUILDS, BUILT, CC, CRATE, MODELS, ON_ARM, OUT, PRINTED, TESTS_IN_C, TOP, VERSION,
                      alone, compiled, make, names_build, passes, plugin_over, ran, runs, shared_of, takes, tries)

SANITIZED = "-fsanitize=address,undefined -fno-sanitize-recover=all"
# The compiler and the options for library.c, the tool that runs it, and its arguments.
RUNS = [
    (CC, "", "", ""), (CC, "", "", "threads"), (CC, "-Wl,--gc-sections", "", ""), (CC, "-static-pie", "", ""),
    (CC, SANITIZED, "", ""), (CC, SANITIZED, "", "threads"), (CC, "-fsanitize=thread", "", "threads"),
    (CC, "", "valgrind -q --error-exitcode=3", ""), ("musl-gcc", "-static", "", ""),
    (CC, "", "valgrind -q --error-exitcode=3 --tool=helgrind", "threads"),
]


@pytest.mark.parametrize("compiler, options, tool, words", RUNS)
def test_archive(tmp_path, library, compiler, options, tool, words):
    tries(tmp_path, compiler, library / "libfaster_hex.a", options, tool, words)


def test_shared_library(tmp_path, library):
    tries(tmp_path, CC, *shared_of(tmp_path, library))


@pytest.mark.parametrize("words", ["", "threads"])
@pytest.mark.parametrize("is_shared", [False, True])
def test_aarch64(tmp_path, arm, is_shared, words):
    linked = shared_of(tmp_path, arm) if is_shared else (arm / "libfaster_hex.a", "")
    tries(tmp_path, ARM_CC, *linked, ON_ARM, words)


def test_record_of_the_last_build(arm):
    """It is that of this processor, although the tests have built for another one: `make test-c` reads it."""
    record = OUT / "built"
    assert not record.exists() or f"CC = {ARM_CC}\n" not in record.read_text()


def test_name_of_the_build_on_aarch64(tmp_path, arm):
    names_build(tmp_path, ARM_CC, arm / "libfaster_hex.a", "aarch64", ON_ARM)


@pytest.mark.parametrize("build", BUILDS)
def test_build_alone(tmp_path, library, build):
    tries(tmp_path, CC, library / "builds.o", alone(tmp_path, build))


@pytest.mark.parametrize("model", MODELS)
def test_model(tmp_path, library, model):
    archive = library / "libfaster_hex.a"
    tries(tmp_path, CC, archive, "-static", f"qemu-x86_64 -cpu {model}")
    program = compiled(CC, tmp_path / "digits", "-static", TOP / "examples/c/digits.c", archive)
    takes(tmp_path, model, program, PRINTED)
    build = MODELS[model].replace("_v", "-v").replace("_", "-")
    names_build(tmp_path, CC, archive, build, f"qemu-x86_64 -cpu {model}", "x86-64")


def test_dispatch(tmp_path, library):
    compiled(CC, tmp_path / "dispatch.o", "-std=c11", "-c", CRATE / "dispatch.c")
    passes([compiled(CC, tmp_path / "dispatch", "-std=gnu99", TESTS_IN_C / "dispatch.c", library / "libfaster_hex.a")])


def test_two_copies_and_calls_that_are_not_made(tmp_path, library):
    words = ["-Wl,--gc-sections", TESTS_IN_C / "loading.c", library / "libfaster_hex.a", "-ldl"]
    program = compiled(CC, tmp_path / "loading", *BUILT, *words)
    passes([program, shared_of(tmp_path, library)[0]])
    assert "faster_hex_check" not in ran(["nm", program]).stdout


def test_archive_in_a_plugin(tmp_path, library, copy):
    """A program has one copy of the library, and its plugin another one. Each makes its calls in its own copy."""
    plugin_over(tmp_path, library / "libfaster_hex.a")
    runs(make("lib", "UNPROVED=yes", top=copy))
    shared, found = shared_of(tmp_path, copy / "out")
    text = "#include <faster_hex.h>\n#include <stdio.h>\nconst char *plugin(void);\n"
    text += 'int main(void) { printf("%s %s\\n", plugin(), faster_hex_version()); }\n'
    (tmp_path / "program.c").write_text(text)
    words = tmp_path / "program.c", tmp_path / "libplugin.so", shared, found
    runs([compiled(CC, tmp_path / "program", *words)], out=f"{VERSION} {VERSION}+unproved\n")
