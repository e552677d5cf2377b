"""What several tests share: paths, compilers, functions that run commands, and programs that use a library."""
import os
import random
import re
import shutil
import signal
import subprocess
from pathlib import Path

import pytest

TOP = Path(__file__).resolve().parent.parent
OUT = TOP / "out"
# The folder for what tests build for other targets.
BESIDE = OUT / "beside"
TESTS_IN_C = TOP / "tests/c"
CRATE = TOP / "crates/faster_hex_c"
# The calls of the header that check, search or convert, and all of its functions. Some builds lack some of the calls.
CALLS = re.findall(r"^[a-z].* (faster_hex_[a-z_]*)\(", (CRATE / "faster_hex.h").read_text(), re.M)
NAMES = [*CALLS, "faster_hex_status_text", "faster_hex_version", "faster_hex_build"]
VERSION = re.search("^VERSION = (.*)", (TOP / "Makefile").read_text(), re.M)[1]
SHARED = "libfaster_hex.so", "libfaster_hex.so.1", f"libfaster_hex.so.{VERSION}"
CC, CXX = os.environ.get("CC") or "cc", os.environ.get("CXX") or "c++"
CARGO, RUSTC = os.environ.get("CARGO") or "cargo", os.environ.get("RUSTC") or "rustc"
ARM_CC, ON_ARM = "aarch64-linux-gnu-gcc", "qemu-aarch64 -L /usr/aarch64-linux-gnu"
WINDOWS_CC = "x86_64-w64-mingw32-gcc"
# Commands that change a file while a record of it is made. The second one then restores it.
CHANGES = {"changed": "echo >>{0}", "changed and changed back": "cp {0} it && echo >>{0} && cat it >{0} && rm it"}
# An environment with the tools of the system only, so without the Rattle toolchain.
BY_SYSTEM = {"PATH": "/usr/bin:/bin"}
# The most seconds that a command of a test may take, and one that proves.
LIMIT, OF_PROOFS = 900, 14400
# The output of the examples in Rust, and of those in C and C++.
HELLO = "68656c6c6f\n"
BY_RUST = HELLO + "hello\ninvalid hex byte 0x46 at index 2\ndigits up to index 4\n"
PRINTED = BY_RUST + "00:1B:21:AB\n4 bytes, the last 0xab\n"
# The files of an installed copy: those that are built or filled in, and those that are copied.
INSTALLED = """bin/fhex bin/fhex-stream share/man/man1/fhex.1 share/man/man1/fhex-stream.1 lib/libfaster_hex.a
    lib/cmake/faster_hex/faster_hexConfig.cmake lib/cmake/faster_hex/faster_hexConfigVersion.cmake
    lib/pkgconfig/faster_hex.pc""".split()
INSTALLED += [f"lib/{name}" for name in SHARED] + [f"share/man/man3/{name}.3" for name in NAMES]
COPIED = re.findall("^([^# ]+) (.+)", (TOP / "bindings/installed.txt").read_text(), re.M)
INSTALLED += [f"{folder}/{it.name}" for pattern, folder in COPIED for it in TOP.glob(pattern)]
# The seed of random inputs. It is new in each run, unless SEED is given. All processes of a run find it in their
# environment.
SEED = os.environ.get("SEED") or os.environ.setdefault("DRAWN_SEED", f"{random.SystemRandom().randrange(10 ** 9)}")
STRICT = ["-Wall", "-Wextra", "-Wpedantic", "-Wconversion", "-Werror", f"-I{CRATE}"]
BUILT = "-std=gnu99 -O1 -g -pthread".split()
# The builds for x86-64, each with a flag of /proc/cpuinfo that its processors have.
BUILDS = {"x86-64": "sse2", "x86-64-v2": "sse4_2", "x86-64-v3": "avx2", "x86-64-v4": "avx512bw"}
BUILDS["x86-64-vbmi"] = "avx512vbmi"
# Processor models of qemu, and the build that a call uses there.
MODELS = {"qemu64": "x86_64", "qemu64,-sse3": "x86_64", "Nehalem": "x86_64_v2", "Haswell": "x86_64_v3"}
MODELS |= dict.fromkeys(("Haswell,-avx2", "Haswell,-avx", "Haswell,-xsave"), "x86_64_v2")


def needs(*tools):
    """Skips a test if a command is not installed."""
    if lacks := [it for it in tools if not shutil.which(it)]:
        pytest.skip(f"there is no {' and no '.join(lacks)}")


def make(*words, top=TOP):
    return ["make", "-s", "-C", top, *words]


def make_beside(folder, *words):
    """Builds for another target into a folder of BESIDE. The record of the last build stays as it is, because the next
    `make test-c` reads it."""
    return make(*words, f"OUT=out/beside/{folder}", f"BUILT=out/beside/{folder}/built")


def only(folder, tools):
    """An environment in which only these tools are found. `tools` maps a name to the command that it stands for."""
    folder.mkdir()
    for name in filter(lambda it: shutil.which(tools[it]), tools):
        (folder / name).symlink_to(shutil.which(tools[name]))
    kept = {it: os.environ[it] for it in ("HOME", "RUSTUP_HOME", "CARGO_HOME") if it in os.environ}
    return {"HOME": "/", **kept, "PATH": f"{folder}"}


def ran(words, timeout=LIMIT, **how):
    """Runs a command, and returns its status and output. After `timeout` seconds it is killed, with all that it
    started."""
    pipes = {"stdout": subprocess.PIPE, "stderr": subprocess.STDOUT, "text": True, "errors": "replace"}
    given = how.pop("input", None)
    if given is not None:
        how["stdin"] = subprocess.PIPE
    with subprocess.Popen(words, start_new_session=True, **{**pipes, **how}) as process:
        try:
            out, err = process.communicate(given, timeout)
        except BaseException as why:
            os.killpg(process.pid, signal.SIGKILL)
            if isinstance(why, subprocess.TimeoutExpired):
                pytest.fail(f"{words} did not end within {timeout} s:\n{process.communicate()[0]}")
            raise
    return subprocess.CompletedProcess(words, process.returncode, out, err)


def runs(words, status=0, out=None, err=None, **how):
    """Runs a command that must end with this status, and must print `out` and `err` if they are given. Returns its
    output."""
    done = ran(words, **{"stderr": subprocess.PIPE, **how})
    said = f"{words} ended with {done.returncode}:\n{done.stdout}{done.stderr}"
    assert done.returncode == status, said
    assert out in (None, done.stdout) and err in (None, done.stderr), said
    return done.stdout


def passes(words, **how):
    """Runs tests that print `N passed, M failed` or the summary of `cargo test`. Some must pass, and none may fail."""
    done = ran(words, **how)
    found = re.findall(r"^(?:test result: \w+\. )?(\d+) passed[,;] (\d+) failed", done.stdout, re.M)
    passed, failed = (sum(int(it[at]) for it in found) for at in (0, 1))
    assert passed and not failed and done.returncode == 0, f"{words}:\n{done.stdout}"


def drawn_lengths():
    """Some 200 random lengths up to a million. Their logarithms are evenly distributed, so many of them are short."""
    chance = random.Random(SEED)
    return sorted({int(2 ** chance.uniform(0, 20)) for _ in range(250)})


def has_files(folder, files):
    """Checks that exactly these files are below a folder."""
    assert {str(it.relative_to(folder)) for it in folder.rglob("*") if not it.is_dir()} == {*files}


def needs_clone():
    """Skips a test in an unpacked package, which is no clone."""
    if not (TOP / ".git").exists():
        pytest.skip("this is no clone by git")


def own_files():
    """The names of the files that belong to the repository, without those that commands made. In an unpacked package
    these are all files outside out/."""
    if not (TOP / ".git").exists():
        found = (it.relative_to(TOP) for it in TOP.rglob("*") if it.is_file())
        return [f"{it}" for it in found if not {"out", "__pycache__", ".pytest_cache"} & {*it.parts}]
    said = ran(["git", "ls-files", "-co", "--exclude-standard"], cwd=TOP).stdout
    return [it for it in said.splitlines() if (TOP / it).is_file()]


def copied(names, to):
    """Copies these files of the repository into a folder."""
    for name in names:
        (to / name).parent.mkdir(parents=True, exist_ok=True)
        shutil.copy(TOP / name, to / name)
    return to


def compiled(compiler, program, *words):
    """Builds a program that includes the header. The compiler must not warn."""
    needs(compiler)
    runs([compiler, *STRICT, "-o", program, *words])
    return program


def tries(made, compiler, library, options="", tool="", words=""):
    """Builds library.c with a library and runs its checks."""
    needs(compiler, *tool.split()[:1])
    built = [*options.split(), *BUILT, TESTS_IN_C / "library.c", library]
    passes([*tool.split(), compiled(compiler, made / "library", *built), *words.split()])


def names_build(made, compiler, library, build, tool="", before=None):
    """Checks the name of the build that calls use, also before the library's constructor has run."""
    needs(*tool.split()[:1])
    program = compiled(compiler, made / "build", "-std=gnu99", "-static", TESTS_IN_C / "build.c", library)
    runs([*tool.split(), program], out=f"{before or build} {build}\n")


def shared_of(made, folder):
    """Links a shared library to the name that the loader looks for. Returns the link, and the option with which it is
    found."""
    name = made / SHARED[1]
    name.symlink_to(folder / SHARED[2])
    return name, f"-Wl,-rpath,{made}"


def alone(made, build):
    """An option for the linker that gives the calls of one build the names of the header, so that no other build is
    linked. Calls that the builds for AVX-512 do not have are those of the build for AVX2."""
    if not re.search(rf"\b{BUILDS[build]}\b", Path("/proc/cpuinfo").read_text()):
        pytest.skip(f"the processor has no {BUILDS[build]}")
    named = lambda it, build: it.replace("hex_", f"hex_{VERSION}_{build}_").replace(".", "_").replace("-", "_")
    exported = re.findall(r"^\thex_export\t(\w+)", (TOP / f"generated/{build}.s").read_text(), re.M)
    own, names = {it: named(it, build) for it in CALLS}, made / f"names-{build}"
    taken = {it: name if name in exported else named(it, "x86-64-v3") for it, name in own.items()}
    names.write_text("\n".join(f"-Wl,--defsym={it}={name}_of_c" for it, name in taken.items()))
    return f"@{names}"


def is_locked(shared):
    """Checks that a loaded shared library can't be written, and that its stack can't be executed."""
    said = ran(["readelf", "-ldW", shared]).stdout
    assert all(it in said for it in ("GNU_RELRO", "BIND_NOW", "[libfaster_hex.so.1]")) and "TEXTREL" not in said
    assert re.search(" GNU_STACK .* RW ", said) and " RWE " not in said


def shows_names(shared):
    """Checks that a shared library exports exactly the header's functions, with the version of the interface."""
    said = ran(["readelf", "-W", "--dyn-syms", shared]).stdout
    assert {*re.findall(r" (\w+)@@FASTER_HEX_1$", said, re.M)} == {*NAMES}


def plugin_over(made, archive):
    """Links a shared library that contains an archive, and checks that it exports only its own function, which returns
    the version of that archive."""
    source = made / "plugin.c"
    source.write_text("#include <faster_hex.h>\nconst char *plugin(void) { return faster_hex_version(); }\n")
    words = "-shared", "-fPIC", f"-I{CRATE}", "-o", made / "libplugin.so", source, archive
    runs([CC, *words])
    assert re.findall(r" [A-Z] (\w+)$", runs(["nm", "-D", "--defined-only", made / "libplugin.so"]), re.M) == ["plugin"]


def stands_alone(archive):
    """Checks that an archive has machine code, without code for link-time optimization or a stack protector, and that
    each call has a section of its own, so that a linker can leave it out."""
    said = ran(["readelf", "-SsW", archive]).stdout
    assert ".text.faster_hex_decode" in said and not re.search("[.]gnu[.]lto_|__stack_chk", said)


def takes(made, model, program, out):
    """Checks which build a program uses on a processor model, by the names in qemu's log."""
    needs("qemu-x86_64")
    runs(["qemu-x86_64", "-cpu", model, "-d", "in_asm", "-D", made / "log", program], out=out)
    names = r"^IN: faster_hex_[\d_]*_(x86_64(?:_v\d)?)_"
    assert {*re.findall(names, (made / "log").read_text(), re.M)} == {MODELS[model]}


def by_cmake(source, built, *options, tool="", **how):
    """Builds the programs of examples/c, or of a copy of it, with CMake, and runs them."""
    needs("cmake")
    runs(["cmake", "-S", source, "-B", built, *options], **how)
    runs(["cmake", "--build", built], **how)
    for library in ("faster_hex", "archive"):
        runs([*tool.split(), *built.glob(f"over_{library}*")], out=PRINTED)
