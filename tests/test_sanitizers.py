"""Sanitizers report wrong uses of the library if it is built with the same options: each fault of faults.c, and nothing
if there is no fault. `make` builds the library so too."""
import pytest

from commands import CRATE, TESTS_IN_C, TOP, compiled, make, needs, ran, runs

pytestmark = pytest.mark.quick
OF_ADDRESS = {"none": "", "short-destination": "heap-buffer-overflow", "short-source": "heap-buffer-overflow"}
OF_ADDRESS |= {"short-invalid": "heap-buffer-overflow", "freed": "heap-use-after-free", "unwritten": ""}
OF_MEMORY = {"none": "", **dict.fromkeys(("unwritten", "unwritten-invalid", "freed"), "use-of-uninitialized-value")}
OF_THREADS = {"none": "", "race-source": "data race", "race-destination": "data race"}
CASES = [(compiler, "address", *it) for compiler in ("gcc", "clang") for it in OF_ADDRESS.items()]
CASES += [("clang", "memory", *it) for it in OF_MEMORY.items()]
CASES += [(compiler, "thread", *it) for compiler in ("gcc", "clang") for it in OF_THREADS.items()]


@pytest.mark.parametrize("compiler, sanitizer, fault, report", CASES)
def test_fault(tmp_path, compiler, sanitizer, fault, report):
    sources = TESTS_IN_C / "faults.c", CRATE / "dispatch.c", TOP / "generated/builds.S"
    words = ["-std=gnu99", "-g", "-pthread", f"-fsanitize={sanitizer}", "-fPIE", "-pie", *sources]
    done = ran([compiled(compiler, tmp_path / "faults", *words), fault])
    if report:
        assert done.returncode not in (0, 3) and report in done.stdout
    elif fault == "none":
        assert done.returncode == 0, done.stdout
    else:
        assert done.returncode in (0, 3) and "Sanitizer" not in done.stdout


@pytest.mark.parametrize("compiler", ["gcc", "clang"])
def test_library_under_its_own_tests(copy, compiler):
    needs(compiler)
    words = f"CC={compiler}", "CFLAGS=-O1 -g -fsanitize=address,undefined -fno-sanitize-recover=all"
    runs(make("test-c", *words, top=copy))
