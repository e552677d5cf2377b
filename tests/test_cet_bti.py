"""Control-flow protection (CET on x86-64, BTI on aarch64). Functions must begin with the instruction at which an
indirect branch may arrive, objects must say so in a note, a linker that requires the note must accept them, and no
branch of a build may be indirect."""
import re

import pytest

from commands import ARM_CC, CC, CRATE, TOP, needs, ran, runs

pytestmark = pytest.mark.quick
# The text of the note, the instruction at the beginning, an indirect branch, and the options with which compiler and
# linker require them.
X86_64 = "IBT, SHSTK", "endbr64", r"\tjmpq?\t\*", "-fcf-protection=full -Wl,-z,cet-report=error"
AARCH64 = "BTI", r"hint\t#34", r"\tbr\t", "-mbranch-protection=standard -Wl,-z,force-bti"
TARGETS = {CC: X86_64, "clang": X86_64, ARM_CC: AARCH64}


@pytest.mark.parametrize("form", ["", "-DFASTER_HEX_PORTABLE"])
@pytest.mark.parametrize("compiler", TARGETS)
def test_notes(tmp_path, compiler, form):
    """No library of the system is linked, because few of them have the note."""
    needs(compiler, "readelf")
    note, _, _, options = TARGETS[compiler]
    words = f"-std=c11 -O2 -fPIC -nostdlib -shared {options} {form}".split()
    made = tmp_path / "made.so"
    runs([compiler, *words, "-o", made, CRATE / "dispatch.c", TOP / "generated/builds.S"], out="", err="")
    assert re.search(rf"feature: .*{note}", ran(["readelf", "-n", made]).stdout)


@pytest.mark.parametrize("name", ["x86-64", "x86-64-v2", "x86-64-v3", "x86-64-v4", "x86-64-vbmi", "aarch64"])
def test_build(name):
    _, mark, branch, _ = AARCH64 if name == "aarch64" else X86_64
    text = (TOP / f"generated/{name}.s").read_text()
    exported = re.findall(r"^\thex_export\t\w+\n(?:\thex_lower\n)?((?:.*\n){2})", text, re.M)
    assert exported and all(re.search(mark, it) for it in exported)
    assert not re.search(branch, text)
