"""The library on processors that bochs emulates, without an operating system: the level that dispatch.c finds, and the
answers of the build that a call uses there. So the builds for AVX-512 are tested on any machine. The model
corei7_icelake_u has AVX-512 VBMI."""
import os
import re
from pathlib import Path

import pytest

from commands import CC, CRATE, TESTS_IN_C, needs, ran, runs

# A processor model of bochs, the registers that a system would save, the level, and up to which length each length is
# tried. The other builds are tried at few lengths, because other tests run them.
SAVES_AVX, SAVES_AVX512 = 0x7, 0xe7
RUN = [("corei7_icelake_u", SAVES_AVX512, 5, 560), ("corei7_skylake_x", SAVES_AVX512, 4, 560),
       ("corei7_skylake_x", SAVES_AVX, 3, 64), ("corei7_haswell_4770", SAVES_AVX, 3, 64),
       ("corei7_sandy_bridge_2600k", SAVES_AVX, 2, 64)]
# Without a window, sound or a network port.
SETTINGS = """megs: 64
cpu: model={model}, count=1, ips=200000000, reset_on_triple_fault=0
romimage: file={folder}/rom, address=0xfff80000
log: {folder}/log
port_e9_hack: enabled=1
display_library: term
sound: driver=dummy
speaker: enabled=0
panic: action=fatal
clock: sync=none
"""
OPTIONS = "-std=gnu11 -O2 -mno-avx -ffreestanding -fno-pic -mno-red-zone -fno-stack-protector -fcf-protection=none"


@pytest.mark.parametrize("model, saved, level, most", RUN)
def test_model(tmp_path, library, model, saved, level, most):
    needs("bochs", "ld", "objcopy")
    if not [*Path("/usr/lib").glob("*/bochs/plugins/libbx_term_gui.so")]:
        pytest.skip("there is no bochs-term")
    program, words = tmp_path / "program", [*OPTIONS.split(), f"-I{CRATE}", f"-DSAVED={saved}", f"-DMOST={most}"]
    for source in "bare.S", "bare.c":
        runs([CC, *words, "-c", "-o", tmp_path / f"{source}.o", TESTS_IN_C / source])
    objects = [tmp_path / "bare.S.o", tmp_path / "bare.c.o", library / "builds.o"]
    runs(["ld", "-T", TESTS_IN_C / "bare.ld", "-e", "bare", "-o", program, *objects])
    runs(["objcopy", "-O", "binary", program, tmp_path / "rom"])
    (tmp_path / "settings").write_text(SETTINGS.format(model=model, folder=tmp_path))
    # Debian's bochs starts in its debugger. The command c continues.
    env = {**os.environ, "TERM": "vt100"}
    said = ran(["bochs", "-q", "-f", tmp_path / "settings"], input="c\n", timeout=300, env=env).stdout
    assert f"level {level}" in said and re.search(r"\d{3} passed, 0 failed", said), said[-2000:]
