"""bench/report writes each table of bench/README.md and the chart, and bench/run times our calls beside other
libraries. No test looks at a time."""
import os
import re
import shutil
from xml.etree import ElementTree

import pytest

from commands import RUSTC, TOP, needs, ran, runs
from packages import REGISTRY

PAGES = "bench/README.md", "bench/chart.svg"
LIBRARIES = "Bunkmedlar (Rust)", "Bunkmedlar (C)", "faster-hex 1.0.0", "hex 0.4.3", "OpenSSL 3.0"
# A table of a page, or a chart.
MADE = r"(?:(?:.* \| .*\n|---.*\n)+|<svg (?:.*\n)*?</svg>\n)"


def outputs():
    """An output that has a time for each call of each table. A call of ours takes 1 ns, and every other one takes 4."""
    time = lambda name: 4 if re.search("theirs|rust|avx512_|avx2_|sse41|slices|loop| by (?!Bunk|fhex)", name) else 1
    sizes = {*range(1, 9), 16, 32, 64, 128, 192, 256, 384, 4096, 65536}
    calls = [f"{build}_{call}" for build in ("v2", "v3", "sse41", "avx2", "slices_v2", "slices_v3")
             for call in ("check", "encode", "decode")]
    calls += [f"{build}_{call}_{n}" for build in ("v2", "v3", "loop") for call in ("write", "read") for n in (1, 16)]
    calls += [f"{build}_lines_{n}" for build in ("v2", "v3") for n in (30, 38)]
    calls += [f"{build}_{plan}_{call}" for build in ("v1", "v2", "v3", "v4") for call in ("check", "encode", "decode")
              for plan in ("scalar", "avx2", "plain", "plain_32", "plain_64")]
    names = ("hex_string", "hex_decode_vec", "{}", "hex_decode_array", "hex_encode", "hex_decode", "hex_check",
             "hex_append", "hex_check_with_case", "{:>}")
    calls += [f"{widest} {side} {it}" for widest in ("avx512", "avx2") for side in ("ours", "theirs") for it in names]
    calls += [f"{call} by {it}" for call in ("encode", "decode") for it in LIBRARIES]
    calls += [f"{it} by {command}" for it in ("encode of bytes", "decode of one line")
              for command in ("fhex-stream", "xxd")]
    lines = [f"{call}\t{size}\t{time(call):.2f}" for call in calls for size in {6, *sizes}]
    return "\n".join(["# Run on a machine.", "code of libfaster_hex.so\t0\t5000000", *lines, ""])


@pytest.mark.quick
def test_report(tmp_path):
    """It replaces the tables of the page and the chart, and nothing else. A second time it writes the same."""
    for page in (*PAGES, "bench/report", "bench/processor.py"):
        (tmp_path / page).parent.mkdir(exist_ok=True)
        shutil.copy(TOP / page, tmp_path / page)
    pages = [tmp_path / it for it in PAGES]
    before = "".join(it.read_text() for it in pages)
    processors = {*re.findall("^<!-- .* on (.*) -->$", before, re.M)}
    for name in processors:
        (tmp_path / "out/bench" / name).mkdir(parents=True)
        (tmp_path / "out/bench" / name / "times").write_text(outputs())
    for name in processors:
        runs([tmp_path / "bench/report", "--write", name], out="")
    written = [it.read_text() for it in pages]
    for name in processors:
        runs([tmp_path / "bench/report", "--write", name], out="")
    assert written == [it.read_text() for it in pages]
    text = "".join(written)
    marked = re.findall(r"^<!-- (.*) -->\n(.*)\n", text, re.M)
    printed = {it: re.findall("^(.*):$", runs([tmp_path / "bench/report", it]), re.M) for it in processors}
    assert {name for name, _ in marked} <= {f"{name} on {it}" for it, names in printed.items() for name in names}
    assert {it.partition(" on ")[0] for it, _ in marked} == {it for names in printed.values() for it in names}
    assert ran([tmp_path / "bench/report", "no-such-processor"]).returncode == 2
    # No processor has the times of `outputs`, so a table that was written is none of those before.
    for name, first in marked:
        made = re.search(rf"^<!-- {name} -->\n({MADE})", text, re.M)[1]
        assert made not in before, f"{name} begins with {first} and was not written"
    unmarked = lambda text: re.sub(f"(?<= -->\n){MADE}", "", text)
    assert unmarked(text) == unmarked(before)


@pytest.mark.quick
def test_chart():
    """It is a picture that README.md shows. Each library has a line for encoding and one for decoding."""
    text = (TOP / "bench/chart.svg").read_text()
    root = ElementTree.fromstring(text)
    said = [it.text for it in root.iter("{http://www.w3.org/2000/svg}text")]
    assert "](bench/chart.svg)" in (TOP / "README.md").read_text()
    named = [it for it in said if re.search(r" \d+\.\d+\.\d+$|^Bunkmedlar", it)]
    assert {*LIBRARIES[:4]} <= {*named} and sorted(named) == sorted([*{*named}] * 2)
    assert len(named) == sum(it.endswith(" GB/s") for it in said) == sum(it.endswith(" ns") for it in said)
    assert {it.get("class") for it in root.iter("{http://www.w3.org/2000/svg}rect")} == {"page", "ours", "other"}


@pytest.mark.quick
def test_commands_of_the_page():
    """The page's commands are there, and take the options that it gives them."""
    block = re.search("^## Method\n\n```text\n(.*?)^```$", (TOP / "bench/README.md").read_text(), re.M | re.S)[1]
    assert {line.split()[0] for line in block.splitlines()} == {"bench/run", "bench/stream", "bench/report"}
    for line in block.splitlines():
        command = TOP / line.split()[0]
        assert os.access(command, os.X_OK)
        assert {*re.findall(r"--\w+", line)} <= {*re.findall(r'add_argument\("(--\w+)', command.read_text())}, line


@pytest.mark.quick
@pytest.mark.parametrize("words", [[], ["--others", "--plans"], ["--rest"]])
def test_words_that_run_does_not_take(words):
    done = ran([TOP / "bench/run", *words])
    assert done.returncode == 2 and "run --others [--rust DIR]" in done.stdout


def test_others(tmp_path):
    """The answers of all libraries are checked, and then all are timed. A crate that is not there is left out, and a
    line says so."""
    needs(RUSTC)
    if "avx2" not in open("/proc/cpuinfo").read():
        pytest.skip("this processor has no AVX2")
    crates = [*REGISTRY.glob("hex-[0-9]*")]
    for it in crates:
        (tmp_path / it.name).symlink_to(it)
    env = {**os.environ, "CRATES": f"{tmp_path}", "BENCH_BUILD": f"{tmp_path}/build"}
    said = runs([TOP / "bench/run", "--others"], env=env)
    assert "# librust-data-encoding-dev is not installed, so data-encoding is left out\n" in said
    timed = {*re.findall(r"^(?:encode|decode) by (\S+).*\t(\d+)\t[\d.]+$", said, re.M)}
    wanted = {"Bunkmedlar", *(["hex"] * len(crates))}
    wanted |= {name for name, package in {"libsodium": "libsodium-dev", "OpenSSL": "libssl-dev"}.items()
               if f"# {package} is not installed, so it is left out\n" not in said}
    assert timed == {(name, size) for name in wanted for size in ("32", "4096", "65536")}
    sized = re.findall(r"^code of (\S+)\t0\t\d+$", said, re.M)
    assert sized == ["libfaster_hex.a", "libfaster_hex.so", "fhex", "fhex-stream"]
