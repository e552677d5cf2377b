"""The tables of docs/from-hex.md. Each line has an expression, a pattern or an attribute for another library and one
for ours. Programs that have the ones and the others must do the same."""
import re

import pytest

from commands import CC, CRATE, TOP, needs, ran, runs
from packages import needs_crates, packed

PAGE = (TOP / "docs/from-hex.md").read_text()
# The cells of each line, without the texts beside them.
ROWS = [re.findall("`([^`]+)`", line) for line in PAGE.splitlines() if re.match("`.* [|] `", line)]
OF_HEX, OF_ERRORS = [it for it in ROWS if re.search(r"encode|::decode|::from_hex", it[0])], \
    [it for it in ROWS if it[0].startswith("FromHexError::")]
OF_SERDE, OF_SODIUM = [it for it in ROWS if len(it) == 3], [it for it in ROWS if it[0].startswith("sodium_")]
# The calls that refuse their source, in the order of the table of errors: by `hex` and by our crate.
REFUSED = [('hex::decode("0")', 'hex_decode_vec(b"0")'), ('hex::decode("000g")', 'hex_decode_vec(b"000g")'),
           ('<[u8; 2]>::from_hex("000000")', 'hex_decode_array::<2>(b"000000")'),
           ('hex::decode_to_slice("000000", &mut [0; 2])', 'hex_decode(b"000000", &mut [0; 2])')]
NAMES = "use hex::{FromHex, FromHexError, ToHex};", "use faster_hex::*;\nuse faster_hex::Error;"
PROGRAM = """#![allow(unused_imports)]
%s
use serde::{Deserialize, Serialize};

#[derive(Debug, Deserialize, Serialize)]
struct Record {
%s}

fn main() -> Result<(), Box<dyn std::error::Error>> {
    let (bytes, text) = ([0x01u8, 0xab], "01aB");
    let bytes = &bytes[..];
    let (mut room, mut digits) = ([0u8; 2], [0u8; 4]);
%s
    println!("{room:?} {digits:?}");
    let record: Record = serde_json::from_str(r#"{"it0":"01aB","it1":"01aB","it2":"01aB"}"#)?;
    println!("{record:?} {}", serde_json::to_string(&record)?);
    Ok(())
}
"""
IN_C = """#include <faster_hex.h>
#include <sodium.h>
#include <stdio.h>
int main(void) {
    unsigned char bytes[2] = { 1, 0xab };
    char text[5] = "";
    size_t len = 0;
    %s;
    bytes[0] = bytes[1] = 0;
    %s;
    printf("%%.4s %%d %%d\\n", text, bytes[0], bytes[1]);
}
"""


def program(which):
    """The program by `hex`, or by our crate."""
    made = [row[which] for row in OF_HEX]
    printed = lambda it: f'    println!("{{:?}}", {it});'
    lines = [printed(it) if "to_slice" not in row[0] else f"    {it};" for row, it in zip(OF_HEX, made)]
    for calls, row in zip(REFUSED, OF_ERRORS):
        lines.append(f'    println!("{{}}", matches!({calls[which]}, Err({row[which]})));')
    fields = [f"    {row[1 + which]}\n    it{at}: {row[0]},\n" for at, row in enumerate(OF_SERDE)]
    return PROGRAM % (NAMES[which], "".join(fields), "\n".join(lines))


def test_length():
    assert PAGE.count("\n") <= 60
    assert [len(it) for it in (OF_HEX, OF_ERRORS, OF_SERDE, OF_SODIUM)] == [9, len(REFUSED), 3, 2]


def test_program_that_used_hex(tmp_path, cargo):
    needs_crates("hex", "serde", "serde_json")
    printed = []
    for which, name in enumerate(("hex", "faster-hex")):
        (tmp_path / name / "src").mkdir(parents=True)
        (tmp_path / name / "src/main.rs").write_text(program(which))
        own = '{ version = "0.4", features = ["serde"] }'
        if name == "faster-hex":
            own = f'{{ path = "{packed(tmp_path / "crate")}", features = ["serde"] }}'
        text = f'[package]\nname = "ported"\nversion = "1.0.0"\nedition = "2021"\n[dependencies]\n{name} = {own}\n'
        text += 'serde = { version = "1", features = ["derive"] }\nserde_json = "1"\n'
        (tmp_path / name / "Cargo.toml").write_text(text)
        printed.append(runs([*cargo, "run", "-q"], cwd=tmp_path / name))
    assert printed[0] == printed[1] and printed[0].count("true") == len(REFUSED)
    assert '{"it0":"01ab","it1":"01ab","it2":"01AB"}' in printed[0]


def test_program_that_used_libsodium(tmp_path, library):
    needs("pkg-config")
    if ran(["pkg-config", "--exists", "libsodium"]).returncode:
        pytest.skip("there is no libsodium")
    for which in 0, 1:
        (tmp_path / "ported.c").write_text(IN_C % tuple(row[which] for row in OF_SODIUM))
        words = f"-I{CRATE}", tmp_path / "ported.c", library / "libfaster_hex.a", "-lsodium"
        runs([CC, "-Wno-unused-result", "-o", tmp_path / "ported", *words])
        runs([tmp_path / "ported"], out="01ab 1 171\n")
