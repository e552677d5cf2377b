#!/bin/sh
# Checks facts that no proof covers. It prints each difference, and its status is then 1.
# Usage: tests/header.sh
#
# - faster_hex.h and the functions that Rattle exports must agree: on the types and the order of the answer's fields,
#   on the numbers of the statuses, and on the name, the result and the parameters of each function. A Source or a
#   Destination is a pointer and a length.
# - dispatch.c must define the functions of the header, and faster_hex.map and faster_hex.def must export them.
# - The header, our Rust crate, CMakeLists.txt, fhex-stream, the manual pages, bunkmedlar.spdx and the names of
#   generated/ must have the version that the Makefile calls VERSION.
# - Each PROVED in generated/ must fit the sources, its files, and the prover that CALLING.md names.
set -eu
case ${1-} in -h | --help) sed '1d; /^#/!q; s/^# \{0,1\}//' "$0" && exit ;; esac

cd "$(dirname "$0")/../crates/faster_hex_c"
made=$(mktemp -d)
trap 'rm -rf "$made"' EXIT

# The header without comments, one declaration on each line, with the names that Rust has for the types.
sed '/^#/d; s/.*\\$//' faster_hex.h | tr '\n' ' ' | sed 's|/\*[^*]*\*\([^*/][^*]*\*\)*/||g' | tr ';{' '\n\n' | sed '
    s/FASTER_HEX_MUST_USE//
    s/const void \*[a-z]*, size_t [a-z]*/Source/g
    s/void \*[a-z]*, size_t [a-z]*/Destination/g
    s/struct faster_hex_answer \(faster\)/Answer \1/
    s/size_t/usize/g
    s/uint8_t/u8/g
    s/  */ /g
    s/^[ }]*//' >"$made/header"
{
    sed -n 's/^\(usize\|u8\) \([a-z_]*\)$/\2: \1/p' "$made/header"
    sed -n 's/^\(bool\|Answer\) \(faster_hex_[a-z_]*\)(\(.*\))$/\2(\3) -> \1/p' "$made/header" |
        sed 's/\(u8\|usize\|bool\) [a-z]*\([,)]\)/\1\2/g'
    sed -n 's/^ *FASTER_HEX_\([A-Z_]*\) = \([0-9]*\).*/\1 \2/p' faster_hex.h | sed '/CASE /d'
    echo "#[repr(C)] pub struct Source<'a>(pub &'a [u8]);"
    echo "#[repr(C)] pub struct Destination<'a>(pub &'a mut [u8]);"
} >"$made/declared"

{
    sed -n '/^pub struct Answer {$/,/^}$/s/^    pub \([a-z_]*: [a-z0-9]*\),$/\1/p' src/lib.rt
    { tr '\n' ' ' <src/lib.rt; echo; } | sed 's/pub extern "C" fn /\n/g' |
        sed -n 's/^\(faster_hex_[a-z_]*\)( *\([^)]*[^ ,]\),\{0,1\} *) -> \([A-Za-z]*\) .*/\1(\2) -> \3/p' |
        sed 's/[a-z]*: //g; s/, */, /g; s/  */ /g'
    sed -n 's/^const \([A-Z_]*\): u8 = \([0-9]*\);$/\1 \2/p' src/lib.rt
    sed '/^#\[derive/d' src/lib.rt | grep -B1 '^pub struct [A-Z][a-z]*<' | grep -v '^--' | paste -d ' ' - -
} >"$made/exported"

# versions: prints each place that names a version, with that version.
versions() {
    sed -n 's/^#define FASTER_HEX_VERSION "\(.*\)"$/faster_hex.h \1/p' faster_hex.h
    echo "its-numbers $(sed -n 's/^#define FASTER_HEX_VERSION_[A-Z]* \([0-9]*\)$/\1/p' faster_hex.h |
        tr '\n' . | sed 's/\.$//')"
    sed -n 's/^version = "\(.*\)+bunkmedlar"$/bindings \1/p' ../../Cargo.toml
    sed -n 's/^PackageVersion: \([0-9.]*\)\(+bunkmedlar\)*$/bunkmedlar.spdx \1/p' ../../bunkmedlar.spdx
    sed -n 's/^project(.* VERSION \([0-9.]*\) .*/CMakeLists.txt \1/p' ../../CMakeLists.txt
    sed -n 's/^const VERSION: &str = "\(fhex-stream\) \(.*\)";$/\1 \2/p' ../hex_program/src/stream.rt
    sed -n 's/^\.TH \([A-Z_-]* [13]\) .* "Bunkmedlar \([0-9.]*\)" .*/\1\n\2/p' ../../docs/*.[13] | paste -d ' ' - - |
        tr -d '()' | sed 's/ \([13]\) /.\1 /'
    grep -L '^\.TH [A-Z_-]* [13] .* "Bunkmedlar [0-9.]*" ' ../../docs/*.[13] | sed 's/$/ none/'
    sed -n 's/^\thex_export\tfaster_hex_\([0-9]*\)_\([0-9]*\)_\([0-9]*\)_\(.*\)/\4 \1.\2.\3/p' ../../generated/*.s
}

# The functions that dispatch.c defines: most of them by a macro, and three without it.
{
    sed -n 's/^CALL(\([a-z]*\), \([a-z_]*\),.*/faster_hex_\2/p' dispatch.c
    sed -n 's/^PUBLIC const char \*\(faster_hex_[a-z_]*\)(.*{$/\1/p' dispatch.c
} | sort >"$made/dispatched"
sed 's/.*[ *]\(faster_hex_[a-z_]*\)(.*/\1/; t; d' "$made/header" | sort >"$made/named"

status=0
[ -s "$made/declared" ] || { echo 'nothing is declared' && status=1; }
diff "$made/declared" "$made/exported" || status=1
diff "$made/named" "$made/dispatched" || status=1
for list in faster_hex.map faster_hex.def; do
    sed '/^LIBRARY/d' "$list" | grep -o 'faster_hex_[a-z_]*' | sort | diff "$made/named" - || status=1
done
wanted=$(sed -n 's/^VERSION = //p' ../../Makefile)
versions | awk -v wanted="$wanted" '
    $2 != wanted { print $1 ": version " $2 ", and not " wanted " as in the Makefile"; wrong = 1 }
    END { exit wrong }' || status=1

# proved FOLDER CRATE: checks the PROVED of a folder. It must list the proofs of the crate and of all crates below it,
# by a prover with the logic that CALLING.md names. scripts/check-generated compares it with the sources and the files.
proved() {
    crates=$(scripts/repository.py "$2" | sort)
    told=$(sed -n 's/ logic=proved .*//p' "$1/PROVED" | sort -u)
    [ "$told" = "$crates" ] || { echo "$1/PROVED tells of" $told ", and not of" $crates && return 1; }
    prover=$(sed -n 's/^prover //p' "$1/PROVED")
    grep -qF "\`logic ${prover#* logic }\`" crates/faster_hex/CALLING.md ||
        { echo "CALLING.md does not name the prover $prover" && return 1; }
    UNPROVED= scripts/check-generated "$1" 2>&1
}
cd ../..
proved generated faster_hex_c || status=1
for program in $(sed -n 's/^PROGRAMS = //p' Makefile); do
    proved "generated/$program" "$(echo "$program" | tr - _)" || status=1
done
proved generated/rattle callers || status=1
exit "$status"
