#!/bin/sh
# Installs what `make` built. Files go into PREFIX (by default /usr/local), and libraries into LIBDIR (by default
# PREFIX/lib). DESTDIR is put before both. With --remove it removes the same files, and the library's own folders if
# nothing else is in them. `make install` and `make uninstall` run it, and set VERSION, PROGRAMS, OUT, which is the
# folder where the files were built, and SHARED, which is empty if no shared library was built.
# Usage: scripts/install.sh [--remove]
set -eu
case ${1-} in -h | --help) sed '1d; /^#/!q; s/^# \{0,1\}//' "$0" && exit ;; esac
umask 022
cd "$(dirname "$0")/.."

# absolute FOLDER: prints its absolute path, without double slashes. A relative path counts from the repository.
absolute() { case $1 in /*) echo "$1" ;; *) echo "$PWD/$1" ;; esac | sed 's|//*|/|g; s|\(.\)/$|\1|'; }
# place FILE COMMAND..: removes the file. Without --remove it then runs the command, with the file's name as its last
# argument, to make the file.
place() {
    to=${DESTDIR-}$1
    shift
    rm -f "$to"
    if [ -z "$word" ]; then
        mkdir -p "${to%/*}"
        "$@" "$to"
    fi
}
# fill TEMPLATE LINES FILE: writes the lines and then the template into the file.
fill() { printf '%s\n' "$2" | cat - "$1" >"$3"; }

word=${1-} PREFIX=${PREFIX-/usr/local}
PREFIX=$(absolute "${PREFIX:?names no folder}")
LIBDIR=$(absolute "${LIBDIR:-$PREFIX/lib}")
man=$PREFIX/share/man doc=$PREFIX/share/doc/faster_hex own=$PREFIX/share/faster_hex cmake=$LIBDIR/cmake/faster_hex
# If LIBDIR is below PREFIX, the installed files name PREFIX relative to LIBDIR, so that both can be moved together.
case $LIBDIR in
"$PREFIX"/*) below=${LIBDIR#"$PREFIX"/} libdir="\${prefix}${LIBDIR#"$PREFIX"}" from= ;;
*) below=${LIBDIR#/} libdir=$LIBDIR from=$PREFIX ;;
esac
up=$(echo "$below/cmake/faster_hex" | sed 's|[^/][^/]*|..|g')$from

for program in $PROGRAMS; do
    place "$PREFIX/bin/$program" install -m 755 "$OUT/$program"
    place "$man/man1/$program.1" install -m 644 "docs/$program.1"
done
while read -r pattern folder; do
    for file in $pattern; do
        [ "$pattern" = '#' ] || place "$PREFIX/$folder/${file##*/}" install -m 644 "$file"
    done
done <bindings/installed.txt
# Libraries of earlier versions are removed too.
rm -f "${DESTDIR-}$LIBDIR"/libfaster_hex.so.1.* "${DESTDIR-}$LIBDIR"/libfaster_hex.so.1 \
    "${DESTDIR-}$LIBDIR"/libfaster_hex.so
place "$LIBDIR/libfaster_hex.a" install -m 644 "$OUT/libfaster_hex.a"
if [ -n "${SHARED-}" ]; then
    place "$LIBDIR/libfaster_hex.so.$VERSION" install -m 755 "$SHARED"
    place "$LIBDIR/libfaster_hex.so.1" ln -s "libfaster_hex.so.$VERSION"
    place "$LIBDIR/libfaster_hex.so" ln -s libfaster_hex.so.1
fi
place "$LIBDIR/pkgconfig/faster_hex.pc" fill bindings/faster_hex.pc.in "prefix=$PREFIX
libdir=$libdir
version=$VERSION"
place "$cmake/faster_hexConfig.cmake" fill bindings/cmake/faster_hexConfig.cmake.in "set(faster_hex_up [[$up]])"
place "$cmake/faster_hexConfigVersion.cmake" fill bindings/cmake/faster_hexConfigVersion.cmake.in \
    "set(PACKAGE_VERSION $VERSION)"
for call in $(sed -n 's/^[a-z].*[ *]\(faster_hex_[a-z_]*\)(.*/\1/p' crates/faster_hex_c/faster_hex.h); do
    place "$man/man3/$call.3" ln -s faster_hex.3
done
[ -z "$word" ] || find "${DESTDIR-}$doc" "${DESTDIR-}$own" "${DESTDIR-}$cmake" -depth -exec rmdir {} \; 2>/dev/null || :
