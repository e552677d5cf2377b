"""What `make dist` packs: it is built with only some tools, installed, and used by programs."""
import os
import platform
import re
import shutil

import pytest

from commands import (ARM_CC, BY_RUST, BY_SYSTEM, CARGO, CC, CXX, HELLO, INSTALLED, ON_ARM, PRINTED, RUSTC, SHARED, TOP,
                      VERSION, WINDOWS_CC, by_cmake, compiled, has_files, is_locked, make, needs, needs_clone, only,
                      passes, plugin_over, ran, runs, shows_names, stands_alone)

pytestmark = pytest.mark.quick
NAME = f"faster_hex-{VERSION}"
# A Debian package, which `dh` builds.
DEBIAN = {"control": """Source: digits
Maintainer: nobody <nobody@example.org>
Build-Depends: debhelper-compat (= 13)
Rules-Requires-Root: no

Package: digits
Architecture: any
Description: hexadecimal digits
"""}
DEBIAN |= {"changelog": """digits (1.0.0) unstable; urgency=low

  * The first one.

 -- nobody <nobody@example.org>  Sun, 29 Nov 2026 00:00:00 +0000
""", "rules": """#!/usr/bin/make -f
%:
	dh $@{}
"""}
# How a package is built: the words of the package's page, and what must be added to them.
WAYS = {"make": (" --buildsystem=makefile", "\n\noverride_dh_auto_install:\n\tdh_auto_install -- PREFIX=/usr")}
WAYS |= {"cmake": (" --buildsystem=cmake", "")}
# What CMake adds: a file for each way to build.
OF_CMAKE = r"/cmake/faster_hex/faster_hexConfig-\w+\.cmake"
# The tools that may build, test and install a pack.
TOOLS = f"""sh make date {CC} {CXX} gcc clang musl-gcc {ARM_CC} qemu-aarch64 ar as ld cp ln rm mv mkdir install cat
    sed grep sort dirname ls rmdir find xargs sha256sum awk cmake pkg-config {CARGO} {RUSTC} env uname"""
RUNNERS = {CC: "", "clang": "", "musl-gcc": "", ARM_CC: ON_ARM}
# Versions that a CMake project asks for, and whether they are refused.
VERSIONS = {"1": 0, "1.0": 0, "1.0.0 EXACT": 0, "1.0.1": 1, "1.1": 1, "2": 1, "0.9": 1}
# A library that uses ours and is exported.
OVER = """cmake_minimum_required(VERSION 3.14)
project(over C)
add_subdirectory(${TOP} faster_hex)
file(WRITE ${CMAKE_BINARY_DIR}/over.c "#include <faster_hex.h>\\nbool is_hex(void) { return faster_hex_check(0, 0); }")
add_library(over STATIC ${CMAKE_BINARY_DIR}/over.c)
target_link_libraries(over PUBLIC faster_hex::archive)
install(TARGETS over EXPORT over)
install(EXPORT over DESTINATION lib)
"""
# A program over an installed copy that has no shared library.
ALONE = """cmake_minimum_required(VERSION 3.14)
project(alone C)
find_package(faster_hex 1.0 REQUIRED)
if(TARGET faster_hex::faster_hex)
    message(FATAL_ERROR "there is no shared library")
endif()
add_executable(digits ${TOP}/examples/c/digits.c)
target_link_libraries(digits faster_hex::archive)
"""


def packed(to, umask, top=TOP):
    runs(make("dist", f"TO={to}", top=top), preexec_fn=lambda: os.umask(umask))
    return to / f"{NAME}.tar.gz"


def unpacked(pack, to):
    runs(["tar", "-xf", pack, "-C", to])
    return to / NAME


@pytest.fixture(scope="module")
def pack(tmp_path_factory):
    needs_clone()
    return packed(tmp_path_factory.mktemp("pack"), 0o022)


@pytest.fixture(scope="module")
def env(tmp_path_factory):
    tools = only(tmp_path_factory.mktemp("bin") / "tools", {it: it for it in TOOLS.split()})
    return {**tools, "REALGCC": "gcc"}


@pytest.fixture(scope="module")
def top(tmp_path_factory, pack, env):
    """An unpacked pack that was built. Beside it is an installed copy, which was then moved to `there`."""
    top = unpacked(pack, tmp_path_factory.mktemp("top"))
    runs(make(f"CC={CC}", top=top), env=env)
    runs(make(f"CC={CC}", "install", f"PREFIX={top}/here", top=top), env=env)
    (top / "here").rename(top.parent / "there")
    return top


@pytest.fixture(scope="module")
def of_cmake(tmp_path_factory, top):
    """What CMake installs, with flags of the user that would spoil both libraries if they came after ours."""
    needs("cmake")
    there = tmp_path_factory.mktemp("of cmake")
    flags = "-flto -fstack-protector-all -fno-pic -fno-pie -Wl,-z,norelro,-z,lazy,-z,notext"
    return installs(top, there / "built", there / "installed", [f"C_FLAGS={flags}", "EXE_LINKER_FLAGS=-no-pie"])


def installs(top, built, there, options, prefix="CMAKE_"):
    """Builds the pack with CMake and installs it."""
    options = [f"-D{prefix}{it}" for it in options]
    options += ["-DCMAKE_INSTALL_LIBDIR=lib", f"-DCMAKE_INSTALL_PREFIX={there}"]
    runs(["cmake", "-S", top, "-B", built, "-DFASTER_HEX_INSTALL=ON", *options])
    runs(["cmake", "--build", built])
    runs(["cmake", "--install", built])
    return there


@pytest.fixture
def flags(top, env):
    """The flags of pkg-config for the installed copy, with the paths to where it was moved."""
    needs("pkg-config")
    words = ["pkg-config", "--define-prefix", "--cflags", "--libs", f"faster_hex = {VERSION}"]
    there = top.parent / "there"
    flags = runs(words, env={**env, "PKG_CONFIG_PATH": f"{there}/lib/pkgconfig"}).split()
    assert flags == [f"-I{there}/include", f"-L{there}/lib", "-lfaster_hex"]
    return flags


def test_pack_by_another_umask_in_another_folder(tmp_path, pack):
    if ran(["git", "status", "--porcelain", "-uno"], cwd=TOP).stdout:
        pytest.skip("the last commit has other files")
    runs(["git", "clone", "-q", TOP, tmp_path / "clone"], preexec_fn=lambda: os.umask(0o077))
    assert packed(tmp_path, 0o077, tmp_path / "clone").read_bytes() == pack.read_bytes()


def test_pages_name_what_is_there(tmp_path, pack):
    top = unpacked(pack, tmp_path)
    for page in top.rglob("*.md"):
        links = re.findall(r"\]\(([^)#:]+)(?:#[^)]*)?\)", page.read_text())
        assert not [it for it in links if not (page.parent / it).exists()], page
    assert [*top.glob("crates/hex_core/src/*.rt")] and (top / "scripts/generate").is_file()


def test_pack_of_a_pack(tmp_path, pack):
    """A pack can't be packed again, and a line says why."""
    top = unpacked(pack, tmp_path)
    done = ran(make("dist", f"TO={tmp_path}", top=top))
    said = [it for it in done.stdout.splitlines() if not it.startswith("make: ")]
    assert done.returncode == 2 and len(said) == 1 and "takes a clone by git" in said[0]
    assert not [*tmp_path.glob("*.tar*")]


def test_files_of_the_pack(tmp_path, pack):
    """They are the files here. The header of the pack has no name and no time."""
    top = unpacked(pack, tmp_path)
    found = {str(it.relative_to(top)): it.read_bytes() for it in top.rglob("*") if it.is_file()}
    assert {"README.md", "CHANGELOG.md", "LICENSE"} <= {*found}
    assert found == {it: (TOP / it).read_bytes() for it in found}
    assert pack.read_bytes()[3:8] == bytes(5)


@pytest.mark.parametrize("compiler", RUNNERS)
def test_pack(tmp_path, pack, env, compiler):
    needs(compiler, *RUNNERS[compiler].split()[:1])
    root, places = tmp_path / "be low", ("PREFIX=/usr", "LIBDIR=/usr/lib64")
    words = f"CC={compiler}", f"RUN={RUNNERS[compiler]}", f"DESTDIR={root}", *places
    by_pack = make(*words, top=unpacked(pack, tmp_path))
    runs(by_pack, out="", err="", env=env)
    passes([*by_pack, "test"], env=env)
    runs([*by_pack, "install"], out="", err="", env=env)
    has_files(root / "usr", [re.sub("^lib/", "lib64/", it) for it in INSTALLED])
    lines = (root / "usr/lib64/pkgconfig/faster_hex.pc").read_text().splitlines()
    assert {"prefix=/usr", "libdir=${prefix}/lib64", 'Libs: -L"${libdir}" -lfaster_hex'} <= {*lines}
    runs([*by_pack, "uninstall"], out="", err="", env=env)
    has_files(root, [])


@pytest.mark.parametrize("words", [f"{CC} c/digits.c", f"{CXX} cpp/digits.cpp", f"{CC} -static-pie c/digits.c"])
def test_program_by_pkg_config(tmp_path, top, env, flags, words):
    program = tmp_path / "over"
    runs([*words.split(), *flags, "-o", program], cwd=top / "examples", env=env)
    runs([program], out=PRINTED, env={"LD_LIBRARY_PATH": f"{top.parent}/there/lib"})


def test_pages_of_man(top):
    needs("man")
    runs(["man", "-M", top.parent / "there/share/man", "-w", "faster_hex_encode"])


def test_cmake(tmp_path, top, env):
    """Builds with the sources, with the programs too, and with the installed copy, which is looked for twice."""
    by_cmake(top / "examples/c", tmp_path / "built", f"-DFASTER_HEX={top}", env=env)
    for program in "fhex", "fhex-stream":
        runs(["cmake", "--build", tmp_path / "built", "--target", program], env=env)
        runs([tmp_path / "built/faster_hex" / program, "encode"], out=HELLO, input="hello")
    twice = shutil.copytree(top / "examples/c", tmp_path / "twice") / "CMakeLists.txt"
    twice.write_text(re.sub(r"^(find_package.*\n)", r"\1\1", twice.read_text(), flags=re.M))
    by_cmake(twice.parent, tmp_path / "over", f"-DCMAKE_PREFIX_PATH={top.parent}/there", env=env)


def has_all(there, *programs):
    """Checks that programs, the archive, a header and manual pages were installed."""
    files = "lib/libfaster_hex.a", "include/faster_hex.hpp", "share/man/man1/fhex.1", "share/man/man3/faster_hex.3"
    assert not [it for it in (*programs, *files) if not (there / it).exists()]


def test_what_cmake_installs(tmp_path, top, env, of_cmake):
    """The libraries have the properties of those that `make` builds. The archive can be linked into a shared library
    too."""
    has_files(of_cmake, [*INSTALLED, *(str(it.relative_to(of_cmake)) for it in of_cmake.glob("lib/cmake/*/*-*.cmake"))])
    for name in "pkgconfig/faster_hex.pc", "../share/man/man3/faster_hex_encode.3":
        by_make = (top.parent / "there/lib" / name).read_text().replace(f"{top}/here", f"{of_cmake}")
        assert (of_cmake / "lib" / name).read_text() == by_make
    by_cmake(top / "examples/c", tmp_path / "over", f"-DCMAKE_PREFIX_PATH={of_cmake}", env=env)
    is_locked(of_cmake / "lib" / SHARED[2])
    shows_names(of_cmake / "lib" / SHARED[2])
    archive = of_cmake / "lib/libfaster_hex.a"
    stands_alone(archive)
    plugin_over(tmp_path, archive)
    runs([CC, "-shared", "-o", tmp_path / "over.so", "-Wl,-z,text,--whole-archive", archive, "-Wl,--no-whole-archive"])


@pytest.mark.parametrize("way", ["make", "cmake"])
def test_archive_that_is_installed_alone(tmp_path, pack, way):
    """With LDFLAGS=-static, `make` builds no shared library, and with BUILD_SHARED_LIBS=OFF CMake installs none. CMake
    and pkg-config then find the archive."""
    needs("cmake", "pkg-config")
    top, there = unpacked(pack, tmp_path), tmp_path / "there"
    if way == "make":
        runs(make("LDFLAGS=-static", top=top))
        runs(make("install", f"PREFIX={there}", top=top), out="", err="")
    else:
        installs(top, tmp_path / "built", there, ["BUILD_SHARED_LIBS=OFF"], prefix="")
    assert [it.name for it in there.glob("lib/libfaster_hex.*")] == ["libfaster_hex.a"]
    (tmp_path / "CMakeLists.txt").write_text(ALONE)
    runs(["cmake", "-S", tmp_path, "-B", tmp_path / "over", f"-DCMAKE_PREFIX_PATH={there}", f"-DTOP={top}"])
    runs(["cmake", "--build", tmp_path / "over"])
    runs([tmp_path / "over/digits"], out=PRINTED)
    env = {**os.environ, "PKG_CONFIG_PATH": f"{there}/lib/pkgconfig"}
    flags = runs(["pkg-config", "--cflags", "--libs", "faster_hex"], env=env).split()
    runs([CC, top / "examples/c/digits.c", *flags, "-o", tmp_path / "by-flags"])
    runs([tmp_path / "by-flags"], out=PRINTED)


def test_assembly_that_was_changed(tmp_path, pack):
    """CMake refuses to build it, also if it was changed after CMake had looked. If it is told to build it all the same,
    the version says so."""
    needs("cmake")
    top, built = unpacked(pack, tmp_path), tmp_path / "built"
    words = ["cmake", "-S", top, "-B", built]
    runs(words)
    changed = top / f"generated/fhex/{'x86-64-v2' if platform.machine() == 'x86_64' else 'aarch64'}.s"
    with changed.open("a") as file:
        file.write("# changed\n")
    for again in words, ["cmake", "--build", built]:
        done = ran(again)
        assert done.returncode and f"{changed} is not as" in " ".join(done.stdout.split()), done.stdout
    (top / "generated/more.s").touch()
    shutil.copy(TOP / changed.relative_to(top), changed)
    assert "more.s is not as" in " ".join(ran(words).stdout.split())
    done = ran([*words, "-DFASTER_HEX_UNPROVED=ON"])
    assert done.returncode == 0 and "+unproved" in done.stdout
    runs(["cmake", "--build", built])
    text = "#include <faster_hex.h>\n#include <stdio.h>\nint main(void) { puts(faster_hex_version()); }\n"
    (tmp_path / "told.c").write_text(text)
    program = compiled(CC, tmp_path / "told", tmp_path / "told.c", built / "libfaster_hex.a")
    runs([program], out=f"{VERSION}+unproved\n")


def test_what_cmake_installs_for_windows(tmp_path, top):
    needs("cmake", WINDOWS_CC)
    options = "SYSTEM_NAME=Windows", f"C_COMPILER={WINDOWS_CC}"
    there = installs(top, tmp_path / "built", tmp_path / "installed", options)
    has_all(there, "bin/libfaster_hex.dll", "bin/fhex.exe")


def test_library_over_ours_that_cmake_exports(tmp_path, top):
    needs("cmake")
    (tmp_path / "CMakeLists.txt").write_text(OVER)
    words = ["cmake", "-S", tmp_path, "-B", tmp_path / "exported", "-DFASTER_HEX_INSTALL=ON", f"-DTOP={top}"]
    runs([*words, f"-DCMAKE_INSTALL_PREFIX={tmp_path}/both"])
    runs(["cmake", "--build", tmp_path / "exported"])
    runs(["cmake", "--install", tmp_path / "exported"])
    assert "faster_hex::archive" in (tmp_path / "both/lib/over.cmake").read_text()


@pytest.mark.parametrize("version, is_of_make", [*((it, True) for it in VERSIONS), ("1.0", False), ("0.9", False)])
def test_version_that_cmake_asks_for(tmp_path, top, of_cmake, version, is_of_make):
    there = top.parent / "there" if is_of_make else of_cmake
    find = f"find_package(faster_hex {version} REQUIRED CONFIG)"
    (tmp_path / "CMakeLists.txt").write_text(f"cmake_minimum_required(VERSION 3.16)\nproject(asks C)\n{find}")
    words = ["cmake", "-S", tmp_path, "-B", tmp_path, f"-DCMAKE_PREFIX_PATH={there}"]
    runs(words, VERSIONS[version])


@pytest.mark.parametrize("way", WAYS)
def test_debian_package(tmp_path, pack, way):
    """Built by debhelper in either way, the package has all files."""
    needs("dh", "dpkg-deb", way)
    top = unpacked(pack, tmp_path)
    assert f"`dh $@{WAYS[way][0]}`" in (top / "docs/packaging.md").read_text()
    (top / "debian").mkdir()
    for name, text in DEBIAN.items():
        (top / "debian" / name).write_text(text.format("".join(WAYS[way])))
    (top / "debian/rules").chmod(0o755)
    runs(["debian/rules", "binary"], cwd=top, env={**BY_SYSTEM, "HOME": f"{tmp_path}", "DEB_BUILD_OPTIONS": "nocheck"})
    found = {re.sub(r"\.gz$", "", str(it.relative_to(top / "debian/digits/usr")))
             for it in (top / "debian/digits/usr").rglob("*") if not it.is_dir()}
    found = {re.sub("^lib/[^/]*-linux-gnu[^/]*/", "lib/", it) for it in found if not re.search(OF_CMAKE, it)}
    assert found - {"share/doc/digits/changelog"} == {*INSTALLED}


def test_cargo(tmp_path, top, env):
    needs(CARGO)
    own = {**env, "CARGO_HOME": f"{tmp_path}/home", "CARGO_TARGET_DIR": f"{tmp_path}/target"}
    runs([CARGO, "run", "-q"], out=BY_RUST, cwd=top / "examples/rust", env=own)
