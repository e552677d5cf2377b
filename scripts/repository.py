#!/usr/bin/env python3
"""The crates of this repository, as crates.txt lists them, and functions that copy them.

repository.py NAME..  prints these crates and the crates of the repository that they depend on, each after those that it
                      uses"""
import re
import shutil
import subprocess
import sys
from pathlib import Path

TOP = Path(__file__).resolve().parent.parent


def help(text):
    """If the first argument asks for help, prints a script's text, and ends the script."""
    if sys.argv[1:2] in (["-h"], ["--help"]):
        print(text)
        sys.exit()


def lines_of(top=TOP):
    """The lines of a crates.txt, by the names of the crates."""
    lines = (Path(top) / "crates.txt").read_text().splitlines()
    return {re.match(r"\w+", it)[0]: it for it in lines if re.match(r"\w+.*:", it)}


def uses(name, top=TOP):
    """The names of the crates that a crate uses, whether they are of this repository or not."""
    return lines_of(top)[name].partition(":")[2].split()


def below(names, top=TOP):
    """These crates and the crates of the repository that they depend on, each after those that it uses."""
    found, listed = [], lines_of(top)
    for name in names:
        used = [it for it in uses(name, top) if it in listed]
        found += [it for it in (*below(used, top), name) if it not in found]
    return found


def ran(words, folder=TOP, stderr=subprocess.STDOUT):
    """Runs a command to its end, and returns its status and its output."""
    pipes = {"stdin": subprocess.DEVNULL, "stdout": subprocess.PIPE, "stderr": stderr, "errors": "replace"}
    return subprocess.run(words, cwd=folder, **pipes)


def said(*words):
    """The output of a command. If it fails, it ends the script."""
    done = ran(words, stderr=None)
    if done.returncode:
        sys.exit(f"{Path(words[0]).name} ended with {done.returncode}")
    return done.stdout.strip()


def list_crates(names, to, top=TOP):
    """Writes the lines of crates into the crates.txt of the repository in a folder. A line replaces the one of the same
    crate. If there is none, it is added at the end."""
    listed, lines = Path(to) / "crates.txt", {it: lines_of(top)[it] for it in names}
    listed.touch()
    new = [lines.pop(re.match(r"\w*", it)[0], it) for it in listed.read_text().splitlines()]
    listed.write_text("".join(f"{it}\n" for it in (*new, *lines.values())))


def copy(names, to, parts=None, top=TOP):
    """Copies crates, and their lines of crates.txt, into the repository in a folder. If parts are named, only these are
    copied, otherwise everything except out/."""
    list_crates(names, to, top)
    crates = Path(top) / "crates"

    def left_out(folder, found):
        is_crate = Path(folder).parent == crates
        return [it for it in found if is_crate and (it not in parts if parts else it == "out")]

    for name in names:
        shutil.copytree(crates / name, Path(to) / "crates" / name, True, left_out, dirs_exist_ok=True)


def main():
    help(__doc__)
    if not sys.argv[1:]:
        sys.exit(__doc__)
    print(*below(sys.argv[1:]), sep="\n")


if __name__ == "__main__":
    main()
