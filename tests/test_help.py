"""Each script and `make help` print their help, and do nothing else."""
import os
import re
import sys

import pytest

from commands import TOP, make, only, own_files, runs

pytestmark = pytest.mark.quick
SCRIPTS = [it for it in own_files() if re.match("scripts/|tests/header.sh", it) and os.access(TOP / it, os.X_OK)]
# The tools that a script may use to print its help.
TOOLS = {"sh": "sh", "env": "env", "sed": "sed", "python3": sys.executable}


@pytest.mark.parametrize("word", ["--help", "-h"])
@pytest.mark.parametrize("script", SCRIPTS)
def test_help_of_a_script(tmp_path, script, word):
    """The help is the text at the head of the file, with a line that says what to call."""
    env, name = only(tmp_path / "tools", TOOLS), script.rpartition("/")[2]
    said = runs([TOP / script, word], err="", env=env, cwd=tmp_path)
    first = (TOP / script).read_text().splitlines()[1].lstrip('#" ')
    assert said.startswith(first) and re.search(rf"^(Usage: )?(\S*/)?{name}\b", said, re.M), said
    assert [it.name for it in tmp_path.iterdir()] == ["tools"]


def test_help_of_make():
    """It has at most 100 columns, and names each target that a user calls."""
    said = runs(make("help"))
    assert max(map(len, said.splitlines())) <= 100 and not re.search("---|[|`]", said)
    targets = re.search(r"^\.PHONY: (.*)", (TOP / "Makefile").read_text(), re.M)[1].split()
    wanted = {it for it in targets if "$" not in it} - {"all", "anew", "help"}
    assert not [it for it in wanted if not re.search(rf"^  make {it}\b", said, re.M)]
    assert "\n- the body of a function: rt check --only" in said and "\n- anything, before a release: make" in said
