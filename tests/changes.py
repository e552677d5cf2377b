"""Makes the changed copies of assembly that the files changes.txt in machine/x86_64 and machine/aarch64 list."""
import re
from types import SimpleNamespace

from commands import TOP


def rows(name):
    """The rows of a file. A line that begins with a space continues the row before it."""
    text = re.sub(r"\n +", " ", (TOP / "tests/machine" / name).read_text())
    return [it for it in text.splitlines() if it[0] != "#"]


def read(row):
    """What a row says. It has the changed assembly, `text`, in place of the rules that change it."""
    where, *rules, wrong = row.split(" | ")
    build, call, *words = where.split()
    functions = [it for it in words if not it[0].isdigit()]
    least, lengths = ([int(it.strip("-")) for it in words if re.fullmatch(rf"\d+{end}", it)] for end in ("-", ""))
    text = changed(build, *functions or [call], rules)
    return SimpleNamespace(build=build, call=call, lengths=lengths, least=least, text=text, wrong=wrong)


def changed(build, function, rules=()):
    """The assembly of a build with changed lines in a function. A rule changes one line or each that fits."""
    text = (TOP / f"generated/{build if build == 'aarch64' else f'x86-64-{build}'}.s").read_text()
    begin, end = 0, len(text)
    if function != "anywhere":
        begin, end = re.search(rf"\thex_\w+\t\w+_{build}_{function}\b(?s:.*?)\thex_end", text).span()
        begin = max(text.rfind("\thex_end", 0, begin), 0)
    lines = [it.strip().replace("\t", " ") for it in text[begin:end].split("\n")]
    for rule in rules:
        number, pattern, instead = re.fullmatch(r"(\d+) (.*?) => ?(.*)", rule).groups()
        fitting = [at for at, it in enumerate(lines) if re.fullmatch(pattern, it)]
        assert fitting, f"no line is like {pattern}"
        for at in fitting if number == "0" else [fitting[int(number) - 1]]:
            line = lines[at]
            lines[at] = re.sub(f"^{pattern}$", instead.replace(r"\0", r"\g<0>"), line).replace("; ", "\n")
            assert lines[at] != line
    return '#include "elf.inc"\n' + text[:begin] + "\n".join(lines) + text[end:]
