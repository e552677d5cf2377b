"""Whether the links of all pages lead somewhere, and some pages are as short as they should be, whether specs/inside/
has exactly the definitions that no public contract uses, whether the definitions that CALLING.md and theorem.md name
exist, and whether definitions.md explains what the files of theorem.md import. Uses are found by the words of
contracts."""
import functools
import re

import pytest

from commands import TOP, own_files

pytestmark = pytest.mark.quick
WORD = r"[^\W\d][\w-]*"
# A function with its clauses, and a ghost member, each with its indentation.
FUNCTION = re.compile(r"^( *)(pub )?(?:[a-z]\S* |.C. )*fn (\w+)(.*?)(?:^\1\{\}?$|\{\}?$|;$)", re.M | re.S)
MEMBER = re.compile(r"^( +)(ghost) (?!use )(\w+)(.*)", re.M)
# A row of the table of theorem.md: a definition, a function whose contract uses it, and a mutation.
LINE = re.compile(r"\[`(\w+)\.(\w+)`\]\(\.\./crates/(\w+)/specs/\S+ \| "
                  r"\[`(\w+)`\]\(\.\./(\S+)\) \| \[(.*)\]\(\.\./(crates/\w+/mutations)\) \|")


def words(text):
    return re.findall(WORD, re.sub(r"//.*|-- .*", "", text))


def imported(text):
    """The definitions that a file imports, by the names that they have in it."""
    lists = re.findall(r"use Rattle\.([\w.]+)\.\{([^}]*)\}", text)
    pairs = [(module, *it.split(" as ")) for module, names in lists for it in re.split(r",\s*", names)]
    for module, alias in re.findall(r"use Rattle\.([\w.]+) as (\w+)", text):
        pairs += [(module, it) for it in re.findall(rf"\b{alias}\.({WORD})", text)]
    return {name[-1]: (module, name[0]) for module, *name in pairs}


def contracts(crate):
    """For each public function, and each ghost member of a public type: its place, its clauses and the imports of its
    file."""
    files = {it: it.read_text() for it in (crate / "src").rglob("*.rt")}
    opened = {"lib", *re.findall(r"^pub mod (\w+);", files[crate / "src/lib.rt"], re.M)}
    named = set()
    for path, text in files.items():
        named.update(*map(words, re.findall(r"\bpub use crate::([^;]*);", text)))
        if path.stem in opened:
            named.update(re.findall(r"^pub (?:struct|enum|trait|mod) (\w+)", text, re.M))
    for path, text in files.items():
        for found in (*FUNCTION.finditer(text), *MEMBER.finditer(text)):
            indent, public, name, clauses = found.groups()
            heads = re.findall(r"^(?:pub )?((?:unsafe )?impl|trait|mod)\b(.*)", text[:found.start()], re.M)
            kind, head = heads[-1] if indent and heads else ("", "")
            its_type = {*words(head.split(" for ")[-1])}
            is_open = its_type & named if indent else path.stem in opened or name in named
            if is_open and (public or kind == "trait" or " for " in head):
                yield f"{path.relative_to(TOP)}: {name}", clauses, imported(text)


@functools.cache
def definitions_and_uses():
    """All definitions, and pairs of a definition that a public contract names and that contract."""
    texts = {}
    for path in TOP.glob("crates/*/specs/**/*.antt"):
        module = ".".join(path.relative_to(TOP / "crates").with_suffix("").parts)
        for block in path.read_text().split("\n\n"):
            for name in re.findall(rf"^(?:\w+ )?pub (?:record )?({WORD}).* [:]", block, re.M):
                texts[module, name] = block, imported(path.read_text())
    return texts, [(names[word], where) for crate in TOP.glob("crates/*") if (crate / "src/lib.rt").exists()
                   for where, clauses, names in contracts(crate) for word in words(clauses) if word in names]


def used(by=None):
    """The definitions that public contracts use, directly or through others, each with a contract, and all definitions.
    `by` limits this to one contract."""
    texts, uses = definitions_and_uses()
    todo = [it for it in uses if by in (None, it[1])]
    found = {}
    while todo:
        it, where = todo.pop()
        if it in texts and it not in found:
            found[it] = where
            block, names = texts[it]
            todo += [(names.get(word, (it[0], word)), where) for word in words(block)]
    return found, texts


def named(page):
    """The definitions that the tables of a page name. Without a crate, a name belongs to the crate in the table's
    head."""
    for table in page.split("\n\n"):
        if head := re.match(r".*\| (?:Promise|Definitions) in `(\w+)`\n", table):
            for crate, module, name in re.findall(r"`(?:(hex_\w+|faster_hex)\.)?([A-Z]\w*)\.(\w+)", table):
                yield f"{crate or head[1]}.specs.{module}", name


def test_inside():
    found, defined = used()
    inside = {it for it in defined if "inside" in it[0].split(".")}
    assert inside and not {it: found[it] for it in inside & {*found}}
    assert {*defined} - {*found} <= inside


def headings(page):
    """The names by which links reach the headings of a page."""
    heads = re.findall(r"^#+ (.*)", re.sub(r"^```.*?^```$", "", page.read_text(), flags=re.M | re.S), re.M)
    return {re.sub(r"[^\w -]", "", it).lower().replace(" ", "-") for it in heads}


def test_lengths():
    """The front page can be read in some minutes, and the page on style is one page."""
    front, style = ((TOP / it).read_text() for it in ("README.md", "docs/style.md"))
    assert front.count("\n") <= 140 and len(front.split()) <= 1200 and style.count("\n") <= 40


def test_snippet_of_style():
    """The example is in the crate for Rust as the page has it."""
    block, = re.findall(r"^```rust\n(.*?)^```$", (TOP / "docs/style.md").read_text(), re.M | re.S)
    assert any(block in it.read_text() for it in TOP.glob("bindings/rust/src/*.rs"))


def test_links():
    for page in (TOP / it for it in own_files() if it.endswith(".md")):
        links = re.findall(r"\[[^]]*\]\((?!\w+://)([^)#]*)#?([^)]*)\)", page.read_text())
        assert not [it for it in links if not (page.parent / it[0]).exists()], page
        parts = [(page.parent / path if path else page, part) for path, part in links if part]
        assert not [it for it in parts if it[1] not in headings(it[0])], page


def test_calling():
    listed = {*named((TOP / "crates/faster_hex/CALLING.md").read_text())}
    assert listed and listed <= {*used()[1]}


def test_theorem():
    lines = (TOP / "docs/theorem.md").read_text().partition("\n---|")[2].partition("\n\n")[0].splitlines()[1:]
    found = LINE.findall("\n".join(lines))
    assert lines and len(found) == len(lines)
    for module, name, crate, function, path, mutation, table in found:
        assert (f"{crate}.specs.{module}", name) in used(f"{path}: {function}")[0]
        assert mutation in (TOP / table).read_text().partition("# Tests notice")[0].splitlines()


def test_definitions():
    """docs/definitions.md explains exactly the names that the files of theorem.md import from the toolchain's
    library."""
    reading = (TOP / "docs/theorem.md").read_text().partition("## What to read")[2]
    files = re.findall(r"\(\.\./(crates/hex_core/specs/\w+\.antt)\)", reading)
    lists = [re.findall(r"^use Rattle\.std\.[\w.]+\.\{(.*)\}$", (TOP / it).read_text(), re.M) for it in files]
    taken = {name for found in lists for names in found for name in names.split(", ")}
    page = (TOP / "docs/definitions.md").read_text()
    tables = page.partition("## Names of the library")[2].partition("## Words of a contract")[0]
    told = {name for row in re.findall(r"^(`.*?) \|", tables, re.M) for name in re.findall(r"`([^`]+)`", row)}
    assert len(files) == 7 and told == taken


def test_lines_of_scripts_and_tests():
    """No line of a script, a test or a source in C or Rust has more than 120 characters."""
    sources = r"(scripts|tests|bench|bindings)/|crates/.*\.(c|h|hpp)$"
    those = [it for it in own_files() if re.match(sources, it) and not re.search(r"\.(md|svg)$", it)]
    assert [it for it in those if re.search(".{121}", (TOP / it).read_text(encoding="utf-8"))] == []
