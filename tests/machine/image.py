"""The linked library: its bytes, symbols and instructions, read from the parts of the file that a loader would load."""
import re
import subprocess
from dataclasses import dataclass

from . import Refused, aarch64, code, x86_64
from .state import IMAGE, NONE
from .values import bytes_of, constant, plus

PAGE, PROCESSORS = 4096, (x86_64.PROCESSOR, aarch64.PROCESSOR)
SYMBOL = re.compile(r" *\d+: (\w+) +(\w+) (\w+) +\w+ +\w+ +(\w+) ([^\s@]+)")
SECTION = re.compile(r"\] (\S+) +PROGBITS +(\w+) (\w+) (\w+) (\w+) +(\w+)")
SEGMENT = re.compile(r"^ +(LOAD|GNU_RELRO) +(\w+) (\w+) \w+ (\w+) (\w+) (.{3})", re.M)
# An address that the loader writes. `RELATIVE` means that it writes an address in the file, other types anything else.
RELOCATION = re.compile(r"^([0-9a-f]+) +[0-9a-f]+ R_(?:X86_64|AARCH64)_(\w+) +(\w+)", re.M)


def name_of(build):
    return build if build == "aarch64" else f"x86-64-{build}"


def processor_of(file):
    """The processor that a file or each member of an archive is for, or None if it is another or they differ."""
    found = {*re.findall(r"^ +Machine: +(.*)", code.output("readelf", "-hW", file), re.M)}
    return next((it for it in PROCESSORS if found == {it.machine}), None)


def linked(made, *objects):
    """Links these objects or archives completely into a file that can be loaded anywhere. The constants of each object
    stay in sections of their own, because other linkers may put other constants beside them. What the objects need from
    elsewhere gets addresses where nothing is known."""
    tools = processor_of(objects[0]).tools
    defined = {it.split()[-1] for it in code.output(f"{tools}nm", "-A", "--defined-only", *objects).splitlines() if it}
    needed = {it.split()[-1] for it in code.output(f"{tools}nm", "-Au", *objects).splitlines() if it}
    others = sorted(needed - defined - {"_GLOBAL_OFFSET_TABLE_"})
    lines = [f".globl {it}; .hidden {it}; {it}: .skip 64" for it in others]
    outside, words = f"{made}.o", "--no-dynamic-linker -z text -z relro --unique=.rodata* -e 0 --whole-archive".split()
    subprocess.run([f"{tools}as", "-o", outside, "-"], input="\n".join([".bss", *lines, ""]), text=True, check=True)
    subprocess.run([f"{tools}ld", "-pie", *words, "-o", made, *objects, outside], check=True, stderr=subprocess.DEVNULL)
    return made


@dataclass
class Region:
    """A range of addresses, and where it begins in the file. `entry` is 0, or the size of one constant in a section
    whose equal constants a linker may merge."""
    first: int
    end: int
    begin: int
    flags: str
    entry: int = 0

    def has(self, other):
        return self.first <= other.first and other.end <= self.end


class Image:
    """A linked file on a processor of a level, or of any level if it is None. On x86-64 a call for C chooses its build
    by the level, which the library's constructor has stored. Addresses are distances from `base`, where the file is
    loaded: an unknown multiple of a page, or 0 if the file cannot be moved."""

    def __init__(self, path, level=None):
        self.data, text = path.read_bytes(), code.output("readelf", "-hlSsW", path)
        self.processor = processor_of(path)
        self.base = IMAGE if re.search(r"^ +Type: +DYN", text, re.M) else NONE
        self.level, self.levels = level, set()
        # The addresses of each name, and the name and size of each function by its address.
        self.symbols, self.functions = {}, {}
        self.read_symbols(text)
        self.constants = [*self.read_sections(text)]
        self.relocated = self.read_relocations(path)
        # `texts` has the bytes and the text of each instruction, by its address. `tables` has each look-up in a table,
        # by the id of its address.
        self.texts, self.tables = self.processor.texts(path), {}
        # `executed` has the addresses that were executed. `loops` has the last jump back of each known loop, by the
        # address of its head.
        self.executed, self.loops = set(), {}
        # `entries` has the addresses at which functions of the build begin that is checked. `entering` has the states
        # with which calls have come there on the processor of this level, and `entered` those of the levels before.
        self.entries, self.entering, self.entered = set(), set(), set()

    def read_symbols(self, text):
        file = ""
        for it in filter(None, map(SYMBOL.match, text.splitlines())):
            at, size, (kind, section, name) = int(it[1], 16), int(it[2], 0), it.groups()[2:]
            file = name if kind == "FILE" else file
            if kind == "IFUNC" and "faster_hex" in name:
                raise Refused(f"{name} is an indirect function")
            if kind != "FILE" and section != "UND":
                self.symbols.setdefault(name, set()).add(at)
                self.functions |= {at: (name, size)} if kind == "FUNC" and size else {}
                self.levels |= {at} if (name, file) == ("level", "dispatch.c") else set()

    @staticmethod
    def read_sections(text):
        """The sections that only the loader writes."""
        segments = {"LOAD": [], "GNU_RELRO": []}
        for kind, begin, at, size, whole, flags in SEGMENT.findall(text):
            at = int(at, 16)
            segments[kind].append(Region(at, at + int(whole if kind != "LOAD" else size, 16), int(begin, 16), flags))
        loaded = sorted(segments["LOAD"], key=lambda it: it.first)
        if any(after.first // PAGE <= (it.end - 1) // PAGE for it, after in zip(loaded, loaded[1:])):
            raise Refused("two segments share a page")
        for name, *numbers, flags in SECTION.findall(text):
            at, begin, size, entry = (int(it, 16) for it in numbers)
            it = Region(at, at + size, begin, flags, entry if "M" in flags else 0)
            segment = next((each for each in loaded if each.has(it)), None)
            if "A" in flags and (not segment or it.begin - segment.begin != it.first - segment.first):
                raise Refused(f"the section {name} is not what is loaded")
            if "A" in flags and ("W" not in segment.flags or any(each.has(it) for each in segments["GNU_RELRO"])):
                yield it

    @staticmethod
    def read_relocations(path):
        """What the loader writes, by its address: a distance from the base, or None for anything else."""
        text = "".join(code.output("readelf", it, path) for it in ("-rW", "-rDW"))
        if re.search("relr", text, re.I):
            raise Refused("its relocations are packed")
        return {int(at, 16): int(to, 16) if kind == "RELATIVE" else None for at, kind, to in RELOCATION.findall(text)}

    def calls(self, build, call, has_name=True):
        """The addresses at which a build's call is to be checked. The first is that of the call for C, which chooses
        its build by the level, if the file has this call. Then come those functions of the build that the execution of
        the call for C did not reach."""
        # A program may contain the library for C and the one for Rust, each with functions of its own.
        pattern, name = rf"\w+_{name_of(build)}_{call}(_of_c)?(_unproved)?".replace("-", "_"), f"faster_hex_{call}"
        own = {at for it, places in self.symbols.items() if re.fullmatch(pattern, it) for at in places}
        called = self.symbols.get(name, set()) if has_name else set()
        if not own:
            raise Refused("the file does not have it")
        if called and self.processor.has_levels and not self.levels:
            raise Refused(f"the file has {name}, but not the variable `level` of dispatch.c")
        if has_name and not called and any("_of_c" in it for it in self.symbols):
            raise Refused(f"the file has the library for C, but not {name}")
        self.entries, self.entering, self.entered = own, set(), self.entered | self.entering
        yield from sorted(called)
        if called and not self.executed & own:
            raise Refused(f"{name} does not take the build {build}")
        yield from (at for at in sorted(own) if at not in self.executed)

    def address(self, at):
        return plus(self.base, at)

    def bytes_at(self, at, size):
        """The bytes at an address to which neither the loader nor the program writes, or None."""
        is_relocated = any(at - 8 < it < at + size for it in self.relocated)
        return None if is_relocated else self.bytes_in_file(at, size)

    def bytes_in_file(self, at, size):
        """The bytes of the file at an address that only the loader may write, or None. No relocation is applied."""
        for it in self.constants:
            begin = at - it.first
            if it.has(Region(at, at + size, 0, "")) and not (it.entry and begin % it.entry + size > it.entry):
                return self.data[it.begin + begin:it.begin + begin + size]
        return None

    def constants_at(self, at, size):
        """The values of bytes that stay as the loader leaves them, or the level of the processor, or None."""
        if at in self.levels and size == 1:
            return [constant(self.level, 1)]
        if (found := self.bytes_in_file(at, size)) is None:
            return None
        found = {at + it: constant(byte, 1) for it, byte in enumerate(found)}
        for place in [it for it in self.relocated if at - 8 < it < at + size]:
            to = self.relocated[place]
            if to is None:
                raise Refused("it reads what the loader writes by a name")
            found |= {place + it: byte for it, byte in enumerate(bytes_of(self.address(to))) if place + it in found}
        return [*found.values()]

    def instruction(self, at):
        if at not in self.texts:
            names = [it for it, places in self.symbols.items() if at in places]
            raise Refused(f"it calls another function, {names[0]}" if names else f"no instruction at {at:#x}")
        made, text = self.texts[at]
        if self.bytes_at(at, len(made)) != made:
            raise Refused(f"the instruction at {at:#x} is not what is loaded")
        return self.processor.instruction(at, made, text)

    def instructions(self, begin, size):
        """The addresses in a function that some path should execute. The others fill space or should not be reached."""
        return {at for at in range(begin, begin + size) if at in self.texts and
                not self.processor.is_space(self.texts[at][1])}
