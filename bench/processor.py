"""The processor of this machine, and the file in which a benchmark keeps what it prints."""
import re
from pathlib import Path

TOP = Path(__file__).resolve().parent.parent
ABOUT = Path("/proc/cpuinfo").read_text()


def of(pattern):
    return re.search(rf"^{pattern}\s*: (.*)", ABOUT, re.M)[1]


# The vendor, the family, the model and the stepping, such as `intel-6-85-7`. The name of a processor on a virtual
# machine often does not tell it from others.
VENDOR = re.sub("^Genuine|^Authentic", "", of("vendor_id")).lower()
NAME = "-".join([VENDOR, *map(of, ("cpu family", "model", "stepping"))])


class Kept:
    """Prints lines, and appends them to a file of this processor, one for each kind of benchmark."""

    def __init__(self, kind):
        path = TOP / "out/bench" / NAME / kind
        path.parent.mkdir(parents=True, exist_ok=True)
        self.file = path.open("a")
        self.say(f"Run on {of('model name')}.")

    def print(self, line):
        print(line, flush=True)
        print(line, file=self.file, flush=True)

    def say(self, line):
        self.print(f"# {line}")
