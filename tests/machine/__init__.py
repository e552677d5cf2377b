"""Symbolic execution of the library's machine code. The code is executed for a source of unknown length and bytes, and
its results are compared with a definition of hex. README.md says how to use the tool and how it works, and
../../docs/security.md what was shown with it.

To read it, begin with hexadecimal.py, which defines hex, and statements.py, which says what must hold of a call. The
docstring of loops.py explains why finitely many paths stand for all executions, and execution.py has the rules for
memory accesses and branches. processor.py lists what differs between processors. Each processor has a folder of its
own: its code.py reads instructions, its forms.py lists those that have a model (a definition of their effect), and its
instructions.py has these definitions."""
import sys
from pathlib import Path


class Refused(Exception):
    """Says why a call could not be shown to do what the definitions say."""


# These files must run as they are written. Python runs a compiled copy in place of a file if the copy names the file's
# time and size, even if it was made from another text. So no copy of another file is read, and the code of this file
# that runs is compared with its text.
sys.pycache_prefix, sys.dont_write_bytecode = "/dev/null", True
if compile(Path(__file__).read_bytes(), __file__, "exec", dont_inherit=True) != sys._getframe().f_code:
    sys.exit(f"{__file__} is not what runs: remove the folder __pycache__ beside it")
