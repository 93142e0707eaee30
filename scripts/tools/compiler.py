"""Sees that a C compiler, or the command rt, is here, and ends a script where it isn't."""

import shutil
import sys


def require_compiler(name):
    """Ends the script of this name with status 70 where there is none."""
    if shutil.which("cc") is None:
        print(f"{name}: a C compiler is not here: apt-get install gcc", file=sys.stderr)
        sys.exit(70)


def require_rt(name):
    """Ends the script of this name with status 70 where there is none."""
    if shutil.which("rt") is None:
        print(f"{name}: the command rt, of the Rattle kit, is not here", file=sys.stderr)
        sys.exit(70)
