"""Tells which file is run for a program of this repository."""

import os
import subprocess
import sys

ROOT = os.path.dirname(os.path.dirname(os.path.dirname(os.path.realpath(__file__))))


def program_of(name):
    """Returns the path of the program that ./NAME runs, which this builds first where that is wanted. Ends the script where there is none."""
    told = subprocess.run([os.path.join(ROOT, "scripts", "tools", "run-program"), "--where", name],
                          stdout=subprocess.PIPE, encoding="utf-8", check=False)
    if told.returncode:
        sys.exit(told.returncode)
    return told.stdout.rstrip("\n")
