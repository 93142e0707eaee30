"""What checks by tables share: a run of a program over its standard input, and the rows of which it does otherwise."""

import subprocess
from typing import NamedTuple

from served import DEADLINE

SHOWN = 5  # rows that are told of one table


def brief(what):
    """Returns what is told of a row or of bytes: not all of long ones."""
    text = str(what)
    return text if len(text) < 400 else text[:400] + " .."


class Ran(NamedTuple):
    """What a run came to."""

    status: int
    output: bytes
    errors: bytes

    def __str__(self):
        return f"status {self.status}, {brief(self.output)}, {brief(self.errors)}"


def as_bytes(text):
    return text if isinstance(text, bytes) else text.encode()


def run(command, given):
    """Runs a command, whose last word stands for its standard input. What is given is bytes, a text or a file."""
    if hasattr(given, "fileno"):
        ran = subprocess.run([*command, "-"], stdin=given, capture_output=True, check=False, timeout=DEADLINE)
    else:
        ran = subprocess.run([*command, "-"], input=as_bytes(given), capture_output=True, check=False, timeout=DEADLINE)
    return Ran(ran.returncode, ran.stdout, ran.stderr)


def otherwise(*runs):
    """Returns how the first run differs from the one that is wanted behind it, or None."""
    return next((f"{ran} and not {wanted}" for ran, wanted in runs if ran != wanted), None)


def tried(what, rows, difference):
    """Tries each row by `difference`, which returns how the program does otherwise with it, or None. Tells that, and returns whether there is
    such a row."""
    told = [(row, found) for row in rows for found in [difference(row)] if found]
    for row, found in told[:SHOWN]:
        print(f"FAILED {what}: {brief(row)}: {found}")
    if not told:
        print(f"{what}: {len(rows)}, all as expected")
    return bool(told)
