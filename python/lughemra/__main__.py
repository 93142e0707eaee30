"""Writes the texts of the documents in a file, as `bsonwire dump` does.

    python3 -m lughemra dump FILE

FILE may be `-`, standard input. The status is 0, 1 where the bytes have a fault, which standard error tells, 2 where the command line is
another one, and 3 where FILE can't be read.
"""

from __future__ import annotations

import sys

from .checks import documents
from .errors import DocumentError


def dump(data: bytes) -> int:
    """Writes the text of each document. Returns the status."""
    try:
        for document in documents(data):
            sys.stdout.write(document.text())
    except DocumentError as fault:
        sys.stdout.flush()
        print(f"fault {fault.number} {fault.name} at {fault.offset}", file=sys.stderr)
        return 1
    return 0


def main(words: list[str]) -> int:
    """Does what the words say. Returns the status."""
    if len(words) != 2 or words[0] != "dump":
        print((__doc__ or "").strip(), file=sys.stderr)
        return 2
    try:
        data = sys.stdin.buffer.read() if words[1] == "-" else open(words[1], "rb").read()
    except OSError as failure:
        print(f"{words[1]}: {failure.strerror}", file=sys.stderr)
        return 3
    return dump(data)


if __name__ == "__main__":
    sys.exit(main(sys.argv[1:]))
