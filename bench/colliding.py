#!/usr/bin/env python3
"""Writes a message whose body has COUNT int32 fields, whose names are chosen to make a check slow, to standard output.

    bench/colliding.py KIND COUNT

colliding   names of 32 bytes that a table under the kit's hasher (core::hash::FoldHasher) and its fixed seed sends to one
            place: the bytes 16 to 23 are chosen so that the last product is 0
spread      names of 32 bytes that it spreads
rising, falling, shuffled    names of 1,000 bytes that share all but the last eight, in that order
"""

import itertools
import random
import struct
import sys

MASK = 2**64 - 1
MULTIPLIER = 0x9E3779B97F4A7C15
SEED = 0x243F6A8885A308D3


def folded(a, b):
    product = a * b
    return (product & MASK) ^ (product >> 64)


def zeroing_prefix():
    """Returns 24 bytes of ASCII behind which the hash of a name of 32 bytes is 0."""
    for number in itertools.count():
        front = b"%016d" % number
        first, second = struct.unpack("<QQ", front)
        state = folded(first ^ (SEED + 32 & MASK), second ^ MULTIPLIER)
        middle = struct.pack("<Q", state)
        if all(0x20 < byte < 0x7F for byte in middle):
            return front + middle


def numbers(kind, count):
    """Returns the numbers from 0 on in the order of this kind."""
    in_order = list(range(count))
    if kind == "falling":
        in_order.reverse()
    if kind == "shuffled":
        random.Random(1).shuffle(in_order)
    return in_order


def prefix_of(kind):
    """Returns what the names of this kind share."""
    if kind == "colliding":
        return zeroing_prefix()
    return b"0" * (24 if kind == "spread" else 992)


def main():
    if len(sys.argv) != 3 or sys.argv[1] not in ("colliding", "spread", "rising", "falling", "shuffled"):
        print(__doc__)
        return 2
    kind, count = sys.argv[1], int(sys.argv[2])
    prefix = prefix_of(kind)
    body = b"".join(b"\x10" + prefix + b"%08d" % number + b"\0" + struct.pack("<i", 0) for number in numbers(kind, count))
    document = struct.pack("<i", len(body) + 5) + body + b"\0"
    sys.stdout.buffer.write(struct.pack("<iiiiI", len(document) + 21, 1, 0, 2013, 0) + b"\0" + document)
    return 0


if __name__ == "__main__":
    sys.exit(main())
