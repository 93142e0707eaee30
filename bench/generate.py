#!/usr/bin/env python3
"""Writes a stream of BSON documents, or of OP_MSG messages, for measuring.

    bench/generate.py KIND BYTES FILE

writes at least BYTES bytes to FILE: a block of about a million bytes, made from a fixed seed, again and
again. KIND is one of those that `bench/generate.py` alone lists; `nested-N` is N documents deep, `wide-N`
has N fields, and `names-N` is a message whose body has N. `one` is a single message of just BYTES bytes.
"""

import random
import struct
import sys

BLOCK = 1 << 20
WORDS = "name order city value total street index state kind note parent child owner item count label".split()


def cstring(text):
    return text.encode() + b"\0"


def string(text):
    data = text.encode()
    return struct.pack("<i", len(data) + 1) + data + b"\0"


def element(kind, name, value):
    return bytes([kind]) + cstring(name) + value


def document(elements):
    body = b"".join(elements)
    return struct.pack("<i", len(body) + 5) + body + b"\0"


def array(values):
    return document(element(kind, str(index), value) for index, (kind, value) in enumerate(values))


def int32(n):
    return (0x10, struct.pack("<i", n))


def int64(n):
    return (0x12, struct.pack("<q", n))


def double(x):
    return (0x01, struct.pack("<d", x))


def text_of(rng, least, most):
    return "".join(rng.choice("abcdefghijklmnopqrstuvwxyz     ") for _ in range(rng.randint(least, most)))


def small(rng):
    """A document of about 200 bytes, as an application stores it."""
    return document([
        element(0x07, "_id", rng.randbytes(12)),
        element(0x02, "name", string(text_of(rng, 10, 24))),
        element(0x10, "count", struct.pack("<i", rng.randint(0, 1000))),
        element(0x08, "active", bytes([rng.randint(0, 1)])),
        element(0x09, "created", struct.pack("<q", rng.randint(0, 1 << 41))),
        element(0x01, "score", struct.pack("<d", rng.random())),
        element(0x03, "address", document([
            element(0x02, "street", string(text_of(rng, 8, 20))),
            element(0x02, "city", string(text_of(rng, 4, 12))),
        ])),
        element(0x04, "tags", array([(0x02, string(rng.choice(WORDS))) for _ in range(2)])),
    ])


def scalar(rng):
    return rng.choice([
        lambda: int32(rng.randint(-1000, 1000)),
        lambda: int64(rng.randint(-(1 << 60), 1 << 60)),
        lambda: double(rng.random()),
        lambda: (0x08, bytes([rng.randint(0, 1)])),
        lambda: (0x0A, b""),
        lambda: (0x09, struct.pack("<q", rng.randint(0, 1 << 41))),
        lambda: (0x07, rng.randbytes(12)),
        lambda: (0x02, string(text_of(rng, 4, 16))),
    ])()


def fields(rng, count):
    return [element(kind, f"{rng.choice(WORDS)}{index}", value)
            for index, (kind, value) in enumerate(scalar(rng) for _ in range(count))]


def flat(rng):
    """Forty fields of many kinds, none of them a container."""
    return document(fields(rng, 40))


def wide(rng, count=2000):
    """A document with so many fields."""
    return document(fields(rng, count))


def nested(rng, depth=150):
    """Documents inside each other, so many deep."""
    inner = document([element(0x10, "leaf", struct.pack("<i", rng.randint(0, 9)))])
    for _ in range(depth - 1):
        inner = document([element(0x03, rng.choice(WORDS), inner)])
    return inner


def tree(rng, depth):
    if depth == 0:
        return scalar(rng)
    values = [tree(rng, depth - 1) for _ in range(4)]
    if rng.random() < 0.5:
        return (0x04, array(values))
    return (0x03, document([element(kind, rng.choice(WORDS), value) for kind, value in values]))


def bushy(rng):
    """Documents and arrays of four each, five deep."""
    return document([element(kind, name, value) for name, (kind, value) in zip("abcd", (tree(rng, 5) for _ in range(4)))])


def ascii_text(rng):
    """A text of 2,000 ASCII characters."""
    return document([element(0x02, "text", string(text_of(rng, 2000, 2000)))])


def other_text(rng):
    """A text of 1,000 characters, few of them ASCII."""
    return document([element(0x02, "text", string("".join(rng.choice("äöüßéèçñøåабвгдежз日本語漢字かな ") for _ in range(1000))))])


def binary(rng):
    """4,000 bytes of binary data."""
    return document([element(0x05, "data", struct.pack("<i", 4000) + b"\0" + rng.randbytes(4000))])


def numbers(rng):
    """An array of 100 numbers."""
    return document([element(0x04, "values", array(
        [rng.choice((int32(index), int64(index << 33), double(index / 7))) for index in range(100)]))])


def message_parts(rng):
    body = document([element(0x02, "insert", string("orders")), element(0x02, "$db", string("test"))])
    return body, b"".join(small(rng) for _ in range(10))


def unwrapped(rng):
    """The documents of `messages`, back to back."""
    return b"".join(message_parts(rng))


def message_of(body, documents=None):
    """A message with a body, and with a sequence where there are documents."""
    sections = b"\0" + body
    if documents is not None:
        held = cstring("documents") + documents
        sections += b"\1" + struct.pack("<i", len(held) + 4) + held
    return struct.pack("<iiiiI", len(sections) + 20, 1, 0, 2013, 0) + sections


def message(rng):
    """A message with a body, and a sequence of ten documents."""
    return message_of(*message_parts(rng))


def ping(_):
    """A message of 51 bytes."""
    return message_of(document([element(*named) for named in ((0x10, "ping", struct.pack("<i", 1)), (0x02, "$db", string("admin")))]))


def names(_, count=1000):
    """A message whose body has so many fields, of short names."""
    return message_of(document(element(0x10, str(place), struct.pack("<i", place)) for place in range(count)))


def one_message(rng, size):
    """A message of so many bytes, with a sequence of small documents, and of one that fills it up."""
    body, documents = message_parts(rng)
    left = size - len(message_of(body, b""))
    documents *= max(0, left - 16) // len(documents)
    left -= len(documents)
    return message_of(body, documents + document([element(0x05, "data", struct.pack("<i", left - 16) + b"\0" + bytes(left - 16))]))


KINDS = {
    "small": small, "flat": flat, "wide": wide, "nested": nested, "bushy": bushy, "ascii": ascii_text,
    "utf8": other_text, "binary": binary, "numbers": numbers, "messages": message,
    "unwrapped": unwrapped, "pings": ping, "names": names,
}


def maker(kind):
    """Returns what makes one document or message of a kind, or None where there is no such kind."""
    name, _, size = kind.partition("-")
    if not size:
        return KINDS.get(kind)
    if name not in ("nested", "wide", "names") or not size.isdigit():
        return None
    return lambda rng: KINDS[name](rng, int(size))


def main():
    kind, size = (sys.argv[1], int(sys.argv[2])) if len(sys.argv) == 4 else (None, 0)
    make = (lambda rng: one_message(rng, size)) if kind == "one" else maker(kind or "")
    if not make:
        print(" ".join([*KINDS, "one"]))
        return 2
    rng = random.Random(1)
    parts, held = [], 0
    while held < min(BLOCK, size):
        parts.append(make(rng))
        held += len(parts[-1])
    block = b"".join(parts)
    with open(sys.argv[3], "wb") as file:
        for _ in range(-(-size // len(block))):
            file.write(block)
    return 0


if __name__ == "__main__":
    sys.exit(main())
