"""Reads a file of records: the signature, and then records back to back, each a head of 20 bytes and a message of any opCode.

It is written from the form of the file, which docs/reference/wire_frames.md tells, and not from the code.
"""

import struct
from typing import NamedTuple

SIGNATURE = b"LUGHREC1"
HEAD = struct.Struct("<qqi")  # the time in microseconds since 1970 in UTC, the number of the connection, and the direction
SIGNS = (">", "<")  # to the server, and from it
MAX_MESSAGE = 48_000_000
CAUSES = {1: "Length", 17: "Connection", 18: "Direction"}


class Record(NamedTuple):
    """A message, when it passed, over which connection, and whether to the server (0) or from it (1)."""

    micros: int
    connection: int
    direction: int
    message: bytes

    @property
    def sign(self):
        return SIGNS[self.direction]


class BadRecord(Exception):
    """A fault of a record: the number of its cause, and its place in the record."""

    def __init__(self, cause, at):
        super().__init__(cause, at)
        self.cause, self.at = cause, at

    def line(self, start):
        return f"{self.cause} {CAUSES[self.cause]} at {start + self.at}"


def record_front(b):
    """Returns the record in front of the bytes, or None where they end inside it."""
    if len(b) < HEAD.size:
        return None
    micros, connection, direction = HEAD.unpack_from(b)
    if connection < 1:
        raise BadRecord(17, 8)
    if direction not in (0, 1):
        raise BadRecord(18, 16)
    message = b[HEAD.size:]
    if len(message) < 16:
        return None
    length = int.from_bytes(message[:4], "little")
    if not 16 <= length <= MAX_MESSAGE:
        raise BadRecord(1, HEAD.size)
    return Record(micros, connection, direction, bytes(message[:length])) if len(message) >= length else None


def read(b):
    """Returns the records of a file, up to the first one that is at fault or isn't whole, and how many bytes stand behind them."""
    if not b.startswith(SIGNATURE):
        return [], len(b)
    found, at, view = [], len(SIGNATURE), memoryview(b)
    while at < len(b):
        try:
            record = record_front(view[at:])
        except BadRecord:
            break
        if not record:
            break
        found.append(record)
        at += HEAD.size + len(record.message)
    return found, len(b) - at
