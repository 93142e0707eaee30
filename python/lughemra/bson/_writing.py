"""Writes documents by codec options: by the extension where it is there, else over `ctypes`. Both are told the same of a value."""

from __future__ import annotations

import ctypes
import datetime
import functools
import re
import struct
import uuid
from collections.abc import Iterable, Mapping
from typing import Any, Callable, Optional

from .. import _library as lib
from .._fast import SPEED
from ..checks import check
from ..errors import EncodeError
from ..values import Kind
from ..writer import Given, Room
from ._binary import Binary as OwnBinary
from ._dates import milliseconds_of
from ._types import Binary, Code, DatetimeMS, DBRef, Decimal128, InvalidDocument, Int64, MaxKey, MinKey, ObjectId, Regex, SON, Timestamp
from ._types import utc
from ._reading import slot_of_ids
from ._values import options_of
from .codec_options import CodecOptions

MASK = (1 << 64) - 1


def bits(kind: Kind, number: int) -> Given:
    """Returns a value that is a number alone."""
    return kind, 0, number & MASK, b"", b""


def integer(value: int) -> Given:
    """Returns an int32 if the number is one, and else an int64."""
    if -(1 << 31) <= value < 1 << 31:
        return bits(Kind.INT32, int(value))
    return long(value)


def long(value: int) -> Given:
    """Returns an int64."""
    if not -(1 << 63) <= value < 1 << 63:
        raise OverflowError("BSON can only handle up to 8-byte ints")
    return bits(Kind.INT64, int(value))


def date(value: datetime.datetime) -> Given:
    """Returns a date, which is in UTC where it has no time zone."""
    return bits(Kind.DATETIME, milliseconds_of(value))


def binary(value: Any) -> Given:
    """Returns binary data."""
    return Kind.BINARY, getattr(value, "subtype", 0), 0, b"", bytes(value)


def cstring(value: Any) -> bytes:
    """Returns the bytes of a pattern."""
    held: bytes = value if isinstance(value, bytes) else value.encode()
    if b"\0" in held:
        raise InvalidDocument("regex patterns must not contain the NUL character")
    return held


def regex(value: Any) -> Given:
    """Returns a regular expression, of Python's too."""
    return Kind.REGEX, 0, 0, cstring(value.pattern), options_of(value.flags).encode()


# What stands for a value that holds no others, but for a UUID and a code with scope.
GIVEN: dict[type, Callable[[Any], Given]] = {
    bool: lambda it: bits(Kind.BOOL, int(it)),
    bytes: lambda it: (Kind.BINARY, 0, 0, b"", bytes(it)),
    datetime.datetime: date,
    float: lambda it: bits(Kind.DOUBLE, struct.unpack("<Q", struct.pack("<d", it))[0]),
    int: integer,
    str: lambda it: (Kind.STRING, 0, 0, it.encode(), b""),
    type(None): lambda it: bits(Kind.NULL, 0),
    Binary: binary,
    OwnBinary: binary,
    DatetimeMS: lambda it: bits(Kind.DATETIME, int(it)),
    Int64: long,
    MaxKey: lambda it: bits(Kind.MAX_KEY, 0),
    MinKey: lambda it: bits(Kind.MIN_KEY, 0),
    ObjectId: lambda it: (Kind.OBJECT_ID, 0, 0, b"", it.binary),
    Regex: regex,
    re.Pattern: regex,
    Timestamp: lambda it: bits(Kind.TIMESTAMP, it.time << 32 | it.inc),
    Decimal128: lambda it: (Kind.DECIMAL128, 0, 0, b"", it.bid),
}
# What a value of a subclass is taken for, in this order; a type of `bson` is told by its marker.
BASES = [bool, bytes, datetime.datetime, dict, float, int, list, str, tuple, uuid.UUID, re.Pattern, Mapping]
MARKED = {
    type_._type_marker: type_
    for type_ in (Binary, Code, DBRef, DatetimeMS, Decimal128, Int64, MaxKey, MinKey, ObjectId, Regex, Timestamp)
    if hasattr(type_, "_type_marker")
}
RAW_MARKER = 101


def type_of(value: Any) -> Any:
    """Returns the type as which a value is written. Raises InvalidDocument where it is none."""
    kind = type(value)
    if kind in GIVEN or kind in (dict, list, tuple, Code, DBRef, SON, uuid.UUID):
        return kind
    marker = getattr(value, "_type_marker", None)
    if marker == RAW_MARKER:
        return Mapping
    if isinstance(marker, int) and marker in MARKED:
        return MARKED[marker]
    for base in BASES:
        if isinstance(value, base):
            return base
    raise InvalidDocument(f"cannot encode object: {value!r}, of type: {kind!r}")


class Writing:
    """Writes documents by codec options."""

    # What the extension writes by, or None where there is none.
    speed: Optional[Any] = None

    def __init__(self, options: CodecOptions) -> None:
        self.options = options
        if SPEED is not None:
            self.speed = SPEED.Writer(self.told, slot_of_ids(), Int64, True, utc)

    def document(self, pairs: Mapping[str, Any], check_keys: bool) -> bytes:
        """Returns the bytes of a document with these pairs, "_id" first."""
        if self.speed is not None and not check_keys:
            try:
                written: bytes = self.speed.document(pairs if type(pairs) is dict else id_first(pairs))
                return written
            except Exception:
                # What is wrong is raised below, in the words that are expected.
                pass
        room = BsonRoom(self.told, check_keys)
        builder = lib.short.build()
        try:
            room.append_all(builder, id_first(pairs))
            length = room.build(lib.short.finish, ctypes.byref(builder))
        except EncodeError as refusal:
            raise InvalidDocument(str(refusal)) from None
        made = bytes(room.held[:length])
        if room.has_scope:
            check(made)
        return made

    def told(self, value: Any) -> Any:
        """Returns of a value its kind and the values in it, or what it holds if it holds no others."""
        kind = type_of(value)
        if kind is Code:
            return self._code(value)
        if kind is DBRef:
            return Kind.DOCUMENT, value.as_doc().items()
        if kind in (list, tuple):
            return Kind.ARRAY, value
        if kind in (dict, SON, Mapping):
            return Kind.DOCUMENT, value.items()
        if kind is uuid.UUID:
            return binary(OwnBinary.from_uuid(value, self.options.uuid_representation))
        return GIVEN[kind](value)

    def _code(self, value: Any) -> Any:
        """Returns a code, or one with scope: its scope is written by itself."""
        if value.scope is None:
            return Kind.CODE, 0, 0, str(value).encode(), b""
        return Kind.CODE_WITH_SCOPE, 0, 0, str(value).encode(), self.document(value.scope, False)


def id_first(pairs: Mapping[str, Any]) -> Iterable[tuple[Any, Any]]:
    """Walks over the pairs, that of "_id" first."""
    if "_id" in pairs:
        yield "_id", pairs["_id"]
    for name, value in pairs.items():
        if name != "_id":
            yield name, value


def refuse_name(name: Any, check_keys: bool) -> None:
    """Raises InvalidDocument for a name that may not be written."""
    if not isinstance(name, str):
        raise InvalidDocument(f"documents must have only string keys, key was {name!r}")
    if check_keys and name.startswith("$"):
        raise InvalidDocument(f"key {name!r} must not start with '$'")
    if check_keys and "." in name:
        raise InvalidDocument(f"key {name!r} must not contain '.'")
    if "\0" in name:
        raise InvalidDocument("Key names must not contain the NULL character")


class BsonRoom(Room):
    """Holds the room that a document is built in, and refuses names and values as PyMongo does."""

    def __init__(self, told: Callable[[Any], Any], check_keys: bool) -> None:
        super().__init__(told)
        self.check_keys = check_keys
        self.has_scope = False

    def append_all(self, builder: lib.Builder, held: Iterable[Any]) -> None:
        """Appends pairs, or the items of an array."""
        for name, value in held if builder.kind == Kind.DOCUMENT else (("", it) for it in held):
            refuse_name(name, self.check_keys)
            self.append(builder, name.encode(), value)

    def append_leaf(self, builder: lib.Builder, name: bytes, given: Given) -> None:
        """Appends a pair whose value holds no others. The builder has no function for a code with scope: it takes the place of binary
        data of the same size, and the whole document is checked then."""
        kind, _, _, text, data = given
        if kind != Kind.CODE_WITH_SCOPE:
            super().append_leaf(builder, name, given)
            return
        at = builder.end
        super().append_leaf(builder, name, (Kind.BINARY, 0, 0, b"", bytes(4 + len(text) + len(data))))
        value = struct.pack("<ii", 9 + len(text) + len(data), len(text) + 1) + text + b"\0" + data
        self.held[at] = kind
        self.held[builder.end - len(value) : builder.end] = value
        self.has_scope = True


@functools.lru_cache(64)
def writing_by(options: CodecOptions) -> Writing:
    """Returns what writes by these options."""
    return Writing(options)
