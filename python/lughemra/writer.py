"""Writes documents, pair by pair, by the library's builder, in a room that grows as it is told; and messages."""

from __future__ import annotations

import ctypes
import datetime
import operator
import struct
from collections import UserString
from collections.abc import Iterable, Iterator, Mapping, Sequence
from typing import Any, Callable, Optional, Union

from . import _library as lib
from ._fast import SPEED
from ._numbers import require, shown
from .checks import check
from .document import Array, Document
from .errors import EncodeError, raise_fault
from .leaves import EPOCH
from .message import MAX_LIMIT, Flags
from .values import (
    Binary,
    Code,
    DatetimeMS,
    DBPointer,
    Decimal128,
    Int64,
    Kind,
    MaxKey,
    MinKey,
    ObjectId,
    Regex,
    Symbol,
    Timestamp,
    Undefined,
)

# A document that is given: a mapping, or the bytes of one.
AnyDocument = Union[Mapping[str, Any], lib.Buffer]
# Document sequences, each its identifier and its documents.
Sequences = Iterable[tuple[str, Iterable[AnyDocument]]]

# A value: its kind, its subtype, its 64 bits, its text and its bytes.
Given = tuple[int, int, int, bytes, bytes]

MASK = (1 << 64) - 1
MILLISECOND = datetime.timedelta(milliseconds=1)


def _bits(value: int, least: int, width: int) -> int:
    """Returns the bits of a number, and raises OverflowError where it is less than `least` or has no room in so many bits."""
    number = operator.index(value)
    if not 0 <= number - least < 1 << width:
        raise OverflowError(f"{shown(number)} has no room in {width} bits")
    return number & MASK


def _text(what: str, value: Any) -> bytes:
    """Returns the bytes of a text. Raises TypeError where it is none, in which `what` says whose text it is."""
    if not isinstance(value, str):
        raise TypeError(f"{type(value).__name__} as the {what} is no str")
    return value.encode()


def _binary(value: Binary) -> Given:
    """Returns binary data."""
    subtype = operator.index(value.subtype)
    if not 0 <= subtype < 256:
        raise EncodeError(EncodeError.VALUE, f"{shown(subtype)} is no subtype")
    return Kind.BINARY, subtype, 0, b"", value.data


def _integer(value: int) -> Given:
    """Returns an int32 if the number is one, and else an int64."""
    if -(1 << 31) <= value < 1 << 31:
        return Kind.INT32, 0, int(value) & MASK, b"", b""
    return _long(value)


def _long(value: int) -> Given:
    """Returns an int64, whatever its size."""
    if -(1 << 63) <= value < 1 << 63:
        return Kind.INT64, 0, int(value) & MASK, b"", b""
    raise OverflowError(f"{shown(value)} is no int64")


def _date(value: datetime.datetime) -> Given:
    """Returns a date; one without a time zone, or whose zone tells no offset, is in UTC."""
    aware = value if value.utcoffset() is not None else value.replace(tzinfo=datetime.timezone.utc)
    return Kind.DATETIME, 0, (aware - EPOCH) // MILLISECOND & MASK, b"", b""


def _code(value: Code) -> Given:
    """Returns a code without a scope."""
    if value.scope is not None:
        raise EncodeError(EncodeError.VALUE, "a code with scope isn't written")
    return Kind.CODE, 0, 0, _text("text of a Code", value.text), b""


def _regex(value: Regex) -> Given:
    """Returns a regular expression."""
    return Kind.REGEX, 0, 0, _text("pattern of a Regex", value.pattern), _text("options of a Regex", value.options)


def _pointer(value: DBPointer) -> Given:
    """Returns a namespace and an ObjectId."""
    if not isinstance(value.id, ObjectId):
        raise TypeError(f"{type(value.id).__name__} as the id of a DBPointer is no ObjectId")
    return Kind.DB_POINTER, 0, 0, _text("namespace of a DBPointer", value.namespace), value.id.data


GIVEN: dict[type, Callable[[Any], Given]] = {
    float: lambda it: (Kind.DOUBLE, 0, struct.unpack("<Q", struct.pack("<d", it))[0], b"", b""),
    str: lambda it: (Kind.STRING, 0, 0, it.encode(), b""),
    bytes: lambda it: (Kind.BINARY, 0, 0, b"", it),
    bytearray: lambda it: (Kind.BINARY, 0, 0, b"", it),
    memoryview: lambda it: (Kind.BINARY, 0, 0, b"", it),
    Binary: _binary,
    Undefined: lambda it: (Kind.UNDEFINED, 0, 0, b"", b""),
    ObjectId: lambda it: (Kind.OBJECT_ID, 0, 0, b"", it.data),
    bool: lambda it: (Kind.BOOL, 0, int(it), b"", b""),
    datetime.datetime: _date,
    DatetimeMS: lambda it: (Kind.DATETIME, 0, _bits(it.milliseconds, -(1 << 63), 64), b"", b""),
    type(None): lambda it: (Kind.NULL, 0, 0, b"", b""),
    Regex: _regex,
    DBPointer: _pointer,
    Code: _code,
    Symbol: lambda it: (Kind.SYMBOL, 0, 0, _text("text of a Symbol", it.text), b""),
    int: _integer,
    Int64: _long,
    Timestamp: lambda it: (Kind.TIMESTAMP, 0, _bits(it.seconds, 0, 32) << 32 | _bits(it.increment, 0, 32), b"", b""),
    Decimal128: lambda it: (Kind.DECIMAL128, 0, 0, b"", it.data),
    MinKey: lambda it: (Kind.MIN_KEY, 0, 0, b"", b""),
    MaxKey: lambda it: (Kind.MAX_KEY, 0, 0, b"", b""),
}
# What tells a type of PyMongo's. Some of them come from `int`, `str` or `bytes`, and hold more than these.
MARKER = "_type_marker"


def _is_buffer(value: Any) -> bool:
    """Returns true if the value lends its bytes."""
    try:
        memoryview(value)
    except TypeError:
        return False
    return True


def _container_of(value: Any) -> Optional[Kind]:
    """Returns the kind of a value that holds others: a document of a mapping, an array of a sequence that is no text and no bytes.

    A text's items are texts of one character, and their items again, so neither a str nor a UserString is an array.
    """
    if isinstance(value, Mapping):
        return Kind.DOCUMENT
    if isinstance(value, (list, tuple, Array)):
        return Kind.ARRAY
    if isinstance(value, Sequence) and not isinstance(value, (str, UserString)) and not _is_buffer(value):
        return Kind.ARRAY
    return None


def _pairs_of(value: Any) -> Iterable[tuple[Any, Any]]:
    """Returns the pairs of a mapping or of a sequence. Those of what was read are all of its elements, each of its own kind."""
    if isinstance(value, (Document, Array)):
        elements: Iterable[Any] = value.elements()
        return ((it.name, Int64(it.value) if it.kind == Kind.INT64 else it.value) for it in elements)
    return value.items() if isinstance(value, Mapping) else (("", it) for it in value)


def _given(value: Any) -> Given:
    """Returns a value that holds no others, by its type, or else by the nearest type that this comes from."""
    kind = type(value)
    for it in (kind,) if hasattr(kind, MARKER) else kind.__mro__:
        if it in GIVEN:
            return GIVEN[it](value)
    raise TypeError(f"{kind.__name__} stands for no value of BSON")


def _told(value: Any) -> Any:
    """Returns of a value its kind and what it holds: the pairs of a document or the items of an array, or else what is appended of it."""
    container = None if type(value) in GIVEN else _container_of(value)
    if container is None:
        kind, subtype, bits, text, data = _given(value)
        # A call would take a text, too, and read its letters as they stand in memory.
        return kind, subtype, bits, text, data if type(data) is bytes else bytes(memoryview(data))
    pairs = _pairs_of(value)
    return container, pairs if container == Kind.DOCUMENT else (it for _, it in pairs)


# What the extension writes documents by, or None where there is no extension.
WRITER = None if SPEED is None else SPEED.Writer(_told, (ObjectId, vars(ObjectId)["data"]), Int64, False, None)


class Room:
    """Holds the room that a document is built in. `told` says what stands for a value."""

    def __init__(self, told: Callable[[Any], Any] = _told) -> None:
        self.held = bytearray(512)
        self.told = told

    def build(self, function: Callable[..., Any], *arguments: Any) -> int:
        """Calls a function of the builder, again in a longer room if it tells so. Returns how many bytes it wants."""
        while True:
            pointer = ctypes.byref(ctypes.c_char.from_buffer(self.held))
            told = function(pointer, lib.size(len(self.held)), *arguments)
            if told.refusal == EncodeError.ROOM:
                del pointer
                self.held = self.held + bytes(max(told.wanted, 2 * len(self.held)) - len(self.held))
            elif told.refusal:
                raise EncodeError(told.refusal)
            else:
                wanted: int = told.wanted
                return wanted

    def append(self, builder: lib.Builder, name: bytes, value: Any) -> None:
        """Appends a pair, at all depths."""
        told = self.told(value)
        if len(told) > 2:
            self.append_leaf(builder, name, told)
            return
        kind, held = told
        inner = lib.Builder()
        outer_argument, inner_argument = ctypes.byref(builder), ctypes.byref(inner)
        self.build(lib.short.begin, outer_argument, name, lib.size(len(name)), lib.limit_of(kind), inner_argument)
        self.append_all(inner, held)
        self.build(lib.short.end, outer_argument, inner_argument)

    def append_leaf(self, builder: lib.Builder, name: bytes, given: Given) -> None:
        """Appends a pair whose value holds no others."""
        kind, subtype, bits, text, data = given
        numbers = ctypes.byref(lib.Numbers(kind, subtype, bits))
        sizes = [lib.size(len(it)) for it in (name, text, data)]
        self.build(lib.short.append, ctypes.byref(builder), name, sizes[0], numbers, text, sizes[1], data, sizes[2])

    def append_all(self, builder: lib.Builder, held: Iterable[Any]) -> None:
        """Appends pairs, or the items of an array, in their order. Raises TypeError for a name that is no text. What it raises of a
        value tells where."""
        for name, value in held if builder.kind == Kind.DOCUMENT else (("", it) for it in held):
            if not isinstance(name, str):
                raise TypeError(f"{type(name).__name__} as a name is no str")
            try:
                self.append(builder, name.encode(), value)
            except Exception as refusal:
                # In an array the names aren't looked at, and `count` is the index of the item that isn't appended.
                is_array = builder.kind == Kind.ARRAY
                place = f"item {builder.count}" if is_array else f"the pair {name!r}"
                refusal.add_note(f"in {place}")
                raise


def encode(pairs: Mapping[str, Any]) -> bytes:
    """Returns the bytes of a document with these pairs.

    The values are those that a `Document` gives. A list, or any sequence that lends no bytes, is an array; an `int` is an int32 if
    it is one, and else an int64; an `Int64` is an int64; a `datetime` without a time zone is in UTC. Raises EncodeError for what
    BSON can't spell, TypeError for what is no mapping, no name or no value, OverflowError for a number that has no room, and
    UnicodeEncodeError for a lone surrogate; its notes tell in which pair, from the innermost one on. A `Document` gives its own
    bytes, which are checked: it raises DocumentError for a fault.
    """
    if isinstance(pairs, Document):
        pairs.check()
        return pairs.raw
    if not isinstance(pairs, Mapping):
        raise TypeError(f"{type(pairs).__name__} is no mapping")
    if WRITER is not None:
        try:
            written: bytes = WRITER.document(pairs if type(pairs) is dict else pairs.items())
            return written
        except Exception:
            # What is wrong is raised below, with notes that tell where that is.
            pass
    room = Room()
    builder = lib.short.build()
    room.append_all(builder, pairs.items())
    length = room.build(lib.short.finish, ctypes.byref(builder))
    return bytes(room.held[:length])


def document_bytes(given: AnyDocument) -> bytes:
    """Returns the bytes of a document: those of a mapping, or those that are given. Raises TypeError for what lends no bytes."""
    if isinstance(given, Document):
        return given.raw
    return encode(given) if isinstance(given, Mapping) else bytes(memoryview(given))


def documents_bytes(given: Iterable[AnyDocument]) -> Iterator[bytes]:
    """Gives the bytes of each document, checked. What it raises of one tells which."""
    for k, it in enumerate(given):
        try:
            content = document_bytes(it)
            check(content)
        except Exception as refusal:
            refusal.add_note(f"in document {k}")
            raise
        yield content


def sequence_bytes(given: Sequences) -> bytes:
    """Returns the sections of document sequences, one behind the other."""
    room, end = Room(), ctypes.c_size_t(0)
    for identifier, documents in given:
        name = _text("identifier of a sequence", identifier)
        try:
            joined = b"".join(documents_bytes(documents))
            sizes = lib.size(len(name)), lib.size(len(joined))
            arguments = ctypes.byref(end), name, sizes[0], joined, sizes[1]
            room.build(lib.short.append_sequence, *arguments)
        except Exception as refusal:
            refusal.add_note(f"in the sequence {identifier!r}")
            raise
    return bytes(room.held[: end.value])


def encode_message(
    body: AnyDocument,
    sequences: Sequences = (),
    *,
    request_id: int = 0,
    response_to: int = 0,
    flags: int = Flags(0),
    limit: int = MAX_LIMIT,
) -> bytes:
    """Returns the bytes of a message of at most `limit` bytes.

    The body, and each document of a sequence, is a mapping, as for `encode`, or the bytes of a document. A sequence is its
    identifier and its documents, as a `DocumentSequence` is. Raises MessageError for the first fault that the message would
    have, but as Flags for any flag bit other than the two, and as Document for a body that isn't exactly one document;
    DocumentError where a document of a sequence isn't one; and EncodeError for what can't be spelled: BadName for an
    identifier, TooLarge where the message has more bytes than the limit.
    """
    limit = require("limit", limit, 0, MAX_LIMIT)
    for number in (request_id, response_to):
        if not -(1 << 31) <= number < 1 << 31:
            raise OverflowError(f"{shown(number)} is no int32")
    content, sections = document_bytes(body), sequence_bytes(sequences)
    room = bytearray(21 + len(content) + len(sections))
    # What has no room in 32 bits is refused like a checksum that no one writes.
    numbers = lib.MessageNumbers(request_id, response_to, int(flags) if 0 <= flags < 1 << 32 else 1)
    told = lib.long.write_message(
        ctypes.byref(numbers),
        content,
        lib.size(len(content)),
        sections,
        lib.size(len(sections)),
        lib.limit_of(limit),
        ctypes.byref(ctypes.c_char.from_buffer(room)),
        lib.size(len(room)),
    )
    if told.fault.number == lib.NO_MEMORY:
        raise MemoryError
    if told.fault.number == lib.TOO_LARGE:
        raise EncodeError(lib.TOO_LARGE, f"the message has more than {limit} bytes")
    raise_fault(told)
    return bytes(room)
