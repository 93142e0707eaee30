"""Reads values that hold no documents out of the views that the library gives, one reader for each kind."""

from __future__ import annotations

import datetime
from typing import Any, Callable, Optional, Union

from ._library import Step
from .values import (
    MAX_KEY,
    MIN_KEY,
    UNDEFINED,
    Binary,
    Code,
    DatetimeMS,
    DBPointer,
    Decimal128,
    Kind,
    ObjectId,
    Regex,
    Symbol,
    Timestamp,
)

EPOCH = datetime.datetime(1970, 1, 1, tzinfo=datetime.timezone.utc)
# To multiply takes half the time of `timedelta(milliseconds=...)`. `fromtimestamp` heeds leap seconds where TZ names a zone that has them.
MILLISECOND = datetime.timedelta(milliseconds=1)

Reader = Callable[[Any, Step], Any]


def text(data: Any, step: Step) -> str:
    """Returns a text."""
    at = step.text_at
    piece = data[at : at + step.text_length]
    # A view has no `decode`, and that of bytes is faster.
    return piece.decode() if type(piece) is bytes else str(piece, "utf-8")


def content(data: Any, step: Step) -> bytes:
    """Returns the bytes of a value."""
    at = step.bytes_at
    return bytes(data[at : at + step.bytes_length])


def binary(data: Any, step: Step) -> Union[bytes, Binary]:
    """Returns binary data."""
    held = content(data, step)
    return Binary(held, step.subtype) if step.subtype else held


def object_id(data: bytes) -> ObjectId:
    """Returns an ObjectId of 12 bytes, which aren't looked at."""
    made = new(ObjectId)
    set_data(made, data)
    return made


# To set the slot takes half the time of `ObjectId(data)`, which also looks at the length.
new, set_data = object.__new__, ObjectId.data.__set__  # type: ignore[attr-defined, misc]


def date_of(milliseconds: int) -> Union[datetime.datetime, DatetimeMS]:
    """Returns the date of these milliseconds since 1970, as `datetime` if it can be one."""
    try:
        return EPOCH + milliseconds * MILLISECOND
    except OverflowError:
        return DatetimeMS(milliseconds)


BY_KIND: dict[int, Reader] = {
    Kind.DOUBLE: lambda data, step: step.real,
    Kind.STRING: text,
    Kind.BINARY: binary,
    Kind.UNDEFINED: lambda data, step: UNDEFINED,
    Kind.OBJECT_ID: lambda data, step: object_id(content(data, step)),
    Kind.BOOL: lambda data, step: step.integer != 0,
    Kind.DATETIME: lambda data, step: date_of(step.integer),
    Kind.NULL: lambda data, step: None,
    Kind.REGEX: lambda data, step: Regex(text(data, step), str(content(data, step), "utf-8")),
    Kind.DB_POINTER: lambda data, step: DBPointer(text(data, step), object_id(content(data, step))),
    Kind.CODE: lambda data, step: Code(text(data, step)),
    Kind.SYMBOL: lambda data, step: Symbol(text(data, step)),
    Kind.INT32: lambda data, step: step.integer,
    Kind.TIMESTAMP: lambda data, step: Timestamp(step.seconds, step.increment),
    Kind.INT64: lambda data, step: step.integer,
    Kind.DECIMAL128: lambda data, step: Decimal128(content(data, step)),
    Kind.MAX_KEY: lambda data, step: MAX_KEY,
    Kind.MIN_KEY: lambda data, step: MIN_KEY,
}
# The reader of each type byte, or None for those that hold documents and for those that no kind has.
READERS: list[Optional[Reader]] = [BY_KIND.get(kind) for kind in range(256)]
