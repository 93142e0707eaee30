"""The values of BSON that Python has no type of its own for, and the kinds of all."""

from __future__ import annotations

import decimal
import enum
import json
from dataclasses import dataclass
from typing import TYPE_CHECKING, Any, Union

if TYPE_CHECKING:
    from .document import Document


class Kind(enum.IntEnum):
    """Tells the kinds of values, by their type bytes."""

    DOUBLE = 0x01
    STRING = 0x02
    DOCUMENT = 0x03
    ARRAY = 0x04
    BINARY = 0x05
    UNDEFINED = 0x06
    OBJECT_ID = 0x07
    BOOL = 0x08
    DATETIME = 0x09
    NULL = 0x0A
    REGEX = 0x0B
    DB_POINTER = 0x0C
    CODE = 0x0D
    SYMBOL = 0x0E
    CODE_WITH_SCOPE = 0x0F
    INT32 = 0x10
    TIMESTAMP = 0x11
    INT64 = 0x12
    DECIMAL128 = 0x13
    MAX_KEY = 0x7F
    MIN_KEY = 0xFF


class Int64(int):
    """Holds a number that is written as an int64 whatever its size. What is read is `int`."""

    __slots__ = ()


@dataclass(frozen=True, order=True, slots=True)
class ObjectId:
    """Holds the 12 bytes of an ObjectId; anything else raises TypeError."""

    data: bytes

    def __post_init__(self) -> None:
        if not isinstance(self.data, bytes) or len(self.data) != 12:
            raise TypeError(
                "an ObjectId is made of bytes of length 12;"
                " ObjectId(bytes.fromhex(digits)) is that of 24 digits"
            )

    def __str__(self) -> str:
        """Returns the 24 digits, as "0102030405060708090a0b0c"."""
        return self.data.hex()


@dataclass(frozen=True, slots=True)
class Regex:
    """Holds a regular expression: its pattern and its options, each as it is written."""

    pattern: str
    options: str = ""


@dataclass(frozen=True, order=True, slots=True)
class Timestamp:
    """Holds a timestamp of MongoDB: seconds since 1970, and a number that goes up within a second."""

    seconds: int
    increment: int


@dataclass(frozen=True, order=True, slots=True)
class DatetimeMS:
    """Holds a date that `datetime` has none for, before the year 1 or after 9999: milliseconds since 1970."""

    milliseconds: int


@dataclass(frozen=True, slots=True)
class Binary:
    """Holds a binary of a subtype that isn't 0; of subtype 2 without the inner count. The arguments stand as in PyMongo's."""

    data: bytes
    subtype: int = 0


@dataclass(frozen=True, slots=True)
class Code:
    """Holds JavaScript: its text, and the document of its variables if it has one."""

    text: str
    scope: Union[Document, dict[str, Any], None] = None


@dataclass(frozen=True, slots=True)
class DBPointer:
    """Holds a namespace and the ObjectId of a document in it."""

    namespace: str
    id: ObjectId


@dataclass(frozen=True, slots=True)
class Symbol:
    """Holds the text of a symbol."""

    text: str


@dataclass(frozen=True, slots=True)
class Decimal128:
    """Holds the 16 bytes of a decimal number; anything else raises TypeError. Two are equal if their bytes are, so 1.0 isn't 1.00."""

    data: bytes

    def __post_init__(self) -> None:
        if not isinstance(self.data, bytes) or len(self.data) != 16:
            raise TypeError(
                "a Decimal128 is made of bytes of length 16;"
                " Decimal128(bytes.fromhex(digits)) is that of 32 hexadecimal digits"
            )

    def __str__(self) -> str:
        """Returns the number as Extended JSON has it, as "1.50E+3", "Infinity" or "NaN"."""
        from .document import Document

        inner = json.loads(Document(b"\x17\0\0\0\x13\0" + self.data + b"\0").json())[""]
        text: str = inner["$numberDecimal"]
        return text

    def to_decimal(self) -> decimal.Decimal:
        """Returns the number with all of its digits. A NaN is a quiet one, without its payload."""
        return decimal.Decimal(str(self))


@dataclass(frozen=True, slots=True)
class MinKey:
    """Stands below all values."""


@dataclass(frozen=True, slots=True)
class MaxKey:
    """Stands above all values."""


@dataclass(frozen=True, slots=True)
class Undefined:
    """Stands for a value that JavaScript has none for; BSON keeps it from old times."""


UNDEFINED, MIN_KEY, MAX_KEY = Undefined(), MinKey(), MaxKey()
