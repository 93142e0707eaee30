"""Makes the values that no opcode of a pickle makes, out of their parts in the library's pickles.

A pickle takes each of these functions by a number, under which it is registered here in `copyreg`: so neither the name of a module nor
that of a function stands in it. The number of a kind is its type byte, behind "LUG". Each pickle in the process can call these
functions by their numbers, so they do nothing but make a value.
"""

from __future__ import annotations

import copyreg
import pickle

from .leaves import date_of as date_of
from .leaves import object_id as object_id
from .values import MAX_KEY, MIN_KEY, UNDEFINED, Binary, Code, DBPointer, Kind, MaxKey, MinKey, Undefined
from .values import Decimal128 as Decimal128
from .values import Regex as Regex
from .values import Symbol as Symbol
from .values import Timestamp as Timestamp

NUMBER = 0x4C554700


def binary(subtype: int, data: bytes) -> Binary:
    """Returns binary data of its subtype and its bytes."""
    return Binary(data, subtype)


def undefined() -> Undefined:
    """Returns the one value of this kind."""
    return UNDEFINED


def max_key() -> MaxKey:
    """Returns the one value of this kind."""
    return MAX_KEY


def min_key() -> MinKey:
    """Returns the one value of this kind."""
    return MIN_KEY


def db_pointer(namespace: str, data: bytes) -> DBPointer:
    """Returns a DBPointer of its namespace and the bytes of its id."""
    return DBPointer(namespace, object_id(data))


# The name under which this module has what makes a value of each kind.
MAKERS = {
    Kind.BINARY: "binary",
    Kind.UNDEFINED: "undefined",
    Kind.OBJECT_ID: "object_id",
    Kind.DATETIME: "date_of",
    Kind.REGEX: "Regex",
    Kind.DB_POINTER: "db_pointer",
    Kind.CODE: "Code",
    Kind.SYMBOL: "Symbol",
    Kind.CODE_WITH_SCOPE: "CodeWithScope",
    Kind.TIMESTAMP: "Timestamp",
    Kind.DECIMAL128: "Decimal128",
    Kind.MAX_KEY: "max_key",
    Kind.MIN_KEY: "min_key",
}
# `copyreg` gives a name one number, and Code is made of two kinds.
CodeWithScope = Code


def taken(number: int) -> object:
    """Returns what a pickle takes by this number."""
    return pickle.loads(b"\x80\x04\x84" + number.to_bytes(4, "little") + b".")


def registered() -> bool:
    """Gives each function its number, and takes each once, so that Python keeps it under that. Returns false where another copy of this
    module, or another program, has one of the numbers in this process."""
    try:
        for kind, name in MAKERS.items():
            copyreg.add_extension(__name__, name, NUMBER + kind)
    except ValueError:
        return False
    # A copy that was imported before under the same name has the same numbers, and its functions are kept.
    return all(taken(NUMBER + kind) is globals()[name] for kind, name in MAKERS.items())


# Whether pickles of the library may be read here.
REGISTERED = registered()
