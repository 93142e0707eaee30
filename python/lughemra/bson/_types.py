"""Takes each type from PyMongo where PyMongo is installed, so that a program has one ObjectId and not two; else the own one of that name.

LUGHEMRA_OWN_TYPES, if it is set, takes the own ones. A checker of types sees these, whose interface is the same.
"""

from __future__ import annotations

import importlib
import os
from typing import TYPE_CHECKING, Any

from . import _binary, _dates, _decimal, _errors, _ids, _values

VARIABLE = "LUGHEMRA_OWN_TYPES"
# Where PyMongo has what, beside the module that has it here.
PLACES = {
    "binary": (_binary, ["Binary"]),
    "code": (_values, ["Code"]),
    "datetime_ms": (_dates, ["DatetimeMS"]),
    "dbref": (_values, ["DBRef"]),
    "decimal128": (_decimal, ["Decimal128", "create_decimal128_context"]),
    "errors": (_errors, ["BSONError", "InvalidBSON", "InvalidDocument", "InvalidId", "InvalidStringData"]),
    "int64": (_values, ["Int64"]),
    "max_key": (_values, ["MaxKey"]),
    "min_key": (_values, ["MinKey"]),
    "objectid": (_ids, ["ObjectId"]),
    "regex": (_values, ["Regex"]),
    "son": (_values, ["SON"]),
    "timestamp": (_values, ["Timestamp"]),
    "tz_util": (_dates, ["FixedOffset", "utc"]),
}


def is_there() -> bool:
    """Returns true if PyMongo's `bson` is to be used: another package of that name is not PyMongo's."""
    if os.environ.get(VARIABLE):
        return False
    try:
        codec_options, objectid = (importlib.import_module(f"bson.{name}") for name in ("codec_options", "objectid"))
    except ImportError:
        return False
    return hasattr(codec_options, "CodecOptions") and hasattr(objectid, "ObjectId")


PYMONGO = is_there()


def taken() -> dict[str, Any]:
    """Returns what each name stands for."""
    found = {}
    for module, (own, names) in PLACES.items():
        try:
            theirs = importlib.import_module(f"bson.{module}") if PYMONGO else own
        except ImportError:
            theirs = own
        found.update({name: getattr(theirs, name, None) or getattr(own, name) for name in names})
    return found


if TYPE_CHECKING:
    from ._binary import Binary as Binary
    from ._dates import DatetimeMS as DatetimeMS
    from ._dates import FixedOffset as FixedOffset
    from ._dates import utc as utc
    from ._decimal import Decimal128 as Decimal128
    from ._decimal import create_decimal128_context as create_decimal128_context
    from ._errors import BSONError as BSONError
    from ._errors import InvalidBSON as InvalidBSON
    from ._errors import InvalidDocument as InvalidDocument
    from ._errors import InvalidId as InvalidId
    from ._errors import InvalidStringData as InvalidStringData
    from ._ids import ObjectId as ObjectId
    from ._values import SON as SON
    from ._values import Code as Code
    from ._values import DBRef as DBRef
    from ._values import Int64 as Int64
    from ._values import MaxKey as MaxKey
    from ._values import MinKey as MinKey
    from ._values import Regex as Regex
    from ._values import Timestamp as Timestamp
else:
    globals().update(taken())
