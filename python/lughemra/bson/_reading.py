"""Reads documents by codec options: by the extension where it is there, else by a walk over `ctypes`. Both take the same makers."""

from __future__ import annotations

import datetime
import functools
from typing import Any, Callable, Optional

from .. import _library as lib
from .._fast import SPEED
from ..checks import check
from ..errors import DocumentError
from ..leaves import READERS, content, text
from ..values import Kind
from ._binary import OLD_UUID_SUBTYPE, UUID_SUBTYPE, UuidRepresentation
from ._dates import EPOCH_NAIVE, MILLISECOND, DatetimeConversion
from ._types import Binary, Code, DatetimeMS, DBRef, Decimal128, InvalidBSON, Int64, MaxKey, MinKey, ObjectId, Regex, Timestamp, utc
from .codec_options import CodecOptions

Maker = Callable[..., Any]
Parts = Callable[[Any, lib.Step], tuple[Any, ...]]

# The parts of a value, out of which a maker makes it, in the order of the library's pickles.
PARTS: dict[int, Parts] = {
    Kind.BINARY: lambda data, step: (step.subtype, content(data, step)),
    Kind.UNDEFINED: lambda data, step: (),
    Kind.OBJECT_ID: lambda data, step: (content(data, step),),
    Kind.DATETIME: lambda data, step: (step.integer,),
    Kind.REGEX: lambda data, step: (text(data, step), content(data, step).decode()),
    Kind.DB_POINTER: lambda data, step: (text(data, step), content(data, step)),
    Kind.CODE: lambda data, step: (text(data, step),),
    Kind.SYMBOL: lambda data, step: (text(data, step),),
    Kind.TIMESTAMP: lambda data, step: (step.seconds, step.increment),
    Kind.INT64: lambda data, step: (step.integer,),
    Kind.DECIMAL128: lambda data, step: (content(data, step),),
    Kind.MAX_KEY: lambda data, step: (),
    Kind.MIN_KEY: lambda data, step: (),
}
LEAST_DATE, GREATEST_DATE = datetime.datetime.min, datetime.datetime.max.replace(microsecond=999000)


def binary_maker(representation: int) -> Maker:
    """Returns what makes binary data: of a UUID's subtype that this representation has, a UUID."""
    wanted = {UuidRepresentation.UNSPECIFIED: None, UuidRepresentation.STANDARD: UUID_SUBTYPE}.get(representation, OLD_UUID_SUBTYPE)

    def binary(subtype: int, data: bytes) -> Any:
        if subtype == 0:
            return data
        made = Binary(data, subtype)
        return made.as_uuid(representation) if subtype == wanted else made

    return binary


def naive_date(conversion: DatetimeConversion, milliseconds: int) -> Any:
    """Returns a date without a time zone, or what it becomes by this conversion."""
    if conversion == DatetimeConversion.DATETIME_MS:
        return DatetimeMS(milliseconds)
    try:
        return EPOCH_NAIVE + milliseconds * MILLISECOND
    except OverflowError:
        if conversion == DatetimeConversion.DATETIME_AUTO:
            return DatetimeMS(milliseconds)
        if conversion == DatetimeConversion.DATETIME_CLAMP:
            return LEAST_DATE if milliseconds < 0 else GREATEST_DATE
        raise InvalidBSON(
            f"date value out of range: {milliseconds} (Consider Using CodecOptions(datetime_conversion=DATETIME_AUTO))"
        ) from None


def date_maker(options: CodecOptions) -> Maker:
    """Returns what makes dates."""

    def date(milliseconds: int) -> Any:
        made = naive_date(options.datetime_conversion, milliseconds)
        if not options.tz_aware or not isinstance(made, datetime.datetime):
            return made
        aware = made.replace(tzinfo=utc)
        return aware if options.tzinfo is None else aware.astimezone(options.tzinfo)

    return date


def flags_of(pattern: str, options: str) -> Any:
    """Returns a regular expression of its pattern and its letters."""
    return Regex(pattern, options)


def reference_of(document: Any) -> Any:
    """Returns a DBRef where the document stands for one, and else the document."""
    named, database = document.get("$ref"), document.get("$db")
    if not isinstance(named, str) or "$id" not in document or not isinstance(database, (str, type(None))):
        return document
    rest = {name: value for name, value in document.items() if name not in ("$ref", "$id", "$db")}
    return DBRef(named, document["$id"], database, rest)


def makers_of(options: CodecOptions) -> dict[int, Maker]:
    """Returns what makes a value of each kind that Python has none for."""
    makers: dict[Kind, Maker] = {
        Kind.BINARY: binary_maker(options.uuid_representation),
        Kind.UNDEFINED: lambda: None,
        Kind.OBJECT_ID: ObjectId,
        Kind.DATETIME: date_maker(options),
        Kind.REGEX: flags_of,
        Kind.DB_POINTER: lambda namespace, data: DBRef(namespace, ObjectId(data)),
        Kind.CODE: Code,
        Kind.SYMBOL: str,
        Kind.CODE_WITH_SCOPE: Code,
        Kind.TIMESTAMP: Timestamp,
        Kind.INT64: Int64,
        Kind.DECIMAL128: Decimal128.from_bid,
        Kind.MAX_KEY: MaxKey,
        Kind.MIN_KEY: MinKey,
    }
    return {int(kind): maker for kind, maker in makers.items()}


def slot_of_ids() -> Any:
    """Returns the type of ObjectIds and the slot that holds the bytes of one, where it has such a one; else None."""
    member = vars(ObjectId).get("_ObjectId__id")
    return None if member is None or vars(ObjectId).get("__slots__") != ("__id",) else (ObjectId, member)


class Reading:
    """Reads documents by codec options."""

    # What the extension reads by, or None where there is none.
    speed: Optional[Any] = None

    def __init__(self, options: CodecOptions) -> None:
        self.options = options
        self.makers = makers_of(options)
        if SPEED is not None:
            zone = (None if not options.tz_aware else utc) if options.tzinfo is None else ...
            if options.datetime_conversion == DatetimeConversion.DATETIME_MS:
                zone = ...
            self.speed = SPEED.Reader(self.makers, options.document_class, slot_of_ids(), Int64, zone, reference_of, False)

    def document(self, data: Any) -> Any:
        """Returns the document that the bytes are. Raises DocumentError for the first fault that a check finds."""
        if self.speed is not None:
            made = self.speed.document(data)
            if made is not None:
                return made
        check(data)
        kept, pointer, size = lib.lent(data)
        return self._walked(kept, pointer, size, lib.short.first(pointer, size).iter, False)

    def all(self, data: Any) -> Any:
        """Returns the documents that stand one after another, or None where there is a fault or no extension."""
        return None if self.speed is None else self.speed.all(data)

    def inside(self, data: Any, pointer: Any, size: Any, step: lib.Step, begin: lib.Iter) -> Any:
        """Returns the value of an element that the walk has just read, in checked bytes."""
        if step.kind == Kind.DOCUMENT:
            return self._walked(data, pointer, size, begin, True)
        if step.kind == Kind.ARRAY:
            return [value for _, value in self._pairs(data, pointer, size, begin)]
        return self.makers[Kind.CODE_WITH_SCOPE](text(data, step), self._walked(data, pointer, size, begin, False))

    def leaf(self, data: Any, step: lib.Step) -> Any:
        """Returns the value of an element that holds no others."""
        parts = PARTS.get(step.kind)
        if parts is None:
            reader = READERS[step.kind]
            assert reader is not None
            return reader(data, step)
        return self.makers[step.kind](*parts(data, step))

    def _walked(self, data: Any, pointer: Any, size: Any, begin: lib.Iter, is_inner: bool) -> Any:
        """Returns a document. Of elements with one name the last counts."""
        made = self.options.document_class()
        for name, value in self._pairs(data, pointer, size, begin):
            made[name] = value
        return reference_of(made) if is_inner and "$ref" in made else made

    def _pairs(self, data: Any, pointer: Any, size: Any, begin: lib.Iter) -> list[tuple[str, Any]]:
        """Returns the names and the values of the elements in a document or an array."""
        cursor = lib.cursor()
        step, iter_argument, element_argument = cursor
        step.iter = begin
        pairs: list[tuple[str, Any]] = []
        lib.short.next(pointer, size, iter_argument, element_argument)
        while kind := step.kind:
            at = step.name_at
            name = str(data[at : at + step.name_length], "utf-8")
            if kind in (Kind.DOCUMENT, Kind.ARRAY, Kind.CODE_WITH_SCOPE):
                value = self.inside(data, pointer, size, step, lib.short.enter(iter_argument, element_argument))
            else:
                value = self.leaf(data, step)
            pairs.append((name, value))
            lib.short.next(pointer, size, iter_argument, element_argument)
        if step.number:
            raise DocumentError(step.number, step.offset)
        lib.spare.append(cursor)
        return pairs


@functools.lru_cache(64)
def reading_by(options: CodecOptions) -> Reading:
    """Returns what reads by these options."""
    return Reading(options)
