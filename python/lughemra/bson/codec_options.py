"""How documents are read and written, with the names of PyMongo's `bson.codec_options`."""

from __future__ import annotations

import datetime
from collections.abc import MutableMapping
from typing import Any, NamedTuple, Optional

from ._binary import ALL_UUID_REPRESENTATIONS, UUID_REPRESENTATION_NAMES, UuidRepresentation
from ._dates import DatetimeConversion as DatetimeConversion


NO_REGISTRY = "a type_registry isn't supported: convert values before they are written and after they were read"
NO_CLASS = "document_class must be dict, SON, RawBSONDocument, or a subclass of collections.abc.MutableMapping"


class TypeRegistry:
    """Is refused: no types of a program's own are read or written."""

    def __init__(self, type_codecs: Any = None, fallback_encoder: Any = None) -> None:
        if type_codecs or fallback_encoder:
            raise NotImplementedError(NO_REGISTRY)

    def __eq__(self, other: object) -> bool:
        return isinstance(other, TypeRegistry)

    def __hash__(self) -> int:
        return 0

    def __repr__(self) -> str:
        return "TypeRegistry(type_codecs=[], fallback_encoder=None)"


class _Fields(NamedTuple):
    document_class: Any
    tz_aware: bool
    uuid_representation: int
    unicode_decode_error_handler: str
    tzinfo: Optional[datetime.tzinfo]
    type_registry: Any
    datetime_conversion: DatetimeConversion


class CodecOptions(_Fields):
    """Holds the options of PyMongo 4 and their values there, if they are left out."""

    __slots__ = ()

    def __new__(
        cls,
        document_class: Any = None,
        tz_aware: bool = False,
        uuid_representation: Optional[int] = UuidRepresentation.UNSPECIFIED,
        unicode_decode_error_handler: str = "strict",
        tzinfo: Optional[datetime.tzinfo] = None,
        type_registry: Any = None,
        datetime_conversion: Any = DatetimeConversion.DATETIME,
    ) -> CodecOptions:
        document_class = document_class or dict
        if not (isinstance(document_class, type) and (issubclass(document_class, MutableMapping) or is_raw_document(document_class))):
            raise TypeError(NO_CLASS)
        if not isinstance(tz_aware, bool):
            raise TypeError(f"tz_aware must be True or False, was: tz_aware={tz_aware}")
        if uuid_representation not in ALL_UUID_REPRESENTATIONS:
            raise ValueError("uuid_representation must be a value from bson.binary.UuidRepresentation")
        if unicode_decode_error_handler not in ("strict", None):
            raise NotImplementedError("unicode_decode_error_handler isn't supported: a text that isn't UTF-8 is a fault")
        if tzinfo is not None and not isinstance(tzinfo, datetime.tzinfo):
            raise TypeError(f"tzinfo must be an instance of datetime.tzinfo, not {type(tzinfo)}")
        if tzinfo is not None and not tz_aware:
            raise ValueError("cannot specify tzinfo without also setting tz_aware=True")
        if type_registry is None:
            type_registry = TypeRegistry()
        elif not isinstance(type_registry, TypeRegistry):
            raise NotImplementedError(NO_REGISTRY)
        made: CodecOptions = super().__new__(
            cls, document_class, tz_aware, uuid_representation, "strict", tzinfo, type_registry, DatetimeConversion(datetime_conversion)
        )
        return made

    def with_options(self, **kwargs: Any) -> CodecOptions:
        """Returns a copy with other values of these options."""
        return CodecOptions(**{**self._asdict(), **kwargs})

    def _arguments_repr(self) -> str:
        name = "dict" if self.document_class is dict else repr(self.document_class)
        known = UUID_REPRESENTATION_NAMES.get(self.uuid_representation, self.uuid_representation)
        return (
            f"document_class={name}, tz_aware={self.tz_aware!r}, uuid_representation={known},"
            f" unicode_decode_error_handler={self.unicode_decode_error_handler!r}, tzinfo={self.tzinfo!r},"
            f" type_registry={self.type_registry!r}, datetime_conversion={self.datetime_conversion!s}"
        )

    def __repr__(self) -> str:
        return f"{type(self).__name__}({self._arguments_repr()})"


def is_raw_document(document_class: Any) -> bool:
    """Returns true for the type of documents that are read lazily: a subclass of RawBSONDocument."""
    return getattr(document_class, "_type_marker", None) == 101


DEFAULT_CODEC_OPTIONS = CodecOptions()


def options_of(given: Any) -> CodecOptions:
    """Returns options that are given, PyMongo's too; of None the default ones. Raises TypeError for anything else."""
    if given is None:
        return DEFAULT_CODEC_OPTIONS
    if isinstance(given, CodecOptions):
        return given
    if not hasattr(given, "document_class") or not hasattr(given, "uuid_representation"):
        raise TypeError("codec_options must be an instance of CodecOptions")
    registry = getattr(given, "type_registry", None)
    if any(getattr(registry, part, None) for part in ("_encoder_map", "_decoder_map", "_fallback_encoder")):
        raise NotImplementedError(NO_REGISTRY)
    conversion = getattr(given, "datetime_conversion", None) or DatetimeConversion.DATETIME
    return CodecOptions(
        given.document_class,
        given.tz_aware,
        given.uuid_representation,
        given.unicode_decode_error_handler,
        given.tzinfo,
        None,
        int(conversion),
    )
