"""Reads and writes BSON with the names of PyMongo 4's package `bson`, over the proved library.

    >>> from lughemra import bson
    >>> bson.decode(bson.encode({"hello": "world"}))
    {'hello': 'world'}

Where PyMongo is installed its types are taken (ObjectId, Int64 and the others), else own ones with the same interface. docs/PYTHON.md
tells what is left out.
"""

from __future__ import annotations

import uuid as uuid
from collections.abc import Iterator, Mapping
from typing import IO, Any, Optional

from .. import _library as _lib
from .._fast import SPEED as _SPEED
from .._library import Buffer as _Buffer
from ..checks import check as _check
from ..checks import documents as _documents
from ..errors import DocumentError as _DocumentError
from ._dates import EPOCH_AWARE as EPOCH_AWARE
from ._dates import EPOCH_NAIVE as EPOCH_NAIVE
from ._reading import reading_by as _reading_by
from ._types import SON as SON
from ._types import BSONError as BSONError
from ._types import Code as Code
from ._types import DatetimeMS as DatetimeMS
from ._types import DBRef as DBRef
from ._types import Decimal128 as Decimal128
from ._types import InvalidBSON as InvalidBSON
from ._types import InvalidDocument as InvalidDocument
from ._types import InvalidId as InvalidId
from ._types import InvalidStringData as InvalidStringData
from ._types import Int64 as Int64
from ._types import MaxKey as MaxKey
from ._types import MinKey as MinKey
from ._types import ObjectId as ObjectId
from ._types import Regex as Regex
from ._types import Timestamp as Timestamp
from ._types import utc as utc
from ._writing import writing_by as _writing_by
from .binary import Binary as Binary
from .binary import UuidRepresentation as UuidRepresentation
from .codec_options import DEFAULT_CODEC_OPTIONS as DEFAULT_CODEC_OPTIONS
from .codec_options import CodecOptions as CodecOptions
from .codec_options import DatetimeConversion as DatetimeConversion
from .codec_options import is_raw_document as _is_raw
from .codec_options import options_of as _options_of

_READING = _reading_by(DEFAULT_CODEC_OPTIONS)
_WRITING = _writing_by(DEFAULT_CODEC_OPTIONS)
# What the extension reads and writes most documents by, without options; None where there is no extension.
_READ: Any = None if _READING.speed is None else _READING.speed.document
_WRITE: Any = None if _WRITING.speed is None else _WRITING.speed.document


def _read(data: Any, options: CodecOptions) -> Any:
    """Returns one document, or one that is read lazily where the options say so."""
    if _is_raw(options.document_class):
        return options.document_class(data, options)
    reading = _READING if options is DEFAULT_CODEC_OPTIONS else _reading_by(options)
    try:
        return reading.document(data)
    except InvalidBSON:
        raise
    except TypeError:
        raise
    except Exception as fault:
        raise InvalidBSON(str(fault)) from None


def encode(document: Mapping[str, Any], check_keys: bool = False, codec_options: Optional[Any] = None) -> bytes:
    """Returns the bytes of a document. Raises InvalidDocument, OverflowError or TypeError for what can't be written."""
    if codec_options is None and _WRITE is not None and type(document) is dict and not check_keys:
        try:
            written: bytes = _WRITE(document)
            return written
        except Exception:
            # What is wrong is raised below, in the words that are expected.
            pass
    options = _options_of(codec_options)
    raw = getattr(document, "raw", None) if getattr(document, "_type_marker", None) == 101 else None
    if raw is not None:
        return bytes(raw)
    if not isinstance(document, Mapping):
        raise TypeError(f"encoder expected a mapping type but got: {document!r}")
    return (_WRITING if options is DEFAULT_CODEC_OPTIONS else _writing_by(options)).document(document, check_keys)


def decode(data: _Buffer, codec_options: Optional[Any] = None) -> Any:
    """Returns the document that the bytes are: a dict, or what the options say. Raises InvalidBSON for the first fault."""
    if codec_options is None and _READ is not None:
        try:
            made = _READ(data)
            if made is not None:
                return made
        except Exception:
            # What is wrong is raised below.
            pass
    return _read(data, _options_of(codec_options))


def _split(data: _Buffer) -> Iterator[bytes]:
    """Walks over the bytes of documents that stand one after another."""
    try:
        for document in _documents(data):
            yield document.raw
    except _DocumentError as fault:
        raise InvalidBSON(str(fault)) from None


def decode_all(data: _Buffer, codec_options: Optional[Any] = None) -> list[Any]:
    """Returns the documents that stand one after another."""
    options = _options_of(codec_options)
    if _SPEED is not None and not _is_raw(options.document_class):
        made: Optional[list[Any]] = _reading_by(options).all(data)
        if made is not None:
            return made
    return [_read(it, options) for it in _split(data)]


def decode_iter(data: _Buffer, codec_options: Optional[Any] = None) -> Iterator[Any]:
    """Walks over the documents that stand one after another; each is read when it is asked for."""
    options = _options_of(codec_options)
    for it in _split(data):
        yield _read(it, options)


def decode_file_iter(file_obj: IO[bytes], codec_options: Optional[Any] = None) -> Iterator[Any]:
    """Walks over the documents of a file, each of which is read from it when it is asked for."""
    options = _options_of(codec_options)
    while size_data := file_obj.read(4):
        if len(size_data) != 4:
            raise InvalidBSON("cut off in middle of objsize")
        length = int.from_bytes(size_data, "little", signed=True)
        data = size_data + file_obj.read(max(0, length - 4))
        if len(data) < length:
            raise InvalidBSON("cut off in middle of a document")
        yield _read(data, options)


def is_valid(bson: bytes) -> bool:
    """Returns true if the bytes are exactly one document, by the library's check."""
    if not isinstance(bson, bytes):
        raise TypeError(f"BSON data must be an instance of a subclass of bytes, not {type(bson)}")
    try:
        _check(bson)
    except _DocumentError:
        return False
    return True


def has_c() -> bool:
    """Returns true if the extension is there."""
    return _SPEED is not None


class BSON(bytes):
    """Holds the bytes of a document; PyMongo keeps it from old times."""

    @classmethod
    def encode(cls, document: Mapping[str, Any], check_keys: bool = False, codec_options: Optional[Any] = None) -> BSON:
        """Returns the bytes of a document."""
        return cls(encode(document, check_keys, codec_options))

    def decode(self, codec_options: Optional[Any] = None) -> Any:  # type: ignore[override]
        """Returns the document."""
        return decode(self, codec_options)
