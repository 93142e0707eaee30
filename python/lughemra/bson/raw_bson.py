"""Documents that are read lazily, with PyMongo's names: each value is read when it is asked for, by the library."""

from __future__ import annotations

import functools
from collections.abc import ItemsView, Iterator, Mapping
from typing import Any, Optional

from .. import _library as lib
from ..document import Document
from ..errors import TEXT_FAULT, DocumentError
from ..values import Kind
from ._reading import Reading, reading_by
from ._types import InvalidBSON
from .codec_options import DEFAULT_CODEC_OPTIONS, CodecOptions, is_raw_document, options_of


class RawBSONDocument(Mapping[str, Any]):
    """Is a mapping over the bytes of a document. Its length and its last byte are checked when it is made, and each element when it is
    read. A document inside is one of the same kind. Of elements with one name the first counts."""

    _type_marker = 101

    def __init__(self, bson_bytes: bytes, codec_options: Optional[Any] = None) -> None:
        options = options_of(codec_options) if codec_options is not None else DEFAULT_RAW_BSON_OPTIONS
        if not is_raw_document(options.document_class):
            raise TypeError(
                f"RawBSONDocument cannot use CodecOptions with document class {options.document_class}, a RawBSONDocument is wanted"
            )
        self.__options = options
        try:
            self.__document = Document(bson_bytes)
        except DocumentError as fault:
            raise InvalidBSON(str(fault)) from None

    @property
    def raw(self) -> bytes:
        """Returns the bytes."""
        return self.__document.raw

    def _value(self, step: lib.Step) -> Any:
        """Returns the value of an element."""
        held, options = self.__document, self.__options
        try:
            if step.kind not in (Kind.DOCUMENT, Kind.ARRAY, Kind.CODE_WITH_SCOPE):
                return plain_reading(options).leaf(held._data, step)
            inside = held._inside(step)
            if step.kind == Kind.DOCUMENT:
                return type(self)(inside.raw, options)
            if step.kind == Kind.ARRAY:
                return items_of(type(self), inside, options)
            return plain_reading(options).makers[Kind.CODE_WITH_SCOPE](inside.text, type(self)(inside.scope.raw, options))
        except UnicodeDecodeError:
            raise InvalidBSON(str(DocumentError(TEXT_FAULT, step.name_at - 1))) from None
        except DocumentError as fault:
            raise InvalidBSON(str(fault)) from None

    def __getitem__(self, item: str) -> Any:
        try:
            step = self.__document._found(item)
        except DocumentError as fault:
            raise InvalidBSON(str(fault)) from None
        if step is None:
            raise KeyError(item)
        return self._value(step)

    def _pairs(self) -> Iterator[tuple[str, Any]]:
        """Walks over the elements."""
        try:
            for step in self.__document._steps():
                yield self.__document._name(step), self._value(step)
        except DocumentError as fault:
            raise InvalidBSON(str(fault)) from None

    def __iter__(self) -> Iterator[str]:
        try:
            yield from self.__document
        except DocumentError as fault:
            raise InvalidBSON(str(fault)) from None

    def __len__(self) -> int:
        return len(self.__document)

    def items(self) -> ItemsView[str, Any]:
        """Returns a view of the pairs."""
        return dict(self._pairs()).items()

    def __eq__(self, other: object) -> Any:
        return self.raw == other.raw if isinstance(other, RawBSONDocument) else NotImplemented

    __hash__: Any = None

    def __repr__(self) -> str:
        return f"{type(self).__name__}({self.raw!r}, codec_options={self.__options!r})"


def items_of(document_class: Any, array: Any, options: CodecOptions) -> list[Any]:
    """Returns the items of an array, whose documents are read lazily."""
    reading = plain_reading(options)
    items = []
    for step in array._steps():
        if step.kind == Kind.DOCUMENT:
            items.append(document_class(array._inside(step).raw, options))
        elif step.kind == Kind.ARRAY:
            items.append(items_of(document_class, array._inside(step), options))
        elif step.kind == Kind.CODE_WITH_SCOPE:
            inside = array._inside(step)
            items.append(reading.makers[Kind.CODE_WITH_SCOPE](inside.text, document_class(inside.scope.raw, options)))
        else:
            items.append(reading.leaf(array._data, step))
    return items


@functools.lru_cache(64)
def plain_reading(options: CodecOptions) -> Reading:
    """Returns what reads the values of leaves."""
    return reading_by(options.with_options(document_class=dict))


DEFAULT_RAW_BSON_OPTIONS = DEFAULT_CODEC_OPTIONS.with_options(document_class=RawBSONDocument)
