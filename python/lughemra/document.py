"""Documents that are read from their bytes, each value when it is asked for."""

from __future__ import annotations

import datetime
import functools
import struct
from collections.abc import Iterator, ItemsView, Mapping, Sequence, ValuesView
from typing import Any, NamedTuple, NoReturn, Optional, Self, Union, overload

from . import _library as lib
from . import values, whole
from .errors import TEXT_FAULT, DocumentError
from .leaves import READERS, text
from .values import (
    Binary,
    Code,
    DatetimeMS,
    DBPointer,
    Decimal128,
    Kind,
    MaxKey,
    MinKey,
    ObjectId,
    Regex,
    Symbol,
    Timestamp,
    Undefined,
)

# The types of values. What is read is typed as Any, as by `json.loads`: a program knows which of them it wants, and would have to
# tell a checker so at each step.
Value = Union[
    float, str, "Document", "Array", bytes, Binary, Undefined, ObjectId, bool, datetime.datetime, DatetimeMS, None,
    Regex, DBPointer, Code, Symbol, int, Timestamp, Decimal128, MinKey, MaxKey,
]  # fmt: skip


class Element(NamedTuple):
    """Holds one element: its name, the kind of its value, and the value."""

    name: str
    kind: Kind
    value: Any


_get, _find, _next = lib.short.get, lib.short.find, lib.short.next
_first, _enter = lib.short.first, lib.short.enter
_size, _spare, _cursor = lib.size, lib.spare, lib.cursor
_INT32, _INT64 = int(Kind.INT32), int(Kind.INT64)


@functools.lru_cache(1024)
def _encoded(name: str) -> tuple[bytes, Any]:
    """Returns the bytes of a name, and their number as an argument."""
    encoded = name.encode()
    return encoded, lib.size(len(encoded))


# Reads the length that a document begins with.
_length_of = struct.Struct("<i").unpack_from


@functools.lru_cache(1024)
def _outermost(length: int) -> lib.Iter:
    """Returns where the walk over an outermost document of this length begins."""
    return lib.Iter(0, 4, length - 1, 1)


class _Container:
    """Holds what a document and an array have in common: the bytes that were handed in, and where a walk begins in them."""

    __slots__ = ("_data", "_pointer", "_size", "_inner", "__weakref__")

    _data: Any
    _pointer: Any
    _size: Any
    # Where a walk begins, of one that stands inside another one.
    _inner: Optional[lib.Iter]

    def __init__(self, data: lib.Buffer) -> None:
        self._inner = None
        if type(data) is bytes:
            self._data = self._pointer = data
            length = len(data)
            self._size = size = _size(length)
            if 4 < length == _length_of(data)[0] and not data[-1]:
                return
        else:
            self._data, self._pointer, self._size = data, _, size = lib.lent(data)
        first = _first(self._pointer, size)
        if first.number:
            raise DocumentError(first.number, first.offset)

    @property
    def _begin(self) -> lib.Iter:
        """Returns where a walk begins."""
        return self._inner or _outermost(len(self._data))

    @classmethod
    def _made(cls, data: Any, pointer: Any, size: Any, begin: lib.Iter) -> Self:
        """Returns the document or the array over which this iterator walks."""
        made = cls.__new__(cls)
        made._data, made._pointer, made._size, made._inner = data, pointer, size, begin
        return made

    def _steps(self) -> Iterator[lib.Step]:
        """Walks over the elements, each of which is there until the next one is asked for."""
        pointer, size = self._pointer, self._size
        cursor = _cursor()
        step, iter_argument, element_argument = cursor
        step.iter = self._begin
        _next(pointer, size, iter_argument, element_argument)
        while step.kind:
            yield step
            _next(pointer, size, iter_argument, element_argument)
        if step.number:
            raise DocumentError(step.number, step.offset)
        _spare.append(cursor)

    def _name(self, step: lib.Step) -> str:
        """Returns the name of an element."""
        at = step.name_at
        return str(self._data[at : at + step.name_length], "utf-8")

    def _value(self, step: lib.Step) -> Any:
        """Returns the value of an element."""
        reader = READERS[step.kind]
        if reader is None:
            return self._inside(step)
        try:
            return reader(self._data, step)
        except UnicodeDecodeError:
            raise DocumentError(TEXT_FAULT, step.name_at - 1) from None

    def _inside(self, step: lib.Step) -> Any:
        """Returns the document, the array or the code with scope that an element holds."""
        begin = _enter(lib.address_of(step), lib.address_of(step, lib.OFFSET_OF_ELEMENT))
        kind = step.kind
        if kind == Kind.ARRAY:
            return Array._made(self._data, self._pointer, self._size, begin)
        inner = Document._made(self._data, self._pointer, self._size, begin)
        return Code(text(self._data, step), inner) if kind == Kind.CODE_WITH_SCOPE else inner

    def elements(self) -> Iterator[Element]:
        """Walks over the elements in their order, with repeated names and the names in arrays, which no other way tells."""
        for step in self._steps():
            yield Element(self._name(step), Kind(step.kind), self._value(step))

    @property
    def raw(self) -> bytes:
        """Returns a copy of the bytes, from the length to the last byte."""
        return bytes(self._data[self._begin.start : self._begin.end + 1])

    def check(self) -> None:
        """Checks all that is in it, and raises the first fault, if there is one."""
        begin = self._begin
        data, pointer, size = lib.lent(self._data[begin.start : begin.end + 1])
        fault = lib.functions_for(data).check_document(pointer, size)
        if fault.number:
            raise DocumentError(fault.number, begin.start + fault.offset)

    def _written(self, name: str, *form: Any) -> bytes:
        """Returns what this function of the library writes."""
        inner = self._inner
        data, pointer, size = self._data, self._pointer, self._size
        if inner is not None:
            data, pointer, size = lib.lent(data[inner.start : inner.end + 1])
        function = getattr(lib.functions_for(data), name)
        room = lib.room_of(3 * len(data) + 256)
        told = function(pointer, size, *form, room.pointer, room.size)
        # Once more, and again where another thread made the bytes longer meanwhile.
        while not told.written and not told.number:
            lib.give_back(room)
            room = lib.room_of(told.length)
            told = function(pointer, size, *form, room.pointer, room.size)
        written = room.view[: told.length].tobytes()
        lib.give_back(room)
        if not told.written:
            self._refuse(told.number, told.offset)
        return written

    def _refuse(self, number: int, offset: int) -> NoReturn:
        """Raises why nothing is written."""
        if number == lib.NO_MEMORY:
            raise MemoryError
        if number == lib.TOO_LARGE:
            raise OverflowError("the canonical form has more than 2,147,483,647 bytes")
        raise DocumentError(number, self._begin.start + offset)

    def __bool__(self) -> bool:
        """Returns true if there is an element."""
        return any(True for _ in self._steps())

    def __reduce__(self) -> tuple[Any, tuple[bytes]]:
        """Returns what copies and pickles are made of: the bytes."""
        return type(self), (self.raw,)


class Document(_Container, Mapping[str, Any]):
    """Reads a document from its bytes: a mapping from names to values.

    The bytes are any bytes-like object, which is kept and must not change. Only the length and the last byte are checked
    here, and each element when it is read, so reading may raise DocumentError; `check` checks all of them. Of elements with
    the same name the first one counts, and `elements` gives all.
    """

    __slots__ = ()

    def __getitem__(self, name: str) -> Any:
        try:
            encoded, length = _encoded(name)
        except (AttributeError, UnicodeEncodeError):
            raise KeyError(name) from None
        try:
            cursor = _spare.pop()
        except IndexError:
            cursor = _cursor()
        step, iter_argument, element_argument = cursor
        begin = self._inner
        if begin is None:
            # It looks at the length again, so that no iterator is copied for it.
            _get(self._pointer, self._size, encoded, length, element_argument)
        else:
            step.iter = begin
            _find(self._pointer, self._size, encoded, length, iter_argument, element_argument)
        kind = step.kind
        reader = READERS[kind]
        if kind == _INT32 or kind == _INT64:
            value = step.integer
        elif reader is not None:
            try:
                value = reader(self._data, step)
            except UnicodeDecodeError:
                raise DocumentError(TEXT_FAULT, step.name_at - 1) from None
        elif kind:
            if begin is None:
                step.iter = self._begin
            value = self._inside(step)
        else:
            number, offset = step.number, step.offset
            _spare.append(cursor)
            if number:
                raise DocumentError(number, offset)
            raise KeyError(name)
        _spare.append(cursor)
        return value

    def get(self, name: str, default: Any = None) -> Any:
        """Returns the first value with this name, or the default where there is none."""
        try:
            return self[name]
        except KeyError:
            return default

    def _found(self, name: str) -> Optional[lib.Step]:
        """Returns the first element with this name, or None where there is none."""
        try:
            encoded, length = _encoded(name)
        except (AttributeError, UnicodeEncodeError):
            return None
        step, iter_argument, element_argument = lib.new_cursor()
        step.iter = self._begin
        _find(self._pointer, self._size, encoded, length, iter_argument, element_argument)
        if step.number:
            raise DocumentError(step.number, step.offset)
        return step if step.kind else None

    def kind(self, name: str) -> Kind:
        """Returns the kind of the first value with this name, which tells an int32 from an int64, say."""
        step = self._found(name)
        if step is None:
            raise KeyError(name)
        return Kind(step.kind)

    def __contains__(self, name: object) -> bool:
        try:
            return bool(self.kind(name))  # type: ignore[arg-type]
        except KeyError:
            return False

    def _firsts(self) -> Iterator[tuple[str, lib.Step]]:
        """Walks over the elements whose names didn't come before."""
        seen = set()
        for step in self._steps():
            name = self._name(step)
            if name not in seen:
                seen.add(name)
                yield name, step

    def __iter__(self) -> Iterator[str]:
        return (name for name, _ in self._firsts())

    def __len__(self) -> int:
        return len({self._name(step) for step in self._steps()})

    def items(self) -> ItemsView[str, Any]:
        """Returns a view of the pairs, which is walked over once."""
        return _Items(self)

    def values(self) -> ValuesView[Any]:
        """Returns a view of the values, which is walked over once."""
        return _Values(self)

    def to_dict(self) -> dict[str, Any]:
        """Returns all of it as dict and list. Raises the first fault that `check` finds, if there is one."""
        made: Optional[dict[str, Any]] = whole.made_by_extension(self, False)
        if made is None:
            made = whole.dict_of(self)
        return whole.first_of(whole.walked(self)) if made is None else made

    def json(self, relaxed: bool = False) -> str:
        """Returns MongoDB Extended JSON v2, canonical or relaxed, with no white space."""
        return self._written("json", lib.TRUE if relaxed else lib.FALSE).decode()

    def text(self) -> str:
        """Returns the text that `bsonwire dump` writes: a line for the size and one for each element, at all depths."""
        return self._written("dump").decode()

    def canonical(self) -> Document:
        """Returns the canonical form: a copy in which the names of each array are "0", "1" and so on."""
        return Document(self._written("canonical"))

    def __repr__(self) -> str:
        try:
            text = self.json(relaxed=True)
        except DocumentError as fault:
            text = f"{self._begin.end + 1 - self._begin.start} bytes, {fault}"
        return f"Document({text if len(text) <= 200 else text[:200] + '...'})"


# `values` can't import this module, which imports it. `typing.get_type_hints` looks the type of a scope up there.
setattr(values, "Document", Document)


class _Items(ItemsView[str, Any]):
    """Walks over the pairs of a document, so that no name is looked for."""

    def __init__(self, document: Document) -> None:
        super().__init__(document)
        self._document = document

    def __iter__(self) -> Iterator[tuple[str, Any]]:
        document = self._document
        return ((name, document._value(step)) for name, step in document._firsts())


class _Values(ValuesView[Any]):
    """Walks over the values of a document, so that no name is looked for."""

    def __init__(self, document: Document) -> None:
        super().__init__(document)
        self._document = document

    def __iter__(self) -> Iterator[Any]:
        document = self._document
        return (document._value(step) for _, step in document._firsts())

    def __contains__(self, value: object) -> bool:
        return any(it is value or it == value for it in self)


class Array(_Container, Sequence[Any]):
    """Reads an array from its bytes, which are spelled as a document's: a sequence of values, whatever the names are.

    Where the elements begin is found by a walk, the first time that the length or a value at an index is asked for, and
    kept. An array is equal to a list of equal values.
    """

    __slots__ = ("_places",)

    def _found_places(self) -> list[int]:
        """Returns the offset of each element's type byte."""
        try:
            return self._places
        except AttributeError:
            self._places: list[int] = [step.name_at - 1 for step in self._steps()]
            return self._places

    @overload
    def __getitem__(self, index: int) -> Any: ...

    @overload
    def __getitem__(self, index: slice) -> list[Any]: ...

    def __getitem__(self, index: Union[int, slice]) -> Any:
        if isinstance(index, slice):
            return [self._read(place) for place in self._found_places()[index]]
        return self._read(self._found_places()[index])

    def _read(self, place: int) -> Any:
        """Returns the value of the element at this offset."""
        cursor = _cursor()
        step, iter_argument, element_argument = cursor
        step.iter = self._begin
        step.iter.at = place
        _next(self._pointer, self._size, iter_argument, element_argument)
        if not step.kind:
            raise DocumentError(step.number, step.offset)
        value = self._value(step)
        _spare.append(cursor)
        return value

    def __iter__(self) -> Iterator[Any]:
        return map(self._value, self._steps())

    def __len__(self) -> int:
        return len(self._found_places())

    def __eq__(self, other: object) -> bool:
        if isinstance(other, (Array, list)):
            return list(self) == list(other)
        return NotImplemented

    __hash__ = None  # type: ignore[assignment]

    def to_list(self) -> list[Any]:
        """Returns all of it as list and dict. Raises the first fault that `check` finds, if there is one."""
        listed: Optional[list[Any]] = whole.made_by_extension(self, True)
        if listed is not None:
            return listed
        made = whole.dict_of(self)
        return [value for _, value in whole.walked(self)] if made is None else list(made.values())

    def __repr__(self) -> str:
        return f"Array({self._begin.end + 1 - self._begin.start} bytes)"
