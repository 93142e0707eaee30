"""Makes dict and list of all that is in a document or in an array.

The extension does that, where there is one. Else it is done over `ctypes`.
Each element that is walked over costs a call, and a call over `ctypes` costs more than to read an element. So the library writes a
document as a pickle, and Python makes the values of it. Whatever the bytes of the document are, the pickle has no opcodes but those
of values and the numbers of the functions of `_makers`. Of elements with one name a dict keeps the last, and here the first one
counts: so the pickle also has a list of all dicts inside and the number of all names, and where the dicts have fewer, the document is walked over.
"""

from __future__ import annotations

import datetime
import pickle
from typing import TYPE_CHECKING, Any, Optional, Union

from . import _library as lib
from . import _makers
from ._fast import SPEED
from ._makers import REGISTERED
from .errors import TEXT_FAULT, DocumentError
from .leaves import READERS, text
from .values import Code, Kind, ObjectId

if TYPE_CHECKING:
    from .document import Array, Document

_next, _enter = lib.short.next, lib.short.enter

Pairs = list[tuple[str, Any]]


def reader() -> Any:
    """Returns what the extension makes documents by, or None where there is no extension."""
    if SPEED is None:
        return None
    makers = {int(kind): getattr(_makers, name) for kind, name in _makers.MAKERS.items()}
    return SPEED.Reader(makers, None, (ObjectId, vars(ObjectId)["data"]), None, datetime.timezone.utc, None, True)


READER = reader()


def made_by_extension(container: Union[Document, Array], is_array: bool) -> Any:
    """Returns the document as a dict or the array as a list; or None where there is no extension, or no fault is found in bytes that
    had one, since they were changed meanwhile. Raises the first fault that a check finds."""
    if READER is None:
        return None
    inner = container._inner
    data = container._data if inner is None else container._data[inner.start : inner.end + 1]
    made = READER.array(data) if is_array else READER.document(data)
    if made is None:
        container.check()
    return made


def dict_of(container: Union[Document, Array]) -> Optional[dict[str, Any]]:
    """Returns the document as a dict, made of its pickle; or None where it must be walked over: a name stands twice, or another has
    the numbers of `_makers`. Raises the first fault that a check finds."""
    if not REGISTERED:
        container.check()
        return None
    made: dict[str, Any]
    made, inner, names = pickle.loads(container._written("pickle"))
    if len(made) == names or len(made) + sum(map(len, inner)) == names:
        return made
    return None


def walked(container: Union[Document, Array]) -> Pairs:
    """Returns the names and the values of its elements. Depth is counted from here, as `check` counts it."""
    begin = container._begin
    return pairs_of(container._data, container._pointer, container._size, lib.Iter(begin.start, begin.at, begin.end, 1))


def first_of(pairs: Pairs) -> dict[str, Any]:
    """Returns a dict of pairs, in which the first of those with the same name counts."""
    made = dict(pairs)
    if len(made) < len(pairs):
        made = {}
        for name, value in pairs:
            made.setdefault(name, value)
    return made


def pairs_of(data: Any, pointer: Any, size: Any, begin: lib.Iter) -> Pairs:
    """Walks over the elements, and those inside. Returns their names and their values."""
    cursor = lib.cursor()
    step, iter_argument, element_argument = cursor
    step.iter = begin
    pairs: Pairs = []
    _next(pointer, size, iter_argument, element_argument)
    while kind := step.kind:
        at = step.name_at
        name = str(data[at : at + step.name_length], "utf-8")
        reader = READERS[kind]
        try:
            if reader is not None:
                value = reader(data, step)
            else:
                inner = pairs_of(data, pointer, size, _enter(iter_argument, element_argument))
                value = _held(data, step, inner)
        except UnicodeDecodeError:
            raise DocumentError(TEXT_FAULT, at - 1) from None
        pairs.append((name, value))
        _next(pointer, size, iter_argument, element_argument)
    if step.number:
        raise DocumentError(step.number, step.offset)
    lib.spare.append(cursor)
    return pairs


def _held(data: Any, step: lib.Step, inner: Pairs) -> Any:
    """Returns the value of an element that holds these pairs."""
    if step.kind == Kind.ARRAY:
        return [value for _, value in inner]
    if step.kind == Kind.CODE_WITH_SCOPE:
        return Code(text(data, step), first_of(inner))
    return first_of(inner)
