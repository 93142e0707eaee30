"""Checks documents, and splits those that stand back to back."""

from __future__ import annotations

from collections.abc import Iterator
from typing import Any, NamedTuple

from . import _library as lib
from .document import Document
from .errors import LENGTH_FAULT, DocumentError


class DocumentsWalk(NamedTuple):
    """Tells how many documents there are, how many bytes they take, and what is in them at all depths: how many elements,
    and how many bytes of names, texts and data."""

    documents: int
    bytes_read: int
    elements: int
    sizes: int


def check(data: lib.Buffer) -> None:
    """Checks that the bytes are exactly one document. Raises the first fault, if there is one."""
    kept, pointer, size = lib.lent(data)
    fault = lib.functions_for(kept).check_document(pointer, size)
    if fault.number:
        raise DocumentError(fault.number, fault.offset)


def is_canonical(data: lib.Buffer) -> bool:
    """Returns true if the bytes are exactly one document, in which the names of each array are "0", "1" and so on."""
    kept, pointer, size = lib.lent(data)
    told: bool = lib.functions_for(kept).is_canonical(pointer, size)
    return told


def check_documents(data: lib.Buffer) -> int:
    """Checks the documents that stand back to back, and returns how many they are. Raises the first fault, if there is one."""
    kept, pointer, size = lib.lent(data)
    told = lib.functions_for(kept).check_documents(pointer, size)
    if told.fault.number:
        raise DocumentError(told.fault.number, told.fault.offset, told.documents, told.bytes_read)
    count: int = told.documents
    return count


def walk_documents(data: lib.Buffer) -> DocumentsWalk:
    """Checks the documents that stand back to back, and counts what is in them. Raises the first fault, if there is one."""
    kept, pointer, size = lib.lent(data)
    told = lib.functions_for(kept).walk_documents(pointer, size)
    if told.fault.number:
        raise DocumentError(told.fault.number, told.fault.offset, told.documents, told.bytes_read)
    return DocumentsWalk(told.documents, told.bytes_read, told.elements, told.sizes)


def documents(data: lib.Buffer) -> Iterator[Document]:
    """Walks over the documents that stand back to back, none of which is copied. Checks the length and the last byte of
    each, as `Document` does, and raises the fault of the first that has one there."""
    kept, pointer, size = lib.lent(data)
    return documents_in(kept, pointer, size, 0, len(kept))


def documents_in(data: Any, pointer: Any, size: Any, offset: int, length: int) -> Iterator[Document]:
    """Walks over the documents that stand back to back in a part of the bytes."""
    left, found, whole = lib.View(offset, length), lib.View(), 0
    left_argument, found_argument = lib.address_of(left), lib.address_of(found)
    while left.length:
        lib.short.next_document(pointer, size, left_argument, found_argument)
        if not found.length:
            fault = _fault_at(data[left.offset : left.offset + left.length], left.offset)
            raise DocumentError(fault.number, fault.offset, whole, left.offset - offset)
        whole += 1
        yield document_at(data, pointer, size, found)


def document_at(data: Any, pointer: Any, size: Any, view: lib.View) -> Document:
    """Returns the document of a view that the library gave. A walk over it begins behind its length, as lughemra.h says."""
    begin = lib.Iter(view.offset, view.offset + 4, view.offset + view.length - 1, 1)
    return Document._made(data, pointer, size, begin)


def _fault_at(rest: Any, offset: int) -> DocumentError:
    """Returns the fault of the document at the front of the bytes from this offset on."""
    try:
        check_documents(rest)
    except DocumentError as fault:
        return DocumentError(fault.number, offset + fault.offset)
    # Bytes that changed meanwhile may have none: only the length or the last byte can have been wrong before.
    return DocumentError(LENGTH_FAULT, offset)
