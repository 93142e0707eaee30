"""Messages of OP_MSG, whole or out of bytes that come in pieces."""

from __future__ import annotations

import copy
import enum
import functools
from collections.abc import Iterator
from typing import Any, NamedTuple, NoReturn, Optional

from . import _library as lib
from ._numbers import require
from .checks import document_at, documents_in
from .document import Document
from .errors import DocumentError, MessageError, raise_fault

MAX_LIMIT = lib.MAX_LIMIT
NO_BODY = 8
ENDED_INSIDE = 14


class Flags(enum.IntFlag):
    """Tells the flags of a message. Other bits from 17 on may be set, too, and are kept."""

    MORE_TO_COME = lib.MORE_TO_COME
    EXHAUST_ALLOWED = lib.EXHAUST_ALLOWED


class Header(NamedTuple):
    """Holds the numbers of a message's header."""

    message_length: int
    request_id: int
    response_to: int
    op_code: int = 2013


class DocumentSequence(NamedTuple):
    """Holds a document sequence: its identifier, and its documents."""

    identifier: str
    documents: tuple[Document, ...]


def _limit(limit: int) -> Any:
    """Returns a limit on a message's length as an argument."""
    return lib.limit_of(require("limit", limit, 0, MAX_LIMIT))


def check_message(data: lib.Buffer, limit: int = MAX_LIMIT) -> None:
    """Checks that the bytes are exactly one message of at most `limit` bytes. Raises the first fault, if there is one."""
    kept, pointer, size = lib.lent(data)
    raise_fault(lib.functions_for(kept).check_message(pointer, size, _limit(limit)))


def check_messages(data: lib.Buffer, limit: int = MAX_LIMIT) -> int:
    """Checks the messages that stand back to back, and returns how many they are. Raises the first fault, if there is one."""
    kept, pointer, size = lib.lent(data)
    told = lib.functions_for(kept).check_messages(pointer, size, _limit(limit))
    raise_fault(told, told.messages, told.bytes_read)
    count: int = told.messages
    return count


class Message:
    """Reads a message of at most `limit` bytes from its bytes, all of which are checked here.

    The bytes are any bytes-like object, which is kept and must not change. So no document in it has a fault.
    """

    def __init__(self, data: lib.Buffer, limit: int = MAX_LIMIT) -> None:
        self._data, self._pointer, self._size = lib.lent(data)
        told = lib.functions_for(self._data).message_parts(self._pointer, self._size, _limit(limit))
        raise_fault(told)
        self._sections: int = told.sections
        self._header = Header(len(self._data), told.id, told.response_to)
        self._flags = Flags(told.flag_bits)

    @property
    def header(self) -> Header:
        """Returns the numbers of the header."""
        return self._header

    @property
    def flags(self) -> Flags:
        """Returns flagBits."""
        return self._flags

    @functools.cached_property
    def body(self) -> Document:
        """Returns the body."""
        for section in self._walk():
            if section.kind == lib.SECTION_BODY:
                return document_at(self._data, self._pointer, self._size, section.documents)
        # Bytes that changed since they were checked may have none.
        raise MessageError(NO_BODY, len(self._data))

    @functools.cached_property
    def sequences(self) -> tuple[DocumentSequence, ...]:
        """Returns the document sequences, in their order."""
        return tuple(self._sequence(section) for section in self._walk() if section.kind == lib.SECTION_SEQUENCE)

    @property
    def raw(self) -> bytes:
        """Returns a copy of the bytes."""
        return bytes(self._data)

    def __reduce__(self) -> tuple[Any, tuple[bytes]]:
        """Returns what copies and pickles are made of: the bytes."""
        return type(self), (self.raw,)

    def _walk(self) -> Iterator[lib.Section]:
        """Walks over the sections."""
        section = lib.short.section(self._pointer, self._size, lib.size(self._sections))
        while section.kind in (lib.SECTION_BODY, lib.SECTION_SEQUENCE):
            yield section
            section = lib.short.section(self._pointer, self._size, lib.size(section.next))

    def _sequence(self, section: lib.Section) -> DocumentSequence:
        """Returns what a section holds."""
        name, inside = section.identifier, section.documents
        identifier = str(self._data[name.offset : name.offset + name.length], "utf-8")
        found = documents_in(self._data, self._pointer, self._size, inside.offset, inside.length)
        return DocumentSequence(identifier, tuple(found))

    def __repr__(self) -> str:
        header = self._header
        return f"Message({header.message_length} bytes, request {header.request_id}, response to {header.response_to})"


class Reader:
    """Reads messages of at most `limit` bytes out of bytes that come in pieces.

    `feed` takes a piece, and to iterate gives the messages that are whole by then. A fault is raised by that, and closes
    the reader for good: it gives up its bytes, and raises the same fault at `feed`, `end` and the next message. The offset of
    a fault is counted from the first byte that was ever fed.
    """

    def __init__(self, limit: int = MAX_LIMIT) -> None:
        self._limit = limit
        self._limit_argument = _limit(limit)
        self._held = bytearray()
        self._start = 0
        self._ended = False
        self._fault: Optional[MessageError] = None
        self._wanted = self._header_length = self._front(b"").length

    def _front(self, data: bytes) -> lib.MessageFront:
        """Tells what stands in front of the bytes."""
        front: lib.MessageFront = lib.short.message_front(data, lib.size(len(data)), self._limit_argument)
        return front

    @property
    def wanted(self) -> int:
        """Returns how many bytes have to be fed before more can be told; 0 if a message may be whole, or after a fault."""
        return 0 if self._fault else max(0, self._wanted - len(self._held))

    def feed(self, piece: lib.Buffer) -> None:
        """Takes a piece, which is copied. Pieces may be of any size, and have any number of messages or parts of them."""
        self._raise_if_closed()
        if self._ended:
            raise ValueError("a piece comes behind the end")
        self._held += piece

    def __iter__(self) -> Iterator[Message]:
        return self

    def __next__(self) -> Message:
        """Returns the next message that is whole, and stops where more bytes are wanted. Later, iterating goes on."""
        self._raise_if_closed()
        try:
            while len(self._held) >= self._wanted:
                message = self._step()
                if message is not None:
                    return message
        except MessageError as fault:
            self._close(fault.number, fault.offset, fault.document)
        if self._ended and self._held:
            self._close(ENDED_INSIDE, 0)
        raise StopIteration

    def _step(self) -> Optional[Message]:
        """Looks at as many bytes as are wanted: the header, which tells how many more are, or a message."""
        data = bytes(memoryview(self._held)[: self._wanted])
        if self._wanted == self._header_length:
            front = self._front(data)
            if front.state == lib.FRONT_OPEN:
                self._wanted = front.length
                return None
            raise_fault(front)
        message = Message(data, self._limit)
        del self._held[: self._wanted]
        self._start += self._wanted
        self._wanted = self._header_length
        return message

    def end(self) -> None:
        """Tells that no more bytes come. Raises a fault if they end inside a message: here, or once those before were given."""
        self._raise_if_closed()
        self._ended = True
        if 0 < len(self._held) < self._wanted:
            self._close(ENDED_INSIDE, 0)

    def _close(self, number: int, offset: int, document: Optional[DocumentError] = None) -> NoReturn:
        """Closes the reader by a fault in the message that is read, and raises it."""
        self._fault = MessageError(number, self._start + offset, document=document)
        self._held.clear()
        raise copy.copy(self._fault) from None

    def _raise_if_closed(self) -> None:
        """Raises the fault that closed the reader, if there was one."""
        if self._fault:
            # What is raised holds the reader by its traceback, so what the reader holds isn't raised.
            raise copy.copy(self._fault)

    def __reduce__(self) -> NoReturn:
        """Refuses copies and pickles: a copy would take the same bytes."""
        raise TypeError(f"a {type(self).__name__} can't be copied or pickled")
