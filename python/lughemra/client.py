"""The client's end of a connection, whose bytes the program moves."""

from __future__ import annotations

import ctypes
from collections import deque
from collections.abc import Callable, Iterator
from typing import Any, NamedTuple, Optional

from . import _library as lib
from ._held import End, own_room, refuse
from ._numbers import require
from .errors import ClientClosed, fault_of, raise_fault
from .message import Message
from .writer import AnyDocument, Sequences, document_bytes, sequence_bytes


class Call(NamedTuple):
    """Holds a call's number among those of its client, counted from 0, and the requestID of its request."""

    number: int
    request_id: int


class Reply(NamedTuple):
    """Holds the number of the call that a reply belongs to, whether it is the last one to that, and the message.

    The message has the reply's body and sequences, and no ids and no flags: the client has used them.
    """

    call: int
    last: bool
    message: Message


class Client(End):
    """Makes calls over a connection, and matches each reply with its call. It opens no socket.

    What `output` gives is to be sent, and what comes is fed. To iterate gives the replies that are whole by then. At most
    `window` calls await a reply at once; request ids begin at `first_id`; messages both ways have at most `limit` bytes. One
    thread at a time uses a client.
    """

    _end = "client"

    def __init__(self, *, first_id: int = 1, window: int = 1024, limit: int = lib.MAX_LIMIT) -> None:
        first_id = require("first id", first_id, 1, (1 << 31) - 1)
        window = require("window", window, 1, 1024)
        limit = require("limit", limit, 26, lib.MAX_LIMIT)
        super().__init__(lib.short.client_new, ctypes.c_int32(first_id), lib.size(window), lib.limit_of(limit))
        self._closed: Optional[ClientClosed] = None
        # A reply is ready that wasn't taken yet.
        self._ready = False
        # Replies that came before the end, and weren't given yet.
        self._replies: deque[Reply] = deque()

    def call(self, body: AnyDocument, sequences: Sequences = ()) -> Call:
        """Makes a call that has one reply. Its request waits to be sent then.

        The body and the sequences are those of `encode_message`, which raises the same where they aren't those of a message.
        Raises CallRefused where the call isn't made, as where the window is full.
        """
        return self._call(lib.short.client_call, body, sequences)

    def call_exhaust(self, body: AnyDocument, sequences: Sequences = ()) -> Call:
        """Makes a call that may have more than one reply."""
        return self._call(lib.short.client_call_exhaust, body, sequences)

    def send_unacknowledged(self, body: AnyDocument, sequences: Sequences = ()) -> Call:
        """Makes a call that has no reply, for which no window is full."""
        return self._call(lib.short.client_send_unacknowledged, body, sequences)

    def _call(self, made_by: Callable[..., Any], body: AnyDocument, sequences: Sequences) -> Call:
        """Makes a call by a function of the library."""
        content, sections = document_bytes(body), sequence_bytes(sequences)
        made = made_by(self._core, content, lib.size(len(content)), sections, lib.size(len(sections)))
        if made.refusal == lib.BAD_CONTENT:
            raise_fault(made)
        refuse(made.refusal)
        return Call(made.number, made.id)

    def feed(self, piece: lib.Buffer) -> None:
        """Takes a piece of the bytes that came, which is copied. Iterating gives the replies in it.

        Raises ClientClosed once the client is closed, by `end` too, and CallRefused behind `close`. Where it raises MemoryError
        the piece isn't kept.
        """
        self._raise_if_closed()
        self._keep(piece)

    def __iter__(self) -> Iterator[Reply]:
        return self

    def __next__(self) -> Reply:
        """Returns the next reply that is whole, and stops where more bytes are wanted. Later, iterating goes on.

        Raises ClientClosed where what came closes the client, each time from then on, and CallRefused behind `close`.
        """
        self._require_core()
        reply = self._replies.popleft() if self._replies else self._next_reply()
        if reply is not None:
            return reply
        if self._closed and self._closed.number != ClientClosed.ENDED:
            self._raise_if_closed()
        raise StopIteration

    def _next_reply(self) -> Optional[Reply]:
        """Feeds the core until a reply is whole, and returns that; nothing where more bytes are wanted, or the client is closed."""
        while not self._ready:
            if self._at == len(self._held) or self._closed:
                return None
            state = self._hand_over().state
            self._ready = state.ready
            self._note(state)
        return self._take_reply()

    def _take_reply(self) -> Reply:
        """Copies the reply that is ready, and lets go of it."""
        told = lib.short.client_reply(self._core, b"", lib.size(0))
        if told.refusal != lib.NO_ROOM:
            refuse(told.refusal)
        room, address, length = own_room(told.length)
        told = lib.short.client_reply(self._core, address, length)
        refuse(told.refusal)
        reply = Reply(told.call, told.last, Message(bytes(room), lib.MAX_LIMIT))
        refuse(lib.short.client_release(self._core))
        self._ready = False
        return reply

    def _note(self, state: Any) -> None:
        """Notes why the client is closed, if it is."""
        if state.cause and not self._closed:
            told = state.id if state.cause == ClientClosed.UNKNOWN_REPLY else None
            self._closed = ClientClosed(state.cause, told, fault_of(state))

    def end(self) -> None:
        """Tells that no more bytes come, which closes the client.

        Iterating gives the replies that came before, and then raises why, unless the bytes ended between two messages.
        """
        self._require_core()
        while (reply := self._next_reply()) is not None:
            self._replies.append(reply)
        refuse(lib.short.client_end(self._core))
        self._note(lib.short.client_state(self._core))

    def close(self) -> None:
        """Gives the memory back, with the replies that weren't taken. Calls are refused then; `closed` stays what it was."""
        super().close()
        self._replies.clear()

    @property
    def closed(self) -> Optional[ClientClosed]:
        """Returns why the client was closed, if it was."""
        return self._closed

    @property
    def outstanding(self) -> int:
        """Returns how many calls await a reply."""
        told = lib.short.client_outstanding(self._core)
        refuse(told.refusal)
        count: int = told.count
        return count
