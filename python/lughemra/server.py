"""The server's end of a connection, whose bytes the program moves."""

from __future__ import annotations

import operator
from collections.abc import Iterable
from typing import Any, NamedTuple, Optional

from . import _library as lib
from ._held import End, own_room, refuse
from ._numbers import require, shown
from .errors import ServerClosed, fault_of, raise_fault
from .message import Message
from .writer import AnyDocument, documents_bytes

# The most requests that may wait.
MOST = 1024


class Request(NamedTuple):
    """Holds a request that waits: its message, which has no ids, and whether it may get more than one answer."""

    message: Message
    takes_more: bool


class Server(End):
    """Reads requests of a connection, and writes the replies to them. It opens no socket.

    What comes is fed. A request that is whole waits until it is answered, in any order; what `output` gives is to be sent. At most
    `window` requests wait at once; messages both ways have at most `limit` bytes. One thread at a time uses a server.

    It keeps the requests that wait, up to `window` times `limit` bytes, what was fed behind a full window, and the replies that
    aren't sent, whatever their size. So a program feeds no more while `pending` is the window, or much is `waiting`.
    """

    _end = "server"

    def __init__(self, *, window: int = MOST, limit: int = lib.MAX_LIMIT) -> None:
        window = require("window", window, 1, MOST)
        limit = require("limit", limit, 26, lib.MAX_LIMIT)
        super().__init__(lib.short.server_new, lib.size(window), lib.limit_of(limit))
        self._closed: Optional[ServerClosed] = None
        self._ended = False

    def feed(self, piece: lib.Buffer) -> None:
        """Takes a piece of the bytes that came, which is copied. The requests that are whole by then wait.

        What comes while as many wait as the window allows is kept, however much it is, until one is answered. Raises ServerClosed
        where what came closes the server, and each time from then on. Where it raises MemoryError with the text "the piece isn't
        kept", nothing changed, and the piece may be fed again. Behind any other MemoryError the piece is kept: it isn't fed
        again, and `feed(b"")` goes on. Behind `end` it raises ValueError while
        requests wait, and ServerClosed once none does; behind `close` CallRefused.
        """
        self._raise_if_closed()
        if self._ended:
            raise ValueError("a piece comes behind the end")
        self._keep(piece)
        self._move()
        self._raise_if_closed()

    def _move(self) -> None:
        """Feeds the core as much as it takes. Behind all that was fed it tells the end, once no request waits."""
        while self._at < len(self._held) and not self._closed:
            state = self._hand_over().state
            self._note(state)
            if state.full:
                break
        if self._ended and not self.pending:
            refuse(lib.short.server_end(self._core))
            self._note(lib.short.server_state(self._core))

    @property
    def pending(self) -> int:
        """Returns how many requests wait."""
        state = lib.short.server_state(self._core)
        refuse(state.refusal)
        pending: int = state.waiting
        return pending

    @property
    def requests(self) -> tuple[Request, ...]:
        """Returns the requests that wait, in the order in which they came."""
        return tuple(self.request(k) for k in range(self.pending))

    def request(self, k: int = 0) -> Request:
        """Returns a copy of the request of index `k` among those that wait. Raises IndexError where there is none."""
        told = lib.short.server_request(self._core, self._index(k), b"", lib.size(0))
        if told.refusal == lib.NOT_READY:
            raise IndexError(f"no request {k} waits")
        if told.refusal != lib.NO_ROOM:
            refuse(told.refusal)
        room, address, length = own_room(told.length)
        told = lib.short.server_request(self._core, self._index(k), address, length)
        refuse(told.refusal)
        return Request(Message(bytes(room)), told.takes_more)

    def _index(self, k: int) -> Any:
        """Returns the index of a request as an argument."""
        index = operator.index(k)
        if not 0 <= index < MOST:
            raise IndexError(f"no request {shown(index)} waits")
        return lib.size(index)

    def answer(self, k: int, documents: Iterable[AnyDocument]) -> None:
        """Answers the request of index `k` among those that wait. Its replies wait to be sent then, and it waits no longer.

        Each document is a mapping, as for `encode`, or the bytes of one, and is the body of a reply. A request gets one, or, if
        it takes more, one or more. One that wants no reply, whose flags have MORE_TO_COME, is answered so, too, and
        nothing is sent. Raises IndexError where no such request waits, CallRefused where it may not get as many answers,
        DocumentError where one of them isn't a document, EncodeError for what can't be spelled, MessageError where one of them
        is no body, as one with a name that stands twice, and ServerClosed where the server is closed: by the answer too, if a
        reply would have more bytes than the limit, or there was no memory for the replies. MemoryError comes where there was no
        memory and the request still waits, or, once it was answered, of what was kept behind a full window: `pending` tells, and
        `feed(b"")` goes on.
        """
        self._raise_if_closed()
        content = b"".join(documents_bytes(documents))
        told = lib.short.server_answer(self._core, self._index(k), content, lib.size(len(content)))
        if told.refusal == lib.NOT_READY:
            raise IndexError(f"no request {k} waits")
        if told.refusal == lib.BAD_CONTENT:
            raise_fault(told)
        self._note(lib.short.server_state(self._core))
        if told.refusal:
            self._raise_if_closed()
        refuse(told.refusal)
        self._move()

    def end(self) -> None:
        """Tells that no more bytes come. It closes the server once all requests are answered; its output may still be sent."""
        self._require_core()
        self._ended = True
        self._move()

    @property
    def closed(self) -> Optional[ServerClosed]:
        """Returns why the server was closed, if it was."""
        return self._closed

    def _note(self, state: Any) -> None:
        """Notes why the server is closed, if it is."""
        if state.cause and not self._closed:
            self._closed = ServerClosed(state.cause, fault=fault_of(state))
