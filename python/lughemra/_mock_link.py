"""One connection of a MockServer: it moves bytes between a socket and the server's end of the library."""

from __future__ import annotations

import contextlib
import socket
import struct
import threading
import time
from collections.abc import Callable, Mapping
from typing import TYPE_CHECKING, Any, Optional

from . import bson
from ._library import MAX_LIMIT
from .document import Document
from .errors import ServerClosed
from .message import Message
from .server import Server

if TYPE_CHECKING:
    from .mock import Request

# The opCodes of the old handshake, which drivers still begin with, and of its reply.
OP_QUERY, OP_REPLY = 2004, 1
HEADER = struct.Struct("<iiii")
PIECE = 1 << 16


def body_of(message: Message) -> dict[str, Any]:
    """Returns the body of a message, in which each document sequence is an array."""
    body: dict[str, Any] = bson.decode(message.body.raw)
    for sequence in message.sequences:
        body[sequence.identifier] = [bson.decode(it.raw) for it in sequence.documents]
    return body


def query_of(data: bytes) -> dict[str, Any]:
    """Returns the document that an OP_QUERY asks with. Its collection is of the database "admin", which stands there as $db."""
    end = data.index(b"\0", 20)
    document = bson.decode(data[end + 9 :])
    inner = document.get("$query", document)
    return {**inner, "$db": data[20:end].decode().partition(".")[0]}


def reply_to_query(request_id: int, document: bytes) -> bytes:
    """Returns an OP_REPLY with one document, which is checked."""
    Document(document).check()
    return HEADER.pack(36 + len(document), 0, request_id, OP_REPLY) + struct.pack("<iqii", 8, 0, 0, 1) + document


class Link:
    """Serves one connection in a thread. Other threads may answer its requests."""

    def __init__(self, opened: socket.socket, port: int, take: Callable[[Request], None], make: Callable[..., Request]) -> None:
        self.socket, self.port = opened, port
        self.fault: Optional[ServerClosed] = None
        self._take, self._make = take, make
        self._lock = threading.Lock()
        self._core = Server()
        # The requests that wait in the core, in its order.
        self._waiting: list[Request] = []
        self._is_over = False
        self._thread = threading.Thread(target=self._run, daemon=True)
        self._thread.start()

    def _run(self) -> None:
        """Reads until the connection ends."""
        held = b""
        with contextlib.suppress(OSError):
            while piece := self.socket.recv(PIECE):
                held = self._messages(held + piece)
        self.close()

    def _messages(self, held: bytes) -> bytes:
        """Takes the messages that are whole, and returns the bytes behind them."""
        while len(held) >= 16:
            length, request_id, _, opcode = HEADER.unpack_from(held)
            if 16 <= length <= MAX_LIMIT and len(held) < length:
                break
            whole, held = held[: max(16, length)], held[max(16, length) :]
            if opcode == OP_QUERY:
                self._take(self._make(self, None, query_of(whole), request_id))
                continue
            self._feed(whole, request_id)
        return held

    def _feed(self, data: bytes, request_id: int) -> None:
        """Hands a message to the core, which closes the connection where it is none."""
        try:
            with self._lock:
                self._core.feed(data)
                message = self._core.request(len(self._waiting)).message
                request = self._make(self, message, body_of(message), request_id)
                self._waiting.append(request)
        except ServerClosed as closed:
            self.fault = closed
            raise OSError("the peer sent no message") from closed
        self._take(request)

    def reply(self, request: Request, documents: list[Mapping[str, Any]]) -> bytes:
        """Answers a request in the core. Returns the bytes that are to be sent: none once the connection is over."""
        encoded = [bson.encode(it) for it in documents]
        if request.message is None:
            return reply_to_query(request.request_id, encoded[0])
        with self._lock:
            if self._is_over:
                return b""
            place = next((k for k, it in enumerate(self._waiting) if it is request), None)
            if place is None:
                raise ValueError("the request was answered before")
            self._core.answer(place, encoded)
            del self._waiting[place]
            output = self._core.output(self._core.waiting)
            self._core.sent(len(output))
        return output

    def send(self, data: bytes, delay: float = 0.0) -> None:
        """Sends bytes. That the peer is gone is no fault of the test's."""
        if delay:
            time.sleep(delay)
        with contextlib.suppress(OSError):
            self.socket.sendall(data)

    def close(self) -> None:
        """Ends the connection, for the peer too."""
        with contextlib.suppress(OSError):
            self.socket.shutdown(socket.SHUT_RDWR)
        self.socket.close()
        with self._lock:
            self._is_over = True
            self._core.close()
