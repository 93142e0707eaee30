"""A server for tests, which answers what a test says: with the verbs of MockupDB, over the server's end of the library.

    >>> from lughemra.mock import MockServer, going
    >>> with MockServer() as server, going(call_of_a_driver, server.uri) as result:
    ...     request = server.receives("ping")
    ...     request.replies(ok=1)

It listens in threads of this process. Handshakes are answered unless it is told otherwise.
"""

from __future__ import annotations

import contextlib
import queue
import socket
import threading
import time
from collections.abc import Callable, Iterator, Mapping
from concurrent.futures import Future
from typing import Any, Optional, Self, Union

from ._mock_link import Link
from .message import Message

# How long a test waits for a request, in seconds.
TIMEOUT = 10.0
HANDSHAKES = ("hello", "isMaster", "ismaster")
HELLO = {
    "helloOk": True,
    "ismaster": True,
    "isWritablePrimary": True,
    "maxBsonObjectSize": 16777216,
    "maxMessageSizeBytes": 48000000,
    "maxWriteBatchSize": 100000,
    "minWireVersion": 0,
    "maxWireVersion": 13,
    "readOnly": False,
}


class _Absent:
    """Stands for a field that a request doesn't have."""

    def __repr__(self) -> str:
        return "absent"


absent = _Absent()


class Matcher:
    """Asks for requests: by the command's name, by fields and their values, and by `namespace`, the database. `absent` asks for
    requests without a field."""

    def __init__(self, *given: Any, namespace: Optional[str] = None, **fields: Any) -> None:
        self.name: Optional[str] = None
        self.test: Optional[Callable[[Request], Any]] = None
        self.fields: dict[str, Any] = {}
        for it in given:
            if isinstance(it, Matcher):
                self.name, self.test, self.fields = it.name, it.test, dict(it.fields)
            elif isinstance(it, str):
                self.name = it
            elif isinstance(it, Mapping):
                self.name = next(iter(it), None)
                self.fields.update(it)
            elif callable(it):
                self.test = it
            else:
                raise TypeError(f"{it!r} asks for no requests")
        self.fields.update(fields)
        if namespace is not None:
            self.fields["$db"] = namespace

    def matches(self, request: Request) -> bool:
        """Returns true if the request is one that is asked for."""
        if self.name is not None and self.name != request.command_name:
            return False
        if self.test is not None and not self.test(request):
            return False
        return all(
            name not in request.body if value is absent else name in request.body and request.body[name] == value
            for name, value in self.fields.items()
        )

    def __repr__(self) -> str:
        return f"{self.name or 'any request'} with {self.fields}"


OpMsg = Command = Matcher


class Request:
    """Holds one request. It is answered once, by one of the verbs."""

    def __init__(self, link: Link, message: Optional[Message], body: dict[str, Any], request_id: int) -> None:
        self._link = link
        # The message without its ids, or None of the old handshake's OP_QUERY.
        self.message = message
        self.body = self.doc = body
        self.request_id = request_id
        self.command_name = next(iter(body), "")
        self.namespace = body.get("$db")
        self.client_port = link.port

    def __getitem__(self, name: str) -> Any:
        return self.body[name]

    def __contains__(self, name: object) -> bool:
        return name in self.body

    def matches(self, *given: Any, **fields: Any) -> bool:
        """Returns true if the request is one that is asked for."""
        return Matcher(*given, **fields).matches(self)

    def replies(self, *documents: Mapping[str, Any], delay: float = 0.0, cut: Optional[int] = None, **fields: Any) -> None:
        """Answers with this document, in which `ok` is 1 unless it is told; with more than one of them where the request takes more.
        Waits `delay` seconds before, and with `cut` sends exactly the first `cut` bytes and ends the connection."""
        given = [dict(it) for it in documents] or [{}]
        given[0].update(fields)
        data = self._link.reply(self, [it if "ok" in it else {"ok": 1, **it} for it in given])
        self._link.send(data if cut is None else data[:cut], delay)
        if cut is not None:
            self._link.close()

    reply = ok = replies

    def command_err(self, code: int = 1, errmsg: str = "the command failed", *labels: str, **fields: Any) -> None:
        """Answers with an error of a command."""
        labelled = {"errorLabels": list(labels)} if labels else {}
        self.replies({"ok": 0, "code": code, "errmsg": errmsg, **labelled, **fields})

    fails = command_err

    def sends(self, data: bytes, delay: float = 0.0) -> None:
        """Sends these bytes in the place of a reply, whatever they are."""
        self._link.reply(self, [{"ok": 1}])
        self._link.send(data, delay)

    def hangup(self) -> None:
        """Ends the connection without an answer."""
        self._link.close()

    hangs_up = hangup

    def __repr__(self) -> str:
        return f"Request({self.body!r})"


Answer = Union[Mapping[str, Any], Callable[[Request], Any], None]


class Responder:
    """Answers each request that its matcher asks for, until it is cancelled."""

    def __init__(self, server: MockServer, matcher: Matcher, answer: Answer, fields: dict[str, Any]) -> None:
        self._server, self._matcher, self._answer, self._fields = server, matcher, answer, fields

    def answers(self, request: Request) -> bool:
        """Answers the request, if it is one that is asked for. A function that was given answers by itself, and returns what is true;
        or it returns the document."""
        if not self._matcher.matches(request):
            return False
        answer = self._answer(request) if callable(self._answer) else self._answer or {}
        if isinstance(answer, Mapping):
            request.replies(answer, **self._fields)
            return True
        return bool(answer)

    def cancel(self) -> None:
        """Ends this responder."""
        self._server._responders.remove(self)


class FailPoint:
    """Carries out `failCommand`, as MongoDB's servers do for tests of drivers: which commands fail, how often, and how."""

    def __init__(self) -> None:
        self._left: float = 0
        self._data: Mapping[str, Any] = {}

    def configures(self, request: Request) -> bool:
        """Sets what fails, if the request says so."""
        if request.command_name != "configureFailPoint" or request["configureFailPoint"] != "failCommand":
            return False
        mode = request["mode"]
        self._data = request.body.get("data", {})
        self._left = mode["times"] if isinstance(mode, Mapping) else float("inf") if mode == "alwaysOn" else 0
        request.ok()
        return True

    def fails(self, request: Request) -> bool:
        """Has the request fail, if it is one of those."""
        if self._left <= 0 or request.command_name not in self._data.get("failCommands", ()):
            return False
        self._left -= 1
        if self._data.get("blockConnection"):
            time.sleep(self._data["blockTimeMS"] / 1000)
        if self._data.get("closeConnection"):
            request.hangup()
            return True
        if "errorCode" not in self._data:
            return False
        request.command_err(self._data["errorCode"], "failCommand", *self._data.get("errorLabels", ()))
        return True


class MockServer:
    """Listens at a free port of this machine until `stop`, or the end of a `with`."""

    def __init__(self, auto_hello: bool = True, hello: Optional[Mapping[str, Any]] = None, timeout: float = TIMEOUT) -> None:
        self.timeout = timeout
        self._queue: queue.Queue[Request] = queue.Queue()
        self._front: Optional[Request] = None
        self._responders: list[Responder] = []
        self._links: list[Link] = []
        self._lock = threading.Lock()
        self._listener = socket.create_server(("127.0.0.1", 0))
        self.port: int = self._listener.getsockname()[1]
        self._fail_point = FailPoint()
        self.autoresponds(self._fail_point.configures)
        if auto_hello:
            self.autoresponds(Matcher(lambda request: request.command_name in HANDSHAKES), {**HELLO, **(hello or {})})
        threading.Thread(target=self._accept, daemon=True).start()

    @property
    def address_string(self) -> str:
        """Returns the host and the port."""
        return f"127.0.0.1:{self.port}"

    @property
    def uri(self) -> str:
        """Returns the address for a driver."""
        return f"mongodb://{self.address_string}/"

    def _accept(self) -> None:
        with contextlib.suppress(OSError):
            while True:
                opened, address = self._listener.accept()
                with self._lock:
                    self._links.append(Link(opened, address[1], self._take, Request))

    def _take(self, request: Request) -> None:
        """Answers a request, or has it wait for the test. The responder that was told last is asked first."""
        if self._fail_point.fails(request):
            return
        for responder in reversed(list(self._responders)):
            if responder.answers(request):
                return
        self._queue.put(request)

    def autoresponds(self, matcher: Any, answer: Answer = None, **fields: Any) -> Responder:
        """Answers each request that the matcher asks for by a document, or by what a function does or returns; until it is cancelled.
        Where the matcher is a function alone, it answers, and says by what it returns whether it did."""
        if answer is None and not fields and callable(matcher) and not isinstance(matcher, Matcher):
            responder = Responder(self, Matcher(), matcher, {})
        else:
            responder = Responder(self, Matcher(matcher), answer, fields)
        self._responders.append(responder)
        return responder

    def _waits(self, timeout: Optional[float]) -> Optional[Request]:
        """Returns the oldest request that waits, which goes on waiting, or None."""
        if self._front is None:
            with contextlib.suppress(queue.Empty):
                seconds = self.timeout if timeout is None else timeout
                self._front = self._queue.get(timeout=seconds) if seconds > 0 else self._queue.get_nowait()
        return self._front

    def got(self, *given: Any, timeout: Optional[float] = None, **fields: Any) -> bool:
        """Returns true if the oldest request that waits, once there is one, is one that is asked for. It goes on waiting."""
        request = self._waits(timeout)
        return request is not None and request.matches(*given, **fields)

    wait = got

    @property
    def request(self) -> Request:
        """Returns the oldest request that waits, which goes on waiting. Raises AssertionError where none comes."""
        request = self._waits(None)
        if request is None:
            raise AssertionError(f"no request came in {self.timeout} seconds")
        return request

    def receives(self, *given: Any, timeout: Optional[float] = None, **fields: Any) -> Request:
        """Returns the oldest request that waits, once there is one. Raises AssertionError where none comes, or another one."""
        request, self._front = self._waits(timeout), None
        matcher = Matcher(*given, **fields)
        if request is None:
            raise AssertionError(f"no request came in {self.timeout if timeout is None else timeout} seconds, where {matcher} was awaited")
        if not matcher.matches(request):
            raise AssertionError(f"{request} came, where {matcher} was awaited")
        return request

    gets = pop = receives

    def replies(self, *documents: Mapping[str, Any], **fields: Any) -> None:
        """Answers the oldest request that waits."""
        self.receives().replies(*documents, **fields)

    reply = ok = replies

    def command_err(self, *given: Any, **fields: Any) -> None:
        """Answers the oldest request that waits with an error."""
        self.receives().command_err(*given, **fields)

    def hangup(self) -> None:
        """Ends the connection of the oldest request that waits."""
        self.receives().hangup()

    hangs_up = hangup

    @property
    def faults(self) -> list[Exception]:
        """Returns why connections were closed that sent no messages."""
        with self._lock:
            return [link.fault for link in self._links if link.fault is not None]

    def stop(self) -> None:
        """Ends all connections, and listens no more."""
        with contextlib.suppress(OSError):
            self._listener.shutdown(socket.SHUT_RDWR)
        self._listener.close()
        with self._lock:
            for link in self._links:
                link.close()

    def __enter__(self) -> Self:
        return self

    def __exit__(self, *_: object) -> None:
        self.stop()


def go(function: Callable[..., Any], *given: Any, **named: Any) -> Future[Any]:
    """Calls a function in a thread. Returns what will have its result."""
    future: Future[Any] = Future()

    def call() -> None:
        try:
            future.set_result(function(*given, **named))
        except BaseException as raised:
            future.set_exception(raised)

    threading.Thread(target=call, daemon=True).start()
    return future


@contextlib.contextmanager
def going(function: Callable[..., Any], *given: Any, **named: Any) -> Iterator[Callable[..., Any]]:
    """Calls a function in a thread, for the length of a `with`, whose name gives the result; at its end it is waited for."""
    future = go(function, *given, **named)
    yield future.result
    future.result(TIMEOUT)
