"""Shared connections by the plain words of docs/PROXY.md: over which connection a request may go, and who gets a reply.

Memory never runs out here, and no table of routes is full.
"""

import os
import sys
from typing import NamedTuple

ROOT = os.path.dirname(os.path.dirname(os.path.dirname(os.path.realpath(__file__))))
sys.path.insert(0, os.path.join(ROOT, "scripts/tools"))
sys.path.insert(0, os.path.join(ROOT, "bench"))
from driver_messages import ARRAY, BOOLEAN, DOCUMENT, INT32, INT64, STRING, int32, int64, message  # noqa: E402
from generate import document, element, string  # noqa: E402

BINARY = 0x05
# A message that has no answer, by its flag moreToCome.
SILENT = 2


class Request(NamedTuple):
    """A request of a client: its message, what it needs, and what it and its answer tell of cursors and transactions."""

    message: bytes
    # "any", "own", "kept", ("cursor", id) or ("transaction", session)
    need: object = "any"
    begins: object = None
    ends: object = None
    asks_more_of: object = None
    kills: tuple = ()
    is_silent: bool = False


class Client:
    """A client: the connection that it keeps, its request, the call that it awaits, and the bytes that it is to get."""

    def __init__(self):
        self.kept, self.request, self.awaits, self.output, self.is_open = None, None, None, b"", True
        # The number of the last reply: those of a client are numbered from 1.
        self.last = 0

    def is_ready(self):
        return self.is_open and self.request is None and not self.output


class Server:
    """A connection to the server: how it is used, the ids of the calls that have no reply, what is to be sent, and the reply that is ready."""

    def __init__(self, used):
        self.used, self.last, self.calls, self.output, self.reply = used, 0, set(), b"", None

    def is_done(self):
        return self.used[0] == "over" and not self.calls and not self.output and self.reply is None


def serves(need, client, used):
    """Returns whether a connection that is used so takes a request of this client that needs this."""
    kind, owner = used
    if kind == "kept":
        return owner == client
    routed = isinstance(need, tuple)
    return {"shared": need == "any" or routed, "once": need == "own", "transaction": routed, "over": False}[kind]


def answered(reply, number):
    """Returns a message as the answer to the message of this number."""
    return reply[:8] + int32(number) + reply[12:]


class Shared:
    """The clients and the connections to the server, by their numbers, and where cursors and transactions live."""

    def __init__(self):
        self.clients, self.servers, self.accepted, self.opened = {}, {}, 0, 0
        self.cursors, self.transactions = {}, {}

    def accept(self):
        self.accepted += 1
        self.clients[self.accepted] = Client()
        return self.accepted

    def open(self, used):
        """Opens a connection. Returns 0 where the client that is to keep it isn't there, or keeps another."""
        kind, owner = used
        if kind == "kept":
            if owner not in self.clients or self.clients[owner].kept is not None:
                return 0
            self.clients[owner].kept = self.opened + 1
        self.opened += 1
        self.servers[self.opened] = Server(used)
        return self.opened

    def asks(self, number):
        """Returns the request of a client that is open, if it wasn't passed on."""
        client = self.clients.get(number)
        return client.request if client and client.is_open and client.awaits is None else None

    def may_use(self, request, number, upstream):
        return upstream in self.servers and serves(request.need, number, self.servers[upstream].used)

    def home(self, request, number):
        """Returns the one connection over which the request may go, or None where there is no such one."""
        if self.clients[number].kept is not None:
            return self.clients[number].kept
        if request.begins or not isinstance(request.need, tuple):
            return None
        kind, name = request.need
        found = (self.cursors if kind == "cursor" else self.transactions).get(name)
        return found if found and self.may_use(request, number, found) else None

    def may_go(self, number, upstream):
        request = self.asks(number)
        return bool(request) and self.may_use(request, number, upstream) and self.home(request, number) in (None, upstream)

    def place(self, number, shared):
        """Returns over which connection the request goes, of which `shared` may be one, or how a new one is used."""
        request = self.asks(number)
        home = self.home(request, number)
        if home is not None:
            return f"at {home}" if self.may_use(request, number, home) else f"gone {home}"
        if request.need in ("own", "kept") or request.begins:
            return "new once" if request.need == "own" else f"new {'kept' if request.need == 'kept' else 'transaction'} {number}"
        return f"at {shared}" if self.may_use(request, number, shared) else "new shared"

    def passes(self, number, upstream):
        """Passes the request on. Returns whether it may go there."""
        if not self.may_go(number, upstream):
            return False
        client, server = self.clients[number], self.servers[upstream]
        request = client.request
        server.last += 1
        server.output += request.message[:4] + int32(server.last) + request.message[8:]
        if server.used[0] == "once":
            server.used = ("over", 0)
        if request.begins:
            self.transactions[request.begins] = upstream
        if request.is_silent:
            client.request = None
        else:
            server.calls.add(server.last)
            client.awaits = (upstream, server.last)
        return True

    def replies(self, upstream, call, reply, cursor):
        """Takes the reply to a call, which tells of this cursor, or of none. Returns how many bytes were taken."""
        server = self.servers[upstream]
        if server.reply is not None:
            return 0
        server.reply = (call, reply, cursor)
        return len(reply)

    def gives(self, upstream, number):
        """Gives the reply that is ready to a client. Returns whether it awaits that."""
        client, server = self.clients.get(number), self.servers.get(upstream)
        if not client or not server or server.reply is None or not client.is_open:
            return False
        call, reply, cursor = server.reply
        if client.awaits != (upstream, call):
            return False
        request = client.request
        client.last += 1
        client.output += reply[:4] + int32(client.last) + request.message[4:8] + reply[12:]
        client.request = client.awaits = None
        self.release(upstream)
        self.follow(request, cursor, upstream)
        return True

    def follow(self, request, cursor, upstream):
        """Notes what a request and its reply tell."""
        for killed in request.kills:
            self.cursors.pop(killed, None)
        if request.ends:
            self.transactions.pop(request.ends, None)
        if cursor == 0 and request.asks_more_of is not None:
            self.cursors.pop(request.asks_more_of, None)
        elif cursor:
            self.cursors[cursor] = upstream

    def release(self, upstream):
        """Lets go of the reply that is ready."""
        server = self.servers.get(upstream)
        if server and server.reply is not None:
            server.calls.remove(server.reply[0])
            server.reply = None

    def lose(self, upstream):
        """Loses a connection, what lives on it, and the clients that await a reply of it."""
        self.servers.pop(upstream, None)
        self.cursors = {name: at for name, at in self.cursors.items() if at != upstream}
        self.transactions = {name: at for name, at in self.transactions.items() if at != upstream}
        self.clients = {number: it for number, it in self.clients.items() if not it.awaits or it.awaits[0] != upstream}

    def finish(self, upstream):
        """Has a connection serve nobody any more."""
        if upstream in self.servers:
            self.servers[upstream].used = ("over", 0)


# ---- messages


def session_of(name):
    """Returns the field `lsid` of the session with this number."""
    return element(DOCUMENT, "lsid", document([element(BINARY, "id", int32(16) + b"\4" + bytes([name]) * 16)]))


def in_transaction(session):
    return [session_of(session), element(BOOLEAN, "autocommit", b"\0")]


def asked(number, first, *others, flags=0):
    """Returns the message of a command, whose first field is this."""
    return message(number, document([first, *others, element(STRING, "$db", string("test"))]), flags=flags)


def one(name):
    return element(INT32, name, int32(1))


def drawn_request(random, number):
    """Draws a request, in the message of this number."""
    cursor, session = random.randint(1, 4), random.randint(1, 3)
    tied = ("transaction", session)
    kills = tuple(random.sample(range(1, 5), random.randint(1, 2)))
    listed = element(ARRAY, "cursors", document([element(INT64, str(i), int64(it)) for i, it in enumerate(kills)]))
    starting = element(BOOLEAN, "startTransaction", b"\1")
    kinds = [
        Request(asked(number, one("ping"))),
        Request(asked(number, element(STRING, "find", string("c")))),
        Request(asked(number, one("insert"), flags=SILENT), is_silent=True),
        Request(asked(number, one("hello")), "own"),
        Request(asked(number, one("ismaster"), element(DOCUMENT, "speculativeAuthenticate", document([]))), "kept"),
        Request(asked(number, one("saslStart")), "kept"),
        Request(asked(number, one("$where")), "kept"),
        Request(asked(number, element(DOCUMENT, "$query", document([one("logout")]))), "kept"),
        Request(asked(number, element(INT64, "getMore", int64(cursor))), ("cursor", cursor), asks_more_of=cursor),
        Request(asked(number, one("killCursors"), listed), ("cursor", kills[0]), kills=kills),
        Request(asked(number, one("find"), *in_transaction(session), starting), tied, begins=session),
        Request(asked(number, one("update"), *in_transaction(session)), tied),
        Request(asked(number, one("commitTransaction"), *in_transaction(session)), tied, ends=session),
    ]
    # Half of them are such as are shared.
    return random.choice(kinds[:3]) if random.random() < 0.5 else random.choice(kinds)


def reply_to(call, number, cursor):
    """Returns the reply of this number to a call, which tells of this cursor, if one is named."""
    told = [] if cursor is None else [element(DOCUMENT, "cursor", document([element(INT64, "id", int64(cursor))]))]
    return answered(message(number, document([*told, element(INT32, "n", int32(number))])), call)
