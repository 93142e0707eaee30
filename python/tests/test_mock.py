"""The server that a test answers for, by a client of the library's own over a socket; and beside PyMongo, where that is there."""

import contextlib
import socket
import struct
import threading
import time

import pytest

import lughemra
from lughemra import bson
from lughemra.mock import Matcher, MockServer, absent, go, going


class Caller:
    """Is a driver of one connection."""

    def __init__(self, server):
        self.socket = socket.create_connection(("127.0.0.1", server.port), timeout=10)
        self.client = lughemra.Client()

    def call(self, body, sequences=()):
        """Makes a call, and returns the body of its reply, or None where the connection ends before it is whole."""
        self.client.call({**body, "$db": "zoo"}, sequences)
        output = self.client.output(self.client.waiting)
        self.socket.sendall(output)
        self.client.sent(len(output))
        while True:
            for reply in self.client:
                return reply.message.body.to_dict()
            piece = self.socket.recv(65536)
            if not piece:
                return None
            self.client.feed(piece)


def wait_until(holds):
    """Waits until this holds, up to 10 seconds. Returns whether it does."""
    until = time.monotonic() + 10
    while not holds() and time.monotonic() < until:
        time.sleep(0.01)
    return holds()


@pytest.fixture
def server():
    with MockServer(timeout=5) as server:
        yield server


def test_a_request_is_received_and_answered(server):
    with going(Caller(server).call, {"find": "pets", "filter": {"x": 1}}) as result:
        request = server.receives("find", filter={"x": 1})
        assert (request.command_name, request["find"], request.namespace, "limit" in request) == ("find", "pets", "zoo", False)
        request.replies(n=3)
    assert result() == {"ok": 1, "n": 3}


def test_sequences_are_arrays_of_the_body(server):
    future = go(Caller(server).call, {"insert": "pets"}, [("documents", [{"_id": 1}, {"_id": 2}])])
    assert server.receives({"insert": "pets", "documents": [{"_id": 1}, {"_id": 2}]}).replies({"n": 2}) is None
    assert future.result(5) == {"ok": 1, "n": 2}


@pytest.mark.parametrize(
    "given, fields, matches",
    [
        (["find"], {}, True),
        (["count"], {}, False),
        ([{"find": "pets"}], {}, True),
        ([{"find": "birds"}], {}, False),
        ([{"filter": {"x": 1}}], {}, False),
        ([], {"filter": {"x": 1}}, True),
        ([], {"filter": {"x": 2}}, False),
        ([], {"limit": absent}, True),
        ([], {"filter": absent}, False),
        ([Matcher("find", namespace="zoo")], {}, True),
        ([Matcher("find", namespace="barn")], {}, False),
        ([lambda request: request["find"] == "pets"], {}, True),
    ],
)
def test_matchers(server, given, fields, matches):
    future = go(Caller(server).call, {"find": "pets", "filter": {"x": 1}})
    assert server.got(*given, **fields) == matches
    assert server.got(*given, **fields) == matches, "it goes on waiting"
    server.ok()
    assert future.result(5) == {"ok": 1}


def test_another_request_and_none_are_told(server):
    assert not server.got("ping", timeout=0)
    with pytest.raises(AssertionError, match="no request came"):
        server.receives("ping", timeout=0.01)
    with contextlib.closing(Caller(server).socket) as opened:
        go(Caller(server).call, {"ping": 1})
        with pytest.raises(AssertionError, match="where count with"):
            server.receives("count")
        opened.close()


def test_responders_answer_by_themselves_the_last_one_first(server):
    caller = Caller(server)
    server.autoresponds("ping", {"n": 1})
    last = server.autoresponds("ping", lambda request: {"n": 2, "was": request["ping"]})
    assert caller.call({"ping": 7}) == {"ok": 1, "n": 2, "was": 7}
    last.cancel()
    assert caller.call({"ping": 1}) == {"ok": 1, "n": 1}
    server.autoresponds(lambda request: request.command_name == "count" and (request.replies(n=9) or True))
    assert caller.call({"count": "pets"}) == {"ok": 1, "n": 9}


def test_errors_of_commands(server):
    future = go(Caller(server).call, {"insert": "pets"})
    server.command_err(10107, "not primary", "RetryableWriteError", codeName="NotWritablePrimary")
    told = {"ok": 0, "code": 10107, "errmsg": "not primary", "errorLabels": ["RetryableWriteError"], "codeName": "NotWritablePrimary"}
    assert future.result(5) == told


@pytest.mark.parametrize("end", [lambda request: request.hangup(), lambda request: request.replies(cut=20)])
def test_connections_end(server, end):
    future = go(Caller(server).call, {"ping": 1})
    end(server.receives("ping"))
    assert future.result(5) is None


def test_a_reply_is_cut_at_its_byte(server):
    caller, got = Caller(server), b""
    caller.client.call({"ping": 1, "$db": "zoo"})
    caller.socket.sendall(caller.client.output())
    server.receives("ping").replies(cut=21)
    while piece := caller.socket.recv(100):
        got += piece
    assert len(got) == 21 < struct.unpack_from("<i", got)[0]


def test_an_answer_to_a_peer_that_is_gone_is_passed_over_and_a_second_one_is_refused(server):
    caller = Caller(server)
    for _ in range(2):
        caller.client.call({"ping": 1, "$db": "zoo"})
    caller.socket.sendall(caller.client.output())
    first, second = server.receives("ping"), server.receives("ping")
    first.ok()
    with pytest.raises(ValueError, match="answered before"):
        first.ok()
    caller.socket.close()
    assert wait_until(lambda: second._link._is_over)
    second.ok()


def test_a_delay_holds_a_reply(server):
    server.autoresponds("ping", {}, delay=0.2)
    begun = time.monotonic()
    assert Caller(server).call({"ping": 1}) == {"ok": 1}
    assert time.monotonic() - begun >= 0.2


def test_bytes_in_the_place_of_a_reply(server):
    caller = Caller(server)
    future = go(caller.call, {"ping": 1})
    server.receives("ping").sends(b"no message, as of 16 bytes or more")
    with pytest.raises(lughemra.ClientClosed, match="Length at 0"):
        future.result(5)


def test_bytes_that_are_no_message_end_the_connection_and_are_told(server):
    with socket.create_connection(("127.0.0.1", server.port), timeout=5) as opened:
        opened.sendall(bytes.fromhex("1a000000 01000000 00000000 d1070000 00000000 00 0500000000"))
        assert opened.recv(100) == b""
    assert [str(fault) for fault in server.faults] == ["Message: Opcode at 12"]


def test_the_old_handshake_is_answered(server):
    query = bson.encode({"ismaster": 1, "helloOk": True})
    data = struct.pack("<i", 0) + b"admin.$cmd\0" + struct.pack("<ii", 0, -1) + query
    with socket.create_connection(("127.0.0.1", server.port), timeout=5) as opened:
        opened.sendall(struct.pack("<iiii", 16 + len(data), 77, 0, 2004) + data)
        reply = opened.recv(65536)
    length, _, response_to, opcode = struct.unpack_from("<iiii", reply)
    assert (length, response_to, opcode) == (len(reply), 77, 1)
    assert bson.decode(reply[36:])["helloOk"] is True


def test_handshakes_are_the_tests_own_if_it_wants_that():
    with MockServer(auto_hello=False, timeout=5) as server:
        future = go(Caller(server).call, {"hello": 1})
        server.receives("hello").replies(maxWireVersion=21)
        assert future.result(5) == {"ok": 1, "maxWireVersion": 21}


def test_a_fail_point_has_commands_fail(server):
    server.autoresponds("ping", {})
    set_up = {"configureFailPoint": "failCommand", "mode": {"times": 2}}
    caller = Caller(server)
    assert caller.call({**set_up, "data": {"failCommands": ["ping"], "errorCode": 11600, "errorLabels": ["X"]}}) == {"ok": 1}
    told = {"ok": 0, "code": 11600, "errmsg": "failCommand", "errorLabels": ["X"]}
    assert [caller.call({"ping": 1}) for _ in range(3)] == [told, told, {"ok": 1}]
    assert caller.call({**set_up, "data": {"failCommands": ["ping"], "closeConnection": True}, "mode": "alwaysOn"}) == {"ok": 1}
    assert caller.call({"ping": 1}) is None
    assert Caller(server).call({"configureFailPoint": "failCommand", "mode": "off"}) == {"ok": 1}
    assert Caller(server).call({"ping": 1}) == {"ok": 1}


def test_many_connections_at_once(server):
    server.autoresponds("ping", lambda request: {"n": request["ping"]})
    callers = [threading.Thread(target=lambda k=k: results.append(Caller(server).call({"ping": k}))) for k in range(20)]
    results = []
    for it in callers:
        it.start()
    for it in callers:
        it.join(10)
    assert sorted(it["n"] for it in results) == list(range(20))


def test_pymongo_is_served(server):
    pymongo = pytest.importorskip("pymongo")
    with pymongo.MongoClient(server.uri, serverSelectionTimeoutMS=5000) as client:
        with going(client.zoo.command, "ping") as result:
            server.receives("ping", namespace="zoo").ok()
        assert result()["ok"] == 1
        with going(lambda: list(client.zoo.pets.find({"x": 1}))) as found:
            server.receives({"find": "pets"}, filter={"x": 1}).replies(cursor={"id": 0, "ns": "zoo.pets", "firstBatch": [{"_id": 5}]})
        assert found() == [{"_id": 5}]
