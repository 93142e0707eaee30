"""The server's end of a connection. What is sent is worked out by hand from the Wire Protocol manual, or by PyMongo's `bson`."""

import gc
import struct
import sys
import traceback

import pytest

import lughemra
from lughemra import CallRefused, Client, Flags, Server, ServerClosed, encode

# {"ok": int32 1} and {"n": int32 2}
OK = bytes.fromhex("0d000000 106f6b0001000000 00")
TWO = bytes.fromhex("0c000000 106e0002000000 00")


def message(number, to, body, flags=0, sections=b""):
    """Returns the bytes of a message, by the layout of OP_MSG."""
    rest = struct.pack("<iiiI", number, to, 2013, flags) + b"\0" + body + sections
    return struct.pack("<i", len(rest) + 4) + rest


def sent_by(server, most=1 << 16):
    """Returns all that waits to be sent, taken off in pieces of `most` bytes."""
    told = b""
    while piece := server.output(most):
        server.sent(len(piece))
        told += piece
    return told


def bodies(server):
    """Returns the bodies of the requests that wait."""
    return [it.message.body.to_dict() for it in server.requests]


def test_a_request_is_read_and_answered():
    server = Server()
    assert (server.pending, server.requests, server.waiting, server.closed) == (0, (), 0, None)
    sequence = b"\1" + struct.pack("<i", 4 + 5 + len(TWO) + len(OK)) + b"docs\0" + TWO + OK
    server.feed(message(77, 5, TWO, 0, sequence))
    (request,) = server.requests
    assert request.message.raw == message(0, 0, TWO, 0, sequence) and not request.takes_more
    assert request.message.body == {"n": 2} and request.message.flags == 0
    assert [(it.identifier, list(it.documents)) for it in request.message.sequences] == [("docs", [{"n": 2}, {"ok": 1}])]
    server.answer(0, [OK])
    assert (server.pending, server.requests, server.waiting) == (0, (), len(message(1, 77, OK)))
    assert server.output(3) == message(1, 77, OK)[:3]
    assert sent_by(server) == message(1, 77, OK) and server.output() == b"" and server.waiting == 0


@pytest.mark.parametrize("step", [1, 2, 16, 17, 50, 1000])
def test_requests_are_found_however_they_are_cut(step):
    server = Server()
    stream = b"".join(message(10 + n, 0, encode({"n": n})) for n in range(5))
    for at in range(0, len(stream), step):
        server.feed(stream[at : at + step])
    assert bodies(server) == [{"n": n} for n in range(5)]
    server.answer(3, [{"of": 3}])
    server.answer(0, [{"of": 0}])
    assert bodies(server) == [{"n": 1}, {"n": 2}, {"n": 4}] and server.request(2).message.body == {"n": 4}
    assert sent_by(server, 7) == message(1, 13, encode({"of": 3})) + message(2, 10, encode({"of": 0}))


def test_a_request_may_take_more_answers_or_want_none():
    server = Server()
    server.feed(message(8, 0, TWO, Flags.EXHAUST_ALLOWED) + message(9, 0, TWO, Flags.MORE_TO_COME) + message(10, 0, TWO))
    assert [(it.takes_more, it.message.flags) for it in server.requests] == [(True, 1 << 16), (False, 1 << 1), (False, 0)]
    server.answer(0, [OK, TWO, OK])
    # Each part is to the one before it, and all but the last say that more will come.
    parts = message(1, 8, OK, Flags.MORE_TO_COME) + message(2, 1, TWO, Flags.MORE_TO_COME) + message(3, 2, OK)
    assert sent_by(server) == parts
    server.answer(0, [OK])
    assert sent_by(server) == b"" and server.pending == 1
    server.answer(0, [OK])
    assert sent_by(server) == message(4, 10, OK)


def test_what_comes_behind_a_full_window_waits():
    server = Server(window=2)
    server.feed(b"".join(message(n, 0, encode({"n": n})) for n in range(1, 6)) + message(6, 0, TWO)[:20])
    assert bodies(server) == [{"n": 1}, {"n": 2}]
    for n in range(1, 6):
        server.answer(0, [OK])
        assert bodies(server) == [{"n": k} for k in range(n + 1, min(n + 3, 6))]
    server.feed(message(6, 0, TWO)[20:])
    assert bodies(server) == [{"n": 2}]
    assert sent_by(server) == b"".join(message(n, n, OK) for n in range(1, 6))


def test_answers_that_are_not_given():
    server = Server()
    server.feed(message(7, 0, TWO))
    for documents in ([], [OK, OK]):
        with pytest.raises(CallRefused) as told:
            server.answer(0, documents)
        assert (told.value.number, told.value.name) == (10, "BadCount")
    for k in (1, -1, 1024, 1 << 64):
        with pytest.raises(IndexError):
            server.answer(k, [OK])
        with pytest.raises(IndexError):
            server.request(k)
    twice = bytes.fromhex("13000000 106e0001000000 106e0002000000 00")
    with pytest.raises(lughemra.MessageError) as fault:
        server.answer(0, [twice])
    assert fault.value.name == "RepeatedField" and fault.value.document is None
    with pytest.raises(lughemra.DocumentError):
        server.answer(0, [OK + OK])
    with pytest.raises(CallRefused) as told:
        server.sent(1)
    assert told.value.name == "TooMany"
    assert bodies(server) == [{"n": 2}] and server.waiting == 0 and server.closed is None
    server.answer(0, [OK])
    assert sent_by(server) == message(1, 7, OK)


def test_a_reply_that_is_too_large_closes_the_server():
    server = Server(limit=100)
    server.feed(message(1, 0, TWO) + message(2, 0, TWO) + message(3, 0, TWO)[:9])
    server.answer(1, [OK])
    with pytest.raises(ServerClosed) as told:
        server.answer(0, [{"a": "b" * 100}])
    assert (told.value.number, str(told.value)) == (7, "ReplyTooLarge")
    assert (server.closed.number, str(server.closed)) == (7, "ReplyTooLarge")
    with pytest.raises(ServerClosed):
        server.feed(b"")
    with pytest.raises(ServerClosed):
        server.answer(0, [OK])
    assert sent_by(server) == message(1, 2, OK)


@pytest.mark.parametrize(
    "bytes_, words",
    [
        (message(1, 0, TWO)[:12] + bytes.fromhex("d4070000") + message(1, 0, TWO)[16:], "Message: Opcode at 12"),
        (message(1, 0, TWO, 4), "Message: Flags at 16"),
        (message(1, 0, TWO[:-1] + b"\1"), "Message: Document at 21: End at 0"),
        (message(1, 0, TWO + b"\0" + TWO), "Message: TwoBodies at 33"),
        (bytes.fromhex("0f000000 01000000 00000000 dd070000"), "Message: Length at 0"),
    ],
)
def test_what_closes_a_server_is_told_for_good(bytes_, words):
    server = Server()
    server.feed(message(9, 0, OK))
    server.answer(0, [TWO])
    with pytest.raises(ServerClosed) as told:
        server.feed(bytes_ + message(2, 0, TWO))
    assert (told.value.number, str(told.value)) == (1, words)
    assert (server.closed.number, str(server.closed)) == (1, words)
    with pytest.raises(ServerClosed):
        server.feed(message(2, 0, TWO))
    assert sent_by(server) == message(1, 9, TWO)


def test_the_end_of_the_bytes():
    server = Server()
    server.end()
    assert (server.closed.number, str(server.closed)) == (5, "Ended")
    server = Server()
    server.feed(message(1, 0, OK)[:25])
    server.end()
    assert (server.closed.number, str(server.closed)) == (6, "EndedInside")
    with pytest.raises(ServerClosed):
        server.answer(0, [OK])


@pytest.mark.parametrize("rest, told", [(b"", "Ended"), (message(9, 0, TWO)[:20], "EndedInside")])
def test_what_came_before_the_end_is_answered(rest, told):
    server = Server(window=2)
    server.feed(b"".join(message(n, 0, encode({"n": n})) for n in range(1, 6)) + rest)
    server.end()
    server.end()
    with pytest.raises(ValueError):
        server.feed(b"")
    for n in range(1, 6):
        assert server.closed is None and server.request(0).message.body == {"n": n}
        server.answer(0, [OK])
    assert str(server.closed) == told and server.pending == 0
    for call in (lambda: server.feed(b""), lambda: server.answer(0, [OK])):
        with pytest.raises(ServerClosed):
            call()
    server.end()
    assert sent_by(server) == b"".join(message(n, n, OK) for n in range(1, 6))


def test_bytes_at_fault_behind_a_full_window_close_the_server_behind_the_end():
    server = Server(window=1)
    server.feed(message(1, 0, TWO) + message(2, 0, TWO)[:12] + bytes.fromhex("d4070000") + message(2, 0, TWO)[16:])
    server.end()
    server.answer(0, [OK])
    assert str(server.closed) == "Message: Opcode at 12" and sent_by(server) == message(1, 1, OK)


def test_what_is_told_again_keeps_no_frames():
    server = Server()
    with pytest.raises(ServerClosed):
        server.feed(b"no message, as of 16 bytes or more")
    for it in (lambda: server.feed(b""), lambda: server.answer(0, [OK])):
        lengths = set()
        for _ in range(3):
            with pytest.raises(ServerClosed) as told:
                it()
            lengths.add(sum(1 for _ in traceback.walk_tb(told.value.__traceback__)))
        assert len(lengths) == 1


def test_numbers_out_of_range_are_refused():
    for given in ({"window": 0}, {"window": 1025}, {"limit": 25}, {"limit": 48_000_001}):
        with pytest.raises(ValueError):
            Server(**given)
    with pytest.raises(ValueError):
        Server().sent(-1)


def test_a_freed_server_answers_nothing():
    with Server() as server:
        server.feed(message(1, 0, OK))
    server.close()
    for call in (lambda: server.feed(b""), lambda: server.feed(OK), lambda: server.requests,
                 lambda: server.request(0), server.output, server.end,
                 lambda: server.answer(0, [OK]), lambda: server.sent(0), lambda: server.waiting):  # fmt: skip
        with pytest.raises(CallRefused) as told:
            call()
        assert told.value.name == "NoCore"
    del server
    gc.collect()


@pytest.mark.parametrize("name", ["server_feed", "server_request", "server_answer"])
def test_a_call_without_memory_may_be_made_again(monkeypatch, name):
    server = Server()
    server.feed(message(1, 0, OK)[:20])
    refused = lughemra._library.FUNCTIONS[name](lughemra._library.NO_MEMORY)
    with monkeypatch.context() as patch:
        patch.setattr(lughemra._library.short, name, lambda *arguments: refused)
        with pytest.raises(MemoryError):
            server.feed(message(1, 0, OK)[20:])
            server.request(0)
            server.answer(0, [TWO])
    server.feed(b"")
    assert bodies(server) == [{"ok": 1}]
    server.answer(0, [TWO])
    assert sent_by(server) == message(1, 1, TWO)


def test_a_piece_that_is_not_kept_is_told_and_may_be_fed_again():
    server = Server()
    full = type("Full", (bytearray,), {"__iadd__": lambda self, piece: bytearray(1 << 62)})
    server._held = full()
    with pytest.raises(MemoryError, match="^the piece isn't kept$"):
        server.feed(message(1, 0, OK))
    server._held = bytearray()
    server.feed(b"")
    assert server.pending == 0
    server.feed(message(1, 0, OK))
    assert bodies(server) == [{"ok": 1}]


def test_a_server_that_has_taken_all_holds_no_bytes():
    server = Server()
    server.feed(message(1, 0, encode({"a": bytes(1 << 20)})))
    assert server.pending == 1 and sys.getsizeof(server._held) < 1000
    server.feed(message(2, 0, OK))
    assert server.pending == 2


def test_a_client_and_a_server_speak():
    client, server = Client(first_id=5), Server()
    calls = [client.call({"n": n}) for n in range(3)] + [client.call_exhaust({"n": 3})]
    client.send_unacknowledged({"n": 4})
    server.feed(sent_by(client, 10))
    told = []
    while server.pending:
        k = server.pending - 1
        body = server.request(k).message.body
        server.answer(k, [{"of": body["n"], "part": part} for part in range(3 if server.request(k).takes_more else 1)])
        client.feed(sent_by(server, 9))
        told += [(it.call, it.last, it.message.body.to_dict()) for it in client]
    parts = [(calls[3].number, part == 2, {"of": 3, "part": part}) for part in range(3)]
    assert told == parts + [(calls[n].number, True, {"of": n, "part": 0}) for n in (2, 1, 0)]


def test_what_pymongo_encodes_is_read_and_what_is_answered_pymongo_decodes():
    bson = pytest.importorskip("bson")
    bodies_ = [{"n": 1, "s": "é", "x": 0.5, "a": [1, {"b": None}], "$db": "test"}, {"i": bson.ObjectId(bytes(12)).binary}]
    server = Server()
    server.feed(b"".join(message(n, 0, bson.encode(body)) for n, body in enumerate(bodies_)))
    assert [it.message.body.raw for it in server.requests] == [bson.encode(body) for body in bodies_]
    assert [bson.decode(it.message.body.raw) for it in server.requests] == bodies_
    for body in bodies_:
        server.answer(0, [body])
    assert sent_by(server) == b"".join(message(n + 1, n, bson.encode(body)) for n, body in enumerate(bodies_))
