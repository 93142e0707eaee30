"""The client's end of a connection."""

import gc
import sys
import traceback

import pytest

import lughemra
from lughemra import CallRefused, Client, ClientClosed, encode_message


def reply_to(request, body, **more):
    """Returns the bytes of a reply to a request."""
    return encode_message(body, response_to=request, request_id=1000 + request, **more)


def sent_by(client, most=1 << 16):
    """Returns all that waits to be sent, taken off in pieces of `most` bytes."""
    told = b""
    while piece := client.output(most):
        client.sent(len(piece))
        told += piece
    return told


def bodies(client):
    """Returns what iterating gives: of each reply its call, whether it is the last one, and its body."""
    return [(it.call, it.last, it.message.body.to_dict()) for it in client]


def test_a_call_is_written_as_a_message_is():
    client = Client(first_id=7)
    assert client.call({"ping": 1}) == (0, 7)
    assert client.waiting == len(client.output())
    assert sent_by(client) == encode_message({"ping": 1}, request_id=7)
    sequences = [("documents", [{"n": 1}, {"n": 2}])]
    assert client.call({"insert": "pets"}, sequences) == (1, 8)
    assert client.call_exhaust({"hello": 1}) == (2, 9)
    assert client.send_unacknowledged({"bye": 1}) == (3, 10)
    flags = lughemra.Flags
    wanted = (
        encode_message({"insert": "pets"}, sequences, request_id=8)
        + encode_message({"hello": 1}, request_id=9, flags=flags.EXHAUST_ALLOWED)
        + encode_message({"bye": 1}, request_id=10, flags=flags.MORE_TO_COME)
    )
    assert sent_by(client, 7) == wanted
    assert client.outstanding == 3


@pytest.mark.parametrize("step", [1, 2, 16, 17, 50, 1000])
def test_replies_find_their_calls_however_they_are_cut(step):
    client = Client()
    ids = [client.call({"n": n}).request_id for n in range(5)]
    stream = b"".join(reply_to(request, {"of": request}) for request in reversed(ids))
    told = []
    for at in range(0, len(stream), step):
        client.feed(stream[at : at + step])
        told += bodies(client)
    assert told == [(n, True, {"of": ids[n]}) for n in reversed(range(5))]
    assert client.outstanding == 0 and client.closed is None


def test_a_call_may_have_more_than_one_reply():
    client = Client()
    request = client.call_exhaust({"n": 1}).request_id
    client.feed(encode_message({"k": 0}, request_id=50, response_to=request, flags=lughemra.Flags.MORE_TO_COME))
    client.feed(encode_message({"k": 1}, request_id=51, response_to=50))
    assert bodies(client) == [(0, False, {"k": 0}), (0, True, {"k": 1})]


def test_calls_that_are_not_made():
    client = Client(window=1, limit=100)
    client.call({})
    for call, number, name in (
        (lambda: client.call({}), 2, "WindowFull"),
        (lambda: client.send_unacknowledged({"a": "b" * 100}), 3, "TooLarge"),
        (lambda: client.sent(10_000), 8, "TooMany"),
    ):
        with pytest.raises(CallRefused) as told:
            call()
        assert (told.value.number, told.value.name, str(told.value)) == (number, name, name)
    with pytest.raises(lughemra.MessageError) as fault:
        Client().call({"docs": 1}, [("docs", [])])
    assert str(fault.value) == "SequenceInBody at 36"
    assert sent_by(client) == encode_message({}, request_id=1)


def closing():
    """Gives what closes a client whose one call has the id 1: the bytes, and why."""
    unknown = reply_to(9, {})
    more = encode_message({}, response_to=1, request_id=9, flags=lughemra.Flags.MORE_TO_COME)
    query = bytes.fromhex("1a000000 01000000 01000000 d4070000 00000000 00 0500000000")
    return [
        (unknown, 2, "UnknownReply: 9"),
        (more, 3, "MoreNotAllowed"),
        (query, 1, "Message: Opcode at 12"),
    ]


@pytest.mark.parametrize("stream, number, words", closing())
def test_what_closes_a_client_is_told_for_good(stream, number, words):
    client = Client()
    client.call({})
    client.feed(stream + stream)
    for _ in range(2):
        with pytest.raises(ClientClosed) as told:
            next(client)
        assert (told.value.number, str(told.value)) == (number, words)
    assert (client.closed.number, str(client.closed)) == (number, words)
    with pytest.raises(ClientClosed):
        client.feed(b"")
    with pytest.raises(CallRefused) as refused:
        client.call({})
    assert refused.value.name == "Closed"


def test_replies_before_a_fault_are_given():
    client = Client()
    request = client.call({}).request_id
    client.feed(reply_to(request, {"a": 1}) + reply_to(9, {}))
    assert next(client).message.body.to_dict() == {"a": 1}
    with pytest.raises(ClientClosed):
        next(client)


def test_the_end_of_the_bytes():
    client = Client()
    client.end()
    assert str(client.closed) == "Ended" and list(client) == []
    client = Client()
    client.feed(b"\x1a\0\0")
    assert list(client) == []
    client.end()
    assert str(client.closed) == "EndedInside"
    with pytest.raises(ClientClosed):
        next(client)


@pytest.mark.parametrize("rest, told", [(b"", "Ended"), (b"\x1a\0\0", "EndedInside"), (reply_to(9, {}), "UnknownReply: 9")])
def test_what_came_before_the_end_is_given(rest, told):
    client = Client()
    ids = [client.call({"n": n}).request_id for n in range(4)]
    client.feed(b"".join(reply_to(request, {"of": request}) for request in ids[:3]) + rest)
    assert next(client).call == 0
    client.end()
    client.end()
    assert str(client.closed) == told and client.outstanding == 1
    with pytest.raises(CallRefused):
        client.call({})
    assert [next(client).message.body["of"] for _ in range(2)] == ids[1:3]
    for _ in range(2):
        with pytest.raises(StopIteration if told == "Ended" else ClientClosed):
            next(client)


def test_the_end_without_memory_may_be_told_again(monkeypatch):
    client = Client()
    client.feed(reply_to(client.call({}).request_id, {"a": 1}))

    def own_room(size):
        raise MemoryError

    with monkeypatch.context() as patch:
        patch.setattr(lughemra.client, "own_room", own_room)
        with pytest.raises(MemoryError):
            client.end()
    client.end()
    assert str(client.closed) == "Ended" and bodies(client) == [(0, True, {"a": 1})]


def test_what_is_told_again_keeps_no_frames():
    client = Client()
    client.feed(reply_to(9, {}))
    for it in (lambda: next(client), lambda: client.feed(b"")):
        lengths = set()
        for _ in range(3):
            with pytest.raises(ClientClosed) as told:
                it()
            lengths.add(sum(1 for _ in traceback.walk_tb(told.value.__traceback__)))
        assert len(lengths) == 1


def test_numbers_out_of_range_are_refused():
    for given in ({"first_id": 0}, {"first_id": 1 << 31}, {"window": 0}, {"window": 1025}, {"limit": 25}, {"limit": 48_000_001}):
        with pytest.raises(ValueError):
            Client(**given)
    with pytest.raises(ValueError):
        Client().sent(-1)


def test_a_client_that_has_given_all_replies_holds_no_bytes():
    client = Client()
    client.feed(reply_to(client.call({}).request_id, {"a": bytes(1 << 20)}))
    assert len(list(client)) == 1 and sys.getsizeof(client._held) < 1000
    client.feed(reply_to(client.call({}).request_id, {"a": 1}))
    assert bodies(client) == [(1, True, {"a": 1})]


def test_counts_of_any_size_are_taken():
    client = Client()
    client.call({"a": 1})
    assert client.output(sys.maxsize) == client.output()
    with pytest.raises(CallRefused) as told:
        client.sent((1 << 64) + 5)
    assert told.value.name == "TooMany"


def test_a_closed_client_answers_nothing():
    with Client() as client:
        request = client.call({}).request_id
        client.call({})
        client.feed(reply_to(request, {}) + bytes(16))
        client.end()
    client.close()
    for call in (lambda: client.call({}), client.output, lambda: client.sent(0),
                 lambda: client.outstanding, client.end, lambda: client.feed(b""),
                 lambda: next(client), lambda: list(client)):  # fmt: skip
        with pytest.raises(CallRefused) as told:
            call()
        assert told.value.name == "NoCore"
    assert str(client.closed) == "Message: Length at 0"
    del client
    gc.collect()


def test_one_call_without_memory_changes_nothing(monkeypatch):
    client = Client()
    request = client.call({}).request_id
    client.feed(reply_to(request, {"a": 1}))
    refused = lughemra._library.Fed(lughemra._library.NO_MEMORY, 0)
    with monkeypatch.context() as patch:
        patch.setattr(lughemra._library.short, "client_feed", lambda *arguments: refused)
        with pytest.raises(MemoryError):
            next(client)
    assert bodies(client) == [(0, True, {"a": 1})]


def test_a_reply_without_memory_is_given_again(monkeypatch):
    client = Client()
    client.feed(reply_to(client.call({}).request_id, {"a": 1}))

    def own_room(size):
        raise MemoryError

    with monkeypatch.context() as patch:
        patch.setattr(lughemra.client, "own_room", own_room)
        with pytest.raises(MemoryError):
            next(client)
    assert bodies(client) == [(0, True, {"a": 1})]
