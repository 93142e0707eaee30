"""Reads messages, whole and in pieces of each size."""

import random

import pytest
from rows import altered, document, element, fault_of, message_fault_of, prefixes, string, text_model, vectors

import lughemra
from lughemra import Message, MessageError, Reader

LEAST, PING, INSERT = vectors.LEAST, vectors.PING, vectors.INSERT
FLAGGED = vectors.with_flags(PING, "02000100")
# Bytes, and the fault that the order of the checks gives.
FAULTS = [
    ("", 1, "Length", 0),
    ("0f000000 01000000 00000000 dd070000", 1, "Length", 0),
    ("1a000000 01000000 00000000 d4070000 00000000 00 0500000000", 2, "Opcode", 12),
    ("1a000000 01000000 00000000 dd070000 04000000 00 0500000000", 3, "Flags", 16),
    ("1a000000 01000000 00000000 dd070000 01000000 00 0500000000", 4, "Checksum", 16),
    ("1a000000 01000000 00000000 dd070000 00000000 02 0500000000", 5, "SectionKind", 20),
    ("19000000 01000000 00000000 dd070000 00000000 01 04000000", 6, "SectionSize", 20),
    ("1a000000 01000000 00000000 dd070000 00000000 00 0500000001", 7, "Document", 21),
    ("14000000 01000000 00000000 dd070000 00000000", 8, "NoBody", 20),
    ("20000000 01000000 00000000 dd070000 00000000 00 0500000000 00 0500000000", 9, "TwoBodies", 26),
    ("28000000 01000000 00000000 dd070000 00000000 00 13000000 10610001000000 10610002000000 00", 10, "RepeatedField", 20),
    ("1b000000 01000000 00000000 dd070000 00000000 01 06000000 6161", 11, "SequenceName", 20),
    ("28000000 01000000 00000000 dd070000 00000000 00 0c000000 10610001000000 00 01 06000000 6100", 12, "SequenceInBody", 33),
    ("13000000 01000000 00000000 dd070000 000000", 13, "Truncated", 16),
]


def told(fault):
    """Returns the number and the offset of a fault, and those of the document's own."""
    return fault.number, fault.offset, fault.document and (fault.document.number, fault.document.offset)


def fault_in(call, *arguments):
    """Returns the fault that a call raises, or what it returns."""
    try:
        return call(*arguments)
    except MessageError as fault:
        return told(fault)


def test_a_message_is_read():
    ping = Message(FLAGGED)
    assert ping.header == (51, 1, 0, 2013) and ping.header.message_length == 51
    assert ping.flags == lughemra.Flags.MORE_TO_COME | lughemra.Flags.EXHAUST_ALLOWED
    assert ping.body == {"ping": 1, "$db": "admin"} and ping.sequences == () and ping.raw == FLAGGED
    assert Message(vectors.with_flags(PING, "00000200")).flags == 1 << 17
    assert repr(ping) == "Message(51 bytes, request 1, response to 0)"
    assert Message(LEAST).flags == 0 and Message(LEAST).body == {}
    numbered = Message(LEAST[:4] + bytes.fromhex("ffffffff 00000080") + LEAST[12:])
    assert (numbered.header.request_id, numbered.header.response_to) == (-1, -(2**31))


def test_sequences_are_read():
    insert = Message(INSERT)
    assert insert.body == {"insert": "c"} and insert.body.json() == '{"insert":"c"}'
    (found,) = insert.sequences
    assert found.identifier == "documents" and found.documents == ({"_id": 1},)
    inner = document(element(0x02, "s", string("x"))), document(element(0x03, "d", document(element(0x08, "t", b"\1"))))
    sections = b"".join(
        b"\1" + (4 + len(name) + 1 + len(data)).to_bytes(4, "little") + name + b"\0" + data
        for name, data in [("é".encode(), inner[0] + inner[1]), (b"", b""), (b"x", inner[1])]
    )
    whole = (26 + len(sections)).to_bytes(4, "little") + LEAST[4:20] + sections + LEAST[20:]
    for make in (bytes, bytearray, memoryview):
        read = Message(make(whole))
        assert [(it.identifier, [one.raw for one in it.documents]) for it in read.sequences] == [
            ("é", list(inner)), ("", []), ("x", [inner[1]]),
        ]  # fmt: skip
        assert read.sequences[0].documents[1]["d"]["t"] is True
        assert read.sequences[2].documents[0].json() == '{"d":{"t":true}}' and read.body == {}


@pytest.mark.parametrize("data, number, name, offset", FAULTS)
def test_a_fault_has_its_number_its_name_and_its_offset(data, number, name, offset):
    data = bytes.fromhex(data)
    for call in (lughemra.check_message, Message):
        with pytest.raises(MessageError) as caught:
            call(data)
        fault = caught.value
        assert (fault.number, fault.name, fault.offset) == (number, name, offset)
        if number != 7:
            assert str(fault) == f"{name} at {offset}" and fault.document is None
    assert message_fault_of(data)[:2] == (number, offset)


def test_the_fault_of_a_document_inside_is_told():
    body = document(element(0x10, "x", b"\1\0\0\0"), element(0x08, "b", b"\2"))
    data = (21 + len(body)).to_bytes(4, "little") + LEAST[4:21] + body
    with pytest.raises(MessageError, match="^Document at 21: Boolean at 11$") as caught:
        Message(data)
    inside = caught.value.document
    assert isinstance(inside, lughemra.DocumentError)
    assert (inside.number, inside.name, inside.offset) == (8, "Boolean", 11) and fault_of(body) == (8, 11)


@pytest.mark.parametrize("data", [*vectors.MESSAGES, FLAGGED, *vectors.NO_MESSAGES], ids=lambda data: data.hex()[:60])
def test_hostile_messages_have_their_fault(data):
    for other in [*prefixes(data), *altered(data, 13)]:
        wanted = message_fault_of(other)
        assert fault_in(lughemra.check_message, other) == wanted, other.hex()
        got = fault_in(Message, other)
        assert got == wanted if wanted else isinstance(got, Message), other.hex()
        if not wanted:
            check_parts(got, other)


def check_parts(message, data):
    """Compares what a message holds with what the model says."""
    flags, body, sequences = text_model.message(data)
    assert message.flags == flags and message.header[1:3] == (text_model.number(data, 4), text_model.number(data, 8))
    assert len(message.body.raw) == body[0] and len(message.body) == len(body[1])
    assert [(it.identifier.encode(), [len(one.raw) for one in it.documents]) for it in message.sequences] == [
        (name, [length for length, _ in inside]) for name, inside in sequences
    ]


def test_messages_back_to_back():
    data = LEAST + PING + INSERT
    assert lughemra.check_messages(data) == 3 and lughemra.check_messages(b"") == 0
    with pytest.raises(MessageError) as caught:
        lughemra.check_messages(data[:-1])
    fault = caught.value
    assert (fault.number, fault.name, fault.offset, fault.whole, fault.bytes_read) == (14, "EndedInside", 77, 2, 77)


@pytest.mark.parametrize("limit", [-1, 48_000_001, 2**32, 2**64])
def test_a_limit_that_is_no_limit_is_refused(limit):
    for call in (lughemra.check_message, lughemra.check_messages, Message):
        with pytest.raises(ValueError, match="limit"):
            call(LEAST, limit)
    with pytest.raises(ValueError, match="limit"):
        Reader(limit)


def test_a_message_above_the_limit_is_refused():
    assert Message(PING, 51).body["ping"] == 1 and Message(PING, limit=lughemra.MAX_LIMIT).flags == 0
    for call in (lughemra.check_message, lughemra.check_messages, Message):
        assert fault_in(call, PING, 50) == (1, 0, None)
    reader = Reader(limit=50)
    reader.feed(PING[:16])
    assert fault_in(next, reader) == (1, 0, None)


# ---- in pieces


def read_in(pieces, **options):
    """Returns the messages that a reader gives of these pieces, and the fault or nothing."""
    reader, found = Reader(**options), []
    try:
        for piece in pieces:
            reader.feed(piece)
            for message in reader:
                found.append(message.raw)
        reader.end()
    except MessageError as fault:
        return found, told(fault)
    return found, None


STREAM = LEAST + PING + INSERT + FLAGGED + LEAST


@pytest.mark.parametrize("size", range(1, len(STREAM) + 2))
def test_pieces_of_each_size_give_the_same(size):
    pieces = [STREAM[at : at + size] for at in range(0, len(STREAM), size)]
    assert read_in(pieces) == ([LEAST, PING, INSERT, FLAGGED, LEAST], None)
    bad = PING + INSERT + vectors.with_flags(PING, "04000000") + LEAST
    pieces = [bad[at : at + size] for at in range(0, len(bad), size)]
    assert read_in(pieces) == ([PING, INSERT], (3, len(PING + INSERT) + 16, None))
    short = STREAM[:-1]
    pieces = [short[at : at + size] for at in range(0, len(short), size)]
    assert read_in(pieces) == ([LEAST, PING, INSERT, FLAGGED], (14, len(STREAM) - len(LEAST), None))


@pytest.mark.parametrize("make", [bytes, bytearray, memoryview])
def test_drawn_pieces_of_altered_streams_give_what_the_check_gives(make):
    draw = random.Random(5)
    for _ in range(2000):
        data = bytearray(STREAM)
        for _ in range(draw.randint(0, 2)):
            data[draw.randrange(len(data))] = draw.randrange(256)
        data = bytes(data[: draw.randint(0, len(data))])
        cuts = sorted(draw.randint(0, len(data)) for _ in range(draw.randint(0, 9)))
        pieces = [make(data[a:b]) for a, b in zip([0, *cuts], [*cuts, len(data)])]
        found, fault = read_in(pieces)
        try:
            assert (lughemra.check_messages(data), fault) == (len(found), None)
        except MessageError as wanted:
            assert (told(wanted), wanted.whole) == (fault, len(found))
            assert b"".join(found) == data[: wanted.bytes_read]


def test_a_reader_tells_how_many_bytes_it_wants():
    reader = Reader()
    assert reader.wanted == 16 and list(reader) == []
    reader.feed(PING[:10])
    assert reader.wanted == 6 and list(reader) == []
    reader.feed(PING[10:20])
    assert list(reader) == [] and reader.wanted == 31
    reader.feed(PING[20:] + LEAST[:2])
    assert reader.wanted == 0 and next(reader).body["ping"] == 1 and reader.wanted == 14
    with pytest.raises(StopIteration):
        next(reader)
    reader.feed(LEAST[2:])
    assert next(reader).raw == LEAST
    reader.end()


def test_messages_may_be_taken_after_the_end():
    reader = Reader()
    reader.feed(LEAST + PING + INSERT[:30])
    reader.end()
    assert next(reader).raw == LEAST
    reader.end()
    assert next(reader).raw == PING
    for call in (lambda: next(reader), reader.end, lambda: reader.feed(b"")):
        assert fault_in(call) == (14, len(LEAST + PING), None)
    reader = Reader()
    reader.feed(LEAST)
    reader.end()
    with pytest.raises(ValueError, match="behind the end"):
        reader.feed(LEAST)
    assert [message.raw for message in reader] == [LEAST] and list(reader) == []
    empty = Reader()
    empty.end()
    assert list(empty) == []


def test_a_fault_closes_a_reader_for_good():
    reader = Reader()
    reader.feed(LEAST + b"\0" * 16 + LEAST)
    assert next(reader).raw == LEAST
    for call in (lambda: next(reader), lambda: reader.feed(LEAST), lambda: list(reader), reader.end):
        assert fault_in(call) == (1, len(LEAST), None)
    assert reader.wanted == 0


def test_what_is_no_bytes_leaves_a_reader_as_it_was():
    reader = Reader()
    reader.feed(PING[:20])
    for wrong in ("text", 5, None):
        with pytest.raises(TypeError):
            reader.feed(wrong)
    reader.feed(PING[20:])
    assert next(reader).raw == PING


def test_a_piece_may_change_once_it_was_fed():
    piece, reader = bytearray(PING), Reader()
    reader.feed(piece)
    piece[:] = bytes(len(piece))
    assert next(reader).raw == PING


def test_bytes_that_changed_have_no_body():
    data = bytearray(lughemra.encode_message({"a": 1}))
    read = Message(data)
    data[20] = 7
    with pytest.raises(MessageError) as told:
        read.body
    assert told.value.name == "NoBody"
