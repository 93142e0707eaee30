"""Tests what `encode` and `encode_message` write: each kind by its row, documents in documents, messages by their layout, and what
isn't spelled."""

import array
import collections
import datetime
import enum
import re

import pytest
from rows import KINDS, document, document_of, element, scope, string

import lughemra
from lughemra import Document, DocumentError, EncodeError, Flags, Int64, Kind, Message, MessageError, encode, encode_message

WRITTEN = [row for row in KINDS if row[0] != Kind.CODE_WITH_SCOPE]


@pytest.mark.parametrize("kind, value, meant", WRITTEN)
def test_each_kind_is_written(kind, value, meant):
    assert encode({"v": meant}) == document_of(kind, value)


def test_documents_and_arrays_hold_each_other():
    meant = {"d": {"a": [{"n": None}, [True, []]]}, "": "no name", "é": {}}
    inner = element(0x04, "a", document(
        element(0x03, "0", document(element(0x0A, "n", b""))),
        element(0x04, "1", document(element(0x08, "0", b"\1"), element(0x04, "1", document()))),
    ))  # fmt: skip
    wanted = document(element(0x03, "d", document(inner)), element(0x02, "", string("no name")), element(0x03, "é", document()))
    assert encode(meant) == wanted


def test_a_document_that_was_read_is_written_again():
    data = encode({"a": [1, 2.5, {"b": b"\0"}], "c": "d"})
    assert encode(Document(data)) == data


# An int64 that is small, a name that stands twice, and an array whose one name is "x".
KEPT = [
    element(0x12, "n", (5).to_bytes(8, "little")),
    element(0x10, "n", (6).to_bytes(4, "little")),
    element(0x04, "a", document(element(0x12, "x", bytes(8)))),
]
SCOPED = element(0x0F, "c", scope("f", document()))


def test_a_document_gives_its_own_bytes():
    data = document(*KEPT, SCOPED)
    read = Document(document(element(0x03, "d", data)))["d"]
    assert encode(read) == encode(Document(data)) == data
    # A body has no name twice.
    body = document(KEPT[0], SCOPED)
    assert encode_message(Document(body), [("docs", [read])]) == message(body, sequence(b"docs", data))
    with pytest.raises(DocumentError) as fault:
        encode(Document(document(element(0x08, "b", b"\2"))))
    assert (fault.value.name, fault.value.offset) == ("Boolean", 4)


def test_a_document_inside_keeps_its_elements():
    inner = document(*KEPT[:2], element(0x04, "a", document(element(0x12, "0", bytes(8)))))
    assert encode({"d": Document(document(*KEPT))}) == document(element(0x03, "d", inner))
    array_ = Document(document(KEPT[2]))["a"]
    assert encode({"a": array_}) == document(element(0x04, "a", document(element(0x12, "0", bytes(8)))))
    with pytest.raises(EncodeError) as refused:
        encode({"d": Document(document(SCOPED))})
    assert refused.value.name == "BadValue"


@pytest.mark.parametrize("number_", [0, 5, -5, 2**40, 2**63 - 1, -(2**63)])
def test_an_int64_is_one_whatever_its_size(number_):
    assert encode({"v": Int64(number_)}) == document_of(Kind.INT64, number_.to_bytes(8, "little", signed=True).hex())
    assert Document(encode({"v": Int64(number_)}))["v"] == number_ == Int64(number_)


@pytest.mark.parametrize("value", [bytearray(b"ab"), memoryview(b"ab"), memoryview(b"a-b-")[::2], type("B", (bytes,), {})(b"ab")])
def test_bytes_of_each_type_are_binary_data(value):
    assert encode({"v": value}) == document_of(Kind.BINARY, "02000000" "00" "6162")


class Level(enum.IntEnum):
    HIGH = 7


Pair = collections.namedtuple("Pair", "x y")
SUBCLASSES = [
    (Level.HIGH, 7),
    (Kind.INT32, 16),
    (Flags.EXHAUST_ALLOWED | Flags.MORE_TO_COME, 0x10002),
    (type("Text", (str,), {})("é"), "é"),
    (type("Real", (float,), {})(0.5), 0.5),
    (type("Date", (datetime.datetime,), {})(2001, 2, 3), datetime.datetime(2001, 2, 3)),
    (Pair(1, 2), [1, 2]),
    (collections.deque([1]), [1]),
    (range(2), [0, 1]),
    (collections.OrderedDict(a=1), {"a": 1}),
]


@pytest.mark.parametrize("value, meant", SUBCLASSES)
def test_a_value_of_a_subclass_is_written_as_one_of_the_class(value, meant):
    assert encode({"v": value}) == encode({"v": meant})


def test_pymongos_own_types_are_refused():
    bson = pytest.importorskip("bson")
    for value in (bson.Int64(5), bson.Binary(b"a", 5), bson.Code("f"), bson.ObjectId(bytes(12))):
        with pytest.raises(TypeError):
            encode({"v": value})


def test_pymongos_mappings_are_documents():
    bson = pytest.importorskip("bson")
    raw_bson = pytest.importorskip("bson.raw_bson")
    for value in (bson.SON(a=1), raw_bson.RawBSONDocument(bson.encode({"a": 1}))):
        assert encode({"v": value}) == encode({"v": {"a": 1}})


@pytest.mark.parametrize("meant", [{1: 2}, {b"a": 1}, {None: 1}, {"a": {1: 2}}, None, [("a", 1)], 5, b"\5\0\0\0\0"])
def test_what_is_no_mapping_or_no_name_is_refused(meant):
    with pytest.raises(TypeError):
        encode(meant)


@pytest.mark.parametrize("given", [5, [5, 0, 0, 0, 0], None, "text"])
def test_what_lends_no_bytes_is_no_document(given):
    for call in (lambda: encode_message(given), lambda: encode_message({}, [("docs", [given])])):
        with pytest.raises(TypeError):
            call()


@pytest.mark.parametrize("count", [0, 1, 40, 5000])
def test_a_room_grows(count):
    data = encode({f"n{k}": k for k in range(count)})
    assert data == document(*(element(0x10, f"n{k}", k.to_bytes(4, "little")) for k in range(count)))


def test_a_date_without_a_zone_is_in_utc():
    assert encode({"v": datetime.datetime(1970, 1, 1)}) == document_of(Kind.DATETIME, "00" * 8)


def test_a_zone_that_tells_no_offset_is_none():
    zone = type("Zone", (datetime.tzinfo,), {"utcoffset": lambda self, when: None})()
    date = datetime.datetime(1970, 1, 1, tzinfo=zone)
    assert encode({"v": date}) == document_of(Kind.DATETIME, "00" * 8)


def deep(depth):
    return {"d": deep(depth - 1)} if depth > 1 else {}


REFUSED = [
    ({"a\0b": 1}, "BadName"),
    ({"a": {"\0": 1}}, "BadName"),
    ({"r": lughemra.Regex("a\0b")}, "BadValue"),
    ({"b": lughemra.Binary(b"", 256)}, "BadValue"),
    ({"b": lughemra.Binary(b"", 2**32)}, "BadValue"),
    ({"c": lughemra.Code("f", {})}, "BadValue"),
    (deep(201), "TooDeep"),
]


@pytest.mark.parametrize("meant, name", REFUSED)
def test_what_has_no_spelling_is_refused(meant, name):
    with pytest.raises(EncodeError) as refused:
        encode(meant)
    assert refused.value.name == name


REFUSALS = (EncodeError, DocumentError, TypeError, OverflowError, UnicodeEncodeError)
# What isn't written, and the notes that tell where it stands.
PLACES = [
    (lambda: encode({"a\0b": 1}), ["in the pair 'a\\x00b'"]),
    (lambda: encode({"a": [3, {"k": {1}}]}), ["in the pair 'k'", "in item 1", "in the pair 'a'"]),
    (lambda: encode({"b": [[2**63]]}), ["in item 0", "in item 0", "in the pair 'b'"]),
    (lambda: encode({"a": {5: 1}}), ["in the pair 'a'"]),
    (lambda: encode({"a": {"\ud800": 1}}), ["in the pair '\\ud800'", "in the pair 'a'"]),
    (lambda: encode({"d": [Document(document(SCOPED))]}),
     ["in the pair 'c'", "in item 0", "in the pair 'd'"]),
    (lambda: encode_message({"a": {1}}), ["in the pair 'a'"]),
    (lambda: encode_message({}, [("x", []), ("docs", [{}, {"n": {1}}])]),
     ["in the pair 'n'", "in document 1", "in the sequence 'docs'"]),
    (lambda: encode_message({}, [("d", [b"", {}])]), ["in document 0", "in the sequence 'd'"]),
    (lambda: encode_message({}, [("a\0b", [])]), ["in the sequence 'a\\x00b'"]),
]  # fmt: skip


@pytest.mark.parametrize("call, notes", PLACES)
def test_notes_tell_where_what_is_refused_stands(call, notes):
    with pytest.raises(REFUSALS) as told:
        call()
    assert told.value.__notes__ == notes


NO_ROOM = [
    2**63,
    Int64(2**63),
    Int64(-(2**63) - 1),
    lughemra.DatetimeMS(2**63),
    lughemra.DatetimeMS(-(2**63) - 1),
    lughemra.Timestamp(2**32, 0),
    lughemra.Timestamp(4, 2**32),
    lughemra.Timestamp(5, -1),
]


@pytest.mark.parametrize("value", NO_ROOM)
def test_a_number_that_has_no_room_is_refused(value):
    with pytest.raises(OverflowError):
        encode({"n": value})


NO_VALUES = [
    {1, 2},
    array.array("i", [1]),
    object(),
    int,
    collections.UserString("text"),
    lughemra.Binary("text", 5),
    lughemra.Binary(b"", "5"),
    lughemra.Binary(b"", 5.0),
    lughemra.Regex("a", re.IGNORECASE),
    lughemra.Regex(b"a"),
    lughemra.Code(b"f"),
    lughemra.Symbol(1),
    lughemra.DBPointer("ns", bytes(12)),
    lughemra.DBPointer(b"ns", lughemra.ObjectId(bytes(12))),
    lughemra.Timestamp("5", 0),
    lughemra.Timestamp(5, 0.0),
    lughemra.DatetimeMS("5"),
]


@pytest.mark.parametrize("value", NO_VALUES)
def test_what_is_no_value_is_refused(value):
    with pytest.raises(TypeError):
        encode({"v": value})


@pytest.mark.parametrize("data", ["0102030405060708090a0b0c", "abcdefghijkl", b"short", bytes(13), bytearray(12), 5, None])
def test_an_object_id_is_of_12_bytes(data):
    with pytest.raises(TypeError, match="fromhex"):
        lughemra.ObjectId(data)


@pytest.mark.parametrize("data", ["1.5", "abcdefghijklmnop", b"short", bytes(17), bytearray(16), 5, None])
def test_a_decimal_is_of_16_bytes(data):
    with pytest.raises(TypeError, match="fromhex"):
        lughemra.Decimal128(data)


@pytest.mark.parametrize("identifier", [b"docs", None, 5])
def test_an_identifier_is_a_text(identifier):
    with pytest.raises(TypeError):
        encode_message({}, [(identifier, [])])


def test_data_may_be_any_bytes():
    assert encode({"b": lughemra.Binary(bytearray(b"ab"), 5)}) == encode({"b": lughemra.Binary(b"ab", 5)})


def test_what_nests_200_deep_is_written():
    assert Document(encode(deep(200))).to_dict() == deep(200)


def number(value):
    return value.to_bytes(4, "little", signed=True)


def message(body, sequences=b"", request_id=0, response_to=0, flags=0):
    """Spells a message: header, flagBits, the body, and sections of kind 1."""
    sections = b"\0" + body + sequences
    return b"".join(map(number, (20 + len(sections), request_id, response_to, 2013, flags))) + sections


def sequence(identifier, *documents):
    """Spells a section of kind 1."""
    content = identifier + b"\0" + b"".join(documents)
    return b"\1" + number(4 + len(content)) + content


def test_a_message_is_laid_out_as_the_manual_says():
    one, two = document(element(0x10, "n", number(1))), document()
    assert encode_message({}) == message(document())
    numbers = {"request_id": -2, "response_to": 2**31 - 1, "flags": Flags.MORE_TO_COME | Flags.EXHAUST_ALLOWED}
    wanted = message(one, sequence(b"a", one, two) + sequence(b""), -2, 2**31 - 1, 0x10002)
    assert encode_message({"n": 1}, [("a", [{"n": 1}, two]), ("", [])], **numbers) == wanted
    assert encode_message(one, [("a", [one, Document(two)]), ("", ())], **numbers) == wanted


def test_a_message_that_was_read_is_written_again():
    data = encode_message({"insert": "c"}, [("documents", [{"n": k} for k in range(300)])], request_id=5)
    read = Message(data)
    assert encode_message(read.body, read.sequences, request_id=read.header.request_id, flags=read.flags) == data


def test_what_no_message_carries_is_refused():
    with pytest.raises(MessageError) as refused:
        encode_message(b"\5\0\0\0")
    assert (refused.value.name, refused.value.offset, refused.value.document.name) == ("Document", 21, "Length")
    with pytest.raises(MessageError) as refused:
        encode_message(document(element(0x0A, "a", b""), element(0x0A, "a", b"")))
    assert (refused.value.name, refused.value.offset) == ("RepeatedField", 20)
    with pytest.raises(MessageError) as refused:
        encode_message({"docs": None}, [("docs", [])])
    assert (refused.value.name, refused.value.offset) == ("SequenceInBody", 21 + len(encode({"docs": None})))
    for bits in (1, 4, 1 << 17, 1 << 31, 1 << 32, -1):
        with pytest.raises(MessageError) as refused:
            encode_message({}, flags=bits)
        assert (refused.value.name, refused.value.offset) == ("Flags", 16)
    with pytest.raises(DocumentError):
        encode_message({}, [("docs", [b"\5\0\0\0\1"])])
    with pytest.raises(EncodeError) as unnamed:
        encode_message({}, [("a\0b", [])])
    assert unnamed.value.name == "BadName"


def test_a_message_keeps_its_limit():
    assert len(encode_message({}, limit=26)) == 26
    with pytest.raises(EncodeError) as refused:
        encode_message({}, limit=25)
    assert refused.value.name == "TooLarge"
    for arguments in ({"limit": lughemra.MAX_LIMIT + 1}, {"limit": -1}):
        with pytest.raises(ValueError):
            encode_message({}, **arguments)
    for arguments in ({"request_id": 2**31}, {"response_to": -(2**31) - 1}):
        with pytest.raises(OverflowError):
            encode_message({}, **arguments)
