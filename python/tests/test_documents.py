"""Reads each kind of value, alone, in documents and in arrays, and what a mapping and a sequence do."""

import copy
import datetime
import decimal
import math
import os
import pathlib
import pickle
import pickletools
import random
import shutil
import subprocess
import sys
import weakref

import pytest
from rows import DOCUMENTS, ID, KINDS, ROOT, document, document_of, element, string, text_model, vectors

import lughemra
from lughemra import Document, Kind, _library, _makers, whole
from lughemra.leaves import EPOCH


@pytest.mark.parametrize("kind, value, wanted", KINDS)
def test_each_kind_is_read(kind, value, wanted):
    read = Document(document_of(kind, value))
    for got in (read["v"], read.get("v"), *read.values(), *(value for _, value in read.items()), read.to_dict()["v"]):
        assert got == wanted
        assert repr(got) == repr(wanted) or isinstance(got, (Document, lughemra.Array, lughemra.Code))
    assert read.kind("v") is kind
    assert list(read.elements()) == [("v", kind, wanted)]
    assert list(read) == ["v"] and len(read) == 1 and "v" in read and read


@pytest.mark.parametrize("kind, value, wanted", KINDS)
def test_each_kind_is_read_inside_of_others(kind, value, wanted):
    one = bytes.fromhex(value)
    array = document(element(0x10, "0", b"\7\0\0\0"), element(kind, "1", one))
    read = Document(document(element(0x04, "a", array), element(0x03, "d", document(element(kind, "v", one)))))
    assert read["d"]["v"] == wanted and read["d"].kind("v") is kind
    assert read["a"][1] == wanted and read["a"][-1] == wanted and list(read["a"]) == [7, wanted] and read["a"] == [7, wanted]
    assert read.to_dict() == {"a": [7, wanted], "d": {"v": wanted}} == read
    assert type(read.to_dict()["d"]) is dict and type(read.to_dict()["a"]) is list


def test_nan_keeps_its_payload():
    read = Document(document_of(Kind.DOUBLE, "010000000000f07f"))
    assert math.isnan(read["v"]) and math.isnan(read.to_dict()["v"])


def test_a_document_with_a_nan_is_equal_to_none():
    read = Document(document_of(Kind.DOUBLE, "000000000000f87f"))
    assert read != read and read != Document(read.raw) and read != read.to_dict()


def test_what_is_read_may_be_referred_to_weakly():
    read = Document(document(element(0x04, "a", document())))
    array = read["a"]
    assert weakref.ref(read)() is read and weakref.ref(array)() is array


def test_a_mapping_finds_what_is_there_and_nothing_else():
    read = Document(document(element(0x10, "ab", b"\1\0\0\0"), element(0x0A, "é", b""), element(0x08, "", b"\1")))
    assert (read["ab"], read["é"], read[""]) == (1, None, True)
    for name in ("a", "abc", "ab\0", "b", "e", "\ud800", 1, None, b"ab"):
        assert name not in read and read.get(name, "other") == "other"
        with pytest.raises(KeyError):
            read[name]
        with pytest.raises(KeyError):
            read.kind(name)
    assert list(read) == list(read.keys()) == ["ab", "é", ""] and len(read) == 3
    assert dict(read) == {**read} == read.to_dict() == read
    assert read != {"ab": 1} and read != 5
    assert ("ab", 1) in read.items() and None in read.values() and len(read.items()) == 3
    assert not Document(b"\5\0\0\0\0") and len(Document(b"\5\0\0\0\0")) == 0
    with pytest.raises(TypeError):
        hash(read)


def test_of_a_repeated_name_the_first_counts():
    read = Document(document(element(0x10, "x", b"\1\0\0\0"), element(0x02, "x", string("2")), element(0x0A, "y", b"")))
    assert read["x"] == 1 and read.kind("x") is Kind.INT32
    assert list(read) == ["x", "y"] and len(read) == 2 and list(read.values()) == [1, None]
    assert list(read.items()) == [("x", 1), ("y", None)]
    assert read.to_dict() == dict(read) == {"x": 1, "y": None} and list(read.to_dict()) == ["x", "y"]
    assert [(it.name, it.value) for it in read.elements()] == [("x", 1), ("x", "2"), ("y", None)]


def test_an_array_is_a_sequence_whatever_its_names():
    numbers = [element(0x10, name, bytes([k, 0, 0, 0])) for k, name in enumerate(["x", "x", "0", "1000", ""])]
    array = Document(document(element(0x04, "a", document(*numbers))))["a"]
    assert list(array) == array.to_list() == [0, 1, 2, 3, 4] == array and len(array) == 5 and array
    assert [array[k] for k in range(-5, 5)] == [0, 1, 2, 3, 4] * 2
    assert array[1:4] == [1, 2, 3] and array[::-2] == [4, 2, 0] and array[9:] == []
    assert list(reversed(array)) == [4, 3, 2, 1, 0] and array.index(3) == 3 and array.count(4) == 1 and 2 in array
    assert [it.name for it in array.elements()] == ["x", "x", "0", "1000", ""]
    assert array != [0, 1, 2, 3] and array != (0, 1, 2, 3, 4) and array != "01234"
    for index in (5, -6):
        with pytest.raises(IndexError):
            array[index]
    assert not Document(document(element(0x04, "a", document())))["a"]


@pytest.mark.parametrize("data", DOCUMENTS)
def test_texts_are_those_of_the_model(data):
    length, found = text_model.front(data)
    lines = [b"document %d" % length, *text_model.element_lines(found, 1), b""]
    assert Document(data).text() == b"\n".join(lines).decode()
    assert Document(data).json() == text_model.document_json(found, False).decode()
    assert Document(data).json(relaxed=True) == text_model.document_json(found, True).decode()
    assert lughemra.is_canonical(data) == (text_model.canonical(found) == data)
    assert Document(data).canonical().raw == text_model.canonical(found)
    assert Document(data).raw == data


BASE64 = document(element(0x02, "base64", string("AA==")), element(0x02, "subType", string("00")))
NAMES_OF_FORMS = [
    document(element(0x03, "d", document(element(0x02, "$oid", string("000102030405060708090a0b"))))),
    document(element(0x02, "$oid", string("no digits")), element(0x07, "id", ID)),
    document(element(0x03, "d", document(element(0x02, "$date", string("2024-05-06T07:08:09Z"))))),
    document(element(0x03, "d", document(element(0x03, "$binary", BASE64)))),
    document(element(0x03, "d", document(element(0x02, "$numberDouble", string("NaN"))))),
    document(element(0x03, "d", document(element(0x10, "$set", b"\1\0\0\0"), element(0x07, "$oid", ID)))),
    document(element(0x02, "text", string("$oid")), element(0x07, "id", ID), element(0x10, "n", b"$\0\0\0")),
]


@pytest.mark.parametrize("data", [*DOCUMENTS, *NAMES_OF_FORMS])
def test_a_dict_by_a_pickle_is_that_of_a_walk(data):
    read = Document(data)
    assert repr(whole.dict_of(read)) == repr(whole.first_of(whole.walked(read)))


LONG_TEXTS = ["x" * length for length in (0, 255, 256, 65536)] + ["é" * 128]


@pytest.mark.parametrize("text", LONG_TEXTS, ids=[str(len(text)) for text in LONG_TEXTS])
def test_texts_names_and_data_of_any_length_stand_in_pickles(text):
    data = text.encode()
    read = Document(document(element(0x02, text, string(text)), element(0x05, "b", len(data).to_bytes(4, "little") + b"\0" + data)))
    assert whole.dict_of(read) == {text: text, "b": data}


def test_documents_with_the_names_of_forms_stay_documents():
    read = [Document(data).to_dict() for data in NAMES_OF_FORMS]
    assert read == [
        {"d": {"$oid": "000102030405060708090a0b"}},
        {"$oid": "no digits", "id": lughemra.ObjectId(ID)},
        {"d": {"$date": "2024-05-06T07:08:09Z"}},
        {"d": {"$binary": {"base64": "AA==", "subType": "00"}}},
        {"d": {"$numberDouble": "NaN"}},
        {"d": {"$set": 1, "$oid": lughemra.ObjectId(ID)}},
        {"text": "$oid", "id": lughemra.ObjectId(ID), "n": 36},
    ]


# One name twice: at the top, inside a document, an array and a scope, and around documents; and where it isn't twice in one document.
ONE, TWO = element(0x10, "n", b"\1\0\0\0"), element(0x10, "n", b"\2\0\0\0")
SCOPE = string("f") + document(ONE, TWO)
NAMES_TWICE = [
    (document(ONE, TWO), {"n": 1}, True),
    (document(element(0x03, "d", document(ONE, TWO))), {"d": {"n": 1}}, True),
    (document(element(0x04, "a", document(element(0x03, "0", document(ONE, TWO))))), {"a": [{"n": 1}]}, True),
    (document(element(0x0F, "c", (len(SCOPE) + 4).to_bytes(4, "little") + SCOPE)), {"c": lughemra.Code("f", {"n": 1})}, True),
    (document(element(0x03, "d", document(ONE)), element(0x03, "d", document(TWO))), {"d": {"n": 1}}, True),
    (document(element(0x04, "a", document(element(0x0A, "0", b""), element(0x08, "0", b"\1")))), {"a": [None, True]}, False),
    (document(element(0x03, "d", document(ONE)), element(0x03, "e", document(TWO))), {"d": {"n": 1}, "e": {"n": 2}}, False),
]


@pytest.mark.parametrize("data, wanted, twice", NAMES_TWICE)
def test_the_first_element_with_a_name_counts_at_all_depths(data, wanted, twice):
    assert Document(data).to_dict() == wanted
    assert (whole.dict_of(Document(data)) is None) == twice


OPCODES = {
    "PROTO", "EMPTY_LIST", "BINPUT", "POP", "EMPTY_DICT", "MARK", "SHORT_BINUNICODE", "BINUNICODE8", "SHORT_BINBYTES", "BINBYTES8", "BINFLOAT", "BININT", "BININT1", "LONG1",
    "NEWTRUE", "NEWFALSE", "NONE", "EXT4", "TUPLE1", "TUPLE", "REDUCE", "BINGET", "APPEND", "APPENDS", "SETITEMS", "TUPLE3", "STOP",
}  # fmt: skip
# Texts and data that are pickles themselves.
PICKLE = b"cposix\nsystem\n(Vexit\ntR."
HOSTILE = document(
    element(0x02, PICKLE.decode(), string(PICKLE.decode())),
    element(0x05, "", len(PICKLE).to_bytes(4, "little") + b"\0" + PICKLE),
    element(0x07, "id", PICKLE[:12]),
)


@pytest.mark.parametrize("data", [*DOCUMENTS, *NAMES_OF_FORMS, *(data for data, _, _ in NAMES_TWICE), HOSTILE])
def test_a_pickle_has_the_opcodes_of_values_alone(data):
    pickled = Document(data)._written("pickle")
    opcodes = [(opcode.name, argument) for opcode, argument, _ in pickletools.genops(pickled)]
    assert {name for name, _ in opcodes} <= OPCODES
    assert {argument - _makers.NUMBER for name, argument in opcodes if name == "EXT4"} <= set(_makers.MAKERS)
    assert [argument for name, argument in opcodes if name == "PROTO"] == [4]
    assert repr(Document(data).to_dict()) == repr(whole.first_of(whole.walked(Document(data))))


def test_another_copy_of_the_module_reads_by_walks(monkeypatch):
    monkeypatch.setattr(whole, "REGISTERED", False)
    monkeypatch.setattr(pickle, "loads", None)
    for data in (*DOCUMENTS, *NAMES_OF_FORMS):
        assert repr(Document(data).to_dict()) == repr(whole.first_of(whole.walked(Document(data))))
    assert [Document(data).to_dict() for data, _, _ in NAMES_TWICE] == [wanted for _, wanted, _ in NAMES_TWICE]
    with pytest.raises(lughemra.DocumentError):
        Document(document(element(0x08, "t", b"\2"))).to_dict()


ONE_ID = document(element(0x07, "id", ID)).hex()
# Each program writes the modules of the types that two copies of this module read.
COPIES = {
    "under two names": "import lughemra, vendored; modules = [lughemra, vendored]",
    "imported again": (
        "import sys, lughemra; modules = [lughemra]\n"
        "for name in [name for name in sys.modules if name.split('.')[0] == 'lughemra']: del sys.modules[name]\n"
        "import lughemra; modules.append(lughemra)"
    ),
}


@pytest.mark.parametrize("copies", COPIES.values(), ids=COPIES)
def test_each_copy_of_the_module_reads_its_own_types(copies, tmp_path):
    shutil.copytree(pathlib.Path(lughemra.__file__).parent, tmp_path / "vendored")
    program = (
        f"{copies}; data = bytes.fromhex('{ONE_ID}')\n"
        "print(*(type(module.Document(data).to_dict()['id']) is module.ObjectId for module in modules))"
    )
    assert printed_by(program, PYTHONPATH=str(tmp_path)) == "True True\n"


def test_dates_know_no_leap_seconds():
    if not pathlib.Path("/usr/share/zoneinfo/right/UTC").exists():
        pytest.skip("no zone with leap seconds is here")
    data = document(element(0x09, "t", (1700000000000).to_bytes(8, "little")))
    program = f"import lughemra; read = lughemra.Document(bytes.fromhex('{data.hex()}')); print(read['t'], read.to_dict()['t'])"
    assert printed_by(program, TZ="right/UTC") == "2023-11-14 22:13:20+00:00 2023-11-14 22:13:20+00:00\n"


def printed_by(program, PYTHONPATH="", **variables):
    """Returns what a program of Python prints that may import this module."""
    paths = os.pathsep.join([str(pathlib.Path(lughemra.__file__).parents[1]), PYTHONPATH])
    environment = {**os.environ, "PYTHONPATH": paths, "LUGHEMRA_LIBRARY": _library.PATH, **variables}
    return subprocess.run([sys.executable, "-c", program], env=environment, capture_output=True, text=True, check=True).stdout


def test_dates_are_those_of_their_milliseconds():
    ends = [0, 1000 << 32, 253402300800000, -62135596800000, 1 << 63, -1 << 63]
    near = [end + off for end in ends for off in range(-3, 4) if -1 << 63 <= end + off < 1 << 63]
    some = random.Random(1)
    for milliseconds in [*near, *(some.randrange(1000 << 32) for _ in range(20000))]:
        try:
            wanted = EPOCH + datetime.timedelta(milliseconds=milliseconds)
        except OverflowError:
            wanted = lughemra.DatetimeMS(milliseconds)
        assert Document(document(element(0x09, "t", milliseconds.to_bytes(8, "little", signed=True)))).to_dict() == {"t": wanted}


def test_a_text_of_any_length_has_room():
    data = document(*(element(0x10, "", b"\1\0\0\0") for _ in range(2000)))
    assert Document(data).json() == '{"":{"$numberInt":"1"}' + ',"":{"$numberInt":"1"}' * 1999 + "}"


def test_inner_documents_are_read_as_outer_ones_are():
    inner = document(element(0x02, "s", string("x")), element(0x04, "a", document(element(0x0A, "0", b""))))
    read = Document(document(element(0x08, "t", b"\1"), element(0x03, "d", inner)))["d"]
    alone = Document(inner)
    assert read == alone and read.raw == inner and read["a"].raw == alone["a"].raw
    assert (read.text(), read.json(), read.to_dict()) == (alone.text(), alone.json(), alone.to_dict())
    read.check()


@pytest.mark.parametrize("make", [bytes, bytearray, memoryview, lambda b: memoryview(bytearray(b"xy" + b))[2:]])
@pytest.mark.parametrize("data", DOCUMENTS)
def test_any_bytes_like_object_is_read_alike(make, data):
    read, plain = Document(make(data)), Document(data)
    assert repr(read.to_dict()) == repr(plain.to_dict()) and read.raw == plain.raw and read.json() == plain.json()
    assert [name for name in read] == [name for name in plain]
    lughemra.check(make(data))
    assert lughemra.check_documents(make(data)) == 1


def test_bytes_that_are_read_stay_where_they_are():
    held = bytearray(document(element(0x10, "x", b"\1\0\0\0")))
    read = Document(held)
    with pytest.raises(BufferError):
        held.clear()
    held[7] = 2
    assert read["x"] == 2
    del read
    walk = lughemra.documents(held)
    with pytest.raises(BufferError):
        held.clear()
    del walk
    held.clear()


@pytest.mark.parametrize("wrong", ["text", 5, None, [1], memoryview(bytes(20))[::2]])
def test_what_is_no_bytes_is_refused(wrong):
    checks = lughemra.check, lughemra.is_canonical, lughemra.check_documents
    for call in (Document, *checks, lughemra.documents, lughemra.Message):
        with pytest.raises((TypeError, BufferError)):
            call(wrong)


def test_documents_back_to_back():
    data = b"".join(DOCUMENTS)
    assert [it.raw for it in lughemra.documents(data)] == DOCUMENTS
    assert [it.to_dict() for it in lughemra.documents(memoryview(data))][1:5] == [Document(it).to_dict() for it in DOCUMENTS[1:5]]
    assert lughemra.check_documents(data) == len(DOCUMENTS)
    assert list(lughemra.documents(b"")) == [] and lughemra.check_documents(b"") == 0


def test_a_walk_counts_what_is_there():
    inner = document(element(0x02, "s", string("text")))
    data = document(element(0x03, "doc", inner), element(0x05, "b", bytes.fromhex("0600000002" "02000000aabb")))
    assert lughemra.walk_documents(data + data) == (2, 2 * len(data), 6, 2 * (3 + 1 + 4 + 1 + 2))


DECIMALS = [
    ("00000000000000000000000000004030", "0"),
    ("0f000000000000000000000000003e30", "1.5"),
    ("0f000000000000000000000000003eb0", "-1.5"),
    ("01000000000000000000000000008030", "1E+32"),
    ("000000000000000000000000000000f8", "-Infinity"),
    ("0000000000000000000000000000007c", "NaN"),
    ("ffffffff638e8d37c087adbe09edff5f", "9.999999999999999999999999999999999E+6144"),
    ("01000000000000000000000000000000", "1E-6176"),
]


@pytest.mark.parametrize("data, text", DECIMALS)
def test_decimals(data, text):
    number = lughemra.Decimal128(bytes.fromhex(data))
    assert str(number) == text
    wanted, got = decimal.Decimal(text), number.to_decimal()
    assert got.as_tuple() == wanted.as_tuple()


def test_small_types_are_values():
    assert str(lughemra.ObjectId(ID)) == "000102030405060708090a0b"
    assert lughemra.ObjectId(ID) == lughemra.ObjectId(ID) and len({lughemra.ObjectId(ID), lughemra.ObjectId(ID)}) == 1
    assert lughemra.Timestamp(1, 9) < lughemra.Timestamp(2, 0) < lughemra.Timestamp(2, 1)
    assert lughemra.MinKey() == lughemra.MinKey() != lughemra.MaxKey()
    with pytest.raises(AttributeError):
        lughemra.Regex("a").pattern = "b"
    assert copy.copy(lughemra.Binary(b"x", 4)) == lughemra.Binary(b"x", 4)


@pytest.mark.parametrize("again", [copy.copy, copy.deepcopy, lambda it: pickle.loads(pickle.dumps(it))])
def test_what_is_read_is_copied_and_pickled(again):
    array = document(element(0x10, "0", b"\7\0\0\0"))
    read = Document(bytearray(document(element(0x03, "d", document(element(0x04, "a", array))))))
    inner = again(read["d"])
    assert type(inner) is Document and inner == {"a": [7]} and inner.raw == read["d"].raw
    assert type(again(inner["a"])) is lughemra.Array and again(inner["a"]) == [7]
    assert again(lughemra.Message(vectors.PING)).body == {"ping": 1, "$db": "admin"}


def test_what_is_printed():
    hello = document(element(0x02, "hello", string("world")))
    assert repr(Document(hello)) == 'Document({"hello":"world"})'
    assert repr(Document(bytes.fromhex("0900000008620002" "00"))) == "Document(9 bytes, Boolean at 4)"
    assert len(repr(Document(document(element(0x02, "s", string("x" * 1000)))))) < 250
    assert repr(Document(document(element(0x04, "a", document())))["a"]) == "Array(5 bytes)"


def test_depths_up_to_200():
    data = document()
    for _ in range(199):
        data = document(element(0x03, "a", data))
    assert Document(data).json().count("{") == 200
    inner, depth = Document(data), 1
    while inner:
        inner, depth = inner["a"], depth + 1
    assert depth == 200 and str(Document(data).to_dict()).count("{") == 200
    deeper = document(element(0x03, "a", data))
    with pytest.raises(lughemra.DocumentError, match="Depth at 1397"):
        Document(deeper).to_dict()


def test_what_stands_deep_is_read_alone():
    data = document(element(0x11, "t", bytes(8)), element(0x04, "l", document(element(0x11, "0", bytes(8)))))
    for _ in range(259):
        data = document(element(0x03, "a", data))
    inner = Document(data)
    for _ in range(150):
        inner = inner["a"]
    inner.check()
    told = inner.to_dict()
    for _ in range(109):
        told = told["a"]
    assert told["l"] == [told["t"]]


def test_the_module_tells_the_version_of_the_repository():
    assert f"\n## {lughemra.__version__}\n" in (ROOT / "CHANGELOG.md").read_text(encoding="utf-8")
