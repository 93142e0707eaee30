"""Reads hostile bytes: each beginning of documents, and each byte of them with other values."""

import copy
import gc
import pickle
import weakref

import pytest
from rows import DOCUMENTS, NESTED, altered, document, element, fault_of, prefixes, string, vectors

import lughemra
from lughemra import Document, DocumentError

# Bytes, and the fault that the order of the checks gives.
FAULTS = [
    ("", 1, "Truncated", 0),
    ("050000", 1, "Truncated", 0),
    ("04000000", 2, "Length", 0),
    ("0600000000", 2, "Length", 0),
    ("050000000000", 2, "Length", 0),
    ("ffffff7f00", 2, "Length", 0),
    ("0500000001", 3, "End", 0),
    ("06000000" "00" "00", 3, "End", 0),
    ("08000000" "14" "7600" "00", 4, "Kind", 4),
    ("0b000000" "0a" "7600" "14" "7700" "00", 4, "Kind", 7),
    ("08000000" "0a" "ff00" "00", 5, "Name", 4),
    ("07000000" "0a" "76" "00", 1, "Truncated", 4),
    ("0f000000" "02" "6100" "03000000" "c328" "00" "00", 6, "Text", 4),
    ("0e000000" "02" "6100" "02000000" "7878" "00", 7, "TextEnd", 4),
    ("0c000000" "02" "6100" "00000000" "00", 2, "Length", 4),
    ("0d000000" "03" "6100" "04000000" "00" "00", 2, "Length", 7),
    ("0d000000" "03" "6100" "05000000" "01" "00", 3, "End", 7),
    ("09000000" "08" "7400" "02" "00", 8, "Boolean", 4),
    ("11000000" "03" "6100" "09000000" "08" "7400" "02" "00" "00", 8, "Boolean", 11),
    ("13000000" "05" "6200" "06000000" "02" "03000000" "aabb" "00", 9, "OldBinary", 4),
    ("17000000" "0f" "6300" "0e000000" "02000000" "7800" "0500000000" "00", 10, "Scope", 4),
]


def told(fault):
    return fault.number, fault.offset


def fault_in(call, *arguments):
    """Returns the fault that a call raises, or what it returns."""
    try:
        return call(*arguments)
    except DocumentError as fault:
        return told(fault)


@pytest.mark.parametrize("data, number, name, offset", FAULTS)
def test_a_fault_has_its_number_its_name_and_its_offset(data, number, name, offset):
    data = bytes.fromhex(data)
    assert fault_of(data) == (number, offset)
    for call in (lughemra.check, lambda b: Document(b).to_dict(), lambda b: Document(b).json(), lambda b: Document(b).text()):
        with pytest.raises(DocumentError) as caught:
            call(data)
        fault = caught.value
        assert (fault.number, fault.name, fault.offset, str(fault)) == (number, name, offset, f"{name} at {offset}")
        assert isinstance(fault, ValueError) and isinstance(fault, lughemra.Fault)
        again = pickle.loads(pickle.dumps(fault))
        assert (type(again), again.number, again.offset) == (DocumentError, number, offset)
    assert not lughemra.is_canonical(data)


def test_a_fault_is_met_where_it_stands():
    data = document(element(0x10, "a", b"\1\0\0\0"), element(0x08, "b", b"\2"), element(0x0A, "c", b""))
    read = Document(data)
    assert read["a"] == 1 and "a" in read and read.kind("a") is lughemra.Kind.INT32
    walk = iter(read)
    assert next(walk) == "a"
    lookups = (lambda: read["b"], lambda: read["c"], lambda: "c" in read, lambda: read.kind("c"))
    for call in (*lookups, lambda: next(walk), lambda: len(read), read.to_dict, read.check):
        with pytest.raises(DocumentError, match="Boolean at 11"):
            call()


def test_a_text_that_is_no_utf8_is_told_where_it_is_read():
    bad = element(0x02, "s", (3).to_bytes(4, "little") + b"\xc3\x28\0")
    data = document(element(0x0A, "n", b""), bad, element(0x03, "d", document(bad)), element(0x04, "a", document(bad)))
    read = Document(data)
    assert read["n"] is None and "s" in read and list(read) == ["n", "s", "d", "a"] and read.kind("s") is lughemra.Kind.STRING
    for call, offset in [
        (lambda: read["s"], 7),
        (lambda: read["d"]["s"], 24),
        (lambda: list(read["d"].values()), 24),
        (lambda: read["d"].to_dict(), 24),
        (lambda: read["d"].json(), 24),
        (lambda: read["d"].check(), 24),
        (lambda: read["a"][0], 42),
        (lambda: list(read["a"]), 42),
        (lambda: read["a"].to_list(), 42),
        (lambda: list(read.elements()), 7),
        (read.to_dict, 7),
    ]:
        assert fault_in(call) == (6, offset)


def test_of_two_faults_in_a_string_the_first_is_told():
    data = document(element(0x02, "s", (2).to_bytes(4, "little") + b"\xff\1"))
    read = Document(data)
    for call in (read.to_dict, lambda: lughemra.check(data), lambda: read["s"], lambda: list(read.values())):
        assert fault_in(call) == fault_of(data) == (6, 4)


def read_all(data):
    """Reads a document in each way, of which each gives values or raises a fault. Returns what `to_dict` gave."""
    read = Document(data)
    walks = (lambda: list(read.items()), lambda: list(read.elements()), lambda: len(read))
    for call in (*walks, read.json, read.text, lambda: repr(read)):
        fault_in(call)
    return read.to_dict()


def compare(data):
    """Compares what is told of some bytes with what the model tells."""
    wanted = fault_of(data)
    assert fault_in(lughemra.check, data) == wanted, data.hex()
    got = fault_in(read_all, data)
    assert got == wanted if wanted else isinstance(got, dict), data.hex()


@pytest.mark.parametrize("data", [*DOCUMENTS, *vectors.NO_DOCUMENTS], ids=lambda data: data.hex()[:24])
def test_each_beginning_has_its_fault(data):
    for cut in prefixes(data):
        compare(cut)
        fitted = len(cut).to_bytes(4, "little") + cut[4:]
        compare(fitted)
        compare(fitted[:-1] + b"\0")


@pytest.mark.parametrize("data", [*DOCUMENTS, *vectors.NO_DOCUMENTS], ids=lambda data: data.hex()[:24])
def test_altered_bytes_have_their_fault(data):
    for other in altered(data, 3 if len(data) < 30 else 41):
        compare(other)


def test_inner_faults_have_offsets_in_what_was_handed_in():
    data = document(element(0x0A, "n", b""), element(0x03, "d", document(element(0x08, "t", b"\2"))))
    inner = Document(data)["d"]
    for call in (lambda: inner["t"], inner.check, inner.to_dict, inner.json, inner.text):
        assert fault_in(call) == (8, 14)


def test_documents_back_to_back_tell_how_many_are_whole():
    good, bad = document(element(0x02, "s", string("x"))), bytes.fromhex("090000000874000200")
    with pytest.raises(DocumentError) as caught:
        lughemra.check_documents(good + good + bad + good)
    fault = caught.value
    assert (fault.number, fault.offset, fault.whole, fault.bytes_read) == (8, 2 * len(good) + 4, 2, 2 * len(good))
    with pytest.raises(DocumentError) as caught:
        lughemra.walk_documents(good + bad)
    assert (caught.value.whole, caught.value.bytes_read, caught.value.offset) == (1, len(good), len(good) + 4)
    for rest, wanted in [(b"\5", (1, 0)), (b"\6\0\0\0\0", (1, 0)), (b"\4\0\0\0", (2, 0)), (b"\5\0\0\0\1", (3, 0))]:
        walk = lughemra.documents(good + rest)
        assert next(walk).raw == good
        with pytest.raises(DocumentError) as caught:
            next(walk)
        fault = caught.value
        assert (fault.number, fault.offset, fault.whole, fault.bytes_read) == (wanted[0], len(good) + wanted[1], 1, len(good))


@pytest.mark.parametrize("data", [b"\6\0\0\0\0", b"\5\0\0\0\1"])
def test_a_fault_of_bytes_that_are_whole_meanwhile_is_one_of_their_length(monkeypatch, data):
    good = document()
    monkeypatch.setattr(lughemra.checks, "check_documents", lambda data: 1)
    walk = lughemra.documents(good + data)
    assert next(walk) == {}
    assert fault_in(next, walk) == (2, len(good))


@pytest.mark.parametrize("raised", [lughemra.ClientClosed, lughemra.ServerClosed])
def test_why_an_end_was_closed_is_no_error_of_the_system(raised):
    inside = lughemra.MessageError(7, 21, document=DocumentError(3, 0))
    for told in (raised(1, None, inside), raised(2, 9), raised(4), raised(5)):
        for it in (told, pickle.loads(pickle.dumps(told)), copy.copy(told)):
            assert isinstance(it, ConnectionError) and (it.errno, it.strerror, it.filename) == (None, None, None)
            assert type(it) is raised and (it.number, it.name, it.response_to) == (told.number, told.name, told.response_to)
            assert str(it) == str(told) and str(it.fault) == str(told.fault)
            assert it.args[:2] == (told.number, told.response_to) and it.args[2] is it.fault


def test_bytes_that_change_meanwhile_are_read_without_harm():
    held = bytearray(NESTED[-1])
    read = Document(held)
    arrays = [value for value in read.values() if isinstance(value, lughemra.Array)]
    assert [len(array) for array in arrays] == [0, 2]
    for at in range(4, len(held)):
        held[at] ^= 0xFF
        for call in (read.to_dict, read.json, lambda: list(read.items()), lambda: [array[-1] for array in arrays[1:]]):
            try:
                call()
            except (DocumentError, UnicodeDecodeError):
                pass


# What bytes at fault close, and what raises that again and again.
CLOSED = [
    (lughemra.Reader, next),
    (lughemra.Client, next),
    (lughemra.Server, lambda it: it.feed(b"")),
]


@pytest.mark.parametrize("make, again", CLOSED)
def test_what_a_fault_closed_goes_with_its_last_reference(make, again):
    gc.disable()
    try:
        made = make()
        for call in (lambda it: it.feed(bytes(16)), again, again):
            try:
                call(made)
            except (lughemra.MessageError, lughemra.Closed) as fault:
                assert str(fault).endswith("Length at 0")
        gone = weakref.ref(made)
        del made
        assert gone() is None
    finally:
        gc.enable()


@pytest.mark.parametrize("data", [document(), document(element(0x08, "b", b"\2"))])
def test_what_is_refused_keeps_nothing(data):
    held, client = bytearray(data), lughemra.Client()
    gone = weakref.ref(client)
    gc.disable()
    try:
        with pytest.raises((KeyError, DocumentError)):
            Document(held)["b"]
        with pytest.raises(lughemra.MessageError):
            client.call({"docs": 1}, [("docs", [])])
        del client
        held.clear()
        assert gone() is None
    finally:
        gc.enable()


@pytest.mark.parametrize("again", [copy.copy, copy.deepcopy, pickle.dumps])
@pytest.mark.parametrize("make", [lughemra.Client, lughemra.Server, lughemra.Pool, lughemra.Reader])
def test_what_holds_a_connection_is_not_copied(make, again):
    with pytest.raises(TypeError, match=f"^a {make.__name__} can't be copied or pickled$"):
        again(make())
