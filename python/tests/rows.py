"""Documents that are written by hand from bsonspec.org, and what they are in Python."""

import datetime
import pathlib
import sys

import lughemra
from lughemra import Kind

ROOT = pathlib.Path(__file__).resolve().parents[2]
sys.path.insert(0, str(ROOT / "scripts" / "model"))
import text_model  # noqa: E402
import vectors  # noqa: E402, F401

UTC = datetime.timezone.utc
ID = bytes(range(12))


def string(text):
    """Returns the bytes of a string: its length with the last byte, its text, and this byte."""
    return (len(text.encode()) + 1).to_bytes(4, "little") + text.encode() + b"\0"


def element(kind, name, value):
    """Returns the bytes of an element."""
    return bytes([kind]) + name.encode() + b"\0" + value


def document(*elements):
    """Returns the bytes of a document."""
    inside = b"".join(elements)
    return (len(inside) + 5).to_bytes(4, "little") + inside + b"\0"


def scope(text, inside):
    """Returns the bytes of a code with scope."""
    return (len(string(text)) + len(inside) + 4).to_bytes(4, "little") + string(text) + inside


# The type byte, the bytes of the value, and the value.
KINDS = [
    (Kind.DOUBLE, "000000000000f83f", 1.5),
    (Kind.DOUBLE, "0000000000000080", -0.0),
    (Kind.DOUBLE, "000000000000f07f", float("inf")),
    (Kind.DOUBLE, "0100000000000000", 5e-324),
    (Kind.DOUBLE, "0000000000004043", 9007199254740992.0),
    (Kind.STRING, "0100000000", ""),
    (Kind.STRING, "04000000" "61006200", "a\0b"),
    (Kind.STRING, "08000000" "c3a9f09f8d8b22" "00", "é🍋\""),
    (Kind.BINARY, "02000000" "00" "aabb", b"\xaa\xbb"),
    (Kind.BINARY, "00000000" "00", b""),
    (Kind.BINARY, "06000000" "02" "02000000aabb", lughemra.Binary(b"\xaa\xbb", 2)),
    (Kind.BINARY, "10000000" "04" + "11" * 16, lughemra.Binary(b"\x11" * 16, 4)),
    (Kind.BINARY, "01000000" "80" "cc", lughemra.Binary(b"\xcc", 128)),
    (Kind.UNDEFINED, "", lughemra.Undefined()),
    (Kind.OBJECT_ID, "000102030405060708090a0b", lughemra.ObjectId(ID)),
    (Kind.BOOL, "00", False),
    (Kind.BOOL, "01", True),
    (Kind.DATETIME, "0000000000000000", datetime.datetime(1970, 1, 1, tzinfo=UTC)),
    (Kind.DATETIME, "ffffffffffffffff", datetime.datetime(1969, 12, 31, 23, 59, 59, 999000, tzinfo=UTC)),
    (Kind.DATETIME, "15cd5b0700000000", datetime.datetime(1970, 1, 2, 10, 17, 36, 789000, tzinfo=UTC)),
    (Kind.DATETIME, "ffdb1fd277e60000", datetime.datetime(9999, 12, 31, 23, 59, 59, 999000, tzinfo=UTC)),
    (Kind.DATETIME, "00dc1fd277e60000", lughemra.DatetimeMS(253402300800000)),
    (Kind.DATETIME, "0028d3ed7cc7ffff", datetime.datetime(1, 1, 1, tzinfo=UTC)),
    (Kind.DATETIME, "ff27d3ed7cc7ffff", lughemra.DatetimeMS(-62135596800001)),
    (Kind.DATETIME, "0000000000000080", lughemra.DatetimeMS(-(2**63))),
    (Kind.NULL, "", None),
    (Kind.REGEX, "612e6200" "6900", lughemra.Regex("a.b", "i")),
    (Kind.REGEX, "00" "00", lughemra.Regex("")),
    (Kind.DB_POINTER, "03000000" "6e7300" + ID.hex(), lughemra.DBPointer("ns", lughemra.ObjectId(ID))),
    (Kind.CODE, "02000000" "6600", lughemra.Code("f")),
    (Kind.SYMBOL, "02000000" "6700", lughemra.Symbol("g")),
    (Kind.CODE_WITH_SCOPE, "17000000" "03000000" "666700" "0c000000" "10" "7800" "01000000" "00", lughemra.Code("fg", {"x": 1})),
    (Kind.INT32, "fbffffff", -5),
    (Kind.INT32, "00000080", -(2**31)),
    (Kind.TIMESTAMP, "07000000" "09000000", lughemra.Timestamp(9, 7)),
    (Kind.TIMESTAMP, "ffffffff" "ffffffff", lughemra.Timestamp(2**32 - 1, 2**32 - 1)),
    (Kind.INT64, "0000000000010000", 2**40),
    (Kind.INT64, "0000000000000080", -(2**63)),
    (Kind.DECIMAL128, "0f000000000000000000000000003e30", lughemra.Decimal128(bytes.fromhex("0f000000000000000000000000003e30"))),
    (Kind.MIN_KEY, "", lughemra.MinKey()),
    (Kind.MAX_KEY, "", lughemra.MaxKey()),
    (Kind.DOCUMENT, "0500000000", {}),
    (Kind.DOCUMENT, "0c000000" "10" "7800" "01000000" "00", {"x": 1}),
    (Kind.ARRAY, "0500000000", []),
    (Kind.ARRAY, "0c000000" "0a3000" "08310001" "00", [None, True]),
]


def document_of(kind, value):
    """Returns the document with one value, under the name "v"."""
    return document(element(kind, "v", bytes.fromhex(value)))


# Documents that hold documents, arrays, scopes and names of many sorts.
NESTED = [
    document(element(0x04, "a", document(element(0x10, "x", b"\1\0\0\0"), element(0x02, "x", string("two"))))),
    document(
        element(0x03, "d", document(element(0x04, "a", document(element(0x03, "0", document(element(0x0A, "n", b""))))))),
        element(0x0F, "c", scope("f", document(element(0x03, "in", document(element(0x08, "t", b"\1")))))),
        element(0x02, "", string("no name")),
        element(0x02, "$oid", string("000102030405060708090a0b")),
        element(0x03, "é", document(element(0x02, "$oid", string("000102030405060708090a0b")))),
    ),
    document(*(element(kind, f"{kind:02x}-{k}", bytes.fromhex(value)) for k, (kind, value, _) in enumerate(KINDS))),
]
DOCUMENTS = [*vectors.DOCUMENTS, *(document_of(kind, value) for kind, value, _ in KINDS), *NESTED]


# ---- what text_model.py, which knows nothing of the library, says of bytes


def fault_of(data):
    """Returns the number and the offset of the first fault of a document, or nothing."""
    try:
        text_model.bad(1, 0, len(data) < 4)
        text_model.bad(2, 0, text_model.number(data, 0) < 5 or text_model.number(data, 0) != len(data))
        text_model.elements(data, 0, len(data), 1)
    except text_model.Bad as fault:
        return fault.cause, fault.at
    return None


def message_fault_of(data):
    """Returns the number and the offset of the first fault of a message, and those of a document's own, or nothing."""
    try:
        text_model.refuse(1, 0, len(data) < 16)
        text_model.check_header(data)
        text_model.refuse(1, 0, text_model.number(data, 0) != len(data))
        text_model.message(data)
    except text_model.BadMessage as fault:
        inside = (fault.inner.cause, fault.inner.at) if fault.cause == 7 else None
        return fault.cause, fault.at, inside
    return None


def altered(data, step=1):
    """Returns the bytes with each byte of them changed to each `step`th other value."""
    for at, byte in enumerate(data):
        for other in range(byte % step, 256, step):
            if other != byte:
                yield data[:at] + bytes([other]) + data[at + 1 :]


def prefixes(data):
    """Returns each proper beginning of the bytes."""
    return (data[:length] for length in range(len(data)))
