"""Compares what is read with PyMongo's `bson`, where that is installed: of documents that it writes, and of others."""

import datetime
import random
import uuid

import pytest
from rows import DOCUMENTS, KINDS, document_of

import lughemra
from lughemra import Document

bson = pytest.importorskip("bson", reason="python3-bson is not installed")
from bson import json_util  # noqa: E402
from bson.codec_options import CodecOptions  # noqa: E402

OPTIONS = CodecOptions(tz_aware=True, uuid_representation=4)
UTC = datetime.timezone.utc


def theirs(value):
    """Returns a value of PyMongo's as this module has it."""
    made = BY_TYPE.get(type(value))
    return made(value) if made else value


def regex_of(value):
    """Returns a regular expression, whose options PyMongo keeps as flags."""
    if not isinstance(value, bson.regex.Regex):
        value = bson.regex.Regex.from_native(value)
    names = {2: "i", 4: "l", 8: "m", 16: "s", 32: "u", 64: "x"}
    return lughemra.Regex(value.pattern, "".join(name for flag, name in names.items() if value.flags & flag))


def code_of(value):
    """Returns a code, with its scope if it has one."""
    return lughemra.Code(str(value), None if value.scope is None else theirs(value.scope))


BY_TYPE = {
    dict: lambda it: {name: theirs(value) for name, value in it.items()},
    list: lambda it: [theirs(value) for value in it],
    datetime.datetime: lambda it: it.astimezone(UTC),
    bson.ObjectId: lambda it: lughemra.ObjectId(it.binary),
    bson.Int64: int,
    bson.Binary: lambda it: lughemra.Binary(bytes(it), it.subtype) if it.subtype else bytes(it),
    uuid.UUID: lambda it: lughemra.Binary(it.bytes, 4),
    bson.Timestamp: lambda it: lughemra.Timestamp(it.time, it.inc),
    bson.Decimal128: lambda it: lughemra.Decimal128(it.bid),
    bson.Regex: regex_of,
    bson.Code: code_of,
    bson.MinKey: lambda it: lughemra.MinKey(),
    bson.MaxKey: lambda it: lughemra.MaxKey(),
}


def draw_value(draw, depth):
    """Draws a value of any kind that PyMongo writes."""
    leaves = [
        lambda: draw.randint(-(2**31), 2**31 - 1),
        lambda: bson.Int64(draw.randint(-(2**63), 2**63 - 1)),
        lambda: draw.choice([0.0, 1.5, -1e300, 1e-310, draw.random(), float("inf"), float(draw.randint(0, 2**60))]),
        lambda: "".join(draw.choice('\0\t"\\a\x7fé\u2028\ufffd🍋') for _ in range(draw.randint(0, 8))),
        lambda: draw.choice([True, False, None]),
        lambda: bson.ObjectId(draw.randbytes(12)),
        lambda: datetime.datetime(1970, 1, 1, tzinfo=UTC) + datetime.timedelta(milliseconds=draw.randint(-(2**45), 2**47)),
        lambda: draw.randbytes(draw.randint(0, 9)),
        lambda: bson.Binary(draw.randbytes(draw.randint(0, 9)), draw.choice([2, 5, 6, 128])),
        lambda: bson.Timestamp(draw.randint(0, 2**32 - 1), draw.randint(0, 2**32 - 1)),
        lambda: bson.Decimal128.from_bid(draw.randbytes(16)),
        lambda: bson.Regex("a.*b", draw.choice([0, 2, 8, 66])),
        lambda: bson.Code("function () {}"),
        lambda: bson.Code("x", draw_document(draw, depth + 1)),
        lambda: draw.choice([bson.MinKey(), bson.MaxKey()]),
        lambda: draw_document(draw, depth + 1),
        lambda: [draw_value(draw, depth + 1) for _ in range(draw.randint(0, 4))],
    ]
    return draw.choice(leaves[: -3 if depth > 4 else None])()


def draw_document(draw, depth=0):
    """Draws a document."""
    names = ["", "a", "ab", "é", "$oid", "$numberInt", "0", "x.y", "🍋"]
    return {draw.choice(names) + draw.choice(["", "1", "2"]): draw_value(draw, depth) for _ in range(draw.randint(0, 8))}


def same(got, wanted):
    """Compares two values, and their types and those of all in them."""
    assert repr(got) == repr(wanted)


@pytest.mark.parametrize("kind, value, wanted", KINDS)
def test_each_kind_is_what_bson_reads(kind, value, wanted):
    data = document_of(kind, value)
    if isinstance(wanted, lughemra.DatetimeMS):
        with pytest.raises((bson.errors.InvalidBSON, OverflowError)):
            bson.decode(data, OPTIONS)
        return
    got = theirs(bson.decode(data, OPTIONS))
    # PyMongo reads a DBPointer as a DBRef, and has no types for symbols and the undefined value.
    if kind is lughemra.Kind.DB_POINTER:
        assert got["v"] == bson.DBRef("ns", bson.ObjectId(wanted.id.data))
    elif kind in (lughemra.Kind.SYMBOL, lughemra.Kind.UNDEFINED):
        assert got["v"] == getattr(wanted, "text", None)
    else:
        same(Document(data).to_dict(), got)


def test_drawn_documents_are_what_bson_wrote_and_reads():
    draw = random.Random(1)
    for _ in range(3000):
        data = bson.encode(draw_document(draw), codec_options=OPTIONS)
        read = Document(data)
        wanted = theirs(bson.decode(data, OPTIONS))
        same(read.to_dict(), wanted)
        same({name: plain(value) for name, value in read.items()}, wanted)
        assert all(repr(plain(read[name])) == repr(value) for name, value in wanted.items())
        assert list(read) == list(wanted) and len(read) == len(wanted)
        lughemra.check(data)
        assert lughemra.is_canonical(data)
        assert read.raw == data


def plain(value):
    """Returns a value with dict and list in the place of documents and arrays."""
    if isinstance(value, Document):
        return value.to_dict()
    if isinstance(value, lughemra.Array):
        return value.to_list()
    if isinstance(value, lughemra.Code) and value.scope is not None:
        return lughemra.Code(value.text, plain(value.scope))
    return value


def test_extended_json_is_read_back_by_bson():
    draw = random.Random(2)
    for _ in range(500):
        data = bson.encode(draw_document(draw), codec_options=OPTIONS)
        text = Document(data).json()
        # A name with a dollar is taken for a form of a value, and not each decimal has one text.
        if b"$" not in data and "$numberDecimal" not in text:
            back = json_util.loads(text, json_options=json_util.JSONOptions(tz_aware=True, uuid_representation=4))
            assert bson.encode(back, codec_options=OPTIONS) == data


def test_what_bson_refuses_is_refused():
    for data in DOCUMENTS:
        for other in (data[:-1], data + b"\0", data[:-1] + b"\1"):
            with pytest.raises(bson.errors.InvalidBSON):
                bson.decode(other, OPTIONS)
            with pytest.raises(lughemra.DocumentError):
                Document(other)


def test_decimals_are_those_of_bson():
    draw = random.Random(3)
    for _ in range(2000):
        data = draw.randbytes(15) + bytes([draw.choice([0x30, 0xB0, 0x2F, 0x31, 0x78, 0x7C, 0xF8, draw.randrange(256)])])
        got, other = lughemra.Decimal128(data).to_decimal(), bson.Decimal128.from_bid(data)
        if got.is_nan():
            assert other.to_decimal().is_nan()
        elif got.is_finite() and is_too_large(data):
            assert got == 0
        else:
            assert got.as_tuple() == other.to_decimal().as_tuple()


def is_too_large(data):
    """Returns true if a coefficient is above what it may be: it stands for 0, which PyMongo doesn't keep to."""
    high = int.from_bytes(data[8:], "little")
    coefficient = (high & (2**49 - 1)) << 64 | int.from_bytes(data[:8], "little")
    return high >> 61 & 3 == 3 or coefficient >= 10**34
