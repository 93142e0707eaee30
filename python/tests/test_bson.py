"""The names of PyMongo's `bson`, by the extension and over `ctypes`; and beside PyMongo, where that is there."""

import copy
import datetime
import decimal
import io
import pickle
import random
import re
import sys
import uuid

import pytest

from lughemra import bson
from lughemra.bson import _types, binary, codec_options, json_util, raw_bson
from lughemra.bson._reading import Reading
from lughemra.bson._writing import Writing

UTC = datetime.timezone.utc
EAST = datetime.timezone(datetime.timedelta(hours=2))
DATE = datetime.datetime(2024, 5, 6, 7, 8, 9, 123000)
ID = uuid.UUID("00112233-4455-6677-8899-aabbccddeeff")
OID = "0102030405060708090a0b0c"


def options(**given):
    """Returns codec options."""
    return bson.CodecOptions(**given)


@pytest.fixture(params=["extension", "ctypes"])
def way(request, monkeypatch):
    """Reads and writes with the extension and without it."""
    if request.param == "extension" and not bson.has_c():
        pytest.skip("the extension is not here")
    if request.param == "ctypes":
        for kind in (Reading, Writing):
            monkeypatch.setattr(kind, "speed", property(lambda _: None, lambda *_: None), raising=False)
        monkeypatch.setattr(bson, "_READ", None)
        monkeypatch.setattr(bson, "_WRITE", None)
    return request.param


# Each value, the type byte and the hexadecimal text of its bytes.
ROWS = [
    (1.5, "01", "000000000000f83f"),
    ("é\0", "02", "04000000c3a90000"),
    ({"x": 1}, "03", "0c0000001078000100000000"),
    ([1, True], "04", "100000001030000100000008310001" + "00"),
    (b"ab", "05", "02000000006162"),
    (bson.Binary(b"ab", 128), "05", "02000000806162"),
    (bson.Binary(b"ab", 2), "05", "0600000002020000006162"),
    (bson.ObjectId(OID), "07", OID),
    (False, "08", "00"),
    (DATE, "09", "2338bb4c8f010000"),
    (None, "0a", ""),
    (bson.Regex("a.b", "im"), "0b", "612e6200" + "696d00"),
    (bson.Code("f"), "0d", "020000006600"),
    (bson.Code("f", {"x": 1}), "0f", "16000000" "020000006600" "0c0000001078000100000000"),
    (7, "10", "07000000"),
    (bson.Timestamp(5, 6), "11", "0600000005000000"),
    (bson.Int64(7), "12", "0700000000000000"),
    (1 << 40, "12", "0000000000010000"),
    (bson.Decimal128("1.50"), "13", "96000000000000000000000000003c30"),
    (bson.MaxKey(), "7f", ""),
    (bson.MinKey(), "ff", ""),
]


def document_of(kind, value):
    """Returns a document with one value, whose name is "a"."""
    content = bytes.fromhex(kind) + b"a\0" + bytes.fromhex(value) + b"\0"
    return (len(content) + 4).to_bytes(4, "little") + content


@pytest.mark.usefixtures("way")
@pytest.mark.parametrize("value, kind, data", ROWS, ids=str)
def test_each_value_is_read_and_written(value, kind, data):
    whole = document_of(kind, data)
    assert bson.encode({"a": value}) == whole
    read = bson.decode(whole)["a"]
    assert (read, type(read)) == (value, bson.Int64 if kind == "12" else type(value))
    assert bson.encode({"a": [value, {"b": value}]}) == bson.encode(bson.SON([("a", (value, bson.SON(b=value)))]))


@pytest.mark.usefixtures("way")
@pytest.mark.parametrize(
    "kind, data, value",
    [
        ("06", "", None),
        ("0e", "020000006600", "f"),
        ("0c", "020000006300" + OID, bson.DBRef("c", bson.ObjectId(OID))),
        ("03", "21000000" "0224726566000200000063" "00" "1024696400" "01000000" "107800" "02000000" "00", bson.DBRef("c", 1, x=2)),
    ],
)
def test_values_that_are_only_read(kind, data, value):
    read = bson.decode(document_of(kind, data))["a"]
    assert (read, type(read)) == (value, type(value))


@pytest.mark.usefixtures("way")
def test_references_are_written_as_documents():
    reference = bson.DBRef("c", 1, "db", x=2)
    assert bson.encode({"a": reference}) == bson.encode({"a": bson.SON([("$ref", "c"), ("$id", 1), ("$db", "db"), ("x", 2)])})
    assert bson.decode(bson.encode({"a": [reference]})) == {"a": [reference]}
    for none in ({"$ref": 1, "$id": 2}, {"$ref": "c"}, {"$ref": "c", "$id": 1, "$db": 2}):
        assert bson.decode(bson.encode({"a": none})) == {"a": none} and bson.decode(bson.encode(none)) == none


@pytest.mark.usefixtures("way")
def test_the_id_is_written_first_in_the_outermost_document():
    assert list(bson.decode(bson.encode({"x": {"y": 1, "_id": 2}, "_id": 3}))) == ["_id", "x"]
    assert list(bson.decode(bson.encode({"x": {"y": 1, "_id": 2}, "_id": 3}))["x"]) == ["y", "_id"]


@pytest.mark.usefixtures("way")
def test_of_elements_with_one_name_the_last_counts():
    data = bytes.fromhex("13000000" "10610001000000" "10610002000000" "00")
    assert bson.decode(data) == {"a": 2}


@pytest.mark.usefixtures("way")
def test_dates_have_a_time_zone_if_that_is_asked():
    data = bson.encode({"a": DATE.replace(tzinfo=EAST)})
    utc = DATE - datetime.timedelta(hours=2)
    assert bson.decode(data) == {"a": utc}
    aware = bson.decode(data, options(tz_aware=True))["a"]
    assert aware == utc.replace(tzinfo=UTC) and aware.utcoffset() == datetime.timedelta(0)
    east = bson.decode(data, options(tz_aware=True, tzinfo=EAST))["a"]
    assert (east, east.tzinfo) == (DATE.replace(tzinfo=EAST), EAST)
    assert bson.encode({"a": aware}) == bson.encode({"a": east}) == data


@pytest.mark.usefixtures("way")
@pytest.mark.parametrize("milliseconds", [-62135596800001, 253402300800000, 2**63 - 1, -(2**63)])
def test_dates_that_datetime_has_no_room_for(milliseconds):
    data = bson.encode({"a": bson.DatetimeMS(milliseconds)})
    with pytest.raises(bson.InvalidBSON, match="out of range"):
        bson.decode(data)
    for conversion in (bson.DatetimeConversion.DATETIME_AUTO, bson.DatetimeConversion.DATETIME_MS):
        told = bson.decode(data, options(datetime_conversion=conversion))["a"]
        assert (type(told), int(told)) == (bson.DatetimeMS, milliseconds)
    clamped = bson.decode(data, options(datetime_conversion=bson.DatetimeConversion.DATETIME_CLAMP))["a"]
    assert clamped == (datetime.datetime.min if milliseconds < 0 else datetime.datetime.max.replace(microsecond=999000))


@pytest.mark.usefixtures("way")
@pytest.mark.parametrize("date", [datetime.datetime.min, datetime.datetime.max, datetime.datetime(1969, 12, 31, 23, 59, 59, 999999), DATE])
def test_dates_at_the_ends(date):
    whole = date.replace(microsecond=date.microsecond // 1000 * 1000)
    assert bson.decode(bson.encode({"a": date}))["a"] == whole
    milliseconds = bson.decode(bson.encode({"a": date}), options(datetime_conversion=bson.DatetimeConversion.DATETIME_MS))["a"]
    assert int(milliseconds) == (whole - datetime.datetime(1970, 1, 1)) // datetime.timedelta(milliseconds=1)


@pytest.mark.usefixtures("way")
def test_each_day_of_four_hundred_years_is_the_date_that_it_is():
    days = [datetime.datetime(1900, 1, 1) + datetime.timedelta(days=k, seconds=k) for k in range(0, 146097 * 2, 61)]
    assert bson.decode(bson.encode({"a": days}))["a"] == days


@pytest.mark.usefixtures("way")
@pytest.mark.parametrize(
    "representation, data",
    [
        (binary.STANDARD, "100000000400112233445566778899aabbccddeeff"),
        (binary.PYTHON_LEGACY, "100000000300112233445566778899aabbccddeeff"),
        (binary.JAVA_LEGACY, "10000000037766554433221100ffeeddccbbaa9988"),
        (binary.CSHARP_LEGACY, "100000000333221100554477668899aabbccddeeff"),
    ],
)
def test_uuids_by_their_representation(representation, data):
    whole, asked = document_of("05", data), options(uuid_representation=representation)
    assert bson.encode({"a": ID}, codec_options=asked) == whole
    assert bson.decode(whole, asked) == {"a": ID}
    plain = bson.decode(whole)["a"]
    assert (type(plain), plain.as_uuid(representation)) == (bson.Binary, ID)
    other = binary.PYTHON_LEGACY if representation == binary.STANDARD else binary.STANDARD
    assert type(bson.decode(whole, options(uuid_representation=other))["a"]) is bson.Binary
    with pytest.raises(ValueError, match="UNSPECIFIED"):
        bson.encode({"a": ID})


@pytest.mark.usefixtures("way")
def test_int64s_of_each_size():
    edges = [sign * ((1 << bits) + more) for bits in range(64) for more in (-1, 0, 1) for sign in (1, -1)]
    numbers = [it for it in edges if -(1 << 63) <= it < 1 << 63]
    read = bson.decode(bson.encode({"a": list(map(bson.Int64, numbers))}))["a"]
    assert read == numbers and {type(it) for it in read} == {bson.Int64}
    assert [it + 0 for it in read] == numbers and [hash(it) for it in read] == [hash(it) for it in numbers]
    assert [str(it) for it in read] == [str(it) for it in numbers] and [it >> 1 for it in read] == [it >> 1 for it in numbers]


@pytest.mark.usefixtures("way")
@pytest.mark.parametrize("letters", ["a", "aé", "éü", "aж", "aжあ", "あ", "aжあ𝄞", "𝄞", "\ud7ff\ue000\uffff\x80\u07ff\u0800"])
def test_texts_of_each_length_and_width(letters):
    draw = random.Random(letters)
    texts = ["".join(draw.choices(letters, k=length)) for length in range(200)]
    for shape in (bytes, bytearray):
        assert bson.decode(shape(bson.encode({"a": texts}))) == {"a": texts}
        assert bson.decode_all(shape(bson.encode({"a": texts}))) == [{"a": texts}]
    for text in texts:
        read = bson.decode(bson.encode({"a": text}))["a"]
        # A text has one form in memory, by its widest character.
        assert (read, hash(read), sys.getsizeof(read)) == (text, hash(text), sys.getsizeof("".join(list(text))))


@pytest.mark.usefixtures("way")
def test_the_class_of_documents():
    read = bson.decode(bson.encode({"a": {"b": [{"c": 1}]}}), options(document_class=bson.SON))
    assert [type(read), type(read["a"]), type(read["a"]["b"][0])] == [bson.SON] * 3


@pytest.mark.usefixtures("way")
@pytest.mark.parametrize(
    "document, raised, words",
    [
        ({"a\0b": 1}, bson.InvalidDocument, "NULL"),
        ({1: 1}, bson.InvalidDocument, "only string keys, key was 1"),
        ({"a": {b"b": 1}}, bson.InvalidDocument, "only string keys"),
        ({"a": object()}, bson.InvalidDocument, "cannot encode object: <object object"),
        ({"a": 1 << 63}, OverflowError, "8-byte ints"),
        ({"a": bson.Int64(1 << 63)}, OverflowError, "8-byte ints"),
        ({"a": re.compile("a\0b")}, bson.InvalidDocument, "NUL"),
        ({"a": "\ud800"}, UnicodeEncodeError, "surrogates"),
        ({"a": decimal.Decimal(1)}, bson.InvalidDocument, "cannot encode object"),
        ([], TypeError, "expected a mapping type"),
        ("", TypeError, "expected a mapping type"),
    ],
)
def test_what_cannot_be_written_is_refused(document, raised, words):
    with pytest.raises(raised, match=words):
        bson.encode(document)


@pytest.mark.usefixtures("way")
def test_a_document_in_itself_is_refused():
    document = {"a": []}
    document["a"].append(document)
    with pytest.raises(bson.InvalidDocument, match="TooDeep"):
        bson.encode(document)


@pytest.mark.usefixtures("way")
def test_documents_nest_two_hundred_deep():
    deep = {}
    for k in range(199):
        deep = {"a": deep} if k % 2 else {"b": deep}
    assert bson.decode(bson.encode(deep)) == deep
    with pytest.raises(bson.InvalidDocument, match="TooDeep"):
        bson.encode({"a": deep})
    inner = bson.encode(deep)
    outer = (len(inner) + 8).to_bytes(4, "little") + b"\3a\0" + inner + b"\0"
    with pytest.raises(bson.InvalidBSON, match="Depth"):
        bson.decode(outer)


@pytest.mark.usefixtures("way")
def test_names_are_looked_at_if_that_is_asked():
    assert bson.encode({"a.b": {"$c": 1}})
    for document in ({"a.b": 1}, {"$a": 1}, {"a": {"$c": 1}}):
        with pytest.raises(bson.InvalidDocument, match="must not"):
            bson.encode(document, check_keys=True)


@pytest.mark.usefixtures("way")
def test_values_of_subclasses_are_written_as_their_base():
    class Text(str):
        pass

    class Number(int):
        pass

    class Pairs(dict):
        pass

    given = {"a": Text("x"), "b": Number(5), "c": Pairs(d=1), "e": (1,), Text("f"): datetime.datetime(2020, 1, 1)}
    plain = {"a": "x", "b": 5, "c": {"d": 1}, "e": [1], "f": datetime.datetime(2020, 1, 1)}
    assert bson.encode(given) == bson.encode(Pairs(given)) == bson.encode(plain)


@pytest.mark.usefixtures("way")
@pytest.mark.parametrize(
    "data, words",
    [
        (b"", "Truncated"),
        (b"\5\0\0\0\1", "End"),
        (b"\6\0\0\0\0", "Length"),
        (document_of("08", "02"), "Boolean at 4"),
        (document_of("0f", "00"), "Truncated"),
    ],
)
def test_faults_are_those_of_the_check(data, words):
    with pytest.raises(bson.InvalidBSON, match=words):
        bson.decode(data)
    assert not bson.is_valid(data)


@pytest.mark.usefixtures("way")
def test_what_lends_no_bytes_is_no_document():
    for given in ("text", 5, None):
        with pytest.raises(TypeError):
            bson.decode(given)
    whole = bson.encode({"a": 1})
    for given in (bytearray(whole), memoryview(whole), bson.BSON(whole)):
        assert bson.decode(given) == {"a": 1}


@pytest.mark.usefixtures("way")
def test_documents_that_stand_one_after_another():
    made = [{"a": k, "b": [k]} for k in range(50)]
    data = b"".join(map(bson.encode, made))
    assert bson.decode_all(data) == list(bson.decode_iter(data)) == list(bson.decode_file_iter(io.BytesIO(data))) == made
    assert bson.decode_all(b"") == []
    for cut in (data[:-1], data + b"\5", data + b"\5\0\0\0\1"):
        read = []
        with pytest.raises(bson.InvalidBSON):
            read.extend(bson.decode_iter(cut))
        for function in (bson.decode_all, lambda it: list(bson.decode_file_iter(io.BytesIO(it)))):
            with pytest.raises(bson.InvalidBSON):
                function(cut)


def test_options_are_refused_that_are_not_there():
    with pytest.raises(NotImplementedError, match="type_registry"):
        codec_options.TypeRegistry([object()])
    with pytest.raises(NotImplementedError, match="type_registry"):
        options(type_registry=object())
    with pytest.raises(NotImplementedError, match="unicode_decode_error_handler"):
        options(unicode_decode_error_handler="replace")
    for given in ({"tz_aware": 1}, {"document_class": int}, {"tzinfo": 5}):
        with pytest.raises(TypeError):
            options(**given)
    with pytest.raises(ValueError, match="tz_aware"):
        options(tzinfo=UTC)
    with pytest.raises(ValueError, match="uuid_representation"):
        options(uuid_representation=7)
    with pytest.raises(TypeError, match="CodecOptions"):
        bson.decode(bson.encode({}), dict)
    assert options().with_options(tz_aware=True) == options(tz_aware=True) != options()
    assert "tz_aware=True" in repr(options(tz_aware=True))


def test_documents_that_are_read_lazily():
    whole = bson.encode({"a": {"b": 1}, "c": [{"d": 2}, [3]], "e": bson.ObjectId(OID), "f": bson.Code("g", {"h": 4})})
    raw = raw_bson.RawBSONDocument(whole)
    assert raw.raw == whole and list(raw) == ["a", "c", "e", "f"] and len(raw) == 4
    assert (type(raw["a"]), raw["a"]["b"], raw["c"][0]["d"], raw["c"][1]) == (raw_bson.RawBSONDocument, 1, 2, [3])
    assert raw["e"] == bson.ObjectId(OID) and raw["f"].scope["h"] == 4
    assert dict(raw.items())["e"] == raw["e"] and raw == raw_bson.RawBSONDocument(whole) != raw["a"]
    assert bson.encode(raw) == whole and bson.encode({"x": raw["a"]}) == bson.encode({"x": {"b": 1}})
    assert bson.decode(whole, raw_bson.DEFAULT_RAW_BSON_OPTIONS) == raw == bson.decode_all(whole, raw_bson.DEFAULT_RAW_BSON_OPTIONS)[0]
    with pytest.raises(KeyError):
        raw["z"]
    with pytest.raises(TypeError):
        raw_bson.RawBSONDocument(whole, options())
    with pytest.raises(bson.InvalidBSON):
        raw_bson.RawBSONDocument(whole[:-1])
    faulty = raw_bson.RawBSONDocument(document_of("08", "02"))
    with pytest.raises(bson.InvalidBSON, match="Boolean"):
        faulty["a"]


def test_extended_json():
    given = {"a": 1, "b": bson.Int64(2), "c": 1.5, "d": DATE, "e": bson.ObjectId(OID), "f": [b"x", None]}
    assert json_util.dumps(given) == (
        '{"a": 1, "b": 2, "c": 1.5, "d": {"$date": "2024-05-06T07:08:09.123Z"}, "e": {"$oid": "' + OID + '"},'
        ' "f": [{"$binary": {"base64": "eA==", "subType": "00"}}, null]}'
    )
    canonical = json_util.dumps({"a": 1}, json_options=json_util.CANONICAL_JSON_OPTIONS)
    assert canonical == '{"a": {"$numberInt": "1"}}'
    assert json_util.dumps([bson.Int64(5), {}]) == "[5, {}]" and json_util.dumps({"b": 1, "a": 2}, sort_keys=True) == '{"a": 2, "b": 1}'
    with pytest.raises(NotImplementedError, match="lughemra_from_json"):
        json_util.loads("{}")
    with pytest.raises(NotImplementedError, match="no older one"):
        json_util.JSONOptions(json_mode=json_util.JSONMode.LEGACY)


def random_value(draw, depth):
    """Returns a value of any type."""
    leaves = [
        lambda: draw.randint(-(2**31), 2**31 - 1),
        lambda: bson.Int64(draw.randint(-(2**63), 2**63 - 1)),
        lambda: draw.uniform(-1e9, 1e9),
        lambda: "".join(draw.choices("aéあ𝄞\0", k=draw.randint(0, 6))),
        lambda: draw.random() < 0.5,
        lambda: None,
        lambda: draw.randbytes(draw.randint(0, 20)),
        lambda: bson.Binary(draw.randbytes(4), draw.choice([1, 2, 5, 128])),
        lambda: bson.ObjectId(draw.randbytes(12)),
        lambda: datetime.datetime(1970, 1, 1) + draw.randint(-62135596800000, 253402300799999) * datetime.timedelta(milliseconds=1),
        lambda: bson.Regex("a" * draw.randint(0, 3), draw.choice(["", "i", "imsx"])),
        lambda: bson.Code("f" * draw.randint(0, 3), draw.choice([None, {"x": 1}])),
        lambda: bson.Timestamp(draw.randrange(1 << 32), draw.randrange(1 << 32)),
        lambda: bson.Decimal128(decimal.Decimal(draw.randint(-(10**34) + 1, 10**34 - 1)).scaleb(draw.randint(-50, 50))),
        lambda: draw.choice([bson.MinKey(), bson.MaxKey()]),
        lambda: bson.DBRef("c", draw.randint(0, 9)),
    ]
    if depth == 0 or draw.random() < 0.6:
        return draw.choice(leaves)()
    if draw.random() < 0.5:
        return [random_value(draw, depth - 1) for _ in range(draw.randint(0, 20))]
    return {f"name{k}": random_value(draw, depth - 1) for k in range(draw.randint(0, 20))}


@pytest.mark.usefixtures("way")
@pytest.mark.parametrize("seed", range(15))
def test_random_documents_come_back_and_are_those_of_pymongo(seed):
    draw = random.Random(seed)
    given = {"_id": seed, **{f"f{k}": random_value(draw, 4) for k in range(draw.randint(0, 40))}}
    written = bson.encode(given)
    assert bson.decode(written) == given
    assert bson.encode(bson.decode(written)) == written
    if _types.PYMONGO:
        theirs = pytest.importorskip("bson")
        assert theirs.encode(given) == written
        assert theirs.decode(written) == bson.decode(written)


@pytest.mark.parametrize("seed", range(5))
def test_altered_bytes_have_the_verdict_of_the_check(seed):
    draw = random.Random(seed)
    whole = bytearray(bson.encode({f"f{k}": random_value(draw, 3) for k in range(10)}))
    for _ in range(200):
        altered = bytearray(whole)
        for _ in range(draw.randint(1, 3)):
            altered[draw.randrange(len(altered))] = draw.randrange(256)
        clamped = options(datetime_conversion=bson.DatetimeConversion.DATETIME_AUTO)
        try:
            bson.decode(bytes(altered), clamped)
            read = True
        except bson.InvalidBSON:
            read = False
        assert read == bson.is_valid(bytes(altered))


@pytest.mark.parametrize(
    "value",
    [bson.ObjectId(OID), bson.Binary(b"a", 5), bson.Int64(5), bson.Timestamp(1, 2), bson.Decimal128("1.5"), bson.Regex("a", "i")]
    + [bson.Code("f", {"x": 1}), bson.MinKey(), bson.MaxKey(), bson.DBRef("c", 1, "db", x=2), bson.SON([("b", 1), ("a", 2)])],
    ids=lambda it: type(it).__name__,
)
def test_values_are_copied_and_pickled(value):
    for again in (copy.copy(value), copy.deepcopy(value), pickle.loads(pickle.dumps(value))):
        assert (again, type(again)) == (value, type(value))
    assert repr(value).startswith(type(value).__name__) or isinstance(value, int)


@pytest.mark.parametrize("given", [5, "z" * 24, "0" * 23, b"0" * 11, "é" * 24])
def test_what_is_no_object_id(given):
    assert not bson.ObjectId.is_valid(given)
    with pytest.raises((bson.InvalidId, TypeError)):
        bson.ObjectId(given)


def test_object_ids_are_new_and_go_up():
    made = [bson.ObjectId() for _ in range(1000)]
    assert len(set(made)) == 1000
    now = datetime.datetime.now(UTC)
    assert abs(made[0].generation_time - now) < datetime.timedelta(seconds=5)
    assert bson.ObjectId.from_datetime(DATE).generation_time == DATE.replace(microsecond=0, tzinfo=UTC)
    assert bson.ObjectId(OID) < bson.ObjectId("f" * 24) and bson.ObjectId(OID).binary.hex() == str(bson.ObjectId(OID)) == OID


@pytest.mark.parametrize(
    "text", ["0", "-0", "1.50", "-1E+6111", "9.999999999999999999999999999999999E+6144", "Infinity", "-Infinity", "NaN", "1E-6176"]
)
def test_decimals(text):
    number = bson.Decimal128(text)
    assert (str(number), str(bson.Decimal128.from_bid(number.bid)), str(number.to_decimal())) == (text, text, text)
    assert bson.Decimal128(decimal.Decimal(text)) == number and bson.decode(bson.encode({"a": number}))["a"] == number


@pytest.mark.parametrize("given", ["1" * 35, "1E+6145", "x", 5, (1, 2, 3), b"0" * 16])
def test_what_is_no_decimal(given):
    with pytest.raises((decimal.DecimalException, TypeError, ValueError)):
        bson.Decimal128(given)


def test_keys_stand_at_the_ends():
    assert bson.MinKey() < 5 and bson.MinKey() < bson.MaxKey() and bson.MaxKey() > "x" and not bson.MinKey() < bson.MinKey()
    assert bson.MinKey() <= bson.MinKey() and bson.MaxKey() >= bson.MaxKey() and hash(bson.MinKey()) == hash(bson.MinKey())
