"""What numbers out of range raise, however long they are, and what is no int."""

import pytest

import lughemra
from lughemra import Client, Int64, Message, Pool, Reader, Server, encode, encode_message

# Python doesn't write the digits of it, and raises a ValueError of its own where it is asked to.
LONG = 10**5000
LONG_ONES = [
    (OverflowError, lambda: encode({"n": LONG})),
    (OverflowError, lambda: encode({"n": [-LONG]})),
    (OverflowError, lambda: encode({"n": Int64(LONG)})),
    (OverflowError, lambda: encode({"n": lughemra.DatetimeMS(LONG)})),
    (OverflowError, lambda: encode({"n": lughemra.Timestamp(LONG, 0)})),
    (OverflowError, lambda: encode({"n": lughemra.Timestamp(0, -LONG)})),
    (lughemra.EncodeError, lambda: encode({"b": lughemra.Binary(b"", LONG)})),
    (TypeError, lambda: encode({"r": lughemra.Regex(LONG)})),
    (TypeError, lambda: encode({"r": lughemra.Regex("a", LONG)})),
    (TypeError, lambda: encode({"p": lughemra.DBPointer("ns", LONG)})),
    (TypeError, lambda: encode({LONG: 1})),
    (TypeError, lambda: lughemra.ObjectId(LONG)),
    (TypeError, lambda: lughemra.Decimal128(LONG)),
    (TypeError, lambda: encode_message({}, [(LONG, [])])),
    (OverflowError, lambda: encode_message({}, request_id=LONG)),
    (OverflowError, lambda: encode_message({}, response_to=-LONG)),
    (ValueError, lambda: encode_message({}, limit=LONG)),
    (lughemra.MessageError, lambda: encode_message({}, flags=LONG)),
    (ValueError, lambda: Message(bytes(26), LONG)),
    (ValueError, lambda: Reader(-LONG)),
    (ValueError, lambda: Client(first_id=LONG)),
    (ValueError, lambda: Server(window=LONG)),
    (ValueError, lambda: Server().sent(-LONG)),
    (IndexError, lambda: Server().request(LONG)),
    (IndexError, lambda: Server().answer(-LONG, [{}])),
    (ValueError, lambda: Pool(LONG)),
    (ValueError, lambda: Pool().check_in(LONG)),
]


@pytest.mark.parametrize("raised, call", LONG_ONES)
def test_a_long_number_is_refused_as_a_short_one_is(raised, call):
    with pytest.raises(raised) as told:
        call()
    assert type(told.value) is raised and "4300" not in str(told.value)


NO_INTS = [
    ("limit", lambda: Client(limit=26.0)),
    ("limit", lambda: Server(limit="26")),
    ("window", lambda: Server(window=5.0)),
    ("first id", lambda: Client(first_id=1.5)),
    ("limit", lambda: Message(bytes(26), 25.5)),
    ("limit", lambda: Reader(None)),
    ("limit", lambda: encode_message({}, limit=26.0)),
    ("greatest number of connections", lambda: Pool(2.0)),
    ("id", lambda: Pool().check_in("x")),
]


@pytest.mark.parametrize("name, call", NO_INTS)
def test_what_is_no_int_is_refused_by_its_name(name, call):
    with pytest.raises(TypeError, match=f"^the {name} is of type [a-zA-Z]+, and isn't an int$"):
        call()


def test_a_number_that_is_short_is_told():
    with pytest.raises(ValueError, match="the limit is 25, and isn't one of 26 to 48000000"):
        Client(limit=25)
    with pytest.raises(OverflowError, match="^9223372036854775808 is no int64$"):
        encode({"n": 2**63})
    with pytest.raises(OverflowError, match="^an int of 16610 bits is no int64$"):
        encode({"n": LONG})
