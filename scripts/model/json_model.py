"""The JSON of a document, by the drivers' table (MongoDB Extended JSON v2), canonical and relaxed.

It is written from the table and the rules of decimal128's text, and not from the code. A double's digits are the fewest that
read back, as Python's `repr` has them, in the layout of the crate ryu.
"""

import base64
import datetime
import decimal
import struct

SIGNS = {0x22: '\\"', 0x5C: "\\\\", 8: "\\b", 12: "\\f", 10: "\\n", 13: "\\r", 9: "\\t"}
SHORT = {**{byte: "\\u%04x" % byte for byte in range(32)}, **SIGNS}


def string(text):
    return '"' + "".join(SHORT.get(ord(sign), sign) for sign in text.decode()) + '"'


def whole(value):
    return int.from_bytes(value, "little", signed=True)


def double_text(x):
    """Returns the text of a finite double: with an exponent where 17 digits or 5 zeros would stand beside the point."""
    sign, digits, exponent = decimal.Decimal(repr(x)).as_tuple()
    text = "".join(map(str, digits)).lstrip("0").rstrip("0")
    exponent += len(digits) - len("".join(map(str, digits)).rstrip("0"))
    minus = "-" if sign else ""
    if not text:
        return minus + "0.0"
    front = len(text) + exponent
    if 0 < front <= 16:
        return minus + text[:front].ljust(front, "0") + "." + (text[front:] or "0")
    if -5 < front <= 0:
        return minus + "0." + "0" * -front + text
    return minus + text[0] + ("." + text[1:] if text[1:] else "") + f"e{front - 1:+d}"


def double_json(value, relaxed):
    x = struct.unpack("<d", value)[0]
    if x != x:
        return '{"$numberDouble":"NaN"}'
    if x in (float("inf"), float("-inf")):
        return '{"$numberDouble":"%sInfinity"}' % ("-" if x < 0 else "")
    return double_text(x) if relaxed else '{"$numberDouble":"%s"}' % double_text(x)


def decimal_text(value):
    bits = int.from_bytes(value, "little")
    minus, combination = "-" if bits >> 127 else "", bits >> 122 & 31
    if combination == 31:
        return "NaN"
    if combination == 30:
        return minus + "Infinity"
    if combination >= 24:
        digits, exponent = "0", (bits >> 111 & 0x3FFF) - 6176
    else:
        coefficient, exponent = bits & (1 << 113) - 1, (bits >> 113 & 0x3FFF) - 6176
        digits = str(coefficient if coefficient < 10**34 else 0)
    adjusted = exponent + len(digits) - 1
    if exponent > 0 or adjusted < -6:
        return minus + digits[0] + ("." + digits[1:] if digits[1:] else "") + f"E{adjusted:+d}"
    if not exponent:
        return minus + digits
    digits = digits.rjust(1 - exponent, "0")
    return minus + digits[:exponent] + "." + digits[exponent:]


def date_json(value, relaxed):
    since = whole(value)
    if not relaxed or not 0 <= since < 253402300800000:
        return '{"$date":{"$numberLong":"%d"}}' % since
    date = datetime.datetime(1970, 1, 1) + datetime.timedelta(milliseconds=since)
    return '{"$date":"%s"}' % (date.strftime("%Y-%m-%dT%H:%M:%S") + (".%03d" % (since % 1000) if since % 1000 else "") + "Z")


def pairs(found, relaxed):
    return "{" + ",".join(string(name) + ":" + value_json(kind, value, relaxed) for kind, name, value in found) + "}"


def number_json(name, value, relaxed):
    return str(whole(value)) if relaxed else '{"$number%s":"%d"}' % (name, whole(value))


def pointer_json(value):
    return '{"$dbPointer":{"$ref":%s,"$id":{"$oid":"%s"}}}' % (string(value[0]), value[1].hex())


def regex_json(value):
    """Options are in alphabetical order; a text of them that isn't ASCII stays."""
    options = bytes(sorted(value[1])) if value[1].isascii() else value[1]
    return '{"$regularExpression":{"pattern":%s,"options":%s}}' % (string(value[0]), string(options))


def binary_json(value):
    return '{"$binary":{"base64":"%s","subType":"%02x"}}' % (base64.b64encode(value[1]).decode(), value[0])


# Of each kind the JSON of a value, by whether it is relaxed.
VALUES = {
    0x01: double_json,
    0x02: lambda v, relaxed: string(v),
    0x03: lambda v, relaxed: pairs(v[1], relaxed),
    0x04: lambda v, relaxed: "[" + ",".join(value_json(kind, value, relaxed) for kind, _, value in v[1]) + "]",
    0x05: lambda v, relaxed: binary_json(v),
    0x06: lambda v, relaxed: '{"$undefined":true}',
    0x07: lambda v, relaxed: '{"$oid":"%s"}' % v.hex(),
    0x08: lambda v, relaxed: "true" if v else "false",
    0x09: date_json,
    0x0A: lambda v, relaxed: "null",
    0x0B: lambda v, relaxed: regex_json(v),
    0x0C: lambda v, relaxed: pointer_json(v),
    0x0D: lambda v, relaxed: '{"$code":%s}' % string(v),
    0x0E: lambda v, relaxed: '{"$symbol":%s}' % string(v),
    0x0F: lambda v, relaxed: '{"$code":%s,"$scope":%s}' % (string(v[0]), pairs(v[2], relaxed)),
    0x10: lambda v, relaxed: number_json("Int", v, relaxed),
    0x11: lambda v, relaxed: '{"$timestamp":{"t":%d,"i":%d}}' % (int.from_bytes(v[4:], "little"), int.from_bytes(v[:4], "little")),
    0x12: lambda v, relaxed: number_json("Long", v, relaxed),
    0x13: lambda v, relaxed: '{"$numberDecimal":"%s"}' % decimal_text(v),
    0xFF: lambda v, relaxed: '{"$minKey":1}',
    0x7F: lambda v, relaxed: '{"$maxKey":1}',
}


def value_json(kind, value, relaxed):
    return VALUES[kind](value, relaxed)


def document_json(found, relaxed):
    """Returns the JSON of a document of these elements."""
    return pairs(found, relaxed).encode()
