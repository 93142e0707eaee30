"""What the commands over a FILE of bytes write, by the definitions: `dump`, `check`, `canon`, `json` and `msg`, the last two also of a
file of records.

It is written from the order of the checks, the table of kinds and the form of the texts, and not from the code: plain and slow.
"""

import re

from json_model import document_json
from json_model import string as json_string
from records import HEAD, SIGNATURE, BadRecord, record_front

MAX_MESSAGE, MAX_DEPTH = 48_000_000, 200
SALVAGED = 16_793_600  # the most bytes of a document that is found behind a fault
BSON_CAUSES = ["", "Truncated", "Length", "End", "Kind", "Name", "Text", "TextEnd", "Boolean", "OldBinary", "Scope", "Depth"]
MSG_CAUSES = ["", "Length", "Opcode", "Flags", "Checksum", "SectionKind", "SectionSize", "Document", "NoBody", "TwoBodies", "RepeatedField",
              "SequenceName", "SequenceInBody", "Truncated"]

# Kinds of a fixed size: the word, and the bytes of a value.
FIXED = {0x01: ("double", 8), 0x06: ("undefined", 0), 0x07: ("objectid", 12), 0x09: ("datetime", 8), 0x0A: ("null", 0), 0x10: ("int32", 4),
         0x11: ("timestamp", 8), 0x12: ("int64", 8), 0x13: ("decimal128", 16), 0xFF: ("minkey", 0), 0x7F: ("maxkey", 0)}
SIZES = {kind: size for kind, (_, size) in FIXED.items()}
STRINGS = {0x02: "string", 0x0D: "code", 0x0E: "symbol", 0x0C: "dbpointer"}
CONTAINERS = {0x03: "document", 0x04: "array", 0x0F: "codescope"}
KINDS = {*FIXED, *STRINGS, *CONTAINERS, 0x05, 0x08, 0x0B}


class Bad(Exception):
    """A fault of a document: its cause and its place."""

    def __init__(self, cause, at):
        super().__init__(cause, at)
        self.cause, self.at = cause, at

    def line(self, start):
        return f"{self.cause} {BSON_CAUSES[self.cause]} at {start + self.at}"


class BadMessage(Exception):
    """A fault of a message: its cause, its place, and its document's own fault, or its opcode."""

    def __init__(self, cause, at, inner=None):
        super().__init__(cause, at)
        self.cause, self.at, self.inner = cause, at, inner

    def line(self, start):
        if self.cause == 2:
            return f"2 Opcode {self.inner} at {start + self.at}"
        return f"{self.cause} {MSG_CAUSES[self.cause]} at {start + self.at}" + (f": {self.inner.line(0)}" if self.cause == 7 else "")


def bad(cause, at, holds):
    if holds:
        raise Bad(cause, at)


def number(b, at, size=4, signed=True):
    return int.from_bytes(b[at:at + size], "little", signed=signed)


def is_text(b):
    try:
        b.decode()
    except UnicodeDecodeError:
        return False
    return True


# ---- documents: from bytes to a list of (kind, name, value), or the first fault


def front(b):
    """Returns the length of the document in front of the bytes, and its elements."""
    bad(1, 0, len(b) < 4)
    length = number(b, 0)
    bad(2, 0, length < 5)
    bad(1, 0, length > len(b))
    return length, elements(b, 0, length, 1)


def elements(b, start, end, depth):
    """Returns the elements of the container from start to end, each with its kind, its name and its value."""
    bad(3, start, b[end - 1] != 0)
    found, p = [], start + 4
    while p < end - 1:
        bad(3, start, b[p] == 0)
        bad(4, p, b[p] not in KINDS)
        name, at = cstring(b, p + 1, end - 1, p)
        value, following = value_of(b, b[p], at, end - 1, p, depth)
        found.append((b[p], name, value))
        p = following
    return found


def cstring(b, at, end, p):
    stop = b.find(0, at, end)
    bad(1, p, stop < 0)
    bad(5, p, not is_text(b[at:stop]))
    return b[at:stop], stop + 1


def string(b, at, end, p):
    bad(1, p, end - at < 4)
    n = number(b, at)
    bad(2, p, n < 1)
    bad(1, p, n > end - at - 4)
    bad(6, p, not is_text(b[at + 4:at + 3 + n]))
    bad(7, p, b[at + 3 + n] != 0)
    return b[at + 4:at + 3 + n], at + 4 + n


def value_of(b, kind, at, end, p, depth):
    """Returns a value, and the place after it. Its room ends before `end`, and its element begins at p."""
    if kind in SIZES:
        size = SIZES[kind]
        bad(1, p, end - at < size)
        return b[at:at + size], at + size
    if kind == 0x08:
        bad(1, p, end - at < 1)
        bad(8, p, b[at] > 1)
        return b[at], at + 1
    if kind in STRINGS:
        text, at = string(b, at, end, p)
        if kind != 0x0C:
            return text, at
        bad(1, p, end - at < 12)
        return (text, b[at:at + 12]), at + 12
    if kind == 0x05:
        return binary(b, at, end, p)
    if kind == 0x0B:
        pattern, at = cstring(b, at, end, p)
        options, at = cstring(b, at, end, p)
        return (pattern, options), at
    bad(11, p, depth == MAX_DEPTH)
    return scope(b, at, end, p, depth) if kind == 0x0F else document(b, at, end, p, depth)


def binary(b, at, end, p):
    bad(1, p, end - at < 4)
    n = number(b, at)
    bad(2, p, n < 0)
    bad(1, p, n + 1 > end - at - 4)
    subtype, data = b[at + 4], b[at + 5:at + 5 + n]
    bad(9, p, subtype == 2 and (n < 4 or number(data, 0) != n - 4))
    return (subtype, data[4:] if subtype == 2 else data), at + 5 + n


def document(b, at, end, p, depth):
    bad(1, p, end - at < 4)
    n = number(b, at)
    bad(2, at, n < 5)
    bad(1, p, n > end - at)
    return (n, elements(b, at, at + n, depth + 1)), at + n


def scope(b, at, end, p, depth):
    bad(1, p, end - at < 4)
    total = number(b, at)
    bad(2, p, total < 14)
    bad(1, p, total > end - at)
    n = number(b, at + 4)
    bad(2, p, n < 1)
    bad(10, p, n > total - 13)
    code = b[at + 8:at + 7 + n]
    bad(6, p, not is_text(code))
    bad(7, p, b[at + 7 + n] != 0)
    inner = at + 8 + n
    bad(10, p, number(b, inner) != total - 8 - n)
    return (code, total - 8 - n, elements(b, inner, at + total, depth + 1)), at + total


# ---- the text of a document


def quoted(text):
    signs = {0x22: b'\\"', 0x5C: b"\\\\", 0x7F: b"\\x7f", **{byte: b"\\x%02x" % byte for byte in range(32)}}
    return b'"' + b"".join(signs.get(byte, bytes([byte])) for byte in text) + b'"'


def value_text(kind, value):
    """Returns the kind's word and the value, and the elements that stand inside."""
    if kind in (0x03, 0x04):
        return b"%s %d" % (CONTAINERS[kind].encode(), value[0]), value[1]
    if kind == 0x0F:
        return b"codescope %s %d" % (quoted(value[0]), value[1]), value[2]
    if kind == 0x0C:
        return b"dbpointer %s %s" % (quoted(value[0]), value[1].hex().encode()), []
    if kind == 0x0B:
        return b"regex %s %s" % (quoted(value[0]), quoted(value[1])), []
    if kind == 0x05:
        return b"binary %02x %d" % (value[0], len(value[1])) + (b" " + value[1].hex().encode() if value[1] else b""), []
    if kind == 0x08:
        return b"boolean " + (b"true" if value else b"false"), []
    if kind in STRINGS:
        return STRINGS[kind].encode() + b" " + quoted(value), []
    word = FIXED[kind][0].encode()
    if kind in (0x09, 0x10, 0x12):
        return word + b" %d" % number(value, 0, len(value)), []
    if kind == 0x11:
        return word + b" %d %d" % (number(value, 4, 4, False), number(value, 0, 4, False)), []
    return word + (b" " + value.hex().encode() if value else b""), []


def element_lines(found, deep):
    lines = []
    for kind, name, value in found:
        text, inside = value_text(kind, value)
        lines += [b"  " * deep + quoted(name) + b" " + text, *element_lines(inside, deep + 1)]
    return lines


# ---- the offsets of the lines


def inner_size(kind, value):
    """Returns the number of bytes of the document in a container's value."""
    return value[1] if kind == 0x0F else value[0]


def value_size(kind, value):
    if kind == 0x0F:
        return 4 + len(spelled_string(value[0])) + inner_size(kind, value)
    return inner_size(kind, value) if kind in CONTAINERS else len(canonical_value(kind, value))


def line_offsets(found, at):
    """Returns the offset of each element, in the order of their lines, where the first begins at this one."""
    offsets = []
    for kind, name, value in found:
        offsets.append(at)
        at += 1 + len(name) + 1 + value_size(kind, value)
        if kind in CONTAINERS:
            offsets += line_offsets(value_text(kind, value)[1], at - inner_size(kind, value) + 4)
    return offsets


def document_lines(length, found, start, flags):
    lines = [b"document %d" % length, *element_lines(found, 1)]
    if "--offsets" in flags:
        lines = [b"%d\t%s" % placed for placed in zip([start, *line_offsets(found, start + 4)], lines)]
    return b"".join(line + b"\n" for line in lines)


# ---- canonical documents


def canonical(found, is_array=False):
    """Returns the document of these elements in which the names of each array are "0", "1" and so on."""
    inner = b"".join(bytes([kind]) + (b"%d" % i if is_array else name) + b"\0" + canonical_value(kind, value) for i, (kind, name, value) in enumerate(found))
    return little(len(inner) + 5) + inner + b"\0"


def little(n):
    return (n % 2**32).to_bytes(4, "little")


def canonical_value(kind, value):
    if kind in (0x03, 0x04):
        return canonical(value[1], kind == 0x04)
    if kind == 0x0F:
        inner = spelled_string(value[0]) + canonical(value[2])
        return little(len(inner) + 4) + inner
    if kind == 0x0C:
        return spelled_string(value[0]) + value[1]
    if kind == 0x0B:
        return value[0] + b"\0" + value[1] + b"\0"
    if kind == 0x05:
        data = little(len(value[1])) + value[1] if value[0] == 2 else value[1]
        return little(len(data)) + bytes([value[0]]) + data
    if kind == 0x08:
        return bytes([value])
    return spelled_string(value) if kind in STRINGS else value


def spelled_string(text):
    return little(len(text) + 1) + text + b"\0"


# ---- messages


def refuse(cause, at, holds, inner=None):
    if holds:
        raise BadMessage(cause, at, inner)


def check_length(b):
    refuse(1, 0, not 16 <= number(b, 0, 4, False) <= MAX_MESSAGE)


def check_header(b):
    check_length(b)
    refuse(2, 12, number(b, 12) != 2013, number(b, 12))


def front_at(b, at):
    try:
        return front(b[at:])
    except Bad as fault:
        raise BadMessage(7, at, fault) from None


def message(b):
    """Returns the flags, the body and the sequences of a message with a good header, all of which is there."""
    refuse(13, 16, len(b) < 20)
    flags = number(b, 16, 4, False)
    refuse(3, 16, flags & 0xFFFC)
    refuse(4, 16, flags & 1)
    body, sequences, p = None, [], 20
    while p < len(b):
        refuse(5, p, b[p] > 1)
        if b[p] == 0:
            refuse(9, p, body)
            body = (p, *front_at(b, p + 1))
            p += 1 + body[1]
        else:
            sequences.append(sequence(b, p))
            p += 1 + number(b, p + 1)
    refuse(8, len(b), not body)
    names = [name for _, name, _ in body[2]]
    refuse(10, body[0], len(set(names)) != len(names))
    for at, name, _ in sequences:
        refuse(12, at, name in names)
    return flags, body[1:], [found[1:] for found in sequences]


def sequence(b, p):
    """Returns the place of a section, its identifier, and its documents."""
    refuse(6, p, len(b) < p + 5 or not 5 <= number(b, p + 1) <= len(b) - p - 1)
    end = p + 1 + number(b, p + 1)
    stop = b.find(0, p + 5, end)
    refuse(11, p, stop < 0 or not is_text(b[p + 5:stop]))
    found, at = [], stop + 1
    while at < end:
        found.append(front_at(b[:end], at))
        at += found[-1][0]
    return p, b[p + 5:stop], found


def numbers(b):
    """Returns the length and the ids of a message, as its first line has them."""
    return f"{len(b)} id {number(b, 4)} to {number(b, 8)}"


def message_lines(b):
    flags, body, sequences = message(b)
    words = "+".join(word for bit, word in ((1 << 1, "more"), (1 << 16, "exhaust")) if flags & bit) or "-"
    lines = [f"message {numbers(b)} flags {words}".encode(), b"body %d" % body[0], *element_lines(body[1], 1)]
    for name, documents in sequences:
        lines.append(b"sequence %s %d" % (quoted(name), len(documents)))
        for length, found in documents:
            lines += [b"  document %d" % length, *element_lines(found, 2)]
    return lines


# ---- commands: what each writes for a document, or a message, and then of a fault


class NotHex(Exception):
    """Text spells no bytes, since it has a fault at this place."""


def read_hex(text):
    """Returns the bytes that the text spells."""
    left = re.sub(rb"[ \t\r\n]", b"", text)
    if len(left) % 2 == 1:
        raise NotHex(len(left))
    other = re.search(rb"[^0-9a-fA-F]", left)
    if other:
        raise NotHex(other.start())
    return bytes.fromhex(left.decode("ascii"))


# The commands over a FILE.
COMMANDS = ("dump", "check", "canon", "json", "msg")


def one_document(command, b, flags=(), start=0):
    length, found = front(b)
    if command == "json":
        return length, document_json(found, "--relaxed" in flags)
    if command == "dump":
        return length, document_lines(length, found, start, flags)
    plain = canonical(found)
    if command == "check":
        return length, b"ok %d %s\n" % (length, b"canonical" if plain == b[:length] else b"other")
    return length, plain


def one_message(_, b, flags=(), start=0):  # pylint: disable=unused-argument
    if len(b) >= 16:
        check_header(b)
    if len(b) < 16 or len(b) < number(b, 0):
        return None, b""
    length = number(b, 0)
    return length, b"".join(line + b"\n" for line in message_lines(b[:length]))


WORDS_OF = {1: "reply", 2004: "query", 2012: "compressed", 2013: "message"}


def crc32c(b):
    """Returns the CRC-32C, as the remainder of the polynomial whose coefficients are the bits of these bytes, lowest bit first."""
    polynomial = 0x11EDC6F41
    bits = int.from_bytes(b"".join(int(f"{byte:08b}"[::-1], 2).to_bytes(1, "big") for byte in b), "big")
    left = bits << 32 ^ 0xFFFFFFFF << 8 * len(b)
    for at in reversed(range(32, left.bit_length())):
        if left >> at & 1:
            left ^= polynomial << at - 32
    return int(f"{left ^ 0xFFFFFFFF:032b}"[::-1], 2)


def one_frame(_, b, flags=(), start=0):  # pylint: disable=unused-argument
    """Returns the length and the text of a message of any opcode, in which a fault is told at its offset in the input."""
    if len(b) >= 16:
        check_length(b)
    if len(b) < 16 or len(b) < number(b, 0):
        return None, b""
    b = b[:number(b, 0)]
    opcode = number(b, 12)
    end = "" if opcode in WORDS_OF else f" opcode {opcode}"
    lines = [f"{WORDS_OF.get(opcode, 'other')} {numbers(b)}{end}".encode()]
    if opcode == 2013:
        try:
            lines = message_lines(b)
        except BadMessage as fault:
            lines.append(f"fault {fault.line(start)}".encode())
        if len(b) >= 20 and b[16] & 1:
            right = len(b) >= 24 and number(b, len(b) - 4, 4, False) == crc32c(b[:-4])
            lines.append(b"checksum " + (b"ok" if right else b"bad"))
    return len(b), b"".join(line + b"\n" for line in lines)


def bool_json(flag):
    return "true" if flag else "false"


def message_json(b, relaxed, start=0):
    """Returns the object of an OP_MSG, or else that of the header's four numbers, with the fault of an OP_MSG at its offset in the input."""
    front_part = f'{{"messageLength":{len(b)},"requestID":{number(b, 4)},"responseTo":{number(b, 8)}'
    if number(b, 12) != 2013:
        return f'{front_part},"opCode":{number(b, 12)}}}'.encode()
    try:
        flags, body, sequences = message(b)
    except BadMessage as fault:
        return f'{front_part},"opCode":2013,"fault":"fault {fault.line(start)}"}}'.encode()
    front_part += f',"moreToCome":{bool_json(flags & 1 << 1)},"exhaustAllowed":{bool_json(flags & 1 << 16)},"body":'
    lists = [b'{"identifier":%s,"documents":[%s]}' % (json_string(name).encode(), b",".join(document_json(found, relaxed) for _, found in documents))
             for name, documents in sequences]
    return b'%s%s,"sequences":[%s]}' % (front_part.encode(), document_json(body[1], relaxed), b",".join(lists))


def one_record(command, b, flags=(), start=0):
    """Returns the length and the text of a record: a line for its head and what `msg --any` writes of its message, or an object."""
    record = record_front(b)
    if not record:
        return None, b""
    length = HEAD.size + len(record.message)
    if command == "json":
        head = f'{{"time":{record.micros},"connection":{record.connection},"direction":"{record.sign}","message":'
        return length, head.encode() + message_json(record.message, "--relaxed" in flags, start + HEAD.size) + b"}"
    head = f"record {record.micros} {record.connection} {record.sign}\n"
    return length, head.encode() + one_frame(command, record.message, flags, start + HEAD.size)[1]


def found_at(b, at):
    """Returns the length of the document of at most SALVAGED bytes that stands at an offset, and else why none does."""
    if len(b) >= at + 4 and number(b, at) > SALVAGED:
        return None, f"16 TooLarge at {at}"
    try:
        return front(b[at:])[0], None
    except Bad as fault:
        return None, fault.line(at)


def salvaged(command, b):
    """Returns what is written with `--salvage`: each offset is tried, one after another, and behind a document the next one."""
    at, text, status = 0, b"", 0
    while at < len(b):
        length, fault = found_at(b, at)
        if length:
            text, at = text + one_document(command, b[at:])[1], at + length
            continue
        to = next((to for to in range(at + 1, len(b)) if found_at(b, to)[0]), len(b))
        text += f"fault {fault}\ngap {at} {to}\n".encode() if command == "check" else b""
        at, status = to, 1
    return text, status


def output(command, flags, given):
    """Returns what the command with these flags writes for an input, and its status."""
    if "--salvage" in flags:
        return salvaged(command, given)
    is_hex, is_array = "--hex" in flags, "--array" in flags
    try:
        b = read_hex(given) if is_hex else given
    except NotHex as found:
        return b"fault 0 Hex at %d\n" % found.args[0], 1
    is_file = command in ("msg", "json") and b.startswith(SIGNATURE)
    at, text, fault = len(SIGNATURE) if is_file else 0, b"", None
    while at < len(b) and not fault:
        try:
            one = one_record if is_file else one_frame if "--any" in flags else one_message if command == "msg" else one_document
            length, part = one(command, b[at:], flags, at)
            fault = None if length else f"14 EndedInside at {at}"
            if command == "json" and length:
                part = (b",\n" if text else b"[") + part if is_array else part + b"\n"
            text, at = text + part, at + (length or 0)
        except (Bad, BadMessage, BadRecord) as found:
            fault = found.line(at)
    if command == "canon" and is_hex and text:
        text = text.hex().encode() + b"\n"
    if is_array:
        text = (text or b"[") + b"]\n"
    return text + (f"fault {fault}\n".encode() if fault else b""), 1 if fault else 0
