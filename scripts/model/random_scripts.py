"""Random documents, messages and scripts, good ones and others, each by a source of chance alone."""

from play_model import FORMS
from records import HEAD, SIGNATURE
from text_model import SIZES, STRINGS, crc32c
from world_ends import Content, Message, count, echo, little, spelled
from world_model import RANGES, Limits, World
from world_schedule import BODIES, WORDS, Schedule

NAMES = [b"", b"a", b"b", b"n", b"s", b"0", b"1", b"10", b"name", "é".encode(), b"\x7f\x01\"\\"]
TEXTS = [b"", b"x", b"text", "größer".encode(), b"a\0b", b"\"\\\n", b"z" * 40]
CHECKED = (0x02, 0x05, 0x08, 0x0C, 0x0D, 0x0E)  # kinds whose values have faults of their own
LEAVES = (*SIZES, *STRINGS, 0x05, 0x08, 0x0B)

# Bodies that `count` looks at: at its most answers and one more, and at fields that it passes over.
COUNTED = [bytes.fromhex(digits) for digits in ("0c0000001073006400000000", "0c0000001073006500000000", "0c000000107300ffffffff00",
                                               "1000000012730003000000" + "0000000000", "13000000106100010000001073000200000000")]


# ---- documents


class Documents:
    """Documents by chance: small ones, of all kinds, some of which are damaged."""

    def __init__(self, chance):
        self.chance, self.faulty = chance, 0

    def errs(self):
        """Returns true if the next value is to have a fault of its own kind."""
        return self.chance.random() < self.faulty

    def count(self, n):
        """Returns the four bytes of a count or a length, or of one that is wrong."""
        wrong = self.faulty and self.chance.random() < 0.25
        return little(self.chance.choice([-1, -1, -5, 0, 1, 4, 13, n - 1, n + 1, n + 100, 2**31 - 1, -2**31]) if wrong else n)

    def string(self):
        text = self.chance.choice(TEXTS) + b"\0"
        if self.errs():
            text = self.chance.choice([b"\xc3(\0", b"\xed\xa0\x80\0", b"xx"])
        return self.count(len(text)) + text

    def cstring(self):
        return self.chance.choice(NAMES) + b"\0"

    def leaf(self, kind):
        if kind in SIZES:
            few = self.chance.random() < 0.5
            return bytes(self.chance.choice([0, 1, 3, 255]) if few else self.chance.randrange(256) for _ in range(SIZES[kind]))
        if kind == 0x05:
            data, subtype = self.chance.randbytes(self.chance.randrange(6)), self.chance.choice([0, 2, 2] if self.faulty else [0, 0, 2, 2, 4, 128])
            data = little(len(data) + self.errs()) + data if subtype == 2 else data
            return self.count(len(data)) + bytes([subtype]) + data
        if kind == 0x08:
            return self.chance.choice([b"\2", b""]) if self.errs() else self.chance.choice([b"\0", b"\1"])
        if kind == 0x0B:
            return self.cstring() + self.cstring()
        return self.string() + (self.chance.randbytes(self.chance.choice([0, 11]) if self.errs() else 12) if kind == 0x0C else b"")

    def value(self, depth):
        """Returns a kind, and a value of it."""
        if depth < 4 and self.chance.random() < 0.25:
            kind, inner = self.chance.choice([0x03, 0x04, 0x0F]), self.document(depth + 1)
            if kind == 0x04 and self.chance.random() < 0.8:
                inner = self.array(depth + 1)
            if kind == 0x0F:
                inner = self.string() + inner
                return kind, self.count(len(inner) + 4) + inner
            return kind, inner
        kind = self.chance.choice(CHECKED if self.errs() else LEAVES)
        value = self.leaf(kind)
        return 0x14 if self.faulty and self.chance.random() < 0.1 else kind, value

    def of_elements(self, names, depth):
        inner = b"".join(bytes([kind]) + name + b"\0" + value for name in names for kind, value in [self.value(depth)])
        return (self.count(len(inner) + 5) if depth > 1 else little(len(inner) + 5)) + inner + b"\0"

    def array(self, depth):
        return self.of_elements([b"%d" % i for i in range(self.chance.randrange(4))], depth)

    def document(self, depth=1):
        many = self.chance.choice([0, 1, 1, 1, 2, 3])
        names = self.chance.choices(NAMES, k=many) if self.chance.random() < 0.1 else self.chance.sample(NAMES, many)
        return self.of_elements(names, depth)

    def repeating(self):
        """Returns a document with two elements of one name."""
        name = self.chance.choice(NAMES)
        return self.of_elements([name, *self.chance.sample(NAMES, self.chance.randrange(2)), name], 1)

    def deep(self):
        """Returns a document that is nested about as deep as may be."""
        inner = BODIES[0]
        for _ in range(self.chance.choice([198, 199, 200, 201])):
            kind = self.chance.choice([0x03, 0x03, 0x04, 0x0F])
            value = little(len(inner) + 10) + b"\2\0\0\0x\0" + inner if kind == 0x0F else inner
            inner = little(len(value) + 8) + bytes([kind]) + self.chance.choice([b"a", b"0"]) + b"\0" + value + b"\0"
        return inner

    def damaged(self, b):
        """Returns bytes with one or two bytes of them otherwise, or with some more or less."""
        b = bytearray(b)
        for _ in range(self.chance.choice([1, 1, 1, 2])):
            at, how = self.chance.randrange(len(b) + 1), self.chance.random()
            if how < 0.35 and at < len(b):
                b[at] = (b[at] + self.chance.choice([1, 255])) % 256
            elif how < 0.75 and at < len(b):
                b[at] = self.chance.choice([0, 1, 2, 0x0F, 0x14, 0x80, 0xC3, 0xFF, self.chance.randrange(256)])
            elif how < 0.85:
                del b[at:at + self.chance.choice([1, 1, 4])]
            elif how < 0.95:
                b[at:at] = self.chance.choice([b"\0", b"\xff", b"\5\0\0\0\0"])
            else:
                del b[at:]
        return bytes(b)

    def cut(self, document):
        """Returns the document with some of its last bytes gone and its length right again."""
        inner = document[4:len(document) - self.chance.randrange(1, 5)]
        return little(len(inner) + 4) + inner

    def with_a_fault(self):
        """Returns a document in which each value may have a fault that its kind alone knows."""
        self.faulty = 0.6
        document = self.document()
        self.faulty = 0
        return document

    def any(self):
        """Returns a document, or bytes that are none."""
        how = self.chance.random()
        if how < 0.01:
            return self.deep()
        if how < 0.3:
            return self.with_a_fault()
        if how < 0.45:
            return self.damaged(self.document())
        return self.cut(self.document()) if how < 0.55 else self.document()


# ---- messages


class Messages(Documents):
    """Messages by chance, some of which are damaged."""

    def content(self, body):
        names = NAMES if self.chance.random() < 0.9 else [b"\xc3(", b"\xff"]
        named = [(self.chance.choice(names), self.chance.randrange(3)) for _ in range(self.chance.choice([0, 0, 0, 1, 1, 2]))]
        return Content(body, tuple((name, tuple(self.document() for _ in range(many))) for name, many in named))

    def message(self, body):
        """Returns a message of this body, with the bits of flags that are read or ignored. Few identifiers are no text."""
        content = self.content(body)
        m = Message(self.chance.choice([0, 1, 2, -1, 2**31 - 1, -2**31]), self.chance.choice([0, 0, 1, 9]), self.chance.random() < 0.2,
                    self.chance.random() < 0.4, content)
        return spelled(m, self.chance.randrange(len(content.sequences) + 1), self.chance.choice([0, 0, 2**17, 2**31]))

    def any_message(self):
        """Returns a message, or bytes that are none: of a whole body that is none, damaged anywhere, or with its fields changed."""
        how = self.chance.random()
        if how < 0.35:
            return self.message(self.any() if how < 0.3 else self.repeating())
        b = self.message(self.document())
        if how < 0.5:
            return self.damaged(b)
        if how < 0.6:
            return self.changed(bytearray(b))
        if how < 0.65:
            return self.with_checksum(b)
        return self.of_sections() if how < 0.8 else b

    def with_checksum(self, b):
        """Returns a message with the bit of flags that a CRC-32C follows, and with that, which is wrong now and then."""
        b = little(len(b) + 4) + b[4:16] + bytes([b[16] | 1]) + b[17:]
        return b + little(crc32c(b) ^ self.chance.choice([0, 0, 1]))

    def records(self, many):
        """Returns a file of records, whose heads and messages are damaged now and then; or a beginning that is damaged itself."""
        b = SIGNATURE + b"".join(self.head() + self.any_message() for _ in range(many))
        return self.damaged(b) if self.chance.random() < 0.2 else b

    def head(self):
        numbers = (self.chance.choice([0, 1, -1, 1_764_230_000_123_456, 2**63 - 1, -2**63]),
                   self.chance.choice([1, 1, 2, 9, 2**63 - 1] if self.chance.random() < 0.9 else [0, -1, -2**63]),
                   self.chance.choice([0, 1] if self.chance.random() < 0.95 else [2, -1, 256]))
        return HEAD.pack(*numbers)

    def changed(self, b):
        """Returns a message with its length, its opcode or its flags otherwise."""
        word = self.chance.choice(["length", "opcode", "flags"])
        if word == "length":
            b[0:4] = little(self.chance.choice([0, 15, 15, 16, 19, 20, len(b) - 1, len(b) + 1, 48_000_000, 48_000_001, 48_000_001, -1]))
        elif word == "opcode":
            b[12:16] = little(self.chance.choice([1, 2004, 2012, 2014, -1]))
        else:
            b[16:20] = little(1 << self.chance.choice([2, 15, 16, 17, self.chance.randrange(32)]))
        return bytes(b)

    def of_sections(self):
        """Returns a message of sections of any kind and number, some with a size that is near to theirs."""
        sections = []
        for _ in range(self.chance.choice([0, 1, 2, 3])):
            kind = self.chance.choice([0, 0, 1, 1, 2])
            inner = self.chance.choice([b"\0", b"a\0", b"\xff\0", b"a", b"\0" + BODIES[0], b"\0\6\0\0\0\0", b"\0\x09\0\0\0\0"])
            size = len(inner) + 4
            size = self.chance.choice([size - 1, size + 1, 4, 4, -1]) if self.chance.random() < 0.4 else size
            sections.append(b"\0" + self.document() if kind == 0 else bytes([kind]) + little(size) + inner)
        rest = little(0) + b"".join(sections)
        return b"".join(map(little, (len(rest) + 16, 1, 0, 2013))) + rest


# ---- scripts


class ScriptSchedule(Schedule):
    """Events of a script, most of which do something. What a raw connection is fed is damaged more often, and comes whole more
    often."""

    def __init__(self, chance, world, weights, messages):
        few = BODIES if chance.random() < 0.9 else COUNTED
        super().__init__(chance, world, messages.document if chance.random() < 0.2 else lambda: chance.choice(few), weights)
        self.messages, self.wild = messages, chance.random() < 0.5

    def message(self):
        return self.messages.any_message() if self.wild else super().message()

    def bytes(self, c):
        if self.wild and not self.coming.get(c) and self.chance.random() < 0.8:
            return self.message() or b"\0"
        return super().bytes(c) or b"\0"

    def event(self):
        for _ in range(8):
            event = super().event()
            if self.chance.random() < 0.08 or self.does_something(*event):
                break
        return event

    def does_something(self, word, c=None, *rest):
        if self.world.reasons(word, c, rest):
            return False
        k = self.world.at(c) if c else None
        if word in ("up", "raw"):
            return k.server.takes() and (word == "raw" or rest[0] and k.client.output)
        return word not in ("down", "rawtake") or rest[0] and k.server.output


WEIGHTS = [WORDS, WORDS, {"open": 6, "return": 8, "plain": 4, "clear": 2, "restart": 1, "up": 4, "down": 4, "answer": 3, "cutup": 0.5, "cutdown": 0.5},
           {"open": 1, "rawopen": 6, "raw": 20, "answer": 8, "rawtake": 4, "cutup": 1, "restart": 0.5, "clear": 0.5},
           {"open": 1, "plain": 4, "exhaust": 6, "unacknowledged": 1, "up": 6, "down": 8, "answer": 8}]

# Limits under which much happens. One that isn't here is as great as it may be.
GOOD_WORLDS = {name: [greatest] for name, (_, greatest) in RANGES.items()}
GOOD_WORLDS |= {"first_id": [1, 7, 2**31 - 2, 2**31 - 1], "window": [1, 2, 3, 8], "connections": [1, 2, 4], "limit": [26, 33, 51, 60, 200, 48_000_000]}
EDGES = {name: [least - 1, least, greatest - 1, greatest, greatest + 1, 2**32 + least, 2**64] for name, (least, greatest) in RANGES.items()}


GOOD_NUMBERS = [b"1", b"1", b"33", b"01"]
GOOD_DOCUMENTS = [b"0500000000", b"0C0000001061000100000000", b"0c0000001061000100000000"]
NEAR_NUMBERS = [b"0", b"", b"18446744073709551615", b"18446744073709551616", b"36893488147419103231", b"99999999999999999999", b"0" * 20,
                b"0" * 19 + b"1", b"0" * 20 + b"1", b"+1", b"-1", b"1.", b"1_0", b"0x1", b"one", b"1x", b"\xd9\xa1", b"\xb2"]
NEAR_DOCUMENTS = [b"0a00000008ff000100", b"", b"", b"", b"", b"00", b"050000000", b"05000000000", b"0500000001", b"050000000000",
                  b"0x0500000000", b"05 00000000", b"0g00000000", b"130000001061000100000010610002000000" + b"00"]


class Scripts:
    """Scripts by chance."""

    def __init__(self, chance):
        self.chance, self.messages = chance, Messages(chance)

    def script(self):
        """Returns the bytes of a script."""
        how = self.chance.random()
        if how < 0.06:
            return self.of_one_document()
        if how < 0.12:
            return self.of_one_world()
        if how < 0.13:
            return b"".join(self.chance.choice([b"#", b"# open", b"", b"#\xff"]) + self.ending(True) for _ in range(self.chance.randrange(4)))
        if how < 0.30:
            return self.of_one_line()
        lines = self.lines(few=how < 0.45)
        if how < 0.6:
            lines = [self.odd(line) for line in lines]
        if how < 0.45:
            self.spoil(lines)
        script = b"".join(line + self.ending(how < 0.6) for line in lines)
        if how < 0.34:
            script = self.messages.damaged(script)
        return script.removesuffix(b"\n") if self.chance.random() < 0.2 else script

    def ending(self, odd):
        return self.chance.choice([b"\n", b"\n", b"\n", b"\r\n"]) if odd else b"\n"

    def of_one_document(self):
        """Returns a script whose one call has any bytes for a document."""
        how = self.chance.random()
        body = self.messages.deep() if how < 0.15 else self.messages.with_a_fault() if how < 0.5 else self.messages.any()
        word, digits = self.chance.choice(["call", "exhaust", "send", "raw"]), body.hex()
        return f"world echo 1 8 8 48000000\nopen\n{word} 1 {digits}\nup 1 99\n".encode()

    def of_one_world(self):
        """Returns a script whose world is just good or just isn't."""
        edge = self.chance.choice([*EDGES])
        limits = Limits(*(self.chance.choice(EDGES[name] if name == edge else GOOD_WORLDS[name]) for name in RANGES))
        handler = self.chance.choice([*["echo", "count"] * 5, "stop", "Echo", ""])
        return world_line(handler, limits) + b"\nopen\nopen\n"

    def of_one_line(self):
        """Returns a script in which one line is of any words that a line may have, or nearly."""
        word = self.chance.choice([*FORMS, *(word for word in FORMS if FORMS[word]), b"raw", b"raw", b"raw", b"world", b"Open", b"close", b""])
        words, forms = [word], FORMS.get(word, "n")
        near = self.chance.randrange(len(forms) + 1)
        for i, form in enumerate(forms):
            good, others = (GOOD_DOCUMENTS, NEAR_DOCUMENTS) if form in "hb" else (GOOD_NUMBERS, NEAR_NUMBERS)
            words.append(self.chance.choice(others if i == near else good))
        if self.chance.random() < 0.15:
            words = words[:-1] if len(words) > 1 and self.chance.random() < 0.5 else words + [self.chance.choice(NEAR_NUMBERS)]
        line = words[0] + b"".join((b" " if self.chance.random() < 0.95 else self.chance.choice([b"  ", b"\t", b"", b"\0"])) + word for word in words[1:])
        around = self.chance.choice([*[b"%b"] * 15, b"%b ", b" %b", b"#%b", b" #%b", b"%b\r", b"%b\r\r", b"%b #", b"\n%b", b"\r\n%b", b"\r%b"])
        ends = self.chance.choice([b"\n", b"\nopen\n", b"\nopen", b"", b"\r", b"\r\n"])
        return self.chance.choice([b"world echo 1 8 8 48000000\nopen\n"] * 9 + [b""]) + around % line + ends

    def lines(self, few=False):
        """Returns the lines of a script in which most events are done."""
        pick = self.chance.choice
        handler, limits = pick([echo, count, count]), good_limits(pick)
        world = World(handler, None, limits)
        schedule = ScriptSchedule(self.chance, world, pick(WEIGHTS), self.messages)
        lines = [world_line(handler.__name__, limits)]
        for _ in range(pick([2, 5, 9] if few else [5, 20, 40, 80])):
            event = schedule.event()
            lines.append(spelled_event(event))
            world.step(event)
        return lines

    def odd(self, line):
        """Returns a line that says the same, and now and then lines that say nothing in front of it."""
        how = self.chance.random()
        if how < 0.05:
            return self.chance.choice([b"", b"#", b"# " + line, b"\r", b"#\xff\0"]) + b"\n" + line
        words = line.split(b" ")
        if how < 0.10 and len(words) > 1:
            at = self.chance.randrange(1, len(words))
            if words[at].isdigit() and len(words[at]) < 20 and (at == 1 or words[0] in (b"up", b"down", b"answer", b"rawtake")):
                words[at] = words[at].zfill(self.chance.choice([5, 19, 20]))
            elif words[0] in (b"call", b"exhaust", b"send", b"raw"):
                words[2] = words[2].upper()
        return b" ".join(words)

    def spoil(self, lines):
        """Makes one of the lines one of another form, or one that is near to that."""
        pick, at = self.chance.choice, self.chance.randrange(len(lines))
        line, how = lines[at], self.chance.random()
        place = self.chance.randrange(len(line) + 1)
        words = line.split(b" ")
        if how < 0.4:
            lines[at] = line[:place] + pick([b" ", b" ", b"0", b"x", b"-", b"\r", b"\t", b"#", b"\xff", b"\0"]) + line[place:]
        elif how < 0.6:
            lines[at] = line[:place] + line[place + 1:]
        elif how < 0.8:
            words[self.chance.randrange(len(words))] = pick([b"", b"1", b"18446744073709551615", b"18446744073709551616", b"9223372036854775808", b"00",
                                                             b"0" * 20, b"0" * 21, b"+1", b"0x1", b"open", b"0500000000", b"0500000001"])
            lines[at] = b" ".join(words)
        elif how < 0.95:
            less = b" ".join(words[:-1])
            lines[at] = pick([line + b" 1", less, less + b" ", line + b" ", b" " + line, b" #" + line, line.upper(), lines[0], b"close", line + b"\r"])
        else:
            lines[0] = pick([lines[-1] + b"\n" + lines[0], lines[0] + b" 1", lines[0] + b"\n" + lines[0], b" " + lines[0], lines[0] + b" "])

    def bytes(self):
        """Returns any bytes, of which some begin as documents, messages or scripts do."""
        how = self.chance.random()
        if how < 0.2:
            return self.chance.randbytes(self.chance.choice([0, 1, 4, 5, 16, 40, 200]))
        if how < 0.6:
            return b"".join(self.messages.any() for _ in range(self.chance.choice([1, 1, 2, 3])))
        if how < 0.9:
            return b"".join(self.messages.any_message() for _ in range(self.chance.choice([1, 1, 2, 3])))
        return self.messages.damaged(self.script())


def good_limits(pick):
    """Returns limits under which much happens, each picked by `pick` of its list."""
    return Limits(*(pick(GOOD_WORLDS[name]) for name in RANGES))


def world_line(handler, limits):
    """Returns the line that makes a world."""
    return " ".join(["world", handler, *map(str, limits)]).encode()


def spelled_event(event):
    """Returns the line that names an event."""
    word = {"plain": "call", "unacknowledged": "send"}.get(event[0], event[0])
    words = [part.body.hex() if isinstance(part, Content) else part.hex() if isinstance(part, bytes) else str(part) for part in event[1:]]
    return " ".join([word, *words]).encode()
