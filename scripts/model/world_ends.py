"""The ends of a connection as the definitions have them: messages, handlers, clients, servers and the pool.

It is written from crates/wire_peer/specs, crates/wire_pool/specs and crates/wire_msg/specs, and not from the code.
"""

from dataclasses import dataclass, field
from typing import NamedTuple

from text_model import SIZES, STRINGS, little

OPEN, MAX_ID, MAX_U64 = "open", 2**31 - 1, 2**64 - 1


# ---- documents and messages


class Fault(Exception):
    pass


def want(holds):
    if not holds:
        raise Fault


def number(b, at):
    want(at + 4 <= len(b))
    return int.from_bytes(b[at:at + 4], "little", signed=True)


def text_end(b, at, end):
    want(at <= end < len(b) and b[end] == 0)
    try:
        b[at:end].decode()
    except UnicodeDecodeError as fault:
        raise Fault from fault
    return end + 1


def cstring_end(b, at):
    return text_end(b, at, b.find(0, at))


def string_end(b, at):
    want(number(b, at) >= 1)
    return text_end(b, at + 4, at + 3 + number(b, at))


def value_end(b, kind, at, depth):
    if kind in SIZES:
        end = at + SIZES[kind]
    elif kind == 0x08:
        want(b[at:at + 1] in (b"\0", b"\1"))
        end = at + 1
    elif kind in STRINGS:
        end = string_end(b, at) + (12 if kind == 0x0C else 0)
    elif kind == 0x0B:
        end = cstring_end(b, cstring_end(b, at))
    elif kind in (0x03, 0x04):
        end = at + number(b, at)
        pairs(b[at:end], depth + 1)
    elif kind == 0x05:
        end = at + 5 + number(b, at)
        want(number(b, at) >= 0 and end <= len(b))
        want(b[at + 4] != 2 or number(b, at) >= 4 and number(b, at + 5) == number(b, at) - 4)
    else:
        want(kind == 0x0F)
        end = at + number(b, at)
        want(end > at)
        pairs(b[string_end(b[:end], at + 4):end], depth + 1)
    want(end <= len(b))
    return end


def pairs(b, depth=1):
    """Returns name, kind and value of each pair of the document that the bytes spell."""
    want(depth <= 200 and number(b, 0) == len(b) >= 5 and b[-1] == 0)
    found, at, room = [], 4, b[:-1]
    while at < len(room):
        value = cstring_end(room, at + 1)
        end = value_end(room, room[at], value, depth)
        found.append((room[at + 1:value - 1], room[at], room[value:end]))
        at = end
    return found


class Content(NamedTuple):
    body: bytes
    sequences: tuple = ()


def check_content(content):
    names = [name for name, _, _ in pairs(content.body)]
    want(len(set(names)) == len(names))
    for identifier, documents in content.sequences:
        cstring_end(identifier + b"\0", 0)
        want(identifier not in names and b"\0" not in identifier)
        for document in documents:
            pairs(document)
    return content


class Message(NamedTuple):
    id: int
    response_to: int
    more: bool
    allows: bool
    content: Content


def sequence_section(identifier, documents):
    inner = identifier + b"\0" + b"".join(documents)
    return b"\1" + little(len(inner) + 4) + inner


def spelled(message, before=0, free=0):
    """Returns the canonical spelling, or one with so many sequences before the body, and free flag bits set."""
    sections = [sequence_section(*sequence) for sequence in message.content.sequences]
    sections.insert(before, b"\0" + message.content.body)
    rest = little(message.more * 2 + message.allows * 2**16 | free) + b"".join(sections)
    return b"".join(map(little, (len(rest) + 16, message.id, message.response_to, 2013))) + rest


def message_len(content):
    return len(spelled(Message(0, 0, False, False, content)))


def sections(b):
    """Returns what the sections carry."""
    bodies, sequences = [], []
    while b:
        end = 1 + number(b, 1)
        want(b[0] in (0, 1) and 5 < end <= len(b))
        if b[0] == 0:
            bodies.append(b[1:end])
        else:
            stop, documents = b.find(0, 5, end), []
            want(stop >= 0)
            at = stop + 1
            while at < end:
                size = number(b[:end], at)
                want(5 <= size <= end - at)
                documents.append(b[at:at + size])
                at += size
            sequences.append((b[5:stop], tuple(documents)))
        b = b[end:]
    want(len(bodies) == 1)
    return Content(bodies[0], tuple(sequences))


def has_good_header(limit, b):
    return len(b) >= 16 and 16 <= int.from_bytes(b[:4], "little") <= limit and number(b, 12) == 2013


def reach(limit, held, piece):
    """Returns how many bytes are taken: up to the end of the message, or to the 16th byte of a bad header."""
    both = held + piece
    if len(both) < 16:
        return len(piece)
    return (min(len(both), number(both, 0)) if has_good_header(limit, both) else 16) - len(held)


def completes_header(limit, held, piece):
    return len(held) < 16 and has_good_header(limit, held + piece)


def standing(limit, held):
    """Returns None of open bytes, a message, or "bad"."""
    if len(held) < 16 or has_good_header(limit, held) and len(held) < number(held, 0):
        return None
    try:
        want(has_good_header(limit, held) and number(held, 0) == len(held))
        word = number(held, 16)
        want(word & 0xFFFD == 0)
        content = check_content(sections(held[20:]))
        return Message(number(held, 4), number(held, 8), word & 2 != 0, word & 2**16 != 0, content)
    except Fault:
        return "bad"


def split(limit, b):
    messages = []
    while isinstance(found := standing(limit, b[:reach(limit, b"", b)]), Message):
        messages.append(found)
        b = b[reach(limit, b"", b):]
    return messages, b


# ---- handlers: from a state and a request to answers, or why it stops, and a state


class Asked(NamedTuple):
    payload: Content
    allows: bool
    silent: bool


KINDS = {"plain": (False, False), "exhaust": (True, False), "unacknowledged": (False, True)}


def echo(state, asked, short):
    return ("NoMemory" if short() else [asked.payload]), state


def numbered(k):
    return Content(little(12) + b"\x10n\0" + little(k) + b"\0")


def count(state, asked, short):
    values = [(kind, value) for name, kind, value in pairs(asked.payload.body) if name == b"s"]
    k = number(values[0][1], 0) if values and values[0][0] == 0x10 else 0
    many = asked.allows and not asked.silent and 1 <= k <= 100
    return ("NoMemory" if short() else [numbered(i) for i in range(1, k + 1)] if many else [numbered(0)]), state


def stopping(why):
    def respond(left, asked, short):
        return (why, None) if left == 0 else (echo(None, asked, short)[0], left - 1 if left else None)
    return respond


# ---- the two ends


def id_following(i):
    return 1 if i == MAX_ID else i + 1


def free_id(i, used):
    while i in used:
        i = id_following(i)
    return i


@dataclass
class Outstanding:
    id: int
    call: int
    kind: str
    last: int = None


@dataclass
class Client:
    limit: int
    window: int
    next_id: int
    output: bytes = b""
    outstanding: list = field(default_factory=list)
    next_number: int = 0
    held: bytes = b""
    reply: tuple = None
    state: str = OPEN

    def refusal(self, kind, content):
        if self.state != OPEN:
            return "1 Closed"
        if kind != "unacknowledged" and self.window <= len(self.outstanding):
            return "2 WindowFull"
        if self.limit < message_len(content):
            return "3 TooLarge"
        return "6 NumbersSpent" if self.next_number > MAX_U64 else None

    def call(self, kind, content):
        id_ = free_id(self.next_id, [o.id for o in self.outstanding])
        allows, silent = KINDS[kind]
        self.output += spelled(Message(id_, 0, silent, allows, content))
        if not silent:
            self.outstanding.append(Outstanding(id_, self.next_number, kind))
        self.next_id, self.next_number = id_following(id_), self.next_number + 1
        return id_

    def take(self, piece):
        self.held += piece
        found = standing(self.limit, self.held)
        if found == "bad":
            self.close("1 Message")
        elif found:
            self.receive(found)

    def receive(self, m):
        streams = [o for o in self.outstanding if o.last is not None]
        if streams:
            o, cause = streams[0], "4 StreamBroken"
            belongs = m.response_to in (o.id, o.last)
        else:
            o, cause = next((o for o in self.outstanding if o.id == m.response_to), None), f"2 UnknownReply({m.response_to})"
            belongs = o is not None
        if belongs and m.more and o.kind != "exhaust":
            belongs, cause = False, "3 MoreNotAllowed"
        if not belongs:
            self.close(cause)
            return
        self.reply = (o.call, not m.more, m.content)
        if m.more:
            o.last = m.id
        else:
            self.outstanding.remove(o)

    def release(self):
        if self.reply:
            self.held, self.reply = b"", None

    def close(self, cause):
        if self.state == OPEN:
            self.state = cause

    def end(self):
        self.close("6 EndedInside" if self.held and not self.reply else "5 Ended")


@dataclass
class Server:
    limit: int
    window: int
    held: bytes = b""
    waiting: list = field(default_factory=list)
    output: bytes = b""
    next_id: int = 1
    state: str = OPEN

    def takes(self):
        return self.state == OPEN and len(self.waiting) < self.window

    def take(self, piece):
        """Takes all of the piece. Returns the message that it completes, if it does."""
        self.held += piece
        found = standing(self.limit, self.held)
        if found == "bad":
            self.state = "1 Message"
        elif found:
            self.waiting.append(self.held)
            self.held = b""
            return found
        return None

    def end(self):
        if self.state == OPEN:
            self.state = "3 EndedInside" if self.held else "2 Ended"


def chain(next_id, to, answers):
    """Returns the replies: the first to this id, each later one to the reply before it; and the id that is next."""
    messages = []
    for i, answer in enumerate(answers):
        messages.append(Message(next_id, to, i + 1 < len(answers), False, answer))
        next_id, to = id_following(next_id), next_id
    return messages, next_id


# ---- the pool


@dataclass
class Pool:
    max: int
    idle: list = field(default_factory=list)
    lent: list = field(default_factory=list)  # each as a pair: its number, and whether the pool was cleared since
    next: int = 1
    closed: bool = False

    def checked_out(self):
        if self.closed:
            return "PoolClosed"
        if self.idle:
            return "Use"
        return "Open" if self.next <= MAX_U64 and len(self.lent) < self.max else "Full"

    def check_out(self):
        answer = self.checked_out()
        if answer not in ("Use", "Open"):
            return answer
        c = self.idle.pop(0) if answer == "Use" else self.draw()
        self.lent.append((c, False))
        return f"{answer}({c})"

    def check_in(self, c, healthy):
        loan = [cleared for d, cleared in self.lent if d == c]
        if not loan:
            return "NotLent"
        self.lent = [(d, cleared) for d, cleared in self.lent if d != c]
        if healthy and not self.closed and not loan[0]:
            self.idle.insert(0, c)
            return "Kept"
        return "Dropped"

    def clear(self):
        self.idle, self.lent = [], [(c, True) for c, _ in self.lent]

    def close(self):
        self.idle, self.closed = [], True

    def reset(self):
        self.idle, self.lent = [], []

    def draw(self):
        self.next += 1
        return self.next - 1
