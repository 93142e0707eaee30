"""Random events of a world."""

from play_rows import A1, EMPTY, PING, n_is
from world_ends import Content, Message, spelled

BODIES = [bytes.fromhex(body) for body in (EMPTY, A1, PING, *(n_is(k).replace("6e", "73", 1) for k in (0, 1, 2, 3, 5)))]
WORDS = {"open": 3, "rawopen": 1, "return": 2, "plain": 12, "exhaust": 8, "unacknowledged": 4, "up": 22, "down": 22, "answer": 22, "cutup": 1,
         "cutdown": 1, "clear": 0.5, "restart": 0.5, "raw": 12, "rawtake": 5}


class Schedule:
    """What happens next in a world, by chance."""

    def __init__(self, chance, world, body=None, weights=None):
        """Takes what gives a call its body, without sequences then, and how often each event comes."""
        self.chance, self.world, self.scripted = chance, world, body is not None
        self.body = body or (lambda: chance.choice(BODIES))
        self.weights = weights or WORDS
        self.coming = {}

    def content(self):
        """Returns what a call may carry. A script tells of no sequences."""
        return Content(self.body()) if self.scripted else self.content_with_sequences()

    def content_with_sequences(self):
        names = [name for name in (b"d", b"") if self.chance.random() < 0.15]
        return Content(self.body(), tuple((name, tuple(self.chance.choices(BODIES, k=self.chance.randrange(3)))) for name in names))

    def bytes(self, c):
        """Returns bytes for a raw connection: pieces of messages, some of which are damaged, or anything."""
        if self.chance.random() < 0.03:
            return self.chance.randbytes(self.chance.randrange(1, 40))
        if not self.coming.get(c):
            self.coming[c] = self.message()
        n = self.chance.choice([1, 16, 20, 99, 99])
        b, self.coming[c] = self.coming[c][:n], self.coming[c][n:]
        return b

    def message(self):
        pick, under = self.chance.choice, self.chance.randrange
        content = self.content_with_sequences()
        m = Message(under(-2**31, 2**31), under(99), self.chance.random() < 0.2, self.chance.random() < 0.4, content)
        b = bytearray(spelled(m, under(len(content.sequences) + 1), pick([0, 2**17, 2**31])))
        if self.chance.random() < 0.08:
            b[under(len(b))] = under(256)
        return bytes(b)

    def event(self):
        word = self.chance.choices([*self.weights], [*self.weights.values()])[0] if self.world.conns else self.chance.choice(["open", "open", "rawopen"])
        if word in ("open", "rawopen", "clear", "restart"):
            return (word,)
        c = self.connection(word)
        if word in ("plain", "exhaust", "unacknowledged"):
            return word, c, self.content()
        if word == "raw":
            return word, c, self.bytes(c)
        if word == "answer":
            return word, c, self.waiting(c)
        return (word, c, self.chance.choice([0, 1, 15, 16, 17, 33, 66, 300, 2**64 - 1])) if word in ("up", "down", "rawtake") else (word, c)

    def connection(self, word):
        """Returns a connection that fits the event, but for a few. The later connections are the ones that live."""
        fitting = [c for c, k in enumerate(self.world.conns, 1) if k.raw == word.startswith("raw") or word in ("answer", "cutup")]
        if fitting and self.chance.random() < 0.95:
            return self.chance.choice(fitting[-4:])
        return self.chance.randrange(len(self.world.conns) + 2)

    def waiting(self, c):
        """Returns the index of a request that waits, or the one behind them."""
        k = self.world.at(c)
        return self.chance.randrange(len(k.server.waiting) + (self.chance.random() < 0.1) or 1) if k else 0
