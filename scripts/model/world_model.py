"""A world of connections and its abstract machine, as the definitions have them, and what holds of both.

It is written from crates/wire_model/specs, and not from the code.
"""

from collections import namedtuple
from dataclasses import dataclass, field

from world_ends import (KINDS, MAX_U64, OPEN, Asked, Client, Pool, Server, chain, completes_header, message_len, reach,
                        spelled, split, standing)

WANTS_CLIENT = ("return", "plain", "exhaust", "unacknowledged", "up", "down", "cutdown")
WANTS_RAW = ("raw", "rawtake")
WANTS_LOAN = ("return", "plain", "exhaust", "unacknowledged")
NEEDS_UP = ("plain", "exhaust", "unacknowledged", "up", "cutup", "raw")
NEEDS_DOWN = ("plain", "exhaust", "unacknowledged", "down", "cutdown", "rawtake")
NO_MEMORY = "refused 7 OutOfMemory"
STOPPED = ("4 ReplyTooLarge", "5 NoMemory", "6 HandlerFailed")


def claim(what, holds):
    if not holds:
        raise AssertionError(what)


# The limits of a world, in the order in which its line tells them: the least and the greatest of each.
RANGES = {"first_id": (1, 2**31 - 1), "window": (1, 1024), "connections": (1, 1024), "limit": (26, 48_000_000)}


class Limits(namedtuple("Limits", RANGES)):
    def are_good(self):
        return all(least <= n <= greatest for n, (least, greatest) in zip(self, RANGES.values()))


@dataclass
class Record:
    connection: int
    asked: Asked
    state: str
    parts: list = field(default_factory=list)


@dataclass
class Entry:
    connection: int
    payload: tuple
    answers: list  # None where the handler stopped


@dataclass
class Conn:
    raw: bool
    client: Client
    server: Server
    calls: list = field(default_factory=list)
    up_cut: bool = False
    down_cut: bool = False

    def is_healthy(self):
        return not self.up_cut and not self.down_cut and self.client.state == OPEN and not self.client.outstanding


class World:
    """A world. `told` holds the steps of the machine that its last event gives, and `taken` and `given` what each server of a
    raw connection took and gave. `short` says of each growth whether memory runs out."""

    def __init__(self, handler, state, limits, short=lambda: False):
        self.handler, self.state, self.limits, self.short = handler, state, limits, short
        self.pool = Pool(limits.connections)
        self.conns, self.calls, self.log, self.told, self.taken, self.given = [], [], [], [], {}, {}

    def at(self, c):
        return self.conns[c - 1] if 1 <= c <= len(self.conns) else None

    def reasons(self, word, c, rest):
        """Returns each reason that stands against an event, behind its place in the order in which they are looked for."""
        if c is None:
            full = (word == "open" and self.pool.checked_out() == "Full") or (word == "rawopen" and self.pool.next > MAX_U64)
            return {4: "4 Full"} if full else {}
        k = self.at(c)
        if not k:
            return {0: "1 NoConnection"}
        found = {}
        if k.raw and word in WANTS_CLIENT or not k.raw and word in WANTS_RAW:
            found[1] = "8 Raw" if k.raw else "9 NotRaw"
        if word in WANTS_LOAN and c not in [d for d, _ in self.pool.lent]:
            found[2] = "3 NotLent"
        if word in NEEDS_UP and k.up_cut or word in NEEDS_DOWN and k.down_cut:
            found[3] = "2 Cut"
        if word in KINDS and k.client.refusal(word, rest[0]):
            found[5] = "5 Call " + k.client.refusal(word, rest[0])
        if word == "answer" and (k.server.state != OPEN or len(k.server.waiting) <= rest[0]):
            found[6] = "6 Answer " + ("2 Closed" if k.server.state != OPEN else "1 NoSuchRequest")
        return found

    def step(self, event):
        """Has the event happen. Returns its report, or its refusal."""
        self.told = []
        word, c, *rest = (*event, None)[:2] if len(event) < 2 else event
        reasons = self.reasons(word, c, rest)
        if word in KINDS and [5] == [*reasons] and self.short():
            return self.run_out(c)
        if reasons:
            return "refused " + reasons[min(reasons)]
        if c is None:
            return getattr(self, word)()
        report = self.call(c, word, *rest) if word in KINDS else getattr(self, {"return": "give_back"}.get(word, word))(c, *rest)
        return report or self.run_out(c)

    def run_out(self, c):
        """Drops the connection, since memory ran out."""
        self.drop(c)
        return NO_MEMORY

    def drop(self, c):
        self.end_server(c)
        self.end_client(c)
        self.settle()

    def end_server(self, c):
        k = self.at(c)
        k.server.end()
        k.up_cut = True
        self.told.append(("server_lost", c))

    def end_client(self, c):
        k = self.at(c)
        k.client.end()
        k.down_cut = True
        self.told.append(("client_lost", c))

    def settle(self):
        for record in self.calls:
            if record.state == "pending" and self.at(record.connection).client.state != OPEN:
                record.state = "lost"

    # ---- the pool

    def make(self, raw):
        client = Client(self.limits.limit, self.limits.window, self.limits.first_id, state="5 Ended" if raw else OPEN)
        self.conns.append(Conn(raw, client, Server(self.limits.limit, self.limits.window)))

    def open(self):
        if self.pool.checked_out() == "Open" and self.short():
            return NO_MEMORY
        answer, c = self.pool.check_out()[:-1].split("(")
        if answer == "Open":
            self.make(False)
            claim("a new connection is the last one", int(c) == len(self.conns))
        return f"connection {c} " + ("new" if answer == "Open" else "used")

    def rawopen(self):
        if self.short():
            return NO_MEMORY
        c = self.pool.draw()
        self.make(True)
        claim("a raw connection is the last one", c == len(self.conns))
        self.taken[c] = self.given[c] = b""
        self.told.append(("raw_opened", c))
        return f"connection {c} raw"

    def give_back(self, c):
        answer = self.pool.check_in(c, self.at(c).is_healthy())
        if answer == "Dropped":
            self.drop(c)
        return answer.lower()

    def clear(self):
        idle = self.pool.idle
        self.pool.clear()
        for c in idle:
            self.end_server(c)
            self.end_client(c)
        self.settle()
        return "ok"

    def restart(self):
        self.pool.reset()
        for c, k in enumerate(self.conns, 1):
            if not k.raw and not k.down_cut:
                self.end_client(c)
        self.settle()
        return "ok"

    def cutup(self, c):
        self.end_server(c)
        return "ok"

    def cutdown(self, c):
        self.end_client(c)
        self.settle()
        return "ok"

    # ---- bytes

    def call(self, c, kind, content):
        if self.short():
            return None
        k = self.at(c)
        allows, silent = KINDS[kind]
        asked = Asked(content, allows, silent)
        k.calls.append(len(self.calls))
        self.calls.append(Record(c, asked, "sent" if silent else "pending"))
        self.told.append(("issue", c, asked))
        return f"call {len(self.calls) - 1} id {k.client.call(kind, content)}"

    def feed_server(self, c, b):
        """Returns how many of the bytes the server takes, and whether memory runs out for the next ones."""
        k, moved = self.at(c), 0
        while moved < len(b) and k.server.takes():
            piece = b[moved:moved + reach(k.server.limit, k.server.held, b[moved:])]
            claim("a server that takes bytes takes some", piece)
            if completes_header(k.server.limit, k.server.held, piece) and self.short():
                return moved, True
            found = k.server.take(piece)
            if found:
                self.told.append(("appear", c, Asked(found.content, found.allows, found.more)) if k.raw else ("arrive", c))
            moved += len(piece)
        return moved, False

    def up(self, c, n):
        client = self.at(c).client
        moved, short = self.feed_server(c, client.output[:n])
        client.output = client.output[moved:]
        return None if short else f"moved {moved}"

    def raw(self, c, b):
        server = self.at(c).server
        before = server.state
        moved, short = self.feed_server(c, b)
        self.taken[c] += b[:moved]
        if server.state != before:
            self.told.append(("server_lost", c))
        return None if short else f"moved {moved}" + (f" closed {server.state}" if server.state != before else "")

    def rawtake(self, c, n):
        server = self.at(c).server
        if server.output[:n] and self.short():
            return None
        b, server.output = server.output[:n], server.output[n:]
        self.given[c] += b
        return "bytes " + (b.hex() or "-")

    def down(self, c, n):
        k, moved = self.at(c), 0
        while moved < n and k.server.output and k.client.state == OPEN:
            piece = k.server.output[:reach(k.client.limit, k.client.held, k.server.output[:n - moved])]
            if completes_header(k.client.limit, k.client.held, piece) and self.short():
                return None
            k.server.output = k.server.output[len(piece):]
            k.client.take(piece)
            moved += len(piece)
            if k.client.reply and self.short():
                return None
            if k.client.reply:
                call, last, part = k.client.reply
                record = self.calls[k.calls[call]]
                record.parts.append(part)
                record.state = "done" if last else record.state
                self.told.append(("give_back", c))
            k.client.release()
        if k.client.state != OPEN:
            self.told.append(("client_lost", c))
        self.settle()
        return f"moved {moved}"

    def answer(self, c, i):
        if self.short():
            return None
        server = self.at(c).server
        m = standing(server.limit, server.waiting.pop(i))
        answers, self.state = self.handler(self.state, Asked(m.content, m.allows, m.more), self.short)
        stopped = isinstance(answers, str)
        self.log.append(Entry(c, m.content, None if stopped else answers))
        if stopped:
            server.state = {"Failed": "6 HandlerFailed", "NoMemory": "5 NoMemory"}[answers]
            self.told.append(("stop", c, i, self.state))
            return f"closed {server.state}"
        replies, next_id = ([], server.next_id) if m.more else chain(server.next_id, m.id, answers)
        large = any(message_len(reply.content) > server.limit for reply in replies)
        if large or replies and self.short():
            server.state = "4 ReplyTooLarge" if large else "5 NoMemory"
            self.told.append(("log_lost", c, i, answers, self.state))
            return f"closed {server.state}"
        server.output, server.next_id = server.output + b"".join(map(spelled, replies)), next_id
        self.told.append(("answer", c, i, answers, self.state))
        return f"entry {len(self.log) - 1}"


# ---- the abstract machine


@dataclass
class Call:
    connection: int
    asked: Asked
    place: tuple
    state: str
    parts: list = field(default_factory=list)

    def entry(self):
        """Returns the entry that the place names, if it names one."""
        return self.place[1] if self.place[0] in ("answered", "mute") else None


class Machine:
    """The machine. `waiting` holds the requests that wait on each connection, in the order in which they came."""

    def __init__(self, state):
        self.calls, self.log, self.state = [], [], state
        self.raws, self.dead_clients, self.dead_servers, self.waiting = set(), set(), set(), {}

    def raw_opened(self, c):
        """The connection was raw from the start, and nothing was known of it."""
        claim("nothing is known of a new connection", all(x.connection != c for x in self.calls))
        self.raws.add(c)
        self.dead_clients.add(c)

    def issue(self, c, asked):
        claim("a call is made on a living client", c not in self.dead_clients)
        self.calls.append(Call(c, asked, ("on way",), "sent" if asked.silent else "pending"))

    def arrive(self, c):
        claim("a request arrives at a living server", c not in self.dead_servers)
        i = next(i for i, x in enumerate(self.calls) if x.connection == c and x.place == ("on way",))
        self.calls[i].place = ("waiting",)
        self.waiting.setdefault(c, []).append(i)

    def appear(self, c, asked):
        claim("a stranger appears on a raw connection", c in self.raws and c not in self.dead_servers)
        self.waiting.setdefault(c, []).append(len(self.calls))
        self.calls.append(Call(c, asked, ("waiting",), "foreign"))

    def enter(self, c, i, answers, state, mute):
        x = self.calls[self.waiting[c].pop(i)]
        claim("a request that is answered waits", x.place == ("waiting",))
        takes_more = x.asked.allows and not x.asked.silent
        claim("there are as many answers as allowed", answers is None or len(answers) == 1 or answers and takes_more)
        x.place = ("mute" if mute or x.asked.silent else "answered", len(self.log))
        self.log.append(Entry(c, x.asked.payload, answers))
        self.state = state
        return x

    def answer(self, c, i, answers, state):
        self.enter(c, i, answers, state, False)

    def log_lost(self, c, i, answers, state):
        claim("only replies are lost with the server", not self.enter(c, i, answers, state, True).asked.silent)
        self.server_lost(c)

    def stop(self, c, i, state):
        self.enter(c, i, None, state, True)
        self.server_lost(c)

    def give_back(self, c):
        claim("a part comes to a living client", c not in self.dead_clients)
        due = [x for x in self.calls if x.connection == c and x.place[0] == "answered" and len(x.parts) < len(self.log[x.place[1]].answers)]
        x = min(due, key=Call.entry)
        answers = self.log[x.entry()].answers
        x.parts.append(answers[len(x.parts)])
        if len(x.parts) == len(answers):
            x.state = "done"

    def client_lost(self, c):
        self.dead_clients.add(c)
        for x in self.calls:
            if x.connection == c and x.state == "pending":
                x.state = "lost"

    def server_lost(self, c):
        self.dead_servers.add(c)
        for x in self.calls:
            if x.connection == c and x.place[0] in ("on way", "waiting"):
                x.place = ("never",)


# ---- what holds of both


class Run:
    """A world and its machine from the start, checked after each event."""

    def __init__(self, handler, state, limits, short=lambda: False):
        self.world, self.machine, self.first = World(handler, state, limits, short), Machine(state), state
        self.done_before = []  # of each call of the machine, the entries of the calls that were done when it was made

    def step(self, event):
        touched, before, past = self.touched(event), self.seen(), self.past()
        report = self.world.step(event)
        for word, *rest in self.world.told:
            getattr(self.machine, word)(*rest)
        self.check_others(report, touched, before, self.seen())
        self.check_shown()
        self.check_headline()
        self.check_lasting(*past)
        self.check_ends()
        for c in self.world.taken:
            self.check_apart(c)
        return report

    def touched(self, event):
        """Returns the connections that the event may change."""
        w = self.world
        if event[0] == "restart":
            return {c for c, k in enumerate(w.conns, 1) if not k.raw}
        return set(w.pool.idle) if event[0] == "clear" else set(event[1:2])

    def seen(self):
        """Returns what stands apart from connections and their calls, and for each connection and each call all that it is."""
        w = self.world
        calls = {("call", i): (x.connection, repr(x)) for i, x in enumerate(w.calls)}
        return repr((w.pool, w.log, w.state)), {c: (c, repr(k)) for c, k in enumerate(w.conns, 1)} | calls

    def check_others(self, report, touched, before, after):
        if report == NO_MEMORY and touched:
            (c,) = touched
            k = self.world.at(c)
            claim("where memory runs out both ways are cut", k.up_cut and k.down_cut and OPEN not in (k.client.state, k.server.state))
            claim("where memory runs out no more changes", before[0] == after[0])
        elif report.startswith("refused"):
            claim("a refusal changes nothing", before == after)
        changed = {c for what, (c, was) in before[1].items() if after[1][what] != (c, was)}
        claim("no other connection changes", changed <= touched)

    def check_shown(self):
        w, m = self.world, self.machine
        shown = [Record(x.connection, x.asked, x.state, x.parts) for x in m.calls if x.state != "foreign"]
        claim("the world shows the machine's calls", w.calls == shown)
        claim("the world shows the machine's log", w.log == m.log and w.state == m.state)

    def check_headline(self):
        m, state = self.machine, self.first
        namers = {x.entry(): x for x in m.calls if x.entry() is not None}
        named = [x.entry() for x in m.calls if x.entry() is not None]
        claim("each entry has one call", sorted(named) == [*range(len(m.log))])
        for e, entry in enumerate(m.log):
            x = namers[e]
            answers, state = self.world.handler(state, x.asked, lambda stopped=entry.answers is None: stopped)
            claim("the log is a run", (None if isinstance(answers, str) else answers) == entry.answers)
            claim("an entry is its call's", (entry.connection, entry.payload) == (x.connection, x.asked.payload))
        claim("the log is a run to the handler", state == m.state)
        for x in m.calls:
            answers = None if x.entry() is None else m.log[x.entry()].answers
            if x.state == "done":
                claim("what is done is whole", x.place[0] == "answered" and answers == x.parts)
            if x.state != "foreign" and x.asked.silent:
                claim("a silent call holds none", x.state == "sent" and not x.parts)
            if x.state in ("pending", "lost"):
                beginning = not x.parts if answers is None else answers[:len(x.parts)] == x.parts and len(x.parts) < len(answers)
                claim("a pending call holds a beginning", beginning)
            if x.place[0] in ("mute", "never"):
                claim("a mute call is never done", x.state != "done")

    def past(self):
        """Returns the calls and the log as they stand now."""
        return [(x.connection, x.asked, x.state, [*x.parts]) for x in self.world.calls], [*self.world.log]

    def check_lasting(self, calls, log):
        w, m = self.world, self.machine
        claim("the log only grows", w.log[:len(log)] == log)
        claim("each call is still there", len(calls) <= len(w.calls))
        for (connection, asked, state, parts), x in zip(calls, w.calls):
            claim("a call keeps its connection and what it asks", (connection, asked) == (x.connection, x.asked))
            claim("a call keeps its parts", x.parts[:len(parts)] == parts)
            claim("what is done, sent or lost stays so", state == "pending" or (state, parts) == (x.state, x.parts))
        done = [x.entry() for x in m.calls if x.state == "done"]
        self.done_before += [done] * (len(m.calls) - len(self.done_before))
        for x, earlier in zip(m.calls, self.done_before):
            claim("what was done before has the earlier entry", x.entry() is None or all(e < x.entry() for e in earlier))

    def check_ends(self):
        for c, k in enumerate(self.world.conns, 1):
            ids = [o.id for o in k.client.outstanding]
            claim("ids are apart", len(set(ids)) == len(ids))
            claim("one stream at most has begun", sum(o.last is not None for o in k.client.outstanding) <= 1)
            uncut = not k.up_cut and not k.down_cut
            if uncut and not k.raw:
                claim("what isn't cut is open", k.client.state == OPEN and k.server.state in (OPEN, *STOPPED))
            if uncut and k.server.state not in STOPPED and not (k.client.output or k.server.output or k.server.waiting):
                for x in self.world.calls:
                    claim("what is quiet is done", x.connection != c or x.asked.silent or x.state == "done")

    def check_apart(self, c):
        server, log = self.world.at(c).server, self.world.log
        messages, _ = split(server.limit, self.world.taken[c])
        strangers = [x for x in self.machine.calls if x.connection == c]
        asked = [Asked(m.content, m.allows, m.more) for m in messages]
        claim("strangers are the messages", [x.asked for x in strangers] == asked)
        entries = [e for e, entry in enumerate(log) if entry.connection == c]
        turns = [next(i for i, x in enumerate(strangers) if x.entry() == e) for e in entries]
        claim("a message is answered once", len(set(turns)) == len(turns))
        given, next_id = [], 1
        for place, (index, e) in enumerate(zip(turns, entries)):
            m = messages[index]
            claim("an entry of a raw connection has its message's payload", log[e].payload == m.content)
            closed = server.state in STOPPED and place + 1 == len(turns)
            claim("only the last entry has no answers", log[e].answers is not None or closed)
            if not m.more and not closed:
                replies, next_id = chain(next_id, m.id, log[e].answers)
                given += replies
        claim("what was given are the replies", self.world.given[c] + server.output == b"".join(map(spelled, given)))
