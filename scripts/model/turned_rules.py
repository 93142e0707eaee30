"""The rules of the models, each with a way to turn it, to see that a run of random scripts and bytes finds that.

A rule is turned by an edit of the text of scripts/model/play_model.py, world_model.py, world_ends.py, text_model.py or records.py, and the models
are then made of the texts anew.
"""

import os
import sys
import types

FOLDER = os.path.dirname(os.path.realpath(__file__))
MODELS = ("records", "text_model", "world_ends", "world_model", "play_model")

PLAY = [
    ("a CR in front of an LF is dropped", 'line.removesuffix(b"\\r") for line', "line for line"),
    ("one CR alone is dropped", 'line.removesuffix(b"\\r") for line', 'line.rstrip(b"\\r") for line'),
    ("a CR behind the last line stays", "([last] if last else [])", '([last.removesuffix(b"\\r")] if last else [])'),
    ("the last line may lack its LF", "([last] if last else [])", "[]"),
    ("lines are counted from 1", "enumerate(lines_of(script), 1)", "enumerate(lines_of(script), 0)"),
    ("empty lines are passed over", 'if line == b"" or line', "if line"),
    ("comments are passed over", 'line == b"" or line.startswith(b"#")', 'line == b""'),
    ("a comment begins its line", 'or line.startswith(b"#")', 'or line.lstrip(b" ").startswith(b"#")'),
    ("a number has 20 digits at most", "{1,20}", "{1,21}"),
    ("a number may have 20 digits", "{1,20}", "{1,19}"),
    ("a number is of digits alone", "[0-9]{1,20}", "[+]?[0-9]{1,20}"),
    ("a number is less than 2 to the 64th", "int(word) < 2**64", "int(word) < 2**65"),
    ("the greatest number fits", "int(word) < 2**64", "int(word) < 2**64 - 1"),
    ("digits of either case are read", "[0-9a-fA-F]", "[0-9a-f]"),
    ("raw bytes are one at least", "{2})+", "{2})*"),
    ("digits come in pairs", 'want(re.fullmatch(b"([0-9a-fA-F]{2})+", word))\n    return bytes.fromhex(word.decode())',
     'want(re.fullmatch(b"[0-9a-fA-F]{2,}", word))\n    return bytes.fromhex(word[:len(word) // 2 * 2].decode())'),
    ("words of an event stand one space apart", 'word, *words = line.split(b" ")\n    want(word in', "word, *words = line.split() or [line]\n    want(word in"),
    ("words of a world stand one space apart", 'word, *words = line.split(b" ")\n    want(word ==', "word, *words = line.split() or [line]\n    want(word =="),
    ("an event has no more words", "len(words) == len(FORMS[word])", "len(words) >= len(FORMS[word])"),
    ("a world has no more words", "len(words) == 1 + len(RANGES) and words[0] in handlers)\n    limits = Limits(*map(read_number, words[1:]))",
     "len(words) > len(RANGES) and words[0] in handlers)\n    limits = Limits(*map(read_number, words[1:1 + len(RANGES)]))"),
    ("the world stands once", 'or line.startswith(b"#")', 'or line.startswith(b"#") or begun and line.startswith(b"world ")'),
    ("the world stands first", 'or line.startswith(b"#")', 'or line.startswith(b"#") or not begun and line.split(b" ")[0] in FORMS'),
    ("limits are within their ranges", "want(limits.are_good())\n    ", ""),
    ("no world is told at line 1", "raise ScriptFault(1)", "raise ScriptFault(len(lines_of(script)))"),
    ("a fault has status 1", 'Script at {fault}"], 1', 'Script at {fault}"], 0'),
    ("after a fault nothing is listed", '[*lines, f"fault 15 Script at {fault}"]', '[*lines, *(listed(world) if world else []), f"fault 15 Script at {fault}"]'),
    ("parts are listed", 'for part in x.parts]', "for part in x.parts[1:]]"),
    ("calls are listed by their index", "enumerate(world.calls)", "enumerate(world.calls, 1)"),
    ("an entry is listed with its request", "entry.payload.body.hex()", "(entry.answers or [entry.payload])[0].body.hex()"),
    ("send has no reply", 'b"send": "unacknowledged"', 'b"send": "plain"'),
    ("exhaust allows more replies", 'b"send": "unacknowledged"', 'b"send": "unacknowledged", b"exhaust": "plain"'),
    ("echo and count are two handlers", 'b"count": (count, None)', 'b"count": (echo, None)'),
]

WORLD = [
    ("a first id is 1 at least", '"first_id": (1,', '"first_id": (0,'),
    ("a first id is less than 2 to the 31st", "(1, 2**31 - 1)", "(1, 2**31)"),
    ("a window is 1 at least", '"window": (1,', '"window": (0,'),
    ("a window is 1024 at most", '"window": (1, 1024)', '"window": (1, 1025)'),
    ("a limit is 26 at least", '"limit": (26,', '"limit": (25,'),
    ("a limit is 48000000 at most", "(26, 48_000_000)", "(26, 48_000_001)"),
    ("a pool has 1 connection at least", '"connections": (1,', '"connections": (0,'),
    ("a pool has 1024 connections at most", '"connections": (1, 1024)', '"connections": (1, 1025)'),
    ("connections are numbered from 1", "if 1 <= c <= len", "if 0 <= c <= len"),
    ("not lent is told before cut", 'found[2] = "3 NotLent"', 'found[4] = "3 NotLent"'),
    ("raw is told before not lent", "found[1] =", "found[3.5] ="),
    ("cut is told before why a call is refused", 'found[3] = "2 Cut"', 'found[5.5] = "2 Cut"'),
    ("closed is told before no such request", '("2 Closed" if k.server.state != OPEN else "1 NoSuchRequest")',
     '("1 NoSuchRequest" if len(k.server.waiting) <= rest[0] else "2 Closed")'),
    ("a pool that has lent all is full", '{4: "4 Full"} if full else {}', '{4: "4 PoolFull"} if full else {}'),
    ("a connection that isn't healthy is dropped", "self.pool.check_in(c, self.at(c).is_healthy())", "self.pool.check_in(c, True)"),
    ("a connection whose way up is cut isn't healthy", "return not self.up_cut and", "return"),
    ("a connection with a call isn't healthy", " and not self.client.outstanding", ""),
    ("what is dropped is cut", 'if answer == "Dropped":\n            self.drop(c)', 'if answer == "Dropped":\n            pass'),
    ("what is dropped loses its calls", "self.end_client(c)\n        self.settle()\n\n    def end_server", "self.end_client(c)\n\n    def end_server"),
    ("a server is told the end", "k.server.end()\n        ", ""),
    ("a client is told the end", "k.client.end()\n        ", ""),
    ("a cut way stays cut: up", "k.up_cut = True\n        ", ""),
    ("a cut way stays cut: down", "k.down_cut = True\n        ", ""),
    ("pending calls alone are lost", 'record.state == "pending" and', 'record.state != "sent" and'),
    ("a sent call isn't lost", 'record.state == "pending" and', 'record.state != "done" and'),
    ("a cut of the way down loses calls", "self.end_client(c)\n        self.settle()\n        return \"ok\"\n\n    # ---- bytes", "self.end_client(c)\n        return \"ok\"\n"),
    ("a cut of the way up leaves the client", "def cutup(self, c):\n        self.end_server(c)", "def cutup(self, c):\n        self.end_server(c)\n        self.end_client(c)\n        self.settle()"),
    ("a cut of the way down leaves the server", "def cutdown(self, c):\n        self.end_client(c)", "def cutdown(self, c):\n        self.end_client(c)\n        self.end_server(c)"),
    ("clear cuts idle connections", "idle = self.pool.idle\n", "idle = []\n"),
    ("clear clears the pool", "self.pool.clear()\n", "pass\n"),
    ("restart resets the pool", "self.pool.reset()\n        ", ""),
    ("restart cuts the ways down", "if not k.raw and not k.down_cut:", "if not k.raw and not k.down_cut and k.up_cut:"),
    ("restart leaves the ways up", "if not k.raw and not k.down_cut:\n                self.end_client(c)",
     "if not k.raw and not k.down_cut:\n                self.end_client(c)\n                self.end_server(c)"),
    ("restart leaves raw connections alone", "if not k.raw and not k.down_cut:", "if not k.down_cut:"),
    ("each connection begins with the first id", "self.limits.window, self.limits.first_id,", "self.limits.window, 1,"),
    ("raw connections are not lent", "c = self.pool.draw()\n", "c = self.pool.draw()\n        self.pool.lent.append((c, False))\n"),
    ("bytes that aren't taken stay", "client.output = client.output[moved:]", "client.output = client.output[n:]"),
    ("as many bytes move up as are asked for", "client.output[:n])", "client.output)"),
    ("a full waiting list takes no more", "while moved < len(b) and k.server.takes():", "while moved < len(b) and (k.server.takes() or k.server.state == OPEN):"),
    ("a close is told once", 'if server.state != before else "")', 'if server.state != OPEN else "")'),
    ("a close for raw bytes is told", 'return None if short else f"moved {moved}" + (f" closed {server.state}" if server.state != before else "")',
     'return None if short else f"moved {moved}"'),
    ("what is taken away is gone", "b, server.output = server.output[:n], server.output[n:]", "b = server.output[:n]"),
    ("as many bytes are taken away as are asked for", "b, server.output = server.output[:n], server.output[n:]", 'b, server.output = server.output, b""'),
    ("no bytes are written as a line", '(b.hex() or "-")', "b.hex()"),
    ("several replies come down at once", "            k.client.release()\n", "            k.client.release()\n            if moved > 0 and not k.client.held:\n                break\n"),
    ("a reply is a part of its call", "record.parts.append(part)", "record.parts[:] = [part]"),
    ("a call is done with its last part", 'record.state = "done" if last else record.state', "pass"),
    ("a stream isn't done before its last part", 'record.state = "done" if last else record.state', 'record.state = "done"'),
    ("a request is answered by its index", "server.waiting.pop(i)", "server.waiting.pop(0)"),
    ("an answered request waits no more", "server.waiting.pop(i)", "server.waiting[i]"),
    ("a silent request has no reply", "([], server.next_id) if m.more else chain(server.next_id, m.id, answers)", "chain(server.next_id, m.id, answers)"),
    ("a reply that is too large closes its server", "large = any(", "large = False and any("),
    ("a reply that is just small enough doesn't", "message_len(reply.content) > server.limit", "message_len(reply.content) >= server.limit"),
    ("a server that closes has its entry", 'large else "5 NoMemory"\n', 'large else "5 NoMemory"\n            self.log.pop()\n'),
    ("reply ids go on", "b\"\".join(map(spelled, replies)), next_id", "b\"\".join(map(spelled, replies)), 1"),
    ("an entry has the answers", "None if stopped else answers))", "None if stopped else answers[:1]))"),
    ("an answer makes an entry", 'return f"entry {len(self.log) - 1}"', 'return f"entry {len(self.log)}"'),
]

# The words of these lists, each taken out of its list.
LISTS = [("WANTS_CLIENT", "{} wants a client"), ("WANTS_RAW", "{} wants a raw connection"), ("WANTS_LOAN", "{} wants a lent connection"),
         ("NEEDS_UP", "{} needs the way up"), ("NEEDS_DOWN", "{} needs the way down")]

ENDS = [
    ("a boolean is 00 or 01", '(b"\\0", b"\\1"))', '(b"\\0", b"\\1", b"\\2"))'),
    ("a string ends with 00", "at <= end < len(b) and b[end] == 0", "at <= end < len(b)"),
    ("texts are UTF-8", "        b[at:end].decode()", '        b[at:end].decode("latin-1")'),
    ("an id follows the text of a DBPointer", "(12 if kind == 0x0C else 0)", "0"),
    ("a regular expression has options", "cstring_end(b, cstring_end(b, at))", "cstring_end(b, at)"),
    ("a document inside is checked", "pairs(b[at:end], depth + 1)", "want(number(b, at) >= 5)"),
    ("a scope is checked", "pairs(b[string_end(b[:end], at + 4):end], depth + 1)", "string_end(b[:end], at + 4)"),
    ("the data of an old binary have an inner count", "want(b[at + 4] != 2 or", "want(True or"),
    ("the inner count of an old binary is the rest", "number(b, at + 5) == number(b, at) - 4", "number(b, at + 5) >= 0"),
    ("a document is nested 200 deep at most", "depth <= 200", "depth <= 201"),
    ("a document may be nested 200 deep", "depth <= 200", "depth <= 199"),
    ("a document ends with 00", "and b[-1] == 0", ""),
    ("a document's length is its own", "number(b, 0) == len(b) >= 5", "len(b) >= 5"),
    ("a name ends before its document", "found, at, room = [], 4, b[:-1]", "found, at, room = [], 4, b"),
    ("a body's names are apart", "want(len(set(names)) == len(names))\n", "pass\n"),
    ("names inside may repeat", "        at = end\n    return found", "        at = end\n    want(len({name for name, _, _ in found}) == len(found))\n    return found"),
    ("an identifier is no name of the body", "want(identifier not in names and", "want("),
    ("identifiers may repeat", "    return content\n\n\nclass Message", "    want(len({name for name, _ in content.sequences}) == len(content.sequences))\n    return content\n\n\nclass Message"),
    ("an identifier is UTF-8", 'cstring_end(identifier + b"\\0", 0)\n        ', ""),
    ("an identifier may be empty", 'want(identifier not in names', 'want(identifier and identifier not in names'),
    ("documents of a sequence are checked", "            pairs(document)", "            pass"),
    ("a section is of kind 0 or 1", "b[0] in (0, 1)", "b[0] in (0, 1, 2)"),
    ("a message has one body at most", "want(len(bodies) == 1)", "want(len(bodies) >= 1)"),
    ("a body may stand behind a sequence", "bodies.append(b[1:end])", "want(not sequences)\n            bodies.append(b[1:end])"),
    ("bit 2 of the flags is refused", "word & 0xFFFD == 0", "word & 0xFFF9 == 0"),
    ("bit 0 of the flags is refused", "word & 0xFFFD == 0", "word & 0xFFFC == 0"),
    ("bit 17 of the flags is ignored", "word & 0xFFFD == 0", "word & 0x2FFFD == 0"),
    ("bit 1 of the flags makes a request silent", "word & 2 != 0, word & 2**16", "False, word & 2**16"),
    ("bit 16 of the flags allows more replies", "word & 2**16 != 0, content", "False, content"),
    ("the opcode is 2013", "number(b, 12) == 2013\n", "number(b, 12) in (2012, 2013)\n"),
    ("a message within the limit is taken", '"little") <= limit', '"little") < limit'),
    ("a message past the limit isn't taken", '"little") <= limit', '"little") <= limit + 1'),
    ("a bad header is told after 16 bytes", "else 16) - len(held)", "else 20) - len(held)"),
    ("echo answers with the payload", "[asked.payload]), state", "[numbered(0)]), state"),
    ("count counts to 100", "1 <= k <= 100", "1 <= k <= 99"),
    ("count counts no further than 100", "1 <= k <= 100", "1 <= k <= 101"),
    ("count counts from 1", "range(1, k + 1)", "range(k)"),
    ("count takes an int32", "values[0][0] == 0x10", "values[0][0] in (0x10, 0x12)"),
    ("count gives many only where they are allowed", "many = asked.allows and", "many ="),
    ("count gives a silent request one answer", "and not asked.silent and", "and"),
    ("ids go round to 1", "1 if i == MAX_ID else i + 1", "0 if i == MAX_ID else i + 1"),
    ("an exhaust request allows more", '"exhaust": (True, False)', '"exhaust": (False, False)'),
    ("an unacknowledged request is silent", '"unacknowledged": (False, True)}', '"unacknowledged": (False, False)}'),
    ("a full window is told before a message that is too large",
     '        if kind != "unacknowledged" and self.window <= len(self.outstanding):\n            return "2 WindowFull"\n        if self.limit < message_len(content):\n            return "3 TooLarge"\n',
     '        if self.limit < message_len(content):\n            return "3 TooLarge"\n        if kind != "unacknowledged" and self.window <= len(self.outstanding):\n            return "2 WindowFull"\n'),
    ("an unacknowledged call needs no window", 'if kind != "unacknowledged" and self.window', "if self.window"),
    ("a window has as many calls as it says", "self.window <= len(self.outstanding)", "self.window < len(self.outstanding)"),
    ("a request may be as long as the limit", "self.limit < message_len(content)", "self.limit <= message_len(content)"),
    ("an unacknowledged call uses an id", "self.next_id, self.next_number = id_following(id_)", "self.next_id, self.next_number = id_ if silent else id_following(id_)"),
    ("an unacknowledged call isn't outstanding", "        if not silent:\n", "        if True:\n"),
    ("a reply goes to the call of its id", "if o.id == m.response_to), None)", "), None)"),
    ("in a stream a reply goes to the stream", "if streams:", "if streams and not any(o.id == m.response_to for o in self.outstanding if o.last is None):"),
    ("a reply that says more isn't the last", "(o.call, not m.more, m.content)", "(o.call, True, m.content)"),
    ("a server keeps to its window", "len(self.waiting) < self.window", "len(self.waiting) <= self.window"),
    ("a closed server takes nothing", "return self.state == OPEN and len", "return len"),
    ("each later reply answers the one before", "next_id, to = id_following(next_id), next_id", "next_id = id_following(next_id)"),
    ("the last reply says no more", "i + 1 < len(answers)", "True"),
    ("reply ids begin with 1", "output: bytes = b\"\"\n    next_id: int = 1", "output: bytes = b\"\"\n    next_id: int = 0"),
    ("a value ends within its document", "    want(end <= len(b))\n    return end", "    return end"),
    ("a message says in bit 1 that more follow", "little(message.more * 2 +", "little(0 +"),
    ("a message says in bit 16 that more are allowed", "message.allows * 2**16 | free", "0 | free"),
    ("the size of a section counts its own four bytes", "little(len(inner) + 4)", "little(len(inner))"),
    ("a canonical spelling has its body first", "sections.insert(before,", "sections.insert(before or len(sections),"),
    ("a message's id stands before the one that it answers", "message.id, message.response_to, 2013", "message.response_to, message.id, 2013"),
    ("an idle connection is used first", "        if self.idle:\n", "        if self.idle and len(self.lent) >= self.max:\n"),
    ("as many are lent as may be", "len(self.lent) < self.max", "len(self.lent) <= self.max"),
    ("the one returned last is used first", "self.idle.insert(0, c)", "self.idle.append(c)"),
    ("what is lent when the pool is cleared isn't kept", "not self.closed and not loan[0]", "not self.closed"),
    ("clear forgets what is idle", "self.idle, self.lent = [], [(c, True)", "self.lent = [(c, True)"),
    ("reset forgets what is lent", "self.idle, self.lent = [], []", "self.idle = []"),
    ("reset forgets what is idle", "self.idle, self.lent = [], []", "self.lent = []"),
]

TEXTS = [
    *((f"a value of kind {kind} has {size} bytes", f'{kind}: ("{word}", {size})', f'{kind}: ("{word}", {other})')
      for kind, word, size, other in (("0x01", "double", 8, 7), ("0x06", "undefined", 0, 1), ("0x07", "objectid", 12, 11), ("0x09", "datetime", 8, 7),
                                      ("0x0A", "null", 0, 1), ("0x10", "int32", 4, 5), ("0x11", "timestamp", 8, 9), ("0x12", "int64", 8, 7),
                                      ("0x13", "decimal128", 16, 15), ("0xFF", "minkey", 0, 1), ("0x7F", "maxkey", 0, 1))),
    ("14 is no kind", '0x7F: ("maxkey", 0)}', '0x7F: ("maxkey", 0), 0x14: ("none", 0)}'),
    ("a document has 4 bytes at least", "bad(1, 0, len(b) < 4)\n    length", "bad(2, 0, len(b) < 4)\n    length"),
    ("a document's length is 5 at least", "bad(2, 0, length < 5)", "bad(1, 0, length < 5)"),
    ("a document ends within the input", "bad(1, 0, length > len(b))", "bad(2, 0, length > len(b))"),
    ("a container's last byte is told before its elements", "bad(3, start, b[end - 1] != 0)\n    ", ""),
    ("an end is told at its container", "bad(3, start, b[p] == 0)", "bad(3, p, b[p] == 0)"),
    ("a kind is told at its element", "bad(4, p, b[p] not in KINDS)", "bad(4, start, b[p] not in KINDS)"),
    ("a name ends before its container", "bad(1, p, stop < 0)\n    bad(5", "bad(3, p, stop < 0)\n    bad(5"),
    ("a name is UTF-8", "bad(5, p, not is_text(b[at:stop]))\n    ", ""),
    ("the count of a string has 4 bytes", "bad(1, p, end - at < 4)\n    n = number(b, at)\n    bad(2, p, n < 1)", "bad(2, p, end - at < 4)\n    n = number(b, at)\n    bad(2, p, n < 1)"),
    ("the count of a string is 1 at least", "n = number(b, at)\n    bad(2, p, n < 1)\n    bad(1,", "n = number(b, at)\n    bad(1, p, n < 1)\n    bad(1,"),
    ("a string ends within its container", "bad(1, p, n > end - at - 4)", "bad(2, p, n > end - at - 4)"),
    ("the text of a string is told before its end",
     "bad(6, p, not is_text(b[at + 4:at + 3 + n]))\n    bad(7, p, b[at + 3 + n] != 0)", "bad(7, p, b[at + 3 + n] != 0)\n    bad(6, p, not is_text(b[at + 4:at + 3 + n]))"),
    ("a string's last byte is 00", "    bad(7, p, b[at + 3 + n] != 0)\n", ""),
    ("a value of a fixed size is all there", "bad(1, p, end - at < size)", "bad(2, p, end - at < size)"),
    ("a boolean has a byte", "bad(1, p, end - at < 1)", "bad(8, p, end - at < 1)"),
    ("a boolean is 00 or 01 in texts", "bad(8, p, b[at] > 1)", "bad(8, p, b[at] > 2)"),
    ("a DBPointer has an id", "bad(1, p, end - at < 12)", "bad(2, p, end - at < 12)"),
    ("the count of a binary has 4 bytes", "def binary(b, at, end, p):\n    bad(1,", "def binary(b, at, end, p):\n    bad(2,"),
    ("the count of a binary is 0 at least", "bad(2, p, n < 0)", "bad(1, p, n < 0)"),
    ("a binary ends within its container", "bad(1, p, n + 1 > end - at - 4)", "bad(2, p, n + 1 > end - at - 4)"),
    ("an old binary has an inner count", "bad(9, p, subtype == 2 and (n < 4 or number(data, 0) != n - 4))\n    ", ""),
    ("an old binary is shown without its inner count", "(subtype, data[4:] if subtype == 2 else data), at + 5 + n", "(subtype, data), at + 5 + n"),
    ("depth is told at the element", "bad(11, p, depth == MAX_DEPTH)", "bad(11, at, depth == MAX_DEPTH)"),
    ("depth is 200", "bad(11, p, depth == MAX_DEPTH)", "bad(11, p, depth == MAX_DEPTH + 1)"),
    ("the length of a document inside has 4 bytes", "def document(b, at, end, p, depth):\n    bad(1,", "def document(b, at, end, p, depth):\n    bad(2,"),
    ("the length of a document inside is told there", "bad(2, at, n < 5)", "bad(2, p, n < 5)"),
    ("a document inside ends within its container", "bad(1, p, n > end - at)\n    return (n", "bad(2, p, n > end - at)\n    return (n"),
    ("the length of a code with scope has 4 bytes", "def scope(b, at, end, p, depth):\n    bad(1,", "def scope(b, at, end, p, depth):\n    bad(2,"),
    ("a code with scope has 14 bytes at least", "bad(2, p, total < 14)", "bad(10, p, total < 14)"),
    ("a code with scope ends within its container", "bad(1, p, total > end - at)", "bad(2, p, total > end - at)"),
    ("a code has 1 byte at least", "bad(2, p, n < 1)\n    bad(10", "bad(10, p, n < 1)\n    bad(10"),
    ("a code leaves room for a scope", "bad(10, p, n > total - 13)", "bad(1, p, n > total - 13)"),
    ("a code is UTF-8", "bad(6, p, not is_text(code))", "bad(5, p, not is_text(code))"),
    ("a code ends with 00", "    bad(7, p, b[at + 7 + n] != 0)\n", ""),
    ("a scope fills the rest", "bad(10, p, number(b, inner) != total - 8 - n)", "bad(2, p, number(b, inner) != total - 8 - n)"),
    ("quotes are escaped", "0x22: b'\\\\\"', ", ""),
    ("backslashes are escaped", '0x5C: b"\\\\\\\\", ', ""),
    ("7f is escaped", '0x7F: b"\\\\x7f", ', ""),
    ("other bytes are escaped up to 1f", "for byte in range(32)", "for byte in range(31, 32)"),
    ("empty data are not written", ' + (b" " + value[1].hex().encode() if value[1] else b"")', ' + b" " + value[1].hex().encode()'),
    ("subtypes have two digits", 'b"binary %02x %d"', 'b"binary %x %d"'),
    ("truth values are words", '(b"true" if value else b"false")', 'b"%d" % value'),
    ("numbers are signed", "number(value, 0, len(value)), []", "number(value, 0, len(value), False), []"),
    ("seconds of a timestamp come first", "(number(value, 4, 4, False), number(value, 0, 4, False))", "(number(value, 0, 4, False), number(value, 4, 4, False))"),
    ("a timestamp is unsigned", "number(value, 4, 4, False), number", "number(value, 4, 4), number"),
    ("elements inside are one deeper", "element_lines(inside, deep + 1)", "element_lines(inside, deep)"),
    ("names of arrays are shown as written", "for kind, name, value in found:\n        text", "for i, (kind, name, value) in enumerate(found):\n        name = b\"%d\" % i if name.isdigit() else name\n        text"),
    ("a document's line has the offset of its first byte", "zip([start, *", "zip([start + 4, *"),
    ("offsets count from the first byte of the input", "line_offsets(found, start + 4)", "line_offsets(found, 4)"),
    ("a byte ends a name", "1 + len(name) + 1 + value_size", "1 + len(name) + value_size"),
    ("an inner document ends with its element", "at - inner_size(kind, value) + 4)", "at - value_size(kind, value) + 4)"),
    ("names of arrays become decimal", '(b"%d" % i if is_array else name)', "name"),
    ("names of documents stay", '(b"%d" % i if is_array else name)', '(b"%d" % i if is_array or name.isdigit() else name)'),
    ("documents in arrays keep their names", "canonical(value[1], kind == 0x04)", "canonical(value[1], True)"),
    ("a scope becomes canonical", "spelled_string(value[0]) + canonical(value[2])", "spelled_string(value[0]) + canonical(value[2], True)"),
    ("an old binary keeps its inner count", "if value[0] == 2 else value[1]", "if not value else value[1]"),
    ("a message has 16 bytes at least", "not 16 <= number(b, 0, 4, False) <=", "not 15 <= number(b, 0, 4, False) <="),
    ("a message has 48000000 bytes at most", "number(b, 0, 4, False) <= MAX_MESSAGE", "number(b, 0, 4, False) <= MAX_MESSAGE + 1"),
    ("a message may have 48000000 bytes", "number(b, 0, 4, False) <= MAX_MESSAGE", "number(b, 0, 4, False) < MAX_MESSAGE"),
    ("the length is told before the opcode",
     "    check_length(b)\n    refuse(2, 12, number(b, 12) != 2013, number(b, 12))",
     "    refuse(2, 12, number(b, 12) != 2013, number(b, 12))\n    check_length(b)"),
    ("a bad header is told before the end of the input", "    if len(b) >= 16:\n        check_header(b)\n", "    if len(b) >= 16 and len(b) >= number(b, 0):\n        check_header(b)\n"),
    ("flags have 4 bytes", "refuse(13, 16, len(b) < 20)", "refuse(1, 0, len(b) < 20)"),
    ("unknown flags are told before the checksum", "    refuse(3, 16, flags & 0xFFFC)\n    refuse(4, 16, flags & 1)", "    refuse(4, 16, flags & 1)\n    refuse(3, 16, flags & 0xFFFC)"),
    ("a checksum is refused", "    refuse(4, 16, flags & 1)\n", ""),
    ("a right checksum is told", 'b"ok" if right else b"bad"', 'b"bad"'),
    ("bit 15 of the flags is unknown", "flags & 0xFFFC", "flags & 0x7FFC"),
    ("bit 17 of the flags is passed over", "flags & 0xFFFC", "flags & 0x2FFFC"),
    ("a kind of section is told at its byte", "refuse(5, p, b[p] > 1)", "refuse(5, p + 1, b[p] > 1)"),
    ("a second body is refused", "            refuse(9, p, body)\n", ""),
    ("a message without a body is told at its end", "refuse(8, len(b), not body)", "refuse(8, 20, not body)"),
    ("repeated names are told at the body", "refuse(10, body[0],", "refuse(10, 20,"),
    ("an identifier is no name of a body", "refuse(12, at, name in names)", "refuse(12, body[0], name in names)"),
    ("the size of a section is 5 at least", "not 5 <= number(b, p + 1)", "not 4 <= number(b, p + 1)"),
    ("the size of a section ends within the message", "refuse(6, p, len(b) < p + 5 or", "refuse(5, p, len(b) < p + 5 or"),
    ("an identifier ends within its section", "refuse(11, p, stop < 0 or", "refuse(6, p, stop < 0 or"),
    ("an identifier is text", "stop < 0 or not is_text(b[p + 5:stop])", "stop < 0"),
    ("a document of a section ends within it", "front_at(b[:end], at)", "front_at(b, at)"),
    ("flags are told as words", '"+".join(word', '",".join(word'),
    ("a message's own id is told first", "id {number(b, 4)} to {number(b, 8)}", "id {number(b, 8)} to {number(b, 4)}"),
    ("a body is two spaces deep", "b\"body %d\" % body[0], *element_lines(body[1], 1)", "b\"body %d\" % body[0], *element_lines(body[1], 0)"),
    ("documents of a sequence are four spaces deep", "element_lines(found, 2)", "element_lines(found, 1)"),
    ("documents of a sequence are counted", "quoted(name), len(documents))", "quoted(name), sum(size for size, _ in documents))"),
    ("the place of a document's fault is counted from its first byte", "{self.inner.line(0)}", "{self.inner.line(start)}"),
    ("an opcode is told", '2 Opcode {self.inner} at', '2 Opcode at'),
    ("white space between digits is passed over", r'rb"[ \t\r\n]"', r'rb"[ \t\n]"'),
    ("an odd number of digits is told by their number", "raise NotHex(len(left))", "raise NotHex(len(left) - 1)"),
    ("an odd number of digits is told before a wrong one", "if len(left) % 2 == 1:", 'if len(left) % 2 == 1 and re.match(rb"[0-9a-fA-F]*$", left):'),
    ("a wrong digit is told by its place without white space", "raise NotHex(other.start())", "raise NotHex(text.index(other.group()))"),
    ("digits of either case are digits", 'rb"[^0-9a-fA-F]"', 'rb"[^0-9a-f]"'),
    ("check tells whether a document is canonical", "if plain == b[:length] else", "if True else"),
    ("documents are counted from the input's start", "fault = found.line(at)", "fault = found.line(0)"),
    ("an input that ends inside a message is told at its start", "14 EndedInside at {at}", "14 EndedInside at {len(b)}"),
    ("canon writes its digits in one line", 'text = text.hex().encode() + b"\\n"', "text = text.hex().encode()"),
    ("canon writes no line of digits without a document", "if command == \"canon\" and is_hex and text:", "if command == \"canon\" and is_hex:"),
    ("what stood before a fault is written", 'return text + (f"fault', 'return (b"" if fault else text) + (f"fault'),
    ("a gap ends with the next document", "range(at + 1, len(b)) if", "range(at + 2, len(b)) if"),
    ("a gap begins where no document does", "gap {at} {to}", "gap {at + 1} {to}"),
    ("a gap has the fault of its first byte", "fault {fault}\\ngap", "fault {found_at(b, to - 1)[1]}\\ngap"),
    ("the last gap ends with the input", "if found_at(b, to)[0]), len(b))", "if found_at(b, to)[0]), len(b) + 1)"),
    ("a length above the limit is no document's", "number(b, at) > SALVAGED", "number(b, at) > 2**31"),
    ("canon writes no gaps", 'if command == "check" else b""', 'if command else b""'),
    ("a fault in a record's message counts from the file's start", "record.message, flags, start + HEAD.size)", "record.message, flags, HEAD.size)"),
    ("one in the object of a record's message counts so, too", '"--relaxed" in flags, start + HEAD.size)', '"--relaxed" in flags, HEAD.size)'),
    ("an object of no OP_MSG has its opcode", "if number(b, 12) != 2013:\n        return", "if False:\n        return"),
    ("an object of an OP_MSG at fault has its fault", ',"fault":"fault {fault.line(start)}"', ""),
    ("items of an array of records begin with a comma but the first", 'b",\\n" if text else', 'b",\\n" if at else'),
    ("a gap has status 1", "at, status = to, 1", "at, status = to, 0"),
]

RECORDS = [
    ("a connection of a record is 1 at least", "if connection < 1:", "if connection < 0:"),
    ("a connection of a record is told at its offset", "raise BadRecord(17, 8)", "raise BadRecord(17, 0)"),
    ("a direction of a record is told at its offset", "raise BadRecord(18, 16)", "raise BadRecord(18, 8)"),
    ("a connection of a record is told before its direction",
     "    if connection < 1:\n        raise BadRecord(17, 8)\n    if direction not in (0, 1):\n        raise BadRecord(18, 16)\n",
     "    if direction not in (0, 1):\n        raise BadRecord(18, 16)\n    if connection < 1:\n        raise BadRecord(17, 8)\n"),
    ("the length of a record's message is told at its offset", "raise BadRecord(1, HEAD.size)", "raise BadRecord(1, 0)"),
    ("a message to the server has the sign >", 'SIGNS = (">", "<")', 'SIGNS = ("<", ">")'),
    ("a file of records has eight bytes in front", 'SIGNATURE = b"LUGHREC1"', 'SIGNATURE = b"LUGHREC2"'),
]


def source_of(model):
    with open(os.path.join(FOLDER, f"{model}.py"), encoding="utf-8") as file:
        return file.read()


# No script cuts the way down of a raw connection, since memory doesn't run out.
UNSEEN = ("rawtake needs the way down",)


def list_rules():
    """Returns a rule for each word of each list of events."""
    source, rules = source_of("world_model"), []
    for name, form in LISTS:
        line = next(line for line in source.split("\n") if line.startswith(f"{name} = "))
        for word in line.split("(")[1].rstrip(")").split(", "):
            rules.append((form.format(word.strip('"')), line, line.replace(word, '""', 1)))
    return [rule for rule in rules if rule[0] not in UNSEEN]


def rules():
    """Returns each rule by its name, with the model and the edit that turns it."""
    tables = [("play_model", PLAY), ("world_model", WORLD), ("world_model", list_rules()), ("world_ends", ENDS), ("text_model", TEXTS), ("records", RECORDS)]
    return {name: (model, old, new) for model, table in tables for name, old, new in table}


def made(turned=None):
    """Returns the models that stand when a rule is turned: what `play` writes, and what the other commands do."""
    model, old, new = rules()[turned] if turned else (None, None, None)
    kept = {name: sys.modules.pop(name, None) for name in MODELS}
    try:
        for name in MODELS:
            source = source_of(name)
            if name == model:
                if source.count(old) != 1:
                    raise ValueError(f"the edit for {turned!r} doesn't stand once in {name}.py")
                source = source.replace(old, new)
            sys.modules[name] = types.ModuleType(name)
            sys.modules[name].__file__ = os.path.join(FOLDER, f"{name}.py")
            exec(compile(source, f"{name}.py", "exec"), sys.modules[name].__dict__)  # pylint: disable=exec-used
        return sys.modules["play_model"].play, sys.modules["text_model"].output
    finally:
        for name, module in kept.items():
            if module:
                sys.modules[name] = module
            else:
                sys.modules.pop(name, None)
