"""Scripts of `play`, each with the output that is expected of it, worked out by hand from the definitions.

ROWS lists each row's name, the bytes of its script, and the lines of its output. The status is 1 where the last of these tells
a fault, and else 0.
"""

# ---- documents and messages in hexadecimal digits

A1 = "0c0000001061000100000000"  # {"a": 1}
A2 = "0c0000001061000200000000"  # {"a": 2}
S3 = "0c0000001073000300000000"  # {"s": 3}
PING = "1e0000001070696e67000100000002246462000600000061646d696e0000"  # {"ping": 1, "$db": "admin"}
EMPTY = "0500000000"


def n_is(k):
    """Returns {"n": k}."""
    return f"0c000000106e00{k:02x}00000000"


def nested(depth):
    """Returns a document of this depth, each in the one before."""
    document = EMPTY
    for _ in range(depth - 1):
        document = (len(document) // 2 + 8).to_bytes(4, "little").hex() + "036100" + document + "00"
    return document


def header(length, id_, to, flags=0):
    """Returns what stands in a message of one body in front of that."""
    return b"".join((n % 2**32).to_bytes(4, "little") for n in (length, id_, to, 2013, flags)).hex() + "00"


REQUEST, REPLY = header(33, 1, 0) + A1, header(33, 1, 1) + A1

# ---- parts of scripts, and of outputs

START, STARTED = ["world echo 1 8 8 48000000", "open"], ["world", "connection 1 new"]
COUNT = ["world count 1 8 8 48000000", "open"]
TWO = [*START, f"call 1 {A1}", f"call 1 {A2}"]
TWO_MADE = [*STARTED, "call 0 id 1", "call 1 id 2"]
SWAP = [*TWO, "up 1 66", "answer 1 1", "answer 1 0"]
SWAPPED = [*TWO_MADE, "moved 66", "entry 0", "entry 1"]
STREAM = ["world count 2147483647 8 8 48000000", "open", f"exhaust 1 {S3}", "up 1 33", "answer 1 0"]
STREAMED = [*STARTED, "call 0 id 2147483647", "moved 33", "entry 0"]
MIXED = [*COUNT, f"call 1 {A1}", f"exhaust 1 {S3}", f"call 1 {A2}", "up 1 99", "answer 1 1", "answer 1 0", "answer 1 0"]


def listed(calls, entries):
    """Returns the lines that end an output: of each call its connection, its words and its parts, and of each entry its
    connection, its words and its body."""
    lines = [f"calls {len(calls)}"]
    for i, (c, words, *parts) in enumerate(calls):
        lines += [f"call {i} connection {c} {words} {len(parts)}", *(f"part {part}" for part in parts)]
    return [*lines, f"entries {len(entries)}", *(f"entry {e} connection {c} {words} body {body}" for e, (c, words, body) in enumerate(entries))]


NOTHING = listed([], [])
TWO_SWAPPED = [(1, "answers 1", A2), (1, "answers 1", A1)]
BOTH_DONE = listed([(1, "plain done", A1), (1, "plain done", A2)], TWO_SWAPPED)
BOTH_PENDING = listed([(1, "plain pending")] * 2, [])


# ---- runs

RUNS = [
    ("an unacknowledged call gets no reply",
     [*START, f"send 1 {PING}", "up 1 51", "answer 1 0", "down 1 1"],
     [*STARTED, "call 0 id 1", "moved 51", "entry 0", "moved 0", *listed([(1, "unacknowledged sent")], [(1, "answers 1", PING)])]),
    ("answers out of order reach their calls", [*SWAP, "down 1 33", "down 1 33"], [*SWAPPED, "moved 33", "moved 33", *BOTH_DONE]),
    ("replies that come byte by byte reach their calls", [*SWAP, *["down 1 1"] * 66], [*SWAPPED, *["moved 1"] * 66, *BOTH_DONE]),
    ("what a restart loses is not sent again",
     [*START, f"call 1 {PING}", f"call 1 {A1}", "up 1 84", "answer 1 0", "down 1 50", "cutdown 1", "restart", "open", f"call 2 {PING}", "up 2 51",
      "answer 1 0", "answer 2 0", "down 2 51", "down 1 1"],
     [*TWO_MADE, "moved 84", "entry 0", "moved 50", "ok", "ok", "connection 2 new", "call 2 id 1", "moved 51", "entry 1", "entry 2", "moved 51",
      "refused 2 Cut", *listed([(1, "plain lost"), (1, "plain lost"), (2, "plain done", PING)],
                               [(1, "answers 1", PING), (1, "answers 1", A1), (2, "answers 1", PING)])]),
    ("a stream has three parts and ids go round", [*STREAM, "down 1 99", f"call 1 {A1}"],
     [*STREAMED, "moved 99", "call 1 id 1", *listed([(1, "exhaust done", *map(n_is, (1, 2, 3))), (1, "plain pending")], [(1, "answers 3", S3)])]),
    ("a stream that is cut keeps two parts and is lost", [*STREAM, "down 1 66", "cutdown 1"],
     [*STREAMED, "moved 66", "ok", *listed([(1, "exhaust lost", *map(n_is, (1, 2)))], [(1, "answers 3", S3)])]),
    ("a connection with a call is dropped when it is returned",
     ["world echo 1 8 1 48000000", "open", "open", "return 1", "open", f"call 1 {A1}", "return 1", "open"],
     [*STARTED, "refused 4 Full", "kept", "connection 1 used", "call 0 id 1", "dropped", "connection 2 new", *listed([(1, "plain lost")], [])]),
    ("a stream begins beside another call", [*COUNT, f"call 1 {A1}", f"exhaust 1 {S3}"],
     [*TWO_MADE, *listed([(1, "plain pending"), (1, "exhaust pending")], [])]),
    ("calls begin beside a stream", [*COUNT, f"exhaust 1 {S3}", f"call 1 {A1}", f"send 1 {A1}"],
     [*TWO_MADE, "call 2 id 3", *listed([(1, "exhaust pending"), (1, "plain pending"), (1, "unacknowledged sent")], [])]),
    ("a stream stands between other replies", [*MIXED, "down 1 165"],
     [*TWO_MADE, "call 2 id 3", "moved 99", "entry 0", "entry 1", "entry 2", "moved 165",
      *listed([(1, "plain done", n_is(0)), (1, "exhaust done", *map(n_is, (1, 2, 3))), (1, "plain done", n_is(0))],
              [(1, "answers 3", S3), (1, "answers 1", A1), (1, "answers 1", A2)])]),
    ("a raw connection stands beside one of ours",
     [*START, f"call 1 {A1}", "rawopen", f"raw 2 {REQUEST}", "up 1 33", "answer 2 0", "answer 1 0", "rawtake 2 99", "down 1 33",
      "raw 2 100000000100000000000000d4070000", "raw 2 00", f"call 2 {A1}", "raw 1 00"],
     [*STARTED, "call 0 id 1", "connection 2 raw", "moved 33", "moved 33", "entry 0", "entry 1", f"bytes {REPLY}", "moved 33",
      "moved 16 closed 1 Message", "moved 0", "refused 8 Raw", "refused 9 NotRaw",
      *listed([(1, "plain done", A1)], [(2, "answers 1", A1), (1, "answers 1", A1)])]),
    ("calls wait for room in the window and under the limit",
     ["world echo 1 1 1 33", "open", f"call 1 {A1}", f"call 1 {A1}", f"send 1 {PING}", f"send 1 {A1}"],
     [*STARTED, "call 0 id 1", "refused 5 Call 2 WindowFull", "refused 5 Call 3 TooLarge", "call 1 id 2",
      *listed([(1, "plain pending"), (1, "unacknowledged sent")], [])]),
    ("a full waiting list takes no more",
     ["world echo 1 1 1 33", "open", *[f"send 1 {A1}"] * 2, "up 1 66", "answer 1 1", "answer 1 0", "up 1 66"],
     [*TWO_MADE, "moved 33", "refused 6 Answer 1 NoSuchRequest", "entry 0", "moved 33",
      *listed([(1, "unacknowledged sent")] * 2, [(1, "answers 1", A1)])]),
    ("a reply that is too large closes its server",
     ["world count 1 8 8 26", "open", f"call 1 {EMPTY}", "up 1 26", "answer 1 0", "down 1 1", "answer 1 0", "up 1 1"],
     [*STARTED, "call 0 id 1", "moved 26", "closed 4 ReplyTooLarge", "moved 0", "refused 6 Answer 2 Closed", "moved 0",
      *listed([(1, "plain pending")], [(1, "answers 1", EMPTY)])]),
    ("what was put out before a close still moves",
     ["world count 1 8 8 33", "open", f"call 1 {A1}", f"call 1 {A2}", "up 1 66", "answer 1 1", "cutup 1", "answer 1 0", "down 1 99"],
     [*TWO_MADE, "moved 66", "entry 0", "ok", "refused 6 Answer 2 Closed", "moved 33",
      *listed([(1, "plain pending"), (1, "plain done", n_is(0))], [(1, "answers 1", A2)])]),
    ("ids go round past one that is outstanding",
     ["world echo 2147483647 8 8 48000000", "open", *[f"call 1 {A1}"] * 3],
     [*STARTED, "call 0 id 2147483647", "call 1 id 1", "call 2 id 2", *listed([(1, "plain pending")] * 3, [])]),
    ("a connection that is cut is dropped when it is returned",
     [*START, "cutup 1", "return 1", "return 1", "open", "cutdown 2", "return 2", "open"],
     [*STARTED, "ok", "dropped", "refused 3 NotLent", "connection 2 new", "ok", "dropped", "connection 3 new", *NOTHING]),
    ("the connection that was returned last is used first",
     [*START, "open", "open", "return 2", "return 1", "return 3", "open", "open", "open", "open"],
     [*STARTED, "connection 2 new", "connection 3 new", *["kept"] * 3, *(f"connection {c} used" for c in (3, 1, 2)), "connection 4 new", *NOTHING]),
    ("a cleared pool keeps nothing that was lent before",
     [*START, "open", "return 2", "clear", "return 1", "open", f"call 1 {A1}", f"call 2 {A1}", "up 2 1", "down 2 1"],
     [*STARTED, "connection 2 new", "kept", "ok", "dropped", "connection 3 new", *["refused 3 NotLent"] * 2, *["refused 2 Cut"] * 2, *NOTHING]),
    ("a connection that clearing finds lent goes on",
     [*START, f"call 1 {A1}", "clear", f"call 1 {A2}", "up 1 66", "answer 1 0", "answer 1 0", "down 1 66", "return 1"],
     [*STARTED, "call 0 id 1", "ok", "call 1 id 2", "moved 66", "entry 0", "entry 1", "moved 66", "dropped",
      *listed([(1, "plain done", A1), (1, "plain done", A2)], [(1, "answers 1", A1), (1, "answers 1", A2)])]),
    ("after a restart requests still go up until they are cut",
     [*TWO, "restart", "up 1 40", "answer 1 0", "cutup 1", "up 1 1", "answer 1 0", "cutdown 1", "return 1", f"call 1 {A1}"],
     [*TWO_MADE, "ok", "moved 40", "entry 0", "ok", "refused 2 Cut", "refused 6 Answer 2 Closed", "refused 2 Cut", *["refused 3 NotLent"] * 2,
      *listed([(1, "plain lost")] * 2, [(1, "answers 1", A1)])]),
    ("no event of a missing connection happens",
     [*START, "return 2", f"call 0 {A1}", f"exhaust 2 {A1}", f"send 18446744073709551615 {A1}", "up 2 1", "down 0 1", "answer 2 0", "cutup 2",
      "cutdown 2", "raw 2 00", "rawtake 2 1"],
     [*STARTED, *["refused 1 NoConnection"] * 11, *NOTHING]),
    ("a raw connection has no client", [*START, "rawopen", "return 2", "up 2 1", "down 2 1", "cutdown 2", f"send 2 {A1}", "rawtake 1 1"],
     [*STARTED, "connection 2 raw", *["refused 8 Raw"] * 5, "refused 9 NotRaw", *NOTHING]),
    ("raw connections take nothing from the pool",
     ["world echo 1 8 1 48000000", "rawopen", "open", "rawopen", "open", "clear", "restart", f"raw 1 {REQUEST[:32]}", f"raw 1 {REQUEST[32:]}",
      "answer 1 0", "rawtake 1 20", "rawtake 1 99", "rawtake 1 1", "cutup 1", "raw 1 00", "cutup 1"],
     ["world", "connection 1 raw", "connection 2 new", "connection 3 raw", "refused 4 Full", "ok", "ok", "moved 16", "moved 17", "entry 0",
      f"bytes {REPLY[:40]}", f"bytes {REPLY[40:]}", "bytes -", "ok", *["refused 2 Cut"] * 2, *listed([], [(1, "answers 1", A1)])]),
    ("bytes that are asked for may be none or more than there are",
     [*START, f"call 1 {A1}", "up 1 0", "up 1 18446744073709551615", "down 1 0", "down 1 18446744073709551615", "answer 1 18446744073709551615"],
     [*STARTED, "call 0 id 1", "moved 0", "moved 33", "moved 0", "moved 0", "refused 6 Answer 1 NoSuchRequest",
      *listed([(1, "plain pending")], [])]),
]


def down_cut_at(d):
    """What comes down of two replies, before the way is cut."""
    first = (1, "plain done", A1) if d == 66 else (1, "plain lost")
    second = (1, "plain done", A2) if d >= 33 else (1, "plain lost")
    return (f"the way down is cut after {d} bytes", [*SWAP, f"down 1 {d}", "cutdown 1"],
            [*SWAPPED, f"moved {d}", "ok", *listed([first, second], TWO_SWAPPED)])


def up_cut_at(u):
    """What comes up of two requests, before the way is cut."""
    return (f"the way up is cut after {u} bytes", [*TWO, f"up 1 {u}", "cutup 1", "answer 1 1", "answer 1 0", "down 1 33", "down 1 33"],
            [*TWO_MADE, f"moved {u}", "ok", *["refused 6 Answer 2 Closed"] * 2, "moved 0", "moved 0", *BOTH_PENDING])


CUTS = [*map(down_cut_at, range(67)), *map(up_cut_at, range(67))]

# ---- forms of lines that are read

READ = [
    ("a world alone", b"world echo 1 8 8 48000000\n", ["world", *NOTHING]),
    ("the last line lacks its LF", b"world echo 1 8 8 48000000\nopen", [*STARTED, *NOTHING]),
    ("each line ends with CR and LF", b"world echo 1 8 8 48000000\r\nopen\r\n\r\n", [*STARTED, *NOTHING]),
    ("empty lines and comments are passed over", b"\n# a world\n\r\nworld echo 1 8 8 48000000\n#open\n#\n\nopen\n# \xff\0\r\n", [*STARTED, *NOTHING]),
    ("digits of either case are read, and written in lower case", f"world echo 1 8 8 48000000\nopen\ncall 1 0C000000106E00fAFBFcFD00\nup 1 99\nanswer 1 0\n".encode(),
     [*STARTED, "call 0 id 1", "moved 33", "entry 0", *listed([(1, "plain pending")], [(1, "answers 1", "0c000000106e00fafbfcfd00")])]),
    ("numbers may begin with zeros", b"world echo 00000000000000000001 08 0008 00048000000\nopen\nup 01 00000000000000000000\n",
     [*STARTED, "moved 0", *NOTHING]),
    ("the least limits", b"world count 1 1 1 26\n", ["world", *NOTHING]),
    ("the greatest limits", b"world count 2147483647 1024 1024 48000000\n", ["world", *NOTHING]),
    ("documents may be nested 200 deep", f"world echo 1 8 8 48000000\nopen\ncall 1 {nested(200)}\n".encode(),
     [*STARTED, "call 0 id 1", *listed([(1, "plain pending")], [])]),
    ("names inside a document may repeat", b"world echo 1 8 8 48000000\nopen\ncall 1 1b000000036100130000001061000100000010610002000000"
     b"0000\n", [*STARTED, "call 0 id 1", *listed([(1, "plain pending")], [])]),
]

# ---- lines of another form

GOOD = {"open": "open", "return": "return 1", "call": f"call 1 {A1}", "exhaust": f"exhaust 1 {A1}", "send": f"send 1 {A1}", "up": "up 1 0",
        "down": "down 1 0", "answer": "answer 1 0", "cutup": "cutup 1", "cutdown": "cutdown 1", "clear": "clear", "restart": "restart",
        "rawopen": "rawopen", "raw": "raw 1 00", "rawtake": "rawtake 1 0"}

# Each with the line that stands third, behind a world and a connection.
BAD_LINES = [
    *((f"{word} with a word too many", f"{line} 1") for word, line in GOOD.items()),
    *((f"{word} with a word too few", line.rpartition(" ")[0]) for word, line in GOOD.items() if " " in line),
    *((f"{word} with a connection of other signs", line.replace(" 1", " 1x", 1)) for word, line in GOOD.items() if " " in line),
    ("a word that is none", "close 1"),
    ("a word in capitals", "Open"),
    ("a word with more behind it", "opened"),
    ("a second world", "world echo 1 8 8 48000000"),
    ("a space in front", " open"),
    ("a space behind", "open "),
    ("a space alone", " "),
    ("a comment behind a space", " # open"),
    ("a comment behind an event", "open # one more"),
    ("two spaces between words", "up 1  0"),
    ("a tab between words", "up\t1 0"),
    ("an empty number", "up  0"),
    ("a number that ends in a space", "up 1 "),
    ("a number with a plus", "up 1 +1"),
    ("a number with a minus", "up 1 -1"),
    ("a number with a point", "up 1 1.0"),
    ("a number with a comma", "up 1 1,000"),
    ("a number with an underline", "up 1 1_0"),
    ("a number in hexadecimal digits", "up 1 0x1"),
    ("a number of other letters", "up 1 one"),
    ("a number of digits that are not ours", "up 1 \u0661"),
    ("a number of 21 digits", "up 1 000000000000000000001"),
    ("a number that does not fit", "up 1 18446744073709551616"),
    ("a connection that does not fit", "return 18446744073709551616"),
    ("a request that does not fit", "answer 1 99999999999999999999"),
    ("an odd digit", f"call 1 {A1}0"),
    ("a digit that is none", f"call 1 {A1[:-1]}g"),
    ("a digit in front of which 0x stands", f"call 1 0x{A1}"),
    ("a space among digits", f"call 1 {A1[:8]} {A1[8:]}"),
    ("a document of no digits", "call 1 "),
    ("a document that is cut", f"call 1 {A1[:-2]}"),
    ("a document and one byte more", f"call 1 {A1}00"),
    ("a document with a fault", "call 1 09000000087400" + "0200"),
    ("a document nested 201 deep", f"call 1 {nested(201)}"),
    ("a document with a name that is no text", "call 1 080000000aff0000"),
    ("a stream with a fault in its document", "exhaust 1 0500000001"),
    ("an unacknowledged call with a fault in its document", "send 1 0600000000"),
    ("a document that repeats a name", "call 1 13000000" + "10610001000000" * 2 + "00"),
    ("a stream that repeats a name", "exhaust 1 13000000" + "10610001000000" * 2 + "00"),
    ("an unacknowledged call that repeats a name", "send 1 13000000" + "10610001000000" * 2 + "00"),
    ("raw bytes that are none", "raw 1 "),
    ("raw bytes with an odd digit", "raw 1 000"),
    ("raw bytes with a digit that is none", "raw 1 0g"),
]

# Each with the bytes that stand behind a world and a connection.
BAD_BYTES = [
    ("a CR in front of another", b"open\r\r\n"),
    ("a CR inside a line", b"open\ropen\n"),
    ("a CR behind the last line, which lacks its LF", b"open\r"),
    ("a byte 00 in a line", b"open\0\n"),
    ("bytes that are no text", b"\xff\xfe\n"),
    ("a form feed", b"\x0c\n"),
    ("a line of 100,000 letters", b"o" * 100_000 + b"\n"),
]

# Each with its first line, which is no world.
BAD_WORLDS = [
    ("an event in front of the world", "open"),
    ("a raw connection in front of the world", "rawopen"),
    ("a world of no words", "world"),
    ("a world with a word too few", "world echo 1 8 8"),
    ("a world with a word too many", "world echo 1 8 8 48000000 1"),
    ("a world with two spaces", "world  echo 1 8 8 48000000"),
    ("a world in capitals", "World echo 1 8 8 48000000"),
    ("a world with another handler", "world stop 1 8 8 48000000"),
    ("a world with a handler in capitals", "world Echo 1 8 8 48000000"),
    ("a world without a handler", "world 1 8 8 48000000"),
    ("a first id of 0", "world echo 0 8 8 48000000"),
    ("a first id below 0", "world echo -1 8 8 48000000"),
    ("a first id that is too large", "world echo 2147483648 8 8 48000000"),
    ("a first id that goes round at 32 bits", "world echo 4294967297 8 8 48000000"),
    ("a window of 0", "world echo 1 0 8 48000000"),
    ("a window that is too large", "world echo 1 1025 8 48000000"),
    ("a pool of 0", "world echo 1 8 0 48000000"),
    ("a pool that is too large", "world echo 1 8 1025 48000000"),
    ("a limit that is too small", "world echo 1 8 8 25"),
    ("a limit that is too large", "world echo 1 8 8 48000001"),
    ("a limit that goes round at 32 bits", "world echo 1 8 8 4294967322"),
    ("a limit that does not fit", "world echo 1 8 8 18446744073709551616"),
    ("a limit of 21 digits", "world echo 1 8 8 000000000000048000000"),
    ("a mark of the byte order", "\ufeffworld echo 1 8 8 48000000"),
]

FAULTS = [
    ("a script of no bytes", b"", ["fault 15 Script at 1"]),
    ("a script of comments", b"# one\n\n\r\n# two\n", ["fault 15 Script at 1"]),
    ("a script of one LF", b"\n", ["fault 15 Script at 1"]),
    ("a script of one CR", b"\r", ["fault 15 Script at 1"]),
    ("lines that are passed over count", b"\n# one\r\n\nopen\n", ["fault 15 Script at 4"]),
    ("lines behind a fault are not read", b"world echo 1 8 8 48000000\n\nopen\nclose\nopen\nworld\n", [*STARTED, "fault 15 Script at 4"]),
    ("what went well before a fault stands", "\n".join([*SWAP, "down 1 66", "shut"]).encode(), [*SWAPPED, "moved 66", "fault 15 Script at 9"]),
    *((name, "\n".join([*START, line, "open"]).encode(), [*STARTED, "fault 15 Script at 3"]) for name, line in BAD_LINES),
    *((name, b"world echo 1 8 8 48000000\nopen\n" + line, [*STARTED, "fault 15 Script at 3"]) for name, line in BAD_BYTES),
    *((name, f"{line}\nopen\n".encode(), ["fault 15 Script at 1"]) for name, line in BAD_WORLDS),
]

ROWS = [*((name, ("\n".join(script) + "\n").encode(), lines) for name, script, lines in RUNS + CUTS), *READ, *FAULTS]
