#!/usr/bin/env python3
"""Messages as drivers send them to bsonserver.

    python3 scripts/tools/driver_messages.py ADDRESS [COMMAND..]
    python3 scripts/tools/driver_messages.py --wanted

sends it requests over one connection, each after the answer to the one before, and ends where the server closes: all that it has, or
of each COMMAND the first one; or prints what the server then writes of that connection.
"""

import os
import socket
import struct
import sys

ROOT = os.path.dirname(os.path.dirname(os.path.dirname(os.path.realpath(__file__))))
sys.path.insert(0, os.path.join(ROOT, "bench"))
from generate import document, element, string  # noqa: E402

# For how many seconds a script waits for what has to come: a machine with other work may stall a process for some of them.
DEADLINE = 120

DOUBLE, STRING, DOCUMENT, ARRAY, BOOLEAN, INT32, INT64 = 0x01, 0x02, 0x03, 0x04, 0x08, 0x10, 0x12


def int32(number):
    return struct.pack("<i", number)


def int64(number):
    return struct.pack("<q", number)


def double(number):
    return struct.pack("<d", number)


def sequence(identifier, documents):
    """Returns the section of a document sequence."""
    given = identifier.encode() + b"\0" + b"".join(documents)
    return b"\1" + int32(4 + len(given)) + given


def message_with(number, body, sections, flags=0):
    """Returns a message with this body and these flags, and with these sections behind the body."""
    joined = b"\0" + body + b"".join(sections)
    return struct.pack("<iiiiI", 20 + len(joined), number, 0, 2013, flags) + joined


def message(number, body, documents=(), flags=0):
    """Returns a message with this body and these flags, and with these documents in a sequence, if there are any."""
    return message_with(number, body, [sequence("documents", documents)] if documents else (), flags)


def command(name, value, *others):
    """Returns the body of a command of the database test, whose first field has this kind and these bytes."""
    return document([element(value[0], name, value[1]), *others, element(STRING, "$db", string("test"))])


def connect(address):
    host, port = address.rsplit(":", 1)
    return socket.create_connection((host, int(port)), timeout=DEADLINE)


def receive(link, size):
    """Returns the next bytes, so many unless the server closes before."""
    pieces, left = [], size
    while left > 0:
        piece = link.recv(min(left, 1 << 18))
        if not piece:
            break
        pieces.append(piece)
        left -= len(piece)
    return b"".join(pieces)


def is_answered(link, sent):
    """Sends a message. Returns true if a whole message comes back."""
    try:
        link.sendall(sent)
        begun = receive(link, 4)
        if len(begun) < 4:
            return False
        rest = struct.unpack("<i", begun)[0] - 4
        return len(receive(link, rest)) == rest
    except ConnectionError:
        return False


COLLECTION = (STRING, string("c"))
PATHS = (STRING, string("q"))
ONE = (INT32, int32(1))
GROUP = document([element(INT32, "_id", int32(1)), element(DOCUMENT, "n", document([element(INT32, "$sum", int32(1))]))])
COUNTING = document([
    element(DOCUMENT, "0", document([element(DOCUMENT, "$match", document([]))])),
    element(DOCUMENT, "1", document([element(DOCUMENT, "$group", GROUP)])),
])
DELETE = document([element(DOCUMENT, "q", document([element(INT32, "_id", int32(1))])), element(INT32, "limit", int32(1))])
AT_MOST_2 = document([element(DOCUMENT, "_id", document([element(INT32, "$lte", int32(2))]))])


def by_id(direction):
    """Returns the sort by _id in this direction."""
    return document([element(INT32, "_id", int32(direction))])



def statement(query, update, *others):
    """Returns a statement of update."""
    return document([element(DOCUMENT, "q", document(query)), element(DOCUMENT, "u", document(update)), *others])


def field(name, number):
    return element(INT32, name, int32(number))


UPSERT = element(BOOLEAN, "upsert", b"\1")
UPDATES = document([
    element(DOCUMENT, "0", statement([field("_id", 2)], [element(DOCUMENT, "$set", document([field("a", 5)]))])),
    element(DOCUMENT, "1", statement([], [element(DOCUMENT, "$inc", document([field("a", 1)]))], element(BOOLEAN, "multi", b"\1"))),
    element(DOCUMENT, "2", statement([field("b", 7)], [element(DOCUMENT, "$set", document([field("a", 0)]))], UPSERT)),
    element(DOCUMENT, "3", statement([field("_id", 3)], [field("_id", 4)], element(BOOLEAN, "upsert", b"\0"))),
])

UPSERTS = document([
    element(DOCUMENT, "0", statement([element(DOCUMENT, "a", document([field("$gt", 50)])), element(DOCUMENT, "_id", document([field("$eq", 9)]))],
                                     [element(DOCUMENT, "$inc", document([field("b", 1)]))], UPSERT)),
    element(DOCUMENT, "1", statement([element(DOCUMENT, "_id", document([element(ARRAY, "$in", document([field("0", 10)]))]))], [field("b", 2)], UPSERT)),
    element(DOCUMENT, "2", statement([field("_id", 9), field("a", 51)], [field("b", 3)], UPSERT)),
    element(DOCUMENT, "3", statement([field("b", 52)], [field("b", 4), field("_id", 8)], UPSERT)),
])

def text(name, value):
    return element(STRING, name, string(value))


def inner(name, *fields):
    return element(DOCUMENT, name, document(fields))


def array(name, *values):
    """Returns a field that is the array of these values, each of which is told by its name and makes a field."""
    return element(ARRAY, name, document([value(str(at)) for at, value in enumerate(values)]))


def updates(*statements):
    return element(ARRAY, "updates", document([element(DOCUMENT, str(at), each) for at, each in enumerate(statements)]))


# Of the manual, $set: "Set Fields in Embedded Documents" and "Set Elements in Arrays"; $inc; and one whose _id is a document.
PRODUCTS = (STRING, string("products"))
PRODUCT_DOCUMENTS = [
    document([
        field("_id", 100),
        inner("details", text("model", "14QQ"), text("make", "Clothes Corp")),
        array("tags", lambda at: text(at, "apparel"), lambda at: text(at, "clothing")),
        array("ratings", lambda at: inner(at, text("by", "Customer007"), field("rating", 4))),
    ]),
    document([field("_id", 1), field("quantity", 10), inner("metrics", field("orders", 2), element(DOUBLE, "ratings", double(3.5)))]),
    document([inner("_id", field("x", 1))]),
]
PRODUCT = [field("_id", 100)]
DOTTED = updates(
    statement(PRODUCT, [inner("$set", text("details.make", "Kustom Kidz"))]),
    statement(PRODUCT, [inner("$set", text("tags.1", "rain gear"), field("ratings.0.rating", 2))]),
    statement([field("_id", 1)], [inner("$inc", field("quantity", -2), field("metrics.orders", 1), field("a.b", 1))]),
    statement([field("_id", 1)], [inner("$unset", field("metrics.ratings", 1), field("metrics.none.x", 1), field("quantity.x", 1))]),
    statement(PRODUCT, [inner("$set", field("tags.4", 5)), inner("$unset", field("tags.0", 1), field("tags.9", 1))]),
)
REFUSED = updates(
    statement(PRODUCT, [inner("$set", field("details.make.x", 1))]),
    statement(PRODUCT, [inner("$inc", field("tags.x", 1))]),
    statement(PRODUCT, [inner("$set", field("details", 1)), inner("$unset", field("details.make", 1))]),
    statement(PRODUCT, [inner("$set", field("details..make", 1))]),
    statement(PRODUCT, [inner("$set", field("tags.$", 1))]),
    statement([field("_id.x", 1)], [inner("$set", field("_id.x", 2))]),
    statement(PRODUCT, [inner("$set", field("tags.1500001", 1))]),
)

DELETED = (STRING, string("d"))
BATCHES_OF_1 = inner("cursor", field("batchSize", 1))


def deletion(limit, *query):
    """Returns a statement of delete."""
    return document([inner("q", *query), field("limit", limit)])

# Numbers are equal by value in documents, as an _id and in the key of an index, and no _id is an array.
IDS = (STRING, string("ids"))
ID_DOCUMENTS = [
    document([field("_id", 1), inner("d", field("b", 1))]),
    document([element(DOUBLE, "_id", double(1))]),
    document([array("_id", lambda at: field(at, 1))]),
]
SAME_KEYS = array("indexes", lambda at: inner(at, inner("key", field("a", 1)), text("name", "a_1")),
                  lambda at: inner(at, inner("key", element(DOUBLE, "a", double(1))), text("name", "b_1")))

INDEX = document([element(DOCUMENT, "key", document([field("a", 1)])), element(STRING, "name", string("a_1"))])
INDEXES = element(ARRAY, "indexes", document([element(DOCUMENT, "0", INDEX)]))

# Each request: its body, its document sequences, and what the server writes of it.
REQUESTS = [
    (
        command("insert", COLLECTION),
        [sequence("documents", [document([element(INT32, "_id", int32(number))]) for number in (1, 2)])],
        """\
request "insert"
document 33
  "insert" string "c"
  "$db" string "test"
sequence "documents" 2
answer
document 24
  "n" int32 2
  "ok" double 000000000000f03f
""",
    ),
    (
        command("find", COLLECTION, element(INT32, "batchSize", int32(1))),
        (),
        """\
request "find"
document 46
  "find" string "c"
  "batchSize" int32 1
  "$db" string "test"
answer
document 91
  "cursor" document 66
    "firstBatch" array 22
      "0" document 14
        "_id" int32 1
    "id" int64 4294967296
    "ns" string "test.c"
  "ok" double 000000000000f03f
""",
    ),
    (
        command("getMore", (INT64, int64(4294967296)), element(STRING, "collection", string("c"))),
        (),
        """\
request "getMore"
document 54
  "getMore" int64 4294967296
  "collection" string "c"
  "$db" string "test"
answer
document 90
  "cursor" document 65
    "nextBatch" array 22
      "0" document 14
        "_id" int32 2
    "id" int64 0
    "ns" string "test.c"
  "ok" double 000000000000f03f
""",
    ),
    (
        command("find", COLLECTION, element(INT32, "skip", int32(1)), element(INT32, "limit", int32(1)), element(BOOLEAN, "singleBatch", b"\1")),
        (),
        """\
request "find"
document 66
  "find" string "c"
  "skip" int32 1
  "limit" int32 1
  "singleBatch" boolean true
  "$db" string "test"
answer
document 91
  "cursor" document 66
    "firstBatch" array 22
      "0" document 14
        "_id" int32 2
    "id" int64 0
    "ns" string "test.c"
  "ok" double 000000000000f03f
""",
    ),
    (
        command("find", COLLECTION, element(DOCUMENT, "filter", AT_MOST_2), element(DOCUMENT, "sort", by_id(-1))),
        (),
        """\
request "find"
document 84
  "find" string "c"
  "filter" document 25
    "_id" document 15
      "$lte" int32 2
  "sort" document 14
    "_id" int32 -1
  "$db" string "test"
answer
document 108
  "cursor" document 83
    "firstBatch" array 39
      "0" document 14
        "_id" int32 2
      "1" document 14
        "_id" int32 1
    "id" int64 0
    "ns" string "test.c"
  "ok" double 000000000000f03f
""",
    ),
    (
        command("find", COLLECTION, element(DOCUMENT, "sort", by_id(2))),
        (),
        """\
request "find"
document 51
  "find" string "c"
  "sort" document 14
    "_id" int32 2
  "$db" string "test"
answer
document 135
  "ok" double 0000000000000000
  "errmsg" string "$sort key ordering must be 1 (for ascending) or -1 (for descending)"
  "code" int32 15975
  "codeName" string "Location15975"
""",
    ),
    (
        command("find", COLLECTION, element(DOCUMENT, "hint", document([]))),
        (),
        """\
request "find"
document 42
  "find" string "c"
  "hint" document 5
  "$db" string "test"
answer
document 104
  "ok" double 0000000000000000
  "errmsg" string "the field 'hint' is not carried out"
  "code" int32 238
  "codeName" string "NotImplemented"
""",
    ),
    (
        command("insert", COLLECTION),
        [sequence("documents", [document([field("_id", 50)])]), sequence("docs", [document([field("_id", 51)])])],
        """\
request "insert"
document 33
  "insert" string "c"
  "$db" string "test"
sequence "documents" 1
sequence "docs" 1
answer
document 104
  "ok" double 0000000000000000
  "errmsg" string "the field 'docs' is not carried out"
  "code" int32 238
  "codeName" string "NotImplemented"
""",
    ),
    (
        command("insert", COLLECTION),
        [sequence("documents", [document([field("_id", number)])]) for number in (50, 51)],
        """\
request "insert"
document 33
  "insert" string "c"
  "$db" string "test"
sequence "documents" 1
sequence "documents" 1
answer
document 109
  "ok" double 0000000000000000
  "errmsg" string "the field 'documents' is not carried out"
  "code" int32 238
  "codeName" string "NotImplemented"
""",
    ),
    (
        command("find", COLLECTION),
        [sequence("filter", [document([field("_id", 1)])])],
        """\
request "find"
document 31
  "find" string "c"
  "$db" string "test"
sequence "filter" 1
answer
document 106
  "ok" double 0000000000000000
  "errmsg" string "the field 'filter' is not carried out"
  "code" int32 238
  "codeName" string "NotImplemented"
""",
    ),
    (
        command("bulkWrite", ONE),
        [sequence("ops", [document([])]), sequence("nsInfo", [document([])])],
        """\
request "bulkWrite"
document 34
  "bulkWrite" int32 1
  "$db" string "test"
sequence "ops" 1
sequence "nsInfo" 1
answer
document 98
  "ok" double 0000000000000000
  "errmsg" string "no such command: 'bulkWrite'"
  "code" int32 59
  "codeName" string "CommandNotFound"
""",
    ),
    (
        command("find", COLLECTION, element(INT32, "batchSize", int32(0))),
        (),
        """\
request "find"
document 46
  "find" string "c"
  "batchSize" int32 0
  "$db" string "test"
answer
document 74
  "cursor" document 49
    "firstBatch" array 5
    "id" int64 4294967297
    "ns" string "test.c"
  "ok" double 000000000000f03f
""",
    ),
    (
        command("killCursors", COLLECTION, element(ARRAY, "cursors", document([element(INT64, str(at), int64(4294967296 + at)) for at in (0, 1)]))),
        (),
        """\
request "killCursors"
document 74
  "killCursors" string "c"
  "cursors" array 27
    "0" int64 4294967296
    "1" int64 4294967297
  "$db" string "test"
answer
document 121
  "cursorsKilled" array 16
    "0" int64 4294967297
  "cursorsNotFound" array 16
    "0" int64 4294967296
  "cursorsAlive" array 5
  "cursorsUnknown" array 5
  "ok" double 000000000000f03f
""",
    ),
    (
        command("buildInfo", ONE),
        (),
        """\
request "buildInfo"
document 34
  "buildInfo" int32 1
  "$db" string "test"
answer
document 106
  "version" string "5.0.0"
  "versionArray" array 33
    "0" int32 5
    "1" int32 0
    "2" int32 0
    "3" int32 0
  "maxBsonObjectSize" int32 16777216
  "ok" double 000000000000f03f
""",
    ),
    (
        command("insert", COLLECTION, element(ARRAY, "documents", document([element(DOCUMENT, str(at), document([element(INT32, "_id", int32(number))])) for at, number in ((0, 2), (1, 3))] + [element(DOCUMENT, "2", document([field("a", 4)]))])), element(BOOLEAN, "ordered", b"\0")),
        (),
        """\
request "insert"
document 108
  "insert" string "c"
  "documents" array 54
    "0" document 14
      "_id" int32 2
    "1" document 14
      "_id" int32 3
    "2" document 12
      "a" int32 4
  "ordered" boolean false
  "$db" string "test"
answer
document 191
  "n" int32 2
  "writeErrors" array 154
    "0" document 146
      "index" int32 0
      "code" int32 11000
      "keyPattern" document 14
        "_id" int32 1
      "keyValue" document 14
        "_id" int32 2
      "errmsg" string "E11000 duplicate key error collection: test.c index: _id_"
  "ok" double 000000000000f03f
""",
    ),
    (
        command("delete", COLLECTION, element(ARRAY, "deletes", document([element(DOCUMENT, "0", DELETE)]))),
        (),
        """\
request "delete"
document 83
  "delete" string "c"
  "deletes" array 41
    "0" document 33
      "q" document 14
        "_id" int32 1
      "limit" int32 1
  "$db" string "test"
answer
document 24
  "n" int32 1
  "ok" double 000000000000f03f
""",
    ),
    (
        command("update", COLLECTION, element(ARRAY, "updates", UPDATES)),
        (),
        """\
request "update"
document 257
  "update" string "c"
  "updates" array 215
    "0" document 48
      "q" document 14
        "_id" int32 2
      "u" document 23
        "$set" document 12
          "a" int32 5
    "1" document 47
      "q" document 5
      "u" document 23
        "$inc" document 12
          "a" int32 1
      "multi" boolean true
    "2" document 55
      "q" document 12
        "b" int32 7
      "u" document 23
        "$set" document 12
          "a" int32 0
      "upsert" boolean true
    "3" document 48
      "q" document 14
        "_id" int32 3
      "u" document 14
        "_id" int32 4
      "upsert" boolean false
  "$db" string "test"
answer
document 201
  "n" int32 5
  "nModified" int32 4
  "upserted" array 41
    "0" document 33
      "index" int32 2
      "_id" objectid 000000000000000000000004
  "writeErrors" array 98
    "0" document 90
      "index" int32 3
      "code" int32 66
      "errmsg" string "an update must not change the immutable field '_id'"
  "ok" double 000000000000f03f
""",
    ),
    (
        command("find", COLLECTION),
        (),
        """\
request "find"
document 31
  "find" string "c"
  "$db" string "test"
answer
document 193
  "cursor" document 168
    "firstBatch" array 124
      "0" document 21
        "_id" int32 2
        "a" int32 6
      "1" document 21
        "_id" int32 3
        "a" int32 1
      "2" document 29
        "_id" objectid 000000000000000000000003
        "a" int32 5
      "3" document 36
        "_id" objectid 000000000000000000000004
        "b" int32 7
        "a" int32 0
    "id" int64 0
    "ns" string "test.c"
  "ok" double 000000000000f03f
""",
    ),
    (
        command("count", COLLECTION, element(DOCUMENT, "query", document([]))),
        (),
        """\
request "count"
document 44
  "count" string "c"
  "query" document 5
  "$db" string "test"
answer
document 24
  "n" int32 4
  "ok" double 000000000000f03f
""",
    ),
    (
        command("aggregate", COLLECTION, element(ARRAY, "pipeline", COUNTING), element(DOCUMENT, "cursor", document([]))),
        (),
        """\
request "aggregate"
document 133
  "aggregate" string "c"
  "pipeline" array 74
    "0" document 18
      "$match" document 5
    "1" document 45
      "$group" document 32
        "_id" int32 1
        "n" document 15
          "$sum" int32 1
  "cursor" document 5
  "$db" string "test"
answer
document 98
  "cursor" document 73
    "firstBatch" array 29
      "0" document 21
        "_id" int32 1
        "n" int32 4
    "id" int64 0
    "ns" string "test.c"
  "ok" double 000000000000f03f
""",
    ),
    (
        command("update", COLLECTION, element(ARRAY, "updates", UPSERTS), element(BOOLEAN, "ordered", b"\0")),
        (),
        """\
request "update"
document 323
  "update" string "c"
  "updates" array 271
    "0" document 84
      "q" document 41
        "a" document 14
          "$gt" int32 50
        "_id" document 14
          "$eq" int32 9
      "u" document 23
        "$inc" document 12
          "b" int32 1
      "upsert" boolean true
    "1" document 64
      "q" document 32
        "_id" document 22
          "$in" array 12
            "0" int32 10
      "u" document 12
        "b" int32 2
      "upsert" boolean true
    "2" document 53
      "q" document 21
        "_id" int32 9
        "a" int32 51
      "u" document 12
        "b" int32 3
      "upsert" boolean true
    "3" document 53
      "q" document 12
        "b" int32 52
      "u" document 21
        "b" int32 4
        "_id" int32 8
      "upsert" boolean true
  "ordered" boolean false
  "$db" string "test"
answer
document 330
  "n" int32 2
  "nModified" int32 0
  "upserted" array 61
    "0" document 25
      "index" int32 0
      "_id" int32 9
    "1" document 25
      "index" int32 3
      "_id" int32 8
  "writeErrors" array 207
    "0" document 119
      "index" int32 1
      "code" int32 9
      "errmsg" string "a filter with $and, $or, $in, a path or a field without a name can't be upserted"
    "1" document 77
      "index" int32 2
      "code" int32 11000
      "errmsg" string "E11000 duplicate key error index: _id_"
  "ok" double 000000000000f03f
""",
    ),
    (
        command("find", COLLECTION, element(DOCUMENT, "filter", document([element(DOCUMENT, "_id", document([field("$gte", 8)]))]))),
        (),
        """\
request "find"
document 64
  "find" string "c"
  "filter" document 25
    "_id" document 15
      "$gte" int32 8
  "$db" string "test"
answer
document 122
  "cursor" document 97
    "firstBatch" array 53
      "0" document 21
        "_id" int32 9
        "b" int32 1
      "1" document 21
        "_id" int32 8
        "b" int32 4
    "id" int64 0
    "ns" string "test.c"
  "ok" double 000000000000f03f
""",
    ),
    (
        command("insert", PATHS),
        [sequence("documents", [document([field("_id", 1), element(DOCUMENT, "a", document([field("b", 1)])), field("n", 1)]), document([field("_id", 2), element(ARRAY, "a", document([element(DOCUMENT, "0", document([field("b", 2)])), element(DOCUMENT, "1", document([field("b", 3)]))])), field("n", 2)]), document([field("_id", 3), element(ARRAY, "a", document([field("0", 5)])), field("n", 3)])])],
        """\
request "insert"
document 33
  "insert" string "q"
  "$db" string "test"
sequence "documents" 3
answer
document 24
  "n" int32 3
  "ok" double 000000000000f03f
""",
    ),
    (
        command("find", PATHS, element(DOCUMENT, "filter", document([element(ARRAY, "$or", document([element(DOCUMENT, "0", document([field("a.b", 3)])), element(DOCUMENT, "1", document([field("a.0", 5)]))]))])), element(DOCUMENT, "projection", document([field("a", 0)]))),
        (),
        """\
request "find"
document 112
  "find" string "q"
  "filter" document 49
    "$or" array 39
      "0" document 14
        "a.b" int32 3
      "1" document 14
        "a.0" int32 5
  "projection" document 12
    "a" int32 0
  "$db" string "test"
answer
document 122
  "cursor" document 97
    "firstBatch" array 53
      "0" document 21
        "_id" int32 2
        "n" int32 2
      "1" document 21
        "_id" int32 3
        "n" int32 3
    "id" int64 0
    "ns" string "test.q"
  "ok" double 000000000000f03f
""",
    ),
    (
        command("find", PATHS, element(DOCUMENT, "filter", document([element(ARRAY, "$and", document([element(DOCUMENT, "0", document([element(DOCUMENT, "n", document([field("$lt", 3)]))])), element(DOCUMENT, "1", document([element(DOCUMENT, "a.b", document([element(BOOLEAN, "$exists", b"\1")]))]))]))])), element(DOCUMENT, "sort", document([field("n", -1)])), element(DOCUMENT, "projection", document([field("_id", 0), element(BOOLEAN, "n", b"\1")]))),
        (),
        """\
request "find"
document 156
  "find" string "q"
  "filter" document 69
    "$and" array 58
      "0" document 22
        "n" document 14
          "$lt" int32 3
      "1" document 25
        "a.b" document 15
          "$exists" boolean true
  "sort" document 12
    "n" int32 -1
  "projection" document 18
    "_id" int32 0
    "n" boolean true
  "$db" string "test"
answer
document 104
  "cursor" document 79
    "firstBatch" array 35
      "0" document 12
        "n" int32 2
      "1" document 12
        "n" int32 1
    "id" int64 0
    "ns" string "test.q"
  "ok" double 000000000000f03f
""",
    ),
    (
        command("find", PATHS, inner("filter", inner("a.b", field("$exists", 0))), inner("projection", field("a", 0))),
        (),
        """\
request "find"
document 91
  "find" string "q"
  "filter" document 28
    "a.b" document 18
      "$exists" int32 0
  "projection" document 12
    "a" int32 0
  "$db" string "test"
answer
document 98
  "cursor" document 73
    "firstBatch" array 29
      "0" document 21
        "_id" int32 3
        "n" int32 3
    "id" int64 0
    "ns" string "test.q"
  "ok" double 000000000000f03f
""",
    ),
    (
        command("find", PATHS, element(DOCUMENT, "filter", document([element(DOCUMENT, "a.b", document([element(ARRAY, "$in", document([field("0", 1), field("1", 7)]))]))]))),
        (),
        """\
request "find"
document 78
  "find" string "q"
  "filter" document 39
    "a.b" document 29
      "$in" array 19
        "0" int32 1
        "1" int32 7
  "$db" string "test"
answer
document 113
  "cursor" document 88
    "firstBatch" array 44
      "0" document 36
        "_id" int32 1
        "a" document 12
          "b" int32 1
        "n" int32 1
    "id" int64 0
    "ns" string "test.q"
  "ok" double 000000000000f03f
""",
    ),
    (
        command("find", PATHS, element(DOCUMENT, "filter", document([element(ARRAY, "$and", document([]))]))),
        (),
        """\
request "find"
document 55
  "find" string "q"
  "filter" document 16
    "$and" array 5
  "$db" string "test"
answer
document 101
  "ok" double 0000000000000000
  "errmsg" string "$and/$or/$nor must be a nonempty array"
  "code" int32 2
  "codeName" string "BadValue"
""",
    ),
    (
        command("find", PATHS, element(DOCUMENT, "projection", document([field("a", 1), field("n", 0)]))),
        (),
        """\
request "find"
document 62
  "find" string "q"
  "projection" document 19
    "a" int32 1
    "n" int32 0
  "$db" string "test"
answer
document 122
  "ok" double 0000000000000000
  "errmsg" string "Cannot do exclusion on a field in inclusion projection"
  "code" int32 31254
  "codeName" string "Location31254"
""",
    ),
    (
        command("find", PATHS, element(DOCUMENT, "sort", document([field("a.b", 1)]))),
        (),
        """\
request "find"
document 51
  "find" string "q"
  "sort" document 14
    "a.b" int32 1
  "$db" string "test"
answer
document 151
  "ok" double 0000000000000000
  "errmsg" string "documents are sorted by numbers, strings, booleans, dates, ObjectIds and null alone"
  "code" int32 9
  "codeName" string "FailedToParse"
""",
    ),
    (
        command("update", PATHS, element(ARRAY, "updates", document([element(DOCUMENT, "0", document([element(DOCUMENT, "q", document([field("_id", 1)])), element(DOCUMENT, "u", document([element(DOCUMENT, "$inc", document([element(DOUBLE, "n", double(0.5))]))]))]))]))),
        (),
        """\
request "update"
document 102
  "update" string "q"
  "updates" array 60
    "0" document 52
      "q" document 14
        "_id" int32 1
      "u" document 27
        "$inc" document 16
          "n" double 000000000000e03f
  "$db" string "test"
answer
document 39
  "n" int32 1
  "nModified" int32 1
  "ok" double 000000000000f03f
""",
    ),
    (
        command("find", PATHS, element(DOCUMENT, "filter", document([element(DOUBLE, "n", double(1.5))])), element(DOCUMENT, "projection", document([field("n", 1)]))),
        (),
        """\
request "find"
document 79
  "find" string "q"
  "filter" document 16
    "n" double 000000000000f83f
  "projection" document 12
    "n" int32 1
  "$db" string "test"
answer
document 102
  "cursor" document 77
    "firstBatch" array 33
      "0" document 25
        "_id" int32 1
        "n" double 000000000000f83f
    "id" int64 0
    "ns" string "test.q"
  "ok" double 000000000000f03f
""",
    ),
    (
        command("drop", PATHS),
        (),
        """\
request "drop"
document 31
  "drop" string "q"
  "$db" string "test"
answer
document 49
  "nIndexesWas" int32 1
  "ns" string "test.q"
  "ok" double 000000000000f03f
""",
    ),
    (
        command("insert", PRODUCTS),
        [sequence("documents", PRODUCT_DOCUMENTS)],
        """\
request "insert"
document 40
  "insert" string "products"
  "$db" string "test"
sequence "documents" 3
answer
document 24
  "n" int32 3
  "ok" double 000000000000f03f
""",
    ),
    (
        command("update", PRODUCTS, DOTTED),
        (),
        """\
request "update"
document 499
  "update" string "products"
  "updates" array 450
    "0" document 71
      "q" document 14
        "_id" int32 100
      "u" document 46
        "$set" document 35
          "details.make" string "Kustom Kidz"
    "1" document 85
      "q" document 14
        "_id" int32 100
      "u" document 60
        "$set" document 49
          "tags.1" string "rain gear"
          "ratings.0.rating" int32 2
    "2" document 84
      "q" document 14
        "_id" int32 1
      "u" document 59
        "$inc" document 48
          "quantity" int32 -2
          "metrics.orders" int32 1
          "a.b" int32 1
    "3" document 100
      "q" document 14
        "_id" int32 1
      "u" document 75
        "$unset" document 62
          "metrics.ratings" int32 1
          "metrics.none.x" int32 1
          "quantity.x" int32 1
    "4" document 90
      "q" document 14
        "_id" int32 100
      "u" document 65
        "$set" document 17
          "tags.4" int32 5
        "$unset" document 29
          "tags.0" int32 1
          "tags.9" int32 1
  "$db" string "test"
answer
document 39
  "n" int32 5
  "nModified" int32 5
  "ok" double 000000000000f03f
""",
    ),
    (
        command("update", PRODUCTS, REFUSED, element(BOOLEAN, "ordered", b"\0")),
        (),
        """\
request "update"
document 510
  "update" string "products"
  "updates" array 451
    "0" document 61
      "q" document 14
        "_id" int32 100
      "u" document 36
        "$set" document 25
          "details.make.x" int32 1
    "1" document 53
      "q" document 14
        "_id" int32 100
      "u" document 28
        "$inc" document 17
          "tags.x" int32 1
    "2" document 85
      "q" document 14
        "_id" int32 100
      "u" document 60
        "$set" document 18
          "details" int32 1
        "$unset" document 23
          "details.make" int32 1
    "3" document 60
      "q" document 14
        "_id" int32 100
      "u" document 35
        "$set" document 24
          "details..make" int32 1
    "4" document 53
      "q" document 14
        "_id" int32 100
      "u" document 28
        "$set" document 17
          "tags.$" int32 1
    "5" document 54
      "q" document 16
        "_id.x" int32 1
      "u" document 27
        "$set" document 16
          "_id.x" int32 2
    "6" document 59
      "q" document 14
        "_id" int32 100
      "u" document 34
        "$set" document 23
          "tags.1500001" int32 1
  "ordered" boolean false
  "$db" string "test"
answer
document 777
  "n" int32 0
  "nModified" int32 0
  "writeErrors" array 725
    "0" document 117
      "index" int32 0
      "code" int32 28
      "errmsg" string "Cannot create a field in a value that is no document, or by a name in an array"
    "1" document 117
      "index" int32 1
      "code" int32 28
      "errmsg" string "Cannot create a field in a value that is no document, or by a name in an array"
    "2" document 111
      "index" int32 2
      "code" int32 40
      "errmsg" string "no path of an update may be another one, or the beginning of another one"
    "3" document 82
      "index" int32 3
      "code" int32 56
      "errmsg" string "a path of an update must have no empty step"
    "4" document 102
      "index" int32 4
      "code" int32 9
      "errmsg" string "a path of an update must have no '$' at the beginning of a step"
    "5" document 90
      "index" int32 5
      "code" int32 66
      "errmsg" string "an update must not change the immutable field '_id'"
    "6" document 80
      "index" int32 6
      "code" int32 34
      "errmsg" string "can't backfill more than 1500000 elements"
  "ok" double 000000000000f03f
""",
    ),
    (
        command("find", PRODUCTS),
        (),
        """\
request "find"
document 38
  "find" string "products"
  "$db" string "test"
answer
document 345
  "cursor" document 320
    "firstBatch" array 269
      "0" document 164
        "_id" int32 100
        "details" document 43
          "model" string "14QQ"
          "make" string "Kustom Kidz"
        "tags" array 38
          "0" null
          "1" string "rain gear"
          "2" null
          "3" null
          "4" int32 5
        "ratings" array 45
          "0" document 37
            "by" string "Customer007"
            "rating" int32 2
      "1" document 69
        "_id" int32 1
        "quantity" int32 8
        "metrics" document 17
          "orders" int32 3
        "a" document 12
          "b" int32 1
      "2" document 22
        "_id" document 12
          "x" int32 1
    "id" int64 0
    "ns" string "test.products"
  "ok" double 000000000000f03f
""",
    ),
    (
        command("drop", PRODUCTS),
        (),
        """\
request "drop"
document 38
  "drop" string "products"
  "$db" string "test"
answer
document 56
  "nIndexesWas" int32 1
  "ns" string "test.products"
  "ok" double 000000000000f03f
""",
    ),
    (
        command("createIndexes", (STRING, string("e")), array("indexes")),
        (),
        """\
request "createIndexes"
document 54
  "createIndexes" string "e"
  "indexes" array 5
  "$db" string "test"
answer
document 104
  "ok" double 0000000000000000
  "errmsg" string "Must specify at least one index to create"
  "code" int32 2
  "codeName" string "BadValue"
""",
    ),
    (
        command("insert", (STRING, string("none"))),
        [sequence("documents", ID_DOCUMENTS[2:])],
        """\
request "insert"
document 36
  "insert" string "none"
  "$db" string "test"
sequence "documents" 1
answer
document 110
  "n" int32 0
  "writeErrors" array 73
    "0" document 65
      "index" int32 0
      "code" int32 2
      "errmsg" string "can't use an array for _id"
  "ok" double 000000000000f03f
""",
    ),
    (
        command("listCollections", ONE),
        (),
        """\
request "listCollections"
document 40
  "listCollections" int32 1
  "$db" string "test"
answer
document 170
  "cursor" document 145
    "firstBatch" array 82
      "0" document 74
        "name" string "c"
        "type" string "collection"
        "options" document 5
        "info" document 16
          "readOnly" boolean false
    "id" int64 0
    "ns" string "test.$cmd.listCollections"
  "ok" double 000000000000f03f
""",
    ),
    (
        command("insert", DELETED),
        [sequence("documents", [document([field("_id", number)]) for number in (1, 2, 3, 4)])],
        """\
request "insert"
document 33
  "insert" string "d"
  "$db" string "test"
sequence "documents" 4
answer
document 24
  "n" int32 4
  "ok" double 000000000000f03f
""",
    ),
    (
        command("delete", DELETED),
        [sequence("deletes", [deletion(1, field("_id", 1)), deletion(0, array("$or")), deletion(1, field("_id", 2))])],
        """\
request "delete"
document 33
  "delete" string "d"
  "$db" string "test"
sequence "deletes" 3
answer
document 122
  "n" int32 1
  "writeErrors" array 85
    "0" document 77
      "index" int32 1
      "code" int32 2
      "errmsg" string "$and/$or/$nor must be a nonempty array"
  "ok" double 000000000000f03f
""",
    ),
    (
        command("delete", DELETED, element(BOOLEAN, "ordered", b"\0")),
        [sequence("deletes", [deletion(2), deletion(0, inner("_id", field("$gt", 3))), deletion(0, array("$or"))])],
        """\
request "delete"
document 43
  "delete" string "d"
  "ordered" boolean false
  "$db" string "test"
sequence "deletes" 3
answer
document 228
  "n" int32 1
  "writeErrors" array 191
    "0" document 103
      "index" int32 0
      "code" int32 9
      "errmsg" string "a statement must have a filter 'q' and a 'limit' of 0 or 1 alone"
    "1" document 77
      "index" int32 2
      "code" int32 2
      "errmsg" string "$and/$or/$nor must be a nonempty array"
  "ok" double 000000000000f03f
""",
    ),
    (
        command("find", DELETED),
        (),
        """\
request "find"
document 31
  "find" string "d"
  "$db" string "test"
answer
document 108
  "cursor" document 83
    "firstBatch" array 39
      "0" document 14
        "_id" int32 2
      "1" document 14
        "_id" int32 3
    "id" int64 0
    "ns" string "test.d"
  "ok" double 000000000000f03f
""",
    ),
    (
        command("listCollections", ONE, element(BOOLEAN, "nameOnly", b"\1"), BATCHES_OF_1),
        (),
        """\
request "listCollections"
document 79
  "listCollections" int32 1
  "nameOnly" boolean true
  "cursor" document 20
    "batchSize" int32 1
  "$db" string "test"
answer
document 134
  "cursor" document 109
    "firstBatch" array 46
      "0" document 38
        "name" string "c"
        "type" string "collection"
    "id" int64 4294967298
    "ns" string "test.$cmd.listCollections"
  "ok" double 000000000000f03f
""",
    ),
    (
        command("getMore", (INT64, int64(4294967298)), text("collection", "$cmd.listCollections")),
        (),
        """\
request "getMore"
document 73
  "getMore" int64 4294967298
  "collection" string "$cmd.listCollections"
  "$db" string "test"
answer
document 133
  "cursor" document 108
    "nextBatch" array 46
      "0" document 38
        "name" string "d"
        "type" string "collection"
    "id" int64 0
    "ns" string "test.$cmd.listCollections"
  "ok" double 000000000000f03f
""",
    ),
    (
        command("listCollections", ONE, inner("cursor", field("batchSize", 1), element(BOOLEAN, "tailable", b"\0"), field("maxTimeMS", 5))),
        (),
        """\
request "listCollections"
document 94
  "listCollections" int32 1
  "cursor" document 46
    "batchSize" int32 1
    "tailable" boolean false
    "maxTimeMS" int32 5
  "$db" string "test"
answer
document 109
  "ok" double 0000000000000000
  "errmsg" string "the field 'maxTimeMS' is not carried out"
  "code" int32 238
  "codeName" string "NotImplemented"
""",
    ),
    (
        command("aggregate", DELETED, array("pipeline"), inner("cursor", field("batchSize", 1), text("comment", "a"))),
        (),
        """\
request "aggregate"
document 94
  "aggregate" string "d"
  "pipeline" array 5
  "cursor" document 35
    "batchSize" int32 1
    "comment" string "a"
  "$db" string "test"
answer
document 107
  "ok" double 0000000000000000
  "errmsg" string "the field 'comment' is not carried out"
  "code" int32 238
  "codeName" string "NotImplemented"
""",
    ),
    (
        command("drop", DELETED),
        (),
        """\
request "drop"
document 31
  "drop" string "d"
  "$db" string "test"
answer
document 49
  "nIndexesWas" int32 1
  "ns" string "test.d"
  "ok" double 000000000000f03f
""",
    ),
    (
        command("createIndexes", COLLECTION, array("indexes", lambda at: inner(at, inner("key", field("_id", 1)), text("name", "_id_1")))),
        (),
        """\
request "createIndexes"
document 97
  "createIndexes" string "c"
  "indexes" array 48
    "0" document 40
      "key" document 14
        "_id" int32 1
      "name" string "_id_1"
  "$db" string "test"
answer
document 93
  "numIndexesBefore" int32 1
  "numIndexesAfter" int32 1
  "createdCollectionAutomatically" boolean false
  "ok" double 000000000000f03f
""",
    ),
    (
        command("createIndexes", COLLECTION, INDEXES),
        (),
        """\
request "createIndexes"
document 93
  "createIndexes" string "c"
  "indexes" array 44
    "0" document 36
      "key" document 12
        "a" int32 1
      "name" string "a_1"
  "$db" string "test"
answer
document 93
  "numIndexesBefore" int32 1
  "numIndexesAfter" int32 2
  "createdCollectionAutomatically" boolean false
  "ok" double 000000000000f03f
""",
    ),
    (
        command("listIndexes", COLLECTION),
        (),
        """\
request "listIndexes"
document 38
  "listIndexes" string "c"
  "$db" string "test"
answer
document 169
  "cursor" document 144
    "firstBatch" array 100
      "0" document 46
        "v" int32 2
        "key" document 14
          "_id" int32 1
        "name" string "_id_"
      "1" document 43
        "v" int32 2
        "key" document 12
          "a" int32 1
        "name" string "a_1"
    "id" int64 0
    "ns" string "test.c"
  "ok" double 000000000000f03f
""",
    ),
    (
        command("listIndexes", COLLECTION, BATCHES_OF_1),
        (),
        """\
request "listIndexes"
document 66
  "listIndexes" string "c"
  "cursor" document 20
    "batchSize" int32 1
  "$db" string "test"
answer
document 123
  "cursor" document 98
    "firstBatch" array 54
      "0" document 46
        "v" int32 2
        "key" document 14
          "_id" int32 1
        "name" string "_id_"
    "id" int64 4294967299
    "ns" string "test.c"
  "ok" double 000000000000f03f
""",
    ),
    (
        command("listDatabases", ONE),
        (),
        """\
request "listDatabases"
document 38
  "listDatabases" int32 1
  "$db" string "test"
answer
document 103
  "databases" array 56
    "0" document 48
      "name" string "test"
      "sizeOnDisk" int64 0
      "empty" boolean false
  "totalSize" int64 0
  "ok" double 000000000000f03f
""",
    ),
    (
        command("dropDatabase", ONE),
        (),
        """\
request "dropDatabase"
document 37
  "dropDatabase" int32 1
  "$db" string "test"
answer
document 35
  "dropped" string "test"
  "ok" double 000000000000f03f
""",
    ),
    (
        command("listDatabases", ONE, element(BOOLEAN, "nameOnly", b"\1")),
        (),
        """\
request "listDatabases"
document 49
  "listDatabases" int32 1
  "nameOnly" boolean true
  "$db" string "test"
answer
document 33
  "databases" array 5
  "ok" double 000000000000f03f
""",
    ),
    (
        command("insert", COLLECTION),
        [sequence("documents", [document([field("_id", 1)])])],
        """\
request "insert"
document 33
  "insert" string "c"
  "$db" string "test"
sequence "documents" 1
answer
document 24
  "n" int32 1
  "ok" double 000000000000f03f
""",
    ),
    (
        command("drop", COLLECTION),
        (),
        """\
request "drop"
document 31
  "drop" string "c"
  "$db" string "test"
answer
document 49
  "nIndexesWas" int32 1
  "ns" string "test.c"
  "ok" double 000000000000f03f
""",
    ),
    (
        command("insert", IDS, element(BOOLEAN, "ordered", b"\0")),
        [sequence("documents", ID_DOCUMENTS)],
        """\
request "insert"
document 45
  "insert" string "ids"
  "ordered" boolean false
  "$db" string "test"
sequence "documents" 3
answer
document 265
  "n" int32 1
  "writeErrors" array 228
    "0" document 152
      "index" int32 1
      "code" int32 11000
      "keyPattern" document 14
        "_id" int32 1
      "keyValue" document 18
        "_id" double 000000000000f03f
      "errmsg" string "E11000 duplicate key error collection: test.ids index: _id_"
    "1" document 65
      "index" int32 2
      "code" int32 2
      "errmsg" string "can't use an array for _id"
  "ok" double 000000000000f03f
""",
    ),
    (
        command("find", IDS, inner("filter", inner("d", element(DOUBLE, "b", double(1))))),
        (),
        """\
request "find"
document 65
  "find" string "ids"
  "filter" document 24
    "d" document 16
      "b" double 000000000000f03f
  "$db" string "test"
answer
document 108
  "cursor" document 83
    "firstBatch" array 37
      "0" document 29
        "_id" int32 1
        "d" document 12
          "b" int32 1
    "id" int64 0
    "ns" string "test.ids"
  "ok" double 000000000000f03f
""",
    ),
    (
        command("find", IDS, inner("filter", inner("d", array("$in", lambda at: inner(at, field("$gt", 1)))))),
        (),
        """\
request "find"
document 81
  "find" string "ids"
  "filter" document 40
    "d" document 32
      "$in" array 22
        "0" document 14
          "$gt" int32 1
  "$db" string "test"
answer
document 86
  "ok" double 0000000000000000
  "errmsg" string "cannot nest $ under $in"
  "code" int32 2
  "codeName" string "BadValue"
""",
    ),
    (
        command("find", IDS, inner("filter", inner("d", text("$ref", "c"), field("$id", 1)))),
        (),
        """\
request "find"
document 75
  "find" string "ids"
  "filter" document 34
    "d" document 26
      "$ref" string "c"
      "$id" int32 1
  "$db" string "test"
answer
document 76
  "cursor" document 51
    "firstBatch" array 5
    "id" int64 0
    "ns" string "test.ids"
  "ok" double 000000000000f03f
""",
    ),
    (
        command("createIndexes", IDS, SAME_KEYS),
        (),
        """\
request "createIndexes"
document 138
  "createIndexes" string "ids"
  "indexes" array 87
    "0" document 36
      "key" document 12
        "a" int32 1
      "name" string "a_1"
    "1" document 40
      "key" document 16
        "a" double 000000000000f03f
      "name" string "b_1"
  "$db" string "test"
answer
document 101
  "ok" double 0000000000000000
  "errmsg" string "another index has this key"
  "code" int32 85
  "codeName" string "IndexOptionsConflict"
""",
    ),
    (
        command("createIndexes", IDS, array("indexes", lambda at: inner(at, inner("key", field("a", 1)), text("name", "a_1"), element(BOOLEAN, "unique", b"\0")))),
        (),
        """\
request "createIndexes"
document 104
  "createIndexes" string "ids"
  "indexes" array 53
    "0" document 45
      "key" document 12
        "a" int32 1
      "name" string "a_1"
      "unique" boolean false
  "$db" string "test"
answer
document 93
  "numIndexesBefore" int32 1
  "numIndexesAfter" int32 2
  "createdCollectionAutomatically" boolean false
  "ok" double 000000000000f03f
""",
    ),
    (
        command("drop", IDS),
        (),
        """\
request "drop"
document 33
  "drop" string "ids"
  "$db" string "test"
answer
document 51
  "nIndexesWas" int32 2
  "ns" string "test.ids"
  "ok" double 000000000000f03f
""",
    ),
    (
        command("getlasterror", ONE),
        (),
        """\
request "getlasterror"
document 37
  "getlasterror" int32 1
  "$db" string "test"
answer
document 101
  "ok" double 0000000000000000
  "errmsg" string "no such command: 'getlasterror'"
  "code" int32 59
  "codeName" string "CommandNotFound"
""",
    ),
    (
        command("ping", ONE),
        (),
        """\
request "ping"
document 29
  "ping" int32 1
  "$db" string "test"
answer
document 17
  "ok" double 000000000000f03f
""",
    ),
    (
        command("ping", ONE),
        [sequence("documents", [document([])])],
        """\
request "ping"
document 29
  "ping" int32 1
  "$db" string "test"
sequence "documents" 1
answer
document 109
  "ok" double 0000000000000000
  "errmsg" string "the field 'documents' is not carried out"
  "code" int32 238
  "codeName" string "NotImplemented"
""",
    ),
]


def wanted():
    """Returns what the server writes of the connection."""
    entries = "".join("connection 1\n" + text for _, _, text in REQUESTS)
    return "connection 1 new\n" + entries + "connection 1 end Ended\n"


def command_of(body):
    """Returns the name of the first field, which is the command."""
    return body[5:body.index(0, 5)].decode()


def first_of_each(names):
    """Returns the first request of each of these commands."""
    firsts = {}
    for request in REQUESTS:
        firsts.setdefault(command_of(request[0]), request)
    return [firsts[name] for name in names]


def send(address, names=()):
    """Sends requests over one connection, up to the first one that isn't answered: all, or the first of each of these commands."""
    with connect(address) as link:
        for number, (body, sections, _) in enumerate(first_of_each(names) if names else REQUESTS, 1):
            if not is_answered(link, message_with(number, body, sections)):
                break


def main():
    if sys.argv[1:] == ["--wanted"]:
        print(wanted(), end="")
        return
    send(sys.argv[1], sys.argv[2:])


if __name__ == "__main__":
    main()
