"""The numbered calls of run_numbered by PyMongo, a thread for each client: numbered.py URI FIRST CLIENTS CALLS

FIRST is the number of the first client, and CALLS how many calls the CLIENTS make together. The programs by the other drivers
make the same calls in the same order, and write the same lines.
"""
import sys
import threading
import time

import pymongo
from pymongo import errors
from pymongo.write_concern import WriteConcern

MOST = 10_000_000
WALKED, BATCH = 10, 3
PAUSE = 0.02


class Lost(Exception):
    """The network failed under a call."""


class Wrong(Exception):
    """An answer is not that of its request."""


def tell(*words):
    """Writes a line at once, which no other thread's comes between."""
    sys.stdout.write(" ".join(str(word) for word in words) + "\n")
    sys.stdout.flush()


def same(what, found, wanted):
    if found != wanted:
        raise Wrong(f"{what} gave {str(found)[:300]} in place of {str(wanted)[:300]}")


class Client(threading.Thread):
    """A client, whose documents have numbers that are no other client's."""

    def __init__(self, number, calls):
        super().__init__(daemon=True)
        self.number, self.calls, self.turn = number, calls, 0
        self.made = self.lost = self.wrong = self.silent = self.unseen = 0

    def call(self, make, *words):
        """Makes a call and returns its answer."""
        self.made += 1
        try:
            return make(*words)
        except errors.NotMasterError:  # which an answer tells
            raise
        except errors.AutoReconnect as error:
            self.lost += 1
            raise Lost from error

    def document(self, times=None):
        """Returns the document of this turn, as long as its number tells, and its collection."""
        number = self.number * MOST + self.turn * WALKED
        text = str(number) * (self.turn % 60 if times is None else times)
        return {"_id": number, "n": self.turn, "text": text}, self.items[self.turn // 8 % 2]

    def insert(self, times=None):
        document, items = self.document(times)
        same("insert", self.call(items.insert_one, document).inserted_id, document["_id"])
        return document, items

    def find(self, document, items):
        same("find", self.call(items.find_one, {"_id": document["_id"]}), document)

    def delete(self, document, items):
        same("delete", self.call(items.delete_one, {"_id": document["_id"]}).deleted_count, 1)

    def ask(self, name):
        try:
            return self.client.admin.command(name)
        except errors.OperationFailure as error:
            return error.code, error.details["errmsg"]

    def say(self):
        """Asks for a command that isn't there, whose name comes back."""
        name = f"say{self.number}x{self.made}"
        same(name, self.call(self.ask, name), (59, f"no such command: '{name}'"))

    def plain(self):
        document, items = self.insert()
        self.find(document, items)
        self.say()
        self.delete(document, items)

    def large(self):
        document, items = self.insert(10_000)
        self.find(document, items)
        self.delete(document, items)

    def upsert(self):
        document, items = self.document()
        key = {"_id": document["_id"]}
        new = {"$set": {"n": document["n"], "text": document["text"]}}
        same("upsert", self.call(items.update_one, key, new, True).upserted_id, document["_id"])
        self.find(document, items)
        other = self.items[items is self.items[0]]
        same("find in the other database", self.call(other.find_one, key), None)
        self.delete(document, items)

    def walk(self):
        """Reads documents by a cursor of several batches."""
        first, items = self.document()
        wanted = [{"_id": first["_id"] + i, "n": i} for i in range(WALKED)]
        own = {"_id": {"$gte": first["_id"], "$lt": first["_id"] + WALKED}}
        same("insert", self.call(items.insert_many, wanted).inserted_ids, [each["_id"] for each in wanted])
        cursor = items.find(own).batch_size(BATCH)
        for i, each in enumerate(wanted):
            same("walk", self.call(cursor.next) if i % BATCH == 0 else cursor.next(), each)
        same("walk", next(cursor, None), None)
        same("delete", self.call(items.delete_many, own).deleted_count, WALKED)

    def write_silently(self):
        """Makes a write that has no answer. The next call over the same connection sees what it did."""
        document, items = self.document()
        try:
            items.with_options(write_concern=WriteConcern(w=0)).insert_one(document)
        except errors.AutoReconnect as error:
            raise Lost from error
        self.silent += 1
        found = self.call(items.find_one, {"_id": document["_id"]})
        if found is None:
            self.unseen += 1
            return
        same("find", found, document)
        self.delete(document, items)

    def clear(self):
        """Deletes what lost calls may have left."""
        for items in self.items:
            self.call(items.delete_many, {})

    def next_turn(self):
        if self.turn % 64 == 63:
            cost, make = 3, self.large
        else:
            cost, make = ((4, self.plain), (4, self.upsert), (4, self.plain), (2, self.write_silently),
                          (4, self.plain), (4, self.upsert), (4, self.plain), (6, self.walk))[self.turn % 8]
        make() if cost <= self.calls - self.made else self.say()

    def make_calls(self):
        self.client = pymongo.MongoClient(sys.argv[1])
        self.items = [self.client[name][f"of_{self.number}"] for name in ("even", "odd")]
        was_lost = False
        while self.made < self.calls:
            try:
                if was_lost and self.calls - self.made > 1:
                    self.clear()
                was_lost = False
                self.next_turn()
            except Lost:
                was_lost = True
                time.sleep(PAUSE)
            self.turn += 1
        self.client.close()

    def run(self):
        try:
            self.make_calls()
        except Exception as error:  # any other error is told, whatever its kind
            self.wrong = 1
            tell("wrong client", f"{self.number}: {type(error).__name__}:", " ".join(str(error).split()))


def main():
    first, count, calls = (int(word) for word in sys.argv[2:])
    clients = [Client(first + i, calls // count + (i < calls % count)) for i in range(count)]
    for client in clients:
        client.start()
    while any(client.is_alive() for client in clients):
        time.sleep(0.5)
        tell("at", *(client.made if client.is_alive() else "-" for client in clients))
    made = [(each.made, each.lost, each.wrong, each.silent, each.unseen) for each in clients]
    tell("end", *(sum(column) for column in zip(*made)))


main()
