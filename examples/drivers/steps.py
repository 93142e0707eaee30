"""The steps of run_drivers by PyMongo: steps.py URI COLLECTION"""
import sys
import time

import pymongo
from pymongo import monitoring

failed = []
seen = {"connections": 0, "heartbeats": 0}
faults = []


class Pool(monitoring.ConnectionPoolListener):
    """Counts connections. That a pool is cleared, or a connection closed while the client is open, is a fault."""

    def connection_created(self, event):
        seen["connections"] += 1

    def connection_closed(self, event):
        if event.reason != monitoring.ConnectionClosedReason.POOL_CLOSED:
            faults.append(f"connection closed: {event.reason}")

    def pool_cleared(self, event):
        faults.append("pool cleared")

    def connection_check_out_failed(self, event):
        faults.append(f"no connection: {event.reason}")

    def passed(self, event):
        pass

    pool_created = pool_closed = connection_ready = connection_check_out_started = passed
    connection_checked_out = connection_checked_in = passed


class Heartbeats(monitoring.ServerHeartbeatListener):
    def started(self, event):
        pass

    def succeeded(self, event):
        seen["heartbeats"] += 1

    def failed(self, event):
        faults.append(f"heartbeat failed: {event.reply}")


class Commands(monitoring.CommandListener):
    def started(self, event):
        pass

    def succeeded(self, event):
        pass

    def failed(self, event):
        faults.append(f"{event.command_name} failed: {event.failure}")


def step(name, call):
    try:
        call()
        print(name, "ok", flush=True)
    except Exception as error:  # every error is told, whatever its kind
        failed.append(name)
        print(name, "FAILED", type(error).__name__, str(error)[:200], flush=True)


def same(found, wanted):
    if found != wanted:
        raise ValueError(f"{found} in place of {wanted}")


def close_early():
    cursor = items.find({}).batch_size(1)
    next(cursor)
    cursor.close()


def twice():
    try:
        items.insert_one({"_id": 1})
    except pymongo.errors.DuplicateKeyError:
        return
    raise ValueError("a second _id 1 was taken")


def deletes():
    try:
        items.bulk_write([pymongo.DeleteOne({"_id": 5}), pymongo.DeleteMany({"$or": []}), pymongo.DeleteOne({"_id": 6})])
    except pymongo.errors.BulkWriteError as error:
        same([(one["index"], one["code"]) for one in error.details["writeErrors"]], [(1, 2)])
        same(error.details["nRemoved"], 1)
        same(items.count_documents({}), 998)
        return
    raise ValueError("$or of nothing was carried out")


def dotted():
    items.update_one({"_id": 4}, {"$set": {"b.c": 1, "t.1": 2}, "$inc": {"b.n": 3}, "$unset": {"a": 1}})
    items.update_one({"_id": 4}, {"$set": {"t": [1, {"u": 2}, 3]}})
    items.update_one({"_id": 4}, {"$set": {"t.1.u": 5, "t.4": 6}, "$unset": {"t.0": 1}, "$inc": {"b.c": 1}})
    same(items.find_one({"_id": 4}), {"_id": 4, "b": {"c": 2, "n": 3}, "t": [None, {"u": 5}, 3, None, 6]})
    try:
        items.update_one({"_id": 4}, {"$set": {"b.c.x": 1}})
    except pymongo.errors.WriteError as error:
        same(error.code, 28)
        return
    raise ValueError("a field was made in a number")


def log():
    """What the driver's own log says: how much there was of it, and that it tells no fault."""
    print("log:", ", ".join(f"{count} {name}" for name, count in seen.items()))
    same(faults, [])
    same(seen["heartbeats"] > 1, True)


for each in (Pool(), Heartbeats(), Commands()):
    monitoring.register(each)
client = pymongo.MongoClient(sys.argv[1])
items = client.shop[sys.argv[2]]
step("ping", lambda: client.admin.command("ping"))
step("insert", lambda: items.insert_many([{"_id": i, "a": i} for i in range(1000)]))
step("twice", twice)
step("find", lambda: same(len(list(items.find({"a": {"$lt": 10}}).sort("a", -1).limit(7).batch_size(2))), 7))
step("close_early", close_early)
step("update", lambda: same(items.update_one({"_id": 2}, {"$set": {"a": -1}}).modified_count, 1))
step("delete", lambda: same(items.delete_one({"_id": 3}).deleted_count, 1))
step("count", lambda: same(items.count_documents({}), 999))
step("deletes", deletes)
step("names", lambda: same(client.shop.list_collection_names(filter={"name": sys.argv[2]}), [sys.argv[2]]))
step("dotted", dotted)
step("drop", items.drop)
step("rest", lambda: time.sleep(11))
step("ping_again", lambda: client.admin.command("ping"))
step("log", log)
step("close", client.close)  # which clears the pool, too
sys.exit(bool(failed))
