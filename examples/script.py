#!/usr/bin/env python3
"""Asks a bsonserver with the second script of docs/SERVER.md by PyMongo.

    examples/script.py URI

The status is 1 where the reply of the script isn't what PyMongo gives.
"""

import sys

import pymongo

client = pymongo.MongoClient(sys.argv[1], serverSelectionTimeoutMS=10000)
found = client.test.c.find_one({"_id": 3})
client.close()
sys.exit(0 if found == {"_id": 3, "x": "other"} else 1)
