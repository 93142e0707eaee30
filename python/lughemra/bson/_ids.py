"""An ObjectId with PyMongo's interface, for where PyMongo isn't installed."""

from __future__ import annotations

import calendar
import datetime
import os
import struct
import threading
import time
from typing import Any, Optional, Union

from ._errors import InvalidId

# The counter behind the time and the random bytes of an ObjectId takes this many values.
COUNTED = 1 << 24


class ObjectId:
    """Holds 12 bytes: four of the time in seconds, five of this process, three of a counter. Two with the same bytes are equal."""

    __slots__ = ("__id",)

    _type_marker = 7
    _lock = threading.Lock()
    _count = int.from_bytes(os.urandom(3), "big")
    _process = (0, b"")

    def __init__(self, oid: Union[str, bytes, ObjectId, None] = None) -> None:
        """Takes 24 hexadecimal digits, 12 bytes or an ObjectId; of None makes a new one. Raises InvalidId or TypeError."""
        if oid is None:
            self.__id = self._generated()
        elif isinstance(oid, ObjectId):
            self.__id = oid.binary
        elif isinstance(oid, bytes) and len(oid) == 12:
            self.__id = oid
        elif isinstance(oid, str) and len(oid) == 24:
            try:
                self.__id = bytes.fromhex(oid)
            except ValueError:
                self._refuse(oid)
            if len(self.__id) != 12:
                self._refuse(oid)
        elif isinstance(oid, (str, bytes)):
            self._refuse(oid)
        else:
            raise TypeError(f"id must be an instance of (bytes, str, ObjectId), not {type(oid)}")

    @staticmethod
    def _refuse(oid: Any) -> None:
        raise InvalidId(f"{oid!r} is not a valid ObjectId, it must be a 12-byte input or a 24-character hex string")

    @classmethod
    def _generated(cls) -> bytes:
        """Returns the bytes of a new one. A process that was forked has random bytes of its own."""
        with ObjectId._lock:
            if ObjectId._process[0] != os.getpid():
                ObjectId._process = (os.getpid(), os.urandom(5))
            ObjectId._count = (ObjectId._count + 1) % COUNTED
            return struct.pack(">I", int(time.time()) & 0xFFFFFFFF) + ObjectId._process[1] + ObjectId._count.to_bytes(3, "big")

    @classmethod
    def from_datetime(cls, generation_time: datetime.datetime) -> ObjectId:
        """Returns one of this time whose other bytes are 0, for queries."""
        seconds = calendar.timegm(generation_time.utctimetuple())
        return cls(struct.pack(">I", seconds & 0xFFFFFFFF) + bytes(8))

    @classmethod
    def is_valid(cls, oid: Any) -> bool:
        """Returns true if an ObjectId can be made of it."""
        if not oid:
            return False
        try:
            cls(oid)
        except (InvalidId, TypeError):
            return False
        return True

    @property
    def binary(self) -> bytes:
        """Returns the 12 bytes."""
        return self.__id

    @property
    def generation_time(self) -> datetime.datetime:
        """Returns the time at which it was made, in UTC."""
        seconds: int = struct.unpack(">I", self.__id[:4])[0]
        return datetime.datetime.fromtimestamp(seconds, datetime.timezone.utc)

    def __getstate__(self) -> bytes:
        return self.__id

    def __setstate__(self, value: Any) -> None:
        held: Optional[Any] = value["_ObjectId__id"] if isinstance(value, dict) else value
        self.__id = held.encode("latin-1") if isinstance(held, str) else bytes(held or b"")

    def __str__(self) -> str:
        return self.__id.hex()

    def __repr__(self) -> str:
        return f"ObjectId('{self}')"

    def __eq__(self, other: object) -> Any:
        return self.__id == other.binary if isinstance(other, ObjectId) else NotImplemented

    def __lt__(self, other: object) -> Any:
        return self.__id < other.binary if isinstance(other, ObjectId) else NotImplemented

    def __le__(self, other: object) -> Any:
        return self.__id <= other.binary if isinstance(other, ObjectId) else NotImplemented

    def __gt__(self, other: object) -> Any:
        return self.__id > other.binary if isinstance(other, ObjectId) else NotImplemented

    def __ge__(self, other: object) -> Any:
        return self.__id >= other.binary if isinstance(other, ObjectId) else NotImplemented

    def __hash__(self) -> int:
        return hash(self.__id)
