"""The other types of `bson` with PyMongo's interface, for where PyMongo isn't installed."""

from __future__ import annotations

import calendar
import copy
import datetime
import functools
import re
from collections.abc import Iterable, Iterator, Mapping
from typing import Any, Optional, Union

from ._dates import utc

# The letters of a regular expression's options, in the order in which they are written.
FLAGS = {"i": re.IGNORECASE, "l": re.LOCALE, "m": re.MULTILINE, "s": re.DOTALL, "u": re.UNICODE, "x": re.VERBOSE}


class Int64(int):
    """Holds a number that is written as an int64 whatever its size; what is read of an int64 is one, too."""

    __slots__ = ()

    _type_marker = 18

    def __getstate__(self) -> Any:
        return {}

    def __setstate__(self, state: Any) -> None:
        pass


class Code(str):
    """Holds JavaScript, and the variables in its scope if it has one: those of `scope`, and those that are named."""

    _type_marker = 13
    __scope: Optional[dict[str, Any]]

    def __new__(cls, code: Any, scope: Optional[Mapping[str, Any]] = None, **kwargs: Any) -> Code:
        """Takes a text or a Code. Raises TypeError for anything else."""
        if not isinstance(code, str):
            raise TypeError(f"code must be an instance of str, not {type(code)}")
        made = str.__new__(cls, code)
        held = getattr(code, "scope", None)
        made.__scope = dict(held) if held is not None else None
        if scope is not None:
            if not isinstance(scope, Mapping):
                raise TypeError(f"scope must be an instance of dict, not {type(scope)}")
            made.__scope = {**(made.__scope or {}), **scope}
        if kwargs:
            made.__scope = {**(made.__scope or {}), **kwargs}
        return made

    @property
    def scope(self) -> Optional[Mapping[str, Any]]:
        """Returns the variables, or None."""
        return self.__scope

    def __getnewargs__(self) -> Any:
        return str(self), self.__scope

    def __repr__(self) -> str:
        return f"Code({str.__repr__(self)}, {self.__scope!r})"

    def __eq__(self, other: object) -> bool:
        return isinstance(other, Code) and (self.__scope, str(self)) == (other.__scope, str(other))

    __hash__: Any = None

    def __ne__(self, other: object) -> bool:
        return not self == other


def str_flags_to_int(options: str) -> int:
    """Returns the flags of `re` that these letters stand for; others stand for none."""
    return functools.reduce(lambda flags, letter: flags | FLAGS.get(letter, 0), options, 0)


def options_of(flags: int) -> str:
    """Returns the letters of these flags of `re`."""
    return "".join(letter for letter, flag in FLAGS.items() if flags & flag)


class Regex:
    """Holds a regular expression: its pattern, and its options as flags of `re`."""

    __slots__ = ("pattern", "flags")

    _type_marker = 11

    def __init__(self, pattern: Union[str, bytes], flags: Union[str, int] = 0) -> None:
        """Takes a pattern, and flags of `re` or letters."""
        if not isinstance(pattern, (str, bytes)):
            raise TypeError(f"pattern must be a string, not {type(pattern)}")
        if not isinstance(flags, (str, int)):
            raise TypeError(f"flags must be a string or int, not {type(flags)}")
        self.pattern = pattern
        self.flags = str_flags_to_int(flags) if isinstance(flags, str) else int(flags)

    @classmethod
    def from_native(cls, regex: re.Pattern[Any]) -> Regex:
        """Returns that of a compiled expression of Python."""
        if not isinstance(regex, re.Pattern):
            raise TypeError(f"regex must be a compiled regular expression, not {type(regex)}")
        return cls(regex.pattern, regex.flags)

    def try_compile(self) -> re.Pattern[Any]:
        """Compiles it as one of Python, which may mean something else, or raise `re.error`."""
        return re.compile(self.pattern, self.flags)

    def __getstate__(self) -> Any:
        return self.pattern, self.flags

    def __setstate__(self, state: Any) -> None:
        self.pattern, self.flags = state

    def __eq__(self, other: object) -> Any:
        if not isinstance(other, Regex):
            return NotImplemented
        return (self.pattern, self.flags) == (other.pattern, other.flags)

    __hash__: Any = None

    def __repr__(self) -> str:
        return f"Regex({self.pattern!r}, {self.flags!r})"


@functools.total_ordering
class Timestamp:
    """Holds a timestamp of MongoDB: seconds since 1970, and a number that goes up within a second."""

    __slots__ = ("__time", "__inc")

    _type_marker = 17

    def __init__(self, time: Union[datetime.datetime, int], inc: int) -> None:
        """Takes seconds or a `datetime`, and the number. Raises ValueError where one has no room in 32 bits."""
        if isinstance(time, datetime.datetime):
            time = calendar.timegm(time.utctimetuple())
        for what, it in (("time", time), ("inc", inc)):
            if not isinstance(it, int):
                raise TypeError(f"{what} must be an instance of int, not {type(it)}")
            if not 0 <= it < 1 << 32:
                raise ValueError(f"{what} must be contained in [0, 2**32)")
        self.__time, self.__inc = time, inc

    @property
    def time(self) -> int:
        """Returns the seconds."""
        return self.__time

    @property
    def inc(self) -> int:
        """Returns the number within the second."""
        return self.__inc

    def as_datetime(self) -> datetime.datetime:
        """Returns the time, in UTC."""
        return datetime.datetime.fromtimestamp(self.__time, utc)

    def __getstate__(self) -> Any:
        return self.__time, self.__inc

    def __setstate__(self, state: Any) -> None:
        self.__time, self.__inc = state

    def __eq__(self, other: object) -> Any:
        return (self.time, self.inc) == (other.time, other.inc) if isinstance(other, Timestamp) else NotImplemented

    def __lt__(self, other: object) -> Any:
        return (self.time, self.inc) < (other.time, other.inc) if isinstance(other, Timestamp) else NotImplemented

    def __hash__(self) -> int:
        return hash(self.time) ^ hash(self.inc)

    def __repr__(self) -> str:
        return f"Timestamp({self.__time}, {self.__inc})"


class _Key:
    """Is what MinKey and MaxKey are: all of one type are equal."""

    __slots__ = ()

    def __getstate__(self) -> Any:
        return {}

    def __setstate__(self, state: Any) -> None:
        pass

    def __eq__(self, other: object) -> bool:
        return type(self) is type(other)

    def __hash__(self) -> int:
        return hash(type(self).__name__)

    def __repr__(self) -> str:
        return f"{type(self).__name__}()"


class MinKey(_Key):
    """Stands below all values."""

    __slots__ = ()
    _type_marker = 255

    def __le__(self, other: object) -> bool:
        return True

    def __lt__(self, other: object) -> bool:
        return not isinstance(other, MinKey)

    def __ge__(self, other: object) -> bool:
        return isinstance(other, MinKey)

    def __gt__(self, other: object) -> bool:
        return False


class MaxKey(_Key):
    """Stands above all values."""

    __slots__ = ()
    _type_marker = 127

    def __le__(self, other: object) -> bool:
        return isinstance(other, MaxKey)

    def __lt__(self, other: object) -> bool:
        return False

    def __ge__(self, other: object) -> bool:
        return True

    def __gt__(self, other: object) -> bool:
        return not isinstance(other, MaxKey)


class SON(dict[str, Any]):
    """Is a dict that is equal to another SON only if its pairs stand in the same order."""

    def __init__(self, data: Any = None, **kwargs: Any) -> None:
        super().__init__()
        self.update(data if data is not None else (), **kwargs)

    def iteritems(self) -> Iterator[tuple[str, Any]]:
        """Walks over the pairs."""
        return iter(self.items())

    def iterkeys(self) -> Iterator[str]:
        """Walks over the names."""
        return iter(self)

    def itervalues(self) -> Iterator[Any]:
        """Walks over the values."""
        return iter(self.values())

    def has_key(self, key: str) -> bool:
        """Returns true if there is a pair of this name."""
        return key in self

    def copy(self) -> SON:
        """Returns a copy, whose values are the same objects."""
        return SON(self)

    def to_dict(self) -> dict[str, Any]:
        """Returns the same as dict, at all depths."""

        def plain(value: Any) -> Any:
            if isinstance(value, list):
                return [plain(it) for it in value]
            return {name: plain(it) for name, it in value.items()} if isinstance(value, Mapping) else value

        made: dict[str, Any] = plain(self)
        return made

    def __deepcopy__(self, memo: dict[int, Any]) -> SON:
        made = SON()
        memo[id(self)] = made
        for name, value in self.items():
            made[name] = copy.deepcopy(value, memo)
        return made

    def __eq__(self, other: object) -> bool:
        if isinstance(other, SON):
            return list(self.items()) == list(other.items())
        return self.to_dict() == other

    def __ne__(self, other: object) -> bool:
        return not self == other

    __hash__ = None

    def __repr__(self) -> str:
        return f"SON([{', '.join(repr(pair) for pair in self.items())}])"


class DBRef:
    """Holds a reference to a document: its collection, its id, its database if that is told, and what else stands there."""

    __slots__ = ("__collection", "__id", "__database", "__kwargs")

    _type_marker = 100

    def __init__(
        self,
        collection: str,
        id: Any,  # noqa: A002
        database: Optional[str] = None,
        _extra: Optional[Mapping[str, Any]] = None,
        **kwargs: Any,
    ) -> None:
        if not isinstance(collection, str):
            raise TypeError(f"collection must be an instance of str, not {type(collection)}")
        if database is not None and not isinstance(database, str):
            raise TypeError(f"database must be an instance of str, not {type(database)}")
        self.__collection, self.__id, self.__database = collection, id, database
        self.__kwargs = {**kwargs, **(_extra or {})}

    @property
    def collection(self) -> str:
        """Returns the name of the collection."""
        return self.__collection

    @property
    def id(self) -> Any:
        """Returns the id."""
        return self.__id

    @property
    def database(self) -> Optional[str]:
        """Returns the name of the database, or None."""
        return self.__database

    def __getattr__(self, key: str) -> Any:
        if key.startswith("__"):
            raise AttributeError(key)
        try:
            return self.__kwargs[key]
        except KeyError:
            raise AttributeError(key) from None

    def as_doc(self) -> SON:
        """Returns the document that stands for it."""
        doc = SON([("$ref", self.collection), ("$id", self.id)])
        if self.database is not None:
            doc["$db"] = self.database
        doc.update(self.__kwargs)
        return doc

    def _key(self) -> Iterable[Any]:
        return self.__collection, self.__id, self.__database, self.__kwargs

    def __getstate__(self) -> Any:
        return tuple(self._key())

    def __setstate__(self, state: Any) -> None:
        self.__collection, self.__id, self.__database, self.__kwargs = state

    def __eq__(self, other: object) -> Any:
        return self._key() == other._key() if isinstance(other, DBRef) else NotImplemented

    def __hash__(self) -> int:
        return hash((self.__collection, self.__id, self.__database, tuple(sorted(self.__kwargs.items()))))

    def __deepcopy__(self, memo: Any) -> DBRef:
        return DBRef(*(copy.deepcopy(it, memo) for it in self._key()))

    def __repr__(self) -> str:
        more = "".join(f", {name}={value!r}" for name, value in self.__kwargs.items())
        where = "" if self.database is None else f", {self.database!r}"
        return f"DBRef({self.collection!r}, {self.id!r}{where}{more})"
