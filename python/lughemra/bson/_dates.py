"""Dates: those that `datetime` has none for, what becomes of them, and time zones, with PyMongo's names."""

from __future__ import annotations

import datetime
import enum
import functools
from typing import Any, Optional, Union

EPOCH_NAIVE = datetime.datetime(1970, 1, 1)
MILLISECOND = datetime.timedelta(milliseconds=1)


class FixedOffset(datetime.tzinfo):
    """Is a time zone that is so many minutes, or a timedelta, east of UTC."""

    def __init__(self, offset: Union[float, datetime.timedelta], name: str) -> None:
        self.__offset = offset if isinstance(offset, datetime.timedelta) else datetime.timedelta(minutes=offset)
        self.__name = name

    def __getinitargs__(self) -> tuple[datetime.timedelta, str]:
        return self.__offset, self.__name

    def utcoffset(self, dt: Optional[datetime.datetime]) -> datetime.timedelta:
        """Returns the offset."""
        return self.__offset

    def tzname(self, dt: Optional[datetime.datetime]) -> str:
        """Returns the name."""
        return self.__name

    def dst(self, dt: Optional[datetime.datetime]) -> datetime.timedelta:
        """Returns no offset of summer."""
        return datetime.timedelta(0)


# Equal to `datetime.timezone.utc` in what it does; that one is what dates are read with, since it is made sooner.
utc: datetime.tzinfo = datetime.timezone.utc
EPOCH_AWARE = EPOCH_NAIVE.replace(tzinfo=utc)


class DatetimeConversion(int, enum.Enum):
    """Tells what becomes of a date: a `datetime`, out of whose range InvalidBSON is raised, or the nearest one; a DatetimeMS; or a
    DatetimeMS only out of that range."""

    DATETIME = 1
    DATETIME_CLAMP = 2
    DATETIME_MS = 3
    DATETIME_AUTO = 4


def milliseconds_of(date: datetime.datetime) -> int:
    """Returns the milliseconds since 1970 of a date, which is in UTC if it has no time zone."""
    offset = date.utcoffset()
    naive = date.replace(tzinfo=None)
    return (naive - (offset or datetime.timedelta(0)) - EPOCH_NAIVE) // MILLISECOND


@functools.total_ordering
class DatetimeMS:
    """Holds milliseconds since 1970, of any size that BSON has room for."""

    __slots__ = ("_value",)

    _type_marker = 9

    def __init__(self, value: Union[int, datetime.datetime]) -> None:
        """Takes milliseconds or a `datetime`. Raises OverflowError where they have no room in 64 bits."""
        if isinstance(value, int):
            if not -(1 << 63) <= value < 1 << 63:
                raise OverflowError("Must be a 64-bit integer of milliseconds")
            self._value = value
        elif isinstance(value, datetime.datetime):
            self._value = milliseconds_of(value)
        else:
            raise TypeError(f"{type(value)} is not a valid type for DatetimeMS")

    def as_datetime(self, codec_options: Any = None) -> datetime.datetime:
        """Returns the date. Raises OverflowError where `datetime` has none."""
        date = EPOCH_NAIVE + self._value * MILLISECOND
        if codec_options is not None and not codec_options.tz_aware:
            return date
        aware = date.replace(tzinfo=utc)
        zone = codec_options.tzinfo if codec_options is not None else None
        return aware.astimezone(zone) if zone is not None else aware

    def __hash__(self) -> int:
        return hash(self._value)

    def __repr__(self) -> str:
        return f"DatetimeMS({self._value})"

    def __lt__(self, other: object) -> Any:
        return self._value < other._value if isinstance(other, DatetimeMS) else NotImplemented

    def __eq__(self, other: object) -> bool:
        return isinstance(other, DatetimeMS) and self._value == other._value

    def __int__(self) -> int:
        return self._value
