"""DatetimeMS, where PyMongo has it."""

from ._types import DatetimeMS as DatetimeMS
