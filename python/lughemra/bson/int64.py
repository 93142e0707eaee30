"""Int64, where PyMongo has it."""

from ._types import Int64 as Int64
