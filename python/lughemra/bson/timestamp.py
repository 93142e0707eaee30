"""Timestamp, where PyMongo has it."""

from ._types import Timestamp as Timestamp
