"""SON, where PyMongo has it."""

from ._types import SON as SON
