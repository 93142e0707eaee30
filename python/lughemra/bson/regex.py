"""Regex, where PyMongo has it."""

from ._types import Regex as Regex
from ._values import str_flags_to_int as str_flags_to_int
