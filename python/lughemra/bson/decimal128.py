"""Decimal128, where PyMongo has it."""

from ._types import Decimal128 as Decimal128
from ._types import create_decimal128_context as create_decimal128_context
