"""A decimal number with PyMongo's interface, for where PyMongo isn't installed."""

from __future__ import annotations

import decimal
from typing import Any, Union

from ..values import Decimal128 as Held

# The least exponent of a Decimal128, and how far it stands in the upper 64 bits.
LEAST, SHIFT = -6176, 49
INFINITE, QUIET, SIGNALLING, NEGATIVE = 0x7800 << 48, 0x7C00 << 48, 0x7E00 << 48, 1 << 63


def create_decimal128_context() -> decimal.Context:
    """Returns a context whose numbers are those of a Decimal128; it signals nothing that is only rounded."""
    context = decimal.Context(prec=34, rounding=decimal.ROUND_HALF_EVEN, Emin=-6143, Emax=6144, capitals=1, clamp=1, traps=[])
    context.traps[decimal.InvalidOperation] = context.traps[decimal.Overflow] = context.traps[decimal.Inexact] = True
    return context


def _halves(value: decimal.Decimal) -> tuple[int, int]:
    """Returns the upper and the lower 64 bits of a number that has room."""
    value = create_decimal128_context().create_decimal(value)
    sign, digits, exponent = value.as_tuple()
    high, low = NEGATIVE if sign else 0, 0
    if value.is_nan():
        if digits:
            raise ValueError("NaN with debug payload is not supported")
        return high | (SIGNALLING if value.is_snan() else QUIET), 0
    if value.is_infinite():
        return high | INFINITE, 0
    number = int("".join(map(str, digits)) or "0")
    low = number & (1 << 64) - 1
    return high | number >> 64 | (int(exponent) - LEAST) << SHIFT, low


class Decimal128:
    """Holds a decimal number of 34 digits. Two are equal if their bytes are, so 1.0 isn't 1.00."""

    __slots__ = ("__high", "__low")

    _type_marker = 19

    def __init__(self, value: Union[str, decimal.Decimal, tuple[int, int], list[int]]) -> None:
        """Takes a text, a `Decimal`, or the upper and the lower 64 bits. Raises what a decimal context does where it has no room."""
        if isinstance(value, str):
            self.__high, self.__low = _halves(create_decimal128_context().create_decimal(value))
        elif isinstance(value, decimal.Decimal):
            self.__high, self.__low = _halves(value)
        elif isinstance(value, (list, tuple)):
            if len(value) != 2:
                raise ValueError("Invalid size for creation of Decimal128 from list or tuple. Must have exactly 2 elements.")
            self.__high, self.__low = value
        else:
            raise TypeError(f"Cannot convert {value!r} to Decimal128")

    def to_decimal(self) -> decimal.Decimal:
        """Returns the number with all of its digits."""
        if self.__high & SIGNALLING == SIGNALLING:
            return decimal.Decimal("-sNaN" if self.__high & NEGATIVE else "sNaN")
        return Held(self.bid).to_decimal()

    @classmethod
    def from_bid(cls, value: bytes) -> Decimal128:
        """Returns the number of these 16 bytes."""
        if not isinstance(value, bytes):
            raise TypeError(f"value must be an instance of bytes, not {type(value)}")
        if len(value) != 16:
            raise ValueError("value must be exactly 16 bytes")
        return cls((int.from_bytes(value[8:], "little"), int.from_bytes(value[:8], "little")))

    @property
    def bid(self) -> bytes:
        """Returns the 16 bytes."""
        return self.__low.to_bytes(8, "little") + self.__high.to_bytes(8, "little")

    def __str__(self) -> str:
        number = self.to_decimal()
        return "NaN" if number.is_nan() else str(number)

    def __repr__(self) -> str:
        return f"Decimal128('{self}')"

    def __setstate__(self, value: Any) -> None:
        self.__high, self.__low = value

    def __getstate__(self) -> tuple[int, int]:
        return self.__high, self.__low

    def __eq__(self, other: object) -> Any:
        return self.bid == other.bid if isinstance(other, Decimal128) else NotImplemented

    def __hash__(self) -> int:
        return hash(self.bid)
