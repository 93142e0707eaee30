"""Numbers that a program gives: whether they are in range, and how a message shows them."""

from __future__ import annotations

import operator


def shown(number: int) -> str:
    """Returns how a message shows a number. Python may refuse to write the digits of a long one, so its bits are counted."""
    if isinstance(number, int) and number.bit_length() > 128:
        return f"an int of {number.bit_length()} bits"
    return f"{number}"


def require(what: str, number: int, least: int, most: int) -> int:
    """Returns the number. Raises ValueError where it isn't from `least` to `most`, and TypeError where it is no int."""
    try:
        whole = operator.index(number)
    except TypeError:
        kind = type(number).__name__
        raise TypeError(f"the {what} is of type {kind}, and isn't an int") from None
    if not least <= whole <= most:
        raise ValueError(f"the {what} is {shown(whole)}, and isn't one of {least} to {most}")
    return whole
