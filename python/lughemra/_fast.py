"""Takes the extension `_speed`, where it was built, and hands it the functions of the shared object that is loaded.

Without it all is done over `ctypes`, with the same results. LUGHEMRA_CTYPES, if it is set, leaves it out.
"""

from __future__ import annotations

import ctypes
import os
from typing import Any, Optional

from . import _library as lib

VARIABLE = "LUGHEMRA_CTYPES"
NAMES = "check_document first next_elements enter get next_document append begin end finish build".split()


def address_of(name: str) -> Optional[int]:
    """Returns the address of a function of the library."""
    return ctypes.cast(getattr(lib.short, name), ctypes.c_void_p).value


def taken() -> Any:
    """Returns the extension, or None where there is none that can be used."""
    if os.environ.get(VARIABLE):
        return None
    try:
        from . import _speed  # type: ignore[attr-defined]
    except ImportError:
        return None
    _speed.bind({name: address_of(name) for name in NAMES})
    return _speed


SPEED = taken()
