"""A pool of connections, which the program opens and closes."""

from __future__ import annotations

import ctypes
from typing import NamedTuple

from . import _library as lib
from ._held import Held, refuse
from ._numbers import require

# The most connections of a pool.
MOST = 1024


class Lent(NamedTuple):
    """Holds the id of a connection that is lent, and whether it is new, so that the program has to open it."""

    id: int
    is_new: bool


class Pool(Held):
    """Lends connections by their ids, the one that came back last first. It opens none: what belongs to an id is the program's."""

    def __init__(self, most: int = 100) -> None:
        most = require("greatest number of connections", most, 1, MOST)
        super().__init__(lib.short.pool_new, lib.size(most))

    def check_out(self) -> Lent:
        """Lends a connection: an idle one, else a new one. Raises CallRefused where all are lent, or the pool is closed."""
        told = lib.short.pool_check_out(self._core)
        refuse(told.refusal)
        return Lent(told.id, told.is_new)

    def check_in(self, id: int, healthy: bool = True) -> bool:
        """Takes back a connection. Returns whether it is idle now; if it isn't, the program closes it.

        It is kept if it is healthy, the pool is open, and the pool wasn't cleared since it was lent. Raises CallRefused where no
        such one is lent.
        """
        id = require("id", id, 0, (1 << 64) - 1)
        told = lib.short.pool_check_in(self._core, ctypes.c_uint64(id), ctypes.c_bool(healthy))
        refuse(told.refusal)
        kept: bool = told.kept
        return kept

    def clear(self) -> None:
        """Drops the idle connections, and each that is lent when it comes back, as after a server was lost.

        The program closes the idle ones, whose ids aren't told.
        """
        refuse(lib.short.pool_clear(self._core))

    def close(self) -> None:
        """Does the same, and lends none from then on."""
        refuse(lib.short.pool_close(self._core))
