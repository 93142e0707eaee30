"""What holds a core of the library by a handle."""

from __future__ import annotations

import copy
import ctypes
import weakref
from collections.abc import Callable
from typing import Any, NoReturn, Optional, Self

from . import _library as lib
from ._numbers import shown
from .errors import CallRefused, Closed

# How many bytes `output` gives at most, if it isn't told another number.
PIECE = 1 << 16


def refuse(refusal: int) -> None:
    """Raises what a refusal is, if it is one."""
    if refusal == lib.NO_MEMORY:
        raise MemoryError
    if refusal:
        raise CallRefused(refusal)


def own_room(length: int) -> tuple[bytearray, Any, Any]:
    """Returns a room of so many bytes, its address and its length as arguments."""
    room = bytearray(max(1, length))
    return room, ctypes.byref(ctypes.c_char.from_buffer(room)), ctypes.c_size_t(length)


def _free(core: lib.Core) -> None:
    """Gives the memory of a core back."""
    lib.short.free(ctypes.byref(core))


class Held:
    """Owns a core, whose memory is given back at the end of a `with`, or when this is collected. One thread at a time uses it."""

    def __init__(self, make: Callable[..., int], *numbers: Any) -> None:
        core = lib.Core()
        self._core = ctypes.byref(core)
        refuse(make(self._core, *numbers))
        self._finalizer = weakref.finalize(self, _free, core)

    def __enter__(self) -> Self:
        return self

    def __exit__(self, *_: Any) -> None:
        self._finalizer()

    def __reduce__(self) -> NoReturn:
        """Refuses copies and pickles: a copy would use the same core."""
        raise TypeError(f"a {type(self).__name__} can't be copied or pickled")


class End(Held):
    """Moves the bytes of one end of a connection. It opens no socket: what `output` gives is to be sent, and what comes is fed."""

    # What the names of the library's functions begin with.
    _end = ""

    def __init__(self, make: Callable[..., int], *numbers: Any) -> None:
        super().__init__(make, *numbers)
        # What was fed and the core hasn't taken: the bytes from `_at` on.
        self._held = bytearray()
        self._at = 0
        self._closed: Optional[Closed] = None

    def __exit__(self, *_: Any) -> None:
        self.close()

    def close(self) -> None:
        """Gives the memory back. Calls are refused then; `closed` stays what it was."""
        self._finalizer()
        self._held = bytearray()
        self._at = 0

    def _require_core(self) -> None:
        """Raises CallRefused once the memory was given back."""
        if not self._finalizer.alive:
            raise CallRefused(CallRefused.NO_CORE)

    def _raise_if_closed(self) -> None:
        """Raises the same, or why this end is closed, if it is."""
        self._require_core()
        if self._closed:
            # What is raised holds this end by its traceback, so what this end holds isn't raised.
            raise copy.copy(self._closed)

    def _tell(self, name: str, *arguments: Any) -> Any:
        """Returns what a function of the library tells of this end."""
        return getattr(lib.short, f"{self._end}_{name}")(self._core, *arguments)

    @property
    def waiting(self) -> int:
        """Returns how many bytes wait to be sent."""
        told = self._tell("output", b"", lib.size(0))
        refuse(told.refusal)
        waiting: int = told.waiting
        return waiting

    def output(self, most: int = PIECE) -> bytes:
        """Returns the first bytes that wait to be sent, at most so many. They wait until `sent` says that they were."""
        room, address, length = own_room(max(0, min(most, self.waiting)))
        told = self._tell("output", address, length)
        refuse(told.refusal)
        return bytes(memoryview(room)[: told.copied])

    def sent(self, count: int) -> None:
        """Takes the first `count` bytes that wait off, since they were sent."""
        if count < 0:
            raise ValueError(f"{shown(count)} bytes can't be sent")
        refuse(self._tell("sent", ctypes.c_size_t(min(count, (1 << 64) - 1))))

    def _keep(self, piece: lib.Buffer) -> None:
        """Keeps a copy of a piece behind what was fed before. Where it raises MemoryError the piece isn't kept, as its text says."""
        try:
            if self._at:
                del self._held[: self._at]
                self._at = 0
            self._held += piece
        except MemoryError:
            raise MemoryError("the piece isn't kept") from None

    def _hand_over(self) -> Any:
        """Feeds the core what it hasn't taken yet, and returns what it tells of that."""
        piece = ctypes.byref(ctypes.c_char.from_buffer(self._held), self._at)
        fed = self._tell("feed", piece, ctypes.c_size_t(len(self._held) - self._at))
        del piece
        refuse(fed.refusal)
        self._at += fed.taken
        if self._at == len(self._held):
            # An end that waits for more holds no bytes that the core has.
            self._held, self._at = bytearray(), 0
        return fed
