"""Lends the memory that calls of the library read and write: bytes-like objects, and rooms for texts."""

from __future__ import annotations

import array
import ctypes
import functools
import mmap
from ctypes import c_char, c_size_t, c_void_p
from typing import TYPE_CHECKING, Any, Union

# Makes an argument of a number of bytes.
size = functools.lru_cache(4096)(c_size_t.from_param)


class _PyBuffer(ctypes.Structure):
    """Lays out Py_buffer of CPython."""

    _fields_ = [
        ("buf", c_void_p),
        ("obj", c_void_p),
        ("len", ctypes.c_ssize_t),
        ("itemsize", ctypes.c_ssize_t),
        ("readonly", ctypes.c_int),
        ("ndim", ctypes.c_int),
        ("format", ctypes.c_char_p),
        ("shape", c_void_p),
        ("strides", c_void_p),
        ("suboffsets", c_void_p),
        ("internal", c_void_p),
    ]


# To index gives functions of one's own: the attributes of `pythonapi` are those of the whole process.
_get_buffer = ctypes.pythonapi["PyObject_GetBuffer"]
_get_buffer.argtypes = [ctypes.py_object, ctypes.POINTER(_PyBuffer), ctypes.c_int]
_get_buffer.restype = ctypes.c_int
_release_buffer = ctypes.pythonapi["PyBuffer_Release"]
_release_buffer.argtypes = [ctypes.POINTER(_PyBuffer)]
_release_buffer.restype = None


# A bytes-like object. For a checker any other one can be handed in as a memoryview of it.
if TYPE_CHECKING:
    Buffer = Union[bytes, bytearray, memoryview, array.array[Any], mmap.mmap]
else:
    # Python 3.11 has no `array.array[Any]`, and a text in its place would be looked up in each module that uses this.
    Buffer = Union[bytes, bytearray, memoryview, array.array, mmap.mmap]


def lent(data: Buffer) -> tuple[Any, Any, Any]:
    """Returns what keeps the bytes of a bytes-like object where they are, their address and their number as arguments.

    What keeps them is the object itself if it is of type `bytes`, and else a view of it, which is held as long as the bytes
    are read.
    """
    if type(data) is bytes:
        return data, data, size(len(data))
    view = memoryview(data)
    if not view.c_contiguous:
        raise BufferError("the bytes aren't one piece of memory")
    view = view.cast("B")
    if not view:
        return b"", b"", size(0)
    buffer = _PyBuffer()
    _get_buffer(view, buffer, 0)
    address = buffer.buf
    _release_buffer(buffer)
    return view, c_void_p.from_param(address), size(len(view))


class Room:
    """Holds memory for a text that the library writes."""

    def __init__(self, length: int) -> None:
        self.length = length
        held = bytearray(length)
        self.view = memoryview(held)
        self.pointer = ctypes.byref(c_char.from_buffer(held))
        self.size = size(length)


# Rooms that no one uses, each of this length.
KEPT_LENGTH = 1 << 14
_rooms: list[Room] = []


def room_of(length: int) -> Room:
    """Returns a room of at least this length, which no one uses."""
    if length > KEPT_LENGTH:
        return Room(length)
    try:
        return _rooms.pop()
    except IndexError:
        return Room(KEPT_LENGTH)


def give_back(room: Room) -> None:
    """Keeps a room for the next text, unless it is a long one."""
    if room.length == KEPT_LENGTH:
        _rooms.append(room)
