"""Finds and loads the shared object, and declares what lughemra.h does.

Each function of the library takes the address of some bytes and their number. No argument is converted in a call: `size`,
`limit_of`, `address_of` and `lent` make arguments beforehand, which halves the price of a call. What a function gives back is
written to a structure whose address it takes, or is such a structure.

The functions of `short` hold the interpreter's lock while they run, so that no other thread can write to the bytes. Those of
`long` let go of it, and are called for bytes that no one can write to.
"""

from __future__ import annotations

import ctypes
import functools
import os
import pathlib
from ctypes import c_bool, c_double, c_int32, c_int64, c_size_t, c_uint32, c_uint64, c_void_p
from typing import Any, Optional

from ._memory import Buffer as Buffer
from ._memory import give_back as give_back
from ._memory import lent as lent
from ._memory import room_of as room_of
from ._memory import size as size
from .errors import LibraryNotFound

# The name under which the system's loader knows the shared object of this version.
SONAME = "liblughemra.so.0"
VARIABLE = "LUGHEMRA_LIBRARY"

# The greatest limit on a message's length.
MAX_LIMIT = 48_000_000
# The faults of what isn't wrong with the bytes: there is no memory, or a canonical form would be longer than a document may be, or
# a message than its limit.
NO_MEMORY = 254
TOO_LARGE = 253
# Of the refusals of a call with a handle: the content isn't that of a message, the room is too short, and no such request waits.
BAD_CONTENT = 4
NO_ROOM = 5
NOT_READY = 7

FRONT_OPEN, FRONT_WHOLE, FRONT_BAD = 0, 1, 2
SECTION_BODY, SECTION_SEQUENCE = 1, 2
MORE_TO_COME, EXHAUST_ALLOWED = 1 << 1, 1 << 16


class FaultStruct(ctypes.Structure):
    """Lays out struct lughemra_fault."""

    _fields_ = [("number", c_uint32), ("offset", c_size_t)]
    number: int
    offset: int


class View(ctypes.Structure):
    """Lays out struct lughemra_view."""

    _fields_ = [("offset", c_size_t), ("length", c_size_t)]
    offset: int
    length: int


class DocumentsCheck(ctypes.Structure):
    """Lays out struct lughemra_documents_check."""

    _fields_ = [("documents", c_size_t), ("bytes_read", c_size_t), ("fault", FaultStruct)]
    documents: int
    bytes_read: int
    fault: FaultStruct


class DocumentsWalk(ctypes.Structure):
    """Lays out struct lughemra_documents_walk."""

    _fields_ = [
        ("documents", c_size_t),
        ("bytes_read", c_size_t),
        ("elements", c_size_t),
        ("sizes", c_size_t),
        ("fault", FaultStruct),
    ]
    documents: int
    bytes_read: int
    elements: int
    sizes: int
    fault: FaultStruct


class MessageCheck(ctypes.Structure):
    """Lays out struct lughemra_message_check."""

    _fields_ = [("fault", FaultStruct), ("document_fault", FaultStruct)]
    fault: FaultStruct
    document_fault: FaultStruct


class MessagesCheck(ctypes.Structure):
    """Lays out struct lughemra_messages_check."""

    _fields_ = [
        ("messages", c_size_t),
        ("bytes_read", c_size_t),
        ("fault", FaultStruct),
        ("document_fault", FaultStruct),
    ]
    messages: int
    bytes_read: int
    fault: FaultStruct
    document_fault: FaultStruct


class MessageFront(ctypes.Structure):
    """Lays out struct lughemra_message_front."""

    _fields_ = [
        ("state", c_uint32),
        ("length", c_size_t),
        ("fault", FaultStruct),
        ("document_fault", FaultStruct),
    ]
    state: int
    length: int
    fault: FaultStruct
    document_fault: FaultStruct


class MessageParts(ctypes.Structure):
    """Lays out struct lughemra_message_parts."""

    _fields_ = [
        ("fault", FaultStruct),
        ("document_fault", FaultStruct),
        ("id", c_int32),
        ("response_to", c_int32),
        ("flag_bits", c_uint32),
        ("more_to_come", c_bool),
        ("exhaust_allowed", c_bool),
        ("sections", c_size_t),
    ]
    fault: FaultStruct
    document_fault: FaultStruct
    id: int
    response_to: int
    flag_bits: int
    more_to_come: bool
    exhaust_allowed: bool
    sections: int


class Section(ctypes.Structure):
    """Lays out struct lughemra_section."""

    _fields_ = [("kind", c_uint32), ("identifier", View), ("documents", View), ("next", c_size_t)]
    kind: int
    identifier: View
    documents: View
    next: int


class Iter(ctypes.Structure):
    """Lays out struct lughemra_iter."""

    _fields_ = [("start", c_size_t), ("at", c_size_t), ("end", c_size_t), ("depth", c_uint32)]
    start: int
    at: int
    end: int
    depth: int


class First(ctypes.Structure):
    """Lays out struct lughemra_first."""

    _anonymous_ = ("fault",)
    _fields_ = [("fault", FaultStruct), ("iter", Iter)]
    number: int
    offset: int
    iter: Iter


class Timestamp(ctypes.Structure):
    """Lays out `timestamp` of struct lughemra_element."""

    _fields_ = [("increment", c_uint32), ("seconds", c_uint32)]


class Value(ctypes.Union):
    """Lays out `value` of struct lughemra_element."""

    _anonymous_ = ("timestamp",)
    _fields_ = [("integer", c_int64), ("real", c_double), ("timestamp", Timestamp), ("bits", c_uint64)]


class Element(ctypes.Structure):
    """Lays out struct lughemra_element; a view's two numbers are fields of it, which are read sooner."""

    _anonymous_ = ("fault", "value")
    _fields_ = [
        ("fault", FaultStruct),
        ("kind", c_uint32),
        ("subtype", c_uint32),
        ("value", Value),
        ("name_at", c_size_t),
        ("name_length", c_size_t),
        ("text_at", c_size_t),
        ("text_length", c_size_t),
        ("bytes_at", c_size_t),
        ("bytes_length", c_size_t),
    ]


class Step(ctypes.Structure):
    """Holds an iterator and the element that it read last."""

    _anonymous_ = ("element",)
    _fields_ = [("iter", Iter), ("element", Element)]
    iter: Iter
    number: int
    offset: int
    kind: int
    subtype: int
    integer: int
    real: float
    seconds: int
    increment: int
    name_at: int
    name_length: int
    text_at: int
    text_length: int
    bytes_at: int
    bytes_length: int


class Text(ctypes.Structure):
    """Lays out struct lughemra_text."""

    _anonymous_ = ("fault",)
    _fields_ = [("fault", FaultStruct), ("length", c_size_t), ("written", c_bool)]
    number: int
    offset: int
    length: int
    written: bool


class Builder(ctypes.Structure):
    """Lays out struct lughemra_builder."""

    _fields_ = [
        ("start", c_size_t),
        ("end", c_size_t),
        ("count", c_size_t),
        ("depth", c_uint32),
        ("kind", c_uint32),
    ]
    start: int
    end: int
    count: int
    depth: int
    kind: int


class Numbers(ctypes.Structure):
    """Lays out struct lughemra_value."""

    _fields_ = [("kind", c_uint32), ("subtype", c_uint32), ("bits", c_uint64)]
    kind: int
    subtype: int
    bits: int


class Built(ctypes.Structure):
    """Lays out struct lughemra_built."""

    _fields_ = [("refusal", c_uint32), ("wanted", c_size_t)]
    refusal: int
    wanted: int


class MessageNumbers(ctypes.Structure):
    """Lays out struct lughemra_message_numbers."""

    _fields_ = [("id", c_int32), ("response_to", c_int32), ("flag_bits", c_uint32)]
    id: int
    response_to: int
    flag_bits: int


class Written(ctypes.Structure):
    """Lays out struct lughemra_written."""

    _fields_ = [
        ("fault", FaultStruct),
        ("document_fault", FaultStruct),
        ("length", c_size_t),
        ("written", c_bool),
    ]
    fault: FaultStruct
    document_fault: FaultStruct
    length: int
    written: bool


class Core(ctypes.Structure):
    """Lays out struct lughemra_core, which begins without a core."""

    _fields_ = [("at", c_void_p), ("there", c_bool)]


class CallMade(ctypes.Structure):
    """Lays out struct lughemra_call_made."""

    _fields_ = [
        ("refusal", c_uint32),
        ("id", c_int32),
        ("number", c_uint64),
        ("fault", FaultStruct),
        ("document_fault", FaultStruct),
    ]
    refusal: int
    id: int
    number: int
    fault: FaultStruct
    document_fault: FaultStruct


class Output(ctypes.Structure):
    """Lays out struct lughemra_output."""

    _fields_ = [("refusal", c_uint32), ("copied", c_size_t), ("waiting", c_size_t)]
    refusal: int
    copied: int
    waiting: int


class Reply(ctypes.Structure):
    """Lays out struct lughemra_reply."""

    _fields_ = [("refusal", c_uint32), ("last", c_bool), ("call", c_uint64), ("length", c_size_t)]
    refusal: int
    last: bool
    call: int
    length: int


class ClientState(ctypes.Structure):
    """Lays out struct lughemra_client."""

    _fields_ = [
        ("refusal", c_uint32),
        ("cause", c_uint32),
        ("id", c_int32),
        ("ready", c_bool),
        ("fault", FaultStruct),
        ("document_fault", FaultStruct),
    ]
    refusal: int
    cause: int
    id: int
    ready: bool
    fault: FaultStruct
    document_fault: FaultStruct


class Fed(ctypes.Structure):
    """Lays out struct lughemra_fed."""

    _fields_ = [("refusal", c_uint32), ("taken", c_size_t), ("state", ClientState)]
    refusal: int
    taken: int
    state: ClientState


class Count(ctypes.Structure):
    """Lays out struct lughemra_count."""

    _fields_ = [("refusal", c_uint32), ("count", c_size_t)]
    refusal: int
    count: int


class ServerState(ctypes.Structure):
    """Lays out struct lughemra_server."""

    _fields_ = [
        ("refusal", c_uint32),
        ("cause", c_uint32),
        ("full", c_bool),
        ("waiting", c_size_t),
        ("fault", FaultStruct),
        ("document_fault", FaultStruct),
    ]
    refusal: int
    cause: int
    full: bool
    waiting: int
    fault: FaultStruct
    document_fault: FaultStruct


class ServerFed(ctypes.Structure):
    """Lays out struct lughemra_server_fed."""

    _fields_ = [("refusal", c_uint32), ("taken", c_size_t), ("state", ServerState)]
    refusal: int
    taken: int
    state: ServerState


class RequestCopied(ctypes.Structure):
    """Lays out struct lughemra_request."""

    _fields_ = [("refusal", c_uint32), ("takes_more", c_bool), ("length", c_size_t)]
    refusal: int
    takes_more: bool
    length: int


class AnswerGiven(ctypes.Structure):
    """Lays out struct lughemra_answer_given."""

    _fields_ = [("refusal", c_uint32), ("fault", FaultStruct), ("document_fault", FaultStruct)]
    refusal: int
    fault: FaultStruct
    document_fault: FaultStruct


class CheckedOut(ctypes.Structure):
    """Lays out struct lughemra_checked_out."""

    _fields_ = [("refusal", c_uint32), ("is_new", c_bool), ("id", c_uint64)]
    refusal: int
    is_new: bool
    id: int


class CheckedIn(ctypes.Structure):
    """Lays out struct lughemra_checked_in."""

    _fields_ = [("refusal", c_uint32), ("kept", c_bool)]
    refusal: int
    kept: bool


# Each function of the library, with what it returns.
FUNCTIONS: dict[str, Optional[type]] = {
    "check_document": FaultStruct,
    "is_canonical": c_bool,
    "check_documents": DocumentsCheck,
    "walk_documents": DocumentsWalk,
    "check_message": MessageCheck,
    "check_messages": MessagesCheck,
    "message_front": MessageFront,
    "message_parts": MessageParts,
    "section": Section,
    "next_document": None,
    "dump": Text,
    "json": Text,
    "pickle": Text,
    "canonical": Text,
    "first": First,
    "next": None,
    "next_elements": c_size_t,
    "find": None,
    "get": None,
    "enter": Iter,
    "append": Built,
    "begin": Built,
    "end": Built,
    "finish": Built,
    "append_sequence": Built,
    "write_message": Written,
    "client_new": c_uint32,
    "free": c_uint32,
    "client_call": CallMade,
    "client_call_exhaust": CallMade,
    "client_send_unacknowledged": CallMade,
    "client_output": Output,
    "client_sent": c_uint32,
    "client_feed": Fed,
    "client_reply": Reply,
    "client_release": c_uint32,
    "client_end": c_uint32,
    "client_state": ClientState,
    "client_outstanding": Count,
    "server_new": c_uint32,
    "server_feed": ServerFed,
    "server_request": RequestCopied,
    "server_answer": AnswerGiven,
    "server_output": Output,
    "server_sent": c_uint32,
    "server_end": c_uint32,
    "server_state": ServerState,
    "pool_new": c_uint32,
    "pool_check_out": CheckedOut,
    "pool_check_in": CheckedIn,
    "pool_clear": c_uint32,
    "pool_close": c_uint32,
}


class Functions:
    """Holds the functions of the library, each under its name without `lughemra_` and `_nonnull`."""

    def __init__(self, library: ctypes.CDLL) -> None:
        for name, returned in FUNCTIONS.items():
            function = library[f"lughemra_{name}_nonnull"]
            function.restype = returned
            setattr(self, name, function)
        self.build = library["lughemra_build"]
        self.build.restype = Builder

    def __getattr__(self, name: str) -> Any:
        raise AttributeError(name)


def places() -> list[str]:
    """Returns where the shared object is looked for, in this order."""
    told = os.environ.get(VARIABLE)
    if told:
        return [told]
    beside = pathlib.Path(__file__).resolve().parent / SONAME
    return ([str(beside)] if beside.exists() else []) + [SONAME]


def load() -> tuple[str, Functions, Functions]:
    """Loads the shared object. Returns where it is, and its functions, those that hold the lock first."""
    failures = []
    for place in places():
        try:
            return place, Functions(ctypes.PyDLL(place)), Functions(ctypes.CDLL(place))
        except (OSError, AttributeError) as failure:
            failures.append(str(failure))
    raise LibraryNotFound(
        f"the shared object of lughemra can't be loaded: {'; '.join(failures)}. {VARIABLE} may name it, {SONAME} may stand beside"
        f" {__file__}, or the system's loader may know {SONAME}. scripts/tools/build-c-library --prefix DIR of the repository"
        f" writes DIR/lib/{SONAME}"
    )


PATH, short, long = load()

# Make arguments: of a limit, and of a truth value.
limit_of = functools.lru_cache(64)(c_uint32.from_param)
FALSE, TRUE = c_bool.from_param(False), c_bool.from_param(True)
address_of = ctypes.byref
OFFSET_OF_ELEMENT = Step.element.offset


def functions_for(kept: Any) -> Functions:
    """Returns the functions by which to read what may be long: those that let go of the lock, if no one can write to it."""
    return long if type(kept) is bytes else short


# A step, and the addresses of its iterator and of its element as arguments.
Cursor = tuple[Step, Any, Any]

# Cursors that no one uses. Each is used by one walk at a time, in one thread, and comes back when that has ended.
spare: list[Cursor] = []


def cursor() -> Cursor:
    """Returns a cursor that no one uses."""
    try:
        return spare.pop()
    except IndexError:
        return new_cursor()


def new_cursor() -> Cursor:
    """Returns a cursor of its own."""
    step = Step()
    return step, ctypes.byref(step), ctypes.byref(step, OFFSET_OF_ELEMENT)
