"""What is raised: the faults of documents and messages, by the numbers and names of lughemra.h."""

from __future__ import annotations

from typing import Any, Optional

DOCUMENT_FAULTS = {
    1: "Truncated",
    2: "Length",
    3: "End",
    4: "Kind",
    5: "Name",
    6: "Text",
    7: "TextEnd",
    8: "Boolean",
    9: "OldBinary",
    10: "Scope",
    11: "Depth",
    255: "OutOfRange",
}
# The numbers of a length that isn't the document's, and of a text that is no UTF-8.
LENGTH_FAULT, TEXT_FAULT = 2, 6
MESSAGE_FAULTS = {
    1: "Length",
    2: "Opcode",
    3: "Flags",
    4: "Checksum",
    5: "SectionKind",
    6: "SectionSize",
    7: "Document",
    8: "NoBody",
    9: "TwoBodies",
    10: "RepeatedField",
    11: "SequenceName",
    12: "SequenceInBody",
    13: "Truncated",
    14: "EndedInside",
    255: "LimitTooLarge",
}


class LibraryNotFound(ImportError):
    """Tells that the shared object isn't there, or that it lacks a function of this version."""


class Fault(ValueError):
    """Tells the first fault of some bytes.

    `number` and `name` are those of lughemra.h. `offset` is counted from the first byte of what was handed in, for a
    document inside another one too. Of a check of several documents or messages, `whole` tells how many of them stand
    before the fault, and `bytes_read` how many bytes these take.
    """

    NAMES: dict[int, str] = {}

    def __init__(self, number: int, offset: int, whole: int = 0, bytes_read: int = 0) -> None:
        super().__init__(number, offset, whole, bytes_read)
        self.number = number
        self.name = self.NAMES.get(number, "")
        self.offset = offset
        self.whole = whole
        self.bytes_read = bytes_read

    def __str__(self) -> str:
        return f"{self.name} at {self.offset}"


class DocumentError(Fault):
    """Tells the first fault of a document."""

    NAMES = DOCUMENT_FAULTS


class EncodeError(ValueError):
    """Tells why a document isn't written, by the numbers and names of enum lughemra_refusal."""

    KIND, NAME, VALUE, DEPTH, ROOM = 1, 2, 3, 4, 5
    NAMES = {
        KIND: "BadKind",
        NAME: "BadName",
        VALUE: "BadValue",
        DEPTH: "TooDeep",
        253: "TooLarge",
        255: "OutOfRange",
    }

    def __init__(self, number: int, words: str = "") -> None:
        super().__init__(number, words)
        self.number = number
        self.name = self.NAMES.get(number, "")
        self.words = words

    def __str__(self) -> str:
        return f"{self.name}: {self.words}" if self.words else self.name


class MessageError(Fault):
    """Tells the first fault of a message.

    `document` is the fault of the document inside the message, if that is why the message was refused. Its own offset is
    counted from the first byte of this document, which stands at `offset`.
    """

    NAMES = MESSAGE_FAULTS

    def __init__(
        self,
        number: int,
        offset: int,
        whole: int = 0,
        bytes_read: int = 0,
        document: Optional[DocumentError] = None,
    ) -> None:
        super().__init__(number, offset, whole, bytes_read)
        self.args = (number, offset, whole, bytes_read, document)
        self.document = document

    def __str__(self) -> str:
        return f"{super().__str__()}: {self.document}" if self.document else super().__str__()


def _message_fault(told: Any, whole: int = 0, bytes_read: int = 0) -> MessageError:
    """Returns the fault of a message that a function of the library tells."""
    fault, inside = told.fault, told.document_fault
    document = DocumentError(inside.number, inside.offset) if inside.number else None
    return MessageError(fault.number, fault.offset, whole, bytes_read, document)


def fault_of(told: Any) -> Optional[MessageError]:
    """Returns the fault of a message that a function of the library tells, if it does."""
    return _message_fault(told) if told.fault.number else None


def raise_fault(told: Any, whole: int = 0, bytes_read: int = 0) -> None:
    """Raises the fault of a message that a function of the library tells, if it does."""
    if told.fault.number:
        # No name has it here: that would hold the frame, which the fault holds, until the collector comes.
        raise _message_fault(told, whole, bytes_read)


class CallRefused(RuntimeError):
    """Tells why a call isn't made, by the numbers and names of enum lughemra_core_refusal. Nothing changed then."""

    CLOSED, WINDOW_FULL, TOO_LARGE, NUMBERS_SPENT, TOO_MANY, BAD_COUNT = 1, 2, 3, 6, 8, 10
    POOL_FULL, NOT_LENT, NO_CORE = 11, 12, 255
    NAMES = {
        CLOSED: "Closed",
        WINDOW_FULL: "WindowFull",
        TOO_LARGE: "TooLarge",
        NUMBERS_SPENT: "NumbersSpent",
        TOO_MANY: "TooMany",
        BAD_COUNT: "BadCount",
        POOL_FULL: "PoolFull",
        NOT_LENT: "NotLent",
        NO_CORE: "NoCore",
    }

    def __init__(self, number: int) -> None:
        super().__init__(number)
        self.number = number
        self.name = self.NAMES.get(number, "")

    def __str__(self) -> str:
        return self.name


class Closed(ConnectionError):
    """Tells why an end of a connection was closed, by the numbers and names of lughemra.h.

    `fault` is the fault of the message that closed it, whose offset is counted from the first byte of that message, and
    `response_to` the number that no call bears, if these are why.
    """

    NAMES: dict[int, str] = {}

    def __init__(
        self, number: int, response_to: Optional[int] = None, fault: Optional[MessageError] = None
    ) -> None:
        # OSError would take the number for an errno.
        super().__init__()
        self.args = (number, response_to, fault)
        self.number = number
        self.name = self.NAMES.get(number, "")
        self.response_to = response_to
        self.fault = fault

    def __str__(self) -> str:
        if self.fault:
            return f"{self.name}: {self.fault}"
        return f"{self.name}: {self.response_to}" if self.response_to is not None else self.name


class ClientClosed(Closed):
    """Tells why a client was closed, by enum lughemra_client_cause."""

    MESSAGE, UNKNOWN_REPLY, MORE_NOT_ALLOWED, STREAM_BROKEN, ENDED, ENDED_INSIDE = 1, 2, 3, 4, 5, 6
    NAMES = {
        MESSAGE: "Message",
        UNKNOWN_REPLY: "UnknownReply",
        MORE_NOT_ALLOWED: "MoreNotAllowed",
        STREAM_BROKEN: "StreamBroken",
        ENDED: "Ended",
        ENDED_INSIDE: "EndedInside",
    }


class ServerClosed(Closed):
    """Tells why a server was closed, by enum lughemra_server_cause."""

    MESSAGE, ENDED, ENDED_INSIDE, REPLY_TOO_LARGE, NO_MEMORY = 1, 5, 6, 7, 8
    NAMES = {
        MESSAGE: "Message",
        ENDED: "Ended",
        ENDED_INSIDE: "EndedInside",
        REPLY_TOO_LARGE: "ReplyTooLarge",
        NO_MEMORY: "NoMemory",
    }
