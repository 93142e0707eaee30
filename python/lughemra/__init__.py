"""Reads and writes BSON 1.1 documents and messages of OP_MSG, over the C library of Lughemra, in which all bytes are checked and read by
functions that are proved to meet their contracts.

    >>> import lughemra
    >>> document = lughemra.Document(bytes.fromhex("160000000268656c6c6f0006000000776f726c640000"))
    >>> document["hello"]
    'world'

docs/PYTHON.md tells what there is, and what of it is proved.
"""

from ._library import MAX_LIMIT, Buffer
from ._library import PATH as LIBRARY_PATH
from .checks import DocumentsWalk, check, check_documents, documents, is_canonical, walk_documents
from .client import Call, Client, Reply
from .document import Array, Document, Element, Value
from .errors import CallRefused, ClientClosed, Closed, DocumentError, EncodeError, Fault, LibraryNotFound, MessageError, ServerClosed
from .message import DocumentSequence, Flags, Header, Message, Reader, check_message, check_messages
from .pool import Lent, Pool
from .server import Request, Server
from .values import (
    Binary,
    Code,
    DatetimeMS,
    DBPointer,
    Decimal128,
    Int64,
    Kind,
    MaxKey,
    MinKey,
    ObjectId,
    Regex,
    Symbol,
    Timestamp,
    Undefined,
)
from .writer import AnyDocument, Sequences, encode, encode_message

__version__ = "0.1.0"

__all__ = [
    "AnyDocument",
    "Array",
    "Binary",
    "Buffer",
    "Call",
    "CallRefused",
    "Client",
    "ClientClosed",
    "Closed",
    "Code",
    "DBPointer",
    "DatetimeMS",
    "Decimal128",
    "Document",
    "DocumentError",
    "DocumentSequence",
    "DocumentsWalk",
    "Element",
    "EncodeError",
    "Fault",
    "Flags",
    "Header",
    "Int64",
    "Kind",
    "LIBRARY_PATH",
    "Lent",
    "LibraryNotFound",
    "MAX_LIMIT",
    "MaxKey",
    "Message",
    "MessageError",
    "MinKey",
    "ObjectId",
    "Pool",
    "Reader",
    "Regex",
    "Reply",
    "Request",
    "Sequences",
    "Server",
    "ServerClosed",
    "Symbol",
    "Timestamp",
    "Undefined",
    "Value",
    "check",
    "check_documents",
    "check_message",
    "check_messages",
    "documents",
    "encode",
    "encode_message",
    "is_canonical",
    "walk_documents",
]
